//! Document 01, "The cage file": reading, front to back; document 02, §7, "Form
//! 2 files": reading either form. As its §6 has it, a file of form 1 counts as all
//! zeros, of which nothing is written.

use super::fields::{weight_byte, Counts, NO_TWIN};
use super::{Form, Tag, HEAD_LENGTH};
use crate::cage::{Cage, MARKER};
use crate::check::check_twins;
use crate::reason::Reason;
use crate::refusal::{refuse_if, Refusal, EXTRA, FIELD, SHAPE, SHORT};
use crate::size::{makes_triangles, refuse_above_limits};
use crate::tables::LentTables;
use crate::weight::Weight;

/// The form, H, V, E and the weight of a file that was read. For form 1, E and
/// the weight are 0.
#[derive(Clone, Copy, Debug, PartialEq, Eq)]
pub struct FileCounts {
    pub form: u64,
    pub halfedges: u64,
    pub vertices: u64,
    pub edges: u64,
    pub weight: u64,
}

/// What a file holds. In form 1 that is a 0 for each edge, and the short weight.
#[derive(Clone, Debug, PartialEq, Eq)]
pub struct FileCage {
    pub form: Form,
    pub cage: Cage,
    pub weight: Weight,
}

impl FileCage {
    fn counts(&self) -> FileCounts {
        FileCounts {
            form: self.form.number().into(),
            halfedges: self.cage.halfedge_count() as u64,
            vertices: self.cage.vertex_count() as u64,
            edges: match self.form {
                Form::One => 0,
                Form::Two => self.cage.creases.len() as u64,
            },
            weight: weight_byte(self.weight).into(),
        }
    }
}

/// Reads a cage file into lent tables: refusals 1, 2 and 9 to 12, for form 2 with
/// 3. The crease table is lent to form 2 alone.
pub fn read_cage_file(file: &[u8], lent: &mut LentTables) -> Result<FileCounts, Refusal> {
    let read = read_cage(file)?;
    let counts = read.counts();
    lent.refuse_without_room(counts.halfedges, counts.vertices)?;
    lent.refuse_without_crease_room(counts.edges)?;
    lent.lay(&read.cage, 0, 0);
    if read.form == Form::Two {
        lent.lay_creases(&read.cage, 0);
    }
    Ok(counts)
}

/// Reads a cage file where room is no question: refusals 1, 2 and 10 to 12, for
/// form 2 with 3.
pub fn read_cage(file: &[u8]) -> Result<FileCage, Refusal> {
    Ok(read_cage_with_reason(file)?)
}

/// Reads a cage file as [`read_cage`] does, and also tells the clause of 3.
pub(crate) fn read_cage_with_reason(file: &[u8]) -> Result<FileCage, Reason> {
    read_cage_of(&[Form::One, Form::Two], file)
}

/// Reads a cage file of one of these forms; any other form is refused by 11.
pub(super) fn read_cage_of(forms: &[Form], file: &[u8]) -> Result<FileCage, Reason> {
    let mut fields = Fields::of(file);
    let form = fields.first(forms)?;
    let tables = Cage {
        twin: fields.u16_numbers(Tag::Twin)?.map(twin_cell).collect(),
        vert: fields.u16_numbers(Tag::Vert)?.map(u32::from).collect(),
        edge: fields.u16_numbers(Tag::Edge)?.map(u32::from).collect(),
        ..Cage::default()
    };
    let creases = match form {
        Form::One => vec![0; tables.edge_count()],
        Form::Two => fields.creases(&tables)?,
    };
    let points = fields.points()?;
    let weight = match form {
        Form::One => Weight::Short,
        Form::Two => fields.weight()?,
    };
    fields.end()?;
    let cage = Cage {
        points,
        creases,
        ..tables
    };
    Ok(FileCage { form, cage, weight })
}

fn twin_cell(number: u16) -> u32 {
    if number == NO_TWIN {
        MARKER
    } else {
        number.into()
    }
}

/// The fields not yet read, the offset at which they start, and what is known by
/// now of the counts.
struct Fields<'a> {
    unread: &'a [u8],
    offset: usize,
    counts: Counts,
}

impl<'a> Fields<'a> {
    fn of(file: &'a [u8]) -> Fields<'a> {
        Fields {
            unread: file,
            offset: 0,
            counts: Counts::default(),
        }
    }

    /// Takes the next field, which must have this tag and the length that goes
    /// with it.
    fn payload(&mut self, tag: Tag) -> Result<&'a [u8], Refusal> {
        let length = tag.length(self.counts);
        let short = Refusal::new(SHORT, self.offset);
        let (head, rest) = self
            .unread
            .split_first_chunk::<HEAD_LENGTH>()
            .ok_or(short)?;
        let [stored_tag, low, high] = *head;
        let stored_length = usize::from(u16::from_le_bytes([low, high]));
        let as_expected = stored_tag == tag as u8 && stored_length == length;
        refuse_if(!as_expected, FIELD, self.offset)?;
        let (payload, rest) = rest.split_at_checked(length).ok_or(short)?;
        self.unread = rest;
        self.offset += HEAD_LENGTH + length;
        Ok(payload)
    }

    /// Takes a field of u16 numbers.
    fn u16_numbers(&mut self, tag: Tag) -> Result<impl Iterator<Item = u16> + 'a, Refusal> {
        let (numbers, _) = self.payload(tag)?.as_chunks::<2>();
        Ok(numbers.iter().map(|&bytes| u16::from_le_bytes(bytes)))
    }

    /// Takes the first field: the form, which must be one of these, then H and V.
    fn first(&mut self, forms: &[Form]) -> Result<Form, Refusal> {
        let mut numbers = self.u16_numbers(Tag::First)?;
        let [number, h, v] = [(); 3].map(|()| numbers.next().unwrap_or_default());
        let form = forms.iter().find(|form| form.number() == number);
        let form = form.ok_or(Refusal::new(FIELD, 0))?;
        refuse_if(!makes_triangles(h.into()), SHAPE, 0)?;
        refuse_above_limits(h.into(), v.into(), 0)?;
        self.counts.halfedges = h.into();
        self.counts.vertices = v.into();
        Ok(*form)
    }

    /// Takes the creases, one for each edge of the twins just read. Check 3 comes
    /// before their head is looked at.
    fn creases(&mut self, tables: &Cage) -> Result<Vec<u8>, Reason> {
        check_twins(tables)?;
        self.counts.edges = tables.edge_count();
        Ok(self.payload(Tag::Creases)?.to_vec())
    }

    /// Takes the points.
    fn points(&mut self) -> Result<Vec<i32>, Refusal> {
        let (coordinates, _) = self.payload(Tag::Points)?.as_chunks::<4>();
        Ok(coordinates
            .iter()
            .map(|&bytes| i32::from_le_bytes(bytes))
            .collect())
    }

    /// Takes the weight. A byte that stands for none is refused at the head.
    fn weight(&mut self) -> Result<Weight, Refusal> {
        let head = self.offset;
        let payload = self.payload(Tag::Weight)?;
        let mut weights = [Weight::Short, Weight::Paper].into_iter();
        let weight = weights.find(|&weight| payload == [weight_byte(weight)]);
        weight.ok_or(Refusal::new(FIELD, head))
    }

    /// Takes the end field, after which nothing may come.
    fn end(&mut self) -> Result<(), Refusal> {
        self.payload(Tag::End)?;
        refuse_if(!self.unread.is_empty(), EXTRA, self.offset)
    }
}
