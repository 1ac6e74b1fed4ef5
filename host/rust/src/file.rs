//! Document 01, "The cage file", and document 02, "Form 2 files": reading either
//! form, writing either, and moving a file from one to the other.

use crate::cage::{HALFEDGE_LIMIT, VERTEX_LIMIT};
use crate::creases::no_creases;
use crate::operations::{refuse, written};
use crate::{sys, Cage, LentTables, OwnedCage, Refusal, Weight};

/// The bytes of the longest cage file of form 1 that is read.
pub const LONGEST_FORM_1: usize = 24 + 6 * HALFEDGE_LIMIT + 12 * VERTEX_LIMIT;

/// The bytes of the longest cage file of form 2 that is read: no halfedge has a
/// twin, so that there are as many edges.
pub const LONGEST_FORM_2: usize = LONGEST_FORM_1 + 7 + HALFEDGE_LIMIT;

/// The bytes of the longest cage file that is read.
pub const LONGEST_FILE: usize = LONGEST_FORM_2;

/// The form of a cage file.
#[derive(Clone, Copy, Debug, PartialEq, Eq)]
pub enum Form {
    /// The file has no place for creases or a weight: its cage has none, and the
    /// short one.
    One = 1,
    /// The file has a crease for each edge, and a weight.
    Two = 2,
}

/// What a file that was read has, besides the tables.
#[derive(Clone, Copy, Debug, PartialEq, Eq)]
pub struct FileCounts {
    /// The file's form.
    pub form: Form,
    /// H.
    pub halfedges: u32,
    /// V.
    pub vertices: u32,
    /// E, which is how many creases were read: 0 for form 1.
    pub edges: u32,
    /// The weight to refine with: the short one for form 1.
    pub weight: Weight,
}

/// Reading a cage file of either form to the front of the lent tables. Cells past
/// H, past 3V in the points and past [`FileCounts::edges`] in the creases are
/// untouched, so that form 1 leaves all lent creases as they were. Gives refusals
/// 1, 2 and 9 to 12, and for form 2 also 3, once EDGE is whole and before the
/// creases are looked at. No other check is run. [`CageFile::read`] allocates.
pub fn read(file: &[u8], lent: &mut LentTables<'_>) -> Result<FileCounts, Refusal> {
    let mut answer = [0; sys::READ_ANSWER];
    sys::read(file, lent, &mut answer);
    let [number, place, form, halfedges, vertices, edges, weight] = answer;
    refuse(number, place)?;
    Ok(FileCounts {
        form: match form {
            1 => Form::One,
            _ => Form::Two,
        },
        halfedges,
        vertices,
        edges,
        weight: match weight {
            0 => Weight::Short,
            _ => Weight::Paper,
        },
    })
}

/// Writing a cage file of form 1 to the front of the lent buffer; its length is
/// returned, 24 + 6H + 12V. Bytes past it are untouched. The form has no place
/// for creases: they are not looked at. Gives refusals 1 to 9. [`Cage::to_file`]
/// allocates.
pub fn write(cage: Cage<'_>, lent_file: &mut [u8]) -> Result<usize, Refusal> {
    let mut answer = [0; sys::WRITE_ANSWER];
    sys::write(cage, lent_file, &mut answer);
    written(answer)
}

/// Writing a cage file of form 2, with the cage's creases and a weight, to the
/// front of the lent buffer; its length is returned, 31 + 6H + 12V + E. Bytes past
/// it are untouched. Gives [`check`](crate::check)'s refusals in its order, and 9;
/// 14 is left to refining. [`Cage::to_form_2_file`] allocates.
pub fn write_form_2(
    cage: Cage<'_>,
    weight: Weight,
    lent_file: &mut [u8],
) -> Result<usize, Refusal> {
    let mut answer = [0; sys::WRITE_ANSWER];
    sys::write_form_2(cage, weight as u32, lent_file, &mut answer);
    written(answer)
}

/// Moving a cage file from form 1 to form 2, to the front of the lent buffer; the
/// new file's length is returned. Bytes past it are untouched. Each edge gets a
/// crease of 0, and the file the short weight. Gives [`read`]'s refusals but 9,
/// where form 2 is refused as no form is, by 11 at 0; then
/// [`check`](crate::check)'s in its order, and 9. [`moved_to_form_2`] allocates.
pub fn to_form_2(file: &[u8], lent_file: &mut [u8]) -> Result<usize, Refusal> {
    let mut answer = [0; sys::WRITE_ANSWER];
    sys::to_form_2(file, lent_file, &mut answer);
    written(answer)
}

/// Moving a cage file from form 2 back to form 1, to the front of the lent buffer;
/// the new file's length is returned. Bytes past it are untouched. Gives
/// [`to_form_2`]'s refusals, with form 1 refused in place of form 2, and before 9
/// [`Refusal::NotOld`] where a crease or the weight is not 0. [`moved_to_form_1`]
/// allocates.
pub fn to_form_1(file: &[u8], lent_file: &mut [u8]) -> Result<usize, Refusal> {
    let mut answer = [0; sys::WRITE_ANSWER];
    sys::to_form_1(file, lent_file, &mut answer);
    written(answer)
}

/// What a cage file holds.
///
/// ```
/// use ryebadger::{CageFile, Form, OwnedCage, Refined, Weight};
///
/// // Document 01's pillow, with a seam.
/// let points = [0, 0, 0, 16, 0, 0, 0, 16, 0];
/// let mut pillow = OwnedCage::from_triangles(&[0, 1, 2, 0, 2, 1], &points)?;
/// pillow.creases[0] = 3;
/// let file = pillow.as_cage().to_form_2_file(Weight::Paper)?;
///
/// let read = CageFile::read(&file)?;
/// assert_eq!((read.form, read.weight), (Form::Two, Weight::Paper));
/// assert_eq!(read.cage, pillow);
/// let refined = Refined::new(read.cage.as_cage(), 6, read.weight)?;
/// assert_eq!(refined.level(1).unwrap().points[9..12], [8, 0, 0]);
///
/// // Form 1 has neither.
/// let old = CageFile::read(&pillow.as_cage().to_file()?)?;
/// assert_eq!((old.form, old.weight), (Form::One, Weight::Short));
/// assert_eq!(old.cage.creases, [0, 0, 0]);
/// # Ok::<(), ryebadger::Refusal>(())
/// ```
#[derive(Clone, Debug, PartialEq, Eq)]
pub struct CageFile {
    /// The file's form.
    pub form: Form,
    /// The cage. It has a crease for each edge, which for form 1 is 0.
    pub cage: OwnedCage,
    /// The weight to refine with: the short one for form 1.
    pub weight: Weight,
}

impl CageFile {
    /// Reads a cage file of either form. Gives [`read`]'s refusals but 9.
    pub fn read(file: &[u8]) -> Result<CageFile, Refusal> {
        let mut cage = OwnedCage::with_room(HALFEDGE_LIMIT, VERTEX_LIMIT, HALFEDGE_LIMIT);
        let found = read(file, &mut cage.lend())?;
        let halfedges = found.halfedges as usize;
        cage.twin.truncate(halfedges);
        cage.vert.truncate(halfedges);
        cage.edge.truncate(halfedges);
        cage.points.truncate(3 * found.vertices as usize);
        match found.form {
            Form::One => cage.creases = no_creases(&cage.twin),
            Form::Two => cage.creases.truncate(found.edges as usize),
        }
        Ok(CageFile {
            form: found.form,
            cage,
            weight: found.weight,
        })
    }
}

impl Cage<'_> {
    /// The cage file of form 1 of this cage. The form has no place for creases:
    /// they are not looked at. Gives refusals 1 to 8.
    pub fn to_file(self) -> Result<Vec<u8>, Refusal> {
        whole_file(LONGEST_FORM_1, |file| write(self, file))
    }

    /// The cage file of form 2 of this cage, with its creases and this weight.
    /// Gives [`check`](crate::check)'s refusals.
    pub fn to_form_2_file(self, weight: Weight) -> Result<Vec<u8>, Refusal> {
        whole_file(LONGEST_FORM_2, |file| write_form_2(self, weight, file))
    }
}

/// A cage file of form 1 as one of form 2. Gives [`to_form_2`]'s refusals but 9.
///
/// ```
/// use ryebadger::{moved_to_form_1, moved_to_form_2, OwnedCage};
///
/// let points = [0, 0, 0, 16, 0, 0, 0, 16, 0];
/// let pillow = OwnedCage::from_triangles(&[0, 1, 2, 0, 2, 1], &points)?;
/// let old = pillow.as_cage().to_file()?;
/// let new = moved_to_form_2(&old)?;
/// // Two heads more, three creases and the weight.
/// assert_eq!(new.len(), old.len() + 2 * 3 + 3 + 1);
/// assert_eq!(moved_to_form_1(&new)?, old);
///
/// let refusal = moved_to_form_2(&new).unwrap_err();
/// assert_eq!(refusal.to_string(), "refusal 11, FIELD, at place 0");
/// # Ok::<(), ryebadger::Refusal>(())
/// ```
pub fn moved_to_form_2(file: &[u8]) -> Result<Vec<u8>, Refusal> {
    whole_file(LONGEST_FORM_2, |moved| to_form_2(file, moved))
}

/// A cage file of form 2 as one of form 1, where every crease and the weight are
/// 0. Gives [`to_form_1`]'s refusals but 9.
///
/// ```
/// use ryebadger::{moved_to_form_1, OwnedCage, Refusal, Weight};
///
/// let points = [0, 0, 0, 16, 0, 0, 0, 16, 0];
/// let mut pillow = OwnedCage::from_triangles(&[0, 1, 2, 0, 2, 1], &points)?;
/// let moved = |cage: &OwnedCage, weight| {
///     let file = cage.as_cage().to_form_2_file(weight)?;
///     moved_to_form_1(&file)
/// };
/// assert_eq!(moved(&pillow, Weight::Short), pillow.as_cage().to_file());
/// assert_eq!(moved(&pillow, Weight::Paper), Err(Refusal::NotOld));
/// pillow.creases[2] = 1;
/// assert_eq!(moved(&pillow, Weight::Short), Err(Refusal::NotOld));
/// # Ok::<(), ryebadger::Refusal>(())
/// ```
pub fn moved_to_form_1(file: &[u8]) -> Result<Vec<u8>, Refusal> {
    whole_file(LONGEST_FORM_1, |moved| to_form_1(file, moved))
}

/// What is put at the front of so long a buffer.
fn whole_file(
    longest: usize,
    put: impl FnOnce(&mut [u8]) -> Result<usize, Refusal>,
) -> Result<Vec<u8>, Refusal> {
    let mut file = vec![0; longest];
    let length = put(&mut file)?;
    file.truncate(length);
    Ok(file)
}
