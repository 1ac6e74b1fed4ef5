//! Document 01, "The cage file": writing, which takes no creases and no weight;
//! document 02, §7, "Form 2 files": writing with both.

use super::fields::{weight_byte, NO_TWIN};
use super::{Field, Form, Tag};
use crate::cage::Cage;
use crate::check::{check, check_without_creases};
use crate::refusal::{Refusal, ROOM};
use crate::weight::Weight;

/// The place of the file buffer in refusal 9.
const FILE_PLACE: usize = 5;

/// Writes a file of form 1 to the front of a lent buffer: refusals 1 to 9, or the
/// file's length. The crease table of the cage is not looked at.
pub fn write_cage_file(cage: &Cage, lent: &mut [u8]) -> Result<u64, Refusal> {
    check_without_creases(cage)?;
    lay(&fields_of(Form::One, cage, Weight::Short), lent)
}

/// Writes a file of form 2 to the front of a lent buffer: refusals 1 to 9 and 15,
/// or the file's length.
pub fn write_form_2_file(cage: &Cage, weight: Weight, lent: &mut [u8]) -> Result<u64, Refusal> {
    check(cage)?;
    lay(&fields_of(Form::Two, cage, weight), lent)
}

/// Lays fields one after the other: refusal 9, or how many bytes they are.
fn lay(fields: &[Field], lent: &mut [u8]) -> Result<u64, Refusal> {
    let file: Vec<u8> = fields.iter().flat_map(Field::bytes).collect();
    let part = lent
        .get_mut(..file.len())
        .ok_or(Refusal::new(ROOM, FILE_PLACE))?;
    part.copy_from_slice(&file);
    Ok(file.len() as u64)
}

/// The fields of the file of a cage that keeps every rule. Those of any other cage
/// hold its tables as they are, with 65535 for a number that has no room in 16
/// bits.
pub(crate) fn fields_of(form: Form, cage: &Cage, weight: Weight) -> Vec<Field> {
    let field = |&tag: &Tag| {
        let payload = match tag {
            Tag::First => first_payload(form, cage),
            Tag::Twin => u16_numbers(&cage.twin),
            Tag::Vert => u16_numbers(&cage.vert),
            Tag::Edge => u16_numbers(&cage.edge),
            Tag::Creases => cage.creases.clone(),
            Tag::Points => cage.points.iter().flat_map(|c| c.to_le_bytes()).collect(),
            Tag::Weight => vec![weight_byte(weight)],
            Tag::End => Vec::new(),
        };
        Field::new(tag, payload)
    };
    form.tags().iter().map(field).collect()
}

/// The form, then H and V.
fn first_payload(form: Form, cage: &Cage) -> Vec<u8> {
    let counts = [cage.halfedge_count(), cage.vertex_count()].map(|count| count as u32);
    u16_numbers(&[form.number().into(), counts[0], counts[1]])
}

/// In a cage that keeps every rule only the marker is too large for u16.
fn u16_numbers(cells: &[u32]) -> Vec<u8> {
    cells
        .iter()
        .map(|&cell| u16::try_from(cell).unwrap_or(NO_TWIN))
        .flat_map(u16::to_le_bytes)
        .collect()
}
