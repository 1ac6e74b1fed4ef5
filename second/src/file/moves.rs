//! Document 02, §7, "Form 2 files": the moves from form 1 to form 2 and back.

use super::read::read_cage_of;
use super::{write_cage_file, write_form_2_file, FileCage, Form};
use crate::check::check;
use crate::refusal::{refuse_if, Refusal, NOT_OLD};
use crate::weight::Weight;

/// Writes a file of form 1 as one of form 2 to the front of a lent buffer, with a
/// 0 for each edge and weight 0: reading's refusals but 9, those of the cage
/// check, then 9 for the buffer; or the length of the new file.
pub fn to_form_2(file: &[u8], lent: &mut [u8]) -> Result<u64, Refusal> {
    let old = read_cage_of(&[Form::One], file)?;
    write_form_2_file(&old.cage, Weight::Short, lent)
}

/// Writes a file of form 2 as one of form 1, as [`to_form_2`] does the other way.
/// The move exists "exactly for cages whose crease numbers and weight are all 0":
/// any other is refused by 16, after the cage check and before 9.
pub fn to_form_1(file: &[u8], lent: &mut [u8]) -> Result<u64, Refusal> {
    let new = read_cage_of(&[Form::Two], file)?;
    check(&new.cage)?;
    refuse_if(!is_old(&new), NOT_OLD, 0)?;
    write_cage_file(&new.cage, lent)
}

/// Whether form 1 has room for all that the file holds.
fn is_old(file: &FileCage) -> bool {
    file.weight == Weight::Short && file.cage.creases.iter().all(|&number| number == 0)
}
