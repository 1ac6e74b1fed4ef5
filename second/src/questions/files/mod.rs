//! For trying what document 01 says about "The cage file", and document 02 in
//! "Form 2 files": the files of cages in both forms, and damaged ones.

mod bases;
mod cages;
mod creases;
mod draft;
mod drawn;
mod first;
mod order;
mod twins;
mod weights;

pub use drawn::drawn_files;

use crate::cage::Cage;
use crate::file::{fields_of, Field, Form, HEAD_LENGTH};
use crate::refusal::Refusal;
use crate::suite::suite;
use crate::weight::Weight;

/// A file to try.
#[derive(Clone, Debug)]
pub struct TriedFile {
    pub name: String,
    pub bytes: Vec<u8>,
}

/// A file to try, with what it has to meet where there is room.
#[derive(Clone, Debug)]
pub struct ForeseenFile {
    pub file: TriedFile,
    /// What reading refuses it for.
    pub reading: Option<Refusal>,
    /// What the move that starts from its form refuses it for. The other one gives
    /// 11 at 0 once the first field is whole.
    pub moving: Option<Refusal>,
}

/// The file of a cage in form 1. A cage that the check refuses has one too: it
/// holds the tables as they are, with 65535 for a number that has no room in 16
/// bits, and heads that tell how long they are.
pub fn form_1_file(cage: &Cage) -> Vec<u8> {
    bytes_of(&fields_of(Form::One, cage, Weight::Short))
}

/// The file of a cage in form 2 with this weight. A cage that the check refuses
/// has one as in [`form_1_file`].
pub fn form_2_file(cage: &Cage, weight: Weight) -> Vec<u8> {
    bytes_of(&fields_of(Form::Two, cage, weight))
}

fn bytes_of<'a>(fields: impl IntoIterator<Item = &'a Field>) -> Vec<u8> {
    fields.into_iter().flat_map(Field::bytes).collect()
}

/// The offset of each head in the file of a cage as [`form_1_file`] or
/// [`form_2_file`] has it, in order, and last the length of the file.
pub fn heads(form: Form, cage: &Cage) -> Vec<usize> {
    let mut heads = vec![0];
    let mut end = 0;
    for field in fields_of(form, cage, Weight::Short) {
        end += HEAD_LENGTH + field.payload.len();
        heads.push(end);
    }
    heads
}

/// The files of each cage of the suite, also of those that the check refuses: in
/// form 1, and in form 2 with either weight. They are made one by one.
pub fn suite_files() -> impl Iterator<Item = TriedFile> {
    suite().into_iter().flat_map(|entry| {
        let (name, cage) = (&entry.name, &entry.cage);
        let file = |kind: &str, bytes| TriedFile {
            name: format!("{name}-{kind}"),
            bytes,
        };
        [
            file("form-1", form_1_file(cage)),
            file("form-2-short", form_2_file(cage, Weight::Short)),
            file("form-2-paper", form_2_file(cage, Weight::Paper)),
        ]
    })
}

/// Files that are damaged, or that read and have no move. No two have the same
/// name.
pub fn damaged() -> Vec<TriedFile> {
    foreseen().into_iter().map(|known| known.file).collect()
}

/// The files of [`damaged`], each with what it has to meet.
pub fn foreseen() -> Vec<ForeseenFile> {
    [
        draft::damaged_fields(),
        order::misplaced_fields(),
        order::two_wrong_heads(),
        first::forms(),
        first::sizes(),
        twins::refused_twins(),
        creases::wrong_lengths(),
        creases::miscounted_edges(),
        weights::weight_bytes(),
        weights::wrong_lengths(),
        cages::refused_cages(),
        cages::cages_with_no_old_form(),
        cages::longest_files(),
    ]
    .concat()
}

/// The file with each byte of each head changed to every one of the 256 values.
/// The heads are as [`heads`] gives them; no byte past the file is changed.
pub fn every_head_byte<'a>(
    file: &'a [u8],
    heads: &'a [usize],
) -> impl Iterator<Item = Vec<u8>> + 'a {
    let offsets = heads
        .iter()
        .flat_map(|&head| head..head.saturating_add(HEAD_LENGTH));
    let inside = offsets.filter(|&offset| offset < file.len());
    inside.flat_map(move |offset| (0..=u8::MAX).map(move |byte| with_byte(file, offset, byte)))
}

/// The file with the byte at this offset, which is inside, changed.
fn with_byte(file: &[u8], offset: usize, byte: u8) -> Vec<u8> {
    let mut changed = file.to_vec();
    changed[offset] = byte;
    changed
}
