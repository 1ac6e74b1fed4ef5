//! Document 01, "The cage file", and document 02, §7, "Form 2 files". What the
//! fields of either form are, reading, writing and the moves from form to form
//! have modules of their own.

mod fields;
mod moves;
mod read;
mod write;

pub use fields::{Form, LONGEST_FORM_1, LONGEST_FORM_2};
pub use moves::{to_form_1, to_form_2};
pub use read::{read_cage, read_cage_file, FileCage, FileCounts};
pub use write::{write_cage_file, write_form_2_file};

pub(crate) use fields::{Field, Tag, HEAD_LENGTH};
pub(crate) use read::read_cage_with_reason;
pub(crate) use write::fields_of;
