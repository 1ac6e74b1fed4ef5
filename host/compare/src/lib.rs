//! The comparison of the host library with the second program, an independent
//! judge written from documents 01 and 02 alone.
//!
//! A [`Question`] is put to three: the proved archive through its raw
//! functions, the safe crate in front of it, and the second program. Each is
//! lent tables and buffers that were marked beforehand. What each leaves
//! behind, an [`Outcome`], has every number of the answer and every lent cell,
//! and all of it is compared.

mod asked;
mod files;
mod in_c;
mod outcome;
mod process;
mod question;
mod suite;
mod vertices;

pub use asked::{
    chosen, handed, joined, lent, owned, Archive, Operations, SafeCrate, SecondProgram,
};
pub use files::{
    as_read, assert_written, files_of, lengths_of, stl_length, take, take_without_room, Taken,
};
pub use in_c::{assert_compiles, compiled, compiler};
pub use outcome::{first_difference, Difference, Outcome};
pub use process::{onto_a_full_disk, repository, run};
pub use question::{marked_tables, Question, PLACES, WEIGHTS};
pub use suite::{accepted, creased, named, refused, room_at, verdict_with};
pub use vertices::{vertices_of, Vertex};

/// Puts the question to all three, which have to leave the same behind.
pub fn assert_alike(name: &str, question: &Question) -> Outcome {
    let judged = question.put_to(&SecondProgram);
    let hosts: [&dyn Operations; 2] = [&Archive::default(), &SafeCrate];
    for host in hosts {
        assert_same(name, question, &question.put_to(host), &judged);
    }
    judged
}

/// Fails where the outcomes of a question differ, and says where.
pub fn assert_same(name: &str, question: &Question, host: &Outcome, judged: &Outcome) {
    if let Some(difference) = first_difference(host, judged) {
        panic!("{name}: {difference}; asked: {}", question.brief());
    }
}
