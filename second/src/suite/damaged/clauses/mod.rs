//! For trying what document 02 says in "Say why": each clause of refusals 3 to 7,
//! alone and with others that hold at the same place, and clauses that hold at
//! several places, of which the lowest answers, whatever its clause.

mod edges;
mod fans;
mod twins;
mod vertices;

use super::{changed, damaged, Damaged};

pub(super) fn broken_clauses() -> Vec<Damaged> {
    [
        twins::wrong_twins(),
        vertices::wrong_vertices(),
        vertices::unused_vertices(),
        edges::wrong_edges(),
        fans::wrong_fans(),
    ]
    .concat()
}
