//! The second program's suite, the room that its cages need, and what refining
//! them has to answer.

use second::cage::{Cage, MARKER};
use second::check::check;
use second::counts::count_question;
use second::suite::{cage_named, suite, SuiteCage};
use second::weight::Weight;

use crate::{vertices_of, Vertex};

/// The cages of the suite that are accepted.
pub fn accepted() -> Vec<SuiteCage> {
    let all = suite().into_iter();
    all.filter(|entry| check(&entry.cage).is_ok()).collect()
}

/// The cages of the suite that are sent back.
pub fn refused() -> Vec<SuiteCage> {
    let all = suite().into_iter();
    all.filter(|entry| check(&entry.cage).is_err()).collect()
}

/// The cage of this name.
pub fn named(name: &str) -> Cage {
    cage_named(name).unwrap_or_else(|| panic!("the suite has no cage named {name}"))
}

/// The cage with the number that an inner edge is given as its crease; on
/// border edges 0.
pub fn creased(cage: &Cage, mut number: impl FnMut(usize) -> u8) -> Cage {
    let mut creases: Vec<u8> = (0..cage.edge_count()).map(&mut number).collect();
    for h in (0..cage.twin.len()).filter(|&h| cage.twin[h] == MARKER) {
        creases[cage.edge[h] as usize] = 0;
    }
    Cage {
        creases,
        ..cage.clone()
    }
}

/// The lengths that levels 0 to the depth of an accepted cage need.
pub fn room_at(cage: &Cage, depth: u64) -> [usize; 5] {
    let found = check(cage).expect("accepted");
    let counts = count_question(found.halfedges, found.edges, found.vertices, depth);
    let counts = counts.expect("a depth up to the limit");
    let (h, v, e) = (counts.halfedge_room, counts.vertex_room, counts.edge_room);
    [h, h, h, 3 * v, e].map(|room| room as usize)
}

/// Number and place for an accepted cage that is refined with room: done, or
/// with the paper's weight 14 at the lowest inner vertex of more than 32 corners.
pub fn verdict_with(weight: Weight, cage: &Cage) -> (u64, u64) {
    let has_too_many = |vertex: &Vertex| vertex.corners > 32 && !vertex.is_on_border();
    let lowest = vertices_of(cage).iter().position(has_too_many);
    match (weight, lowest) {
        (Weight::Paper, Some(vertex)) => (14, vertex as u64),
        _ => (0, 0),
    }
}
