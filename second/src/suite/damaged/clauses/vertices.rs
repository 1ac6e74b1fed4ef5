//! For trying what document 02 says in "Say why" of 4: "past the points, both ends
//! alike, or ends of the twin differ", and of 5: "the vertex".

use super::{changed, damaged, Damaged};
use crate::cage::{Cage, MARKER as M};
use crate::refusal::{UNUSED, VERTEX};
use crate::sew::with_unused_vertex;
use crate::suite::shapes::{pillow, strip};

/// The clauses that hold at the place of refusal 4, the corners' vertices, and
/// that place.
type WrongVertices = (&'static str, [u32; 6], usize);

/// The pillow's own are 0, 1, 2, 0, 2 and 1. The twins of 0, 1 and 2 are 5, 4 and
/// 3. A corner that is last in its triangle has its far end at the first, so past
/// the points and alike are not both to be had there.
const OF_THE_PILLOW: [WrongVertices; 20] = [
    ("past", [3, 1, 2, 0, 2, 1], 0),
    ("past-alike", [3, 3, 2, 0, 2, 3], 0),
    ("past-differ", [3, 1, 2, 0, 2, 2], 0),
    ("past-alike-differ", [3, 3, 2, 0, 2, 1], 0),
    ("alike", [0, 0, 2, 0, 2, 0], 0),
    ("alike-differ", [2, 2, 1, 0, 2, 1], 0),
    ("differ", [0, 1, 2, 0, 2, 2], 0),
    ("past", [0, M, 2, 0, 2, M], 1),
    ("past-alike", [0, 7, 7, 0, 7, 7], 1),
    ("past-differ", [0, 65_535, 2, 0, 1, 65_535], 1),
    ("past-alike-differ", [0, 4, 4, 0, 2, 4], 1),
    ("alike", [0, 1, 1, 0, 1, 1], 1),
    ("alike-differ", [0, 1, 1, 0, 2, 1], 1),
    ("differ", [0, 1, 2, 0, 0, 1], 1),
    ("past", [0, 1, 3, 0, 3, 1], 2),
    ("past-differ", [0, 1, 3, 2, 3, 1], 2),
    ("alike", [0, 1, 0, 0, 0, 1], 2),
    ("alike-differ", [0, 1, 0, 2, 0, 1], 2),
    ("differ", [0, 1, 2, 1, 2, 1], 2),
    ("differ-before-past-alike", [0, 1, 2, 0, 9, 9], 0),
];

/// Those of two triangles with one edge between them are 0, 1, 2, 2, 1 and 3. The
/// twins are 1 and 3; the twin of 3 is the lower one.
const OF_A_PAIR: [WrongVertices; 5] = [
    ("differ-from-a-lower", [0, 1, 2, 2, 0, 3], 3),
    ("alike-differ-from-a-lower", [0, 1, 2, 2, 2, 3], 3),
    ("differ-by-one-past", [0, 1, 2, 9, 1, 3], 1),
    ("past-alike-on-a-border", [9, 9, 2, 2, 9, 3], 0),
    ("alike-on-a-border", [0, 1, 2, 2, 1, 1], 4),
];

pub(super) fn wrong_vertices() -> Vec<Damaged> {
    let of = |base: &str, cage: Cage, all: &[WrongVertices]| -> Vec<Damaged> {
        let broken = |(words, verts, place): &WrongVertices| {
            let cage = changed(&cage, |cage| cage.vert = verts.to_vec());
            let name = format!("clause-vertex-{base}-{words}-at-{place}");
            damaged(name, cage, VERTEX, *place)
        };
        all.iter().map(broken).collect()
    };
    [
        of("pillow", pillow(), &OF_THE_PILLOW),
        of("pair", strip(2), &OF_A_PAIR),
    ]
    .concat()
}

/// Refusal 5 at the lower of two vertices.
pub(super) fn unused_vertices() -> Vec<Damaged> {
    let unused = |lower: usize, higher: usize| {
        let cage = with_unused_vertex(&pillow(), lower as u32);
        let cage = with_unused_vertex(&cage, higher as u32);
        let name = format!("clause-unused-{lower}-and-{higher}");
        damaged(name, cage, UNUSED, lower)
    };
    vec![unused(0, 1), unused(0, 4), unused(1, 3), unused(3, 4)]
}
