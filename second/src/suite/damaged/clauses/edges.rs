//! For trying what document 02 says in "Say why" of 6: "past the count, differs
//! from the twin, or shared, with the lowest stranger". Neither a stranger nor the
//! twin is ever below the place, where it would break the rule too.

use super::{changed, damaged, Damaged};
use crate::cage::{Cage, MARKER as M};
use crate::refusal::EDGE;
use crate::suite::shapes::{pillow, single_triangle, strip, tetrahedron};

/// The clauses that hold at the place of refusal 6, the edges of the halfedges,
/// and that place.
type WrongEdges = (&'static str, &'static [u32], usize);

/// Its own are 0, 1 and 2, all of them on the border.
const OF_THE_TRIANGLE: [WrongEdges; 5] = [
    ("past-shared", &[3, 3, 2], 0),
    ("shared-with-1", &[0, 0, 2], 0),
    ("shared-with-2", &[0, 1, 0], 0),
    ("shared-with-1-and-2", &[0, 0, 0], 0),
    ("shared-with-2", &[0, 1, 1], 1),
];

/// Its own are 0, 1, 2, 2, 1 and 0. The twin of 0 is 5.
const OF_THE_PILLOW: [WrongEdges; 9] = [
    ("past", &[3, 1, 2, 2, 1, 3], 0),
    ("past-differs", &[3, 1, 2, 2, 1, 0], 0),
    ("past-shared", &[M, M, 2, 2, 1, M], 0),
    ("past-differs-shared", &[3, 3, 2, 2, 1, 0], 0),
    ("differs", &[0, 1, 2, 2, 1, 1], 0),
    ("differs-from-one-past", &[0, 1, 2, 2, 1, 3], 0),
    ("differs-shared", &[0, 0, 2, 2, 1, 1], 0),
    ("shared-with-1", &[0, 0, 2, 2, 1, 0], 0),
    ("shared-with-2-and-3-and-4", &[0, 1, 0, 0, 0, 0], 0),
];

/// Those of two triangles with one edge between them are 0, 1, 2, 1, 3 and 4. The
/// twin of 1 is 3, and the others have none.
const OF_A_PAIR: [WrongEdges; 13] = [
    ("past", &[0, 9, 2, 9, 3, 4], 1),
    ("past-differs", &[0, 5, 2, 1, 3, 4], 1),
    ("past-shared", &[0, 5, 5, 5, 3, 4], 1),
    ("past-differs-shared", &[0, 65_535, 65_535, 1, 3, 4], 1),
    ("differs", &[0, 1, 2, 2, 3, 4], 1),
    ("differs-shared", &[0, 1, 1, 2, 3, 4], 1),
    ("shared-with-2-and-4", &[0, 1, 1, 1, 1, 4], 1),
    ("shared-with-4-and-5", &[0, 1, 2, 1, 1, 1], 1),
    ("shared-with-5", &[0, 1, 2, 1, 3, 1], 1),
    ("shared-with-4", &[0, 1, 2, 1, 0, 4], 0),
    ("shared-with-4-and-5", &[0, 1, 2, 1, 2, 2], 2),
    ("shared-before-past", &[0, 1, 2, 1, 0, 9], 0),
    ("differs-before-past", &[0, 1, 9, 3, 9, 4], 1),
];

/// Its own are 0, 1, 2, 2, 3, 4, 4, 5, 0, 5, 3 and 1. The twins of 0 and 2 are 8
/// and 3. An edge may be past the count and below H.
const OF_THE_TETRAHEDRON: [WrongEdges; 7] = [
    ("past", &[6, 1, 2, 2, 3, 4, 4, 5, 6, 5, 3, 1], 0),
    ("shared-with-4", &[0, 1, 2, 2, 2, 4, 4, 5, 0, 5, 3, 1], 2),
    (
        "shared-with-7-and-10",
        &[0, 1, 2, 2, 3, 4, 4, 2, 0, 5, 2, 1],
        2,
    ),
    ("shared-with-9", &[0, 1, 2, 2, 3, 4, 4, 5, 0, 0, 3, 1], 0),
    (
        "shared-with-9-and-11",
        &[0, 1, 2, 2, 3, 4, 4, 5, 0, 0, 3, 0],
        0,
    ),
    (
        "shared-with-5-and-9",
        &[0, 1, 2, 2, 3, 0, 4, 5, 0, 0, 3, 1],
        0,
    ),
    ("shared-with-all", &[0; 12], 0),
];

pub(super) fn wrong_edges() -> Vec<Damaged> {
    [
        of("triangle", single_triangle(), &OF_THE_TRIANGLE),
        of("pillow", pillow(), &OF_THE_PILLOW),
        of("pair", strip(2), &OF_A_PAIR),
        of("tetrahedron", tetrahedron(), &OF_THE_TETRAHEDRON),
    ]
    .concat()
}

fn of(base: &str, cage: Cage, all: &[WrongEdges]) -> Vec<Damaged> {
    let broken = |(words, edges, place): &WrongEdges| {
        let cage = changed(&cage, |cage| cage.edge = edges.to_vec());
        let name = format!("clause-edge-{base}-{words}-at-{place}");
        damaged(name, cage, EDGE, *place)
    };
    all.iter().map(broken).collect()
}
