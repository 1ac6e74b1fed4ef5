//! For trying what document 02 says in "One halfedge, no tables": the refusals in
//! their order, each fault in a part of its own.

use super::HalfedgeQuestion;
use crate::cage::{edges, DEPTH_LIMIT, MARKER, VERTEX_LIMIT};
use crate::questions::sets::{every_set, Fault};
use crate::refusal::{EDGE, FAN, LIMIT, NO_SUCH_HALFEDGE, SHAPE, TWIN, UNUSED, VERTEX};
use crate::sew::sew;

/// In the order in which they have to be found.
const FAULTS: [Fault<HalfedgeQuestion>; 11] = [
    (SHAPE, |all| lengthen(&mut all.twin)),
    (SHAPE, |all| lengthen(&mut all.vert)),
    (SHAPE, |all| lengthen(&mut all.edge)),
    (LIMIT, |all| {
        all.vertices += VERTEX_LIMIT;
        0
    }),
    (LIMIT, |all| {
        all.depth = DEPTH_LIMIT + 1;
        0
    }),
    (TWIN, add_twin_of_its_own),
    (VERTEX, add_corner_past_v),
    (UNUSED, |all| {
        all.vertices += 1;
        all.vertices as usize - 1
    }),
    (EDGE, add_shared_edge),
    (FAN, add_bow_tie),
    (NO_SUCH_HALFEDGE, ask_for_no_halfedge),
];

/// The pillow's last halfedge at depth 3, with every set of faults.
pub(super) fn several_faults() -> Vec<HalfedgeQuestion> {
    let pillow = sew([[0, 1, 2], [0, 2, 1]]);
    let sound = HalfedgeQuestion::about(&pillow, 3, 383);
    let sets = every_set(&sound, &FAULTS).into_iter();
    sets.map(|(name, question, expected)| question.named(name).expecting(expected))
        .collect()
}

fn lengthen(table: &mut Vec<u32>) -> usize {
    table.push(0);
    0
}

/// Adds so many vertices, and triangles without twins whose corners count from the
/// first of them; the number of the first halfedge.
fn add(all: &mut HalfedgeQuestion, triangles: &[[u32; 3]], count: u64) -> usize {
    let (h, vertex) = (all.twin.len(), all.vertices as u32);
    let (e, corners) = (edges(&all.twin) as u32, triangles.as_flattened());
    all.twin.extend(corners.iter().map(|_| MARKER));
    all.vert
        .extend(corners.iter().map(|corner| vertex + corner));
    all.edge.extend((e..).take(corners.len()));
    all.vertices += count;
    h
}

fn add_twin_of_its_own(all: &mut HalfedgeQuestion) -> usize {
    let h = add(all, &[[0, 1, 2]], 3) + 1;
    all.twin[h] = h as u32;
    h
}

fn add_corner_past_v(all: &mut HalfedgeQuestion) -> usize {
    let h = add(all, &[[0, 1, 2]], 3) + 2;
    all.vert[h] = MARKER;
    h
}

fn add_shared_edge(all: &mut HalfedgeQuestion) -> usize {
    let h = add(all, &[[0, 1, 2]], 3) + 1;
    all.edge[h] = all.edge[h + 1];
    h
}

fn add_bow_tie(all: &mut HalfedgeQuestion) -> usize {
    let shared = all.vertices as usize;
    add(all, &[[0, 1, 2], [0, 3, 4]], 5);
    shared
}

/// A number above H of the level whatever else is added.
fn ask_for_no_halfedge(all: &mut HalfedgeQuestion) -> usize {
    all.halfedge = 1_000_000;
    1_000_000
}
