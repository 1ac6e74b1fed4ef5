//! For trying what document 02 says in "Cages as plain triangles": the refusals
//! in their order, each fault in a part of its own.

use super::PlainTriangles;
use crate::cage::{COORDINATE_LIMIT, HALFEDGE_LIMIT, VERTEX_LIMIT};
use crate::questions::plain::{
    add, add_coordinate, add_corner, add_far_point, add_vertices, every_set, Fault,
};
use crate::refusal::{DOUBLED, FAN, LIMIT, POINT, SHAPE, UNUSED, VERTEX};

/// Refusal 1: cells that make no triangle, or no point.
pub(super) fn wrong_lengths() -> Vec<PlainTriangles> {
    let cells = |h: usize, p: usize| {
        let name = format!("cells-{h}-points-{p}");
        PlainTriangles::new(name, (0..h as u32).collect(), vec![0; p])
    };
    let lengths = [0, 1, 2, 4, 5, 3_071, 3_073, 3_074];
    let wrong_verts = lengths.map(|h| cells(h, 3 * h));
    let wrong_points = [1, 2, 8, 10, 6_145, 6_146].map(|p| cells(3, p));
    let wrong = wrong_verts.into_iter().chain(wrong_points);
    wrong.map(|cells| cells.refused(SHAPE, 0)).collect()
}

/// In the order in which they have to be found.
const FAULTS: [Fault; 10] = [
    (SHAPE, add_corner),
    (SHAPE, add_coordinate),
    (LIMIT, add_many_triangles),
    (LIMIT, add_many_vertices),
    (DOUBLED, |all| add(all, &[[2, 0, 1], [3, 0, 1]], 4) + 1),
    (VERTEX, |all| add(all, &[[0, u32::MAX / 2, 1]], 2) + 1),
    (VERTEX, |all| add(all, &[[0, 1, 1]], 2) + 1),
    (UNUSED, |all| add_vertices(all, 1)),
    (FAN, add_bow_tie),
    (POINT, |all| add_far_point(all, COORDINATE_LIMIT + 1)),
];

pub(super) fn several_faults() -> Vec<PlainTriangles> {
    every_set(&FAULTS)
}

/// The same triangle again and again: H alone is above its limit.
fn add_many_triangles(all: &mut PlainTriangles) -> usize {
    add(all, &[[0, 1, 2]; HALFEDGE_LIMIT as usize / 3], 3);
    0
}

fn add_many_vertices(all: &mut PlainTriangles) -> usize {
    add_vertices(all, VERTEX_LIMIT as usize);
    0
}

fn add_bow_tie(all: &mut PlainTriangles) -> usize {
    let shared = all.points.len() / 3;
    add(all, &[[0, 1, 2], [0, 3, 4]], 5);
    shared
}
