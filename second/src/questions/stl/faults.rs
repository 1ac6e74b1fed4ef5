//! For trying what document 02 says in "STL out to the mill": the refusals in
//! their order, each fault in a part of its own.

use super::PlainTriangles;
use crate::cage::COORDINATE_LIMIT;
use crate::questions::plain::{
    add_coordinate, add_corner, add_far_point, add_vertices, every_set, Fault,
};
use crate::refusal::{POINT, SHAPE, VERTEX};

/// Refusal 1: cells that make no triangle, or coordinates that make no point,
/// or both.
pub(super) fn wrong_lengths() -> Vec<PlainTriangles> {
    let lengths = |h: usize, p: usize| {
        let name = format!("cells-{h}-coordinates-{p}");
        PlainTriangles::new(name, vec![0; h], vec![0; p]).refused(SHAPE, 0)
    };
    let mut questions = Vec::new();
    for h in [0, 1, 2, 4, 5, 7, 3_073, 65_536] {
        questions.extend((0..=9).map(|p| lengths(h, p)));
    }
    for h in [3, 6, 3_072] {
        questions.extend([1, 2, 4, 5, 7, 8, 6_145].map(|p| lengths(h, p)));
    }
    questions
}

/// V is 0, and no corner is below it.
pub(super) fn without_points() -> Vec<PlainTriangles> {
    let corners: [&[u32]; 4] = [&[0, 0, 0], &[0, 1, 2], &[u32::MAX; 3], &[0; 6]];
    let tables = corners.map(|vert| {
        let name = format!("without-points-{vert:?}");
        PlainTriangles::new(name, vert.to_vec(), vec![]).refused(VERTEX, 0)
    });
    tables.to_vec()
}

/// In the order in which they have to be found. The last are added first, so
/// that V is settled when a corner is put past it.
const FAULTS: [Fault; 10] = [
    (SHAPE, add_corner),
    (SHAPE, add_coordinate),
    (VERTEX, |all| add_far_corner(all, 0, vertices(all))),
    (VERTEX, |all| add_far_corner(all, 1, vertices(all) + 1)),
    (VERTEX, |all| add_far_corner(all, 2, u32::MAX)),
    (POINT, |all| add_far_point(all, COORDINATE_LIMIT + 1)),
    (POINT, |all| add_far_point(all, -COORDINATE_LIMIT - 1)),
    (POINT, |all| add_far_point(all, i32::MAX)),
    (POINT, |all| add_far_point(all, i32::MIN)),
    (POINT, add_unused_far_point),
];

pub(super) fn several_faults() -> Vec<PlainTriangles> {
    every_set(&FAULTS)
}

/// V.
fn vertices(all: &PlainTriangles) -> u32 {
    (all.points.len() / 3) as u32
}

/// Adds a triangle with this vertex at one of its corners.
fn add_far_corner(all: &mut PlainTriangles, corner: usize, vertex: u32) -> usize {
    let h = all.vert.len() + corner;
    all.vert.extend([0, 1, 2]);
    all.vert[h] = vertex;
    h
}

/// Adds a point that no triangle has.
fn add_unused_far_point(all: &mut PlainTriangles) -> usize {
    let index = 3 * add_vertices(all, 1) + 2;
    all.points[index] = COORDINATE_LIMIT + 1;
    index
}
