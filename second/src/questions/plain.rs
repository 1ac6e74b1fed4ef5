//! For trying what document 02 says of a VERT table and points alone, in "Cages
//! as plain triangles" and in "STL out to the mill": such a pair, and every set
//! of faults in one, each fault in a part of its own.

use super::sets;
use crate::refusal::Refusal;
use crate::suite::Expected;

/// VERT and the points, and what the request they are there to try has to
/// answer where there is room.
#[derive(Clone, Debug)]
pub struct PlainTriangles {
    pub name: String,
    pub vert: Vec<u32>,
    pub points: Vec<i32>,
    pub expected: Expected,
}

impl PlainTriangles {
    /// Named triangles, of which no answer is known beforehand.
    pub(super) fn new(name: impl ToString, vert: Vec<u32>, points: Vec<i32>) -> PlainTriangles {
        PlainTriangles {
            name: name.to_string(),
            vert,
            points,
            expected: Expected::Unforeseen,
        }
    }

    pub(super) fn accepted(self) -> PlainTriangles {
        PlainTriangles {
            expected: Expected::Accepted,
            ..self
        }
    }

    pub(super) fn refused(self, number: u32, place: usize) -> PlainTriangles {
        PlainTriangles {
            expected: Expected::Refused(Refusal::new(number, place)),
            ..self
        }
    }
}

/// A fault of plain triangles with the number of its refusal.
pub(super) type Fault = sets::Fault<PlainTriangles>;

/// A triangle with every set of these faults, which stand in the order in which
/// they have to be found. They are added from the last one on: a wrong length is
/// wrong at the end.
pub(super) fn every_set(faults: &[Fault]) -> Vec<PlainTriangles> {
    let triangle = PlainTriangles::new("triangle", vec![0, 1, 2], vec![0; 9]);
    let sets = sets::every_set(&triangle, faults).into_iter();
    sets.map(|(name, all, expected)| PlainTriangles {
        name,
        expected,
        ..all
    })
    .collect()
}

/// Adds vertices at the origin; the number of the first.
pub(super) fn add_vertices(all: &mut PlainTriangles, count: usize) -> usize {
    let first = all.points.len() / 3;
    all.points.resize(3 * (first + count), 0);
    first
}

/// Adds so many vertices, and triangles whose corners count from the first of
/// them; the number of the first halfedge.
pub(super) fn add(all: &mut PlainTriangles, triangles: &[[u32; 3]], count: usize) -> usize {
    let (h, vertex) = (all.vert.len(), add_vertices(all, count));
    let corners = triangles.as_flattened().iter();
    all.vert
        .extend(corners.map(|corner| vertex as u32 + corner));
    h
}

/// Refusal 1: a corner that makes no triangle.
pub(super) fn add_corner(all: &mut PlainTriangles) -> usize {
    all.vert.push(0);
    0
}

/// Refusal 1: a coordinate that makes no point.
pub(super) fn add_coordinate(all: &mut PlainTriangles) -> usize {
    all.points.push(0);
    0
}

/// Refusal 8: a triangle with this coordinate.
pub(super) fn add_far_point(all: &mut PlainTriangles, coordinate: i32) -> usize {
    add(all, &[[0, 1, 2]], 3);
    let index = all.points.len() - 5;
    all.points[index] = coordinate;
    index
}
