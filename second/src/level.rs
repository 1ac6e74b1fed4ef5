//! Document 01, "One level to the next": the tables of the new level, with the
//! creases of document 02, §6.

use crate::cage::{next, previous, Cage, MARKER};
use crate::creases::next_creases;
use crate::points::next_points;
use crate::weight::Weight;

/// The level after one that keeps the rules 3 to 8 and 15, and with the paper's
/// weight 14. The weight has a part in the points alone.
pub(crate) fn next_level(level: &Cage, weight: Weight) -> Cage {
    let old = OldLevel {
        level,
        halfedge_count: level.halfedge_count(),
        edge_count: level.edge_count(),
        vertex_count: level.vertex_count(),
    };
    let corner_triangles = level.halfedges().flat_map(|h| old.corner_triangle(h));
    let middle_halfedges = level.halfedges().map(|h| old.middle_halfedge(h));
    let table_of_4h = || Vec::with_capacity(4 * old.halfedge_count);
    let mut new_level = Cage {
        twin: table_of_4h(),
        vert: table_of_4h(),
        edge: table_of_4h(),
        points: next_points(level, weight),
        creases: next_creases(level),
    };
    for halfedge in corner_triangles.chain(middle_halfedges) {
        halfedge.append_to(&mut new_level);
    }
    new_level
}

/// The three cells of one new halfedge.
struct NewHalfedge {
    twin: Option<usize>,
    edge: usize,
    vert: usize,
}

impl NewHalfedge {
    fn append_to(&self, level: &mut Cage) {
        let twin = self.twin.map_or(MARKER, |twin| twin as u32);
        level.twin.push(twin);
        level.edge.push(self.edge as u32);
        level.vert.push(self.vert as u32);
    }
}

/// The old level with its H, E and V.
struct OldLevel<'a> {
    level: &'a Cage,
    halfedge_count: usize,
    edge_count: usize,
    vertex_count: usize,
}

impl OldLevel<'_> {
    /// The new halfedges 3h, 3h+1 and 3h+2.
    fn corner_triangle(&self, h: usize) -> [NewHalfedge; 3] {
        let level = self.level;
        let before = previous(h);
        let first = NewHalfedge {
            twin: level.twin_of(h).map(|twin| 3 * next(twin) + 2),
            edge: 2 * level.edge_of(h) + usize::from(!level.is_above_twin(h)),
            vert: level.vert_of(h),
        };
        let second = NewHalfedge {
            twin: Some(3 * self.halfedge_count + h),
            edge: self.cutting_edge(h),
            vert: self.vertex_on(h),
        };
        let third = NewHalfedge {
            twin: level.twin_of(before).map(|twin| 3 * twin),
            edge: 2 * level.edge_of(before) + usize::from(level.is_above_twin(before)),
            vert: self.vertex_on(before),
        };
        [first, second, third]
    }

    /// The new halfedge 3H+h.
    fn middle_halfedge(&self, h: usize) -> NewHalfedge {
        NewHalfedge {
            twin: Some(3 * h + 1),
            edge: self.cutting_edge(h),
            vert: self.vertex_on(previous(h)),
        }
    }

    /// The new edge that cuts off the corner of `h`.
    fn cutting_edge(&self, h: usize) -> usize {
        2 * self.edge_count + h
    }

    /// The new vertex on the edge of `h`.
    fn vertex_on(&self, h: usize) -> usize {
        self.vertex_count + self.level.edge_of(h)
    }
}
