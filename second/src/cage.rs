//! Document 01, "The cage": the tables, the no-twin marker, the limits, the way
//! round a triangle, and the counts E and B; with the crease table of document
//! 02, §6, "Edges that stay sharp".
//!
//! A level has the same tables as a cage, so the same type holds it.

use crate::three_tables::ThreeTables;

/// The TWIN cell of a halfedge that has no twin.
pub const MARKER: u32 = 4_294_967_295;

/// The most halfedges a cage may have.
pub const HALFEDGE_LIMIT: u64 = 3_072;

/// The most vertices a cage may have.
pub const VERTEX_LIMIT: u64 = 2_048;

/// The deepest level that can be asked for.
pub const DEPTH_LIMIT: u64 = 6;

/// A coordinate lies between minus this number and this number.
pub const COORDINATE_LIMIT: i32 = 1_048_576;

/// A cage as it is sent: tables of any length with any cells.
#[derive(Clone, Debug, Default, PartialEq, Eq)]
pub struct Cage {
    pub twin: Vec<u32>,
    pub vert: Vec<u32>,
    pub edge: Vec<u32>,
    /// x, y, z of each vertex, in 1/1024 mm.
    pub points: Vec<i32>,
    /// For how many levels each edge stays sharp.
    pub creases: Vec<u8>,
}

/// E of any TWIN table: the halfedges that have no twin or a twin with a lower
/// number. It tells how long a crease table has to be.
pub fn edges(twin: &[u32]) -> usize {
    let counts = |&(h, &twin): &(usize, &u32)| twin == MARKER || (twin as usize) < h;
    twin.iter().enumerate().filter(counts).count()
}

impl Cage {
    /// H.
    pub fn halfedge_count(&self) -> usize {
        self.twin.len()
    }

    /// F.
    pub fn triangle_count(&self) -> usize {
        self.halfedge_count() / 3
    }

    /// V.
    pub fn vertex_count(&self) -> usize {
        self.points.len() / 3
    }

    /// E.
    pub fn edge_count(&self) -> usize {
        edges(&self.twin)
    }

    /// B: the halfedges that have no twin.
    pub fn border_count(&self) -> usize {
        self.borders().count()
    }

    /// The cage with a 0 for each edge in place of its crease table.
    pub fn without_creases(self) -> Cage {
        Cage {
            creases: vec![0; self.edge_count()],
            ..self
        }
    }

    pub(crate) fn halfedges(&self) -> std::ops::Range<usize> {
        ThreeTables::of(self).halfedges()
    }

    /// The halfedges that have no twin.
    pub(crate) fn borders(&self) -> impl Iterator<Item = usize> + '_ {
        self.halfedges().filter(|&h| self.twin_of(h).is_none())
    }

    /// The twin of `h` as stored, or nothing where the marker stands.
    pub(crate) fn twin_of(&self, h: usize) -> Option<usize> {
        ThreeTables::of(self).twin_of(h)
    }

    /// Whether `h` is above its twin. A missing twin counts as lower than
    /// every halfedge.
    pub(crate) fn is_above_twin(&self, h: usize) -> bool {
        self.twin_of(h).is_none_or(|twin| h > twin)
    }

    pub(crate) fn vert_of(&self, h: usize) -> usize {
        ThreeTables::of(self).vert_of(h)
    }

    pub(crate) fn edge_of(&self, h: usize) -> usize {
        ThreeTables::of(self).edge_of(h)
    }

    /// The vertex at the far end of `h`.
    pub(crate) fn far_end(&self, h: usize) -> usize {
        self.vert_of(next(h))
    }

    /// The corner opposite to `h` in its triangle.
    pub(crate) fn opposite_corner(&self, h: usize) -> usize {
        self.vert_of(previous(h))
    }
}

/// NEXT(h).
pub(crate) fn next(h: usize) -> usize {
    if h % 3 == 2 {
        h - 2
    } else {
        h + 1
    }
}

/// PREV(h).
pub(crate) fn previous(h: usize) -> usize {
    if h.is_multiple_of(3) {
        h + 2
    } else {
        h - 1
    }
}
