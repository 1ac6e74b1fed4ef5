//! Document 01, "The cage": the three tables of the halfedges, TWIN, VERT and
//! EDGE, with V as a number. They alone tell how a cage is joined.

use crate::cage::{edges, Cage, MARKER};

/// Three tables of any length with any cells, and any number for V.
#[derive(Clone, Copy, Debug)]
pub struct ThreeTables<'a> {
    pub twin: &'a [u32],
    pub vert: &'a [u32],
    pub edge: &'a [u32],
    /// V.
    pub vertices: u64,
}

impl<'a> ThreeTables<'a> {
    /// Those of a cage, with its V.
    pub fn of(cage: &'a Cage) -> ThreeTables<'a> {
        ThreeTables {
            twin: &cage.twin,
            vert: &cage.vert,
            edge: &cage.edge,
            vertices: cage.vertex_count() as u64,
        }
    }

    /// H.
    pub(crate) fn halfedge_count(&self) -> usize {
        self.twin.len()
    }

    /// E.
    pub(crate) fn edge_count(&self) -> usize {
        edges(self.twin)
    }

    /// V, for rules that come after refusal 2 or that have it from the points: it
    /// is small enough then.
    pub(crate) fn vertex_count(&self) -> usize {
        self.vertices as usize
    }

    pub(crate) fn halfedges(&self) -> std::ops::Range<usize> {
        0..self.halfedge_count()
    }

    /// The twin of `h` as stored, or nothing where the marker stands.
    pub(crate) fn twin_of(&self, h: usize) -> Option<usize> {
        let twin = self.twin[h];
        (twin != MARKER).then_some(twin as usize)
    }

    pub(crate) fn vert_of(&self, h: usize) -> usize {
        self.vert[h] as usize
    }

    pub(crate) fn edge_of(&self, h: usize) -> usize {
        self.edge[h] as usize
    }
}
