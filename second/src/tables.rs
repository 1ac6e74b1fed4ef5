//! Document 01, "Why a cage is sent back", refusal 9, and the laying of cells
//! in lent tables that refining and reading share. The crease table of document
//! 02, §6 is apart from the others, since reading form 1 leaves it alone.

use crate::cage::Cage;
use crate::refusal::{refuse_if, Refusal, ROOM};

/// The place of the crease table in refusal 9.
const CREASES_PLACE: usize = 7;

/// Tables lent by the caller, of any length.
pub struct LentTables<'a> {
    pub twin: &'a mut [u32],
    pub vert: &'a mut [u32],
    pub edge: &'a mut [u32],
    pub points: &'a mut [i32],
    pub creases: &'a mut [u8],
}

impl LentTables<'_> {
    /// Refusal 9 at the first of the four other tables that is too short.
    pub(crate) fn refuse_without_room(&self, h_room: u64, v_room: u64) -> Result<(), Refusal> {
        let lent_and_needed = [
            (self.twin.len(), h_room),
            (self.vert.len(), h_room),
            (self.edge.len(), h_room),
            (self.points.len(), 3 * v_room),
        ];
        for (place, (lent, needed)) in (1..).zip(lent_and_needed) {
            refuse_if((lent as u64) < needed, ROOM, place)?;
        }
        Ok(())
    }

    /// Refusal 9 where the crease table is too short.
    pub(crate) fn refuse_without_crease_room(&self, e_room: u64) -> Result<(), Refusal> {
        refuse_if((self.creases.len() as u64) < e_room, ROOM, CREASES_PLACE)
    }

    /// Lays a level after the halfedges and vertices already laid, without its
    /// creases.
    pub(crate) fn lay(&mut self, level: &Cage, halfedges_before: usize, vertices_before: usize) {
        lay_cells(self.twin, halfedges_before, &level.twin);
        lay_cells(self.vert, halfedges_before, &level.vert);
        lay_cells(self.edge, halfedges_before, &level.edge);
        lay_cells(self.points, 3 * vertices_before, &level.points);
    }

    /// Lays the creases of a level after the edges already laid.
    pub(crate) fn lay_creases(&mut self, level: &Cage, edges_before: usize) {
        lay_cells(self.creases, edges_before, &level.creases);
    }
}

fn lay_cells<T: Copy>(lent: &mut [T], before: usize, cells: &[T]) {
    lent[before..before + cells.len()].copy_from_slice(cells);
}
