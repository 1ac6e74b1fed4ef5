//! Document 01, "Why a cage is sent back": the parts of refusals 1 and 2 that
//! several operations share.

use crate::cage::{DEPTH_LIMIT, HALFEDGE_LIMIT, VERTEX_LIMIT};
use crate::refusal::{refuse_if, Refusal, LIMIT};

/// Whether this many halfedges, or cells of a VERT table, make whole
/// triangles: not 0 and a multiple of 3.
pub(crate) fn makes_triangles(halfedges: u64) -> bool {
    halfedges != 0 && halfedges.is_multiple_of(3)
}

/// Refusal 2. An operation without a depth asks with depth 0.
pub(crate) fn refuse_above_limits(h: u64, v: u64, depth: u64) -> Result<(), Refusal> {
    let above = h > HALFEDGE_LIMIT || v > VERTEX_LIMIT || depth > DEPTH_LIMIT;
    refuse_if(above, LIMIT, 0)
}
