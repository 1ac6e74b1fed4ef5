//! Document 01, "One level to the next": the count question; document 02, §6:
//! its room gains a third sum.

use crate::cage::DEPTH_LIMIT;
use crate::refusal::{refuse_if, Refusal, SHAPE};
use crate::size::{makes_triangles, refuse_above_limits};

/// How many levels a full refinement has, level 0 among them.
pub const LEVELS: usize = DEPTH_LIMIT as usize + 1;

/// H, E and V of each level, zero past the depth asked, and the room: the sums
/// of H, of V and of E over levels 0 to the depth.
#[derive(Clone, Copy, Debug, Default, PartialEq, Eq)]
pub struct LevelCounts {
    pub halfedges: [u64; LEVELS],
    pub edges: [u64; LEVELS],
    pub vertices: [u64; LEVELS],
    pub halfedge_room: u64,
    pub vertex_room: u64,
    pub edge_room: u64,
}

impl LevelCounts {
    /// The line that a program prints for the room.
    pub(crate) fn room_line(&self) -> String {
        let (h, v, e) = (self.halfedge_room, self.vertex_room, self.edge_room);
        format!("room {h} {v} {e}\n")
    }
}

/// The count question, for any four numbers.
pub fn count_question(h: u64, e: u64, v: u64, depth: u64) -> Result<LevelCounts, Refusal> {
    let edges_fit = e <= h && 2 * u128::from(e) >= u128::from(h);
    refuse_if(!(makes_triangles(h) && v != 0 && edges_fit), SHAPE, 0)?;
    refuse_above_limits(h, v, depth)?;
    Ok(level_counts(h, e, v, depth))
}

fn level_counts(mut h: u64, mut e: u64, mut v: u64, depth: u64) -> LevelCounts {
    let mut counts = LevelCounts::default();
    for (level, _) in (0..LEVELS).zip(0..=depth) {
        counts.halfedges[level] = h;
        counts.edges[level] = e;
        counts.vertices[level] = v;
        (h, e, v) = (4 * h, 2 * e + h, v + e);
    }
    counts.halfedge_room = counts.halfedges.iter().sum();
    counts.vertex_room = counts.vertices.iter().sum();
    counts.edge_room = counts.edges.iter().sum();
    counts
}
