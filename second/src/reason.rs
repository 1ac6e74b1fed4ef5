//! Document 02, §8, "Say why": the clauses of refusals 3 to 7, each with the
//! numbers that show it, and a refusal together with its clause.

use crate::cage::MARKER;
use crate::refusal::Refusal;

/// A clause that holds at the place of a refusal.
#[derive(Clone, Copy, Debug, PartialEq, Eq)]
pub enum Clause {
    /// 3: the twin is past the table.
    TwinPastTheTable { twin: usize, halfedges: usize },
    /// 3: the twin is the halfedge itself.
    TwinIsItself { twin: usize },
    /// 3: the twin is not returned.
    TwinNotReturned {
        twin: usize,
        its_twin: Option<usize>,
    },
    /// 4: the vertex is past the points.
    VertexPastThePoints { vertex: usize, vertices: usize },
    /// 4: both ends are alike.
    EndsAlike { vertex: usize, next: usize },
    /// 4: the ends of the twin differ.
    EndsOfTheTwinDiffer {
        twin: usize,
        its_vertex: usize,
        far_end: usize,
    },
    /// 5: the vertex is on no halfedge.
    Unused { vertex: usize },
    /// 6: the edge is past the count.
    EdgePastTheCount { edge: usize, edges: usize },
    /// 6: the edge differs from the twin's.
    EdgeDiffersFromTheTwin {
        twin: usize,
        edge: usize,
        its_edge: usize,
    },
    /// 6: the edge is shared, with the lowest stranger.
    EdgeShared { edge: usize, stranger: usize },
    /// 7: the lowest corner of the vertex, and the lowest one not joined to it.
    NotJoined { lowest: usize, other: usize },
}

impl Clause {
    /// Its number among the clauses of its refusal.
    pub fn number(&self) -> u32 {
        use Clause::*;
        match self {
            TwinPastTheTable { .. } | VertexPastThePoints { .. } | EdgePastTheCount { .. } => 1,
            TwinIsItself { .. } | EndsAlike { .. } | EdgeDiffersFromTheTwin { .. } => 2,
            TwinNotReturned { .. } | EndsOfTheTwinDiffer { .. } | EdgeShared { .. } => 3,
            Unused { .. } | NotJoined { .. } => 1,
        }
    }

    /// The numbers that show it, with 0 for those it does not need.
    pub fn shown(&self) -> [u64; 3] {
        use Clause::*;
        let numbers = match *self {
            TwinPastTheTable { twin, halfedges } => [twin, halfedges, 0],
            TwinIsItself { twin } => [twin, 0, 0],
            TwinNotReturned { twin, its_twin } => [twin, its_twin.unwrap_or(MARKER as usize), 0],
            VertexPastThePoints { vertex, vertices } => [vertex, vertices, 0],
            EndsAlike { vertex, next } => [vertex, next, 0],
            EndsOfTheTwinDiffer {
                twin,
                its_vertex,
                far_end,
            } => [twin, its_vertex, far_end],
            Unused { vertex } => [vertex, 0, 0],
            EdgePastTheCount { edge, edges } => [edge, edges, 0],
            EdgeDiffersFromTheTwin {
                twin,
                edge,
                its_edge,
            } => [twin, edge, its_edge],
            EdgeShared { edge, stranger } => [edge, stranger, 0],
            NotJoined { lowest, other } => [lowest, other, 0],
        };
        numbers.map(|number| number as u64)
    }
}

/// Why a cage or a file is sent back: the refusal, and the first of the clauses
/// that holds at its place. Refusals 3 to 7 have clauses, the others none.
#[derive(Clone, Copy, Debug, PartialEq, Eq)]
pub struct Reason {
    pub refusal: Refusal,
    pub clause: Option<Clause>,
}

/// A refusal that has no clauses.
impl From<Refusal> for Reason {
    fn from(refusal: Refusal) -> Reason {
        Reason {
            refusal,
            clause: None,
        }
    }
}

/// The refusal alone.
impl From<Reason> for Refusal {
    fn from(reason: Reason) -> Refusal {
        reason.refusal
    }
}
