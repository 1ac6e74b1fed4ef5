//! Document 02, "Say why": the clauses of refusals 3 to 7, each with the numbers
//! that show it.

use std::fmt;

use crate::{sys, MARKER};

/// A clause of refusals 3 to 7 that holds at the place of the refusal, and the
/// numbers that show it.
///
/// Its text is a sentence of the numbers.
///
/// ```
/// use ryebadger::Reason;
///
/// let past = Reason::VertexPastPoints { corner: 19, vertex: 57, vertices: 40 };
/// assert_eq!(past.to_string(), "corner 19 names vertex 57, past the 40 points");
/// ```
#[derive(Clone, Copy, Debug, PartialEq, Eq, Hash)]
pub enum Reason {
    /// 3: a twin is past the table.
    TwinPastTable {
        /// The halfedge.
        halfedge: u32,
        /// Its twin.
        twin: u32,
        /// H.
        halfedges: u32,
    },
    /// 3: a twin is the halfedge itself.
    TwinIsItself {
        /// The halfedge.
        halfedge: u32,
    },
    /// 3: a twin does not return its halfedge.
    TwinNotReturned {
        /// The halfedge.
        halfedge: u32,
        /// Its twin.
        twin: u32,
        /// The twin of that, or nothing where it has none.
        its_twin: Option<u32>,
    },
    /// 4: a vertex is past the points.
    VertexPastPoints {
        /// The halfedge.
        corner: u32,
        /// Its vertex.
        vertex: u32,
        /// V.
        vertices: u32,
    },
    /// 4: both ends of a halfedge are alike.
    EndsAlike {
        /// The halfedge.
        corner: u32,
        /// Its vertex.
        vertex: u32,
        /// The next halfedge, which has the same.
        next: u32,
    },
    /// 4: the ends of the twin differ.
    EndsOfTwinDiffer {
        /// The halfedge.
        corner: u32,
        /// Its twin.
        twin: u32,
        /// The vertex of the twin.
        its_vertex: u32,
        /// The vertex of the next halfedge.
        far_end: u32,
    },
    /// 5: a vertex is on no halfedge.
    VertexUnused {
        /// The vertex.
        vertex: u32,
    },
    /// 6: an edge is past the count.
    EdgePastCount {
        /// The halfedge.
        halfedge: u32,
        /// Its edge.
        edge: u32,
        /// E.
        edges: u32,
    },
    /// 6: an edge differs from the twin's.
    EdgeDiffersFromTwin {
        /// The halfedge.
        halfedge: u32,
        /// Its twin.
        twin: u32,
        /// Its edge.
        edge: u32,
        /// The edge of the twin.
        its_edge: u32,
    },
    /// 6: an edge is shared with a halfedge that is not the twin.
    EdgeShared {
        /// The halfedge.
        halfedge: u32,
        /// Its edge.
        edge: u32,
        /// The lowest halfedge that has the same, and is neither it nor its twin.
        stranger: u32,
    },
    /// 7: two corners at a vertex are not joined.
    NotJoined {
        /// The vertex.
        vertex: u32,
        /// The lowest corner there.
        lowest: u32,
        /// The lowest one there that is not joined to it.
        other: u32,
    },
    /// A clause or numbers that the documents do not have. The proved archive
    /// never gives it.
    Unknown {
        /// The clause as it was given.
        clause: u32,
        /// The numbers as they were given.
        numbers: [u32; 3],
    },
}

impl Reason {
    /// The clause that an answer tells, if it does.
    pub(crate) fn told(answer: [u32; sys::WHY_ANSWER]) -> Option<Reason> {
        Some(match answer {
            [_, _, 0, 0, 0, 0] => return None,
            [3, halfedge, 1, twin, halfedges, 0] => Reason::TwinPastTable {
                halfedge,
                twin,
                halfedges,
            },
            [3, halfedge, 2, twin, 0, 0] if twin == halfedge => Reason::TwinIsItself { halfedge },
            [3, halfedge, 3, twin, its_twin, 0] => Reason::TwinNotReturned {
                halfedge,
                twin,
                its_twin: (its_twin != MARKER).then_some(its_twin),
            },
            [4, corner, 1, vertex, vertices, 0] => Reason::VertexPastPoints {
                corner,
                vertex,
                vertices,
            },
            [4, corner, 2, vertex, next, 0] => Reason::EndsAlike {
                corner,
                vertex,
                next,
            },
            [4, corner, 3, twin, its_vertex, far_end] => Reason::EndsOfTwinDiffer {
                corner,
                twin,
                its_vertex,
                far_end,
            },
            [5, place, 1, vertex, 0, 0] if vertex == place => Reason::VertexUnused { vertex },
            [6, halfedge, 1, edge, edges, 0] => Reason::EdgePastCount {
                halfedge,
                edge,
                edges,
            },
            [6, halfedge, 2, twin, edge, its_edge] => Reason::EdgeDiffersFromTwin {
                halfedge,
                twin,
                edge,
                its_edge,
            },
            [6, halfedge, 3, edge, stranger, 0] => Reason::EdgeShared {
                halfedge,
                edge,
                stranger,
            },
            [7, vertex, 1, lowest, other, 0] => Reason::NotJoined {
                vertex,
                lowest,
                other,
            },
            [_, _, clause, numbers @ ..] => Reason::Unknown { clause, numbers },
        })
    }
}

impl fmt::Display for Reason {
    fn fmt(&self, out: &mut fmt::Formatter<'_>) -> fmt::Result {
        match *self {
            Reason::TwinPastTable {
                halfedge,
                twin,
                halfedges,
            } => write!(
                out,
                "halfedge {halfedge} has twin {twin}, past the {halfedges} halfedges"
            ),
            Reason::TwinIsItself { halfedge } => write!(
                out,
                "halfedge {halfedge} has twin {halfedge}, which is itself"
            ),
            Reason::TwinNotReturned {
                halfedge,
                twin,
                its_twin: Some(other),
            } => write!(
                out,
                "halfedge {halfedge} has twin {twin}, whose twin is {other}"
            ),
            Reason::TwinNotReturned {
                halfedge,
                twin,
                its_twin: None,
            } => write!(
                out,
                "halfedge {halfedge} has twin {twin}, which has no twin"
            ),
            Reason::VertexPastPoints {
                corner,
                vertex,
                vertices,
            } => write!(
                out,
                "corner {corner} names vertex {vertex}, past the {vertices} points"
            ),
            Reason::EndsAlike {
                corner,
                vertex,
                next,
            } => write!(
                out,
                "corner {corner} names vertex {vertex}, and so does the next corner, {next}"
            ),
            Reason::EndsOfTwinDiffer {
                corner,
                twin,
                its_vertex,
                far_end,
            } => write!(
                out,
                "corner {corner} has twin {twin}, \
                 which names vertex {its_vertex} instead of {far_end}"
            ),
            Reason::VertexUnused { vertex } => {
                write!(out, "vertex {vertex} is named by no corner")
            }
            Reason::EdgePastCount {
                halfedge,
                edge,
                edges,
            } => write!(
                out,
                "halfedge {halfedge} has edge {edge}, past the {edges} edges"
            ),
            Reason::EdgeDiffersFromTwin {
                halfedge,
                twin,
                edge,
                its_edge,
            } => write!(
                out,
                "halfedge {halfedge} has twin {twin}, \
                 and edge {edge} where its twin has edge {its_edge}"
            ),
            Reason::EdgeShared {
                halfedge,
                edge,
                stranger,
            } => write!(
                out,
                "halfedge {halfedge} has edge {edge}, \
                 and so has halfedge {stranger}, which is not its twin"
            ),
            Reason::NotJoined {
                vertex,
                lowest,
                other,
            } => write!(
                out,
                "vertex {vertex} has corners {lowest} and {other}, which are not joined"
            ),
            Reason::Unknown {
                clause,
                numbers: [x, y, z],
            } => write!(out, "clause {clause}, shown by {x}, {y} and {z}"),
        }
    }
}

#[cfg(test)]
mod tests {
    use super::Reason;
    use crate::{Refusal, Why, MARKER};

    /// The line that is printed for an answer in numbers.
    fn line(answer: [u32; 6]) -> String {
        let why = Why {
            refusal: Refusal::told(answer[0], answer[1].into()),
            reason: Reason::told(answer),
        };
        why.to_string()
    }

    #[test]
    fn each_clause_has_its_sentence() {
        for (answer, said) in [
            (
                [3, 7, 1, 12, 11, 0],
                "refused 3 7: halfedge 7 has twin 12, past the 11 halfedges",
            ),
            (
                [3, 7, 2, 7, 0, 0],
                "refused 3 7: halfedge 7 has twin 7, which is itself",
            ),
            (
                [3, 7, 3, 2, 9, 0],
                "refused 3 7: halfedge 7 has twin 2, whose twin is 9",
            ),
            (
                [3, 7, 3, 2, MARKER, 0],
                "refused 3 7: halfedge 7 has twin 2, which has no twin",
            ),
            (
                [4, 19, 1, 57, 40, 0],
                "refused 4 19: corner 19 names vertex 57, past the 40 points",
            ),
            (
                [4, 19, 2, 5, 20, 0],
                "refused 4 19: corner 19 names vertex 5, and so does the next corner, 20",
            ),
            (
                [4, 19, 3, 8, 5, 6],
                "refused 4 19: corner 19 has twin 8, which names vertex 5 instead of 6",
            ),
            (
                [5, 4, 1, 4, 0, 0],
                "refused 5 4: vertex 4 is named by no corner",
            ),
            (
                [6, 0, 1, 9, 5, 0],
                "refused 6 0: halfedge 0 has edge 9, past the 5 edges",
            ),
            (
                [6, 0, 2, 5, 1, 2],
                "refused 6 0: halfedge 0 has twin 5, and edge 1 where its twin has edge 2",
            ),
            (
                [6, 0, 3, 1, 4, 0],
                "refused 6 0: halfedge 0 has edge 1, \
                 and so has halfedge 4, which is not its twin",
            ),
            (
                [7, 0, 1, 2, 3, 0],
                "refused 7 0: vertex 0 has corners 2 and 3, which are not joined",
            ),
            ([8, 17, 0, 0, 0, 0], "refused 8 17"),
            ([3, 7, 0, 0, 0, 0], "refused 3 7"),
        ] {
            assert_eq!(line(answer), said);
        }
    }

    /// What the documents do not have is kept as it was given.
    #[test]
    fn other_clauses_and_numbers_are_unknown() {
        for answer in [
            [3, 7, 4, 1, 2, 3],
            [3, 7, 0, 1, 0, 0],
            [3, 7, 1, 12, 11, 1],
            [3, 7, 2, 8, 0, 0],
            [5, 4, 1, 3, 0, 0],
            [5, 4, 2, 4, 0, 0],
            [7, 0, 2, 2, 3, 0],
            [8, 17, 1, 0, 0, 0],
            [u32::MAX; 6],
        ] {
            let [number, place, clause, numbers @ ..] = answer;
            let unknown = Reason::Unknown { clause, numbers };
            assert_eq!(Reason::told(answer), Some(unknown));
            let [x, y, z] = numbers;
            let said =
                format!("refused {number} {place}: clause {clause}, shown by {x}, {y} and {z}");
            assert_eq!(line(answer), said);
        }
    }
}
