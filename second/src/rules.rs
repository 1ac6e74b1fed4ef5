//! Document 01, "Why a cage is sent back": the rules of refusals 3 to 7, clause by
//! clause, in the order in which document 02, §8, "Say why", names the clauses. A
//! rule is broken where a clause holds.

use std::collections::{HashMap, HashSet};

use crate::cage::next;
use crate::fan::lowest_vertex_without_one_fan;
use crate::reason::Clause;
use crate::three_tables::ThreeTables;

/// The lowest place where a rule is broken, and the first of its clauses that
/// holds there, if it has any.
pub(crate) type Fault = (usize, Option<Clause>);

/// The lowest of these places, in rising order, at which a clause holds.
fn lowest_fault(
    mut places: impl Iterator<Item = usize>,
    first_clause: impl Fn(usize) -> Option<Clause>,
) -> Option<Fault> {
    places.find_map(|place| first_clause(place).map(|clause| (place, Some(clause))))
}

/// Refusal 3.
pub(crate) fn lowest_bad_twin(tables: ThreeTables<'_>) -> Option<Fault> {
    let halfedges = tables.halfedge_count();
    lowest_fault(tables.halfedges(), |h| {
        let twin = tables.twin_of(h)?;
        if twin >= halfedges {
            return Some(Clause::TwinPastTheTable { twin, halfedges });
        }
        if twin == h {
            return Some(Clause::TwinIsItself { twin });
        }
        let its_twin = tables.twin_of(twin);
        (its_twin != Some(h)).then_some(Clause::TwinNotReturned { twin, its_twin })
    })
}

/// Refusal 4.
pub(crate) fn lowest_bad_vertex(tables: ThreeTables<'_>) -> Option<Fault> {
    let vertices = tables.vertex_count();
    lowest_fault(tables.halfedges(), |h| {
        let (vertex, next) = (tables.vert_of(h), next(h));
        let far_end = tables.vert_of(next);
        if vertex >= vertices {
            return Some(Clause::VertexPastThePoints { vertex, vertices });
        }
        if vertex == far_end {
            return Some(Clause::EndsAlike { vertex, next });
        }
        let twin = tables.twin_of(h)?;
        let its_vertex = tables.vert_of(twin);
        (its_vertex != far_end).then_some(Clause::EndsOfTheTwinDiffer {
            twin,
            its_vertex,
            far_end,
        })
    })
}

/// Refusal 5.
pub(crate) fn lowest_unused_vertex(tables: ThreeTables<'_>) -> Option<Fault> {
    let used: HashSet<usize> = tables.halfedges().map(|h| tables.vert_of(h)).collect();
    lowest_fault(0..tables.vertex_count(), |vertex| {
        (!used.contains(&vertex)).then_some(Clause::Unused { vertex })
    })
}

/// Refusal 6.
pub(crate) fn lowest_bad_edge(tables: ThreeTables<'_>) -> Option<Fault> {
    let edges = tables.edge_count();
    let mut carriers: HashMap<usize, Vec<usize>> = HashMap::new();
    for h in tables.halfedges() {
        carriers.entry(tables.edge_of(h)).or_default().push(h);
    }
    lowest_fault(tables.halfedges(), |h| {
        let (edge, twin) = (tables.edge_of(h), tables.twin_of(h));
        if edge >= edges {
            return Some(Clause::EdgePastTheCount { edge, edges });
        }
        if let Some(twin) = twin.filter(|&twin| tables.edge_of(twin) != edge) {
            let its_edge = tables.edge_of(twin);
            return Some(Clause::EdgeDiffersFromTheTwin {
                twin,
                edge,
                its_edge,
            });
        }
        let mut carriers = carriers[&edge].iter().copied();
        let stranger = carriers.find(|&g| g != h && Some(g) != twin);
        stranger.map(|stranger| Clause::EdgeShared { edge, stranger })
    })
}

/// Refusal 7.
pub(crate) fn lowest_bad_fan(tables: ThreeTables<'_>) -> Option<Fault> {
    let (vertex, [lowest, other]) = lowest_vertex_without_one_fan(tables)?;
    Some((vertex, Some(Clause::NotJoined { lowest, other })))
}
