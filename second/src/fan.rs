//! Document 01, "Why a cage is sent back", refusal 7: the corners at a vertex
//! are one fan when links join all halfedges that leave it.

use std::collections::HashMap;

use crate::cage::previous;
use crate::three_tables::ThreeTables;

/// Halfedges in groups that grow together (union-find).
struct Groups {
    parent: Vec<usize>,
}

impl Groups {
    fn apart(count: usize) -> Groups {
        Groups {
            parent: (0..count).collect(),
        }
    }

    /// The halfedge that stands for the group of `h`.
    fn leader(&mut self, mut h: usize) -> usize {
        while self.parent[h] != h {
            self.parent[h] = self.parent[self.parent[h]];
            h = self.parent[h];
        }
        h
    }

    fn join(&mut self, g: usize, h: usize) {
        let (g, h) = (self.leader(g), self.leader(h));
        self.parent[g.max(h)] = g.min(h);
    }
}

/// The lowest vertex whose corners are more than one fan, in tables that keep
/// the rules 1 to 6; with its lowest corner, and the lowest one that is not joined
/// to it.
pub(crate) fn lowest_vertex_without_one_fan(
    tables: ThreeTables<'_>,
) -> Option<(usize, [usize; 2])> {
    let mut fans = linked_halfedges(tables);
    let mut lowest_at: HashMap<usize, usize> = HashMap::new();
    let not_joined = tables.halfedges().filter_map(|h| {
        let vertex = tables.vert_of(h);
        let lowest = *lowest_at.entry(vertex).or_insert(h);
        let is_joined = fans.leader(h) == fans.leader(lowest);
        (!is_joined).then_some((vertex, [lowest, h]))
    });
    not_joined.min()
}

/// Each halfedge h joined with TWIN(PREV(h)) where that exists.
fn linked_halfedges(tables: ThreeTables<'_>) -> Groups {
    let mut fans = Groups::apart(tables.halfedge_count());
    for h in tables.halfedges() {
        if let Some(neighbour) = tables.twin_of(previous(h)) {
            fans.join(h, neighbour);
        }
    }
    fans
}
