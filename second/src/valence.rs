//! Document 02, §4, "The weight from the paper", refusal 14: inner vertices of
//! more corners than the paper's weight has an entry for.

use std::collections::HashSet;

use crate::cage::Cage;
use crate::weight::VALENCES;

/// The lowest inner vertex of more than 32 corners, in a cage that keeps the
/// rules 1 to 7. A vertex on the border may have any number of corners.
pub(crate) fn lowest_inner_vertex_of_too_many_corners(cage: &Cage) -> Option<usize> {
    let mut corners = vec![0; cage.vertex_count()];
    for h in cage.halfedges() {
        corners[cage.vert_of(h)] += 1;
    }
    let border_ends = cage
        .borders()
        .flat_map(|h| [cage.vert_of(h), cage.far_end(h)]);
    let on_border: HashSet<usize> = border_ends.collect();
    (0..cage.vertex_count())
        .find(|vertex| corners[*vertex] > *VALENCES.end() && !on_border.contains(vertex))
}
