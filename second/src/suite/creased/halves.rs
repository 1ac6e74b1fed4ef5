//! For trying what document 02 says in "Edges that stay sharp": new coordinates
//! on creases that are halves before they are rounded, as "Left and right pads"
//! has them, inside open and closed cages.

use super::{along, star};
use crate::cage::Cage;
use crate::sew::beside;
use crate::suite::halves::{BORDER_EDGE, BORDER_VERTEX, FIRST, SECOND};
use crate::suite::shapes::{disc, tetrahedron};

/// Each cage with its name.
pub(super) fn halves_on_creases() -> Vec<(String, Cage)> {
    // The first vertex is one end of each crease, and the others lie together.
    let edges = [
        ("edge-closed", star(tetrahedron(), 0, &[1, 2, 3], &[2])),
        ("edge-open", along(disc(4), &[0, 4], &[2])),
    ];
    // The first two vertices are the far ends of the two creases.
    let vertices = [
        ("vertex-closed", along(tetrahedron(), &[0, 2, 1], &[2])),
        ("vertex-open", along(disc(4), &[0, 4, 1], &[2])),
    ];
    let tried = [(BORDER_EDGE, edges), (BORDER_VERTEX, vertices)];
    let cages = tried.into_iter().flat_map(|(rule, cages)| {
        cages.map(|(name, cage)| {
            let [first, second] = [FIRST, SECOND].map(|targets| rule.placed(&cage, targets));
            (format!("halves-{name}"), beside(&first, &second))
        })
    });
    cages.collect()
}
