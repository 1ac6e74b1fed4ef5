//! For trying what document 02 says in "Edges that stay sharp": drawn numbers on
//! drawn edges, of drawn cages and of cages as large as they may be.

use super::inner_edges;
use crate::cage::Cage;
use crate::creases::CREASE_LIMIT;
use crate::draw::Draw;
use crate::sew::beside;
use crate::suite::shapes::{disjoint_triangles, grid, strip, torus};

/// Of how many drawn cages one is taken: the others stay without creases.
const EVERY: usize = 3;

/// Some of these cages with drawn creases: a tenth of the inner edges of one, a
/// third of the next, two thirds of the third.
pub(super) fn sharpened(cages: &[(String, Cage)]) -> Vec<(String, Cage)> {
    let draw = &mut Draw::new(61);
    let fit = cages.iter().filter(|(_, cage)| is_small_with_inside(cage));
    let taken = fit.step_by(EVERY);
    let densities = [(1, 10), (1, 3), (2, 3)].into_iter().cycle();
    let sharp = taken.zip(densities).map(|((name, cage), density)| {
        let sharp = with_drawn_creases(cage.clone(), density, draw);
        (name.clone(), sharp)
    });
    sharp.collect()
}

fn is_small_with_inside(cage: &Cage) -> bool {
    cage.halfedge_count() <= 200 && !inner_edges(cage).is_empty()
}

/// The cage with drawn numbers on this part of its inner edges, on one at least.
fn with_drawn_creases(cage: Cage, (part, of): (usize, usize), draw: &mut Draw) -> Cage {
    let mut creased = cage;
    let inner = inner_edges(&creased);
    let sharp = (inner.len() * part / of).max(1);
    for place in draw.permutation(inner.len()).into_iter().take(sharp) {
        creased.creases[inner[place]] = draw.between(1..=CREASE_LIMIT.into()) as u8;
    }
    creased
}

/// 3,072 halfedges, of which the last cage has 2,048 vertices too, and creases
/// on a tenth of the inner edges.
pub(super) fn cages_at_the_limits() -> Vec<(String, Cage)> {
    let draw = &mut Draw::new(62);
    let pairs = beside(&strip(2), &strip(2));
    let most_of_both = beside(&grid(15, 14), &beside(&disjoint_triangles(600), &pairs));
    let cages = [
        ("torus-32x16", torus(32, 16)),
        ("grid-32x16", grid(32, 16)),
        ("most-halfedges-and-vertices", most_of_both),
    ];
    let sharp = cages.map(|(name, cage)| {
        let sharp = with_drawn_creases(cage, (1, 10), draw);
        (name.to_string(), sharp)
    });
    sharp.to_vec()
}
