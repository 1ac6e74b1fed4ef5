//! For trying what document 02 says in "Edges that stay sharp": cages with
//! creases that have to be accepted. Each has a crease above 0 somewhere.

mod doubled;
mod drawn;
mod halves;
mod numbers;
mod seams;

use super::valid::with_drawn_points;
use crate::cage::Cage;
use crate::draw::Draw;

/// Each cage with its name. Some are drawn cages, sharpened here and there.
pub(super) fn creased_cages(drawn_cages: &[(String, Cage)]) -> Vec<(String, Cage)> {
    let draw = &mut Draw::new(6);
    let shaped = [
        seams::seams(),
        numbers::numbers(),
        doubled::doubled_edges(),
        drawn::cages_at_the_limits(),
    ];
    let placed = shaped
        .into_iter()
        .flatten()
        .map(|(name, cage)| (name, with_drawn_points(cage, draw)));
    let mut cages: Vec<(String, Cage)> = placed.collect();
    cages.extend(halves::halves_on_creases());
    cages.extend(drawn::sharpened(drawn_cages));
    cages
        .into_iter()
        .map(|(name, cage)| (format!("creased-{name}"), cage))
        .collect()
}

/// The cage with numbers along a path of vertices, from each to the next. Where
/// there are fewer numbers than edges they are taken again from the first.
pub(super) fn along(cage: Cage, path: &[usize], numbers: &[u8]) -> Cage {
    let mut creased = cage;
    for (step, &number) in path.windows(2).zip(numbers.iter().cycle()) {
        for edge in edges_between(&creased, step) {
            creased.creases[edge] = number;
        }
    }
    creased
}

/// The edges that join these two vertices.
fn edges_between(cage: &Cage, vertices: &[usize]) -> Vec<usize> {
    let joins = |&h: &usize| {
        let ends = [cage.vert_of(h), cage.far_end(h)];
        vertices == ends || vertices == [ends[1], ends[0]]
    };
    let found = cage.halfedges().filter(joins);
    found.map(|h| cage.edge_of(h)).collect()
}

/// The cage with numbers on the spokes of a vertex, in the order of the far ends
/// that are given.
fn star(cage: Cage, hub: usize, far_ends: &[usize], numbers: &[u8]) -> Cage {
    let spokes = far_ends.iter().zip(numbers.iter().cycle());
    spokes.fold(cage, |cage, (&far_end, &number)| {
        along(cage, &[hub, far_end], &[number])
    })
}

/// The cage with these numbers on its inner edges, one after the other, and from
/// the first again.
fn all_sharp(cage: Cage, numbers: &[u8]) -> Cage {
    let mut creased = cage;
    for (edge, &number) in inner_edges(&creased).iter().zip(numbers.iter().cycle()) {
        creased.creases[*edge] = number;
    }
    creased
}

/// The edges that are on no border, in the order of their numbers.
pub(super) fn inner_edges(cage: &Cage) -> Vec<usize> {
    let mut inner = vec![true; cage.edge_count()];
    for h in cage.borders() {
        inner[cage.edge_of(h)] = false;
    }
    (0..inner.len()).filter(|&edge| inner[edge]).collect()
}
