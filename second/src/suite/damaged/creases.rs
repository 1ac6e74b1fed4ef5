//! For trying what document 02 says in "Edges that stay sharp": refusal 15, and
//! refusal 1 for the length of the crease table.

use super::{damaged, Damaged};
use crate::cage::Cage;
use crate::creases::CREASE_LIMIT;
use crate::refusal::{CREASE, SHAPE};
use crate::sew::sew;
use crate::suite::disguise::disguised;
use crate::suite::shapes::{
    disjoint_triangles, double_pyramid, grid, pillow, single_triangle, tetrahedron, torus,
};

/// One more than the highest number.
const TOO_HIGH: u8 = CREASE_LIMIT + 1;

/// An edge and its number.
type Numbered = (usize, u8);

/// The cage with these crease numbers and all others as they were, refused by 15
/// at this edge.
fn wrong_at(lowest: usize, name: String, cage: &Cage, numbers: &[Numbered]) -> Damaged {
    let mut spoiled = cage.clone();
    for &(edge, number) in numbers {
        spoiled.creases[edge] = number;
    }
    damaged(format!("crease-{name}"), spoiled, CREASE, lowest)
}

/// Refusal 1: tables that have not one number for each edge.
pub(super) fn wrong_lengths() -> Vec<Damaged> {
    let bases = [
        ("triangle", single_triangle()),
        ("pillow", pillow()),
        ("tetrahedron", tetrahedron()),
        ("grid-3x3", grid(3, 3)),
        ("torus-32x16", torus(32, 16)),
    ];
    let mut cages = Vec::new();
    for (base, cage) in bases {
        let e = cage.edge_count();
        for length in [0, e - 1, e + 1, 2 * e] {
            let mut resized = cage.clone();
            resized.creases.resize(length, 0);
            let name = format!("crease-{base}-length-{length}");
            cages.push(damaged(name, resized, SHAPE, 0));
        }
    }
    cages
}

/// Refusal 15: numbers that are too high, at low, middle and high edges of closed
/// cages.
pub(super) fn too_high() -> Vec<Damaged> {
    let bases = [
        ("tetrahedron", tetrahedron(), [0, 3, 5]),
        ("octahedron", disguised(&double_pyramid(4), 15), [0, 7, 11]),
        ("torus-32x16", torus(32, 16), [0, 700, 1_535]),
    ];
    let mut cages = Vec::new();
    for (base, cage, edges) in bases {
        for (edge, number) in edges.into_iter().zip([TOO_HIGH, 128, u8::MAX]) {
            let name = format!("{base}-{number}-at-{edge}");
            cages.push(wrong_at(edge, name, &cage, &[(edge, number)]));
        }
    }
    cages
}

/// Refusal 15: border edges that are sharp, be it with 1.
pub(super) fn on_borders() -> Vec<Damaged> {
    let triangles = disjoint_triangles(8);
    let edges = [0, 12, 22, 23].into_iter();
    let sharp = edges.zip([1, CREASE_LIMIT, TOO_HIGH, u8::MAX]);
    let wrong = sharp.map(|(edge, number)| {
        let name = format!("border-{number}-at-{edge}");
        wrong_at(edge, name, &triangles, &[(edge, number)])
    });
    wrong.collect()
}

/// Refusal 15 at the lower of two edges, whichever halfedges carry them.
pub(super) fn two_wrong_numbers() -> Vec<Damaged> {
    let mut cages = Vec::new();
    for inner in 0..5 {
        let pair = pair_with_inner_edge(inner);
        let borders: Vec<usize> = (0..5).filter(|&edge| edge != inner).collect();
        for &border in &borders {
            let sharp = [(inner, CREASE_LIMIT), (border, 1)];
            let name = format!("inner-{inner}-and-border-{border}");
            cages.push(wrong_at(border, name, &pair, &sharp));
            let both = [(inner, TOO_HIGH), (border, 1)];
            let name = format!("inner-{inner}-too-high-and-border-{border}");
            cages.push(wrong_at(inner.min(border), name, &pair, &both));
        }
        for two in borders.windows(2) {
            let name = format!("borders-{}-and-{}-beside-{inner}", two[0], two[1]);
            let both = [(two[1], 1), (two[0], 2)];
            cages.push(wrong_at(two[0], name, &pair, &both));
        }
    }
    cages
}

/// Two triangles whose inner edge has this number. The border edges have the
/// others, the highest at the lowest halfedge.
fn pair_with_inner_edge(inner: usize) -> Cage {
    let mut pair = sew([[0, 1, 2], [2, 1, 3]]);
    let borders: Vec<usize> = pair.borders().collect();
    let others = (0..5).rev().filter(|&edge| edge != inner);
    pair.edge.fill(inner as u32);
    for (h, edge) in borders.into_iter().zip(others) {
        pair.edge[h] = edge as u32;
    }
    pair
}
