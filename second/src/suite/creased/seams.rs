//! For trying what document 02 says in "Edges that stay sharp": seams that are
//! closed, that end inside or on a border, that fork and that cross.

use super::{along, star};
use crate::cage::Cage;
use crate::suite::shapes::{
    disc, double_pyramid, grid, icosahedron, open_fan, strip, tetrahedron, torus, tube,
};

pub(super) fn seams() -> Vec<(String, Cage)> {
    let named = [
        single_edges(),
        closed_seams(),
        seams_with_ends(),
        seams_from_the_border(),
        forks_and_crossings(),
    ];
    let named = named.into_iter().flatten();
    let mut seams: Vec<(String, Cage)> =
        named.map(|(name, cage)| (name.to_string(), cage)).collect();
    seams.extend(stars());
    seams
}

/// One crease alone. Its ends have one crease if they are inside, and three if
/// they are on the border.
fn single_edges() -> Vec<(&'static str, Cage)> {
    vec![
        ("edge-tetrahedron", along(tetrahedron(), &[1, 3], &[3])),
        ("edge-icosahedron", along(icosahedron(), &[0, 10], &[2])),
        ("edge-inside-grid", along(grid(3, 3), &[5, 10], &[3])),
        ("edge-from-border", along(disc(5), &[5, 2], &[4])),
        ("edge-border-to-border", along(strip(2), &[1, 2], &[3])),
    ]
}

/// Every vertex of the seam has two creases.
fn closed_seams() -> Vec<(&'static str, Cage)> {
    let round_the_middle = [8, 9, 10, 17, 24, 23, 22, 15, 8];
    vec![
        (
            "ring-tetrahedron",
            along(tetrahedron(), &[0, 1, 2, 0], &[3]),
        ),
        (
            "ring-icosahedron",
            along(icosahedron(), &[0, 1, 2, 3, 4, 0], &[2]),
        ),
        ("ring-torus", along(torus(4, 6), &[0, 1, 2, 3, 0], &[4])),
        ("ring-tube", along(tube(5, 3), &[5, 6, 7, 8, 9, 5], &[3])),
        ("ring-grid", along(grid(6, 5), &round_the_middle, &[2])),
    ]
}

/// The ends of the seam are inside and have one crease each.
fn seams_with_ends() -> Vec<(&'static str, Cage)> {
    vec![
        (
            "dart-octahedron",
            along(double_pyramid(4), &[4, 0, 5], &[3]),
        ),
        (
            "dart-icosahedron",
            along(icosahedron(), &[10, 0, 5, 11], &[2]),
        ),
        ("dart-torus", along(torus(4, 6), &[0, 1, 6, 10, 15], &[5])),
        ("dart-grid", along(grid(6, 5), &[15, 16, 17, 25], &[3])),
    ]
}

/// A border vertex has three creases where a seam ends.
fn seams_from_the_border() -> Vec<(&'static str, Cage)> {
    let from_side_to_side = [3, 10, 17, 24, 31, 38];
    vec![
        ("dart-from-border", along(grid(6, 5), &[2, 9, 16], &[4])),
        ("across-grid", along(grid(6, 5), &from_side_to_side, &[3])),
        ("across-disc", along(disc(4), &[0, 4, 2], &[2])),
        ("across-tube", along(tube(5, 3), &[0, 5, 10, 15], &[2])),
        ("across-strip", along(strip(9), &[3, 4, 5, 6], &[2])),
    ]
}

/// Vertices with three, four and six creases, inside and on the border.
fn forks_and_crossings() -> Vec<(&'static str, Cage)> {
    let crossed_octahedron = along(double_pyramid(4), &[0, 1, 2, 3, 0, 4, 2, 5, 0], &[3]);
    let lines_of_torus = [0, 1, 2, 3, 0, 4, 8, 12, 16, 20, 0, 5, 10];
    let column = along(grid(6, 5), &[3, 10, 17, 24, 31, 38], &[3]);
    let crossed_grid = along(column, &[14, 15, 16, 17, 18, 19, 20], &[2]);
    let inner_column = along(grid(6, 5), &[10, 17, 24], &[2]);
    vec![
        ("fork-tetrahedron", star(tetrahedron(), 0, &[1, 2, 3], &[2])),
        (
            "fork-icosahedron",
            star(icosahedron(), 10, &[0, 1, 3], &[3]),
        ),
        ("fork-on-border", star(open_fan(5), 6, &[2, 4], &[2])),
        ("crossing-octahedron", crossed_octahedron),
        ("crossing-torus", along(torus(4, 6), &lines_of_torus, &[2])),
        ("crossing-grid", crossed_grid),
        (
            "crossing-inside-grid",
            along(inner_column, &[16, 17, 18], &[2]),
        ),
    ]
}

/// A hub with one to five of its five spokes sharp, inside an open cage and
/// inside a closed one; and hubs with all inner spokes sharp.
fn stars() -> Vec<(String, Cage)> {
    let mut stars = Vec::new();
    for sharp in 1..=5 {
        let far_ends: Vec<usize> = (0..sharp).collect();
        let open = star(disc(5), 5, &far_ends, &[3]);
        let closed = star(double_pyramid(5), 5, &far_ends, &[3]);
        stars.push((format!("star-{sharp}-of-5-open"), open));
        stars.push((format!("star-{sharp}-of-5-closed"), closed));
    }
    let inner_spokes = star(open_fan(5), 6, &[1, 2, 3, 4], &[3]);
    stars.push(("star-on-border".to_string(), inner_spokes));
    // More corners than the paper's weight has an entry for, all spokes sharp.
    let far_ends: Vec<usize> = (0..33).collect();
    let wheel = star(disc(33), 33, &far_ends, &[2]);
    stars.push(("star-33-of-33".to_string(), wheel));
    stars
}
