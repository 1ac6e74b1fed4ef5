//! For trying what document 02 says in "Edges that stay sharp": each number from
//! 1 to 10, and numbers that differ, so that edges turn smooth one after the
//! other and vertices go from one rule to the next.

use super::{all_sharp, along, star};
use crate::cage::Cage;
use crate::creases::CREASE_LIMIT;
use crate::suite::shapes::{
    disc, double_pyramid, grid, icosahedron, open_fan, pillow, tetrahedron, torus, tube,
};

pub(super) fn numbers() -> Vec<(String, Cage)> {
    let mut cages = Vec::new();
    for number in 1..=CREASE_LIMIT {
        let ring = along(double_pyramid(4), &[0, 1, 2, 3, 0], &[number]);
        let across = along(disc(4), &[0, 4, 2], &[number]);
        cages.push((format!("number-{number}-closed"), ring));
        cages.push((format!("number-{number}-open"), across));
    }
    let named = [mixed_seams(), mixed_stars(), sharp_all_over()];
    let named = named.into_iter().flatten();
    cages.extend(named.map(|(name, cage)| (name.to_string(), cage)));
    cages
}

/// Vertices of a seam go from two creases to one to none, each at its own level.
fn mixed_seams() -> Vec<(&'static str, Cage)> {
    let rim = [0, 1, 2, 3, 0];
    let column = [3, 10, 17, 24, 31, 38];
    let round_tube = [5, 6, 7, 8, 9, 5];
    vec![
        (
            "mixed-ring-octahedron",
            along(double_pyramid(4), &rim, &[1, 2, 3, 4]),
        ),
        (
            "mixed-pairs-octahedron",
            along(double_pyramid(4), &rim, &[2, 1]),
        ),
        (
            "mixed-gaps-octahedron",
            along(double_pyramid(4), &rim, &[5, 0, 2, 0]),
        ),
        (
            "mixed-ring-torus",
            along(torus(4, 6), &[0, 1, 2, 3, 0], &[10, 3, 1, 6]),
        ),
        (
            "mixed-ring-tube",
            along(tube(5, 3), &round_tube, &[5, 1, 4, 2, 3]),
        ),
        (
            "mixed-across-grid",
            along(grid(6, 5), &column, &[1, 2, 4, 3, 5]),
        ),
    ]
}

/// A hub goes from many creases to three, to two, to one and to none.
fn mixed_stars() -> Vec<(&'static str, Cage)> {
    let six = [0, 1, 2, 3, 4, 5];
    vec![
        (
            "mixed-star-open",
            star(disc(6), 6, &six, &[3, 1, 5, 2, 6, 4]),
        ),
        (
            "mixed-star-closed",
            star(double_pyramid(6), 6, &six, &[1, 4, 2, 5, 3, 6]),
        ),
        (
            "mixed-star-both-hubs",
            star(
                star(double_pyramid(5), 5, &six[..5], &[2, 1, 1]),
                6,
                &six[..5],
                &[3, 2],
            ),
        ),
        (
            "mixed-fork-tetrahedron",
            star(tetrahedron(), 0, &[1, 2, 3], &[2, 1, 1]),
        ),
        (
            "mixed-fork-square",
            star(disc(4), 4, &[0, 1, 2], &[1, 3, 1]),
        ),
        (
            "mixed-fork-octahedron",
            star(double_pyramid(4), 4, &[0, 1, 2], &[3, 1, 2]),
        ),
        ("mixed-fork-disc", star(disc(5), 5, &[0, 2, 3], &[2, 3, 1])),
        (
            "mixed-fork-icosahedron",
            star(icosahedron(), 10, &[0, 1, 3], &[1, 2, 2]),
        ),
        (
            "mixed-star-on-border",
            star(open_fan(5), 6, &[1, 2, 3, 4], &[1, 2, 3, 4]),
        ),
    ]
}

/// Every inner edge sharp, with one number or with many.
fn sharp_all_over() -> Vec<(&'static str, Cage)> {
    let ten = [1, 2, 3, 4, 5, 6, 7, 8, 9, 10];
    vec![
        ("all-1-tetrahedron", all_sharp(tetrahedron(), &[1])),
        ("all-2-octahedron", all_sharp(double_pyramid(4), &[2])),
        ("all-10-icosahedron", all_sharp(icosahedron(), &[10])),
        ("all-3-grid", all_sharp(grid(3, 3), &[3])),
        ("all-10-disc", all_sharp(disc(5), &[10])),
        ("all-mixed-octahedron", all_sharp(double_pyramid(4), &ten)),
        ("all-mixed-pillow", all_sharp(pillow(), &[3, 1, 2])),
        ("all-mixed-torus", all_sharp(torus(3, 3), &ten)),
        ("all-mixed-grid", all_sharp(grid(3, 3), &ten)),
        ("all-mixed-tube", all_sharp(tube(5, 3), &ten[..7])),
    ]
}
