//! For trying what document 01 says about "The cage" and "Cages to try":
//! cages built by hand that have to be accepted.

use super::cushion::cushion;
use super::shapes::{
    disc, disjoint_triangles, double_pyramid, frame, grid, icosahedron, open_fan, pillow,
    single_triangle, strip, tetrahedron, torus, tube, twofold_pyramid,
};
use crate::cage::{Cage, COORDINATE_LIMIT};
use crate::draw::Draw;
use crate::sew::{beside, slit};

/// Each cage with its name.
pub(super) fn built_cages() -> Vec<(String, Cage)> {
    let named = [placed_cages(), small_cages(), large_cages()].concat();
    named
        .into_iter()
        .map(|(name, cage)| (name.to_string(), cage))
        .collect()
}

/// The cage with points drawn from −reach to reach.
pub(super) fn with_drawn_points(cage: Cage, draw: &mut Draw) -> Cage {
    let reach = draw.choice(8, &[1_000, 300_000, COORDINATE_LIMIT]);
    let points = cage.points.iter().map(|_| draw.coordinate(reach)).collect();
    Cage { points, ..cage }
}

/// Cages whose points matter.
fn placed_cages() -> Vec<(&'static str, Cage)> {
    let with_points = |cage: Cage, points: &[i32]| Cage {
        points: points.to_vec(),
        ..cage
    };
    let with_all = |cage: Cage, coordinate: fn(usize) -> i32| Cage {
        points: (0..cage.points.len()).map(coordinate).collect(),
        ..cage
    };
    let ends = |index: usize| match index % 5 % 2 {
        0 => COORDINATE_LIMIT,
        _ => -COORDINATE_LIMIT,
    };
    vec![
        (
            "triangle",
            with_points(single_triangle(), &[0, 0, 0, 800, 0, 0, 0, 800, 0]),
        ),
        (
            "pillow",
            with_points(pillow(), &[0, 0, 0, 16, 0, 0, 0, 16, 0]),
        ),
        ("cushion", cushion()),
        (
            "triangle-highest",
            with_all(single_triangle(), |_| COORDINATE_LIMIT),
        ),
        (
            "triangle-lowest",
            with_all(single_triangle(), |_| -COORDINATE_LIMIT),
        ),
        ("octahedron-at-both-ends", with_all(double_pyramid(4), ends)),
        ("grid-at-both-ends", with_all(grid(3, 2), ends)),
        (
            "octahedron-negative",
            with_all(double_pyramid(4), |index| -1 - 3 * index as i32),
        ),
        (
            "disc-of-halves",
            with_all(disc(4), |index| index as i32 % 3 - 1),
        ),
    ]
}

fn small_cages() -> Vec<(&'static str, Cage)> {
    let pieces = [single_triangle(), pillow(), tetrahedron(), disc(5)];
    let pieces = pieces.iter().fold(strip(2), |all, one| beside(&all, one));
    drawn_points(vec![
        ("strip-2", strip(2)),
        ("strip-9", strip(9)),
        ("tetrahedron", tetrahedron()),
        ("octahedron", double_pyramid(4)),
        ("icosahedron", icosahedron()),
        ("disc-3", disc(3)),
        ("disc-4", disc(4)),
        ("disc-33", disc(33)),
        ("open-fan-1", open_fan(1)),
        ("open-fan-3", open_fan(3)),
        ("open-fan-40", open_fan(40)),
        ("double-pyramid-3", double_pyramid(3)),
        ("double-pyramid-33", double_pyramid(33)),
        ("twofold-pyramid", twofold_pyramid()),
        ("pillow-slit", slit(&pillow(), 0)),
        ("tetrahedron-slit", slit(&tetrahedron(), 4)),
        ("torus-slit", slit(&torus(3, 3), 20)),
        ("grid-1x1", grid(1, 1)),
        ("grid-3x3", grid(3, 3)),
        ("grid-6x5", grid(6, 5)),
        ("tube-3x1", tube(3, 1)),
        ("tube-5x3", tube(5, 3)),
        ("frame-4x5", frame(4, 5)),
        ("torus-2x2", torus(2, 2)),
        ("torus-3x3", torus(3, 3)),
        ("torus-4x6", torus(4, 6)),
        ("triangles-8", disjoint_triangles(8)),
        ("pieces", pieces),
    ])
}

fn large_cages() -> Vec<(&'static str, Cage)> {
    let most_vertices = beside(&disjoint_triangles(680), &beside(&strip(2), &strip(2)));
    let most_of_both = beside(&disjoint_triangles(511), &strip(513));
    drawn_points(vec![
        ("disc-1024", disc(1_024)),
        ("double-pyramid-512", double_pyramid(512)),
        ("torus-32x16", torus(32, 16)),
        ("grid-32x16", grid(32, 16)),
        ("most-vertices", most_vertices),
        ("most-halfedges-and-vertices", most_of_both),
    ])
}

fn drawn_points(cages: Vec<(&'static str, Cage)>) -> Vec<(&'static str, Cage)> {
    let mut draw = Draw::new(cages.len() as u64);
    cages
        .into_iter()
        .map(|(name, cage)| (name, with_drawn_points(cage, &mut draw)))
        .collect()
}
