//! Document 02, §5, "Left and right pads": "with the same tables and the same
//! weight, negating every x in the cage negates every x at every depth, and
//! leaves the other numbers as they were"; so with y and with z.

mod common;

use common::{document_pillow, document_triangle, levels_with, refinable, small_accepted, WEIGHTS};
use second::cage::Cage;
use second::check::check;
use second::mirror::mirrored;
use second::suite::suite;
use second::weight::Weight;

const AXES: [usize; 3] = [0, 1, 2];

/// The other cage of the pair: the same tables, the points mirrored.
fn partner(cage: &Cage, axis: usize) -> Cage {
    Cage {
        points: mirrored(&cage.points, axis),
        ..cage.clone()
    }
}

#[test]
fn one_axis_is_negated_and_the_others_are_kept() {
    let points = [1, 2, 3, -4, -5, -6, 0, 7];
    assert_eq!(mirrored(&points, 0), [-1, 2, 3, 4, -5, -6, 0, 7]);
    assert_eq!(mirrored(&points, 1), [1, -2, 3, -4, 5, -6, 0, -7]);
    assert_eq!(mirrored(&points, 2), [1, 2, -3, -4, -5, 6, 0, 7]);
    assert_eq!(mirrored(&points, 3), points);
    for axis in AXES {
        assert_eq!(mirrored(&[], axis), []);
        let twice = mirrored(&mirrored(&points, axis), axis);
        assert_eq!(twice, points);
    }
}

/// The lowest number of all has no negation.
#[test]
fn numbers_at_the_ends_of_the_i32_numbers() {
    let points = [i32::MIN, i32::MIN + 1, i32::MAX];
    assert_eq!(mirrored(&points, 0), points);
    assert_eq!(mirrored(&points, 1)[1], i32::MAX);
    assert_eq!(mirrored(&points, 2)[2], i32::MIN + 1);
}

/// "Refusals: none new": the check answers alike for both cages of a pair.
#[test]
fn a_mirrored_cage_is_answered_alike() {
    for entry in suite() {
        let answer = check(&entry.cage);
        for axis in AXES {
            assert_eq!(check(&partner(&entry.cage, axis)), answer, "{}", entry.name);
        }
    }
}

/// The levels of the other cage are the others of the levels, at each depth.
fn assert_mirrored_levels(name: &str, cage: &Cage, depth: u64, weight: Weight) {
    let here = levels_with(weight, cage, depth);
    for axis in AXES {
        let there = levels_with(weight, &partner(cage, axis), depth);
        for (here, there) in here.iter().zip(&there) {
            assert_eq!(partner(here, axis), *there, "{name} {axis}");
        }
    }
}

#[test]
fn a_mirrored_cage_gives_mirrored_levels() {
    for weight in WEIGHTS {
        for entry in refinable(weight, small_accepted()) {
            assert_mirrored_levels(&entry.name, &entry.cage, 2, weight);
        }
    }
}

/// Cages of at most four triangles, as deep as can be asked for.
#[test]
fn a_mirrored_cage_gives_mirrored_levels_down_to_depth_6() {
    for weight in WEIGHTS {
        for entry in refinable(weight, small_accepted()) {
            if entry.cage.triangle_count() <= 4 {
                assert_mirrored_levels(&entry.name, &entry.cage, 6, weight);
            }
        }
    }
}

/// x of each point of level 1. In all these cages y is 5 and z is −7, and stays so.
fn level_1(cage: &Cage, weight: Weight) -> Vec<i32> {
    let level = levels_with(weight, cage, 1).remove(1);
    let (points, _) = level.points.as_chunks::<3>();
    assert!(points.iter().all(|&[_, y, z]| (y, z) == (5, -7)));
    points.iter().map(|&[x, ..]| x).collect()
}

/// A cage with these numbers for x.
fn with_x(cage: &Cage, x: [i32; 3]) -> Cage {
    Cage {
        points: x.map(|x| [x, 5, -7]).concat(),
        ..cage.clone()
    }
}

/// By hand, rules V.2 and E.1: the vertices go to 12/8, 7/8 and −3/8, the edges
/// to 3/2, 0 and 1/2. With halves going up −12/8, −3/2 and −1/2 would become −1,
/// −1 and 0 in the other triangle: no pair.
#[test]
fn a_pair_of_triangles() {
    let triangle = document_triangle();
    let (left, right) = ([2, 1, -1], [-2, -1, 1]);
    for weight in WEIGHTS {
        let x = |x| level_1(&with_x(&triangle, x), weight);
        assert_eq!(x(left), [2, 1, 0, 2, 0, 1]);
        assert_eq!(x(right), [-2, -1, 0, -2, 0, -1]);
    }
}

/// By hand, rules V.3 with the short weight, (10v+3s)/16, and E.2: the vertices
/// go to 8/16, 36/16 and 36/16, the edges to 12/8, 16/8 and 12/8. With halves
/// going up −8/16 and −12/8 would become 0 and −1.
#[test]
fn a_pair_of_pillows() {
    let x = |x| level_1(&with_x(&document_pillow(), x), Weight::Short);
    assert_eq!(x([-1, 3, 3]), [1, 2, 2, 2, 2, 2]);
    assert_eq!(x([1, -3, -3]), [-1, -2, -2, -2, -2, -2]);
}

/// By hand, with the paper's weight, 39/128 at valence 2: (50v+39s)/128. The
/// vertices go to 64/128, −288/128 and −288/128, the edges to 0, −32/8 and 0.
/// With halves going up −64/128 would become 0.
#[test]
fn a_pair_of_pillows_with_the_paper_s_weight() {
    let x = |x| level_1(&with_x(&document_pillow(), x), Weight::Paper);
    assert_eq!(x([20, -12, -12]), [1, -2, -2, 0, -4, 0]);
    assert_eq!(x([-20, 12, 12]), [-1, 2, 2, 0, 4, 0]);
}
