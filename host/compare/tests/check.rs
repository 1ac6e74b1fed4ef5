//! The cage check: refusals 1 to 8 and 15, and the counts of an accepted cage.

use compare::{assert_alike, named, Outcome, Question};
use second::cage::Cage;
use second::suite::suite;

fn checked(name: &str, cage: &Cage) -> Outcome {
    assert_alike(name, &Question::Check(cage))
}

#[test]
fn every_cage_of_the_suite_valid_and_damaged() {
    let suite = suite();
    let mut numbers = [0; 16];
    for entry in &suite {
        let outcome = checked(&entry.name, &entry.cage);
        outcome.assert_expected(&entry.name, entry.expected);
        numbers[outcome.verdict().0 as usize] += 1;
    }
    for (number, count) in numbers.into_iter().enumerate() {
        let is_the_check_s = number <= 8 || number == 15;
        assert_eq!(count > 0, is_the_check_s, "{number}: {numbers:?}");
    }
}

#[test]
fn coordinates_at_the_limits_and_one_more_at_many_indexes() {
    for name in ["triangle", "pillow", "octahedron", "grid-6x5", "disc-1024"] {
        let cage = named(name);
        let last = cage.points.len() - 1;
        let step = 1 + last / 40;
        for index in (0..=last).step_by(step).chain([last - 1, last]) {
            for (coordinate, number) in [
                (1_048_576, 0),
                (-1_048_576, 0),
                (1_048_577, 8),
                (-1_048_577, 8),
                (i32::MAX, 8),
                (i32::MIN, 8),
            ] {
                let mut cage = cage.clone();
                cage.points[index] = coordinate;
                let place = if number == 8 { index as u64 } else { 0 };
                assert_eq!(checked(name, &cage).verdict(), (number, place));
            }
        }
    }
}

#[test]
fn the_lowest_of_several_coordinates_out_of_range() {
    let mut cage = named("octahedron");
    for index in (0..cage.points.len()).rev() {
        cage.points[index] = if index % 2 == 0 {
            1_048_577
        } else {
            -1_048_577
        };
        assert_eq!(checked("octahedron", &cage).verdict(), (8, index as u64));
    }
}

#[test]
fn halfedges_3072_accepted_and_3075_refused() {
    for name in ["torus-32x16", "grid-32x16", "disc-1024"] {
        let answer = checked(name, &named(name)).answer;
        assert_eq!(answer[..3], [0, 0, 3_072], "{name}");
    }
    for name in ["strip-1025", "torus-32x16-and-triangle"] {
        let cage = named(name);
        assert_eq!(cage.halfedge_count(), 3_075);
        assert_eq!(checked(name, &cage).verdict(), (2, 0), "{name}");
    }
}

#[test]
fn vertices_2048_accepted_and_2049_refused() {
    for name in ["most-vertices", "most-halfedges-and-vertices"] {
        let answer = checked(name, &named(name)).answer;
        assert_eq!((answer[0], answer[5]), (0, 2_048), "{name}");
    }
    for name in ["triangles-683", "triangle-of-2049-vertices"] {
        let cage = named(name);
        assert_eq!(cage.vertex_count(), 2_049);
        assert_eq!(checked(name, &cage).verdict(), (2, 0), "{name}");
    }
}
