//! Left and right: a cage and its mirror in x, in y or in z, put to the archive.
//! The answer and the tables come out the same, and the points mirrored.

use compare::{
    accepted, assert_alike, chosen, creased, first_difference, marked_tables, named, refused,
    room_at, verdict_with, Archive, Question, PLACES, WEIGHTS,
};
use ryebadger::{CageFile, Refined};
use second::cage::{Cage, MARKER};
use second::mirror::mirrored;
use second::questions::files::form_2_file;
use second::suite::{suite, SuiteCage};
use second::weight::Weight;

/// x, y and z.
const AXES: [usize; 3] = [0, 1, 2];

fn mirror_of(cage: &Cage, axis: usize) -> Cage {
    Cage {
        points: mirrored(&cage.points, axis),
        ..cage.clone()
    }
}

/// The cells past these lengths.
fn past(tables: &Cage, [twin, vert, edge, points, creases]: [usize; 5]) -> Cage {
    Cage {
        twin: tables.twin[twin..].to_vec(),
        vert: tables.vert[vert..].to_vec(),
        edge: tables.edge[edge..].to_vec(),
        points: tables.points[points..].to_vec(),
        creases: tables.creases[creases..].to_vec(),
    }
}

/// Refines a cage and its three mirrors, and tells number and place. A mirror
/// leaves what the cage left, once the points that were written are mirrored
/// back, and what was not written is untouched.
fn assert_mirrored(
    name: &str,
    cage: &Cage,
    depth: u64,
    weight: Weight,
    lengths: [usize; 5],
) -> (u64, u64) {
    let refined =
        |cage: &Cage| Question::Refine(cage, depth, weight, lengths).put_to(&Archive::default());
    let left = refined(cage);
    // The room, which is 0 on a refusal.
    let [halfedges, vertices, edges] = [23, 24, 25].map(|at| left.answer[at] as usize);
    let written = [halfedges, halfedges, halfedges, 3 * vertices, edges];
    let untouched = past(&marked_tables(lengths), written);
    assert_eq!(past(&left.tables, written), untouched, "{name}");
    for axis in AXES {
        let mut right = refined(&mirror_of(cage, axis));
        let points = &mut right.tables.points[..3 * vertices];
        points.copy_from_slice(&mirrored(points, axis));
        let found = first_difference(&right, &left);
        assert_eq!(found, None, "{name} to {depth}, {weight:?}, axis {axis}");
    }
    left.verdict()
}

/// An accepted cage with either weight, into tables that are longer than needed:
/// at every depth, or if it is large at depth 6 alone, where levels 0 to 6 stand
/// end to end.
fn assert_pairs(entry: &SuiteCage) {
    let least = if entry.is_large() { 6 } else { 0 };
    for weight in WEIGHTS {
        let expected = verdict_with(weight, &entry.cage);
        for depth in least..=6 {
            let lengths = room_at(&entry.cage, depth).map(|length| length + 5);
            let verdict = assert_mirrored(&entry.name, &entry.cage, depth, weight, lengths);
            assert_eq!(verdict, expected, "{}", entry.name);
        }
    }
}

#[test]
fn every_accepted_cage() {
    let entries = accepted();
    assert!(entries.iter().filter(|entry| entry.is_large()).count() > 15);
    std::thread::scope(|scope| {
        for first in [0, 1] {
            let every_other = entries.iter().skip(first).step_by(2);
            scope.spawn(|| every_other.for_each(assert_pairs));
        }
    });
}

/// Also where a coordinate is the lowest number, whose mirror is itself.
#[test]
fn every_refused_cage_at_three_depths_and_past_the_limit() {
    let entries = refused();
    let has_lowest = |entry: &SuiteCage| entry.cage.points.contains(&i32::MIN);
    assert!(entries.iter().any(has_lowest));
    for entry in &entries {
        for depth in [0, 1, 6, 7, u64::MAX] {
            for weight in WEIGHTS {
                let lengths = [40, 41, 42, 43, 44];
                let (number, _) = assert_mirrored(&entry.name, &entry.cage, depth, weight, lengths);
                assert_ne!(number, 0, "{}", entry.name);
            }
        }
    }
}

#[test]
fn room_exact_and_one_short_table_by_table() {
    for name in ["triangle", "pillow", "strip-2", "torus-3x3", "cushion"] {
        let cage = creased(&named(name), |edge| edge as u8 % 11);
        for depth in [0, 1, 3] {
            let exact = room_at(&cage, depth);
            for weight in WEIGHTS {
                let refined = |lengths| assert_mirrored(name, &cage, depth, weight, lengths);
                assert_eq!(refined(exact), (0, 0), "{name}");
                for (table, place) in PLACES.into_iter().enumerate() {
                    let mut short = exact;
                    short[table] -= 1;
                    assert_eq!(refined(short), (9, place), "{name}");
                }
            }
        }
    }
}

/// So a mirror is accepted exactly where the cage is.
#[test]
fn the_check_answers_for_a_mirror_as_for_the_cage() {
    for entry in suite() {
        let checked = |cage: &Cage| Question::Check(cage).put_to(&Archive::default());
        let left = checked(&entry.cage);
        for axis in AXES {
            let right = checked(&mirror_of(&entry.cage, axis));
            assert_eq!(right, left, "{}, axis {axis}", entry.name);
        }
    }
}

#[test]
fn the_second_program_refines_every_small_mirror_alike() {
    for entry in accepted().iter().filter(|entry| !entry.is_large()) {
        let lengths = room_at(&entry.cage, 2);
        for mirror in AXES.map(|axis| mirror_of(&entry.cage, axis)) {
            for weight in WEIGHTS {
                assert_alike(&entry.name, &Question::Refine(&mirror, 2, weight, lengths));
            }
        }
    }
}

/// From two cage files, with the safe crate.
#[test]
fn a_pair_of_cushions() {
    let cage = named("cushion");
    for weight in WEIGHTS {
        let [left, right] = [&cage, &mirror_of(&cage, 0)].map(|cage| {
            let file = CageFile::read(&form_2_file(cage, weight)).expect("a cage file");
            assert_eq!(file.weight, chosen(weight));
            Refined::new(file.cage.as_cage(), 6, file.weight).expect("accepted")
        });
        assert_eq!(left.counts(), right.counts());
        for (left, right) in left.levels().zip(right.levels()) {
            let points = &mirrored(left.points, 0);
            // Not assert_eq, which would print both levels.
            assert!(right == ryebadger::Cage { points, ..left });
        }
    }
}

/// What is compared above are different points, but for flat cages.
#[test]
fn nearly_every_mirror_differs_from_its_cage() {
    let entries = accepted();
    for axis in AXES {
        let differs = |entry: &&SuiteCage| mirror_of(&entry.cage, axis) != entry.cage;
        let count = entries.iter().filter(differs).count();
        assert!(count * 10 > entries.len() * 9, "axis {axis}: {count}");
    }
}

/// And halves are among them, which go away from zero: mirrors would also come
/// out alike if all halves went toward it.
#[test]
fn border_edges_at_a_half_above_zero_and_below() {
    let mut halves = [0, 0];
    for entry in accepted() {
        let cage = &entry.cage;
        let question = Question::Refine(cage, 1, Weight::Short, room_at(cage, 1));
        let points = question.put_to(&Archive::default()).tables.points;
        // After level 0 and what became of its vertices.
        let edge_points = &points[2 * cage.points.len()..];
        for h in (0..cage.twin.len()).filter(|&h| cage.twin[h] == MARKER) {
            let next = if h % 3 == 2 { h - 2 } else { h + 1 };
            let [a, b] = [h, next].map(|h| 3 * cage.vert[h] as usize);
            for axis in AXES {
                let sum = cage.points[a + axis] + cage.points[b + axis];
                if sum % 2 != 0 {
                    halves[usize::from(sum < 0)] += 1;
                    let rounded = edge_points[3 * cage.edge[h] as usize + axis];
                    assert_eq!(2 * rounded, sum + sum.signum(), "{}", entry.name);
                }
            }
        }
    }
    assert!(halves.iter().all(|&count| count > 1_000), "{halves:?}");
}
