//! Building from plain triangles: the answer and every cell of the two lent
//! tables, for the cages of the suite and for triangles of any numbers.

use std::collections::{HashMap, HashSet};

use compare::{accepted, assert_alike, named, Outcome, Question};
use second::cage::{Cage, MARKER};
use second::questions::triangles::questions;
use second::suite::suite;

/// Longer than any cage needs.
const LONG: [usize; 2] = [3_080, 3_091];

/// Builds into tables that are long enough for any cage.
fn built(name: &str, vert: &[u32], points: &[i32]) -> Outcome {
    assert_alike(name, &Question::Build(vert, points, LONG))
}

/// Builds into tables of every telling length: what is not written stays, and
/// the first that is too short is told where nothing else is wrong.
fn built_into_each_room(name: &str, vert: &[u32], points: &[i32]) -> Outcome {
    let h = vert.len();
    let outcome = built(name, vert, points);
    let rooms = [
        ([h, h], (0, 0)),
        ([h + 1, h], (0, 0)),
        ([h, h + 7], (0, 0)),
        ([h.saturating_sub(1), h], (9, 1)),
        ([h, h.saturating_sub(1)], (9, 3)),
        ([h + 3, h.saturating_sub(3)], (9, 3)),
        ([0, h], (9, 1)),
        ([0, 0], (9, 1)),
    ];
    for (lengths, with_room) in rooms {
        let (number, place) = outcome.verdict();
        let expected = if number == 0 {
            with_room
        } else {
            (number, place)
        };
        let question = Question::Build(vert, points, lengths);
        let verdict = assert_alike(name, &question).verdict();
        assert_eq!(verdict, expected, "{name} into {lengths:?}");
    }
    outcome
}

/// What building made of a cage's triangles, as a cage.
fn as_cage(vert: &[u32], points: &[i32], outcome: &Outcome) -> Cage {
    Cage {
        twin: outcome.tables.twin[..vert.len()].to_vec(),
        vert: vert.to_vec(),
        edge: outcome.tables.edge[..vert.len()].to_vec(),
        points: points.to_vec(),
        ..Cage::default()
    }
    .without_creases()
}

/// What was built passes the check, with the same answer.
fn assert_checked(name: &str, vert: &[u32], points: &[i32], outcome: &Outcome) {
    let cage = as_cage(vert, points, outcome);
    let checked = assert_alike(name, &Question::Check(&cage));
    assert_eq!(checked.answer, outcome.answer, "{name}");
}

#[test]
fn every_cage_of_the_suite() {
    let mut numbers = [0; 14];
    for entry in suite() {
        let (name, Cage { vert, points, .. }) = (&entry.name, &entry.cage);
        let outcome = built_into_each_room(name, vert, points);
        let (number, _) = outcome.verdict();
        if number == 0 {
            assert_checked(name, vert, points, &outcome);
        }
        numbers[number as usize] += 1;
    }
    for (number, count) in numbers.into_iter().enumerate() {
        let is_building_s = [0, 1, 2, 13, 4, 5, 7, 8].contains(&number);
        assert_eq!(count > 0, is_building_s, "{number}: {numbers:?}");
    }
}

#[test]
fn plain_triangles_to_try() {
    let questions = questions();
    assert!(questions.len() > 70_000);
    for question in questions {
        let (name, vert, points) = (&question.name, &question.vert, &question.points);
        let outcome = built(name, vert, points);
        outcome.assert_expected(name, question.expected);
        if outcome.verdict() == (0, 0) {
            assert_checked(name, vert, points, &outcome);
        }
        let without_room = Question::Build(vert, points, [vert.len(), 0]);
        assert_alike(name, &without_room);
    }
}

/// The directed pair of each halfedge.
fn pairs(vert: &[u32]) -> Vec<(u32, u32)> {
    let next = |h: usize| if h % 3 == 2 { h - 2 } else { h + 1 };
    (0..vert.len()).map(|h| (vert[h], vert[next(h)])).collect()
}

/// Whether no two halfedges have one pair, and no two border halfedges run
/// between the same two vertices.
fn follows_from_its_triangles(cage: &Cage) -> bool {
    let pairs = pairs(&cage.vert);
    let different: HashSet<_> = pairs.iter().collect();
    let borders = (0..).zip(&pairs).filter(|&(h, _)| is_border(cage, h));
    let borders: HashSet<_> = borders.map(|(_, &pair)| pair).collect();
    let is_slit = borders.iter().any(|&(a, b)| borders.contains(&(b, a)));
    different.len() == pairs.len() && !is_slit
}

fn is_border(cage: &Cage, h: usize) -> bool {
    cage.twin[h] == MARKER
}

/// Whether a number of the one table always stands beside the same number of
/// the other, both ways.
fn same_up_to_numbering(one: &[u32], other: &[u32]) -> bool {
    let (mut there, mut back) = (HashMap::new(), HashMap::new());
    let mut fits = |(&a, &b)| *there.entry(a).or_insert(b) == b && *back.entry(b).or_insert(a) == a;
    one.len() == other.len() && one.iter().zip(other).all(&mut fits)
}

#[test]
fn an_accepted_cage_is_built_again_from_its_triangles() {
    let (mut again, mut others) = (0, 0);
    for entry in accepted() {
        let (name, cage) = (&entry.name, &entry.cage);
        if !follows_from_its_triangles(cage) {
            others += 1;
            continue;
        }
        again += 1;
        let outcome = built(name, &cage.vert, &cage.points);
        let made = as_cage(&cage.vert, &cage.points, &outcome);
        assert_eq!(made.twin, cage.twin, "{name}");
        assert!(same_up_to_numbering(&made.edge, &cage.edge), "{name}");
        let checked = assert_alike(name, &Question::Check(cage));
        assert_eq!(checked.answer, outcome.answer, "{name}");
    }
    assert!(again > 150 && others > 20, "{again} {others}");
}

#[test]
fn documents_triangle_pillow_and_bow_tie() {
    let outcome = built("P1", &[0, 1, 2], &[0; 9]);
    assert_eq!(outcome.answer, [0, 0, 3, 3, 1, 3, 3]);
    assert_eq!(outcome.tables.twin[..3], [MARKER; 3]);
    assert_eq!(outcome.tables.edge[..3], [0, 1, 2]);
    let outcome = built("P5", &[0, 1, 2, 0, 2, 1], &[0; 9]);
    assert_eq!(outcome.answer, [0, 0, 6, 3, 2, 3, 0]);
    assert_eq!(outcome.tables.twin[..6], [5, 4, 3, 2, 1, 0]);
    assert_eq!(outcome.tables.edge[..6], [0, 1, 2, 2, 1, 0]);
    let outcome = built("P7", &[0, 1, 2, 0, 3, 4], &[0; 15]);
    assert_eq!(outcome.answer, [7, 0, 0, 0, 0, 0, 0]);
}

#[test]
fn halfedges_3072_accepted_and_3075_refused() {
    // Closed, open, and round one vertex of 1,024 corners.
    for name in ["torus-32x16", "grid-32x16", "disc-1024"] {
        let cage = named(name);
        let outcome = built_into_each_room(name, &cage.vert, &cage.points);
        assert_eq!(outcome.answer[..3], [0, 0, 3_072], "{name}");
    }
    for h in [3_075, 6_144, 300_000] {
        let vert: Vec<u32> = (0..h).collect();
        assert_eq!(built("long", &vert, &[0; 9]).verdict(), (2, 0));
        assert_eq!(built("long", &vert[1..], &[0; 9]).verdict(), (1, 0));
    }
}

#[test]
fn vertices_2048_accepted_and_2049_refused() {
    for name in ["most-vertices", "most-halfedges-and-vertices"] {
        let Cage { vert, points, .. } = named(name);
        let outcome = built_into_each_room(name, &vert, &points);
        assert_eq!((outcome.answer[0], outcome.answer[5]), (0, 2_048), "{name}");
    }
    for (vertices, verdict) in [(2_048, (5, 3)), (2_049, (2, 0)), (100_000, (2, 0))] {
        let points = vec![0; 3 * vertices];
        assert_eq!(built("points", &[0, 1, 2], &points).verdict(), verdict);
        assert_eq!(built("points", &[0, 1, 2], &points[1..]).verdict(), (1, 0));
    }
}

#[test]
fn coordinates_at_the_limits_and_one_more() {
    for name in ["triangle", "octahedron", "grid-6x5", "disc-1024"] {
        let cage = named(name);
        let last = cage.points.len() - 1;
        for index in (0..=last).step_by(1 + last / 20).chain([last]) {
            for (coordinate, number) in [
                (1_048_576, 0),
                (-1_048_576, 0),
                (1_048_577, 8),
                (i32::MIN, 8),
            ] {
                let mut points = cage.points.clone();
                points[index] = coordinate;
                let place = if number == 8 { index as u64 } else { 0 };
                let outcome = built(name, &cage.vert, &points);
                assert_eq!(outcome.verdict(), (number, place), "{name}");
            }
        }
    }
}

/// Every corner of a cage in turn past the points, or as the one before it.
#[test]
fn one_wrong_corner_anywhere() {
    for name in ["triangle", "pillow", "octahedron", "grid-3x3", "torus-3x3"] {
        let Cage { vert, points, .. } = named(name);
        for h in 0..vert.len() {
            let before = if h % 3 == 0 { h + 2 } else { h - 1 };
            for wrong in [points.len() as u32 / 3, MARKER, 1 << 20, vert[before], 0] {
                let mut vert = vert.clone();
                vert[h] = wrong;
                built_into_each_room(name, &vert, &points);
            }
        }
    }
}

/// The stack that the header says is enough.
const STACK: usize = 256 * 1024;

/// A closed cage of as many halfedges as there may be, also under far numbers,
/// is built on a stack of its own.
#[test]
fn a_small_stack_is_enough() {
    let cage = named("torus-32x16");
    let far: Vec<u32> = cage
        .vert
        .iter()
        .map(|v| v.wrapping_mul(1_000_003))
        .collect();
    let building = std::thread::Builder::new()
        .stack_size(STACK)
        .spawn(move || {
            let (mut twin, mut edge) = (vec![0; cage.vert.len()], vec![0; cage.vert.len()]);
            let done = ryebadger::build(&cage.vert, &cage.points, &mut twin, &mut edge);
            let refused = ryebadger::build(&far, &cage.points, &mut twin, &mut edge);
            (done.is_ok(), refused.map_err(|refusal| refusal.number()))
        });
    let (done, refused) = building.unwrap().join().unwrap();
    assert!(done);
    assert_eq!(refused.unwrap_err(), 4);
}
