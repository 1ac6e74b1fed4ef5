//! One halfedge of a level, without the levels: refusals 1 to 7 of the three tables
//! and V, then 17; and what has no part in it, the points and the creases.

use compare::{
    accepted, assert_alike, handed, joined, named, refused, Outcome, Question, SecondProgram,
};
use ryebadger::sys;
use second::cage::{Cage, MARKER};
use second::halfedge::ThreeTables;
use second::questions::halfedges;
use second::suite::SuiteCage;

fn asked(name: &str, of: ThreeTables<'_>, depth: u64, halfedge: u64) -> Outcome {
    let outcome = assert_alike(name, &Question::Halfedge(of, depth, halfedge));
    if outcome.verdict().0 != 0 {
        assert_eq!(outcome.answer[2..], [0; 3], "{name}");
    }
    outcome
}

/// Number and place for a halfedge of the cage's three tables and V.
fn verdict(name: &str, cage: &Cage, depth: u64, halfedge: u64) -> (u64, u64) {
    asked(name, ThreeTables::of(cage), depth, halfedge).verdict()
}

/// Chosen ones, sets of faults among them, every cage of the suite, and drawn ones.
#[test]
fn every_question_to_try() {
    let questions = halfedges::questions();
    assert!(questions.len() > 10_000);
    let mut numbers = [0; 18];
    for question in &questions {
        let (name, of) = (&question.name, question.tables());
        let outcome = asked(name, of, question.depth, question.halfedge);
        outcome.assert_expected(name, question.expected);
        numbers[outcome.verdict().0 as usize] += 1;
    }
    for (number, count) in numbers.into_iter().enumerate() {
        let is_given = number <= 7 || number == 17;
        assert_eq!(count > 0, is_given, "{number}: {numbers:?}");
    }
}

/// The level's last halfedge and the next one, then numbers that are one of the
/// level's in 32 bits or in 63, and the highest. The place is all of the number.
#[test]
fn a_halfedge_that_the_level_does_not_have() {
    for name in ["triangle", "pillow", "cushion", "torus-32x16", "grid-32x16"] {
        let cage = named(name);
        let of = ThreeTables::of(&cage);
        for depth in 0..=6 {
            let end = (cage.halfedge_count() as u64) << (2 * depth);
            let last = asked(name, of, depth, end - 1);
            assert_eq!(last.verdict(), (0, 0), "{name} at {depth}");
            let near = [end, end + 1, 4 * end - 1, 4 * end, MARKER.into()];
            let above = [1 << 32, 1 << 33, 1 << 40, 1 << 63];
            let alike = above.map(|more| [more, more + 1, more + end - 1, more + end]);
            let highest = [u64::MAX - 1, u64::MAX];
            for halfedge in near.into_iter().chain(alike.concat()).chain(highest) {
                let answer = asked(name, of, depth, halfedge).answer;
                assert_eq!(answer, [17, halfedge, 0, 0, 0], "{name} at {depth}");
            }
        }
    }
}

/// TWIN, VERT or EDGE.
const TABLES: [fn(&mut Cage) -> &mut Vec<u32>; 3] = [
    |cage| &mut cage.twin,
    |cage| &mut cage.vert,
    |cage| &mut cage.edge,
];

/// To every number up to one more than H, to the marker and to the number below it.
/// With points that are in range and without creases the verdict is the cage
/// check's, and comes before 17.
#[test]
fn every_cell_of_small_cages_changed() {
    let mut numbers = [0; 8];
    for name in [
        "triangle",
        "pillow",
        "tetrahedron",
        "grid-3x3",
        "clause-fan-ends-first",
    ] {
        let cage = named(name);
        let h = cage.twin.len();
        let cells = || (0..=h as u32 + 1).chain([MARKER - 1, MARKER]);
        for table in TABLES {
            for (cell, number) in (0..h).flat_map(|at| cells().map(move |n| (at, n))) {
                let mut changed = cage.clone();
                table(&mut changed)[cell] = number;
                let changed = changed.without_creases();
                let checked = assert_alike(name, &Question::Check(&changed)).verdict();
                assert_eq!(verdict(name, &changed, 2, 0), checked, "{name}");
                let missing = match checked {
                    (0, 0) => (17, u64::MAX),
                    refused => refused,
                };
                assert_eq!(verdict(name, &changed, 2, u64::MAX), missing, "{name}");
                numbers[checked.0 as usize] += 1;
            }
        }
    }
    for number in [0, 3, 4, 5, 6, 7] {
        assert!(numbers[number] > 0, "{number}: {numbers:?}");
    }
}

/// A table a cell longer or shorter, and all three: 1, before the limits and before
/// what is wrong in the cells.
#[test]
fn lengths_that_no_cage_has() {
    for name in ["triangle", "pillow", "torus-32x16", "strip-1025"] {
        let cage = named(name);
        let whole = [&cage.twin, &cage.vert, &cage.edge];
        for changed in 1..8 {
            for more in [true, false] {
                let cells = |table: usize| {
                    let mut cells = whole[table].clone();
                    match (changed >> table & 1 == 1, more) {
                        (true, true) => cells.push(u32::MAX),
                        (true, false) => drop(cells.pop()),
                        (false, _) => {}
                    }
                    cells
                };
                let [twin, vert, edge] = [0, 1, 2].map(cells);
                let of = ThreeTables {
                    twin: &twin,
                    vert: &vert,
                    edge: &edge,
                    vertices: cage.vertex_count() as u64,
                };
                for (depth, halfedge) in [(0, 0), (6, 5), (7, 0), (u64::MAX, u64::MAX)] {
                    let outcome = asked(name, of, depth, halfedge);
                    assert_eq!(outcome.verdict(), (1, 0), "{name}");
                }
            }
        }
    }
}

/// One less, and some corner is past the points; one more, and there is a vertex on
/// no halfedge; more than 2,048, whatever the cells are.
#[test]
fn another_number_of_vertices() {
    for SuiteCage { name, cage, .. } in &accepted() {
        let own = cage.vertex_count() as u64;
        let last = own as u32 - 1;
        let past = cage.vert.iter().position(|&vertex| vertex == last);
        let more = if own < 2_048 { (5, own) } else { (2, 0) };
        for (vertices, expected) in [
            (own, (0, 0)),
            (own - 1, (4, past.expect(name) as u64)),
            (own + 1, more),
            (2_049, (2, 0)),
            ((1 << 32) + own, (2, 0)),
            (u64::MAX, (2, 0)),
        ] {
            let of = ThreeTables {
                vertices,
                ..ThreeTables::of(cage)
            };
            let outcome = asked(name, of, 6, 2);
            assert_eq!(outcome.verdict(), expected, "{name} with {vertices}");
        }
    }
}

/// 2, before what is wrong in the cells and before 17.
#[test]
fn a_depth_above_the_limit() {
    for name in ["triangle", "pillow", "cushion", "torus-32x16"] {
        let cage = named(name);
        let mut stray = cage.clone();
        stray.vert[0] = MARKER;
        stray.twin[1] = 1;
        for depth in [7, 8, 31, 64, 1 << 32, (1 << 32) + 6, 1 << 63, u64::MAX] {
            for halfedge in [0, 1, u64::MAX] {
                for cage in [&cage, &stray] {
                    let told = verdict(name, cage, depth, halfedge);
                    assert_eq!(told, (2, 0), "{name} at {depth}");
                }
            }
        }
        assert_eq!(verdict(name, &stray, 6, u64::MAX), (3, 1), "{name}");
    }
}

/// Whether the three tables are of one length, and of whole triangles.
fn has_triangles(cage: &Cage) -> bool {
    let h = cage.twin.len();
    h > 0 && h.is_multiple_of(3) && [&cage.vert, &cage.edge].map(Vec::len) == [h, h]
}

/// Cages that the check refuses by 8, by 15, or by 1 for the length of the points or of
/// the creases are answered, unless what comes after that is wrong too. Any other
/// verdict is the check's own.
#[test]
fn points_and_creases_have_no_part() {
    let mut answered = [0; 16];
    for SuiteCage { name, cage, .. } in &refused() {
        let checked = assert_alike(name, &Question::Check(cage)).verdict();
        let told = verdict(name, cage, 3, 2);
        let is_foreseen = match checked.0 {
            1 if has_triangles(cage) => told.0 != 1,
            8 => told == (0, 0),
            15 => [0, 7].contains(&told.0),
            _ => told == checked,
        };
        assert!(is_foreseen, "{name}: {checked:?}, {told:?}");
        answered[checked.0 as usize] += usize::from(told == (0, 0));
    }
    for number in [1, 8, 15] {
        assert!(answered[number] > 5, "{number}: {answered:?}");
    }
}

/// The same cage with points and creases changed all over is answered alike.
#[test]
fn any_points_and_any_creases() {
    for name in ["pillow", "grid-3x3", "cushion", "creased-number-3-open"] {
        let cage = named(name);
        let changed = Cage {
            points: cage.points.iter().map(|_| i32::MIN).collect(),
            creases: vec![255; 7],
            ..cage.clone()
        };
        let refusal = ryebadger::check(handed(&changed)).expect_err(name);
        assert_eq!(refusal.number(), 1, "{name}");
        for (depth, halfedge) in [(0, 1), (1, 5), (3, 77), (6, 4_095), (6, u64::MAX)] {
            let [own, other] = [&cage, &changed]
                .map(|cage| asked(name, ThreeTables::of(cage), depth, halfedge).answer);
            assert_eq!(own, other, "{name}: {halfedge} at {depth}");
        }
    }
}

/// Done and refused, all five cells are written, whatever they held.
#[test]
fn the_answer_is_written_whole() {
    let cage = named("triangle");
    let of = ThreeTables::of(&cage);
    let empty = ThreeTables { twin: &[], ..of };
    for (of, depth, halfedge) in [
        (of, 0, 1),
        (of, 1, 2),
        (of, 6, 12_287),
        (of, 6, 12_288),
        (of, 0, u64::MAX),
        (of, 7, 0),
        (empty, 0, 0),
    ] {
        let judged = Question::Halfedge(of, depth, halfedge).put_to(&SecondProgram);
        for mark in [0, 1, 17, u32::MAX.into(), 1 << 32, 1 << 63, u64::MAX] {
            let mut answer = [mark; sys::HALFEDGE_ANSWER];
            sys::halfedge(joined(of), depth, halfedge, &mut answer);
            assert_eq!(answer[..], judged.answer, "{halfedge} at {depth}");
        }
    }
}
