//! Writing STL: the answer and every byte of the lent buffer, for every level
//! of the suite's cages and for corners and points of any numbers.

use compare::{accepted, assert_alike, handed, named, stl_length, Outcome, Question};
use ryebadger::{Refined, Weight};
use second::cage::{Cage, COORDINATE_LIMIT, MARKER};
use second::questions::stl::{long_questions, questions};
use second::stl::VERT_LIMIT;
use second::suite::{suite, Expected, SuiteCage};

/// Writes into a buffer that is longer than needed.
fn written(name: &str, vert: &[u32], points: &[i32]) -> Outcome {
    let longer = stl_length(vert) + 33;
    assert_alike(name, &Question::WriteStl(vert, points, longer))
}

/// Writes into buffers of every telling length: bytes past the file stay, and
/// one that is too short is told where nothing else is wrong.
fn written_into_each_room(name: &str, vert: &[u32], points: &[i32]) -> Outcome {
    let length = stl_length(vert);
    let outcome = written(name, vert, points);
    let (number, place) = outcome.verdict();
    for (lent, with_room) in [
        (length, (0, 0)),
        (length + 1, (0, 0)),
        (length - 1, (9, 6)),
        (length - 50, (9, 6)),
        (84, (9, 6)),
        (80, (9, 6)),
        (0, (9, 6)),
    ] {
        let expected = if number == 0 {
            with_room
        } else {
            (number, place)
        };
        let question = Question::WriteStl(vert, points, lent);
        let verdict = assert_alike(name, &question).verdict();
        assert_eq!(verdict, expected, "{name} into {lent}");
    }
    outcome
}

/// Every level of a cage down to a depth, each from its own part of the refined
/// tables, into a buffer that is as long as needed or a little longer.
fn at_every_level(name: &str, cage: &Cage, depth: u64) {
    let refined = Refined::new(handed(cage), depth, Weight::Short).expect(name);
    assert_eq!(refined.levels().count() as u64, depth + 1);
    for (longer, level) in refined.levels().enumerate() {
        let length = stl_length(level.vert);
        let question = Question::WriteStl(level.vert, level.points, length + longer % 3);
        let outcome = assert_alike(name, &question);
        assert_eq!(outcome.answer, [0, 0, length as u64], "{name}");
    }
}

#[test]
fn every_small_accepted_cage_at_every_level() {
    let mut entries = accepted();
    entries.retain(|entry| !entry.is_large());
    assert!(entries.len() > 150);
    for entry in entries {
        at_every_level(&entry.name, &entry.cage, 6);
    }
}

/// Level 6 of the largest, closed and with as many vertices as there may be, is
/// as long as a table may be.
#[test]
fn every_large_accepted_cage_at_every_level() {
    let mut entries = accepted();
    entries.retain(SuiteCage::is_large);
    assert!(entries.len() > 10);
    for name in ["torus-32x16", "most-halfedges-and-vertices"] {
        let largest = entries.iter().find(|entry| entry.name == name);
        let halfedges = largest.expect(name).cage.vert.len();
        assert_eq!(halfedges << 12, VERT_LIMIT);
    }
    for entry in entries {
        at_every_level(&entry.name, &entry.cage, 6);
    }
}

/// Also those that are sent back: of a cage only its corners and points count.
#[test]
fn every_cage_of_the_suite_into_each_room() {
    let mut numbers = [0; 9];
    for entry in suite() {
        let Cage { vert, points, .. } = &entry.cage;
        let outcome = written_into_each_room(&entry.name, vert, points);
        if entry.expected == Expected::Accepted {
            assert_eq!(outcome.verdict(), (0, 0), "{}", entry.name);
        }
        numbers[outcome.verdict().0 as usize] += 1;
    }
    for (number, count) in numbers.into_iter().enumerate() {
        let is_given = [0, 1, 4, 8].contains(&number);
        assert_eq!(count > 0, is_given, "{number}: {numbers:?}");
    }
}

#[test]
fn corners_and_points_to_try() {
    let questions = questions();
    assert!(questions.len() > 7_000);
    for question in questions {
        let (name, vert, points) = (&question.name, &question.vert, &question.points);
        let outcome = written_into_each_room(name, vert, points);
        outcome.assert_expected(name, question.expected);
    }
}

/// The triangle's file, byte by byte: 800/1024 is 0.78125.
#[test]
fn the_triangles_134_bytes() {
    let Cage { vert, points, .. } = named("triangle");
    let outcome = assert_alike("triangle", &Question::WriteStl(&vert, &points, 134));
    assert_eq!(outcome.answer, [0, 0, 134]);
    let (head, facet) = outcome.file.split_at(84);
    assert_eq!(head[..80], [0; 80]);
    assert_eq!(head[80..], [1, 0, 0, 0]);
    let mut expected = [0; 50];
    expected[24..28].copy_from_slice(&[0, 0, 0x48, 0x3F]);
    expected[40..44].copy_from_slice(&[0, 0, 0x48, 0x3F]);
    assert_eq!(facet, expected);
}

/// Each number of the range in its turn as a coordinate: the float times 1024
/// is that number again, and zero has no sign.
#[test]
fn every_coordinate_there_is() {
    let points: Vec<i32> = (-COORDINATE_LIMIT..=COORDINATE_LIMIT).collect();
    let vert: Vec<u32> = (0..points.len() as u32 / 3).collect();
    let outcome = written("every coordinate", &vert, &points);
    assert_eq!(outcome.answer, [0, 0, stl_length(&vert) as u64]);
    let facets = outcome.file[84..].chunks_exact(50).take(vert.len() / 3);
    let floats = facets.flat_map(|facet| facet[12..48].as_chunks::<4>().0);
    let floats = floats.map(|&bytes| f32::from_le_bytes(bytes));
    assert_eq!(floats.clone().count(), points.len());
    for (float, &coordinate) in floats.zip(&points) {
        assert_eq!(f64::from(float) * 1_024.0, f64::from(coordinate));
        assert_eq!(float.is_sign_negative(), coordinate < 0, "{coordinate}");
    }
}

#[test]
fn coordinates_at_the_limits_and_one_more_at_every_index() {
    for name in [
        "triangle",
        "pillow",
        "octahedron",
        "grid-3x3",
        "triangles-8",
    ] {
        let cage = named(name);
        for index in 0..cage.points.len() {
            for (coordinate, number) in [
                (0, 0),
                (1, 0),
                (-1, 0),
                (-1_023, 0),
                (1_048_575, 0),
                (-1_048_575, 0),
                (1_048_576, 0),
                (-1_048_576, 0),
                (1_048_577, 8),
                (-1_048_577, 8),
                (i32::MAX, 8),
                (i32::MIN, 8),
            ] {
                let mut points = cage.points.clone();
                points[index] = coordinate;
                let place = if number == 8 { index as u64 } else { 0 };
                let outcome = written(name, &cage.vert, &points);
                assert_eq!(outcome.verdict(), (number, place), "{name}");
            }
        }
    }
}

/// Every corner in turn past the points, with all after it or alone, and with a
/// coordinate that is out of range besides.
#[test]
fn one_wrong_corner_anywhere() {
    for name in ["triangle", "pillow", "octahedron", "grid-3x3", "torus-3x3"] {
        let Cage { vert, points, .. } = named(name);
        let past = points.len() as u32 / 3;
        let mut far = points.clone();
        far[0] = i32::MIN;
        for h in 0..vert.len() {
            for wrong in [past, past + 1, 1 << 20, 1 << 31, MARKER] {
                let mut alone = vert.clone();
                alone[h] = wrong;
                let mut several = vert.clone();
                several[h..].fill(wrong);
                for vert in [&alone, &several] {
                    for points in [&points, &far] {
                        let outcome = written(name, vert, points);
                        assert_eq!(outcome.verdict(), (4, h as u64), "{name}");
                    }
                }
            }
        }
    }
}

/// Tables as long as they may be, into a buffer with room and one a byte short;
/// and longer ones.
#[test]
fn the_longest_tables_to_try() {
    for question in long_questions() {
        let (name, vert, points) = (&question.name, &question.vert, &question.points);
        let lent = match vert.len() {
            VERT_LIMIT => stl_length(vert),
            _ => 300,
        };
        let into = |lent| assert_alike(name, &Question::WriteStl(vert, points, lent)).verdict();
        let verdicts = [into(lent), into(lent - 1)];
        match question.expected {
            Expected::Refused(refusal) => {
                let expected = (refusal.number.into(), refusal.place);
                assert_eq!(verdicts, [expected; 2], "{name}");
            }
            _ => assert_eq!(verdicts, [(0, 0), (9, 6)], "{name}"),
        }
    }
}
