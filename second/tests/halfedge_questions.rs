//! Document 02, §9, "One halfedge, no tables": the refusals, over the questions that
//! are there to try and over tables of any kind.

mod common;

use std::collections::{HashMap, HashSet};

use common::{document_pillow, document_triangle};
use second::cage::{Cage, MARKER};
use second::check::check;
use second::draw::Draw;
use second::halfedge::{five_numbers, halfedge_question, Climber, ThreeTables};
use second::questions::halfedges::{questions, HalfedgeQuestion};
use second::refusal::Refusal;
use second::suite::{suite, Expected};

fn numbers_of(question: &HalfedgeQuestion) -> [u64; 5] {
    let (depth, halfedge) = (question.depth, question.halfedge);
    five_numbers(halfedge_question(question.tables(), depth, halfedge))
}

#[test]
fn the_questions_are_answered_as_foreseen() {
    for question in questions() {
        let numbers = numbers_of(&question);
        let [number, place, cells @ ..] = numbers;
        match question.expected {
            Expected::Accepted => assert_eq!((number, place), (0, 0), "{}", question.name),
            Expected::Refused(refusal) => {
                let foreseen = [refusal.number.into(), refusal.place, 0, 0, 0];
                assert_eq!(numbers, foreseen, "{}", question.name);
            }
            Expected::Unforeseen => {}
        }
        assert!(number == 0 || cells == [0; 3], "{}", question.name);
        assert!(number != 0 || place == 0, "{}", question.name);
    }
}

/// How the names of questions about cages of the suite begin.
const ABOUT_CAGES: [&str; 17] = [
    "triangle-v-",
    "pillow-v-",
    "torus-32x16-v-",
    "most-vertices-v-",
    "triangle-depth-",
    "pillow-depth-",
    "disc-1024-disguised-depth-",
    "torus-32x16-of-3072-",
    "disc-1024-of-3075-",
    "strip-1025-of-3075-",
    "triangle-at-0-",
    "pillow-at-1-",
    "tetrahedron-disguised-at-2-",
    "grid-3x3-disguised-at-3-",
    "pieces-disguised-at-4-",
    "torus-32x16-disguised-at-5-",
    "grid-32x16-at-6-",
];

#[test]
fn each_cage_has_its_questions() {
    let questions = questions();
    for start in ABOUT_CAGES {
        let about_it = |q: &HalfedgeQuestion| q.name.starts_with(start);
        assert!(questions.iter().any(about_it), "{start}");
    }
}

#[test]
fn names_differ() {
    let questions = questions();
    let names: HashSet<&str> = questions.iter().map(|q| q.name.as_str()).collect();
    assert_eq!(names.len(), questions.len());
}

#[test]
fn each_refusal_is_foreseen_at_several_places() {
    let questions = questions();
    for number in (1..=7).chain([17]) {
        let of_number = questions.iter().filter_map(|q| match q.expected {
            Expected::Refused(refusal) if refusal.number == number => Some(refusal.place),
            _ => None,
        });
        let places: Vec<u64> = of_number.collect();
        let different: HashSet<&u64> = places.iter().collect();
        assert!(places.len() >= 20, "{number}");
        assert!(number <= 2 || different.len() >= 5, "{number}");
    }
    let expected = |q: &&HalfedgeQuestion| q.expected == Expected::Accepted;
    assert!(questions.iter().filter(expected).count() >= 1_000);
}

/// The drawn questions meet every answer that there is.
#[test]
fn drawn_questions_meet_every_answer() {
    let mut met: HashMap<u64, usize> = HashMap::new();
    let questions = questions();
    let drawn = questions.iter().filter(|q| q.name.starts_with("drawn-"));
    for question in drawn {
        let [number, ..] = numbers_of(question);
        *met.entry(number).or_default() += 1;
    }
    for number in [0, 2, 3, 4, 5, 6, 7, 17] {
        assert!(
            met.get(&number).is_some_and(|&times| times >= 100),
            "{met:?}"
        );
    }
}

/// The number with which each cage of the suite is refused by the cage check.
fn refused_by_the_check() -> HashMap<String, u32> {
    let refused = suite().into_iter().filter_map(|entry| {
        let refusal = check(&entry.cage).err()?;
        Some((entry.name, refusal.number))
    });
    refused.collect()
}

/// "No points and no creases": the tables of cages that are refused for those by 1
/// for a length, by 8 and by 15 are answered, or refused by what comes after that.
#[test]
fn points_and_creases_have_no_part() {
    let by_the_check = refused_by_the_check();
    let (mut answered, mut refused) = (HashMap::new(), HashMap::new());
    for question in questions() {
        let number = by_the_check.get(&question.name);
        if let Some(number @ (1 | 8 | 15)) = number {
            let counted = match question.expected {
                Expected::Accepted => &mut answered,
                Expected::Refused(_) => &mut refused,
                Expected::Unforeseen => continue,
            };
            *counted.entry(*number).or_default() += 1;
        }
    }
    assert_eq!(answered, HashMap::from([(1, 9), (8, 20), (15, 11)]));
    assert_eq!(refused, HashMap::from([(1, 8), (15, 2)]));
}

/// What the cage check says of the tables with so many points at zero and without
/// creases: its 8 and 15 have nothing to refuse.
fn check_of(tables: ThreeTables<'_>) -> Option<Refusal> {
    let cage = Cage {
        twin: tables.twin.to_vec(),
        vert: tables.vert.to_vec(),
        edge: tables.edge.to_vec(),
        points: vec![0; 3 * tables.vertices as usize],
        ..Cage::default()
    };
    check(&cage.without_creases()).err()
}

/// "The check's 1 to 7 on these, with the depth limit in 2, then 17."
fn assert_refused_as_by_the_check(question: &HalfedgeQuestion) {
    let (tables, depth) = (question.tables(), question.depth);
    let by_the_check = check_of(tables);
    let refusal = match by_the_check {
        Some(Refusal { number: 1, .. }) => by_the_check,
        _ if depth > 6 => Some(Refusal::new(2, 0)),
        Some(_) => by_the_check,
        None => {
            let missing = question.halfedge >= (tables.twin.len() as u64) << (2 * depth);
            missing.then_some(Refusal {
                number: 17,
                place: question.halfedge,
            })
        }
    };
    let answer = halfedge_question(tables, depth, question.halfedge);
    assert_eq!(answer.err(), refusal, "{}", question.name);
}

/// As many points as V may say are not to be had: 5,000 are above the limit too.
#[test]
fn the_questions_are_refused_as_by_the_check() {
    for mut question in questions() {
        question.vertices = question.vertices.min(5_000);
        assert_refused_as_by_the_check(&question);
        question.depth = question.halfedge % 9;
        assert_refused_as_by_the_check(&question);
    }
}

/// A table that is mostly of this length, with markers and small numbers.
fn drawn_table(draw: &mut Draw, length: usize) -> Vec<u32> {
    let other = draw.place(8);
    let length = draw.choice(length, &[length, length, length, length, other]);
    let any = draw.number() as u32;
    let cell = |_| draw.choice(MARKER, &[MARKER, 0, 1, 2, 3, any]);
    (0..length).map(cell).collect()
}

#[test]
fn drawn_tables_are_refused_as_by_the_check() {
    let draw = &mut Draw::new(19);
    for number in 0..40_000 {
        let h = 3 * draw.place(3);
        assert_refused_as_by_the_check(&HalfedgeQuestion {
            name: number.to_string(),
            twin: drawn_table(draw, h),
            vert: drawn_table(draw, h),
            edge: drawn_table(draw, h),
            vertices: draw.below(6),
            depth: draw.below(9),
            halfedge: draw.below(64 * h as u64 + 9),
            expected: Expected::Unforeseen,
        });
    }
}

/// V as a number, where the cage has 3 vertices.
#[test]
fn numbers_for_v() {
    let answer = |vertices| {
        let triangle = document_triangle();
        let tables = ThreeTables {
            vertices,
            ..ThreeTables::of(&triangle)
        };
        Climber::new(tables, 6).map(|_| ()).err()
    };
    assert_eq!(answer(3), None);
    for v in [0, 1, 2] {
        assert_eq!(answer(v), Some(Refusal::new(4, v as usize)));
    }
    for v in [4, 5, 2_048] {
        assert_eq!(answer(v), Some(Refusal::new(5, 3)));
    }
    for v in [2_049, (1 << 32) + 3, u64::MAX] {
        assert_eq!(answer(v), Some(Refusal::new(2, 0)));
    }
}

/// "With that number as place, when it is not below the level's H."
#[test]
fn no_such_halfedge() {
    for (cage, halfedges) in [(document_triangle(), 3), (document_pillow(), 6)] {
        for depth in 0..=6 {
            let numbers = |h| five_numbers(halfedge_question(ThreeTables::of(&cage), depth, h));
            let end = halfedges * 4_u64.pow(depth as u32);
            assert_eq!(numbers(end - 1)[..2], [0, 0]);
            let round_32_bits = (1 << 32) + end - 1;
            for h in [end, end + 1, 1 << 32, round_32_bits, 1 << 63, u64::MAX] {
                assert_eq!(numbers(h), [17, h, 0, 0, 0]);
            }
        }
    }
}
