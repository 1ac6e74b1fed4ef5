//! The weight, chosen per call: every valence that the paper's has an entry for,
//! refusal 14 and its place among the others, and the numbers that stand for the
//! paper's weight.

use compare::{
    assert_alike, assert_same, marked_tables, named, room_at, verdict_with, vertices_of, Archive,
    Question, SecondProgram, WEIGHTS,
};
use second::build::build;
use second::cage::{Cage, MARKER};
use second::draw::Draw;
use second::file::LONGEST_FORM_2;
use second::halfedge::ThreeTables;
use second::questions::files::{form_1_file, form_2_file};
use second::weight::{Weight, VALENCES};

/// The cage of these triangles, with points drawn from the whole range.
fn built(triangles: &[[u32; 3]]) -> Cage {
    let vert = triangles.as_flattened().to_vec();
    let vertices = vert.iter().max().map_or(0, |&last| last as usize + 1);
    let draw = &mut Draw::new(vert.len() as u64);
    let points: Vec<i32> = (0..3 * vertices)
        .map(|_| draw.coordinate(1_048_576))
        .collect();
    let (mut twin, mut edge) = (vert.clone(), vert.clone());
    build(&vert, &points, [&mut twin, &mut edge]).expect("a cage");
    Cage {
        twin,
        vert,
        edge,
        points,
        ..Cage::default()
    }
    .without_creases()
}

/// A hub of so many corners inside a rim, whose vertices come first. Of two
/// corners it is the pillow.
fn disc(corners: u32) -> Vec<[u32; 3]> {
    let corner = |rim| [rim, (rim + 1) % corners, corners];
    (0..corners).map(corner).collect()
}

/// A hub of so many corners on the border, which comes last.
fn open_fan(corners: u32) -> Vec<[u32; 3]> {
    let corner = |rim| [rim, rim + 1, corners + 1];
    (0..corners).map(corner).collect()
}

/// Number and place of refining with room.
fn refined(name: &str, cage: &Cage, depth: u64, weight: Weight) -> (u64, u64) {
    let question = Question::Refine(cage, depth, weight, room_at(cage, depth));
    assert_alike(name, &question).verdict()
}

#[test]
fn inner_vertices_of_2_to_33_corners() {
    for corners in 2..=33 {
        let (cage, name) = (built(&disc(corners)), format!("disc of {corners}"));
        let hub = &vertices_of(&cage)[corners as usize];
        assert_eq!((hub.corners, hub.is_on_border()), (corners as usize, false));
        let has_entry = VALENCES.contains(&hub.corners);
        assert_eq!(has_entry, corners != 33);
        for depth in 0..=4 {
            assert_eq!(refined(&name, &cage, depth, Weight::Short), (0, 0));
            let expected = if has_entry { (0, 0) } else { (14, 33) };
            let verdict = refined(&name, &cage, depth, Weight::Paper);
            assert_eq!(verdict, expected, "{name}");
        }
    }
}

/// The entries that document 02 gives: a hub at 0 with every neighbour at 2^20
/// goes to n·w/16.
#[test]
fn the_four_exact_entries() {
    for (corners, entry) in [
        (2, 5_111_808),
        (3, 3_145_728),
        (4, 2_031_616),
        (6, 1_048_576),
    ] {
        let mut cage = built(&disc(corners));
        let hub = 3 * corners as usize;
        cage.points.fill(1 << 20);
        cage.points[hub..].fill(0);
        let question = Question::Refine(&cage, 1, Weight::Paper, room_at(&cage, 1));
        let points = assert_alike("exact entry", &question).tables.points;
        let level_1 = &points[cage.points.len()..];
        let expected = corners as i32 * entry / 16;
        assert_eq!(level_1[hub..hub + 3], [expected; 3], "{corners}");
    }
}

/// 3/(8·6) is the paper's weight too; at no other valence are the two alike.
#[test]
fn only_at_six_corners_the_weights_are_the_same() {
    let tables = |cage: &Cage, weight| {
        let question = Question::Refine(cage, 2, weight, room_at(cage, 2));
        assert_alike("two weights", &question).tables
    };
    for corners in 2..=32 {
        let cage = built(&disc(corners));
        let [short, paper] = WEIGHTS.map(|weight| tables(&cage, weight));
        assert_eq!(short.points == paper.points, corners == 6, "{corners}");
        let without_points = |tables| Cage {
            points: vec![],
            ..tables
        };
        assert_eq!(without_points(short), without_points(paper));
    }
}

#[test]
fn border_vertices_may_have_any_number_of_corners() {
    for corners in [1, 32, 33, 1_024] {
        let cage = built(&open_fan(corners));
        let hub = &vertices_of(&cage)[corners as usize + 1];
        assert_eq!((hub.corners, hub.is_on_border()), (corners as usize, true));
        for weight in WEIGHTS {
            for depth in [0, 1, 3] {
                assert_eq!(refined("fan", &cage, depth, weight), (0, 0), "{corners}");
            }
        }
    }
}

/// With a border vertex of more corners and a lower number before it, and with
/// several inner ones, under other numbers too.
#[test]
fn the_lowest_inner_vertex_of_too_many_corners_is_told() {
    let later = |triangles: Vec<[u32; 3]>, first: u32| {
        let renumbered = triangles.into_iter();
        renumbered.map(move |corners| corners.map(|vertex| vertex + first))
    };
    let fan_and_discs = open_fan(40)
        .into_iter()
        .chain(later(disc(32), 42))
        .chain(later(disc(34), 75))
        .chain(later(disc(33), 110));
    let cage = built(&fan_and_discs.collect::<Vec<_>>());
    assert_eq!(refined("fan and discs", &cage, 1, Weight::Paper), (14, 109));
    for name in [
        "double-pyramid-33",
        "double-pyramid-33-disguised",
        "double-pyramid-512",
        "double-pyramid-512-disguised",
        "disc-1024-disguised",
    ] {
        let cage = named(name);
        let expected = verdict_with(Weight::Paper, &cage);
        assert_eq!(expected.0, 14, "{name}");
        for depth in [0, 1] {
            assert_eq!(
                refined(name, &cage, depth, Weight::Paper),
                expected,
                "{name}"
            );
            assert_eq!(refined(name, &cage, depth, Weight::Short), (0, 0), "{name}");
        }
    }
}

/// A cage with an inner vertex of 33 corners and a fault besides: what the short
/// weight has to answer, and the paper's.
#[test]
fn valence_comes_after_7_and_before_8() {
    let sound = built(&disc(33));
    let damaged = |damage: fn(&mut Cage)| {
        let mut cage = sound.clone();
        damage(&mut cage);
        cage
    };
    let far = damaged(|cage| cage.points[7] = 1_048_577);
    let pinched = damaged(|cage| {
        cage.twin.extend([MARKER; 3]);
        cage.vert.extend([5, 34, 35]);
        cage.edge.extend([66, 67, 68]);
        cage.points.extend([0; 6]);
        cage.creases.extend([0; 3]);
    });
    let unused = damaged(|cage| cage.points.extend([0; 3]));
    let many = damaged(|cage| cage.points.resize(3 * 2_049, 0));
    let torn = damaged(|cage| cage.points.truncate(100));
    for (cage, short, paper) in [
        (&sound, (0, 0), (14, 33)),
        (&far, (8, 7), (14, 33)),
        (&pinched, (7, 5), (7, 5)),
        (&damaged(|cage| cage.edge[4] = 66), (6, 4), (6, 4)),
        (&unused, (5, 34), (5, 34)),
        (&damaged(|cage| cage.vert[2] = 34), (4, 1), (4, 1)),
        (&damaged(|cage| cage.twin[1] = 1), (3, 1), (3, 1)),
        (&many, (2, 0), (2, 0)),
        (&torn, (1, 0), (1, 0)),
    ] {
        for (weight, expected) in WEIGHTS.into_iter().zip([short, paper]) {
            let question = Question::Refine(cage, 0, weight, [200; 5]);
            assert_eq!(assert_alike("one fault", &question).verdict(), expected);
        }
    }
}

/// A refusal leaves every lent cell, whether or not there is room for the levels.
#[test]
fn valence_comes_after_the_depth_and_before_the_room() {
    let cage = built(&disc(33));
    for (depth, lengths, short, paper) in [
        (0, [99, 99, 99, 102, 66], (0, 0), (14, 33)),
        (0, [99, 99, 99, 101, 66], (9, 4), (14, 33)),
        (0, [99, 99, 99, 102, 65], (9, 7), (14, 33)),
        (0, [0; 5], (9, 1), (14, 33)),
        (1, room_at(&cage, 1), (0, 0), (14, 33)),
        (6, [99; 5], (9, 1), (14, 33)),
        (7, [0; 5], (2, 0), (2, 0)),
        (u64::MAX, [200; 5], (2, 0), (2, 0)),
    ] {
        for (weight, expected) in WEIGHTS.into_iter().zip([short, paper]) {
            let question = Question::Refine(&cage, depth, weight, lengths);
            let outcome = assert_alike("depth and room", &question);
            assert_eq!(outcome.verdict(), expected, "{depth} into {lengths:?}");
            let is_left = outcome.tables == marked_tables(lengths);
            assert_eq!(is_left, expected != (0, 0), "{depth} into {lengths:?}");
        }
    }
}

/// Such a cage is checked, asked for a halfedge, written, read and moved all the
/// same.
#[test]
fn no_other_operation_refuses_a_valence() {
    let cage = built(&disc(33));
    let file = form_1_file(&cage);
    let [short, paper] = WEIGHTS.map(|weight| form_2_file(&cage, weight));
    for question in [
        Question::Check(&cage),
        Question::Why(&cage),
        Question::Halfedge(ThreeTables::of(&cage), 6, 0),
        Question::Write(&cage, file.len()),
        Question::Read(&file, [99, 99, 99, 102, 0]),
        Question::WriteForm2(&cage, Weight::Paper, paper.len()),
        Question::Read(&paper, [99, 99, 99, 102, 66]),
        Question::ToForm2(&file, short.len()),
        Question::ToForm1(&short, file.len()),
        Question::Build(&cage.vert, &cage.points, [99; 2]),
        Question::WriteStl(&cage.vert, &cage.points, 84 + 50 * 33),
    ] {
        assert_eq!(assert_alike("disc of 33", &question).verdict(), (0, 0));
    }
}

/// Any number but 0 is the paper's weight, whichever of its bits are set.
#[test]
fn every_other_number_is_the_papers_weight() {
    for name in ["pillow", "octahedron", "disc-33", "pieces", "cushion"] {
        let cage = named(name);
        for question in [
            Question::Refine(&cage, 2, Weight::Paper, room_at(&cage, 2)),
            Question::WriteForm2(&cage, Weight::Paper, LONGEST_FORM_2),
        ] {
            let judged = question.put_to(&SecondProgram);
            let single_bits = (0..32).map(|bit| 1 << bit);
            for paper in single_bits.chain([3, 255, 257, 65_535, u32::MAX - 1, u32::MAX]) {
                let host = question.put_to(&Archive { paper });
                assert_same(name, &question, &host, &judged);
            }
        }
    }
}
