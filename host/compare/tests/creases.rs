//! Edges that stay sharp: E of any table, the crease table from level to level,
//! what creases do to the points, refusals 1 and 15 and their place among the
//! others, and a cage that is handed over without creases.

use compare::{
    accepted, assert_alike, chosen, creased, handed, lent, marked_tables, named, owned, room_at,
    verdict_with, vertices_of, Outcome, Question, SecondProgram, WEIGHTS,
};
use ryebadger::Refined;
use second::cage::{Cage, MARKER};
use second::creases::CREASE_LIMIT;
use second::draw::Draw;
use second::questions;
use second::questions::files::form_1_file;
use second::suite::{suite, SuiteCage};
use second::weight::Weight;

/// The edges on a border, by edge number.
fn borders(cage: &Cage) -> Vec<bool> {
    let mut borders = vec![false; cage.edge_count()];
    for h in (0..cage.twin.len()).filter(|&h| cage.twin[h] == MARKER) {
        borders[cage.edge[h] as usize] = true;
    }
    borders
}

/// The accepted cages with a crease, but for the large ones.
fn small_with_creases() -> Vec<SuiteCage> {
    let mut entries = accepted();
    entries
        .retain(|entry| !entry.is_large() && entry.cage.creases.iter().any(|&number| number > 0));
    assert!(entries.len() > 30);
    entries
}

fn assert_edges(name: &str, twin: &[u32]) {
    let outcome = assert_alike(name, &Question::Edges(twin));
    let is_counted = |(h, &t): &(usize, &u32)| t == MARKER || (t as usize) < *h;
    let edges = twin.iter().enumerate().filter(is_counted).count();
    assert_eq!(outcome.answer, [edges as u64], "{name}");
}

#[test]
fn edges_of_any_twins() {
    let questions = questions::edges::questions();
    assert!(questions.len() > 100);
    for twin in questions {
        assert_edges("twins to try", &twin);
    }
    for entry in suite() {
        assert_edges(&entry.name, &entry.cage.twin);
    }
    let draw = &mut Draw::new(61);
    for length in [3_071, 3_072, 3_075, 65_536, 65_537, 1_000_000_u32] {
        let mut twin = || match draw.below(4) {
            0 => MARKER,
            1 => draw.number() as u32,
            _ => draw.below(length.into()) as u32,
        };
        let twin: Vec<u32> = (0..length).map(|_| twin()).collect();
        assert_edges("drawn twins", &twin);
    }
}

/// The four tables without a crease table, as the safe crate takes them.
fn without_creases(cage: &Cage) -> ryebadger::Cage<'_> {
    ryebadger::Cage {
        creases: None,
        ..handed(cage)
    }
}

/// What the safe crate leaves of marked tables in refining.
fn refined_into(
    cage: ryebadger::Cage<'_>,
    depth: u64,
    weight: Weight,
    lengths: [usize; 5],
) -> (Result<ryebadger::LevelCounts, ryebadger::Refusal>, Cage) {
    let mut tables = marked_tables(lengths);
    let counts = ryebadger::refine(cage, depth, chosen(weight), &mut lent(&mut tables));
    (counts, tables)
}

/// A cage that is handed over without creases is checked, explained and refined as
/// one with a 0 for each edge, in room and without it. Whether it is accepted.
fn assert_none_is_zeros(name: &str, cage: &Cage, depth: u64) -> bool {
    let zeros = cage.clone().without_creases();
    let (none, some) = (without_creases(cage), handed(&zeros));
    let checked = ryebadger::check(none);
    assert_eq!(checked, ryebadger::check(some), "{name}");
    assert_eq!(ryebadger::why(none), ryebadger::why(some), "{name}");
    let judged = Question::Check(&zeros).put_to(&SecondProgram).verdict();
    let numbers = |refusal: ryebadger::Refusal| (refusal.number().into(), refusal.place().into());
    assert_eq!(judged, checked.map_or_else(numbers, |_| (0, 0)), "{name}");
    let room = match checked {
        Ok(_) => room_at(&zeros, depth),
        Err(_) => [40, 41, 42, 43, 44],
    };
    for weight in WEIGHTS {
        for lengths in [room, room.map(|length| length + 1), [0; 5]] {
            let [none, some] = [none, some].map(|cage| refined_into(cage, depth, weight, lengths));
            // Not assert_eq, which would print both tables.
            assert!(none == some, "{name}");
        }
        let [none, some] = [none, some].map(|cage| Refined::new(cage, depth, chosen(weight)));
        assert!(none == some, "{name}");
    }
    checked.is_ok()
}

#[test]
fn a_cage_without_creases_is_one_with_zeros() {
    let mut counts = [0, 0];
    for entry in suite() {
        let depth = if entry.is_large() { 1 } else { 3 };
        let is_accepted = assert_none_is_zeros(&entry.name, &entry.cage, depth);
        counts[usize::from(is_accepted)] += 1;
    }
    assert!(counts.iter().all(|&count| count > 150), "{counts:?}");
}

/// Of more edges than a cage may have halfedges there are no zeros to hand over:
/// 1 or 2 is the answer before their length is looked at.
#[test]
fn a_cage_without_creases_and_of_any_size_is_answered() {
    let pairs = |length: u32| (0..length).map(|h| h ^ 1).collect::<Vec<_>>();
    for length in [0, 1, 3, 3_071, 3_072, 3_073, 3_075, 6_144, 6_147, 300_000] {
        for twin in [vec![MARKER; length], vec![0; length], pairs(length as u32)] {
            for shorter in [0, 1] {
                let vert: Vec<u32> = (0..length as u32).collect();
                let cage = Cage {
                    vert: vert[..length.saturating_sub(shorter)].to_vec(),
                    edge: vert,
                    points: vec![0; 9],
                    twin: twin.clone(),
                    ..Cage::default()
                };
                let is_accepted = assert_none_is_zeros("any size", &cage, 0);
                assert!(!is_accepted || length == 3, "{length}");
            }
        }
    }
}

/// Each level's table follows from the one before: halves of the number less
/// one, side by side, then a 0 for each halfedge. Level 0's is the cage's.
#[test]
fn every_table_follows_from_the_one_before() {
    for entry in small_with_creases() {
        let refined = Refined::new(handed(&entry.cage), 6, ryebadger::Weight::Short);
        let refined = refined.expect(&entry.name);
        let mut expected = entry.cage.creases;
        for level in refined.levels() {
            // Not assert_eq, which would print both tables.
            assert!(level.creases == Some(&expected[..]), "{}", entry.name);
            let halves = expected.iter().map(|number| number.saturating_sub(1));
            let mut finer: Vec<u8> = halves.flat_map(|number| [number; 2]).collect();
            finer.resize(finer.len() + level.twin.len(), 0);
            expected = finer;
        }
    }
}

/// One inner edge with each number from 0 to 10, in a closed cage and in an open
/// one: at level d there are 2^d edges of the number less d, and no others.
#[test]
fn a_crease_is_halved_for_as_many_levels_as_its_number() {
    for (name, edge) in [("octahedron", 5), ("grid-3x3", 7), ("pillow", 2)] {
        let cage = named(name);
        assert!(!borders(&cage)[edge], "{name}");
        for number in 0..=CREASE_LIMIT {
            let cage = creased(&cage, |at| if at == edge { number } else { 0 });
            for weight in WEIGHTS {
                let question = Question::Refine(&cage, 6, weight, room_at(&cage, 6));
                assert_eq!(assert_alike(name, &question).verdict(), (0, 0), "{name}");
            }
            let refined = Refined::new(handed(&cage), 6, ryebadger::Weight::Paper).expect(name);
            for (d, level) in refined.levels().enumerate() {
                let left = number.saturating_sub(d as u8);
                let numbers = level.creases.expect("a table");
                let of_it = numbers.iter().filter(|&&number| number == left).count();
                let others = numbers
                    .iter()
                    .filter(|&&number| number != left && number != 0);
                assert_eq!(others.count(), 0, "{name}, {number}");
                assert!(left == 0 || of_it == 1 << d, "{name}, {number}");
            }
        }
    }
}

/// The nearest whole number to a fraction, halves going away from zero.
fn rounded(numerator: i32, denominator: i32) -> i32 {
    let half = numerator.signum() * denominator / 2;
    (numerator + half) / denominator
}

fn point(level: &Cage, vertex: usize) -> [i32; 3] {
    [0, 1, 2].map(|axis| level.points[3 * vertex + axis])
}

/// What the rules of creases say of the next level, whatever the weight: a crease
/// gets its midpoint, a vertex with two goes along them, and one with more stays.
/// Counts the halfedges of inner creases, the vertices inside that go along, and
/// those that stay, inside and on the border.
fn assert_sharp(name: &str, level: &Cage, finer: &Cage, met: &mut [usize; 4]) {
    for h in 0..level.twin.len() {
        let edge = level.edge[h] as usize;
        if level.creases[edge] > 0 {
            met[0] += 1;
            let next = if h % 3 == 2 { h - 2 } else { h + 1 };
            let ends = [h, next].map(|h| point(level, level.vert[h] as usize));
            let middle = [0, 1, 2].map(|axis| rounded(ends[0][axis] + ends[1][axis], 2));
            assert_eq!(point(finer, level.vertex_count() + edge), middle, "{name}");
        }
    }
    for (number, vertex) in vertices_of(level).iter().enumerate() {
        let (old, new) = (point(level, number), point(finer, number));
        match vertex.crease_neighbours[..] {
            [] | [_] => {}
            [a, b] => {
                met[1] += usize::from(!vertex.is_on_border());
                let [a, b] = [a, b].map(|end| point(level, end as usize));
                let along = [0, 1, 2].map(|at| rounded(6 * old[at] + a[at] + b[at], 8));
                assert_eq!(new, along, "{name}, vertex {number}");
            }
            _ => {
                met[2 + usize::from(vertex.is_on_border())] += 1;
                assert_eq!(new, old, "{name}, vertex {number}");
            }
        }
    }
}

/// As it reads from outside, without the second program.
#[test]
fn creases_get_midpoints_and_their_vertices_follow_them_or_stay() {
    let mut met = [0; 4];
    for entry in small_with_creases() {
        let passes = |weight: &_| verdict_with(*weight, &entry.cage) == (0, 0);
        for weight in WEIGHTS.into_iter().filter(passes) {
            let refined = Refined::new(handed(&entry.cage), 4, chosen(weight)).expect(&entry.name);
            let levels: Vec<Cage> = refined.levels().map(owned).collect();
            for (level, finer) in levels.iter().zip(&levels[1..]) {
                assert_sharp(&entry.name, level, finer, &mut met);
            }
        }
    }
    assert!(met.iter().all(|&count| count > 100), "{met:?}");
}

/// Every edge sharp at every depth: then a vertex of the cage, which has more than
/// two corners here, stays where it is.
#[test]
fn a_cage_with_creases_everywhere_keeps_its_vertices() {
    for name in ["tetrahedron", "octahedron", "icosahedron", "torus-3x3"] {
        let cage = creased(&named(name), |_| CREASE_LIMIT);
        for weight in WEIGHTS {
            let refined = Refined::new(handed(&cage), 6, chosen(weight)).expect(name);
            for level in refined.levels() {
                assert!(level.points.starts_with(&cage.points), "{name}");
            }
        }
    }
}

fn checked(name: &str, cage: &Cage) -> Outcome {
    assert_alike(name, &Question::Check(cage))
}

/// Every byte at every edge: up to 10 on an inner edge, 0 on a border edge.
#[test]
fn every_number_at_every_edge() {
    for name in ["triangle", "pillow", "pillow-slit", "strip-2", "grid-3x3"] {
        let cage = named(name);
        for (edge, is_border) in borders(&cage).into_iter().enumerate() {
            for number in 0..=255 {
                let mut cage = cage.clone();
                cage.creases[edge] = number;
                let most = if is_border { 0 } else { CREASE_LIMIT };
                let expected = if number > most {
                    (15, edge as u64)
                } else {
                    (0, 0)
                };
                assert_eq!(checked(name, &cage).verdict(), expected, "{name}, {number}");
            }
        }
    }
}

/// With wrong ones after it, on borders and inside, also where edges are not
/// numbered in the order of their halfedges.
#[test]
fn the_lowest_of_several_wrong_creases() {
    for name in [
        "octahedron",
        "octahedron-disguised",
        "grid-3x3-disguised",
        "triangles-8",
        "disc-1024-disguised",
    ] {
        let mut cage = creased(&named(name), |edge| edge as u8 % 11);
        for edge in (0..cage.creases.len()).rev() {
            cage.creases[edge] = 11 + edge as u8 % 245;
            assert_eq!(checked(name, &cage).verdict(), (15, edge as u64), "{name}");
        }
    }
}

/// At any depth and with either weight, whatever the cells are.
#[test]
fn tables_of_other_lengths_than_the_cage_has_edges() {
    for name in ["triangle", "pillow", "cushion", "torus-32x16", "disc-33"] {
        let cage = named(name);
        let (edges, halfedges) = (cage.edge_count(), cage.halfedge_count());
        let lengths = [0, 1, edges - 1, edges + 1, 2 * edges, halfedges, 100_000];
        for length in lengths.into_iter().filter(|&length| length != edges) {
            for number in [0, 10, 11] {
                let cage = Cage {
                    creases: vec![number; length],
                    ..cage.clone()
                };
                assert_eq!(checked(name, &cage).verdict(), (1, 0), "{name}");
                for weight in WEIGHTS {
                    for (depth, expected) in [(0, (1, 0)), (6, (1, 0)), (7, (2, 0))] {
                        let lengths = [40, 41, 42, 43, 44];
                        let question = Question::Refine(&cage, depth, weight, lengths);
                        let outcome = assert_alike(name, &question);
                        assert_eq!(outcome.verdict(), expected, "{name}");
                        assert_eq!(outcome.tables, marked_tables(lengths), "{name}");
                    }
                }
            }
        }
    }
}

/// Puts a fault into a cage and tells number and place.
type Fault = fn(&mut Cage) -> (u64, u64);

/// Every fault but too many corners, with its turn among the checks. A fault can
/// be put on top of any that comes later.
const FAULTS: [(u32, Fault); 16] = [
    (0, |cage| {
        cage.points.push(0);
        (1, 0)
    }),
    (1, |cage| {
        cage.points.resize(3 * 2_049, 0);
        (2, 0)
    }),
    (2, |cage| {
        cage.twin[1] = 1;
        (3, 1)
    }),
    (3, |cage| {
        cage.creases.pop();
        (1, 0)
    }),
    (3, |cage| {
        cage.creases.push(0);
        (1, 0)
    }),
    (3, |cage| {
        cage.creases.clear();
        (1, 0)
    }),
    (3, |cage| {
        cage.creases.resize(cage.twin.len(), 11);
        (1, 0)
    }),
    (4, |cage| {
        cage.vert[0] = 1_000_000;
        (4, 0)
    }),
    (5, |cage| {
        cage.points.extend([0; 3]);
        (5, cage.points.len() as u64 / 3 - 1)
    }),
    (6, |cage| {
        cage.edge[0] = 1_000_000;
        (6, 0)
    }),
    (7, |cage| wrong_crease(cage, false, 11)),
    (7, |cage| wrong_crease(cage, false, 255)),
    (7, |cage| wrong_crease(cage, true, 1)),
    (7, |cage| wrong_crease(cage, true, 10)),
    (8, |cage| {
        // A triangle of its own at vertex 5.
        let (edge, vertex) = (cage.edge_count() as u32, cage.vertex_count() as u32);
        cage.twin.extend([MARKER; 3]);
        cage.vert.extend([5, vertex, vertex + 1]);
        cage.edge.extend([edge, edge + 1, edge + 2]);
        cage.points.extend([0; 6]);
        cage.creases.extend([0; 3]);
        (7, 5)
    }),
    (10, |cage| {
        cage.points[7] = 1_048_577;
        (8, 7)
    }),
];

/// The turn of too many corners, which only the paper's weight has.
const VALENCE: (u32, (u64, u64)) = (9, (14, 33));

/// This number at the last edge of a border, or at the last inner one.
fn wrong_crease(cage: &mut Cage, on_border: bool, number: u8) -> (u64, u64) {
    let mut borders = (0..cage.twin.len()).filter(|&h| (cage.twin[h] == MARKER) == on_border);
    let edge = cage.edge[borders.next_back().expect("such an edge")];
    cage.creases[edge as usize] = number;
    (15, edge.into())
}

/// A disc whose hub has 33 corners, with each fault and with each two: the one
/// whose turn comes first is told, by the check, by what says why and by refining,
/// before 9, and nothing that is lent changes.
#[test]
fn the_first_of_two_faults_is_told() {
    let sound = creased(&named("disc-33"), |edge| edge as u8 % 11);
    assert_eq!(checked("disc-33", &sound).verdict(), (0, 0));
    for (first, put_first) in FAULTS {
        for (second, put_second) in FAULTS {
            let mut cage = sound.clone();
            if first < second {
                put_second(&mut cage);
            } else if first > second {
                continue;
            }
            let told = put_first(&mut cage);
            let name = format!("{told:?} before the turn {second}");
            assert_eq!(checked(&name, &cage).verdict(), told, "{name}");
            let explained = assert_alike(&name, &Question::Why(&cage));
            assert_eq!(explained.verdict(), told, "{name}");
            for weight in WEIGHTS {
                let has_valence = weight == Weight::Paper && VALENCE.0 < first;
                let expected = if has_valence { VALENCE.1 } else { told };
                for lengths in [[0; 5], [400; 5]] {
                    let question = Question::Refine(&cage, 0, weight, lengths);
                    let outcome = assert_alike(&name, &question);
                    assert_eq!(outcome.verdict(), expected, "{name}, {weight:?}");
                    assert_eq!(outcome.tables, marked_tables(lengths), "{name}");
                }
            }
        }
    }
}

/// A hub with two creases, or with more, is still no border vertex.
#[test]
fn creases_do_not_excuse_too_many_corners() {
    let cage = named("disc-33");
    for sharp in [1, 2, 3, 33] {
        let mut left = sharp;
        let cage = creased(&cage, |edge| {
            let is_spoke = !borders(&cage)[edge] && left > 0;
            left -= usize::from(is_spoke);
            u8::from(is_spoke)
        });
        assert_eq!(vertices_of(&cage)[33].crease_neighbours.len(), sharp);
        let refined = |weight| {
            let question = Question::Refine(&cage, 1, weight, room_at(&cage, 1));
            assert_alike("disc-33", &question).verdict()
        };
        assert_eq!(WEIGHTS.map(refined), [(0, 0), (14, 33)]);
    }
}

/// Form 1, building and STL take no creases.
#[test]
fn no_other_operation_refuses_creases() {
    for creases in [vec![], vec![11; 3], vec![255; 1_000]] {
        let cage = Cage {
            creases,
            ..named("pillow")
        };
        let file = form_1_file(&cage);
        for question in [
            Question::Write(&cage, file.len()),
            Question::Read(&file, [6, 6, 6, 9, 0]),
            Question::ToForm2(&file, 200),
            Question::Build(&cage.vert, &cage.points, [6; 2]),
            Question::WriteStl(&cage.vert, &cage.points, 84 + 50 * 2),
        ] {
            assert_eq!(assert_alike("pillow", &question).verdict(), (0, 0));
        }
    }
}

/// The third part of the room, and its place among the others.
#[test]
fn the_room_in_edges_is_the_sum_over_the_levels() {
    // Document 01's P8, and its triangle at depth 6.
    for (numbers, room) in [
        ([12, 6, 4, 2], [252, 48, 126]),
        ([3, 3, 3, 6], [16_383, 2_928, 8_382]),
    ] {
        let answer = assert_alike("room", &Question::Counts(numbers)).answer;
        assert_eq!(answer[23..], room);
    }
}
