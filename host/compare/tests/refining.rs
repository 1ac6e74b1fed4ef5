//! Refining with either weight: the answer and every cell of the five lent
//! tables.

use std::collections::{HashMap, HashSet};

use compare::{
    accepted, assert_alike, creased, named, refused, room_at, verdict_with, vertices_of, Outcome,
    Question, Vertex, PLACES, WEIGHTS,
};
use second::cage::Cage;
use second::suite::SuiteCage;
use second::weight::Weight;

/// An accepted cage with either weight at every depth, into tables of which one
/// is as long as needed and the others are longer.
fn at_every_depth(entry: &SuiteCage) {
    for weight in WEIGHTS {
        let expected = verdict_with(weight, &entry.cage);
        for depth in 0..=6 {
            let mut longer = [0, 1, 2, 7, 3];
            longer.rotate_left(depth as usize % 5);
            let room = room_at(&entry.cage, depth);
            let lengths = std::array::from_fn(|table| room[table] + longer[table]);
            let question = Question::Refine(&entry.cage, depth, weight, lengths);
            let outcome = assert_alike(&entry.name, &question);
            assert_eq!(outcome.verdict(), expected, "{}", entry.name);
        }
    }
}

#[test]
fn every_small_accepted_cage_at_every_depth() {
    let mut entries = accepted();
    entries.retain(|entry| !entry.is_large());
    assert!(entries.len() > 150);
    entries.iter().for_each(at_every_depth);
}

#[test]
fn every_large_accepted_cage_at_every_depth() {
    let mut entries = accepted();
    entries.retain(SuiteCage::is_large);
    let of_most_halfedges = |entry: &&SuiteCage| entry.cage.halfedge_count() == 3_072;
    assert!(entries.iter().filter(of_most_halfedges).count() > 3);
    std::thread::scope(|scope| {
        for first in [0, 1] {
            let every_other = entries.iter().skip(first).step_by(2);
            scope.spawn(|| every_other.for_each(at_every_depth));
        }
    });
}

#[test]
fn every_refused_cage_at_three_depths_and_past_the_limit() {
    let entries = refused();
    assert!(entries.len() > 150);
    for entry in &entries {
        for depth in [0, 1, 6, 7, u64::MAX] {
            for lengths in [[40, 41, 42, 43, 44], [0; 5]] {
                for weight in WEIGHTS {
                    let question = Question::Refine(&entry.cage, depth, weight, lengths);
                    let outcome = assert_alike(&entry.name, &question);
                    assert_ne!(outcome.verdict().0, 0, "{}", entry.name);
                }
            }
        }
    }
}

#[test]
fn accepted_cages_past_the_limit_of_the_depth() {
    for name in ["triangle", "pillow", "cushion", "torus-32x16"] {
        let cage = named(name);
        for depth in [7, 8, 1 << 32, (1 << 32) + 1, 1 << 63, u64::MAX] {
            for weight in WEIGHTS {
                let question = Question::Refine(&cage, depth, weight, room_at(&cage, 1));
                assert_eq!(assert_alike(name, &question).verdict(), (2, 0), "{name}");
            }
        }
    }
}

/// The last of them with the short weight alone: with the paper's it is refused
/// before its room is looked at.
const ROOM_TRIED: [(&str, &[Weight]); 5] = [
    ("triangle", &WEIGHTS),
    ("pillow", &WEIGHTS),
    ("strip-2", &WEIGHTS),
    ("torus-3x3", &WEIGHTS),
    ("disc-33", &[Weight::Short]),
];

/// Each of them, with creases where it has inner edges, with its weights at these
/// depths, and the exact room there.
fn each_room(depths: &[u64], tried: impl Fn(&str, &Cage, u64, Weight, [usize; 5])) {
    for (name, weights) in ROOM_TRIED {
        let cage = creased(&named(name), |edge| edge as u8 % 11);
        for &depth in depths {
            for &weight in weights {
                tried(name, &cage, depth, weight, room_at(&cage, depth));
            }
        }
    }
}

#[test]
fn room_exact_and_one_short_table_by_table() {
    each_room(
        &[0, 1, 2, 3, 4, 5, 6],
        |name, cage, depth, weight, exact| {
            let refined = |lengths| {
                let question = Question::Refine(cage, depth, weight, lengths);
                assert_alike(name, &question).verdict()
            };
            assert_eq!(refined(exact), (0, 0), "{name}");
            for (table, place) in PLACES.into_iter().enumerate() {
                let mut short = exact;
                short[table] -= 1;
                assert_eq!(refined(short), (9, place), "{name}");
            }
        },
    );
}

#[test]
fn several_tables_short_at_once() {
    each_room(&[0, 1, 3], |name, cage, depth, weight, exact| {
        // Each of the five tables is enough, one short or empty.
        for choice in 0..243_usize {
            let choices = [81, 27, 9, 3, 1].map(|power| choice / power % 3);
            let lengths = std::array::from_fn(|table| match choices[table] {
                0 => exact[table],
                1 => exact[table] - 1,
                _ => 0,
            });
            let place = choices.iter().position(|&choice| choice != 0);
            let expected = place.map_or((0, 0), |table| (9, PLACES[table]));
            let question = Question::Refine(cage, depth, weight, lengths);
            assert_eq!(assert_alike(name, &question).verdict(), expected);
        }
    });
}

/// What the comparison above is about is really in the suite.
#[test]
fn the_suite_has_each_kind_of_cage() {
    let kinds = |name: &str| vertices_of(&named(name));
    for (name, valence) in [
        ("disc-3", 3),
        ("tetrahedron", 3),
        ("disc-4", 4),
        ("octahedron", 4),
        ("disc-33", 33),
        ("double-pyramid-33", 33),
        ("disc-1024", 1_024),
    ] {
        let is_such = |vertex: &Vertex| vertex.corners == valence && !vertex.is_on_border();
        assert!(kinds(name).iter().any(is_such), "{name}");
    }
    assert_eq!(named("strip-2").triangle_count(), 2);
    assert_eq!(named("pillow").triangle_count(), 2);
    for closed in [
        "pillow",
        "torus-2x2",
        "torus-3x3",
        "torus-4x6",
        "torus-32x16",
    ] {
        assert_eq!(named(closed).border_count(), 0, "{closed}");
    }
    // Triangles that share nothing, and pieces of several kinds.
    assert_eq!(named("triangles-8").border_count(), 24);
    assert!(named("pieces").triangle_count() > 10);
    let has_one_neighbour_twice = |vertex: &Vertex| match vertex.border_neighbours[..] {
        [first, second] => first == second,
        _ => false,
    };
    let slit = kinds("pillow-slit");
    assert!(slit.iter().any(has_one_neighbour_twice));
    let points = |name: &str| named(name).points;
    assert!(points("octahedron-negative").iter().all(|&c| c < 0));
    assert!(points("triangle-lowest").iter().all(|&c| c == -1_048_576));
    assert!(points("triangle-highest").iter().all(|&c| c == 1_048_576));
    for name in ["octahedron-at-both-ends", "grid-at-both-ends"] {
        assert!(points(name).iter().all(|c| c.abs() == 1_048_576), "{name}");
    }
}

/// Inside closed cages and open ones every valence that the paper's weight has
/// an entry for and more, and on borders too, under two numberings.
#[test]
fn the_suite_has_every_valence() {
    let mut found: HashMap<(bool, bool, usize), usize> = HashMap::new();
    for entry in accepted() {
        let is_closed = entry.cage.border_count() == 0;
        let vertices = vertices_of(&entry.cage);
        let kind = |vertex: &Vertex| (is_closed, vertex.is_on_border(), vertex.corners);
        for kind in vertices.iter().map(kind).collect::<HashSet<_>>() {
            *found.entry(kind).or_default() += 1;
        }
    }
    let cages = |is_closed, on_border, corners| found.get(&(is_closed, on_border, corners));
    for corners in (2..=33).chain([512]) {
        assert!(cages(true, false, corners) >= Some(&2), "{corners}");
    }
    for corners in (2..=33).chain([1_024]) {
        assert!(cages(false, false, corners) >= Some(&2), "{corners}");
    }
    for corners in [1, 2, 3, 33, 40, 1_024] {
        assert!(cages(false, true, corners) >= Some(&2), "{corners}");
    }
}

/// Creases of every number in closed cages and in open ones; and in small cages
/// and in large ones vertices with any number of creases, inside and on borders.
#[test]
fn the_suite_has_every_kind_of_crease() {
    let (mut numbers, mut vertices) = (HashSet::new(), HashSet::new());
    for entry in accepted() {
        let is_closed = entry.cage.border_count() == 0;
        numbers.extend(entry.cage.creases.iter().map(|&number| (is_closed, number)));
        for vertex in vertices_of(&entry.cage) {
            let creases = vertex.crease_neighbours.len().min(4);
            vertices.insert((entry.is_large(), vertex.is_on_border(), creases));
        }
    }
    for either in [true, false] {
        for number in 0..=10 {
            assert!(numbers.contains(&(either, number)), "{number}");
        }
        for creases in 0..=4 {
            assert!(vertices.contains(&(either, false, creases)), "{creases}");
            let on_border = vertices.contains(&(either, true, creases));
            assert_eq!(on_border, creases >= 2, "{creases}");
        }
    }
}

/// Cages that are accepted with every coordinate turned negative.
#[test]
fn negative_coordinates_everywhere() {
    for entry in accepted().iter().filter(|entry| !entry.is_large()) {
        let mut cage = entry.cage.clone();
        for coordinate in &mut cage.points {
            *coordinate = -1 - coordinate.abs() / 2;
        }
        for weight in WEIGHTS {
            let question = Question::Refine(&cage, 3, weight, room_at(&cage, 3));
            let outcome = assert_alike(&entry.name, &question);
            assert_eq!(outcome.verdict(), verdict_with(weight, &cage));
            let Outcome { tables, .. } = outcome;
            assert!(tables.points.iter().all(|&coordinate| coordinate < 0));
        }
    }
}
