//! Document 01, "One level to the next" and "Points", over the suite, with
//! either weight, with and without creases.

mod common;

use std::collections::HashMap;

use common::{
    corners, document_pillow, lendable, levels, levels_with, refinable, refined_into,
    refusal_of_the_depth, room, small_accepted, triangle, WEIGHTS,
};
use second::cage::{Cage, MARKER};
use second::check::{check, check_any_size, CageCounts};
use second::counts::count_question;
use second::refusal::Refusal;
use second::suite::{accepted_cages, suite, SuiteCage};
use second::weight::Weight;

const DEPTH: u64 = 3;

#[test]
fn level_0_is_the_cage() {
    for weight in WEIGHTS {
        for entry in refinable(weight, small_accepted()) {
            let levels = levels_with(weight, &entry.cage, 0);
            assert_eq!(levels, [entry.cage], "{}", entry.name);
        }
    }
}

/// Each level keeps the rules 3 to 8, and its counts follow from the cage's.
#[test]
fn each_level_is_sound() {
    for weight in WEIGHTS {
        for entry in refinable(weight, accepted_cages()) {
            let depth = if entry.is_large() { 1 } else { DEPTH };
            let levels = levels_with(weight, &entry.cage, depth);
            assert_sound(&entry.name, &levels);
        }
    }
}

fn assert_sound(name: &str, levels: &[Cage]) {
    let first = check(&levels[0]).expect(name);
    for (depth, level) in levels.iter().enumerate() {
        let counts = check_any_size(level).expect(name);
        assert_eq!(counts.halfedges, first.halfedges << (2 * depth));
        assert_eq!(counts.triangles, first.triangles << (2 * depth));
        assert_eq!(counts.borders, first.borders << depth);
        assert_eq!(characteristic(&counts), characteristic(&first));
    }
}

/// V − E + F.
fn characteristic(counts: &CageCounts) -> i64 {
    (counts.vertices + counts.triangles) as i64 - counts.edges as i64
}

#[test]
fn vertices_keep_their_corners() {
    for entry in small_accepted() {
        let levels = levels(&entry.cage, DEPTH);
        for (old, new) in levels.iter().zip(&levels[1..]) {
            let (old, new) = (corners(old), corners(new));
            assert_eq!(new[..old.len()], old, "{}", entry.name);
            for &(count, on_border) in &new[old.len()..] {
                assert_eq!(count, if on_border { 3 } else { 6 }, "{}", entry.name);
            }
        }
    }
}

/// The triangles of a level by the points of their corners, each turned so
/// that its least corner comes first, and how often each occurs.
fn shapes(level: &Cage) -> HashMap<Vec<[i32; 3]>, usize> {
    let (points, _) = level.points.as_chunks::<3>();
    let mut shapes = HashMap::new();
    for corners in level.vert.chunks(3) {
        let corners: Vec<[i32; 3]> = corners.iter().map(|&v| points[v as usize]).collect();
        let turns = (0..3).map(|turn| [&corners[turn..], &corners[..turn]].concat());
        *shapes.entry(turns.min().expect("three turns")).or_default() += 1;
    }
    shapes
}

/// Numbers of triangles, vertices and edges have no part in where points lie.
#[test]
fn other_numbers_give_the_same_surface() {
    for weight in WEIGHTS {
        let cages = refinable(weight, small_accepted());
        assert_same_surfaces(weight, cages);
    }
}

fn assert_same_surfaces(weight: Weight, cages: Vec<SuiteCage>) {
    let cages: HashMap<String, Cage> = cages
        .into_iter()
        .map(|entry| (entry.name, entry.cage))
        .collect();
    for (name, cage) in &cages {
        if let Some(disguised) = cages.get(&format!("{name}-disguised")) {
            let (plain, other) = (
                levels_with(weight, cage, 2),
                levels_with(weight, disguised, 2),
            );
            for (plain, other) in plain.iter().zip(&other) {
                assert_eq!(shapes(plain), shapes(other), "{name}");
            }
        }
    }
}

/// The weights of every rule add up to one. A quarter of its size, a cage can be
/// moved to either side of zero and stay in range; on one side all halves go the
/// same way, so that the cage can be moved on and gives the same levels.
#[test]
fn a_cage_moved_on_one_side_of_zero_gives_moved_levels() {
    for weight in WEIGHTS {
        for entry in refinable(weight, small_accepted()) {
            for (to, by) in [(262_144, 77), (-262_144, -77)] {
                let quartered = |by: i32| Cage {
                    points: entry.cage.points.iter().map(|c| c / 4 + by).collect(),
                    ..entry.cage.clone()
                };
                let here = levels_with(weight, &quartered(to), 2);
                let there = levels_with(weight, &quartered(to + by), 2);
                for (here, there) in here.iter().zip(&there) {
                    let moved: Vec<i32> = here.points.iter().map(|c| c + by).collect();
                    assert_eq!(moved, there.points, "{}", entry.name);
                }
            }
        }
    }
}

#[test]
fn points_of_a_disc() {
    let cage = Cage {
        twin: vec![MARKER, 5, 7, MARKER, 8, 1, MARKER, 2, 4],
        vert: vec![0, 1, 3, 1, 2, 3, 2, 0, 3],
        edge: vec![0, 1, 2, 3, 4, 1, 5, 2, 4],
        points: vec![8, 0, 0, 0, 8, 0, 0, 0, 8, 0, 0, 0],
        creases: vec![0; 6],
    };
    let vertices = [6, 1, 1, 1, 6, 1, 1, 1, 6, 1, 1, 1];
    let edges = [4, 4, 0, 1, 3, 1, 3, 1, 1, 0, 4, 4, 1, 1, 3, 4, 0, 4];
    let expected = [&vertices[..], &edges[..]].concat();
    assert_eq!(levels(&cage, 1)[1].points, expected);
}

/// The two border edges of a slit pillow join the same two vertices.
#[test]
fn border_neighbours_may_be_the_same_vertex() {
    let cage = Cage {
        twin: vec![MARKER, 4, 3, 2, 1, MARKER],
        edge: vec![0, 1, 2, 2, 1, 3],
        creases: vec![0; 4],
        ..document_pillow()
    };
    let vertices = [4, 0, 0, 12, 0, 0, 3, 10, 0];
    assert_eq!(levels(&cage, 1)[1].points[..9], vertices);
}

#[test]
fn a_level_of_equal_points_stays_where_it_is() {
    for coordinate in [1_048_576, -1_048_576, 0, -1] {
        let pillow = Cage {
            points: vec![coordinate; 9],
            ..document_pillow()
        };
        for cage in [triangle([coordinate; 9]), pillow] {
            for level in WEIGHTS.map(|weight| levels_with(weight, &cage, 6)).concat() {
                assert!(level.points.iter().all(|&c| c == coordinate));
            }
        }
    }
}

#[test]
fn cells_past_the_room_are_untouched() {
    let counts = count_question(6, 3, 3, 2).expect("accepted");
    let exact = room(&counts);
    let wider = [1, 20, 3, 7, 11];
    let wider = [0, 1, 2, 3, 4].map(|table| exact[table] + wider[table]);
    for weight in WEIGHTS {
        let refined = |lengths| refined_into(&document_pillow(), 2, weight, lengths);
        let (_, tables) = refined(wider).expect("refined");
        let (_, alone) = refined(exact).expect("refined");
        let before = lendable(wider);
        assert_eq!(tables.twin[..exact[0]], alone.twin);
        assert_eq!(tables.points[..exact[3]], alone.points);
        assert_eq!(tables.creases[..exact[4]], alone.creases);
        assert_eq!(tables.twin[exact[0]..], before.twin[exact[0]..]);
        assert_eq!(tables.vert[exact[1]..], before.vert[exact[1]..]);
        assert_eq!(tables.edge[exact[2]..], before.edge[exact[2]..]);
        assert_eq!(tables.points[exact[3]..], before.points[exact[3]..]);
        assert_eq!(tables.creases[exact[4]..], before.creases[exact[4]..]);
    }
}

#[test]
fn the_first_short_table_answers() {
    for weight in WEIGHTS {
        let answer = |lengths| refined_into(&document_pillow(), 0, weight, lengths).err();
        assert_eq!(answer([6, 6, 6, 9, 3]), None);
        assert_eq!(answer([0, 0, 0, 0, 0]), Some(Refusal::new(9, 1)));
        assert_eq!(answer([6, 5, 5, 8, 2]), Some(Refusal::new(9, 2)));
        assert_eq!(answer([6, 6, 5, 8, 2]), Some(Refusal::new(9, 3)));
        assert_eq!(answer([7, 7, 7, 8, 2]), Some(Refusal::new(9, 4)));
        assert_eq!(answer([7, 7, 7, 10, 2]), Some(Refusal::new(9, 7)));
    }
}

/// Refusals 1 to 8 and 15 come before 9. A wrong depth comes before all others but
/// 1, and before 1 too where it is the length of the crease table that is wrong.
#[test]
fn refusals_in_number_order() {
    for entry in suite() {
        if let Err(refusal) = check(&entry.cage) {
            let answer = |depth| refined_into(&entry.cage, depth, Weight::Short, [0; 5]).err();
            assert_eq!(answer(0), Some(refusal), "{}", entry.name);
            let with_depth = refusal_of_the_depth(&entry.cage);
            assert_eq!(answer(7), Some(with_depth), "{}", entry.name);
        }
    }
}
