//! One halfedge of a level, without the levels: its three cells are those that the
//! second program finds by climbing, and those that refining writes.

use std::collections::HashSet;

use compare::{
    accepted, handed, joined, named, room_at, Archive, Operations, Question, SecondProgram,
};
use ryebadger::{Connectivity, Halfedge, Refined, Weight};
use second::cage::Cage;
use second::draw::Draw;
use second::halfedge::{Climber, HalfedgeCells, ThreeTables};
use second::suite::{suite, SuiteCage};

/// TWIN, VERT and EDGE.
type Cells = [u32; 3];

/// The library's, by the safe crate.
fn told(of: Connectivity<'_>, depth: u64, h: usize) -> Cells {
    let answer = ryebadger::halfedge(of, depth, h as u64);
    let Halfedge { twin, vert, edge } = answer.expect("a halfedge of the level");
    [twin, vert, edge]
}

/// The second program's.
fn climbed(climber: &Climber<'_>, h: usize) -> Cells {
    let answer = climber.cells(h as u64);
    let HalfedgeCells { twin, vert, edge } = answer.expect("a halfedge of the level");
    [twin, vert, edge]
}

/// Those that tables hold.
fn held([twin, vert, edge]: [&[u32]; 3], h: usize) -> Cells {
    [twin[h], vert[h], edge[h]]
}

/// The accepted cages, those of the same three tables and V once.
fn accepted_once() -> Vec<SuiteCage> {
    let mut met = HashSet::new();
    let mut entries = accepted();
    entries.retain(|SuiteCage { cage, .. }| {
        let tables = [&cage.twin, &cage.vert, &cage.edge].map(Vec::clone);
        met.insert((tables, cage.vertex_count()))
    });
    entries
}

/// How deep every halfedge of a cage is asked for: to depth 6 where it has at most
/// 12, else to the last level of at most 12,288, which is H of the triangle's level 6.
fn tried_depth(cage: &Cage) -> u64 {
    let h = cage.halfedge_count();
    let is_tried = |&depth: &u64| h <= 12 || h << (2 * depth) <= 12_288;
    (0..=6).rev().find(is_tried).expect("a small cage")
}

fn every_halfedge(SuiteCage { name, cage, .. }: &SuiteCage) {
    let of = handed(cage).connectivity();
    let refined = Refined::new(handed(cage), tried_depth(cage), Weight::Short).expect(name);
    for (depth, level) in (0..).zip(refined.levels()) {
        let climber = Climber::new(ThreeTables::of(cage), depth).expect(name);
        assert_eq!(climber.halfedge_count(), level.twin.len() as u64, "{name}");
        let tables = [level.twin, level.vert, level.edge];
        for h in 0..level.twin.len() {
            let cells = told(of, depth, h);
            assert_eq!(cells, climbed(&climber, h), "{name}: {h} at {depth}");
            assert_eq!(cells, held(tables, h), "{name}: {h} at {depth}");
        }
    }
}

/// Of the accepted cages of at most 200 halfedges, at every depth from 0 to the one
/// above.
#[test]
fn every_halfedge_of_small_cages() {
    let mut entries = accepted_once();
    entries.retain(|entry| !entry.is_large());
    let of_depth = |depth| move |entry: &&SuiteCage| tried_depth(&entry.cage) == depth;
    for (depth, least) in [(6, 80), (4, 150), (3, 200)] {
        let tried = entries.iter().filter(of_depth(depth)).count();
        assert!(tried > least, "{tried} to {depth}");
    }
    std::thread::scope(|scope| {
        for first in [0, 1] {
            let every_other = entries.iter().skip(first).step_by(2);
            scope.spawn(|| every_other.for_each(every_halfedge));
        }
    });
}

/// The first and the last halfedges of a level of so many, those on both sides of
/// the middle triangles' first, and drawn ones.
fn spread_over(end: usize, draw: &mut Draw) -> Vec<usize> {
    let middle = (end - end / 4).min(end - 1);
    let ends = [0, 1, 2, middle - 1, middle, end - 2, end - 1];
    let drawn = std::iter::repeat_with(|| draw.place(end)).take(30);
    ends.into_iter().chain(drawn).collect()
}

/// Of every accepted cage, large ones among them.
#[test]
fn halfedges_of_every_cage_at_every_depth() {
    let draw = &mut Draw::new(91);
    let entries = accepted_once();
    assert!(entries.len() > 600);
    for SuiteCage { name, cage, .. } in &entries {
        let of = ThreeTables::of(cage);
        for depth in 0..=6 {
            let climber = Climber::new(of, depth).expect(name);
            for h in spread_over(climber.halfedge_count() as usize, draw) {
                let cells = climbed(&climber, h);
                assert_eq!(told(joined(of), depth, h), cells, "{name}: {h} at {depth}");
            }
        }
    }
}

/// The cells of these halfedges in level 6, as refining leaves them.
fn refined_by(asked: &dyn Operations, cage: &Cage, halfedges: &[usize]) -> Vec<Cells> {
    let weight = second::weight::Weight::Short;
    let question = Question::Refine(cage, 6, weight, room_at(cage, 6));
    let tables = question.put_to(asked).tables;
    let [before, ..] = room_at(cage, 5);
    let level = [&tables.twin, &tables.vert, &tables.edge].map(|table| &table[before..]);
    halfedges.iter().map(|&h| held(level, h)).collect()
}

/// A stride over level 6, which takes every row by turns, and the level's last ones.
/// Refined by the library and by the second program.
#[test]
fn the_largest_levels() {
    const STRIDE: usize = 1_009;
    for name in ["torus-32x16-disguised", "grid-32x16-disguised"] {
        let cage = named(name);
        let of = ThreeTables::of(&cage);
        let climber = Climber::new(of, 6).expect(name);
        let end = climber.halfedge_count() as usize;
        assert_eq!(end, 12_582_912, "{name}");
        let stride = (0..end).step_by(STRIDE);
        let halfedges: Vec<usize> = stride.chain(end - 100..end).collect();
        let cells: Vec<Cells> = halfedges.iter().map(|&h| told(joined(of), 6, h)).collect();
        let foreseen: Vec<Cells> = halfedges.iter().map(|&h| climbed(&climber, h)).collect();
        // Not assert_eq, which would print all cells.
        assert!(cells == foreseen, "{name}");
        for asked in [&Archive::default() as &dyn Operations, &SecondProgram] {
            assert!(cells == refined_by(asked, &cage, &halfedges), "{name}");
        }
    }
}

/// The safe crate takes the three tables out of a cage of any shape, and V as the
/// second program counts it.
#[test]
fn the_tables_of_a_cage() {
    let entries = suite();
    let has_part_of_a_point = |entry: &&SuiteCage| !entry.cage.points.len().is_multiple_of(3);
    assert!(entries.iter().filter(has_part_of_a_point).count() > 4);
    for SuiteCage { name, cage, .. } in &entries {
        let of = handed(cage).connectivity();
        assert_eq!(of, joined(ThreeTables::of(cage)), "{name}");
    }
}
