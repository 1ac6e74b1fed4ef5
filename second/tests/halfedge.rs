//! Document 02, §9, "One halfedge, no tables": by hand from document 01's "Cages to
//! try", and every cell compared with "the cell the refined tables would hold".

mod common;

use common::{document_pillow, document_triangle, lend, levels, room, small_accepted};
use second::cage::{Cage, MARKER as M};
use second::check::{check, check_any_size};
use second::counts::{count_question, LevelCounts};
use second::draw::Draw;
use second::halfedge::{halfedge_question, Climber, HalfedgeCells, ThreeTables};
use second::refine::refine;
use second::suite::{accepted_cages, cage_named, SuiteCage};
use second::weight::Weight;

fn climber(cage: &Cage, depth: u64) -> Climber<'_> {
    Climber::new(ThreeTables::of(cage), depth).expect("accepted")
}

/// The tables of a level, each halfedge by climbing, without points and creases.
fn climbed(cage: &Cage, depth: u64) -> Cage {
    let climber = climber(cage, depth);
    let mut level = Cage::default();
    for halfedge in 0..climber.halfedge_count() {
        let HalfedgeCells { twin, vert, edge } = climber.cells(halfedge).expect("below H");
        level.twin.push(twin);
        level.vert.push(vert);
        level.edge.push(edge);
    }
    level
}

/// Levels 0 to 6 of an accepted cage, in numbers.
fn counts_of(cage: &Cage) -> LevelCounts {
    let counts = check(cage).expect("accepted");
    count_question(counts.halfedges, counts.edges, counts.vertices, 6).expect("counted")
}

fn large_accepted() -> Vec<SuiteCage> {
    let all = accepted_cages().into_iter();
    all.filter(SuiteCage::is_large).collect()
}

#[test]
fn p1_to_p3_the_triangle_at_depth_1() {
    let level = climbed(&document_triangle(), 1);
    assert_eq!(level.twin, [M, 9, M, M, 10, M, M, 11, M, 1, 4, 7]);
    assert_eq!(level.edge, [0, 6, 5, 2, 7, 1, 4, 8, 3, 6, 7, 8]);
    assert_eq!(level.vert, [0, 3, 5, 1, 4, 3, 2, 5, 4, 5, 3, 4]);
}

/// P5 tells three of these cells; the others follow from the rows in the same way.
#[test]
fn p5_the_pillow_at_depth_1() {
    let level = climbed(&document_pillow(), 1);
    assert_eq!(
        level.twin,
        [11, 18, 9, 17, 19, 15, 14, 20, 12, 2, 21, 0, 8, 22, 6, 5, 23, 3, 1, 4, 7, 10, 13, 16]
    );
    assert_eq!(
        level.edge,
        [1, 6, 4, 3, 7, 0, 5, 8, 2, 4, 9, 1, 2, 10, 5, 0, 11, 3, 6, 7, 8, 9, 10, 11]
    );
    assert_eq!(
        level.vert,
        [0, 3, 5, 1, 4, 3, 2, 5, 4, 0, 5, 3, 2, 4, 5, 1, 3, 4, 5, 3, 4, 3, 5, 4]
    );
}

/// From P1 to P3, where H is 12, E 9 and V 6: of each row one without a twin and
/// one with a lower or a higher one, where there is such.
#[test]
fn the_triangle_at_depth_2() {
    let foreseen = [
        // 3h, of 0, 1 and 9.
        (0, [M, 0, 0]),
        (3, [32, 3, 13]),
        (27, [8, 5, 12]),
        // 3h+1, of 1 and 11.
        (4, [37, 12, 19]),
        (34, [47, 14, 29]),
        // 3h+2, of 1, 2 and 10.
        (5, [M, 6, 1]),
        (8, [27, 12, 12]),
        (32, [3, 12, 13]),
        // 3H+h, of 1, 9 and 11.
        (37, [4, 6, 19]),
        (45, [28, 14, 27]),
        (47, [34, 13, 29]),
    ];
    let triangle = document_triangle();
    for (halfedge, [twin, vert, edge]) in foreseen {
        let answer = halfedge_question(ThreeTables::of(&triangle), 2, halfedge);
        assert_eq!(answer, Ok(HalfedgeCells { twin, vert, edge }), "{halfedge}");
    }
}

/// H, E and V of the triangle's levels are those that document 01 has the lister
/// print. The last halfedge is 3H+h with the last h of the level before, whose
/// PREV is the last but one, on the last edge but one there.
#[test]
fn the_last_halfedge_of_the_triangle() {
    let lines = [
        (12, 9, 6),
        (48, 30, 15),
        (192, 108, 45),
        (768, 408, 153),
        (3_072, 1_584, 561),
        (12_288, 6_240, 2_145),
    ];
    let triangle = document_triangle();
    for (depth, [old, new]) in (2..).zip(lines.array_windows::<2>()) {
        let climber = climber(&triangle, depth);
        assert_eq!(climber.halfedge_count(), new.0);
        let last = HalfedgeCells {
            twin: 3 * (old.0 as u32 - 1) + 1,
            vert: new.2 - 2,
            edge: new.1 - 1,
        };
        assert_eq!(climber.cells(new.0 - 1), Ok(last));
    }
}

/// Halfedge 0 is 3h of halfedge 0 at every depth: its vertex stays, and its edge is
/// half of the old one, the lower half where it has no twin or a lower one.
#[test]
fn halfedge_0_at_every_depth() {
    for depth in 1..=6 {
        let open = climber(&document_triangle(), depth).cells(0);
        let [twin, vert, edge] = [M, 0, 0];
        assert_eq!(open, Ok(HalfedgeCells { twin, vert, edge }));
        let closed = climber(&document_pillow(), depth).cells(0);
        let closed = closed.expect("below H");
        assert_eq!((closed.vert, closed.edge), (0, (1 << depth) - 1));
    }
}

#[test]
fn at_depth_0_the_cells_are_those_of_the_cage() {
    for entry in accepted_cages() {
        assert_joined_alike(&entry.name, &climbed(&entry.cage, 0), &entry.cage);
    }
}

#[test]
fn every_halfedge_of_small_cages() {
    for entry in small_accepted() {
        for (depth, level) in (0..).zip(levels(&entry.cage, 3)) {
            assert_joined_alike(&entry.name, &climbed(&entry.cage, depth), &level);
        }
    }
}

#[test]
fn every_halfedge_of_large_cages() {
    for entry in large_accepted() {
        let level = levels(&entry.cage, 2).remove(2);
        assert_joined_alike(&entry.name, &climbed(&entry.cage, 2), &level);
    }
}

fn assert_joined_alike(name: &str, climbed: &Cage, level: &Cage) {
    assert_eq!(climbed.twin, level.twin, "{name}");
    assert_eq!(climbed.vert, level.vert, "{name}");
    assert_eq!(climbed.edge, level.edge, "{name}");
}

/// Halfedges far and wide, and the last ones, of levels as large as they come.
#[test]
fn the_largest_levels() {
    for name in ["grid-32x16-disguised", "torus-32x16-disguised"] {
        assert_same_at_depth_6(&cage_named(name).expect("in the suite"));
    }
}

fn assert_same_at_depth_6(cage: &Cage) {
    const STRIDE: usize = 37;
    let counts = counts_of(cage);
    let [h_room, _, _, points, creases] = room(&counts);
    let mut tables = Cage {
        twin: vec![0; h_room],
        vert: vec![0; h_room],
        edge: vec![0; h_room],
        points: vec![0; points],
        creases: vec![0; creases],
    };
    let answer = refine(cage, 6, Weight::Short, &mut lend(&mut tables));
    assert_eq!(answer, Ok(counts));
    let climber = climber(cage, 6);
    assert_eq!(climber.halfedge_count(), 12_582_912);
    let end = climber.halfedge_count() as usize;
    let before = h_room - end;
    for halfedge in (0..end).step_by(STRIDE).chain(end - 1_000..end) {
        let at = before + halfedge;
        let held = HalfedgeCells {
            twin: tables.twin[at],
            vert: tables.vert[at],
            edge: tables.edge[at],
        };
        assert_eq!(climber.cells(halfedge as u64), Ok(held), "{halfedge}");
    }
}

/// By climbing alone: every level keeps the rules 3 to 7, and has the H, E and V
/// that its cage foretells.
#[test]
fn climbed_levels_are_sound() {
    for entry in small_accepted() {
        let counts = counts_of(&entry.cage);
        for depth in 0..=2 {
            let vertices = counts.vertices[depth];
            let level = Cage {
                points: vec![0; 3 * vertices as usize],
                ..climbed(&entry.cage, depth as u64)
            };
            let checked = check_any_size(&level.without_creases()).expect(&entry.name);
            assert_eq!(checked.halfedges, counts.halfedges[depth]);
            assert_eq!(checked.edges, counts.edges[depth]);
            assert_eq!(checked.vertices, vertices);
        }
    }
}

/// The same of drawn halfedges at every depth, as far as one and its twin and its
/// triangle tell.
#[test]
fn drawn_halfedges_are_joined() {
    let draw = &mut Draw::new(99);
    for entry in large_accepted() {
        let counts = counts_of(&entry.cage);
        for depth in 0..=6 {
            let climber = climber(&entry.cage, depth);
            let [_, e, v] = [counts.halfedges, counts.edges, counts.vertices]
                .map(|counts| counts[depth as usize]);
            for _ in 0..40 {
                let h = draw.below(climber.halfedge_count());
                assert_joined(&climber, h, [e, v]);
            }
        }
    }
}

/// What rules 3, 4 and 6 say of a halfedge.
fn assert_joined(climber: &Climber, h: u64, [e, v]: [u64; 2]) {
    let cells = |h: u64| climber.cells(h).expect("below H");
    let corner = |turn: u64| h - h % 3 + (h + turn) % 3;
    let [own, next, previous] = [0, 1, 2].map(|turn| cells(corner(turn)));
    assert!(u64::from(own.edge) < e && u64::from(own.vert) < v);
    assert!(own.vert != next.vert && next.vert != previous.vert && previous.vert != own.vert);
    assert!(own.edge != next.edge && next.edge != previous.edge && previous.edge != own.edge);
    if own.twin != M {
        let twin = cells(own.twin.into());
        assert_ne!(u64::from(own.twin), h);
        assert_eq!(u64::from(twin.twin), h);
        assert_eq!((twin.vert, twin.edge), (next.vert, own.edge));
    }
}
