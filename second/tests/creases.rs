//! Document 02, §6, "Edges that stay sharp": worked by hand, and the numbers of
//! the crease table level by level.

mod common;

use common::{
    document_pillow, document_triangle, file_of, levels, levels_with, refinable, refined_into,
    room, small_accepted, ROOM_PLACES, WEIGHTS,
};
use second::cage::{edges, Cage, MARKER as M};
use second::check::check;
use second::counts::count_question;
use second::file::{read_cage, write_cage_file};
use second::lister::list_levels;
use second::questions;
use second::refusal::{Refusal, CREASE};
use second::suite::{cage_named, suite};
use second::weight::Weight;

/// Corner 0 at the origin and one corner on each axis. Edges 0, 2 and 4 run from
/// corner 0 to the corners 1, 2 and 3.
fn tetrahedron(creases: [u8; 6]) -> Cage {
    Cage {
        twin: vec![8, 11, 3, 2, 10, 6, 5, 9, 0, 7, 4, 1],
        vert: vec![0, 1, 2, 0, 2, 3, 0, 3, 1, 1, 3, 2],
        edge: vec![0, 1, 2, 2, 3, 4, 4, 5, 0, 5, 3, 1],
        points: vec![0, 0, 0, 16, 0, 0, 0, 16, 0, 0, 0, 16],
        creases: creases.to_vec(),
    }
}

/// Corners 0 to 3 round a square, 4 above its middle. The spokes 2, 1, 4 and 6
/// run from 4 to 0, 1, 2 and 3; the border edges are 0, 3, 5 and 7.
fn disc(creases: [u8; 8]) -> Cage {
    Cage {
        twin: vec![M, 5, 10, M, 8, 1, M, 11, 4, M, 2, 7],
        vert: vec![0, 1, 4, 1, 2, 4, 2, 3, 4, 3, 0, 4],
        edge: vec![0, 1, 2, 3, 4, 1, 5, 6, 4, 7, 2, 6],
        points: vec![16, 0, 0, 0, 16, 0, -16, 0, 0, 0, -16, 0, 0, 0, 8],
        creases: creases.to_vec(),
    }
}

/// Edges 0 and 3 both join the corners 0 and 1; 2 lies above them and 3 below.
fn two_edges_between_0_and_1(creases: [u8; 6]) -> Cage {
    Cage {
        twin: vec![6, 5, 4, 9, 2, 1, 0, 11, 10, 3, 8, 7],
        vert: vec![0, 1, 2, 1, 0, 2, 1, 0, 3, 0, 1, 3],
        edge: vec![0, 1, 2, 3, 2, 1, 0, 4, 5, 3, 5, 4],
        points: vec![0, 0, 0, 16, 0, 0, 0, 0, 16, 0, 0, -16],
        creases: creases.to_vec(),
    }
}

fn points(level: &Cage) -> &[[i32; 3]] {
    level.points.as_chunks::<3>().0
}

/// Creases 2, 1 and 1 meet at corner 0, which has more than two and stays put. The
/// other corners have one and are smooth: with s the sum of the other three, corner
/// 1 goes to (15·(16,0,0) + 3·(0,16,16))/24 = (240,48,48)/24. Edges 0, 2 and 4 get
/// their midpoints; edge 1 goes to (3·(16,0,0) + 3·(0,16,0) + (0,0,16))/8.
#[test]
fn a_fork_on_a_tetrahedron_at_level_1() {
    let level = levels(&tetrahedron([2, 0, 1, 0, 1, 0]), 1).remove(1);
    let vertices = [[0, 0, 0], [10, 2, 2], [2, 10, 2], [2, 2, 10]];
    assert_eq!(points(&level)[..4], vertices);
    let sharp = [[8, 0, 0], [0, 8, 0], [0, 0, 8]];
    assert_eq!([4, 6, 8].map(|vertex| points(&level)[vertex]), sharp);
    let smooth = [[6, 6, 2], [2, 6, 6], [6, 2, 6]];
    assert_eq!([5, 7, 9].map(|vertex| points(&level)[vertex]), smooth);
    // Edge 0 alone is sharp for another level; twelve edges cross the triangles.
    assert_eq!(level.creases[..2], [1, 1]);
    assert_eq!(level.creases[2..], [0; 22]);
}

/// Now only the halves of edge 0 are creases, from 0 to 4 and from 4 to 1.
///
/// Corner 0 has one and is smooth: 3·(8,8,8)/24 with the spokes to 4, 6 and 8.
/// Corner 1 has one: with the spokes to 4, 5 and 9 it goes to (15·(10,2,2) +
/// 3·(20,8,8))/24 = (210,54,54)/24. Vertex 4 has two: (6·(8,0,0) + (0,0,0) +
/// (10,2,2))/8 = (58,2,2)/8.
///
/// Edge 0 of level 1 is the half at corner 1, of which halfedge 8 is above its
/// twin: half of (8,0,0) + (10,2,2). Edge 1 is the other half. Edge 4 runs from
/// corner 0 to vertex 6, between 4 and 8, and is smooth: (3·(0,8,0) + (8,0,0) +
/// (0,0,8))/8.
#[test]
fn a_fork_on_a_tetrahedron_at_level_2() {
    let level = levels(&tetrahedron([2, 0, 1, 0, 1, 0]), 2).remove(2);
    let vertices = [[1, 1, 1], [9, 2, 2], [2, 9, 2], [2, 2, 9], [7, 0, 0]];
    assert_eq!(points(&level)[..5], vertices);
    assert_eq!(points(&level)[10..12], [[9, 1, 1], [4, 0, 0]]);
    assert_eq!(points(&level)[14], [1, 3, 1]);
    assert_eq!(level.creases, [0; 96]);
}

/// A smooth vertex follows the weight chosen: with the paper's, 3/16 for each of
/// three spokes, corner 1 goes to (7·(16,0,0) + 3·(0,16,16))/16. Corner 0 stays put
/// and the edges are as before.
#[test]
fn a_fork_with_the_paper_s_weight() {
    let cage = tetrahedron([2, 0, 1, 0, 1, 0]);
    let [short, paper] = WEIGHTS.map(|weight| levels_with(weight, &cage, 1).remove(1));
    let vertices = [[0, 0, 0], [7, 3, 3], [3, 7, 3], [3, 3, 7]];
    assert_eq!(points(&paper)[..4], vertices);
    assert_eq!(points(&paper)[4..], points(&short)[4..]);
    assert_eq!(paper.creases, short.creases);
}

/// A seam of number 1 from corner 0 over 4 to corner 2, from border to border.
///
/// Corners 0 and 2 have it and two border edges, and stay put. Corners 1 and 3 have
/// their two border edges: 6·16/8. Vertex 4 has the two sides of the seam:
/// 6·(0,0,8)/8. Edges 2 and 4 get their midpoints, and edge 1 is smooth:
/// (3·(0,16,0) + 3·(0,0,8))/8.
///
/// At level 2 no inner crease is left. Corner 0 has its two border edges, to
/// (8,8,0) and (8,−8,0): (6·16 + 16)/8. Vertex 4 is smooth, its spokes of sum
/// (0,0,14): (20·6 + 3·14)/32 = 162/32.
#[test]
fn a_seam_across_a_disc() {
    let levels = levels(&disc([0, 0, 1, 0, 1, 0, 0, 0]), 2);
    let vertices = [[16, 0, 0], [0, 12, 0], [-16, 0, 0], [0, -12, 0], [0, 0, 6]];
    assert_eq!(points(&levels[1])[..5], vertices);
    let on_spokes = [[0, 6, 3], [8, 0, 4], [-8, 0, 4], [0, -6, 3]];
    let spokes = [1, 2, 4, 6].map(|edge| points(&levels[1])[5 + edge]);
    assert_eq!(spokes, on_spokes);
    assert!(levels[1].creases.iter().all(|&number| number == 0));
    assert_eq!(points(&levels[2])[0], [14, 0, 0]);
    assert_eq!(points(&levels[2])[4], [0, 0, 5]);
}

/// A dart: one spoke from the border to the middle. Vertex 4 has one crease and is
/// smooth: 20·(0,0,8)/32; corner 0 has three and stays put.
#[test]
fn a_seam_that_ends_inside() {
    let level = levels(&disc([0, 0, 3, 0, 0, 0, 0, 0]), 1).remove(1);
    let vertices = [[16, 0, 0], [0, 12, 0], [-12, 0, 0], [0, -12, 0], [0, 0, 5]];
    assert_eq!(points(&level)[..5], vertices);
    assert_eq!(points(&level)[5 + 2], [8, 0, 4]);
    // The two halves of edge 2.
    assert_eq!(level.creases[4..6], [2, 2]);
    assert_eq!(
        level.creases.iter().filter(|&&number| number > 0).count(),
        2
    );
}

/// Both edges are sharp: each is a crease of its own at either end, so that corner 0
/// has two, to the same far end: (16 + 16)/8, and corner 1 as well: 6·16/8. The hubs
/// have none: (10·16 + 0)/16 in z, 3·16/16 in x.
#[test]
fn two_creases_between_the_same_two_vertices() {
    let level = levels(&two_edges_between_0_and_1([2, 0, 0, 1, 0, 0]), 1).remove(1);
    let vertices = [[4, 0, 0], [12, 0, 0], [3, 0, 10], [3, 0, -10]];
    assert_eq!(points(&level)[..4], vertices);
    assert_eq!([4, 7].map(|v| points(&level)[v]), [[8, 0, 0]; 2]);
    assert_eq!(level.creases[..8], [1, 1, 0, 0, 0, 0, 0, 0]);
}

/// One of the two is sharp, and its ends are smooth: four spokes, of which two have
/// the same far end. Corner 0 goes to 3·(16+16)/32, corner 1 to 20·16/32. Edge 3 is
/// smooth and goes to 3·16/8.
#[test]
fn one_crease_of_two_edges_between_the_same_two_vertices() {
    let level = levels(&two_edges_between_0_and_1([2, 0, 0, 0, 0, 0]), 1).remove(1);
    let vertices = [[3, 0, 0], [10, 0, 0], [3, 0, 10], [3, 0, -10]];
    assert_eq!(points(&level)[..4], vertices);
    assert_eq!([4, 7].map(|v| points(&level)[v]), [[8, 0, 0], [6, 0, 0]]);
}

/// Numbers 3, 2 and 1 at corner 0: three creases, then two, one and none. First it
/// stays put. Then it goes along the edges to vertex 4, (8,0,0), and to vertex 6,
/// (0,8,0), their sum over 8.
#[test]
fn creases_wear_off_one_after_the_other() {
    let levels = levels(&tetrahedron([3, 0, 2, 0, 1, 0]), 4);
    let at_0: Vec<usize> = levels
        .iter()
        .map(|level| common::creases_at(level)[0].len())
        .collect();
    assert_eq!(at_0, [3, 2, 1, 0, 0]);
    assert_eq!(points(&levels[1])[0], [0, 0, 0]);
    assert_eq!(points(&levels[2])[0], [1, 1, 0]);
}

/// Number n at an edge of the cage is max(0, n−d) on its 2^d pieces at level d, which
/// are numbered from 2^d times its own number on; all edges after them carry 0.
#[test]
fn the_pieces_of_an_edge_carry_its_number_less_the_level() {
    for entry in small_accepted() {
        let cage = &entry.cage;
        for (depth, level) in levels(cage, 3).iter().enumerate() {
            let pieces = cage.edge_count() << depth;
            assert_eq!(level.creases.len(), level.edge_count(), "{}", entry.name);
            for (piece, &number) in level.creases.iter().enumerate() {
                let at_first = match piece < pieces {
                    true => cage.creases[piece >> depth],
                    false => 0,
                };
                let worn = usize::from(at_first).saturating_sub(depth);
                assert_eq!(usize::from(number), worn, "{}", entry.name);
            }
        }
    }
}

/// The two ends of each edge, the lower first.
fn ends(level: &Cage) -> Vec<[u32; 2]> {
    let mut ends = vec![[0; 2]; level.edge_count()];
    for (h, &edge) in level.edge.iter().enumerate() {
        let mut both = [level.vert[h], level.vert[h - h % 3 + (h + 1) % 3]];
        both.sort();
        ends[edge as usize] = both;
    }
    ends
}

/// The pieces are where the edge was: from either of its ends to the vertex on it.
#[test]
fn the_halves_of_an_edge_join_its_ends_to_its_middle() {
    for entry in small_accepted() {
        let levels = levels(&entry.cage, 2);
        for (old, new) in levels.iter().zip(&levels[1..]) {
            let (old_ends, new_ends) = (ends(old), ends(new));
            for (edge, [a, b]) in old_ends.into_iter().enumerate() {
                let middle = (old.vertex_count() + edge) as u32;
                let mut halves = [new_ends[2 * edge], new_ends[2 * edge + 1]];
                halves.sort();
                assert_eq!(halves, [[a, middle], [b, middle]], "{}", entry.name);
            }
        }
    }
}

/// A number that outlasts every level gives the same points as any other such.
#[test]
fn from_6_on_the_points_are_the_same() {
    for kind in ["closed", "open"] {
        let refined = |number: u8| {
            let cage = cage_named(&format!("creased-number-{number}-{kind}"));
            // Drawn points differ from cage to cage.
            let mut cage = cage.expect("in the suite");
            for (at, coordinate) in (0..).zip(&mut cage.points) {
                *coordinate = 1_000 * at * at - 700 * at;
            }
            let levels = levels(&cage, 6);
            let points: Vec<Vec<i32>> = levels.into_iter().map(|level| level.points).collect();
            points
        };
        for number in 7..=10 {
            assert_eq!(refined(number), refined(6), "{kind} {number}");
        }
        for number in 1..6 {
            let (lower, higher) = (refined(number), refined(number + 1));
            let depth = usize::from(number);
            assert_eq!(lower[..=depth], higher[..=depth], "{kind} {number}");
            assert_ne!(lower[depth + 1], higher[depth + 1], "{kind} {number}");
        }
    }
}

/// Border edges are sharp for ever, and never by their number.
#[test]
fn borders_carry_0_on_every_level() {
    for entry in small_accepted() {
        for level in levels(&entry.cage, 2) {
            for (h, _) in level.twin.iter().enumerate().filter(|(_, &twin)| twin == M) {
                assert_eq!(level.creases[level.edge[h] as usize], 0, "{}", entry.name);
            }
        }
    }
}

/// Level 0 is the cage, and nothing past it is touched.
#[test]
fn depth_0_copies_the_creases() {
    let cage = tetrahedron([10, 0, 1, 0, 5, 0]);
    for weight in WEIGHTS {
        let (_, tables) = refined_into(&cage, 0, weight, [12, 12, 12, 12, 8]).expect("refined");
        assert_eq!(tables.creases[..6], cage.creases);
        let before = common::lendable([0, 0, 0, 0, 8]).creases;
        assert_eq!(tables.creases[6..], before[6..]);
    }
}

/// "Room place 7 is the crease table": the sum of E over the levels, after all other
/// tables.
#[test]
fn the_room_of_the_creases() {
    let cage = tetrahedron([2, 0, 1, 0, 1, 0]);
    for (depth, e_room) in (0..).zip([6, 30, 126, 510, 2_046, 8_190, 32_766]) {
        let counts = count_question(12, 6, 4, depth).expect("counted");
        assert_eq!(counts.edge_room, e_room);
        let exact = room(&counts);
        assert_eq!(exact[4] as u64, e_room);
        for weight in WEIGHTS {
            let answer = |lengths| refined_into(&cage, depth, weight, lengths).err();
            assert_eq!(answer(exact), None);
            // One cell too few in one table, none at all in those after it.
            for (table, place) in ROOM_PLACES.into_iter().enumerate() {
                let mut short = exact;
                short[table] -= 1;
                short[table + 1..].fill(0);
                assert_eq!(answer(short), Some(Refusal::new(9, place)));
            }
        }
    }
}

/// "With all zeros the points equal today's": by the rules as they were, which know
/// of borders alone.
#[test]
fn without_creases_all_is_as_it_was() {
    let mut without = 0;
    for weight in WEIGHTS {
        for entry in refinable(weight, small_accepted()) {
            let levels = levels_with(weight, &entry.cage, 3);
            for (old, new) in levels.iter().zip(&levels[1..]) {
                if old.creases.iter().all(|&number| number == 0) {
                    assert_eq!(new.points, points_by_borders(old, weight), "{}", entry.name);
                    without += 1;
                }
            }
        }
    }
    assert!(without > 2_000, "{without}");
}

/// The points of the next level by document 01, "Points", and document 02, §4 and
/// §5, of each vertex and of each edge in turn.
fn points_by_borders(level: &Cage, weight: Weight) -> Vec<i32> {
    let mut numerators = vec![(0, 1); 3 * (level.vertex_count() + level.edge_count())];
    let triangle = |h: usize| [0, 1, 2].map(|turn| level.vert[h - h % 3 + (h + turn) % 3]);
    let coordinate = |vertex: u32, axis: usize| i64::from(level.points[3 * vertex as usize + axis]);
    for at in common::corner_sums(level) {
        let n = at.corners as i64;
        numerators[at.index] = match weight {
            Weight::Short => (5 * n * at.own + 3 * at.spokes, 8 * n),
            Weight::Paper => {
                let part = second::weight::paper_part(at.corners).expect("an entry");
                let (part, whole) = (i64::from(part), 1 << 24);
                ((whole - n * part) * at.own + part * at.spokes, whole)
            }
        };
    }
    for (h, &twin) in level.twin.iter().enumerate() {
        let [a, b, c] = triangle(h);
        for axis in 0..3 {
            let at = |vertex| coordinate(vertex, axis);
            let on_edge = 3 * (level.vertex_count() + level.edge[h] as usize) + axis;
            if twin != M {
                let [_, _, d] = triangle(twin as usize);
                numerators[on_edge] = (3 * at(a) + 3 * at(b) + at(c) + at(d), 8);
                continue;
            }
            numerators[on_edge] = (at(a) + at(b), 2);
            for (vertex, neighbour) in [(a, b), (b, a)] {
                let (numerator, denominator) = &mut numerators[3 * vertex as usize + axis];
                if *denominator == 1 {
                    (*numerator, *denominator) = (6 * at(vertex), 8);
                }
                *numerator += at(neighbour);
            }
        }
    }
    let rounded = numerators
        .into_iter()
        .map(|(numerator, denominator)| common::rounded(numerator, denominator) as i32);
    rounded.collect()
}

/// "15 CREASE at the lowest edge out of range or on a border and not 0".
#[test]
fn numbers_that_are_refused() {
    let refusal = |cage: &Cage| check(cage).err();
    assert_eq!(refusal(&tetrahedron([10, 0, 10, 10, 0, 10])), None);
    for (creases, edge) in [
        ([0, 0, 0, 11, 0, 0], 3),
        ([10, 255, 0, 11, 0, 0], 1),
        ([0, 0, 0, 0, 0, 128], 5),
    ] {
        let refused = Some(Refusal::new(CREASE, edge));
        assert_eq!(refusal(&tetrahedron(creases)), refused);
    }
    for (creases, edge) in [
        ([0, 0, 0, 1, 0, 0, 0, 0], 3),
        ([0, 10, 10, 0, 10, 0, 10, 1], 7),
        ([0, 0, 11, 0, 0, 1, 0, 0], 2),
        ([0, 0, 0, 0, 0, 1, 11, 0], 5),
    ] {
        let refused = Some(Refusal::new(CREASE, edge));
        assert_eq!(refusal(&disc(creases)), refused);
    }
}

/// "1 also when the table's length is not E", with every number in it fine.
#[test]
fn lengths_that_are_refused() {
    let shape = Some(Refusal::new(1, 0));
    for cage in [document_triangle(), document_pillow(), tetrahedron([0; 6])] {
        let e = cage.edge_count();
        for length in (0..20).filter(|&length| length != e) {
            let mut resized = cage.clone();
            resized.creases.resize(length, 0);
            assert_eq!(check(&resized).err(), shape);
            for weight in WEIGHTS {
                assert_eq!(refined_into(&resized, 0, weight, [99; 5]).err(), shape);
                // The depth is found before.
                let depth = Some(Refusal::new(2, 0));
                assert_eq!(refined_into(&resized, 7, weight, [99; 5]).err(), depth);
            }
        }
    }
}

/// "Writing form 1 takes no creases": neither their numbers nor their length matter.
#[test]
fn a_form_1_file_has_no_place_for_creases() {
    let plain = tetrahedron([0; 6]);
    let file = file_of(&plain);
    for creases in [vec![3; 6], vec![255; 6], vec![], vec![0; 7]] {
        let cage = Cage {
            creases,
            ..plain.clone()
        };
        assert_eq!(file_of(&cage), file);
    }
    assert_eq!(read_cage(&file).map(|read| read.cage), Ok(plain));
    for entry in suite() {
        let (mut with, mut without) = (vec![7; 50_000], vec![7; 50_000]);
        let answer = write_cage_file(&entry.cage, &mut with);
        let plain = entry.cage.without_creases();
        assert_eq!(write_cage_file(&plain, &mut without), answer);
        assert_eq!(with, without, "{}", entry.name);
    }
}

/// The third number of the room line.
#[test]
fn the_lister_has_a_third_number() {
    let listed = list_levels(&file_of(&tetrahedron([0; 6])));
    let room = listed.lines().last().expect("a line");
    // 12 and 6 over seven levels, four times as many each; V is 2 more than E−F.
    assert_eq!(room, "room 65532 10936 32766");
}

/// "The number of halfedges that have no twin or a twin with a lower number", word
/// for word, of any table.
#[test]
fn the_edges_of_any_table() {
    assert_eq!(edges(&[]), 0);
    assert_eq!(edges(&[M]), 1);
    assert_eq!(edges(&[0]), 0);
    assert_eq!(edges(&[M, M, M]), 3);
    assert_eq!(edges(&[5, 4, 3, 2, 1, 0]), 3);
    // Lower, itself, higher, far past the end, no twin.
    assert_eq!(edges(&[1, 0, 2, 9, M - 1, M, 5]), 3);
    let twins = suite().into_iter().map(|entry| entry.cage.twin);
    for twin in questions::edges::questions().into_iter().chain(twins) {
        let mut count = 0;
        for (h, &t) in (0_u32..).zip(&twin) {
            if t == M || t < h {
                count += 1;
            }
        }
        assert_eq!(edges(&twin), count);
    }
}

/// The check's E is that of the twins, and so is the length of a crease table.
#[test]
fn the_edges_of_an_accepted_cage() {
    for entry in suite() {
        if let Ok(counts) = check(&entry.cage) {
            let e = edges(&entry.cage.twin);
            assert_eq!(counts.edges, e as u64, "{}", entry.name);
            assert_eq!(entry.cage.creases.len(), e, "{}", entry.name);
        }
    }
}
