//! What the tests share: tables to lend, levels taken out of them, and files.

#![allow(dead_code)]

use std::cmp::Ordering;

use second::cage::{Cage, MARKER};
use second::counts::LevelCounts;
use second::file::{
    read_cage_file, write_cage_file, write_form_2_file, FileCounts, LONGEST_FORM_1, LONGEST_FORM_2,
};
use second::refine::refine;
use second::refusal::Refusal;
use second::suite::{accepted_cages, SuiteCage};
use second::tables::LentTables;
use second::weight::Weight;

pub const WEIGHTS: [Weight; 2] = [Weight::Short, Weight::Paper];

/// Tables of these lengths, each cell of which can be told from its
/// neighbours, so that any change shows.
pub fn lendable(lengths: [usize; 5]) -> Cage {
    let cells = |salt: u32, length: usize| (0..length as u32).map(move |at| at ^ salt).collect();
    Cage {
        twin: cells(0xAAAA_0000, lengths[0]),
        vert: cells(0xBBBB_0000, lengths[1]),
        edge: cells(0xCCCC_0000, lengths[2]),
        points: (0..lengths[3] as i32).map(|at| -5 - at).collect(),
        creases: (0..lengths[4]).map(|at| 100 + (at % 150) as u8).collect(),
    }
}

pub fn lend(tables: &mut Cage) -> LentTables<'_> {
    LentTables {
        twin: &mut tables.twin,
        vert: &mut tables.vert,
        edge: &mut tables.edge,
        points: &mut tables.points,
        creases: &mut tables.creases,
    }
}

/// Refines into tables of these lengths. On a refusal they must be as before.
pub fn refined_into(
    cage: &Cage,
    depth: u64,
    weight: Weight,
    lengths: [usize; 5],
) -> Result<(LevelCounts, Cage), Refusal> {
    let before = lendable(lengths);
    let mut tables = before.clone();
    let answer = refine(cage, depth, weight, &mut lend(&mut tables));
    if answer.is_err() {
        assert_eq!(tables, before);
    }
    answer.map(|counts| (counts, tables))
}

/// What refining answers at a depth above its limit: 2, unless the shape is wrong.
/// A crease table of a wrong length is found only after that.
pub fn refusal_of_the_depth(cage: &Cage) -> Refusal {
    let refusal = second::check::check(&cage.clone().without_creases()).err();
    let wrong_shape = refusal.filter(|refusal| refusal.number == 1);
    wrong_shape.unwrap_or(Refusal::new(2, 0))
}

/// The lengths that levels 0 to the depth need.
pub fn room(counts: &LevelCounts) -> [usize; 5] {
    let h_room = counts.halfedge_room as usize;
    let (v_room, e_room) = (counts.vertex_room as usize, counts.edge_room as usize);
    [h_room, h_room, h_room, 3 * v_room, e_room]
}

/// The place of each of the lengths in refusal 9.
pub const ROOM_PLACES: [usize; 5] = [1, 2, 3, 4, 7];

/// Levels 0 to the depth of an accepted cage, one by one, with the short weight.
pub fn levels(cage: &Cage, depth: u64) -> Vec<Cage> {
    levels_with(Weight::Short, cage, depth)
}

/// Levels 0 to the depth of a cage that refining with this weight accepts.
pub fn levels_with(weight: Weight, cage: &Cage, depth: u64) -> Vec<Cage> {
    let checked = second::check::check(cage).expect("accepted");
    let counts =
        second::counts::count_question(checked.halfedges, checked.edges, checked.vertices, depth)
            .expect("counted");
    let (answer, tables) = refined_into(cage, depth, weight, room(&counts)).expect("refined");
    assert_eq!(answer, counts);
    cut_into_levels(&tables, &counts, depth)
}

fn cut_into_levels(tables: &Cage, counts: &LevelCounts, depth: u64) -> Vec<Cage> {
    let (mut h, mut p, mut e) = (0, 0, 0);
    let mut levels = Vec::new();
    for level in 0..=depth as usize {
        let h_end = h + counts.halfedges[level] as usize;
        let p_end = p + 3 * counts.vertices[level] as usize;
        let e_end = e + counts.edges[level] as usize;
        levels.push(Cage {
            twin: tables.twin[h..h_end].to_vec(),
            vert: tables.vert[h..h_end].to_vec(),
            edge: tables.edge[h..h_end].to_vec(),
            points: tables.points[p..p_end].to_vec(),
            creases: tables.creases[e..e_end].to_vec(),
        });
        (h, p, e) = (h_end, p_end, e_end);
    }
    levels
}

/// Document 01's single triangle, at these points.
pub fn triangle(points: [i32; 9]) -> Cage {
    Cage {
        twin: vec![MARKER; 3],
        vert: vec![0, 1, 2],
        edge: vec![0, 1, 2],
        points: points.to_vec(),
        creases: vec![0; 3],
    }
}

/// Document 01's triangle with the points of P4.
pub fn document_triangle() -> Cage {
    triangle([0, 0, 0, 800, 0, 0, 0, 800, 0])
}

/// Document 01's pillow with the points of P6.
pub fn document_pillow() -> Cage {
    Cage {
        twin: vec![5, 4, 3, 2, 1, 0],
        vert: vec![0, 1, 2, 0, 2, 1],
        edge: vec![0, 1, 2, 2, 1, 0],
        points: vec![0, 0, 0, 16, 0, 0, 0, 16, 0],
        creases: vec![0; 3],
    }
}

/// The accepted cages with at most 200 halfedges.
pub fn small_accepted() -> Vec<SuiteCage> {
    let all = accepted_cages().into_iter();
    all.filter(|entry| !entry.is_large()).collect()
}

/// Those that refining with this weight accepts.
pub fn refinable(weight: Weight, mut cages: Vec<SuiteCage>) -> Vec<SuiteCage> {
    cages.retain(|entry| weight == Weight::Short || lowest_of_many_corners(&entry.cage).is_none());
    cages
}

/// How many corners each vertex has, and whether it is on a border.
pub fn corners(level: &Cage) -> Vec<(usize, bool)> {
    let mut corners = vec![(0, false); level.vertex_count()];
    for triangle in 0..level.triangle_count() {
        for corner in 0..3 {
            let h = 3 * triangle + corner;
            let after = 3 * triangle + (corner + 1) % 3;
            let (from, to) = (level.vert[h] as usize, level.vert[after] as usize);
            corners[from].0 += 1;
            if level.twin[h] == MARKER {
                corners[from].1 = true;
                corners[to].1 = true;
            }
        }
    }
    corners
}

/// The far ends of each vertex's creases, a far end for each crease.
pub fn creases_at(level: &Cage) -> Vec<Vec<usize>> {
    let mut far_ends = vec![Vec::new(); level.vertex_count()];
    for (h, &twin) in level.twin.iter().enumerate() {
        let after = h - h % 3 + (h + 1) % 3;
        let (from, to) = (level.vert[h] as usize, level.vert[after] as usize);
        let is_border = twin == MARKER;
        if is_border || level.creases[level.edge[h] as usize] > 0 {
            far_ends[from].push(to);
        }
        // No twin tells the other end of it.
        if is_border {
            far_ends[to].push(from);
        }
    }
    far_ends
}

/// The lowest inner vertex of more than 32 corners.
pub fn lowest_of_many_corners(level: &Cage) -> Option<usize> {
    let corners = corners(level);
    let is_such = |&(count, on_border): &(usize, bool)| count > 32 && !on_border;
    corners.iter().position(is_such)
}

/// One coordinate of a smooth vertex: its index in the points, its corners, the
/// coordinate itself and the sum over the spokes' far ends.
pub struct CornerSum {
    pub index: usize,
    pub corners: usize,
    pub own: i64,
    pub spokes: i64,
}

/// Those of all vertices of a level that have fewer than two creases, as no
/// vertex on a border has.
pub fn corner_sums(level: &Cage) -> Vec<CornerSum> {
    let coordinate = |vertex: u32, axis: usize| i64::from(level.points[3 * vertex as usize + axis]);
    let mut spokes = vec![0; level.points.len()];
    for corners in level.vert.chunks(3) {
        for (at, &from) in corners.iter().enumerate() {
            for axis in 0..3 {
                spokes[3 * from as usize + axis] += coordinate(corners[(at + 1) % 3], axis);
            }
        }
    }
    let (corners, creases) = (corners(level), creases_at(level));
    let sum = |(index, &spokes): (usize, &i64)| CornerSum {
        index,
        corners: corners[index / 3].0,
        own: level.points[index].into(),
        spokes,
    };
    let all = spokes.iter().enumerate();
    let smooth = all.filter(|(index, _)| creases[index / 3].len() < 2);
    smooth.map(sum).collect()
}

/// A fraction with a positive denominator, rounded to the nearest whole number.
/// Of the two beside a half the upper one is taken where this says so of the lower.
pub fn rounded_by(numerator: i64, denominator: i64, takes_upper: fn(i64) -> bool) -> i64 {
    let lower = numerator.div_euclid(denominator);
    let is_upper = match (2 * numerator.rem_euclid(denominator)).cmp(&denominator) {
        Ordering::Less => false,
        Ordering::Equal => takes_upper(lower),
        Ordering::Greater => true,
    };
    lower + i64::from(is_upper)
}

/// Document 02, §5: "halves shall round away from zero".
pub fn rounded(numerator: i64, denominator: i64) -> i64 {
    rounded_by(numerator, denominator, |lower| lower >= 0)
}

/// The form 1 file of an accepted cage.
pub fn file_of(cage: &Cage) -> Vec<u8> {
    let mut file = vec![0; LONGEST_FORM_1];
    let length = write_cage_file(cage, &mut file).expect("written");
    file.truncate(length as usize);
    file
}

/// The form 2 file of an accepted cage.
pub fn form_2_file_of(cage: &Cage, weight: Weight) -> Vec<u8> {
    let mut file = vec![0; LONGEST_FORM_2];
    let length = write_form_2_file(cage, weight, &mut file).expect("written");
    file.truncate(length as usize);
    file
}

/// Two triangles with the edge from 1 to 2 between them, which is edge 1 and has
/// this crease number. E is 5, which is neither H, 6, nor half of it.
pub fn creased_pair(number: u8) -> Cage {
    Cage {
        twin: vec![MARKER, 3, MARKER, 1, MARKER, MARKER],
        vert: vec![0, 1, 2, 2, 1, 3],
        edge: vec![0, 1, 2, 1, 3, 4],
        points: (0..12).map(|at| 700 * at - 4_000).collect(),
        creases: vec![0, number, 0, 0, 0],
    }
}

/// Reads into tables of these lengths. On a refusal they must be as before, and of
/// a file of form 1 the crease table always.
pub fn read_into(file: &[u8], lengths: [usize; 5]) -> Result<(FileCounts, Cage), Refusal> {
    let before = lendable(lengths);
    let mut tables = before.clone();
    let answer = read_cage_file(file, &mut lend(&mut tables));
    if answer.is_err() {
        assert_eq!(tables, before);
    }
    if answer.is_ok_and(|counts| counts.form == 1) {
        assert_eq!(tables.creases, before.creases);
    }
    answer.map(|counts| (counts, tables))
}
