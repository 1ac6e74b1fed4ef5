//! The second program.

use second::build::build;
use second::cage::{edges, Cage};
use second::check::{check, CageCounts};
use second::corners::corner_question;
use second::counts::{count_question, LevelCounts};
use second::file::{
    read_cage_file, to_form_1, to_form_2, write_cage_file, write_form_2_file, FileCounts,
};
use second::halfedge::{five_numbers, halfedge_question, ThreeTables};
use second::refine::refine;
use second::refusal::Refusal;
use second::stl::write_stl;
use second::tables::LentTables;
use second::weight::Weight;
use second::why::why;

use super::{level_numbers, told, Operations};

/// The second program.
pub struct SecondProgram;

impl Operations for SecondProgram {
    fn check(&self, cage: &Cage) -> Vec<u64> {
        answer(check(cage).map(cage_numbers))
    }

    fn why(&self, cage: &Cage) -> Vec<u64> {
        why(cage).six_numbers().to_vec()
    }

    fn edges(&self, twin: &[u32]) -> Vec<u64> {
        vec![(edges(twin) as u64).min(u32::MAX.into())]
    }

    fn counts(&self, [h, e, v, depth]: [u64; 4]) -> Vec<u64> {
        answer(count_question(h, e, v, depth).map(counts_numbers))
    }

    fn corners(&self, vert: &[u32], triangle: u64) -> Vec<u64> {
        let corners = corner_question(vert, triangle);
        answer(corners.map(|corners| corners.map(u64::from)))
    }

    fn halfedge(&self, of: ThreeTables<'_>, depth: u64, halfedge: u64) -> Vec<u64> {
        five_numbers(halfedge_question(of, depth, halfedge)).to_vec()
    }

    fn refine(&self, cage: &Cage, depth: u64, weight: Weight, tables: &mut Cage) -> Vec<u64> {
        answer(refine(cage, depth, weight, &mut lent(tables)).map(counts_numbers))
    }

    fn read(&self, file: &[u8], tables: &mut Cage) -> Vec<u64> {
        answer(read_cage_file(file, &mut lent(tables)).map(file_numbers))
    }

    fn write(&self, cage: &Cage, lent_file: &mut [u8]) -> Vec<u64> {
        answer(write_cage_file(cage, lent_file).map(|length| [length]))
    }

    fn write_form_2(&self, cage: &Cage, weight: Weight, lent_file: &mut [u8]) -> Vec<u64> {
        answer(write_form_2_file(cage, weight, lent_file).map(|length| [length]))
    }

    fn to_form_2(&self, file: &[u8], lent_file: &mut [u8]) -> Vec<u64> {
        answer(to_form_2(file, lent_file).map(|length| [length]))
    }

    fn to_form_1(&self, file: &[u8], lent_file: &mut [u8]) -> Vec<u64> {
        answer(to_form_1(file, lent_file).map(|length| [length]))
    }

    fn build(&self, vert: &[u32], points: &[i32], tables: &mut Cage) -> Vec<u64> {
        let found = build(vert, points, [&mut tables.twin, &mut tables.edge]);
        answer(found.map(cage_numbers))
    }

    fn write_stl(&self, vert: &[u32], points: &[i32], lent_file: &mut [u8]) -> Vec<u64> {
        answer(write_stl(vert, points, lent_file).map(|length| [length]))
    }
}

fn answer<const N: usize>(result: Result<[u64; N], Refusal>) -> Vec<u64> {
    told(result.map_err(|refusal| [refusal.number.into(), refusal.place]))
}

/// Form, H, V, E and weight.
fn file_numbers(found: FileCounts) -> [u64; 5] {
    let (h, v, e) = (found.halfedges, found.vertices, found.edges);
    [found.form, h, v, e, found.weight]
}

/// H, E, F, V and B.
fn cage_numbers(found: CageCounts) -> [u64; 5] {
    let (h, e, f) = (found.halfedges, found.edges, found.triangles);
    [h, e, f, found.vertices, found.borders]
}

fn counts_numbers(counts: LevelCounts) -> [u64; 24] {
    let levels = [counts.halfedges, counts.edges, counts.vertices];
    let room = [counts.halfedge_room, counts.vertex_room, counts.edge_room];
    level_numbers(levels, room)
}

fn lent(tables: &mut Cage) -> LentTables<'_> {
    LentTables {
        twin: &mut tables.twin,
        vert: &mut tables.vert,
        edge: &mut tables.edge,
        points: &mut tables.points,
        creases: &mut tables.creases,
    }
}
