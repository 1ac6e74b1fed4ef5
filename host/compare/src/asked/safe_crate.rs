//! The safe crate.

use ryebadger::{CageCounts, FileCounts, Halfedge, LevelCounts, Reason, Refusal, Why, MARKER};
use second::cage::Cage;
use second::halfedge::ThreeTables;
use second::weight::Weight;

use super::{chosen, handed, joined, lent, level_numbers, told, Operations};

/// The safe crate, whose named results are told as numbers again.
pub struct SafeCrate;

impl Operations for SafeCrate {
    fn check(&self, cage: &Cage) -> Vec<u64> {
        answer(ryebadger::check(handed(cage)).map(cage_numbers))
    }

    fn why(&self, cage: &Cage) -> Vec<u64> {
        let numbers = ryebadger::why(handed(cage)).map_or([0; 6], why_numbers);
        numbers.to_vec()
    }

    fn edges(&self, twin: &[u32]) -> Vec<u64> {
        vec![ryebadger::edges(twin).into()]
    }

    fn counts(&self, [h, e, v, depth]: [u64; 4]) -> Vec<u64> {
        answer(ryebadger::counts(h, e, v, depth).map(counts_numbers))
    }

    fn corners(&self, vert: &[u32], triangle: u64) -> Vec<u64> {
        answer(ryebadger::corners(vert, triangle))
    }

    fn halfedge(&self, of: ThreeTables<'_>, depth: u64, halfedge: u64) -> Vec<u64> {
        let cells = ryebadger::halfedge(joined(of), depth, halfedge);
        answer(cells.map(|Halfedge { twin, vert, edge }| [twin, vert, edge]))
    }

    fn refine(&self, cage: &Cage, depth: u64, weight: Weight, tables: &mut Cage) -> Vec<u64> {
        let counts = ryebadger::refine(handed(cage), depth, chosen(weight), &mut lent(tables));
        answer(counts.map(counts_numbers))
    }

    fn read(&self, file: &[u8], tables: &mut Cage) -> Vec<u64> {
        answer(ryebadger::read(file, &mut lent(tables)).map(file_numbers))
    }

    fn write(&self, cage: &Cage, lent_file: &mut [u8]) -> Vec<u64> {
        length(ryebadger::write(handed(cage), lent_file))
    }

    fn write_form_2(&self, cage: &Cage, weight: Weight, lent_file: &mut [u8]) -> Vec<u64> {
        let weight = chosen(weight);
        length(ryebadger::write_form_2(handed(cage), weight, lent_file))
    }

    fn to_form_2(&self, file: &[u8], lent_file: &mut [u8]) -> Vec<u64> {
        length(ryebadger::to_form_2(file, lent_file))
    }

    fn to_form_1(&self, file: &[u8], lent_file: &mut [u8]) -> Vec<u64> {
        length(ryebadger::to_form_1(file, lent_file))
    }

    fn build(&self, vert: &[u32], points: &[i32], tables: &mut Cage) -> Vec<u64> {
        let found = ryebadger::build(vert, points, &mut tables.twin, &mut tables.edge);
        answer(found.map(cage_numbers))
    }

    fn write_stl(&self, vert: &[u32], points: &[i32], lent_file: &mut [u8]) -> Vec<u64> {
        length(ryebadger::write_stl(vert, points, lent_file))
    }
}

fn answer<const N: usize>(result: Result<[impl Into<u64>; N], Refusal>) -> Vec<u64> {
    let values = result.map(|values| values.map(Into::into));
    told(values.map_err(|refusal| [refusal.number().into(), refusal.place()]))
}

fn length(result: Result<usize, Refusal>) -> Vec<u64> {
    answer(result.map(|length| [length as u64]))
}

/// Form, H, V, E and weight.
fn file_numbers(found: FileCounts) -> [u32; 5] {
    let (h, v, e) = (found.halfedges, found.vertices, found.edges);
    [found.form as u32, h, v, e, found.weight as u32]
}

/// H, E, F, V and B.
fn cage_numbers(found: CageCounts) -> [u32; 5] {
    let (h, e, f) = (found.halfedges, found.edges, found.triangles);
    [h, e, f, found.vertices, found.borders]
}

/// Number, place, clause, and the numbers that show it. Number and place of a
/// clause are the refusal's.
fn why_numbers(Why { refusal, reason }: Why) -> [u64; 6] {
    let (number, place) = (refusal.number().into(), refusal.place());
    let shown = |reason| reason_numbers(reason).map(u64::from);
    let numbers = reason.map_or([number, place, 0, 0, 0, 0], shown);
    assert_eq!(numbers[..2], [number, place], "{reason:?}");
    numbers
}

fn reason_numbers(reason: Reason) -> [u32; 6] {
    use Reason::*;
    match reason {
        TwinPastTable {
            halfedge,
            twin,
            halfedges,
        } => [3, halfedge, 1, twin, halfedges, 0],
        TwinIsItself { halfedge } => [3, halfedge, 2, halfedge, 0, 0],
        TwinNotReturned {
            halfedge,
            twin,
            its_twin,
        } => [3, halfedge, 3, twin, its_twin.unwrap_or(MARKER), 0],
        VertexPastPoints {
            corner,
            vertex,
            vertices,
        } => [4, corner, 1, vertex, vertices, 0],
        EndsAlike {
            corner,
            vertex,
            next,
        } => [4, corner, 2, vertex, next, 0],
        EndsOfTwinDiffer {
            corner,
            twin,
            its_vertex,
            far_end,
        } => [4, corner, 3, twin, its_vertex, far_end],
        VertexUnused { vertex } => [5, vertex, 1, vertex, 0, 0],
        EdgePastCount {
            halfedge,
            edge,
            edges,
        } => [6, halfedge, 1, edge, edges, 0],
        EdgeDiffersFromTwin {
            halfedge,
            twin,
            edge,
            its_edge,
        } => [6, halfedge, 2, twin, edge, its_edge],
        EdgeShared {
            halfedge,
            edge,
            stranger,
        } => [6, halfedge, 3, edge, stranger, 0],
        NotJoined {
            vertex,
            lowest,
            other,
        } => [7, vertex, 1, lowest, other, 0],
        Unknown { .. } => panic!("the documents do not have this: {reason}"),
    }
}

fn counts_numbers(counts: LevelCounts) -> [u64; 24] {
    let levels = [counts.halfedges, counts.edges, counts.vertices];
    let room = [counts.halfedge_room, counts.vertex_room, counts.edge_room];
    level_numbers(levels.map(|row| row.map(u64::from)), room.map(u64::from))
}
