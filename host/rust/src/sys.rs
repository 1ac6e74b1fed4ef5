//! The exported functions of the proved archive, each behind a safe one that
//! takes slices and fills a raw answer. All unsafe code of this crate is here.
//!
//! An answer but that of [`edges`] starts with the number and the place; the
//! values that follow are those of `host/ryebadger.h`. All of it is written,
//! whatever it held. Only that of [`halfedge`] has cells of 64 bits.

#![allow(unsafe_code)]

use crate::{Cage, Connectivity, LentTables};

#[cfg(not(target_pointer_width = "64"))]
compile_error!("the archive takes lengths of 64 bits");

/// The length of the cage check's answer, which building gives too: number,
/// place, H, E, F, V and B.
pub const CHECK_ANSWER: usize = 7;

/// The length of the answer that says why: number, place, clause, and the three
/// numbers that show it.
pub const WHY_ANSWER: usize = 6;

/// The length of the answer that is E alone.
pub const EDGES_ANSWER: usize = 1;

/// The length of the count question's answer, which refining gives too: number,
/// place, seven H, seven E, seven V, and the room in halfedges, in vertices and
/// in edges.
pub const COUNTS_ANSWER: usize = 26;

/// The length of the answer about one halfedge: number, place, TWIN, VERT and EDGE.
pub const HALFEDGE_ANSWER: usize = 5;

/// The length of the corner question's answer: number, place, three corners.
pub const CORNERS_ANSWER: usize = 5;

/// The length of reading's answer: number, place, form, H, V, E and weight.
pub const READ_ANSWER: usize = 7;

/// The length of writing's answer, which the moves and writing STL give too:
/// number, place and the file's length.
pub const WRITE_ANSWER: usize = 3;

#[rustfmt::skip] // a table's pointer and length stand side by side
extern "C" {
    fn ryebadger_check(
        twin: *const u32, twin_length: usize, vert: *const u32, vert_length: usize,
        edge: *const u32, edge_length: usize, points: *const i32, points_length: usize,
        creases: *const u8, creases_length: usize,
        answer: *mut u32,
    );
    fn ryebadger_why(
        twin: *const u32, twin_length: usize, vert: *const u32, vert_length: usize,
        edge: *const u32, edge_length: usize, points: *const i32, points_length: usize,
        creases: *const u8, creases_length: usize,
        answer: *mut u32,
    );
    fn ryebadger_edges(twin: *const u32, twin_length: usize, answer: *mut u32);
    fn ryebadger_counts(halfedges: u64, edges: u64, vertices: u64, depth: u64, answer: *mut u32);
    fn ryebadger_refine(
        twin: *const u32, twin_length: usize, vert: *const u32, vert_length: usize,
        edge: *const u32, edge_length: usize, points: *const i32, points_length: usize,
        creases: *const u8, creases_length: usize,
        depth: u64, weight: u32,
        lent_twin: *mut u32, lent_twin_length: usize, lent_vert: *mut u32, lent_vert_length: usize,
        lent_edge: *mut u32, lent_edge_length: usize, lent_points: *mut i32, lent_points_length: usize,
        lent_creases: *mut u8, lent_creases_length: usize,
        answer: *mut u32,
    );
    fn ryebadger_halfedge(
        twin: *const u32, twin_length: usize, vert: *const u32, vert_length: usize,
        edge: *const u32, edge_length: usize, vertices: u64,
        depth: u64, halfedge: u64,
        answer: *mut u64,
    );
    fn ryebadger_corners(vert: *const u32, vert_length: usize, triangle: u64, answer: *mut u32);
    fn ryebadger_read(
        file: *const u8, file_length: usize,
        lent_twin: *mut u32, lent_twin_length: usize, lent_vert: *mut u32, lent_vert_length: usize,
        lent_edge: *mut u32, lent_edge_length: usize, lent_points: *mut i32, lent_points_length: usize,
        lent_creases: *mut u8, lent_creases_length: usize,
        answer: *mut u32,
    );
    fn ryebadger_write(
        twin: *const u32, twin_length: usize, vert: *const u32, vert_length: usize,
        edge: *const u32, edge_length: usize, points: *const i32, points_length: usize,
        lent_file: *mut u8, lent_file_length: usize,
        answer: *mut u32,
    );
    fn ryebadger_write_form_2(
        twin: *const u32, twin_length: usize, vert: *const u32, vert_length: usize,
        edge: *const u32, edge_length: usize, points: *const i32, points_length: usize,
        creases: *const u8, creases_length: usize,
        weight: u32,
        lent_file: *mut u8, lent_file_length: usize,
        answer: *mut u32,
    );
    fn ryebadger_to_form_2(
        file: *const u8, file_length: usize, lent_file: *mut u8, lent_file_length: usize,
        answer: *mut u32,
    );
    fn ryebadger_to_form_1(
        file: *const u8, file_length: usize, lent_file: *mut u8, lent_file_length: usize,
        answer: *mut u32,
    );
    fn ryebadger_build(
        vert: *const u32, vert_length: usize, points: *const i32, points_length: usize,
        lent_twin: *mut u32, lent_twin_length: usize, lent_edge: *mut u32, lent_edge_length: usize,
        answer: *mut u32,
    );
    fn ryebadger_write_stl(
        vert: *const u32, vert_length: usize, points: *const i32, points_length: usize,
        lent_file: *mut u8, lent_file_length: usize,
        answer: *mut u32,
    );
}

// Why every call below is safe: a pointer and its length come from one slice
// or array, so the pointer is aligned, not null, and has that many cells; what
// is lent and the answer are borrowed mutably, so they overlap nothing else;
// and the operations are proved to keep to what they are handed.

/// The cage check.
#[rustfmt::skip]
pub fn check(cage: Cage<'_>, answer: &mut [u32; CHECK_ANSWER]) {
    let creases = cage.crease_table();
    unsafe {
        ryebadger_check(
            cage.twin.as_ptr(), cage.twin.len(), cage.vert.as_ptr(), cage.vert.len(),
            cage.edge.as_ptr(), cage.edge.len(), cage.points.as_ptr(), cage.points.len(),
            creases.as_ptr(), creases.len(),
            answer.as_mut_ptr(),
        );
    }
}

/// Why the cage check sends a cage back.
#[rustfmt::skip]
pub fn why(cage: Cage<'_>, answer: &mut [u32; WHY_ANSWER]) {
    let creases = cage.crease_table();
    unsafe {
        ryebadger_why(
            cage.twin.as_ptr(), cage.twin.len(), cage.vert.as_ptr(), cage.vert.len(),
            cage.edge.as_ptr(), cage.edge.len(), cage.points.as_ptr(), cage.points.len(),
            creases.as_ptr(), creases.len(),
            answer.as_mut_ptr(),
        );
    }
}

/// E of any TWIN table.
pub fn edges(twin: &[u32], answer: &mut [u32; EDGES_ANSWER]) {
    unsafe { ryebadger_edges(twin.as_ptr(), twin.len(), answer.as_mut_ptr()) }
}

/// The count question.
pub fn counts(
    halfedges: u64,
    edges: u64,
    vertices: u64,
    depth: u64,
    answer: &mut [u32; COUNTS_ANSWER],
) {
    unsafe { ryebadger_counts(halfedges, edges, vertices, depth, answer.as_mut_ptr()) }
}

/// Refining. The weight is 0 for the short one, any other number for the
/// paper's.
#[rustfmt::skip]
pub fn refine(
    cage: Cage<'_>,
    depth: u64,
    weight: u32,
    lent: &mut LentTables<'_>,
    answer: &mut [u32; COUNTS_ANSWER],
) {
    let creases = cage.crease_table();
    unsafe {
        ryebadger_refine(
            cage.twin.as_ptr(), cage.twin.len(), cage.vert.as_ptr(), cage.vert.len(),
            cage.edge.as_ptr(), cage.edge.len(), cage.points.as_ptr(), cage.points.len(),
            creases.as_ptr(), creases.len(),
            depth, weight,
            lent.twin.as_mut_ptr(), lent.twin.len(), lent.vert.as_mut_ptr(), lent.vert.len(),
            lent.edge.as_mut_ptr(), lent.edge.len(), lent.points.as_mut_ptr(), lent.points.len(),
            lent.creases.as_mut_ptr(), lent.creases.len(),
            answer.as_mut_ptr(),
        );
    }
}

/// One halfedge of the level at a depth.
#[rustfmt::skip]
pub fn halfedge(
    of: Connectivity<'_>,
    depth: u64,
    halfedge: u64,
    answer: &mut [u64; HALFEDGE_ANSWER],
) {
    unsafe {
        ryebadger_halfedge(
            of.twin.as_ptr(), of.twin.len(), of.vert.as_ptr(), of.vert.len(),
            of.edge.as_ptr(), of.edge.len(), of.vertices,
            depth, halfedge,
            answer.as_mut_ptr(),
        );
    }
}

/// The corner question.
pub fn corners(vert: &[u32], triangle: u64, answer: &mut [u32; CORNERS_ANSWER]) {
    unsafe { ryebadger_corners(vert.as_ptr(), vert.len(), triangle, answer.as_mut_ptr()) }
}

/// Reading a cage file of either form.
#[rustfmt::skip]
pub fn read(file: &[u8], lent: &mut LentTables<'_>, answer: &mut [u32; READ_ANSWER]) {
    unsafe {
        ryebadger_read(
            file.as_ptr(), file.len(),
            lent.twin.as_mut_ptr(), lent.twin.len(), lent.vert.as_mut_ptr(), lent.vert.len(),
            lent.edge.as_mut_ptr(), lent.edge.len(), lent.points.as_mut_ptr(), lent.points.len(),
            lent.creases.as_mut_ptr(), lent.creases.len(),
            answer.as_mut_ptr(),
        );
    }
}

/// Writing a cage file of form 1.
#[rustfmt::skip]
pub fn write(cage: Cage<'_>, lent_file: &mut [u8], answer: &mut [u32; WRITE_ANSWER]) {
    unsafe {
        ryebadger_write(
            cage.twin.as_ptr(), cage.twin.len(), cage.vert.as_ptr(), cage.vert.len(),
            cage.edge.as_ptr(), cage.edge.len(), cage.points.as_ptr(), cage.points.len(),
            lent_file.as_mut_ptr(), lent_file.len(),
            answer.as_mut_ptr(),
        );
    }
}

/// Writing a cage file of form 2. The weight is as in [`refine`].
#[rustfmt::skip]
pub fn write_form_2(
    cage: Cage<'_>,
    weight: u32,
    lent_file: &mut [u8],
    answer: &mut [u32; WRITE_ANSWER],
) {
    let creases = cage.crease_table();
    unsafe {
        ryebadger_write_form_2(
            cage.twin.as_ptr(), cage.twin.len(), cage.vert.as_ptr(), cage.vert.len(),
            cage.edge.as_ptr(), cage.edge.len(), cage.points.as_ptr(), cage.points.len(),
            creases.as_ptr(), creases.len(),
            weight,
            lent_file.as_mut_ptr(), lent_file.len(),
            answer.as_mut_ptr(),
        );
    }
}

/// Moving a cage file from form 1 to form 2.
#[rustfmt::skip]
pub fn to_form_2(file: &[u8], lent_file: &mut [u8], answer: &mut [u32; WRITE_ANSWER]) {
    unsafe {
        ryebadger_to_form_2(
            file.as_ptr(), file.len(), lent_file.as_mut_ptr(), lent_file.len(),
            answer.as_mut_ptr(),
        );
    }
}

/// Moving a cage file from form 2 to form 1.
#[rustfmt::skip]
pub fn to_form_1(file: &[u8], lent_file: &mut [u8], answer: &mut [u32; WRITE_ANSWER]) {
    unsafe {
        ryebadger_to_form_1(
            file.as_ptr(), file.len(), lent_file.as_mut_ptr(), lent_file.len(),
            answer.as_mut_ptr(),
        );
    }
}

/// Building a cage from plain triangles.
#[rustfmt::skip]
pub fn build(
    vert: &[u32],
    points: &[i32],
    lent_twin: &mut [u32],
    lent_edge: &mut [u32],
    answer: &mut [u32; CHECK_ANSWER],
) {
    unsafe {
        ryebadger_build(
            vert.as_ptr(), vert.len(), points.as_ptr(), points.len(),
            lent_twin.as_mut_ptr(), lent_twin.len(), lent_edge.as_mut_ptr(), lent_edge.len(),
            answer.as_mut_ptr(),
        );
    }
}

/// Writing a level as STL.
#[rustfmt::skip]
pub fn write_stl(
    vert: &[u32],
    points: &[i32],
    lent_file: &mut [u8],
    answer: &mut [u32; WRITE_ANSWER],
) {
    unsafe {
        ryebadger_write_stl(
            vert.as_ptr(), vert.len(), points.as_ptr(), points.len(),
            lent_file.as_mut_ptr(), lent_file.len(),
            answer.as_mut_ptr(),
        );
    }
}
