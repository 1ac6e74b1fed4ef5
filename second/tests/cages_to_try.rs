//! Document 01, "Cages to try": P1 to P10, of which document 02, §5 changes P10.

mod common;

use common::{document_pillow, document_triangle, levels, triangle};
use second::cage::{Cage, MARKER as M};
use second::check::check;
use second::counts::count_question;
use second::refusal::Refusal;

fn triangle_level_1() -> Cage {
    levels(&document_triangle(), 1).remove(1)
}

fn pillow_level_1() -> Cage {
    levels(&document_pillow(), 1).remove(1)
}

#[test]
fn p1_triangle_twins() {
    assert_eq!(
        triangle_level_1().twin,
        [M, 9, M, M, 10, M, M, 11, M, 1, 4, 7]
    );
}

#[test]
fn p2_triangle_edges() {
    assert_eq!(
        triangle_level_1().edge,
        [0, 6, 5, 2, 7, 1, 4, 8, 3, 6, 7, 8]
    );
}

#[test]
fn p3_triangle_verts() {
    assert_eq!(
        triangle_level_1().vert,
        [0, 3, 5, 1, 4, 3, 2, 5, 4, 5, 3, 4]
    );
}

#[test]
fn p4_triangle_points() {
    let old = [100, 100, 0, 600, 100, 0, 100, 600, 0];
    let new = [400, 0, 0, 400, 400, 0, 0, 400, 0];
    assert_eq!(triangle_level_1().points, [old, new].concat());
}

#[test]
fn p5_pillow_tables() {
    assert!(check(&document_pillow()).is_ok());
    let level = pillow_level_1();
    assert_eq!(level.twin[0], 11);
    assert_eq!([level.edge[0], level.edge[11], level.edge[15]], [1, 1, 0]);
}

#[test]
fn p6_pillow_points() {
    let points = pillow_level_1().points;
    assert_eq!(points[..3], [3, 3, 0]);
    assert_eq!(points[9..12], [6, 4, 0]);
}

#[test]
fn p7_two_triangles_at_a_vertex() {
    let cage = Cage {
        twin: vec![M; 6],
        vert: vec![0, 1, 2, 0, 3, 4],
        edge: (0..6).collect(),
        points: vec![0; 15],
        creases: vec![0; 6],
    };
    assert_eq!(check(&cage), Err(Refusal::new(7, 0)));
}

#[test]
fn p8_room() {
    let counts = count_question(12, 6, 4, 2).expect("accepted");
    assert_eq!((counts.halfedge_room, counts.vertex_room), (252, 48));
    assert_eq!(counts.edge_room, 126);
    assert_eq!(counts.halfedges, [12, 48, 192, 0, 0, 0, 0]);
    assert_eq!(counts.edges, [6, 24, 96, 0, 0, 0, 0]);
    assert_eq!(counts.vertices, [4, 10, 34, 0, 0, 0, 0]);
}

#[test]
fn p9_a_twin_of_its_own() {
    let mut cage = document_pillow();
    cage.twin[0] = 0;
    assert_eq!(check(&cage), Err(Refusal::new(3, 0)));
}

/// Vertex 0 goes to (6v+a+b)/8: 12/8, −12/8 and −13/8. "−12/8 becomes −2."
#[test]
fn p10_three_roundings() {
    let cage = triangle([2, -2, -2, 0, 0, -1, 0, 0, 0]);
    let level = levels(&cage, 1).remove(1);
    assert_eq!(level.points[..3], [2, -2, -2]);
}
