//! For trying what document 01 says in "Why a cage is sent back": refusals 3
//! to 8 at low, middle and high places of triangles that share nothing. There
//! each halfedge has its own number as vertex and as edge.

use super::{changed, damaged, Damaged};
use crate::cage::{next, Cage, COORDINATE_LIMIT, MARKER};
use crate::refusal::{EDGE, FAN, POINT, TWIN, UNUSED, VERTEX};
use crate::sew::{weld, with_unused_vertex};
use crate::suite::shapes::disjoint_triangles;

pub(super) fn wrong_cells() -> Vec<Damaged> {
    let mut cages = Vec::new();
    for (triangles, places) in [(8, vec![0, 12, 23]), (682, vec![2_045])] {
        let base = format!("triangles-{triangles}");
        let cage = disjoint_triangles(triangles);
        for place in places {
            cages.extend(wrong_twins(&base, &cage, place));
            cages.extend(wrong_verts(&base, &cage, place));
            cages.extend(wrong_edges(&base, &cage, place));
            cages.extend(wrong_corners(&base, &cage, place));
            cages.extend(wrong_points(&base, &cage, place));
        }
    }
    cages
}

/// The same corner of the next triangle.
fn neighbour(cage: &Cage, h: usize) -> usize {
    (h + 3) % cage.halfedge_count()
}

fn wrong_twins(base: &str, cage: &Cage, h: usize) -> Vec<Damaged> {
    let faults = [
        ("itself", h as u32),
        ("past-the-end", cage.halfedge_count() as u32),
        ("below-marker", MARKER - 1),
        ("one-sided", neighbour(cage, h) as u32),
    ];
    let broken = |(fault, cell)| {
        let name = format!("{base}-twin-{fault}-{h}");
        damaged(name, changed(cage, |cage| cage.twin[h] = cell), TWIN, h)
    };
    faults.into_iter().map(broken).collect()
}

fn wrong_verts(base: &str, cage: &Cage, h: usize) -> Vec<Damaged> {
    let faults = [
        ("past-the-end", cage.vertex_count() as u32),
        ("marker", MARKER),
        ("as-next", next(h) as u32),
    ];
    let broken = |(fault, cell)| {
        let name = format!("{base}-vert-{fault}-{h}");
        damaged(name, changed(cage, |cage| cage.vert[h] = cell), VERTEX, h)
    };
    let other = neighbour(cage, h);
    let strange_twins = changed(cage, |cage| {
        cage.twin[h] = other as u32;
        cage.twin[other] = h as u32;
    });
    let name = format!("{base}-strange-twins-{h}");
    let mut cages: Vec<Damaged> = faults.into_iter().map(broken).collect();
    cages.push(damaged(name, strange_twins, VERTEX, h.min(other)));
    cages
}

fn wrong_edges(base: &str, cage: &Cage, h: usize) -> Vec<Damaged> {
    let other = neighbour(cage, h);
    let faults = [
        ("past-the-end", cage.edge_count() as u32, h),
        ("marker", MARKER, h),
        ("carried-twice", other as u32, h.min(other)),
    ];
    let broken = |(fault, cell, place)| {
        let name = format!("{base}-edge-{fault}-{h}");
        damaged(name, changed(cage, |cage| cage.edge[h] = cell), EDGE, place)
    };
    faults.into_iter().map(broken).collect()
}

/// A vertex without corners, and a vertex shared by two triangles.
fn wrong_corners(base: &str, cage: &Cage, v: usize) -> [Damaged; 2] {
    let last = cage.vertex_count() - 1;
    let unused = if v == last { last + 1 } else { v };
    let kept = v.min(last - 3);
    [
        damaged(
            format!("{base}-unused-{unused}"),
            with_unused_vertex(cage, unused as u32),
            UNUSED,
            unused,
        ),
        damaged(
            format!("{base}-fan-{kept}"),
            weld(cage, kept as u32, kept as u32 + 3),
            FAN,
            kept,
        ),
    ]
}

fn wrong_points(base: &str, cage: &Cage, v: usize) -> Vec<Damaged> {
    let index = 3 * v + v % 3;
    let beyond = COORDINATE_LIMIT + 1;
    let broken = |coordinate: i32| {
        let name = format!("{base}-point-{index}-at-{coordinate}");
        let cage = changed(cage, |cage| cage.points[index] = coordinate);
        damaged(name, cage, POINT, index)
    };
    [beyond, -beyond, i32::MAX, i32::MIN].map(broken).to_vec()
}
