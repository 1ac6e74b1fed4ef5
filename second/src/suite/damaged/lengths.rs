//! For trying what document 01 says in "Why a cage is sent back": refusals 1
//! and 2, and refusals that come just before or after them.

use super::{changed, damaged, Damaged};
use crate::cage::{Cage, MARKER};
use crate::refusal::{LIMIT, SHAPE, UNUSED};
use crate::sew::beside;
use crate::suite::shapes::{disjoint_triangles, pillow, single_triangle, strip, torus};

/// Refusal 1: tables of wrong lengths.
pub(super) fn wrong_lengths() -> Vec<Damaged> {
    let mut cages = vec![damaged("empty", Cage::default(), SHAPE, 0)];
    let points_alone = changed(&Cage::default(), |cage| cage.points = vec![0; 9]);
    cages.push(damaged("points-alone", points_alone, SHAPE, 0));
    for h in [1, 2, 4, 5, 3_074] {
        let numbers: Vec<u32> = (0..h).collect();
        let cut = Cage {
            twin: vec![MARKER; numbers.len()],
            vert: numbers.clone(),
            points: vec![0; 3 * numbers.len()],
            creases: vec![0; numbers.len()],
            edge: numbers,
        };
        cages.push(damaged(format!("halfedges-{h}"), cut, SHAPE, 0));
    }
    for (base, cage) in [("triangle", single_triangle()), ("pillow", pillow())] {
        cages.extend(one_table_resized(base, &cage));
    }
    cages
}

/// Gives one table of the cage another length.
type Resize = fn(&mut Cage, usize);

fn one_table_resized(base: &str, cage: &Cage) -> Vec<Damaged> {
    let (h, p) = (cage.halfedge_count(), cage.points.len());
    let tables: [(&str, Resize); 3] = [
        ("twin", |cage, length| cage.twin.resize(length, MARKER)),
        ("vert", |cage, length| cage.vert.resize(length, 0)),
        ("edge", |cage, length| cage.edge.resize(length, 0)),
    ];
    let resized = |table: &str, resize: Resize, length: usize| {
        let name = format!("{base}-{table}-length-{length}");
        damaged(name, changed(cage, |cage| resize(cage, length)), SHAPE, 0)
    };
    let mut cages = Vec::new();
    for (table, resize) in tables {
        let lengths = [0, h - 1, h + 1, h + 3, 3 * h];
        cages.extend(lengths.map(|length| resized(table, resize, length)));
    }
    let resize_points: Resize = |cage, length| cage.points.resize(length, 0);
    let lengths = [1, p - 1, p + 1];
    cages.extend(lengths.map(|length| resized("points", resize_points, length)));
    cages
}

/// Refusal 2: one triangle or one vertex too many.
pub(super) fn above_limits() -> Vec<Damaged> {
    let with_vertices = |count: usize| {
        changed(&single_triangle(), |cage| {
            cage.points.resize(3 * count, 0);
        })
    };
    let torus_and_triangle = beside(&torus(32, 16), &single_triangle());
    vec![
        damaged("strip-1025", strip(1_025), LIMIT, 0),
        damaged("triangles-683", disjoint_triangles(683), LIMIT, 0),
        damaged("torus-32x16-and-triangle", torus_and_triangle, LIMIT, 0),
        damaged("triangle-of-2049-vertices", with_vertices(2_049), LIMIT, 0),
        damaged("triangle-of-2048-vertices", with_vertices(2_048), UNUSED, 3),
    ]
}
