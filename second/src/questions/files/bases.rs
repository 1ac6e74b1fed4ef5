//! For trying what document 02 says in "Form 2 files": the cages whose files are
//! damaged. They differ in how many of their halfedges have twins, and so in E.

use crate::cage::{Cage, COORDINATE_LIMIT};
use crate::creases::CREASE_LIMIT;
use crate::sew::sew;

/// Three border edges: E is H.
pub(super) fn triangle() -> Cage {
    placed(sew([[0, 1, 2]]))
}

/// Closed: E is half of H.
pub(super) fn pillow() -> Cage {
    placed(sew([[0, 1, 2], [0, 2, 1]]))
}

/// Two triangles with the edge from 1 to 2 between them, which is edge 1 and the
/// one crease; its halfedges are 1 and 3. E is 5.
pub(super) fn creased_pair() -> Cage {
    Cage {
        creases: vec![0, 3, 0, 0, 0],
        ..placed(sew([[0, 1, 2], [2, 1, 3]]))
    }
}

/// Closed, with six edges.
pub(super) fn tetrahedron() -> Cage {
    placed(sew([[0, 1, 2], [0, 2, 3], [0, 3, 1], [1, 3, 2]]))
}

/// Eight triangles that share nothing. Each halfedge has its own number as vertex
/// and as edge.
pub(super) fn apart() -> Cage {
    placed(sew((0..8).map(|at| [3 * at, 3 * at + 1, 3 * at + 2])))
}

/// A hub inside a rim of 1,024 vertices on the border, with a crease on one of its
/// spokes: 3,072 halfedges, so that lengths need two bytes. E is two thirds of H.
pub(super) fn wheel() -> Cage {
    let mut wheel = placed(sew(cone(1_024, 1_024)));
    wheel.creases[1] = CREASE_LIMIT;
    wheel
}

/// Two hubs on a rim of 512 vertices: closed, and as many halfedges.
pub(super) fn double_wheel() -> Cage {
    let below = cone(512, 513).map(|[a, b, hub]| [b, a, hub]);
    placed(sew(cone(512, 512).chain(below)))
}

fn cone(corners: u32, hub: u32) -> impl Iterator<Item = [u32; 3]> {
    (0..corners).map(move |rim| [rim, (rim + 1) % corners, hub])
}

/// The small cages with their names.
pub(super) fn small() -> Vec<(&'static str, Cage)> {
    vec![
        ("triangle", triangle()),
        ("pillow", pillow()),
        ("creased-pair", creased_pair()),
        ("tetrahedron", tetrahedron()),
    ]
}

/// The small cages and the large ones with their names.
pub(super) fn small_and_large() -> Vec<(&'static str, Cage)> {
    let mut cages = small();
    cages.push(("wheel", wheel()));
    cages.push(("double-wheel", double_wheel()));
    cages
}

/// The cage with points that differ from each other, from one end of the range to
/// the other.
fn placed(cage: Cage) -> Cage {
    let last = cage.points.len().saturating_sub(1).max(1) as i32;
    let step = 2 * COORDINATE_LIMIT / last;
    let coordinates = 0..cage.points.len() as i32;
    Cage {
        points: coordinates.map(|at| at * step - COORDINATE_LIMIT).collect(),
        ..cage
    }
}
