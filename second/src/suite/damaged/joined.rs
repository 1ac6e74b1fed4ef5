//! For trying what document 01 says in "Why a cage is sent back": refusals 3,
//! 4 and 6 in closed cages, where a wrong cell also puts others in the wrong.

use super::{changed, damaged, Damaged};
use crate::cage::{next, previous, Cage, MARKER};
use crate::refusal::{EDGE, TWIN, VERTEX};
use crate::suite::shapes::{double_pyramid, pillow, torus};

pub(super) fn wrong_joined_cells() -> Vec<Damaged> {
    let bases = [
        ("pillow", pillow(), [0, 4, 5]),
        ("octahedron", double_pyramid(4), [0, 10, 23]),
        ("torus-32x16", torus(32, 16), [0, 1_407, 3_071]),
    ];
    let mut cages = Vec::new();
    for (base, cage, places) in bases {
        for (h, twin) in places.map(|h| (h, cage.twin[h] as usize)) {
            cages.push(twin_lost(base, &cage, h, twin));
            cages.push(twin_past_the_end(base, &cage, h, twin));
            cages.push(vert_past_the_end(base, &cage, h, twin));
            cages.push(edge_past_the_end(base, &cage, h, twin));
            cages.push(edges_merged(base, &cage, h, twin));
        }
    }
    cages
}

fn twin_lost(base: &str, cage: &Cage, h: usize, twin: usize) -> Damaged {
    let lost = changed(cage, |cage| cage.twin[h] = MARKER);
    damaged(format!("{base}-twin-lost-{h}"), lost, TWIN, twin)
}

fn twin_past_the_end(base: &str, cage: &Cage, h: usize, twin: usize) -> Damaged {
    let beyond = changed(cage, |cage| cage.twin[h] = cage.halfedge_count() as u32);
    let name = format!("{base}-twin-past-the-end-{h}");
    damaged(name, beyond, TWIN, h.min(twin))
}

fn vert_past_the_end(base: &str, cage: &Cage, h: usize, twin: usize) -> Damaged {
    let beyond = changed(cage, |cage| cage.vert[h] = cage.vertex_count() as u32);
    let name = format!("{base}-vert-past-the-end-{h}");
    damaged(name, beyond, VERTEX, h.min(previous(h)).min(twin))
}

fn edge_past_the_end(base: &str, cage: &Cage, h: usize, twin: usize) -> Damaged {
    let beyond = changed(cage, |cage| cage.edge[h] = cage.edge_count() as u32);
    let name = format!("{base}-edge-past-the-end-{h}");
    damaged(name, beyond, EDGE, h.min(twin))
}

/// The edge of `h` gets the number of the next edge of the triangle.
fn edges_merged(base: &str, cage: &Cage, h: usize, twin: usize) -> Damaged {
    let (other, other_twin) = (next(h), cage.twin[next(h)] as usize);
    let merged = changed(cage, |cage| {
        cage.edge[h] = cage.edge[other];
        cage.edge[twin] = cage.edge[other];
    });
    let lowest = h.min(twin).min(other).min(other_twin);
    damaged(format!("{base}-edges-merged-{h}"), merged, EDGE, lowest)
}
