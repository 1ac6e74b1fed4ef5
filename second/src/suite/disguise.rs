//! For trying what document 01 says about "The cage": an accepted cage under
//! other numbers for its triangles, vertices and edges.

use crate::cage::{Cage, MARKER};
use crate::draw::Draw;

/// The same cage with its triangles shuffled and turned, its vertices and its
/// edges shuffled.
pub(super) fn disguised(cage: &Cage, seed: u64) -> Cage {
    let draw = &mut Draw::new(seed);
    let new_halfedge = turned_triangles(cage.triangle_count(), draw);
    let new_vertex = draw.permutation(cage.vertex_count());
    let new_edge = draw.permutation(cage.edge_count());
    let mut disguised = cage.clone();
    for (old, &new) in new_halfedge.iter().enumerate() {
        let twin = cage.twin_of(old);
        disguised.twin[new] = twin.map_or(MARKER, |twin| new_halfedge[twin] as u32);
        disguised.vert[new] = new_vertex[cage.vert_of(old)] as u32;
        disguised.edge[new] = new_edge[cage.edge_of(old)] as u32;
    }
    for (point, &new) in cage.points.chunks(3).zip(&new_vertex) {
        disguised.points[3 * new..3 * new + 3].copy_from_slice(point);
    }
    for (&number, &new) in cage.creases.iter().zip(&new_edge) {
        disguised.creases[new] = number;
    }
    disguised
}

/// The new number of each halfedge when triangles change places and turn.
fn turned_triangles(triangles: usize, draw: &mut Draw) -> Vec<usize> {
    let places = draw.permutation(triangles);
    let turned = places.into_iter().flat_map(|place| {
        let turn = draw.place(3);
        [0, 1, 2].map(|corner| 3 * place + (corner + turn) % 3)
    });
    turned.collect()
}
