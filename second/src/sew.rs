//! For trying what document 01 says about "The cage": from a list of
//! triangles to the tables, and simple changes of a sewn cage.

use crate::build::{edges_by_lowest_halfedge, Directions};
use crate::cage::{Cage, MARKER};

/// The corners of each triangle.
pub(crate) type Triangles = Vec<[u32; 3]>;

/// A cage of these triangles with all points at zero and no creases. Halfedges
/// that run between the same two vertices in opposite directions are twins.
pub(crate) fn sew(triangles: impl IntoIterator<Item = [u32; 3]>) -> Cage {
    let triangles: Triangles = triangles.into_iter().collect();
    let twin = Directions::of(triangles.as_flattened()).twins();
    sew_with_twins(triangles, twin)
}

/// A cage of these triangles with this TWIN table.
pub(crate) fn sew_with_twins(triangles: Triangles, twin: Vec<u32>) -> Cage {
    let vert = triangles.concat();
    let vertices = vert.iter().max().map_or(0, |&highest| highest as usize + 1);
    let cage = Cage {
        edge: edges_by_lowest_halfedge(&twin),
        points: vec![0; 3 * vertices],
        twin,
        vert,
        ..Cage::default()
    };
    cage.without_creases()
}

/// The cage with the edge of `h` cut open: two border edges in its stead. Edges
/// get other numbers, and no creases.
pub(crate) fn slit(cage: &Cage, h: usize) -> Cage {
    let mut twin = cage.twin.clone();
    let partner = std::mem::replace(&mut twin[h], MARKER);
    if let Some(cell) = twin.get_mut(partner as usize) {
        *cell = MARKER;
    }
    let slit = Cage {
        edge: edges_by_lowest_halfedge(&twin),
        twin,
        ..cage.clone()
    };
    slit.without_creases()
}

/// Two cages in one, sharing nothing.
pub(crate) fn beside(first: &Cage, second: &Cage) -> Cage {
    Cage {
        twin: followed_by(&first.twin, &second.twin, first.halfedge_count()),
        vert: followed_by(&first.vert, &second.vert, first.vertex_count()),
        edge: followed_by(&first.edge, &second.edge, first.edge_count()),
        points: [&first.points[..], &second.points].concat(),
        creases: [&first.creases[..], &second.creases].concat(),
    }
}

/// The first cells, then the second, raised by this number save for markers.
fn followed_by(first: &[u32], second: &[u32], by: usize) -> Vec<u32> {
    let raised = second.iter().map(|&cell| match cell {
        MARKER => MARKER,
        cell => cell + by as u32,
    });
    first.iter().copied().chain(raised).collect()
}

/// The cage with one vertex put in the place of another, whose number falls to
/// those above it.
pub(crate) fn weld(cage: &Cage, kept: u32, gone: u32) -> Cage {
    let renumber = |&vertex: &u32| match vertex {
        vertex if vertex == gone => kept,
        vertex if vertex > gone => vertex - 1,
        vertex => vertex,
    };
    let mut welded = cage.clone();
    welded.vert = cage.vert.iter().map(renumber).collect();
    let start = 3 * gone as usize;
    welded.points.drain(start..start + 3);
    welded
}

/// The cage with a vertex more, of this number, that no halfedge leaves.
pub(crate) fn with_unused_vertex(cage: &Cage, unused: u32) -> Cage {
    let renumber = |&vertex: &u32| vertex + u32::from(vertex >= unused);
    let mut wider = cage.clone();
    wider.vert = cage.vert.iter().map(renumber).collect();
    let start = 3 * unused as usize;
    wider.points.splice(start..start, [0; 3]);
    wider
}
