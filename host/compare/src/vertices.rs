//! Document 01, "Points", and document 02, "Edges that stay sharp": what is at
//! each vertex of a cage or level.

use second::cage::{Cage, MARKER};

/// The corners at a vertex, the far ends of its border edges, and those of its
/// creases, border edges among them.
#[derive(Clone, Debug, Default)]
pub struct Vertex {
    pub corners: usize,
    pub border_neighbours: Vec<u32>,
    pub crease_neighbours: Vec<u32>,
}

impl Vertex {
    pub fn is_on_border(&self) -> bool {
        !self.border_neighbours.is_empty()
    }
}

/// Each vertex, found by a scan over all halfedges.
pub fn vertices_of(level: &Cage) -> Vec<Vertex> {
    let mut vertices = vec![Vertex::default(); level.vertex_count()];
    for h in 0..level.halfedge_count() {
        let next = if h % 3 == 2 { h - 2 } else { h + 1 };
        let (from, to) = (level.vert[h], level.vert[next]);
        vertices[from as usize].corners += 1;
        let is_border = level.twin[h] == MARKER;
        // An inner edge at the higher of its two halfedges.
        let is_inner_crease =
            level.creases[level.edge[h] as usize] > 0 && (level.twin[h] as usize) < h;
        for (vertex, far_end) in [(from, to), (to, from)] {
            let vertex = &mut vertices[vertex as usize];
            if is_border {
                vertex.border_neighbours.push(far_end);
            }
            if is_border || is_inner_crease {
                vertex.crease_neighbours.push(far_end);
            }
        }
    }
    vertices
}
