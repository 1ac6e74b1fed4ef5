//! For trying what document 02 says in "Cages as plain triangles": large cages
//! of the suite whose vertices get numbers that lie far apart.

use super::PlainTriangles;
use crate::cage::Cage;
use crate::suite::cage_named;

/// Cages of 3,072 halfedges or of 2,048 vertices, none of which has a slit.
const LARGE: [&str; 6] = [
    "disc-1024",
    "double-pyramid-512",
    "torus-32x16",
    "grid-32x16",
    "most-vertices",
    "most-halfedges-and-vertices",
];

/// Vertex v becomes v times one of these, modulo V.
const STRIDES: [usize; 8] = [1, 2, 3, 16, 64, 255, 513, 1_023];

pub(super) fn large_cages() -> Vec<PlainTriangles> {
    let named = LARGE.map(|name| (name, cage_named(name).unwrap_or_default()));
    let mut questions = Vec::new();
    for (name, cage) in &named {
        let strides = STRIDES.into_iter();
        let of_all = strides.filter(|&stride| has_no_common_part(stride, cage.vertex_count()));
        questions.extend(of_all.map(|stride| {
            let vert = with_stride(cage, stride);
            let name = format!("{name}-by-{stride}");
            PlainTriangles::new(name, vert, cage.points.clone()).accepted()
        }));
    }
    questions
}

fn with_stride(cage: &Cage, stride: usize) -> Vec<u32> {
    let renumber = |&vertex: &u32| vertex as usize * stride % cage.vertex_count();
    cage.vert.iter().map(|v| renumber(v) as u32).collect()
}

/// Whether no number but 1 divides both.
fn has_no_common_part(mut a: usize, mut b: usize) -> bool {
    while b != 0 {
        (a, b) = (b, a % b);
    }
    a == 1
}
