//! For trying what document 01 says in "Why a cage is sent back": refusals 4
//! and 7 in cages that are wrong as a whole, and cages with several faults.

use super::{changed, damaged, Damaged};
use crate::cage::{COORDINATE_LIMIT, MARKER};
use crate::refusal::{EDGE, FAN, LIMIT, POINT, SHAPE, TWIN, UNUSED, VERTEX};
use crate::sew::{beside, sew, sew_with_twins, slit, weld, with_unused_vertex};
use crate::suite::shapes::{disjoint_triangles, double_pyramid, grid, pillow, tetrahedron, torus};

pub(super) fn wrong_vertices() -> Vec<Damaged> {
    let without_points = changed(&pillow(), |cage| cage.points.clear());
    let same_way = sew_with_twins(
        vec![[0, 1, 2], [0, 1, 3]],
        vec![3, MARKER, MARKER, 0, MARKER, MARKER],
    );
    let folded = sew_with_twins(vec![[0, 1, 2]], vec![1, 0, MARKER]);
    vec![
        damaged("pillow-without-points", without_points, VERTEX, 0),
        damaged("twins-the-same-way", same_way, VERTEX, 0),
        damaged("triangle-folded", folded, VERTEX, 1),
        damaged("torus-1x3", torus(1, 3), VERTEX, 0),
        damaged("torus-3x1", torus(3, 1), VERTEX, 1),
    ]
}

pub(super) fn wrong_fans() -> Vec<Damaged> {
    let bow_tie = sew([[0, 1, 2], [0, 3, 4]]);
    let bow_tie_at_4 = sew([[0, 1, 4], [2, 3, 4]]);
    let two_bow_ties = sew([[5, 6, 7], [5, 8, 9], [0, 1, 2], [0, 3, 4]]);
    let pillows = weld(&beside(&pillow(), &pillow()), 1, 4);
    let tetrahedra = weld(&beside(&tetrahedron(), &tetrahedron()), 1, 5);
    let grid_and_pillow = weld(&beside(&grid(2, 2), &pillow()), 4, 9);
    vec![
        damaged("bow-tie", bow_tie, FAN, 0),
        damaged("bow-tie-at-4", bow_tie_at_4, FAN, 4),
        damaged("two-bow-ties", two_bow_ties, FAN, 0),
        damaged("pillows-touching", pillows, FAN, 1),
        damaged("tetrahedra-touching", tetrahedra, FAN, 1),
        damaged("pillow-touching-grid-inside", grid_and_pillow, FAN, 4),
        halved_octahedron(),
    ]
}

/// Two cuts from opposite rim vertices, 0 and 2, meet at the hub, 4.
fn halved_octahedron() -> Damaged {
    let mut cage = double_pyramid(4);
    for rim in [0, 2] {
        let is_spoke = |&h: &usize| cage.vert_of(h) == 4 && cage.far_end(h) == rim;
        let spoke = cage.halfedges().find(is_spoke);
        cage = spoke.map_or(cage.clone(), |h| slit(&cage, h));
    }
    damaged("octahedron-halved", cage, FAN, 4)
}

/// Cages with every fault from one number up: the lowest number answers.
pub(super) fn several_faults() -> Vec<Damaged> {
    let eight = changed(&disjoint_triangles(8), |cage| {
        cage.points[0] = COORDINATE_LIMIT + 1;
    });
    let seven = weld(&eight, 20, 23);
    let six = changed(&seven, |cage| cage.edge[23] = MARKER);
    let five = with_unused_vertex(&six, 23);
    let four = changed(&five, |cage| cage.vert[22] = MARKER);
    let three = changed(&four, |cage| cage.twin[21] = 21);
    let two = changed(&three, |cage| cage.points.resize(3 * 2_049, i32::MIN));
    let one = changed(&two, |cage| cage.edge.push(0));
    vec![
        damaged("faults-from-8", eight, POINT, 0),
        damaged("faults-from-7", seven, FAN, 20),
        damaged("faults-from-6", six, EDGE, 23),
        damaged("faults-from-5", five, UNUSED, 23),
        damaged("faults-from-4", four, VERTEX, 22),
        damaged("faults-from-3", three, TWIN, 21),
        damaged("faults-from-2", two, LIMIT, 0),
        damaged("faults-from-1", one, SHAPE, 0),
    ]
}
