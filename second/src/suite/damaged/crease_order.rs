//! For trying what document 02 says in "Edges that stay sharp": a wrong length of
//! the crease table is found "after 3 and before 4", a wrong number in it "after
//! 6 and before 7", and so before 14.

use super::{damaged, Damaged};
use crate::cage::{Cage, COORDINATE_LIMIT, MARKER};
use crate::creases::CREASE_LIMIT;
use crate::refusal::{CREASE, EDGE, FAN, LIMIT, POINT, SHAPE, TWIN, UNUSED, VERTEX};
use crate::sew::{weld, with_unused_vertex};
use crate::suite::shapes::{disc, disjoint_triangles};

/// A fault of eight triangles that share nothing.
struct Fault {
    name: &'static str,
    number: u32,
    place: usize,
    add: fn(&mut Cage),
}

const fn fault(name: &'static str, number: u32, place: usize, add: fn(&mut Cage)) -> Fault {
    Fault {
        name,
        number,
        place,
        add,
    }
}

/// In the order in which they have to be found.
const FAULTS: [Fault; 10] = [
    fault("shape", SHAPE, 0, |cage| cage.edge.push(0)),
    fault("limit", LIMIT, 0, |cage| cage.points.resize(3 * 2_049, 0)),
    // As many edges as before, so that the crease table is as long as it has to be.
    fault("twin", TWIN, 21, |cage| cage.twin[21] = 4),
    fault("length", SHAPE, 0, |cage| cage.creases.push(0)),
    fault("vertex", VERTEX, 22, |cage| cage.vert[22] = MARKER),
    fault("unused", UNUSED, 23, |cage| {
        *cage = with_unused_vertex(cage, 23);
    }),
    fault("edge", EDGE, 23, |cage| cage.edge[23] = MARKER),
    fault("number", CREASE, 5, |cage| cage.creases[5] = 1),
    fault("fan", FAN, 20, |cage| *cage = weld(cage, 20, 23)),
    fault("point", POINT, 0, |cage| {
        cage.points[0] = COORDINATE_LIMIT + 1;
    }),
];

/// Any two faults, and all from one on. The first answers.
pub(super) fn among_other_faults() -> Vec<Damaged> {
    let mut cages = Vec::new();
    for (at, first) in FAULTS.iter().enumerate() {
        let after = &FAULTS[at + 1..];
        for second in after {
            let name = format!("crease-{}-and-{}", first.name, second.name);
            cages.push(with_faults(name, first, std::slice::from_ref(second)));
        }
        let name = format!("crease-faults-from-{}", first.name);
        cages.push(with_faults(name, first, after));
    }
    cages
}

/// The cage with these faults, the last of them added first.
fn with_faults(name: String, first: &Fault, others: &[Fault]) -> Damaged {
    let mut cage = disjoint_triangles(8);
    for fault in others.iter().rev().chain([first]) {
        (fault.add)(&mut cage);
    }
    damaged(name, cage, first.number, first.place)
}

/// An inner vertex of 33 corners, all of whose spokes are sharp, and a fault.
pub(super) fn behind_many_corners() -> Vec<Damaged> {
    let mut wheel = disc(33);
    for h in wheel.halfedges().filter(|&h| wheel.vert[h] == 33) {
        wheel.creases[wheel.edge[h] as usize] = CREASE_LIMIT;
    }
    let spoke = wheel.creases.iter().rposition(|&number| number > 0);
    let spoke = spoke.unwrap_or_default();
    let with = |name: &str, number: u32, place: usize, add: &dyn Fn(&mut Cage)| {
        let mut cage = wheel.clone();
        add(&mut cage);
        damaged(format!("crease-wheel-{name}"), cage, number, place)
    };
    let raise = |cage: &mut Cage| cage.creases[spoke] += 1;
    let far = |cage: &mut Cage| cage.points[50] = -COORDINATE_LIMIT - 1;
    vec![
        with("length", SHAPE, 0, &|cage| cage.creases.truncate(spoke)),
        with("too-high", CREASE, spoke, &raise),
        with("border", CREASE, 0, &|cage| cage.creases[0] = 1),
        with("point", POINT, 50, &far),
        with("too-high-and-point", CREASE, spoke, &|cage| {
            raise(cage);
            far(cage);
        }),
    ]
}
