//! For trying what document 02 says in "Say why" of 7: "the lowest corner there and
//! the lowest one not joined to it".

use super::{damaged, Damaged};
use crate::refusal::FAN;
use crate::sew::sew;

/// The vertex that all triangles meet at.
const HUB: u32 = 4;

/// The other two corners of each triangle: an open fan of the triangles 0, 1 and 2,
/// an open one of 3 and 4, and a closed one of 5, 6 and 7.
const RIMS: [[u32; 2]; 8] = [
    [0, 1],
    [1, 2],
    [2, 3],
    [5, 6],
    [6, 7],
    [8, 9],
    [9, 10],
    [10, 8],
];

/// In which order the triangles come. The first two of an open fan may be joined
/// by a later one alone.
const ORDERS: [(&str, [usize; 8]); 7] = [
    ("ends-first", [0, 2, 5, 3, 6, 1, 4, 7]),
    ("far-end-first", [2, 0, 3, 5, 1, 7, 4, 6]),
    ("middle-first", [1, 2, 0, 4, 5, 3, 7, 6]),
    ("middle-last", [0, 2, 4, 7, 3, 6, 5, 1]),
    ("closed-first", [5, 7, 6, 0, 3, 1, 4, 2]),
    ("closed-against-the-order", [7, 6, 2, 5, 1, 3, 0, 4]),
    ("second-not-joined", [3, 0, 5, 1, 6, 2, 7, 4]),
];

pub(super) fn wrong_fans() -> Vec<Damaged> {
    let broken = |(words, order): (&str, [usize; 8])| {
        let triangles = (0..).zip(order).map(|(at, triangle)| turned(triangle, at));
        let cage = sew(triangles);
        damaged(format!("clause-fan-{words}"), cage, FAN, HUB as usize)
    };
    ORDERS.map(broken).to_vec()
}

/// The triangle with the hub at another of its corners from one to the next, so
/// that the corners at the hub are 1, 5, 6, 10, 14, 15, 19 and 23.
fn turned(triangle: usize, at: usize) -> [u32; 3] {
    let [left, right] = RIMS[triangle];
    let mut corners = [HUB, left, right];
    corners.rotate_right((at + 1) % 3);
    corners
}
