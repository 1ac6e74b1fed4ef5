//! For trying what document 02 says in "Say why" of 3: "past the table, itself, or
//! not returned".

use super::{changed, damaged, Damaged};
use crate::cage::MARKER as M;
use crate::refusal::TWIN;
use crate::suite::shapes::pillow;

/// A name, the twins in place of the pillow's, and the place of refusal 3.
type WrongTwins = (&'static str, [u32; 6], usize);

/// The pillow's own are 5, 4, 3, 2, 1 and 0.
const WRONG_TWINS: [WrongTwins; 20] = [
    ("just-past", [6, 4, 3, 2, 1, 0], 0),
    ("past", [5, 65_534, 3, 2, 1, 0], 1),
    ("far-past", [5, 4, M - 1, 2, 1, 0], 2),
    ("past-at-the-end", [M, M, M, M, M, 6], 5),
    ("itself", [5, 4, 2, 2, 1, 0], 2),
    ("itself-twice", [5, 1, 3, 2, 4, 0], 1),
    ("itself-at-the-end", [M, M, M, M, M, 5], 5),
    ("not-returned-by-none", [5, 4, 3, M, 1, 0], 2),
    ("not-returned-by-itself", [5, 4, 3, 2, 4, 0], 1),
    ("not-returned-by-a-lower", [5, 4, 3, 0, 1, 0], 2),
    ("not-returned-by-a-higher", [5, 4, 3, 5, 1, 0], 2),
    ("not-returned-by-one-past", [5, 4, 3, 2, 6, 0], 1),
    ("not-returned-by-one-far-past", [5, 4, 3, 2, 1, M - 1], 0),
    ("not-returned-at-the-end", [M, M, M, M, M, 0], 5),
    ("three-in-a-ring", [1, 2, 0, 4, 5, 3], 0),
    ("past-before-itself", [5, 7, 3, 2, 4, 0], 1),
    ("itself-before-past", [5, 1, 3, 2, 7, 0], 1),
    ("itself-before-not-returned", [0, 3, 2, 2, M, M], 0),
    ("not-returned-before-past", [5, 2, 3, 2, 7, 0], 1),
    ("not-returned-before-itself", [5, 3, 2, M, 4, 0], 1),
];

pub(super) fn wrong_twins() -> Vec<Damaged> {
    let broken = |(words, twins, place): WrongTwins| {
        let cage = changed(&pillow(), |cage| cage.twin = twins.to_vec());
        damaged(format!("clause-twin-{words}"), cage, TWIN, place)
    };
    WRONG_TWINS.map(broken).to_vec()
}
