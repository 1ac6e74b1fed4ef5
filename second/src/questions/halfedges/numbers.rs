//! For trying what document 02 says in "One halfedge, no tables": numbers of
//! halfedges that the level has, and of such that it has not, at every depth.

use super::{level_end, named, HalfedgeQuestion};
use crate::cage::{Cage, DEPTH_LIMIT};
use crate::refusal::NO_SUCH_HALFEDGE;
use crate::suite::SuiteCage;

/// Closed cages and open ones, small and as large as they may be.
const CAGES: [&str; 7] = [
    "triangle",
    "pillow",
    "tetrahedron-disguised",
    "grid-3x3-disguised",
    "pieces-disguised",
    "torus-32x16-disguised",
    "grid-32x16",
];

pub(super) fn halfedge_numbers(suite: &[SuiteCage]) -> Vec<HalfedgeQuestion> {
    let mut questions = Vec::new();
    for (name, cage) in named(suite, &CAGES) {
        for depth in 0..=DEPTH_LIMIT {
            questions.extend(at_depth(name, cage, depth));
        }
    }
    questions
}

fn at_depth(name: &str, cage: &Cage, depth: u64) -> Vec<HalfedgeQuestion> {
    let question = |halfedge: u64| {
        let name = format!("{name}-at-{depth}-number-{halfedge}");
        HalfedgeQuestion::about(cage, depth, halfedge).named(name)
    };
    let end = level_end(cage.halfedge_count(), depth);
    let had = numbers_had(end).into_iter();
    let missing = numbers_missing(end).into_iter();
    let done = had.map(|number| question(number).accepted());
    done.chain(missing.map(|number| question(number).refused(NO_SUCH_HALFEDGE, number)))
        .collect()
}

/// The first and the last ones of a level, and those on both sides of where the
/// halfedges in the middle of the old triangles begin.
fn numbers_had(end: u64) -> Vec<u64> {
    let middle = end - end / 4;
    let mut numbers = vec![0, 1, 2, middle - 1, middle, end / 2, end - 2, end - 1];
    numbers.retain(|&number| number < end);
    numbers.sort();
    numbers.dedup();
    numbers
}

/// The next ones, those of the next level, and such as the level has once only 32
/// bits of them are kept, or 63.
fn numbers_missing(end: u64) -> [u64; 13] {
    const ROUND_32: u64 = 1 << 32;
    const HALF_64: u64 = 1 << 63;
    [
        end,
        end + 1,
        4 * end - 1,
        4 * end,
        ROUND_32 - 1,
        ROUND_32,
        ROUND_32 + end - 1,
        ROUND_32 + end,
        HALF_64 - 1,
        HALF_64,
        HALF_64 + end - 1,
        u64::MAX - 1,
        u64::MAX,
    ]
}
