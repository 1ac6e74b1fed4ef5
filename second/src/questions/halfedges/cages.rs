//! For trying what document 02 says in "One halfedge, no tables": a question about
//! each cage of the suite. "It takes the three tables and V as a number, no points
//! and no creases": whatever is wrong with those has no part.

use super::{level_end, HalfedgeQuestion};
use crate::cage::DEPTH_LIMIT;
use crate::draw::Draw;
use crate::refusal::{Refusal, EDGE, FAN, LIMIT, POINT, UNUSED, VERTEX};
use crate::suite::{Expected, SuiteCage};

/// A cage that the cage check refuses for its points or its creases, and the number
/// and place of what comes after that in its tables; 0 where nothing does.
type Foreseen = (&'static str, u32, u64);

/// Refused by 1, by 8 or by 15. Where points are no multiple of 3, V is what they
/// are whole points of.
const FORESEEN: [Foreseen; 31] = [
    ("triangle-points-length-10", 0, 0),
    ("triangle-points-length-8", VERTEX, 2),
    ("triangle-points-length-1", VERTEX, 0),
    ("pillow-points-length-10", 0, 0),
    ("pillow-points-length-8", VERTEX, 2),
    ("crease-triangle-length-0", 0, 0),
    ("crease-pillow-length-6", 0, 0),
    ("crease-grid-3x3-length-34", 0, 0),
    ("crease-torus-32x16-length-1535", 0, 0),
    ("crease-length-and-vertex", VERTEX, 22),
    ("crease-length-and-unused", UNUSED, 23),
    ("crease-length-and-edge", EDGE, 23),
    ("crease-length-and-number", 0, 0),
    ("crease-length-and-fan", FAN, 20),
    ("crease-length-and-point", 0, 0),
    ("crease-faults-from-length", VERTEX, 22),
    ("crease-tetrahedron-11-at-0", 0, 0),
    ("crease-octahedron-255-at-11", 0, 0),
    ("crease-torus-32x16-128-at-700", 0, 0),
    ("crease-border-1-at-0", 0, 0),
    ("crease-border-255-at-23", 0, 0),
    ("crease-inner-2-and-border-4", 0, 0),
    ("crease-inner-3-too-high-and-border-1", 0, 0),
    ("crease-number-and-fan", FAN, 20),
    ("crease-number-and-point", 0, 0),
    ("crease-faults-from-number", FAN, 20),
    ("crease-wheel-length", 0, 0),
    ("crease-wheel-too-high", 0, 0),
    ("crease-wheel-border", 0, 0),
    ("crease-wheel-point", 0, 0),
    ("crease-wheel-too-high-and-point", 0, 0),
];

/// Each cage of the suite at a drawn depth. Where its tables are known to be
/// refused, the halfedge may be one that the level has not.
pub(super) fn suite_cages(suite: &[SuiteCage]) -> Vec<HalfedgeQuestion> {
    let draw = &mut Draw::new(9);
    suite.iter().map(|entry| about(entry, draw)).collect()
}

fn about(entry: &SuiteCage, draw: &mut Draw) -> HalfedgeQuestion {
    let depth = draw.between(0..=DEPTH_LIMIT);
    let end = level_end(entry.cage.halfedge_count(), depth);
    let (had, any) = (draw.below(end), draw.number());
    let expected = of_the_tables(entry);
    let halfedge = match expected {
        Expected::Refused(_) => draw.choice(had, &[had, end, any]),
        _ => had,
    };
    let question = HalfedgeQuestion::about(&entry.cage, depth, halfedge);
    question.named(&entry.name).expecting(expected)
}

/// What is known of the tables beforehand. The cage check's own 2 to 7 come in the
/// same order, and 8 comes after all of these.
fn of_the_tables(entry: &SuiteCage) -> Expected {
    let named = |(name, ..): &&Foreseen| *name == entry.name;
    if let Some(&(_, number, place)) = FORESEEN.iter().find(named) {
        return match number {
            0 => Expected::Accepted,
            _ => Expected::Refused(Refusal { number, place }),
        };
    }
    match entry.expected {
        Expected::Refused(Refusal { number: POINT, .. }) => Expected::Accepted,
        Expected::Refused(Refusal { number, .. }) if !(LIMIT..=FAN).contains(&number) => {
            Expected::Unforeseen
        }
        expected => expected,
    }
}
