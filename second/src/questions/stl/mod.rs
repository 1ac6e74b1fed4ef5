//! For trying what document 02 says in "STL out to the mill": VERT tables and
//! points, of levels and of nothing.

mod drawn;
mod faults;
mod long;
mod places;
mod written;

pub use super::plain::PlainTriangles;
pub use long::long_questions;

use crate::cage::COORDINATE_LIMIT;

/// Coordinates that are out of range, just and by far.
const FAR: [i32; 8] = [
    COORDINATE_LIMIT + 1,
    -COORDINATE_LIMIT - 1,
    2 * COORDINATE_LIMIT,
    -2 * COORDINATE_LIMIT,
    i32::MAX,
    -i32::MAX,
    i32::MIN + 2,
    i32::MIN,
];

/// Those that were chosen, then those that are drawn. The longest tables are
/// not among them: see [`long_questions`].
pub fn questions() -> Vec<PlainTriangles> {
    [
        faults::wrong_lengths(),
        faults::without_points(),
        faults::several_faults(),
        places::wrong_cells(),
        places::two_wrong_cells(),
        written::telling_coordinates(),
        written::strange_triangles(),
        written::more_than_a_cage(),
        drawn::drawn_levels(),
    ]
    .concat()
}
