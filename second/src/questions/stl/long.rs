//! For trying what document 02 says in "STL out to the mill": VERT tables as
//! long as they may be, and longer.

use super::{PlainTriangles, FAR};
use crate::cage::COORDINATE_LIMIT;
use crate::draw::Draw;
use crate::refusal::{LIMIT, SHAPE, VERTEX};
use crate::stl::VERT_LIMIT;

/// How many vertices the long tables have.
const VERTICES: usize = 2_000;

/// Tables of 50 MB each, which are made one by one. The first is written, to a
/// file of 210 MB.
pub fn long_questions() -> impl Iterator<Item = PlainTriangles> {
    let questions: [fn() -> PlainTriangles; 7] = [
        || level("longest", VERT_LIMIT).accepted(),
        last_corner_past_the_points,
        || level("longest-and-one-cell", VERT_LIMIT + 1).refused(SHAPE, 0),
        || level("longest-and-two-cells", VERT_LIMIT + 2).refused(SHAPE, 0),
        || level("longest-and-a-triangle", VERT_LIMIT + 3).refused(LIMIT, 0),
        too_long_with_wrong_cells,
        too_long_with_a_coordinate_too_many,
    ];
    questions.into_iter().map(|question| question())
}

/// A level with a VERT table of this length.
fn level(name: &str, h: usize) -> PlainTriangles {
    let draw = &mut Draw::new(VERT_LIMIT as u64);
    let vert = (0..h).map(|_| draw.place(VERTICES) as u32).collect();
    let coordinates = (0..3 * VERTICES).map(|_| draw.coordinate(COORDINATE_LIMIT));
    let points = coordinates.collect();
    PlainTriangles::new(name, vert, points)
}

fn last_corner_past_the_points() -> PlainTriangles {
    let mut level = level("longest-past-the-points", VERT_LIMIT);
    level.vert[VERT_LIMIT - 1] = VERTICES as u32;
    level.refused(VERTEX, VERT_LIMIT - 1)
}

/// 2 comes before 4 and 8.
fn too_long_with_wrong_cells() -> PlainTriangles {
    let mut level = level("too-long-with-wrong-cells", VERT_LIMIT + 3);
    level.vert[0] = VERTICES as u32;
    level.points[0] = FAR[0];
    level.refused(LIMIT, 0)
}

/// 1 comes before 2.
fn too_long_with_a_coordinate_too_many() -> PlainTriangles {
    let mut level = level("too-long-with-a-coordinate-too-many", VERT_LIMIT + 3);
    level.points.push(0);
    level.refused(SHAPE, 0)
}
