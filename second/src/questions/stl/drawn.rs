//! For trying what document 02 says in "STL out to the mill": drawn corners and
//! points, few or many.

use super::{PlainTriangles, FAR};
use crate::cage::COORDINATE_LIMIT;
use crate::draw::Draw;

/// How many are drawn of few triangles, and of many.
const SMALL: usize = 6_000;
const LARGE: usize = 40;

pub(super) fn drawn_levels() -> Vec<PlainTriangles> {
    let draw = &mut Draw::new(6);
    let mut questions: Vec<PlainTriangles> = Vec::new();
    for number in 0..SMALL {
        let (h, v) = (3 * draw.between(1..=6), draw.between(1..=7));
        questions.push(level(format!("few-{number}"), h as usize, v as usize, draw));
    }
    for number in 0..LARGE {
        let h = 3 * draw.between(1_000..=10_000) as usize;
        let v = draw.choice(3, &[2_049, 10_000, 65_537]);
        questions.push(level(format!("many-{number}"), h, v, draw));
    }
    questions
}

/// So many halfedges and vertices, now and then with a cell that is out of
/// place or one too many.
fn level(name: String, h: usize, v: usize, draw: &mut Draw) -> PlainTriangles {
    let reach = draw.choice(8, &[1_000, 300_000, COORDINATE_LIMIT]);
    let mut vert: Vec<u32> = (0..h).map(|_| draw.place(v) as u32).collect();
    let mut points: Vec<i32> = (0..3 * v).map(|_| draw.coordinate(reach)).collect();
    while draw.once_in(6) {
        let any = draw.number() as u32;
        vert[draw.place(h)] = draw.choice(any, &[v as u32, v as u32 + 1, u32::MAX]);
    }
    while draw.once_in(6) {
        let any = draw.number() as i32;
        points[draw.place(3 * v)] = draw.choice(any, &FAR);
    }
    if draw.once_in(20) {
        vert.push(0);
    }
    if draw.once_in(20) {
        points.push(0);
    }
    PlainTriangles::new(name, vert, points)
}
