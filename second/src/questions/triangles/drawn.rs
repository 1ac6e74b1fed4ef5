//! For trying what document 02 says in "Cages as plain triangles": drawn corner
//! numbers, few or many, near each other or far apart.

use super::{PlainTriangles, TELLING};
use crate::cage::{COORDINATE_LIMIT, HALFEDGE_LIMIT, VERTEX_LIMIT};
use crate::draw::Draw;

/// How many are drawn of few triangles, and of many.
const SMALL: usize = 12_000;
const LARGE: usize = 120;

pub(super) fn drawn_triangles() -> Vec<PlainTriangles> {
    let draw = &mut Draw::new(13);
    let mut questions: Vec<PlainTriangles> = Vec::new();
    for number in 0..SMALL {
        questions.push(few_triangles(format!("few-{number}"), draw));
    }
    for number in 0..LARGE {
        questions.push(many_triangles(format!("many-{number}"), draw));
    }
    questions
}

/// At most six triangles on at most seven vertices, now and then with a corner
/// or a coordinate that is out of place.
fn few_triangles(name: String, draw: &mut Draw) -> PlainTriangles {
    let vertices = draw.between(3..=7) as u32;
    let h = 3 * draw.between(1..=6) as usize;
    let mut vert = Vec::new();
    while vert.len() < h {
        // Three that differ, as triangles mostly have.
        let drawn = draw.permutation(vertices as usize);
        vert.extend(drawn.iter().take(3).map(|&vertex| vertex as u32));
    }
    if draw.once_in(4) {
        let (place, any) = (draw.place(h), draw.below(vertices.into()) as u32);
        vert[place] = draw.choice(any, &TELLING);
    }
    let highest = vert.iter().filter(|&&vertex| vertex < vertices).max();
    let used = highest.map_or(0, |&vertex| vertex as usize + 1);
    let vertices = draw.choice(used, &[used, used, used, used + 1, used.saturating_sub(1)]);
    PlainTriangles::new(name, vert, drawn_points(vertices, draw))
}

fn drawn_points(vertices: usize, draw: &mut Draw) -> Vec<i32> {
    let mut points: Vec<i32> = (0..3 * vertices)
        .map(|_| draw.coordinate(COORDINATE_LIMIT))
        .collect();
    if draw.once_in(8) && vertices > 0 {
        let place = draw.place(3 * vertices);
        points[place] = draw.choice(i32::MIN, &[i32::MAX, COORDINATE_LIMIT + 1]);
    }
    points
}

/// As many triangles as there may be, or fewer, or one more.
fn many_triangles(name: String, draw: &mut Draw) -> PlainTriangles {
    let most = HALFEDGE_LIMIT as usize;
    let h = draw.choice(most, &[most, most, most + 3, 999, 300]);
    let vertices = draw.choice(VERTEX_LIMIT as usize, &[0, 3, VERTEX_LIMIT as usize + 1]);
    let vert = match draw.below(3) {
        0 => corners_anywhere(h, draw),
        1 => corners_alike(h, draw),
        _ => corners_in_range(h, draw),
    };
    PlainTriangles::new(name, vert, drawn_points(vertices, draw))
}

/// Numbers of all 32 bits, some of them telling ones.
fn corners_anywhere(h: usize, draw: &mut Draw) -> Vec<u32> {
    let telling = draw.choice(u64::MAX, &[8, 100]);
    let corner = |_| match draw.once_in(telling) {
        true => draw.choice(0, &TELLING),
        false => draw.number() as u32,
    };
    (0..h).map(corner).collect()
}

/// Numbers that have their lowest bits in common, their highest, or both.
fn corners_alike(h: usize, draw: &mut Draw) -> Vec<u32> {
    let (common, shift) = (draw.number() as u32, draw.below(21) as u32);
    let count = draw.choice(64, &[256, 2_048]);
    let corner = |_| common ^ ((draw.below(count) as u32) << shift);
    (0..h).map(corner).collect()
}

fn corners_in_range(h: usize, draw: &mut Draw) -> Vec<u32> {
    let corner = |_| draw.below(VERTEX_LIMIT) as u32;
    (0..h).map(corner).collect()
}
