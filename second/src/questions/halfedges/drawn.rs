//! For trying what document 02 says in "One halfedge, no tables": drawn triangles,
//! depths and halfedges, now and then with a wrong cell or a wrong number for V.

use super::{level_end, HalfedgeQuestion};
use crate::cage::{Cage, DEPTH_LIMIT, MARKER};
use crate::draw::Draw;
use crate::sew::sew;

/// How many are drawn.
const DRAWN: usize = 8_000;

pub(super) fn drawn_questions() -> Vec<HalfedgeQuestion> {
    let draw = &mut Draw::new(17);
    let mut questions = Vec::new();
    for number in 0..DRAWN {
        let name = format!("drawn-{number}");
        questions.push(drawn_question(draw).named(name));
    }
    questions
}

fn drawn_question(draw: &mut Draw) -> HalfedgeQuestion {
    let mut cage = drawn_triangles(draw);
    if draw.once_in(4) {
        change_a_cell(&mut cage, draw);
    }
    let any = draw.number();
    let within = draw.between(0..=DEPTH_LIMIT);
    let depth = mostly(within, 30, [DEPTH_LIMIT + 1, any], draw);
    let end = level_end(cage.halfedge_count(), within);
    let had = draw.below(end);
    let halfedge = mostly(had, 6, [end, any], draw);
    let v = cage.vertex_count() as u64;
    let v = mostly(v, 10, [v - 1, v + 1], draw);
    HalfedgeQuestion::about(&cage, depth, halfedge).of_vertices(v)
}

/// This number, and once in so many draws one of the others.
fn mostly(number: u64, draws: u64, [one, other]: [u64; 2], draw: &mut Draw) -> u64 {
    match draw.once_in(draws) {
        true => draw.choice(one, &[other]),
        false => number,
    }
}

/// At most five triangles on at most six vertices, with the twins and the edges that
/// follow from them.
fn drawn_triangles(draw: &mut Draw) -> Cage {
    let vertices = draw.between(3..=6) as usize;
    let count = draw.between(1..=5);
    let corners = |_| {
        let drawn = draw.permutation(vertices);
        [drawn[0], drawn[1], drawn[2]].map(|vertex| vertex as u32)
    };
    sew((0..count).map(corners))
}

fn change_a_cell(cage: &mut Cage, draw: &mut Draw) {
    let (h, any) = (cage.halfedge_count(), draw.number() as u32);
    let near = [0, 1, 2, h as u32 - 1, h as u32, MARKER - 1, MARKER, any];
    let table = match draw.below(3) {
        0 => &mut cage.twin,
        1 => &mut cage.vert,
        _ => &mut cage.edge,
    };
    table[draw.place(h)] = draw.choice(3, &near);
}
