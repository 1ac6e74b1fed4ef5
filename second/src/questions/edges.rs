//! For trying what document 02 says in "Edges that stay sharp": TWIN tables of any
//! length with any cells, whose edges are to be counted.

use crate::cage::MARKER;
use crate::draw::Draw;

/// How many tables are drawn.
const DRAWN: usize = 400;

/// Those that were chosen, then those that are drawn.
pub fn questions() -> Vec<Vec<u32>> {
    let draw = &mut Draw::new(66);
    let mut questions = telling_tables();
    questions.extend((0..DRAWN).map(|_| drawn_table(draw)));
    questions
}

/// Tables all of one cell, of lengths that make triangles and of others, and
/// twins that are all lower, all higher and all the halfedge itself.
fn telling_tables() -> Vec<Vec<u32>> {
    let telling = [0, 1, 2, 65_535, 65_536, 1 << 31, MARKER - 1, MARKER];
    let mut tables = vec![Vec::new()];
    for length in [1, 2, 3, 4, 6, 3_072, 3_073] {
        tables.extend(telling.map(|cell| vec![cell; length]));
        let numbers = || 0..length as u32;
        tables.push(numbers().collect());
        tables.push(numbers().rev().collect());
        tables.push(numbers().map(|h| h + 1).collect());
        tables.push(numbers().map(|h| h.wrapping_sub(1)).collect());
    }
    tables
}

/// Cells near the halfedge's own number, anywhere in the table, or anywhere.
fn drawn_table(draw: &mut Draw) -> Vec<u32> {
    let length = draw.place(40);
    let cell = |h: usize| {
        let (inside, any) = (draw.place(length) as u32, draw.number() as u32);
        let (own, below) = (h as u32, (h as u32).wrapping_sub(1));
        draw.choice(inside, &[inside, inside, own, below, own + 1, any, MARKER])
    };
    (0..length).map(cell).collect()
}
