//! For trying what document 01 says about "The cage": corner questions.

use crate::draw::Draw;

/// The triangle and the VERT table.
pub type CornerQuestion = (u64, Vec<u32>);

/// How many questions are drawn.
const DRAWN: usize = 200;

/// Those that were chosen, then those that are drawn.
pub fn questions() -> Vec<CornerQuestion> {
    let draw = &mut Draw::new(3);
    let mut questions = edge_values(draw);
    questions.extend((0..DRAWN).map(|_| drawn_question(draw)));
    questions
}

/// Tables of telling lengths with triangles inside, at and past the end.
fn edge_values(draw: &mut Draw) -> Vec<CornerQuestion> {
    // Three times this number is the last number of 64 bits.
    const THIRD: u64 = u64::MAX / 3;
    let far = [1 << 32, (1 << 32) + 1, u64::from(u32::MAX), 1 << 63];
    let wrapping = [THIRD, THIRD + 1, 2 * THIRD + 1, u64::MAX];
    let mut questions = Vec::new();
    for length in [0, 1, 2, 3, 4, 5, 6, 9, 12, 30] {
        let end = length as u64 / 3;
        let near = [0, end.saturating_sub(1), end, end + 1];
        for triangle in near.into_iter().chain(far).chain(wrapping) {
            questions.push((triangle, drawn_table(draw, length)));
        }
    }
    questions
}

fn drawn_question(draw: &mut Draw) -> CornerQuestion {
    let length = match draw.once_in(4) {
        true => draw.place(31),
        false => 3 * draw.place(11),
    };
    let triangle = draw.below(length as u64 / 3 + 2);
    (triangle, drawn_table(draw, length))
}

fn drawn_table(draw: &mut Draw, length: usize) -> Vec<u32> {
    let cell = |_| {
        let any = draw.number() as u32;
        draw.choice(any % 2_048, &[0, any % 10, any % 100, any, u32::MAX])
    };
    (0..length).map(cell).collect()
}
