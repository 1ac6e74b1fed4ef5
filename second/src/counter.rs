//! Document 01, "One level to the next": the count question as a line of text,
//! and its answer as lines like the level lister's, with the room of document
//! 02, §6.

use crate::counts::count_question;
use crate::refusal::Refusal;

/// What is printed for this text, or the refusal. Nothing where the text is no
/// question: one line, H, E, V and a depth with one space between.
pub fn count_levels(question: &[u8]) -> Option<Result<String, Refusal>> {
    let [h, e, v, depth] = asked(question)?;
    Some(level_lines(h, e, v, depth))
}

fn asked(question: &[u8]) -> Option<[u64; 4]> {
    let line = std::str::from_utf8(question).ok()?.strip_suffix('\n')?;
    let numbers: Option<Vec<u64>> = line.split(' ').map(number).collect();
    numbers?.try_into().ok()
}

/// A whole number of 64 bits in one to twenty digits.
fn number(word: &str) -> Option<u64> {
    let digits = word.bytes().all(|byte| byte.is_ascii_digit());
    (digits && word.len() <= 20)
        .then(|| word.parse().ok())
        .flatten()
}

/// Level, H, E, F, V of each level to the depth, then the room.
fn level_lines(h: u64, e: u64, v: u64, depth: u64) -> Result<String, Refusal> {
    let counts = count_question(h, e, v, depth)?;
    let mut lines = String::new();
    for level in 0..=depth as usize {
        let [h, e, v] = [counts.halfedges, counts.edges, counts.vertices].map(|all| all[level]);
        lines += &format!("{level} {h} {e} {} {v}\n", h / 3);
    }
    Ok(lines + &counts.room_line())
}
