//! Document 01's count question and corner question at their edges, and the
//! questions that are there to try.

use second::corners::corner_question;
use second::counts::count_question;
use second::questions::{corners, counts};
use second::refusal::Refusal;

const SHAPE: Refusal = Refusal {
    number: 1,
    place: 0,
};
const LIMIT: Refusal = Refusal {
    number: 2,
    place: 0,
};

#[test]
fn most_drawn_count_questions_are_accepted() {
    let questions = counts::questions();
    let accepted = questions[questions.len() - 300..]
        .iter()
        .filter(|&&[h, e, v, depth]| count_question(h, e, v, depth).is_ok())
        .count();
    assert!(accepted >= 150, "{accepted}");
}

#[test]
fn many_corner_questions_are_accepted() {
    let accepted = corners::questions()
        .iter()
        .filter(|(triangle, vert)| corner_question(vert, *triangle).is_ok())
        .count();
    assert!(accepted >= 100, "{accepted}");
}

#[test]
fn count_question_at_its_edges() {
    assert_eq!(count_question(0, 0, 3, 0), Err(SHAPE));
    assert_eq!(count_question(4, 4, 3, 0), Err(SHAPE));
    assert_eq!(count_question(3, 3, 0, 0), Err(SHAPE));
    assert_eq!(count_question(3, 4, 3, 0), Err(SHAPE));
    assert_eq!(count_question(3, 1, 3, 0), Err(SHAPE));
    assert!(count_question(3, 2, 3, 0).is_ok());
    assert_eq!(count_question(6, 2, 3, 0), Err(SHAPE));
    assert!(count_question(6, 3, 3, 0).is_ok());
    assert!(count_question(3_072, 3_072, 2_048, 6).is_ok());
    assert_eq!(count_question(3_075, 3_075, 2_048, 6), Err(LIMIT));
    assert_eq!(count_question(3_072, 3_072, 2_049, 6), Err(LIMIT));
    assert_eq!(count_question(3_072, 3_072, 2_048, 7), Err(LIMIT));
    assert_eq!(count_question(3_075, 3_076, 2_048, 6), Err(SHAPE));
    assert_eq!(count_question(u64::MAX, 1 << 63, 1, 0), Err(LIMIT));
    assert_eq!(count_question(u64::MAX, (1 << 63) - 1, 1, 0), Err(SHAPE));
    assert_eq!(count_question(12, 1 << 63, 4, 2), Err(SHAPE));
}

#[test]
fn corner_question_at_its_edges() {
    let vert = [5, 6, 7, 8, 9, u32::MAX];
    assert_eq!(corner_question(&vert, 0), Ok([5, 6, 7]));
    assert_eq!(corner_question(&vert, 1), Ok([8, 9, u32::MAX]));
    for triangle in [2, 3, 1 << 32, u64::MAX / 3 + 1, u64::MAX] {
        assert_eq!(corner_question(&vert, triangle), Err(SHAPE));
    }
    for length in [0, 1, 2, 4, 5] {
        assert_eq!(corner_question(&vert[..length], 0), Err(SHAPE));
    }
}
