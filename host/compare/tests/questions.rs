//! The count question and the corner question.

use compare::{assert_alike, Question};
use second::questions::{corners, counts};

#[test]
fn every_count_question_to_try() {
    let questions = counts::questions();
    assert!(questions.len() > 400);
    for numbers in questions {
        assert_alike("question to try", &Question::Counts(numbers));
    }
}

/// With the least and the most E and V.
#[test]
fn every_number_of_halfedges_at_every_depth() {
    for h in (3..=3_072_u64).step_by(3) {
        for e in [h.div_ceil(2), h] {
            for v in [1, 2_048] {
                for depth in 0..=6 {
                    assert_alike("closed forms", &Question::Counts([h, e, v, depth]));
                }
            }
        }
    }
}

#[test]
fn every_corner_question_to_try() {
    let questions = corners::questions();
    assert!(questions.len() > 300);
    for (triangle, vert) in questions {
        assert_alike("question to try", &Question::Corners(&vert, triangle));
    }
}

/// Numbers at which 32 or 64 bits, or 2E, or a third, come to their end.
const TELLING: [u64; 21] = [
    0,
    1,
    2,
    3,
    4,
    6,
    7,
    2_048,
    2_049,
    3_072,
    3_075,
    (1 << 31) - 1,
    1 << 31,
    (1 << 32) - 1,
    1 << 32,
    (1 << 32) + 3,
    (1 << 63) - 1,
    1 << 63,
    u64::MAX / 3,
    u64::MAX - 1,
    u64::MAX,
];

#[test]
fn every_four_telling_numbers_as_a_count_question() {
    for h in TELLING {
        for e in TELLING {
            for v in TELLING {
                for depth in TELLING {
                    assert_alike("telling numbers", &Question::Counts([h, e, v, depth]));
                }
            }
        }
    }
}

#[test]
fn every_telling_triangle_of_tables_up_to_sixty_cells() {
    for length in 0..=60 {
        let vert: Vec<u32> = (0..length).map(|cell| u32::MAX - 7 * cell).collect();
        for triangle in (0..=21).chain(TELLING) {
            assert_alike("telling numbers", &Question::Corners(&vert, triangle));
        }
    }
}
