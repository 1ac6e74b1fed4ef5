//! For trying what document 01 says in "One level to the next": count
//! questions.

use crate::draw::Draw;

/// H, E, V and the depth.
pub type CountQuestion = [u64; 4];

/// Document 01's P8.
const TETRAHEDRON: CountQuestion = [12, 6, 4, 2];

/// How many questions are drawn.
const DRAWN: u64 = 300;

/// Those that were chosen, then those that are drawn.
pub fn questions() -> Vec<CountQuestion> {
    [
        edge_values(),
        triangle_depths(),
        far_numbers(),
        drawn_questions(),
    ]
    .concat()
}

/// Numbers at and beside each limit.
fn edge_values() -> Vec<CountQuestion> {
    let mut questions = vec![TETRAHEDRON];
    for h in [3_072_u64, 3_075] {
        for e in [h, h + 1, h.div_ceil(2), h.div_ceil(2) - 1] {
            questions.extend([0, 1, 2_048, 2_049].map(|v| [h, e, v, 6]));
        }
    }
    for h in 0..=9_u64 {
        for e in [h / 2, h.div_ceil(2), h, h + 1] {
            questions.push([h, e, 3, 1]);
        }
    }
    questions.extend([0, 5, 6, 7, 8].map(|depth| [3_072, 1_536, 2_048, depth]));
    questions.extend([3_069, 3_070, 3_071, 3_073, 3_074].map(|h| [h, h, 9, 3]));
    questions
}

/// The single triangle at every depth and one past.
fn triangle_depths() -> Vec<CountQuestion> {
    (0..=7).map(|depth| [3, 3, 3, depth]).collect()
}

/// Numbers that do not fit into, or wrap round, 32 or 64 bits.
fn far_numbers() -> Vec<CountQuestion> {
    const ROUND_32: u64 = 1 << 32;
    const HALF_64: u64 = 1 << 63;
    let far = [
        ROUND_32 - 1,
        ROUND_32,
        ROUND_32 + 1,
        HALF_64 - 1,
        HALF_64,
        HALF_64 + 1,
        u64::MAX - 1,
        u64::MAX,
    ];
    let mut questions = Vec::new();
    for position in 0..4 {
        // The last is the same number once only 32 bits of it are kept.
        let same_in_32_bits = TETRAHEDRON[position] + 3 * ROUND_32;
        for number in far.into_iter().chain([same_in_32_bits]) {
            let mut question = TETRAHEDRON;
            question[position] = number;
            questions.push(question);
        }
    }
    // 2E wraps round 64 bits, with H a multiple of 3 and E at most H.
    let edges = [HALF_64 - 1, HALF_64, HALF_64 + 6, u64::MAX];
    questions.extend(edges.map(|e| [u64::MAX, e, 4, 2]));
    questions.extend(edges.map(|e| [u64::MAX - 3, e, 4, 2]));
    questions.push([u64::MAX; 4]);
    questions
}

/// Questions that are accepted, every third then with one number changed.
fn drawn_questions() -> Vec<CountQuestion> {
    let draw = &mut Draw::new(DRAWN);
    let drawn = (0..DRAWN).map(|number| {
        let mut question = accepted_question(draw);
        if number % 3 == 0 {
            let changed = draw.choice(0, &[1, 7, 1_536, 2_049, 3_072, 3_075, 5_000]);
            question[draw.place(4)] = changed + draw.below(3);
        }
        question
    });
    drawn.collect()
}

fn accepted_question(draw: &mut Draw) -> CountQuestion {
    let h = 3 * (1 + draw.below(1_024));
    let e = h.div_ceil(2) + draw.below(h / 2 + 1);
    [h, e, 1 + draw.below(2_048), draw.below(7)]
}
