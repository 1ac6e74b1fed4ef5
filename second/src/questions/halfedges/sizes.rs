//! For trying what document 02 says in "One halfedge, no tables": tables of wrong
//! lengths, and H, V and the depth at and beside their limits, and far beyond.

use super::{named, HalfedgeQuestion};
use crate::cage::{Cage, MARKER};
use crate::refusal::{LIMIT, SHAPE, UNUSED, VERTEX};
use crate::sew::{beside, sew};
use crate::suite::SuiteCage;

const ROUND_32: u64 = 1 << 32;
const HALF_64: u64 = 1 << 63;

/// The lengths of TWIN, VERT and EDGE: alike and of no whole triangles, then such
/// that differ.
const WRONG_LENGTHS: [[usize; 3]; 26] = [
    [0, 0, 0],
    [1, 1, 1],
    [2, 2, 2],
    [4, 4, 4],
    [5, 5, 5],
    [3_071, 3_071, 3_071],
    [3_073, 3_073, 3_073],
    [3_074, 3_074, 3_074],
    [3, 2, 3],
    [3, 3, 2],
    [3, 4, 3],
    [3, 3, 4],
    [3, 0, 3],
    [3, 3, 0],
    [3, 6, 3],
    [3, 3, 6],
    [3, 6, 6],
    [0, 3, 3],
    [2, 3, 3],
    [4, 3, 3],
    [6, 3, 3],
    [6, 6, 3],
    [3_072, 3_071, 3_072],
    [3_072, 3_072, 3_071],
    [3_072, 3_072, 3_075],
    [3_075, 3_072, 3_072],
];

/// Refusal 1, with nothing else wrong, and with V, the depth and the halfedge wrong
/// too.
pub(super) fn wrong_lengths() -> Vec<HalfedgeQuestion> {
    let mut questions = Vec::new();
    for [twin, vert, edge] in WRONG_LENGTHS {
        let tables = Cage {
            twin: vec![MARKER; twin],
            vert: (0..vert as u32).collect(),
            edge: (0..edge as u32).collect(),
            ..Cage::default()
        };
        for (v, depth, halfedge) in [(vert as u64, 1, 0), (u64::MAX, u64::MAX, u64::MAX)] {
            let question = HalfedgeQuestion::about(&tables, depth, halfedge).of_vertices(v);
            let name = format!("lengths-{twin}-{vert}-{edge}-v-{v}");
            questions.push(question.named(name).refused(SHAPE, 0));
        }
    }
    questions
}

/// Numbers for V that are not the cage's own, next to it and up to 64 bits, and in
/// the end its own.
pub(super) fn numbers_for_v(suite: &[SuiteCage]) -> Vec<HalfedgeQuestion> {
    let names = ["triangle", "pillow", "torus-32x16", "most-vertices"];
    let mut questions = Vec::new();
    for (name, cage) in named(suite, &names) {
        let question = |v: u64| {
            let question = HalfedgeQuestion::about(cage, 2, 0);
            question.of_vertices(v).named(format!("{name}-v-{v}"))
        };
        let own = cage.vertex_count() as u64;
        for fewer in [0, own / 2, own - 1] {
            let past = cage.vert.iter().position(|&cell| u64::from(cell) >= fewer);
            let h = past.unwrap_or_default() as u64;
            questions.push(question(fewer).refused(VERTEX, h));
        }
        for more in [own + 1, own + 2, 2_047, 2_048] {
            if (own + 1..=2_048).contains(&more) {
                questions.push(question(more).refused(UNUSED, own));
            }
        }
        let far = [ROUND_32 - 1, ROUND_32, ROUND_32 + own, HALF_64];
        let beyond = [2_049, 65_536].into_iter().chain(far);
        let last = [HALF_64 + own, u64::MAX - 1, u64::MAX];
        questions.extend(beyond.chain(last).map(|v| question(v).refused(LIMIT, 0)));
        questions.push(question(own).accepted());
    }
    questions
}

/// Depths up to the limit, then above it, some of which are below it in 32 bits.
pub(super) fn depths(suite: &[SuiteCage]) -> Vec<HalfedgeQuestion> {
    let names = ["triangle", "pillow", "disc-1024-disguised"];
    let far = [ROUND_32 - 1, ROUND_32, ROUND_32 + 6, HALF_64];
    let above = [7, 8, 31, 32, 63, 64].into_iter().chain(far);
    let above: Vec<u64> = above.chain([HALF_64 + 6, u64::MAX - 1, u64::MAX]).collect();
    let mut questions = Vec::new();
    for (name, cage) in named(suite, &names) {
        let question = |depth: u64, halfedge: u64| {
            let name = format!("{name}-depth-{depth}-halfedge-{halfedge}");
            HalfedgeQuestion::about(cage, depth, halfedge).named(name)
        };
        questions.extend((0..=6).map(|depth| question(depth, 2).accepted()));
        for &depth in &above {
            questions.push(question(depth, 2).refused(LIMIT, 0));
            questions.push(question(depth, u64::MAX).refused(LIMIT, 0));
        }
    }
    questions
}

/// As many halfedges as there may be, then a triangle more, then twice as many.
pub(super) fn halfedge_counts(suite: &[SuiteCage]) -> Vec<HalfedgeQuestion> {
    let about = |name: &str, cage: &Cage| {
        let name = format!("{name}-of-{}-halfedges", cage.halfedge_count());
        HalfedgeQuestion::about(cage, 0, 3_071).named(name)
    };
    let triangle = sew([[0, 1, 2]]);
    let mut questions = Vec::new();
    for (name, cage) in named(suite, &["torus-32x16", "disc-1024"]) {
        questions.push(about(name, cage).accepted());
        for more in [&triangle, cage] {
            questions.push(about(name, &beside(cage, more)).refused(LIMIT, 0));
        }
    }
    for (name, cage) in named(suite, &["strip-1025"]) {
        questions.push(about(name, cage).refused(LIMIT, 0));
    }
    questions
}
