//! For trying what document 02 says in "Form 2 files": files that read and do not
//! move. A move gives "the cage checks", then 16 for the move back.

use super::draft::Draft;
use super::{bases, ForeseenFile};
use crate::cage::{Cage, COORDINATE_LIMIT, HALFEDGE_LIMIT, MARKER, VERTEX_LIMIT};
use crate::creases::CREASE_LIMIT;
use crate::refusal::{Refusal, CREASE, EDGE, FAN, NOT_OLD, POINT, UNUSED, VERTEX};
use crate::sew::{weld, with_unused_vertex};
use crate::weight::Weight;

const WEIGHTS: [Weight; 2] = [Weight::Short, Weight::Paper];

/// What the move back has to refuse a cage for that the check accepts.
pub(super) fn not_old(cage: &Cage, weight: Weight) -> Option<Refusal> {
    let is_old = weight == Weight::Short && !cage.creases.iter().any(|&number| number > 0);
    (!is_old).then_some(Refusal::new(NOT_OLD, 0))
}

/// A fault that reading does not look for: its name, the number and the place of
/// its refusal, and how it is added.
type Fault = (&'static str, u32, usize, fn(&mut Cage));

/// Faults of eight triangles that share nothing.
const FAULTS: [Fault; 12] = [
    ("no-points", VERTEX, 0, |cage| cage.points.clear()),
    ("vertex", VERTEX, 22, |cage| cage.vert[22] = 24),
    ("far-vertex", VERTEX, 22, |cage| cage.vert[22] = 65_535),
    ("ends-alike", VERTEX, 23, |cage| cage.vert[23] = 21),
    ("unused", UNUSED, 23, |cage| {
        *cage = with_unused_vertex(cage, 23);
    }),
    ("edge", EDGE, 23, |cage| cage.edge[23] = 24),
    ("far-edge", EDGE, 23, |cage| cage.edge[23] = 65_535),
    ("shared-edge", EDGE, 4, |cage| cage.edge[23] = 4),
    ("fan", FAN, 20, |cage| *cage = weld(cage, 20, 23)),
    ("point", POINT, 0, |cage| {
        cage.points[0] = -COORDINATE_LIMIT - 1;
    }),
    ("last-point", POINT, 71, |cage| {
        cage.points[71] = COORDINATE_LIMIT + 1;
    }),
    ("far-point", POINT, 5, |cage| cage.points[5] = i32::MIN),
];

/// Faults of their crease table, which form 1 does not have: a border is sharp.
const BORDER_FAULTS: [Fault; 2] = [
    ("border", CREASE, 5, |cage| cage.creases[5] = 1),
    ("last-border", CREASE, 23, |cage| {
        cage.creases[23] = CREASE_LIMIT;
    }),
];

/// Faults of a tetrahedron's: a number that is too high.
const NUMBER_FAULTS: [Fault; 3] = [
    ("too-high", CREASE, 0, |cage| {
        cage.creases[0] = CREASE_LIMIT + 1;
    }),
    ("too-high-after-creases", CREASE, 5, |cage| {
        cage.creases[..5].fill(CREASE_LIMIT);
        cage.creases[5] = u8::MAX;
    }),
    ("too-high-before-a-point", CREASE, 3, |cage| {
        cage.creases[3] = 128;
        cage.points[0] = i32::MAX;
    }),
];

/// Each fault alone, and each with a sharp border, which is found after 6 and
/// before 7. All of them come before 16.
pub(super) fn refused_cages() -> Vec<ForeseenFile> {
    let (apart, tetrahedron) = (bases::apart(), bases::tetrahedron());
    let mut files = Vec::new();
    for fault in FAULTS {
        files.push(in_form_1(&apart, fault));
        files.extend(in_form_2(&apart, &[fault]));
        for border in BORDER_FAULTS {
            let in_order = match fault.1 <= EDGE {
                true => [fault, border],
                false => [border, fault],
            };
            files.extend(in_form_2(&apart, &in_order));
        }
    }
    let on_borders = BORDER_FAULTS.map(|fault| in_form_2(&apart, &[fault]));
    let too_high = NUMBER_FAULTS.map(|fault| in_form_2(&tetrahedron, &[fault]));
    files.extend(on_borders.into_iter().chain(too_high).flatten());
    files
}

fn in_form_1(cage: &Cage, fault: Fault) -> ForeseenFile {
    let (name, number, place, _) = fault;
    let draft = Draft::form_1(name, &spoiled(cage, &[fault]));
    draft.read(Some(Refusal::new(number, place)))
}

/// The cage with these faults, the first of which answers, with either weight.
fn in_form_2(cage: &Cage, faults: &[Fault]) -> Vec<ForeseenFile> {
    let spoiled = spoiled(cage, faults);
    let names: Vec<&str> = faults.iter().map(|&(name, ..)| name).collect();
    let first = faults.first();
    let first = first.map(|&(_, number, place, _)| Refusal::new(number, place));
    let drafts = WEIGHTS.map(|weight| Draft::form_2(names.join("-and-"), &spoiled, weight));
    drafts.map(|draft| draft.read(first)).to_vec()
}

fn spoiled(cage: &Cage, faults: &[Fault]) -> Cage {
    let mut spoiled = cage.clone();
    for (_, _, _, add) in faults {
        add(&mut spoiled);
    }
    spoiled
}

/// Refusal 16: creases, or the paper's weight, or both; and without either the
/// files that do move.
pub(super) fn cages_with_no_old_form() -> Vec<ForeseenFile> {
    let closed = [
        ("pillow", bases::pillow()),
        ("double-wheel", bases::double_wheel()),
    ];
    let mut files = Vec::new();
    for (name, cage) in closed {
        let last = cage.edge_count() - 1;
        let creases = [None, Some((0, 1)), Some((last / 2, 10)), Some((last, 1))];
        for crease in creases {
            let mut creased = cage.clone();
            if let Some((edge, number)) = crease {
                creased.creases[edge] = number;
            }
            let words = crease.map_or("no-crease".into(), |(edge, n)| format!("{n}-at-{edge}"));
            files.extend(WEIGHTS.map(|weight| {
                let draft = Draft::form_2(format!("{name}-{words}"), &creased, weight);
                draft.read(not_old(&creased, weight))
            }));
        }
    }
    files
}

/// As many halfedges, vertices and edges as a file can have. Vertex 0 has two
/// corners that nothing joins.
pub(super) fn longest_files() -> Vec<ForeseenFile> {
    let (h, v) = (HALFEDGE_LIMIT as u32, VERTEX_LIMIT as u32);
    let longest = Cage {
        twin: vec![MARKER; h as usize],
        vert: (0..h).map(|corner| corner % v).collect(),
        edge: (0..h).collect(),
        points: vec![0; 3 * v as usize],
        creases: vec![0; h as usize],
    };
    let drafts = Draft::both_forms("longest", &longest);
    let fan = Refusal::new(FAN, 0);
    drafts.map(|draft| draft.read(Some(fan))).to_vec()
}
