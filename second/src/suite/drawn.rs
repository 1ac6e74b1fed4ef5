//! For trying what document 01 says about "The cage" and "Why a cage is sent
//! back": drawn cages, sorted by what the cage check answers.

use std::ops::RangeInclusive;

use super::shapes::{
    double_pyramid, icosahedron, sheet, tetrahedron, torus, twofold_pyramid, without_gaps,
};
use super::valid::with_drawn_points;
use crate::cage::Cage;
use crate::check::check;
use crate::draw::Draw;
use crate::refusal::{FAN, UNUSED};
use crate::sew::{sew, slit, Triangles};

/// Columns and rows of a sheet: at most 180 halfedges, and at most 3,072.
const SMALL: [RangeInclusive<u64>; 2] = [1..=6, 1..=5];
const LARGE: [RangeInclusive<u64>; 2] = [16..=32, 8..=16];

/// Drawn cages that are accepted, each with its name.
pub(super) fn accepted_cages() -> Vec<(String, Cage)> {
    let draw = &mut Draw::new(20);
    let small = |draw: &mut Draw| sew_without_gaps(draw, SMALL);
    let large = |draw: &mut Draw| sew_without_gaps(draw, LARGE);
    let is_accepted = |cage: &Cage| check(cage).is_ok();
    [
        kept("sheet", 40, draw, small, is_accepted),
        kept("large-sheet", 3, draw, large, is_accepted),
        kept("slits", 24, draw, drawn_slits, is_accepted),
    ]
    .concat()
}

/// Drawn cages that are refused for an unused vertex or a second fan.
pub(super) fn refused_cages() -> Vec<(String, Cage)> {
    let draw = &mut Draw::new(21);
    let gaps = |draw: &mut Draw| sew(drawn_sheet(draw, SMALL));
    let no_gaps = |draw: &mut Draw| sew_without_gaps(draw, SMALL);
    let is_refused = |cage: &Cage, number| check(cage).is_err_and(|r| r.number == number);
    [
        kept("gaps", 12, draw, gaps, |cage| is_refused(cage, UNUSED)),
        kept("pinched", 12, draw, no_gaps, |cage| is_refused(cage, FAN)),
        kept("split", 12, draw, drawn_slits, |cage| is_refused(cage, FAN)),
    ]
    .concat()
}

fn sew_without_gaps(draw: &mut Draw, sides: [RangeInclusive<u64>; 2]) -> Cage {
    sew(without_gaps(drawn_sheet(draw, sides)))
}

/// So many cages of a kind: each is drawn until it is wanted, then its points
/// are drawn.
fn kept(
    kind: &str,
    count: usize,
    draw: &mut Draw,
    build: impl Fn(&mut Draw) -> Cage,
    is_wanted: impl Fn(&Cage) -> bool,
) -> Vec<(String, Cage)> {
    let mut cages = Vec::new();
    for number in 0..count {
        let wanted = (0..1_000).map(|_| build(draw)).find(&is_wanted);
        let placed = wanted.map(|cage| with_drawn_points(cage, draw));
        cages.extend(placed.map(|cage| (format!("{kind}-{number}"), cage)));
    }
    cages
}

/// A sheet, open or closed round either way, with some triangles left out.
fn drawn_sheet(draw: &mut Draw, sides: [RangeInclusive<u64>; 2]) -> Triangles {
    let [columns, rows] = sides.map(|side| draw.between(side) as u32);
    let [across, along] = [columns, rows].map(|count| {
        let is_closed = count >= 3 && draw.once_in(3);
        count + u32::from(!is_closed)
    });
    let vertex = |column, row| (row % along) * across + column % across;
    let mut triangles = sheet(columns, rows, vertex, |_, _| draw.once_in(2));
    let left_out = draw.choice(4, &[8, 16, 200, u64::MAX]);
    triangles.retain(|_| !draw.once_in(left_out));
    triangles
}

/// A closed cage with one to four edges cut open.
fn drawn_slits(draw: &mut Draw) -> Cage {
    let first: fn() -> Cage = tetrahedron;
    let others: [fn() -> Cage; 6] = [
        twofold_pyramid,
        || double_pyramid(4),
        || double_pyramid(5),
        || torus(2, 2),
        || torus(4, 3),
        icosahedron,
    ];
    let mut cage = draw.choice(first, &others)();
    for _ in 0..draw.between(1..=4) {
        cage = slit(&cage, draw.place(cage.halfedge_count()));
    }
    cage
}
