//! For trying what document 01 says about "The cage": a seat cushion, open at
//! its border; and for document 02, "Edges that stay sharp": one with a seam.

use super::creased::along;
use super::shapes::{cells, open_sheet};
use crate::cage::Cage;
use crate::sew::sew;

/// One millimetre in the units of the points.
const MILLIMETRE: f64 = 1_024.0;

/// The seat in millimetres: 420 wide, 400 deep, a crown of 45 with a hollow of
/// 14 to sit in, and a front that falls 12 below the back.
const HALF_WIDTH: f64 = 210.0;
const HALF_DEPTH: f64 = 200.0;
const CROWN: f64 = 45.0;
const HOLLOW: f64 = 14.0;
const FRONT_FALL: f64 = 12.0;

/// The way round the seat of 6 cells each way, one cell in from the border.
const SEAM: [usize; 17] = [
    8, 9, 10, 11, 12, 19, 26, 33, 40, 39, 38, 37, 36, 29, 22, 15, 8,
];

/// The seam stays sharp in levels 0 to 3, which are drawn.
const SEAM_NUMBER: u8 = 4;

/// The cushion to mill: 12 cells each way, 288 triangles.
pub(super) fn cushion() -> Cage {
    cushion_of(12)
}

/// The cushion to draw: 6 cells each way, 72 triangles, few enough to see, and
/// a closed seam.
pub(super) fn seamed_cushion() -> Cage {
    along(cushion_of(6), &SEAM, &[SEAM_NUMBER])
}

/// A height-field over a rounded rectangle, of so many cells each way. Each
/// cell is cut so that no triangle has two sides on the border.
fn cushion_of(side: u32) -> Cage {
    let leans = |column, row| (2 * column < side) != (2 * row < side);
    let from_middle = |place: u32| 2.0 * f64::from(place) / f64::from(side) - 1.0;
    let vertices = cells(side + 1, side + 1);
    Cage {
        points: vertices
            .flat_map(|(column, row)| point(from_middle(column), from_middle(row)))
            .collect(),
        ..sew(open_sheet(side, side, leans))
    }
}

/// The point at this part of the way from the middle to each side.
fn point(u: f64, v: f64) -> [i32; 3] {
    let (u2, v2) = (u * u, v * v);
    let (u4, v4) = (u2 * u2, v2 * v2);
    let stretch = square_to_round(u.abs().max(v.abs()), (u4 + v4).sqrt().sqrt());
    let rise = (1.0 - u4) * (1.0 - v4);
    let hollow = (1.0 - u2) * (1.0 - v2);
    let front = (1.0 - v) / 2.0;
    let millimetres = [
        HALF_WIDTH * u * stretch,
        HALF_DEPTH * v * stretch,
        CROWN * rise - HOLLOW * hollow * hollow - FRONT_FALL * front * front,
    ];
    millimetres.map(|coordinate| (coordinate * MILLIMETRE).round() as i32)
}

/// The factor from a square round the middle to the curve of the fourth degree
/// inside it, which is a square with round corners.
fn square_to_round(square: f64, curve: f64) -> f64 {
    if curve > 0.0 {
        square / curve
    } else {
        1.0
    }
}
