//! For trying what document 02 says in "STL out to the mill": refusals 4 and 8
//! at every place of a small level, alone and two at once.

use super::{PlainTriangles, FAR};
use crate::refusal::{POINT, VERTEX};

/// Three triangles on five vertices, the last of which none of them has.
const VERT: [u32; 9] = [0, 1, 2, 2, 1, 3, 3, 0, 2];
const VERTICES: u32 = 5;
const COORDINATES: usize = 15;

/// Corners that are past the points.
const PAST: [u32; 6] = [
    VERTICES,
    VERTICES + 1,
    65_536,
    1 << 31,
    u32::MAX - 1,
    u32::MAX,
];

fn level(name: String) -> PlainTriangles {
    PlainTriangles::new(name, VERT.to_vec(), (0..COORDINATES as i32).collect())
}

/// Each corner past the points, each coordinate out of range.
pub(super) fn wrong_cells() -> Vec<PlainTriangles> {
    let mut questions = Vec::new();
    for h in 0..VERT.len() {
        questions.extend(PAST.map(|vertex| {
            let mut level = level(format!("corner-{h}-at-{vertex}"));
            level.vert[h] = vertex;
            level.refused(VERTEX, h)
        }));
    }
    for index in 0..COORDINATES {
        questions.extend(FAR.map(|coordinate| {
            let mut level = level(format!("point-{index}-at-{coordinate}"));
            level.points[index] = coordinate;
            level.refused(POINT, index)
        }));
    }
    questions
}

/// Any two of the places at once: the lowest answers, and 4 before 8.
pub(super) fn two_wrong_cells() -> Vec<PlainTriangles> {
    let corners = (0..VERT.len()).map(Cell::Corner);
    let cells: Vec<Cell> = corners
        .chain((0..COORDINATES).map(Cell::Coordinate))
        .collect();
    let mut questions = Vec::new();
    for (at, &first) in cells.iter().enumerate() {
        questions.extend(cells[at + 1..].iter().map(|&second| {
            let mut level = level(format!("{first:?}-and-{second:?}"));
            second.spoil(&mut level);
            let (number, place) = first.spoil(&mut level);
            level.refused(number, place)
        }));
    }
    questions
}

/// A cell of the level, those of the VERT table first.
#[derive(Clone, Copy, Debug)]
enum Cell {
    Corner(usize),
    Coordinate(usize),
}

impl Cell {
    /// Puts the cell in the wrong; the refusal for that.
    fn spoil(self, level: &mut PlainTriangles) -> (u32, usize) {
        match self {
            Cell::Corner(h) => {
                level.vert[h] = VERTICES;
                (VERTEX, h)
            }
            Cell::Coordinate(index) => {
                level.points[index] = FAR[0];
                (POINT, index)
            }
        }
    }
}
