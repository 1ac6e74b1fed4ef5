//! Document 02, §9, "One halfedge, no tables": TWIN, VERT and EDGE of one halfedge
//! at a depth, "by climbing through its ancestors to the cage". The columns of
//! document 01, "One level to the next", stand here once more, apart from those by
//! which a level is made, so that the two can be compared.

pub use crate::three_tables::ThreeTables;

use crate::cage::{next, previous, MARKER};
use crate::check::check_tables;
use crate::counts::{count_question, LevelCounts};
use crate::refusal::{Refusal, NO_SUCH_HALFEDGE};

/// The cells of one halfedge, as the tables of its level would hold them.
#[derive(Clone, Copy, Debug, PartialEq, Eq)]
pub struct HalfedgeCells {
    pub twin: u32,
    pub vert: u32,
    pub edge: u32,
}

/// Refusals 1 to 7 of the three tables and V, with the depth in 2, then 17, or the
/// cells of this halfedge at this depth.
pub fn halfedge_question(
    tables: ThreeTables<'_>,
    depth: u64,
    halfedge: u64,
) -> Result<HalfedgeCells, Refusal> {
    Climber::new(tables, depth)?.cells(halfedge)
}

/// The answer in numbers: number, place, TWIN, VERT and EDGE. Done, number and
/// place are 0; on a refusal the three cells are.
pub fn five_numbers(answer: Result<HalfedgeCells, Refusal>) -> [u64; 5] {
    match answer {
        Ok(HalfedgeCells { twin, vert, edge }) => [0, 0, twin.into(), vert.into(), edge.into()],
        Err(Refusal { number, place }) => [number.into(), place, 0, 0, 0],
    }
}

/// Three tables that were checked, for any number of questions at one depth.
#[derive(Clone, Copy, Debug)]
pub struct Climber<'a> {
    tables: ThreeTables<'a>,
    counts: LevelCounts,
    depth: usize,
}

impl<'a> Climber<'a> {
    /// Refusals 1 to 7, with the depth in 2, or tables that can be asked.
    pub fn new(tables: ThreeTables<'a>, depth: u64) -> Result<Climber<'a>, Refusal> {
        check_tables(tables, depth)?;
        let (h, e) = (tables.halfedge_count(), tables.edge_count());
        let counts = count_question(h as u64, e as u64, tables.vertices, depth)?;
        Ok(Climber {
            tables,
            counts,
            depth: depth as usize,
        })
    }

    /// The level's H.
    pub fn halfedge_count(&self) -> u64 {
        self.counts.halfedges[self.depth]
    }

    /// Refusal 17 "when it is not below the level's H", or the halfedge's cells.
    pub fn cells(&self, halfedge: u64) -> Result<HalfedgeCells, Refusal> {
        if halfedge >= self.halfedge_count() {
            return Err(Refusal {
                number: NO_SUCH_HALFEDGE,
                place: halfedge,
            });
        }
        let (level, h) = (self.depth, halfedge as usize);
        Ok(HalfedgeCells {
            twin: self.twin(level, h).map_or(MARKER, |twin| twin as u32),
            vert: self.vert(level, h) as u32,
            edge: self.edge(level, h) as u32,
        })
    }

    /// TWIN, or nothing where the marker stands.
    fn twin(&self, level: usize, halfedge: usize) -> Option<usize> {
        let Some(Ancestor { level, h, row }) = self.ancestor(level, halfedge) else {
            return self.tables.twin_of(halfedge);
        };
        match row {
            Row::First => self.twin(level, h).map(|t| 3 * next(t) + 2),
            Row::Second => Some(3 * self.halfedges(level) + h),
            Row::Third => self.twin(level, previous(h)).map(|t| 3 * t),
            Row::Middle => Some(3 * h + 1),
        }
    }

    /// VERT.
    fn vert(&self, level: usize, halfedge: usize) -> usize {
        let Some(Ancestor { level, h, row }) = self.ancestor(level, halfedge) else {
            return self.tables.vert_of(halfedge);
        };
        match row {
            Row::First => self.vert(level, h),
            Row::Second => self.vertices(level) + self.edge(level, h),
            Row::Third | Row::Middle => self.vertices(level) + self.edge(level, previous(h)),
        }
    }

    /// EDGE.
    fn edge(&self, level: usize, halfedge: usize) -> usize {
        let Some(Ancestor { level, h, row }) = self.ancestor(level, halfedge) else {
            return self.tables.edge_of(halfedge);
        };
        let half = |h: usize, is_second: bool| 2 * self.edge(level, h) + usize::from(is_second);
        match row {
            Row::First => half(h, !self.is_above_twin(level, h)),
            Row::Second | Row::Middle => 2 * self.edges(level) + h,
            Row::Third => half(previous(h), self.is_above_twin(level, previous(h))),
        }
    }

    /// "In the comparisons a missing twin counts as lower than every halfedge".
    fn is_above_twin(&self, level: usize, h: usize) -> bool {
        self.twin(level, h).is_none_or(|t| h > t)
    }

    /// Where a halfedge of a level comes from, or nothing for one of the cage.
    fn ancestor(&self, level: usize, halfedge: usize) -> Option<Ancestor> {
        let level = level.checked_sub(1)?;
        let (h, row) = match halfedge.checked_sub(3 * self.halfedges(level)) {
            Some(h) => (h, Row::Middle),
            None => (
                halfedge / 3,
                [Row::First, Row::Second, Row::Third][halfedge % 3],
            ),
        };
        Some(Ancestor { level, h, row })
    }

    /// H of a level.
    fn halfedges(&self, level: usize) -> usize {
        self.counts.halfedges[level] as usize
    }

    /// E of a level.
    fn edges(&self, level: usize) -> usize {
        self.counts.edges[level] as usize
    }

    /// V of a level.
    fn vertices(&self, level: usize) -> usize {
        self.counts.vertices[level] as usize
    }
}

/// The halfedge `h` of the level before, and the row by which the new one follows
/// from it.
struct Ancestor {
    level: usize,
    h: usize,
    row: Row,
}

/// Which of the four new halfedges of `h` one is.
#[derive(Clone, Copy)]
enum Row {
    /// 3h.
    First,
    /// 3h+1.
    Second,
    /// 3h+2.
    Third,
    /// 3H+h.
    Middle,
}
