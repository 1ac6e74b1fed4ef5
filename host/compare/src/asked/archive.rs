//! The proved archive.

use ryebadger::sys;
use second::cage::Cage;
use second::halfedge::ThreeTables;
use second::weight::Weight;

use super::{handed, joined, lent, Operations};

/// The proved archive, through its raw functions. It takes any number but 0 for
/// the paper's weight, and is handed this one.
pub struct Archive {
    pub paper: u32,
}

impl Default for Archive {
    /// With the header's number.
    fn default() -> Archive {
        Archive { paper: 1 }
    }
}

impl Archive {
    fn number(&self, weight: Weight) -> u32 {
        match weight {
            Weight::Short => 0,
            Weight::Paper => self.paper,
        }
    }
}

/// An answer whose cells hold something beforehand: all of them have to be
/// written.
fn answered<const N: usize>(ask: impl FnOnce(&mut [u32; N])) -> Vec<u64> {
    let mut answer = [0xDEAD_BEEF; N];
    ask(&mut answer);
    answer.map(u64::from).to_vec()
}

impl Operations for Archive {
    fn check(&self, cage: &Cage) -> Vec<u64> {
        answered(|answer| sys::check(handed(cage), answer))
    }

    fn why(&self, cage: &Cage) -> Vec<u64> {
        answered(|answer| sys::why(handed(cage), answer))
    }

    fn edges(&self, twin: &[u32]) -> Vec<u64> {
        answered(|answer| sys::edges(twin, answer))
    }

    fn counts(&self, [h, e, v, depth]: [u64; 4]) -> Vec<u64> {
        answered(|answer| sys::counts(h, e, v, depth, answer))
    }

    fn corners(&self, vert: &[u32], triangle: u64) -> Vec<u64> {
        answered(|answer| sys::corners(vert, triangle, answer))
    }

    fn halfedge(&self, of: ThreeTables<'_>, depth: u64, halfedge: u64) -> Vec<u64> {
        // The one whose cells have 64 bits.
        let mut answer = [0xDEAD_BEEF_DEAD_BEEF; sys::HALFEDGE_ANSWER];
        sys::halfedge(joined(of), depth, halfedge, &mut answer);
        answer.to_vec()
    }

    fn refine(&self, cage: &Cage, depth: u64, weight: Weight, tables: &mut Cage) -> Vec<u64> {
        let number = self.number(weight);
        answered(|answer| sys::refine(handed(cage), depth, number, &mut lent(tables), answer))
    }

    fn read(&self, file: &[u8], tables: &mut Cage) -> Vec<u64> {
        answered(|answer| sys::read(file, &mut lent(tables), answer))
    }

    fn write(&self, cage: &Cage, lent_file: &mut [u8]) -> Vec<u64> {
        answered(|answer| sys::write(handed(cage), lent_file, answer))
    }

    fn write_form_2(&self, cage: &Cage, weight: Weight, lent_file: &mut [u8]) -> Vec<u64> {
        let number = self.number(weight);
        answered(|answer| sys::write_form_2(handed(cage), number, lent_file, answer))
    }

    fn to_form_2(&self, file: &[u8], lent_file: &mut [u8]) -> Vec<u64> {
        answered(|answer| sys::to_form_2(file, lent_file, answer))
    }

    fn to_form_1(&self, file: &[u8], lent_file: &mut [u8]) -> Vec<u64> {
        answered(|answer| sys::to_form_1(file, lent_file, answer))
    }

    fn build(&self, vert: &[u32], points: &[i32], tables: &mut Cage) -> Vec<u64> {
        let Cage { twin, edge, .. } = tables;
        answered(|answer| sys::build(vert, points, twin, edge, answer))
    }

    fn write_stl(&self, vert: &[u32], points: &[i32], lent_file: &mut [u8]) -> Vec<u64> {
        answered(|answer| sys::write_stl(vert, points, lent_file, answer))
    }
}
