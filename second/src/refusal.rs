//! Document 01, "Why a cage is sent back", and what document 02 adds to it: the
//! refusal numbers by name, and the refusal itself.

use std::fmt;

pub const SHAPE: u32 = 1;
pub const LIMIT: u32 = 2;
pub const TWIN: u32 = 3;
pub const VERTEX: u32 = 4;
pub const UNUSED: u32 = 5;
pub const EDGE: u32 = 6;
pub const FAN: u32 = 7;
pub const POINT: u32 = 8;
pub const ROOM: u32 = 9;
pub const SHORT: u32 = 10;
pub const FIELD: u32 = 11;
pub const EXTRA: u32 = 12;
pub const DOUBLED: u32 = 13;
pub const VALENCE: u32 = 14;
pub const CREASE: u32 = 15;
pub const NOT_OLD: u32 = 16;
pub const NO_SUCH_HALFEDGE: u32 = 17;

/// The first check that holds, and where.
#[derive(Clone, Copy, Debug, PartialEq, Eq)]
pub struct Refusal {
    pub number: u32,
    pub place: u64,
}

impl Refusal {
    pub fn new(number: u32, place: usize) -> Refusal {
        Refusal {
            number,
            place: place as u64,
        }
    }

    /// The line that a program prints for it.
    pub fn line(&self) -> String {
        format!("{self}\n")
    }
}

/// As the level lister prints it.
impl fmt::Display for Refusal {
    fn fmt(&self, out: &mut fmt::Formatter<'_>) -> fmt::Result {
        write!(out, "refused {} {}", self.number, self.place)
    }
}

/// Refuses at `place` when the fault holds.
pub(crate) fn refuse_if(fault: bool, number: u32, place: usize) -> Result<(), Refusal> {
    if fault {
        Err(Refusal::new(number, place))
    } else {
        Ok(())
    }
}
