//! Document 01, "Why a cage is sent back", and what document 02 adds to it: the
//! refusals by name.

use std::error::Error;
use std::fmt;

/// The first check that holds, and where.
///
/// Later requests may bring further refusals, so a `match` needs an arm for the
/// rest.
#[derive(Clone, Copy, Debug, PartialEq, Eq, Hash)]
#[non_exhaustive]
pub enum Refusal {
    /// 1: lengths or counts that no cage has.
    Shape,
    /// 2: H, V or the depth is above its limit.
    Limit,
    /// 3: a twin is past the end, the halfedge itself, or has another twin.
    Twin {
        /// The lowest such halfedge.
        halfedge: u32,
    },
    /// 4: a vertex is past the end, or is not where the next halfedge or the
    /// twin has it.
    Vertex {
        /// The lowest such halfedge.
        halfedge: u32,
    },
    /// 5: a vertex is on no halfedge.
    Unused {
        /// The lowest such vertex.
        vertex: u32,
    },
    /// 6: an edge is past the end, differs from the twin's, or is carried by a
    /// halfedge that is neither.
    Edge {
        /// The lowest such halfedge.
        halfedge: u32,
    },
    /// 7: the corners at a vertex are not one fan.
    Fan {
        /// The lowest such vertex.
        vertex: u32,
    },
    /// 8: a coordinate is out of range.
    Point {
        /// The lowest such index in the points.
        index: u32,
    },
    /// 9: a lent table is shorter than needed.
    Room {
        /// The first that is.
        table: Table,
    },
    /// 10: the file ends before a field's head and payload are whole.
    Short {
        /// Of that head.
        offset: u32,
    },
    /// 11: wrong tag, length, form number or weight.
    Field {
        /// Of that head.
        offset: u32,
    },
    /// 12: bytes after the end field.
    Extra {
        /// Of the first of them.
        offset: u32,
    },
    /// 13: two halfedges run from the same vertex to the same one.
    Doubled {
        /// The lowest that has such a double.
        halfedge: u32,
    },
    /// 14: an inner vertex has more corners than the paper's weight is for.
    Valence {
        /// The lowest such vertex.
        vertex: u32,
    },
    /// 15: the number of a crease is out of range, or is not 0 on a border edge.
    Crease {
        /// The lowest such edge.
        edge: u32,
    },
    /// 16: a file to be moved to form 1 has a crease or a weight that is not 0.
    NotOld,
    /// 17: the level does not have the halfedge that is asked for.
    NoSuchHalfedge {
        /// That number, which may be any.
        halfedge: u64,
    },
    /// A number or a place that the documents do not have. The proved archive
    /// never gives it.
    Unknown {
        /// The number as it was given.
        number: u32,
        /// The place as it was given.
        place: u64,
    },
}

/// A table or buffer that is lent, by its place in refusal 9.
#[derive(Clone, Copy, Debug, PartialEq, Eq, Hash)]
pub enum Table {
    /// 1
    Twin = 1,
    /// 2
    Vert = 2,
    /// 3
    Edge = 3,
    /// 4
    Points = 4,
    /// 5
    File = 5,
    /// 6
    Stl = 6,
    /// 7
    Creases = 7,
}

impl Refusal {
    /// The refusal of this number, not 0, at this place.
    pub(crate) fn told(number: u32, place: u64) -> Refusal {
        let named = match (number, u32::try_from(place)) {
            (17, _) => Some(Refusal::NoSuchHalfedge { halfedge: place }),
            (_, Ok(place)) => Refusal::named(number, place),
            (_, Err(_)) => None,
        };
        named.unwrap_or(Refusal::Unknown { number, place })
    }

    /// The refusal of a number whose place has 32 bits, if the documents have it.
    fn named(number: u32, place: u32) -> Option<Refusal> {
        Some(match (number, place) {
            (1, 0) => Refusal::Shape,
            (2, 0) => Refusal::Limit,
            (3, halfedge) => Refusal::Twin { halfedge },
            (4, halfedge) => Refusal::Vertex { halfedge },
            (5, vertex) => Refusal::Unused { vertex },
            (6, halfedge) => Refusal::Edge { halfedge },
            (7, vertex) => Refusal::Fan { vertex },
            (8, index) => Refusal::Point { index },
            (9, 1) => Refusal::Room { table: Table::Twin },
            (9, 2) => Refusal::Room { table: Table::Vert },
            (9, 3) => Refusal::Room { table: Table::Edge },
            (9, 4) => Refusal::Room {
                table: Table::Points,
            },
            (9, 5) => Refusal::Room { table: Table::File },
            (9, 6) => Refusal::Room { table: Table::Stl },
            (9, 7) => Refusal::Room {
                table: Table::Creases,
            },
            (10, offset) => Refusal::Short { offset },
            (11, offset) => Refusal::Field { offset },
            (12, offset) => Refusal::Extra { offset },
            (13, halfedge) => Refusal::Doubled { halfedge },
            (14, vertex) => Refusal::Valence { vertex },
            (15, edge) => Refusal::Crease { edge },
            (16, 0) => Refusal::NotOld,
            _ => return None,
        })
    }

    /// The documents' number, place and name.
    fn parts(&self) -> (u32, u64, &'static str) {
        let (number, place, name) = match *self {
            Refusal::Shape => (1, 0, "SHAPE"),
            Refusal::Limit => (2, 0, "LIMIT"),
            Refusal::Twin { halfedge } => (3, halfedge, "TWIN"),
            Refusal::Vertex { halfedge } => (4, halfedge, "VERTEX"),
            Refusal::Unused { vertex } => (5, vertex, "UNUSED"),
            Refusal::Edge { halfedge } => (6, halfedge, "EDGE"),
            Refusal::Fan { vertex } => (7, vertex, "FAN"),
            Refusal::Point { index } => (8, index, "POINT"),
            Refusal::Room { table } => (9, table as u32, "ROOM"),
            Refusal::Short { offset } => (10, offset, "SHORT"),
            Refusal::Field { offset } => (11, offset, "FIELD"),
            Refusal::Extra { offset } => (12, offset, "EXTRA"),
            Refusal::Doubled { halfedge } => (13, halfedge, "DOUBLED"),
            Refusal::Valence { vertex } => (14, vertex, "VALENCE"),
            Refusal::Crease { edge } => (15, edge, "CREASE"),
            Refusal::NotOld => (16, 0, "NOT OLD"),
            // Their places have 64 bits.
            Refusal::NoSuchHalfedge { halfedge } => return (17, halfedge, "NO SUCH HALFEDGE"),
            Refusal::Unknown { number, place } => return (number, place, "UNKNOWN"),
        };
        (number, place.into(), name)
    }

    /// The documents' number.
    pub fn number(&self) -> u32 {
        self.parts().0
    }

    /// The documents' place.
    pub fn place(&self) -> u64 {
        self.parts().1
    }

    /// The documents' name.
    pub fn name(&self) -> &'static str {
        self.parts().2
    }
}

impl fmt::Display for Refusal {
    fn fmt(&self, out: &mut fmt::Formatter<'_>) -> fmt::Result {
        let (number, place, name) = self.parts();
        write!(out, "refusal {number}, {name}, at place {place}")
    }
}

impl Error for Refusal {}

#[cfg(test)]
mod tests {
    use super::{Refusal, Table};

    /// Places of up to 32 bits, then of up to 64.
    fn places() -> impl Iterator<Item = u64> {
        let high = [1 << 32, (1 << 32) + 5, 1 << 63, u64::MAX];
        (0..=8).chain([46_111, u32::MAX.into()]).chain(high)
    }

    /// Names lose nothing of an answer, also of one that the documents do not
    /// have.
    #[test]
    fn number_and_place_are_kept() {
        for number in (1..=18).chain([u32::MAX]) {
            for place in places() {
                let refusal = Refusal::told(number, place);
                assert_eq!((refusal.number(), refusal.place()), (number, place));
            }
        }
    }

    /// A halfedge that is asked for may be any number. No other place is above 32
    /// bits, and none is cut to them.
    #[test]
    fn places_above_32_bits() {
        for halfedge in places() {
            let missing = Refusal::NoSuchHalfedge { halfedge };
            assert_eq!(Refusal::told(17, halfedge), missing);
        }
        for number in (1..=16).chain([18, u32::MAX]) {
            for place in places().filter(|&place| place >> 32 != 0) {
                let unknown = Refusal::Unknown { number, place };
                assert_eq!(Refusal::told(number, place), unknown);
            }
        }
    }

    #[test]
    fn lent_tables_stand_in_the_documents_order() {
        let tables = [
            Table::Twin,
            Table::Vert,
            Table::Edge,
            Table::Points,
            Table::File,
            Table::Stl,
            Table::Creases,
        ];
        for (place, table) in (1..).zip(tables) {
            assert_eq!(Refusal::told(9, place), Refusal::Room { table });
        }
        for place in [0, 8] {
            let unknown = Refusal::Unknown { number: 9, place };
            assert_eq!(Refusal::told(9, place), unknown);
        }
    }

    #[test]
    fn names_stand_in_the_documents_order() {
        let names = [
            "SHAPE",
            "LIMIT",
            "TWIN",
            "VERTEX",
            "UNUSED",
            "EDGE",
            "FAN",
            "POINT",
            "ROOM",
            "SHORT",
            "FIELD",
            "EXTRA",
            "DOUBLED",
            "VALENCE",
            "CREASE",
            "NOT OLD",
            "NO SUCH HALFEDGE",
        ];
        for (number, name) in (1..).zip(names) {
            let place = u64::from(number == 9);
            let refusal = Refusal::told(number, place);
            assert_eq!(refusal.name(), name);
            let line = format!("refusal {number}, {name}, at place {place}");
            assert_eq!(refusal.to_string(), line);
        }
    }
}
