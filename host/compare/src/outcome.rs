//! What an operation leaves behind, and where two such outcomes differ.

use std::fmt;

use second::cage::Cage;
use second::suite::Expected;

/// Every number of the answer and every lent cell.
#[derive(Clone, Debug, Default, PartialEq, Eq)]
pub struct Outcome {
    /// Number, place and values; or E alone.
    pub answer: Vec<u64>,
    /// The lent tables.
    pub tables: Cage,
    /// The lent file buffer.
    pub file: Vec<u8>,
}

impl Outcome {
    /// Number and place: both 0 when done.
    pub fn verdict(&self) -> (u64, u64) {
        (self.answer[0], self.answer[1])
    }

    /// Fails where another verdict is known beforehand.
    pub fn assert_expected(&self, name: &str, expected: Expected) {
        match expected {
            Expected::Accepted => assert_eq!(self.verdict(), (0, 0), "{name}"),
            Expected::Refused(refusal) => {
                let expected = (refusal.number.into(), refusal.place);
                assert_eq!(self.verdict(), expected, "{name}");
            }
            Expected::Unforeseen => {}
        }
    }
}

/// The first cell at which two outcomes differ, and what stands there. A cell
/// that is missing is nothing.
#[derive(Clone, Debug, PartialEq, Eq)]
pub struct Difference {
    pub part: &'static str,
    pub cell: usize,
    pub host: Option<i128>,
    pub second: Option<i128>,
}

impl fmt::Display for Difference {
    fn fmt(&self, out: &mut fmt::Formatter<'_>) -> fmt::Result {
        let shown = |cell: i128| cell.to_string();
        let [host, second] =
            [self.host, self.second].map(|cell| cell.map_or("nothing".into(), shown));
        let (part, cell) = (self.part, self.cell);
        write!(
            out,
            "{part}[{cell}] is {host}, and {second} in the second program"
        )
    }
}

/// Where the outcomes of the host and of the second program differ, if they do.
pub fn first_difference(host: &Outcome, second: &Outcome) -> Option<Difference> {
    let (ours, theirs) = (&host.tables, &second.tables);
    difference_in("answer", &host.answer, &second.answer)
        .or_else(|| difference_in("twin", &ours.twin, &theirs.twin))
        .or_else(|| difference_in("vert", &ours.vert, &theirs.vert))
        .or_else(|| difference_in("edge", &ours.edge, &theirs.edge))
        .or_else(|| difference_in("points", &ours.points, &theirs.points))
        .or_else(|| difference_in("creases", &ours.creases, &theirs.creases))
        .or_else(|| difference_in("file", &host.file, &second.file))
}

fn difference_in<T: Copy + PartialEq + Into<i128>>(
    part: &'static str,
    host: &[T],
    second: &[T],
) -> Option<Difference> {
    if host == second {
        return None;
    }
    let differs = |&cell: &usize| host.get(cell) != second.get(cell);
    let cell = (0..host.len().max(second.len())).find(differs)?;
    let shown = |cells: &[T]| cells.get(cell).map(|&cell| cell.into());
    Some(Difference {
        part,
        cell,
        host: shown(host),
        second: shown(second),
    })
}
