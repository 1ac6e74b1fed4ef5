//! Document 02, §8, "Say why": the clause that was broken and the numbers that
//! show it; and the tool's line for a cage file, which document 02 does not give:
//! its text is that of `ryebadger why`, as the project's README describes it.

use crate::cage::Cage;
use crate::check::{check_with_reason, CageCounts};
use crate::file::read_cage_with_reason;
use crate::reason::{Clause, Reason};

/// The answer in numbers. All are 0 for an accepted cage; where there is no
/// clause, its number is 0 and so are those that would show it.
#[derive(Clone, Copy, Debug, Default, PartialEq, Eq)]
pub struct Why {
    pub number: u32,
    pub place: u64,
    pub clause: u32,
    pub shown: [u64; 3],
}

impl Why {
    /// Number, place, clause, and the three numbers that show it.
    pub fn six_numbers(&self) -> [u64; 6] {
        let [x, y, z] = self.shown;
        let (number, clause) = (self.number.into(), self.clause.into());
        [number, self.place, clause, x, y, z]
    }
}

impl From<Reason> for Why {
    fn from(Reason { refusal, clause }: Reason) -> Why {
        Why {
            number: refusal.number,
            place: refusal.place,
            clause: clause.map_or(0, |clause| clause.number()),
            shown: clause.map_or([0; 3], |clause| clause.shown()),
        }
    }
}

/// Why the cage check sends this cage back, if it does.
pub fn why(cage: &Cage) -> Why {
    check_with_reason(cage).map_or_else(Why::from, |_| Why::default())
}

/// What the tool prints for the bytes of a cage file of either form.
pub fn why_line(file: &[u8]) -> String {
    match check_file(file) {
        Ok(counts) => accepted_line(&counts),
        Err(reason) => refused_line(&reason),
    }
}

/// What the cage check returns for the cage in a file, or why there is none.
pub fn check_file(file: &[u8]) -> Result<CageCounts, Reason> {
    check_with_reason(&read_cage_with_reason(file)?.cage)
}

fn accepted_line(counts: &CageCounts) -> String {
    let CageCounts {
        halfedges,
        edges,
        triangles,
        vertices,
        borders,
    } = counts;
    format!(
        "accepted: halfedges {halfedges}, edges {edges}, triangles {triangles}, \
         vertices {vertices}, border edges {borders}\n"
    )
}

/// The level lister's line, with the clause in words where there is one.
fn refused_line(Reason { refusal, clause }: &Reason) -> String {
    match clause {
        Some(clause) => format!("{refusal}: {}\n", sentence(refusal.place, clause)),
        None => refusal.line(),
    }
}

/// The clause in words, at its place.
fn sentence(place: u64, clause: &Clause) -> String {
    use Clause::*;
    match clause {
        TwinPastTheTable { twin, halfedges } => {
            format!("halfedge {place} has twin {twin}, past the {halfedges} halfedges")
        }
        TwinIsItself { twin } => format!("halfedge {place} has twin {twin}, which is itself"),
        TwinNotReturned {
            twin,
            its_twin: Some(other),
        } => format!("halfedge {place} has twin {twin}, whose twin is {other}"),
        TwinNotReturned {
            twin,
            its_twin: None,
        } => format!("halfedge {place} has twin {twin}, which has no twin"),
        VertexPastThePoints { vertex, vertices } => {
            format!("corner {place} names vertex {vertex}, past the {vertices} points")
        }
        EndsAlike { vertex, next } => {
            format!("corner {place} names vertex {vertex}, and so does the next corner, {next}")
        }
        EndsOfTheTwinDiffer {
            twin,
            its_vertex,
            far_end,
        } => format!(
            "corner {place} has twin {twin}, which names vertex {its_vertex} instead of {far_end}"
        ),
        Unused { vertex } => format!("vertex {vertex} is named by no corner"),
        EdgePastTheCount { edge, edges } => {
            format!("halfedge {place} has edge {edge}, past the {edges} edges")
        }
        EdgeDiffersFromTheTwin {
            twin,
            edge,
            its_edge,
        } => format!(
            "halfedge {place} has twin {twin}, and edge {edge} where its twin has edge {its_edge}"
        ),
        EdgeShared { edge, stranger } => format!(
            "halfedge {place} has edge {edge}, and so has halfedge {stranger}, \
             which is not its twin"
        ),
        NotJoined { lowest, other } => {
            format!("vertex {place} has corners {lowest} and {other}, which are not joined")
        }
    }
}
