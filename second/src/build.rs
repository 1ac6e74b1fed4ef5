//! Document 02, §1, "Cages as plain triangles": TWIN and EDGE built from VERT
//! and the points alone.

use std::collections::HashMap;

use crate::cage::{next, Cage, MARKER};
use crate::check::{check, CageCounts};
use crate::refusal::{refuse_if, Refusal, DOUBLED, ROOM, SHAPE};
use crate::size::{makes_triangles, refuse_above_limits};

/// The places of the two lent tables in refusal 9.
const TWIN_PLACE: usize = 1;
const EDGE_PLACE: usize = 3;

/// The TWIN and the EDGE table lent by the caller, of any length.
pub type LentJoins<'a> = [&'a mut [u32]; 2];

/// Builds the missing tables at the front of the lent ones: refusals 1, 2, 13,
/// 4, 5, 7, 8 and 9 in this order, or what the cage check returns.
pub fn build(vert: &[u32], points: &[i32], lent: LentJoins) -> Result<CageCounts, Refusal> {
    let cage = built_cage(vert, points)?;
    let counts = check(&cage)?;
    let h = cage.halfedge_count();
    let [twin, edge] = lent;
    refuse_if(twin.len() < h, ROOM, TWIN_PLACE)?;
    refuse_if(edge.len() < h, ROOM, EDGE_PLACE)?;
    twin[..h].copy_from_slice(&cage.twin);
    edge[..h].copy_from_slice(&cage.edge);
    Ok(counts)
}

/// The tables, not yet checked for more than refusals 1, 2 and 13. Plain
/// triangles have no creases.
fn built_cage(vert: &[u32], points: &[i32]) -> Result<Cage, Refusal> {
    let good = makes_triangles(vert.len() as u64) && points.len().is_multiple_of(3);
    refuse_if(!good, SHAPE, 0)?;
    refuse_above_limits(vert.len() as u64, points.len() as u64 / 3, 0)?;
    let directions = Directions::of(vert);
    if let Some(h) = directions.lowest_doubled() {
        return Err(Refusal::new(DOUBLED, h));
    }
    let twin = directions.twins();
    let cage = Cage {
        edge: edges_by_lowest_halfedge(&twin),
        twin,
        vert: vert.to_vec(),
        points: points.to_vec(),
        ..Cage::default()
    };
    Ok(cage.without_creases())
}

/// From which vertex to which a halfedge runs. Any two numbers are a pair,
/// also where no point has them.
type Pair = (u32, u32);

/// The pair of each halfedge, and the halfedges of each pair, lowest first.
pub(crate) struct Directions {
    pairs: Vec<Pair>,
    halfedges: HashMap<Pair, Vec<usize>>,
}

impl Directions {
    /// Those of a VERT table of whole triangles.
    pub(crate) fn of(vert: &[u32]) -> Directions {
        let pair = |h: usize| (vert[h], vert[next(h)]);
        let pairs: Vec<Pair> = (0..vert.len()).map(pair).collect();
        let mut halfedges: HashMap<Pair, Vec<usize>> = HashMap::new();
        for (h, &pair) in pairs.iter().enumerate() {
            halfedges.entry(pair).or_default().push(h);
        }
        Directions { pairs, halfedges }
    }

    /// The lowest halfedge whose pair a higher one has too.
    fn lowest_doubled(&self) -> Option<usize> {
        let doubled = self.halfedges.values().filter(|same| same.len() > 1);
        doubled.map(|same| same[0]).min()
    }

    /// The TWIN table where no pair is doubled. A halfedge is never its own twin,
    /// not even one that runs from a vertex to the same one.
    pub(crate) fn twins(&self) -> Vec<u32> {
        let twin = |(h, &(from, to)): (usize, &Pair)| {
            let opposite = self.halfedges.get(&(to, from));
            let other = opposite.and_then(|found| found.iter().find(|&&g| g != h));
            other.map_or(MARKER, |&g| g as u32)
        };
        self.pairs.iter().enumerate().map(twin).collect()
    }
}

/// Numbers the edges in the order of their lowest halfedges.
pub(crate) fn edges_by_lowest_halfedge(twin: &[u32]) -> Vec<u32> {
    let mut edge: Vec<u32> = Vec::new();
    let mut fresh = 0..;
    for &twin in twin {
        let number_of_lower_twin = edge.get(twin as usize).copied();
        edge.extend(number_of_lower_twin.or_else(|| fresh.next()));
    }
    edge
}
