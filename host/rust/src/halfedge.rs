//! Document 02, "One halfedge, no tables": the cells of a single halfedge of any
//! level, without the levels.

use crate::operations::refuse;
use crate::{sys, Cage, Refusal};

/// How the halfedges of a cage are joined, as it is handed over: three tables of
/// any length with any cells, and any number for V.
#[derive(Clone, Copy, Debug, Default, PartialEq, Eq)]
pub struct Connectivity<'a> {
    /// The twin of each halfedge, or [`MARKER`](crate::MARKER).
    pub twin: &'a [u32],
    /// The vertex that each halfedge leaves.
    pub vert: &'a [u32],
    /// The edge of each halfedge.
    pub edge: &'a [u32],
    /// V.
    pub vertices: u64,
}

impl<'a> Cage<'a> {
    /// The three tables without the points and the creases. V is a third of the
    /// points' length, and only whole points count.
    pub fn connectivity(&self) -> Connectivity<'a> {
        Connectivity {
            twin: self.twin,
            vert: self.vert,
            edge: self.edge,
            vertices: self.points.len() as u64 / 3,
        }
    }
}

/// The cells of one halfedge of a level.
#[derive(Clone, Copy, Debug, PartialEq, Eq)]
pub struct Halfedge {
    /// Its twin, or [`MARKER`](crate::MARKER).
    pub twin: u32,
    /// The vertex that it leaves.
    pub vert: u32,
    /// Its edge.
    pub edge: u32,
}

/// One halfedge of the level at a depth: the cells that refining to this depth or
/// deeper would write for it in that level. No level is made: once the check is
/// done and E counted, the work goes by the depth alone. Gives refusals 1 to 7,
/// with the depth limit in 2, and then 17 where the halfedge is not below H of that
/// level.
///
/// ```
/// use ryebadger::{halfedge, Connectivity, Halfedge, Refusal, MARKER};
///
/// // Document 01's triangle, P1 to P3.
/// let triangle = Connectivity {
///     twin: &[MARKER; 3],
///     vert: &[0, 1, 2],
///     edge: &[0, 1, 2],
///     vertices: 3,
/// };
/// assert_eq!(halfedge(triangle, 1, 1)?, Halfedge { twin: 9, vert: 3, edge: 6 });
/// assert_eq!(halfedge(triangle, 1, 2)?, Halfedge { twin: MARKER, vert: 5, edge: 5 });
///
/// // At depth 6 the triangle has 12,288 halfedges.
/// let last = halfedge(triangle, 6, 12_287)?;
/// assert_eq!(halfedge(triangle, 6, last.twin.into())?.twin, 12_287);
/// let refusal = halfedge(triangle, 6, 12_288).unwrap_err();
/// assert_eq!(refusal, Refusal::NoSuchHalfedge { halfedge: 12_288 });
/// # Ok::<(), ryebadger::Refusal>(())
/// ```
pub fn halfedge(of: Connectivity<'_>, depth: u64, halfedge: u64) -> Result<Halfedge, Refusal> {
    let mut answer = [0; sys::HALFEDGE_ANSWER];
    sys::halfedge(of, depth, halfedge, &mut answer);
    let [number, place, cells @ ..] = answer;
    // No number of the documents has more than 32 bits.
    refuse(number.try_into().unwrap_or(u32::MAX), place)?;
    // A cell of a level has 32 bits.
    let [twin, vert, edge] = cells.map(|cell| cell as u32);
    Ok(Halfedge { twin, vert, edge })
}

#[cfg(test)]
mod tests {
    use crate::{Cage, Connectivity};

    #[test]
    fn whole_points_are_counted() {
        let points = [7; 10];
        for (length, vertices) in [(0, 0), (1, 0), (2, 0), (3, 1), (5, 1), (9, 3), (10, 3)] {
            let cage = Cage {
                twin: &[0],
                vert: &[1, 2],
                edge: &[3, 4, 5],
                points: &points[..length],
                creases: Some(&[6]),
            };
            let expected = Connectivity {
                twin: &[0],
                vert: &[1, 2],
                edge: &[3, 4, 5],
                vertices,
            };
            assert_eq!(cage.connectivity(), expected);
        }
    }
}
