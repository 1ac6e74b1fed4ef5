//! The operations but for those on cage files with their tables allocated:
//! building an owned cage, a whole STL, and all levels of a cage.

use std::ops::Range;

use crate::cage::{HALFEDGE_LIMIT, LONGEST_TABLE};
use crate::creases::no_creases;
use crate::operations::{
    build, check, counts, refine, stl_length, write_stl, CageCounts, LevelCounts, LEVELS,
};
use crate::{Cage, OwnedCage, Refusal, Weight};

impl OwnedCage {
    /// Builds a cage from plain triangles: three corner numbers for each, and
    /// x, y, z of each vertex. No edge of it is a crease. Gives refusals 1, 2,
    /// 13, 4, 5, 7 and 8, in this order.
    ///
    /// ```
    /// use ryebadger::{OwnedCage, Refined, Weight};
    ///
    /// let triangles = [[0, 1, 2], [0, 2, 3], [0, 3, 1], [1, 3, 2]];
    /// let points = [[0, 0, 0], [900, 0, 0], [0, 900, 0], [0, 0, 900]];
    /// let cage = OwnedCage::from_triangles(triangles.as_flattened(), points.as_flattened())?;
    /// assert_eq!(cage.twin[..3], [8, 11, 3]);
    /// let refined = Refined::new(cage.as_cage(), 6, Weight::Paper)?;
    /// assert_eq!(refined.counts().halfedges[6], 12 << 12);
    ///
    /// let twice = [[0, 1, 2], [3, 0, 1]];
    /// let refusal = OwnedCage::from_triangles(twice.as_flattened(), points.as_flattened());
    /// assert_eq!(refusal.unwrap_err().to_string(), "refusal 13, DOUBLED, at place 0");
    /// # Ok::<(), ryebadger::Refusal>(())
    /// ```
    pub fn from_triangles(vert: &[u32], points: &[i32]) -> Result<OwnedCage, Refusal> {
        // Past the limit the table is refused, and needs no room.
        let halfedges = vert.len().min(HALFEDGE_LIMIT);
        let (mut twin, mut edge) = (vec![0; halfedges], vec![0; halfedges]);
        build(vert, points, &mut twin, &mut edge)?;
        Ok(OwnedCage {
            creases: no_creases(&twin),
            twin,
            vert: vert.to_vec(),
            edge,
            points: points.to_vec(),
        })
    }
}

impl Cage<'_> {
    /// The binary STL file of this cage or level, from its VERT table and its
    /// points alone. Gives refusals 1, 2, 4 and 8.
    ///
    /// ```
    /// use ryebadger::{OwnedCage, Refined, Weight};
    ///
    /// let points = [0, 0, 0, 16, 0, 0, 0, 16, 0];
    /// let pillow = OwnedCage::from_triangles(&[0, 1, 2, 0, 2, 1], &points)?;
    /// let refined = Refined::new(pillow.as_cage(), 6, Weight::Paper)?;
    /// let finest = refined.levels().last().unwrap_or_default();
    /// assert_eq!(finest.to_stl()?.len(), 84 + 50 * (2 << 12));
    /// # Ok::<(), ryebadger::Refusal>(())
    /// ```
    pub fn to_stl(self) -> Result<Vec<u8>, Refusal> {
        // Past the limit the table is refused, and needs no room.
        let is_refused = self.vert.len() > LONGEST_TABLE;
        let halfedges = if is_refused { 0 } else { self.vert.len() };
        let mut file = vec![0; stl_length(halfedges as u32 / 3)];
        write_stl(self.vert, self.points, &mut file)?;
        Ok(file)
    }
}

/// All levels of a cage, from 0 to a depth. Those of its mirror are their
/// mirrors, as is said at [`refine`].
///
/// ```
/// use ryebadger::{Cage, Refined, Weight, MARKER};
///
/// // Document 01's triangle, P1 to P4.
/// let triangle = Cage {
///     twin: &[MARKER; 3],
///     vert: &[0, 1, 2],
///     edge: &[0, 1, 2],
///     points: &[0, 0, 0, 800, 0, 0, 0, 800, 0],
///     creases: None,
/// };
/// let refined = Refined::new(triangle, 6, Weight::Short)?;
/// let level = refined.level(1).unwrap();
/// assert_eq!(level.vert, [0, 3, 5, 1, 4, 3, 2, 5, 4, 5, 3, 4]);
/// assert_eq!(level.points[..3], [100, 100, 0]);
/// assert_eq!(refined.levels().count(), 7);
///
/// let mirror = Cage { points: &[0, 0, 0, -800, 0, 0, 0, 800, 0], ..triangle };
/// let mirror = Refined::new(mirror, 6, Weight::Short)?;
/// for (level, mirrored) in refined.levels().zip(mirror.levels()) {
///     for (point, mirrored) in level.points.chunks(3).zip(mirrored.points.chunks(3)) {
///         assert_eq!(mirrored, [-point[0], point[1], point[2]]);
///     }
/// }
/// # Ok::<(), ryebadger::Refusal>(())
/// ```
///
/// An edge with a number stays sharp for as many levels:
///
/// ```
/// use ryebadger::{OwnedCage, Refined, Weight};
///
/// let triangles = [[0, 1, 2], [0, 2, 3], [0, 3, 1], [1, 3, 2]];
/// let points = [[0, 0, 0], [900, 0, 0], [0, 900, 0], [0, 0, 900]];
/// let mut cage = OwnedCage::from_triangles(triangles.as_flattened(), points.as_flattened())?;
/// // The edge of halfedge 0, from vertex 0 to vertex 1.
/// let seam = cage.edge[0] as usize;
/// cage.creases[seam] = 1;
/// let refined = Refined::new(cage.as_cage(), 2, Weight::Paper)?;
///
/// // It gets its midpoint. The numbers of its halves are less by one.
/// let level = refined.level(1).unwrap();
/// let middle = 3 * (4 + seam);
/// assert_eq!(level.points[middle..middle + 3], [450, 0, 0]);
/// assert_eq!(level.creases.unwrap()[2 * seam..2 * seam + 2], [0, 0]);
/// # Ok::<(), ryebadger::Refusal>(())
/// ```
#[derive(Clone, Debug, PartialEq, Eq)]
pub struct Refined {
    tables: OwnedCage,
    counts: LevelCounts,
    depth: usize,
}

impl Refined {
    /// Quotes the room, allocates it, and refines with a weight. Gives
    /// [`refine`]'s refusals but 9.
    pub fn new(cage: Cage<'_>, depth: u64, weight: Weight) -> Result<Refined, Refusal> {
        // Where the quote is refused so is refining, which has all checks in
        // their order; it needs no room for that.
        let [halfedges, vertices, edges] = quoted_room(cage, depth).unwrap_or_default();
        let mut tables = OwnedCage::with_room(halfedges, vertices, edges);
        let counts = refine(cage, depth, weight, &mut tables.lend())?;
        Ok(Refined {
            tables,
            counts,
            depth: depth as usize,
        })
    }

    /// The depth that was asked for.
    pub fn depth(&self) -> usize {
        self.depth
    }

    /// The counts of all levels, and the room.
    pub fn counts(&self) -> &LevelCounts {
        &self.counts
    }

    /// The five tables of a level, or nothing past the depth.
    pub fn level(&self, level: usize) -> Option<Cage<'_>> {
        if level > self.depth {
            return None;
        }
        let halfedges = cells_of(&self.counts.halfedges, level)?;
        let vertices = cells_of(&self.counts.vertices, level)?;
        let edges = cells_of(&self.counts.edges, level)?;
        let points = 3 * vertices.start..3 * vertices.end;
        Some(Cage {
            twin: self.tables.twin.get(halfedges.clone())?,
            vert: self.tables.vert.get(halfedges.clone())?,
            edge: self.tables.edge.get(halfedges)?,
            points: self.tables.points.get(points)?,
            creases: Some(self.tables.creases.get(edges)?),
        })
    }

    /// Level 0, level 1 and so on to the depth.
    pub fn levels(&self) -> impl Iterator<Item = Cage<'_>> {
        (0..=self.depth).filter_map(|level| self.level(level))
    }
}

/// The sums of H, of V and of E over levels 0 to the depth.
fn quoted_room(cage: Cage<'_>, depth: u64) -> Result<[usize; 3], Refusal> {
    let CageCounts {
        halfedges,
        edges,
        vertices,
        ..
    } = check(cage)?;
    let quoted = counts(halfedges.into(), edges.into(), vertices.into(), depth)?;
    let sums = [quoted.halfedge_room, quoted.vertex_room, quoted.edge_room];
    Ok(sums.map(|sum| sum as usize))
}

/// Where a level stands in levels that lie end to end.
fn cells_of(counts: &[u32; LEVELS], level: usize) -> Option<Range<usize>> {
    let before = counts.get(..level)?.iter();
    let start = before.map(|&count| count as usize).sum();
    Some(start..start + *counts.get(level)? as usize)
}
