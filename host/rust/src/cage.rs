//! Document 01, "The cage": its tables as they are handed over, lent and owned,
//! the marker and the limits.

/// The TWIN cell of a halfedge that has no twin.
pub const MARKER: u32 = 4_294_967_295;

/// The most halfedges a cage may have.
pub const HALFEDGE_LIMIT: usize = 3_072;

/// The most vertices a cage may have.
pub const VERTEX_LIMIT: usize = 2_048;

/// The deepest level that can be asked for.
pub const DEPTH_LIMIT: usize = 6;

/// The longest VERT table that is written as STL: the deepest level of a cage
/// of as many halfedges as it may have.
pub const LONGEST_TABLE: usize = HALFEDGE_LIMIT << (2 * DEPTH_LIMIT);

/// A coordinate lies between minus this number and this number.
pub const COORDINATE_LIMIT: i32 = 1_048_576;

/// A cage as it is handed over: tables of any length with any cells. A level
/// has the same tables.
#[derive(Clone, Copy, Debug, Default, PartialEq, Eq)]
pub struct Cage<'a> {
    /// The twin of each halfedge, or [`MARKER`].
    pub twin: &'a [u32],
    /// The vertex that each halfedge leaves.
    pub vert: &'a [u32],
    /// The edge of each halfedge.
    pub edge: &'a [u32],
    /// x, y, z of each vertex, in 1/1024 mm.
    pub points: &'a [i32],
    /// For how many levels each edge stays sharp, up to
    /// [`CREASE_LIMIT`](crate::CREASE_LIMIT), and 0 on a border edge; or nothing,
    /// which is the same as 0 for each.
    pub creases: Option<&'a [u8]>,
}

/// Five lent tables, of any length, for refining and reading to write.
///
/// A table that is lent cannot be handed over a second time:
///
/// ```compile_fail
/// # use ryebadger::{read, LentTables};
/// let (mut cells, mut points) = ([0; 3], [0; 9]);
/// let twice = LentTables {
///     twin: &mut cells,
///     vert: &mut cells,
///     edge: &mut [0; 3],
///     points: &mut points,
///     creases: &mut [],
/// };
/// # let mut twice = twice;
/// # let _ = read(&[], &mut twice);
/// ```
#[derive(Debug, Default)]
pub struct LentTables<'a> {
    /// For the twins.
    pub twin: &'a mut [u32],
    /// For the vertices.
    pub vert: &'a mut [u32],
    /// For the edges.
    pub edge: &'a mut [u32],
    /// For the points.
    pub points: &'a mut [i32],
    /// For the creases.
    pub creases: &'a mut [u8],
}

/// The tables of a cage, owned.
#[derive(Clone, Debug, Default, PartialEq, Eq)]
pub struct OwnedCage {
    /// The twin of each halfedge, or [`MARKER`].
    pub twin: Vec<u32>,
    /// The vertex that each halfedge leaves.
    pub vert: Vec<u32>,
    /// The edge of each halfedge.
    pub edge: Vec<u32>,
    /// x, y, z of each vertex, in 1/1024 mm.
    pub points: Vec<i32>,
    /// For how many levels each edge stays sharp, up to
    /// [`CREASE_LIMIT`](crate::CREASE_LIMIT), and 0 on a border edge.
    pub creases: Vec<u8>,
}

impl OwnedCage {
    /// Tables with room for so many halfedges, vertices and edges, every cell 0.
    pub(crate) fn with_room(halfedges: usize, vertices: usize, edges: usize) -> OwnedCage {
        OwnedCage {
            twin: vec![0; halfedges],
            vert: vec![0; halfedges],
            edge: vec![0; halfedges],
            points: vec![0; 3 * vertices],
            creases: vec![0; edges],
        }
    }

    /// These tables, to hand over.
    pub fn as_cage(&self) -> Cage<'_> {
        Cage {
            twin: &self.twin,
            vert: &self.vert,
            edge: &self.edge,
            points: &self.points,
            creases: Some(&self.creases),
        }
    }

    /// These tables, to lend.
    pub fn lend(&mut self) -> LentTables<'_> {
        LentTables {
            twin: &mut self.twin,
            vert: &mut self.vert,
            edge: &mut self.edge,
            points: &mut self.points,
            creases: &mut self.creases,
        }
    }
}
