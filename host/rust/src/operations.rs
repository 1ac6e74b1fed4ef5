//! The operations of documents 01 and 02 but for those on cage files, each with a
//! `Result`.
//!
//! Every operation answers for any input; its refusals are those listed with
//! it. A refusal leaves every lent cell as it was.

use crate::cage::DEPTH_LIMIT;
use crate::{sys, Cage, LentTables, Refusal, Weight};

/// How many levels the deepest refinement has, level 0 among them.
pub const LEVELS: usize = DEPTH_LIMIT + 1;

/// H, E, F, V and B of a cage that was accepted.
#[derive(Clone, Copy, Debug, PartialEq, Eq)]
pub struct CageCounts {
    /// H.
    pub halfedges: u32,
    /// E.
    pub edges: u32,
    /// F.
    pub triangles: u32,
    /// V.
    pub vertices: u32,
    /// B, the border edges.
    pub borders: u32,
}

/// The counts of all seven levels, zero past the depth asked, and the room.
#[derive(Clone, Copy, Debug, PartialEq, Eq)]
pub struct LevelCounts {
    /// H of each level.
    pub halfedges: [u32; LEVELS],
    /// E of each level.
    pub edges: [u32; LEVELS],
    /// V of each level.
    pub vertices: [u32; LEVELS],
    /// The sum of H over levels 0 to the depth: cells needed in each of the
    /// lent TWIN, VERT and EDGE.
    pub halfedge_room: u32,
    /// The sum of V over levels 0 to the depth: a third of the cells needed in
    /// the lent points.
    pub vertex_room: u32,
    /// The sum of E over levels 0 to the depth: cells needed in the lent
    /// creases.
    pub edge_room: u32,
}

/// E of any TWIN table: how many halfedges have no twin or a twin with a lower
/// number, or [`u32::MAX`] where these are more. So many numbers a crease table
/// has to have. Never refuses.
///
/// ```
/// // Document 01's triangle and pillow.
/// assert_eq!(ryebadger::edges(&[ryebadger::MARKER; 3]), 3);
/// assert_eq!(ryebadger::edges(&[5, 4, 3, 2, 1, 0]), 3);
/// ```
pub fn edges(twin: &[u32]) -> u32 {
    let mut answer = [0; sys::EDGES_ANSWER];
    sys::edges(twin, &mut answer);
    let [edges] = answer;
    edges
}

/// The cage check. Gives refusals 1 to 8, the length of a crease table in 1
/// after 3 and before 4, and 15 after 6 and before 7.
///
/// ```
/// use ryebadger::{check, Cage, MARKER};
///
/// let triangle = Cage {
///     twin: &[MARKER; 3],
///     vert: &[0, 1, 2],
///     edge: &[0, 1, 2],
///     points: &[0, 0, 0, 800, 0, 0, 0, 800, 0],
///     creases: None,
/// };
/// assert_eq!(check(triangle)?.borders, 3);
///
/// let stray = Cage { vert: &[0, 1, 3], ..triangle };
/// let refusal = check(stray).unwrap_err();
/// assert_eq!(refusal.to_string(), "refusal 4, VERTEX, at place 2");
///
/// // Every edge of it is a border.
/// let creased = Cage { creases: Some(&[0, 1, 0]), ..triangle };
/// let refusal = check(creased).unwrap_err();
/// assert_eq!(refusal.to_string(), "refusal 15, CREASE, at place 1");
/// # Ok::<(), ryebadger::Refusal>(())
/// ```
pub fn check(cage: Cage<'_>) -> Result<CageCounts, Refusal> {
    let mut answer = [0; sys::CHECK_ANSWER];
    sys::check(cage, &mut answer);
    checked(answer)
}

/// The count question: H, E, V and a depth. Gives refusals 1 and 2.
///
/// ```
/// // Document 01's P8.
/// let counts = ryebadger::counts(12, 6, 4, 2)?;
/// assert_eq!((counts.halfedge_room, counts.vertex_room), (252, 48));
/// assert_eq!(counts.edge_room, 126);
/// # Ok::<(), ryebadger::Refusal>(())
/// ```
pub fn counts(
    halfedges: u64,
    edges: u64,
    vertices: u64,
    depth: u64,
) -> Result<LevelCounts, Refusal> {
    let mut answer = [0; sys::COUNTS_ANSWER];
    sys::counts(halfedges, edges, vertices, depth, &mut answer);
    counted(&answer)
}

/// Refining with a weight: levels 0 to the depth end to end at the front of the
/// lent tables, level 0 being the cage. Cells past the room are untouched. Gives
/// [`check`]'s refusals in its order, 9, and with the paper's weight 14 after 7
/// and before 8. [`Refined`](crate::Refined) has the room found and allocated.
///
/// The creases of a level are its border edges and those that have a number
/// above 0. Each level takes one from a number, down to 0, for both halves of the
/// edge; an edge that comes to lie across a triangle starts with 0. The point of
/// an inner crease is the middle of its ends. A vertex moves by how many creases
/// it has: by none or one as if it had none, by two as a border vertex between
/// their far ends, by more not at all.
///
/// A coordinate is rounded once per level, halves away from zero. So negating
/// every x of the cage's points, or every y or z, negates exactly those numbers
/// at every level and changes nothing else.
pub fn refine(
    cage: Cage<'_>,
    depth: u64,
    weight: Weight,
    lent: &mut LentTables<'_>,
) -> Result<LevelCounts, Refusal> {
    let mut answer = [0; sys::COUNTS_ANSWER];
    sys::refine(cage, depth, weight as u32, lent, &mut answer);
    counted(&answer)
}

/// The corner question: a triangle's three corner numbers, as stored in a VERT
/// table. Gives refusal 1.
///
/// ```
/// assert_eq!(ryebadger::corners(&[0, 1, 2, 0, 2, 1], 1)?, [0, 2, 1]);
/// # Ok::<(), ryebadger::Refusal>(())
/// ```
pub fn corners(vert: &[u32], triangle: u64) -> Result<[u32; 3], Refusal> {
    let mut answer = [0; sys::CORNERS_ANSWER];
    sys::corners(vert, triangle, &mut answer);
    let [number, place, corners @ ..] = answer;
    refuse(number, place)?;
    Ok(corners)
}

/// Building a cage from plain triangles: VERT, which has the corners of one
/// triangle after another's, and the points. TWIN and EDGE go to the front of
/// the lent tables; cells past H are untouched. Gives refusals 1, 2, 13, 4, 5,
/// 7, 8 and 9, in this order.
/// [`OwnedCage::from_triangles`](crate::OwnedCage::from_triangles) allocates.
///
/// ```
/// // Document 01's pillow.
/// let (mut twin, mut edge) = ([0; 6], [0; 6]);
/// let counts = ryebadger::build(&[0, 1, 2, 0, 2, 1], &[0; 9], &mut twin, &mut edge)?;
/// assert_eq!(twin, [5, 4, 3, 2, 1, 0]);
/// assert_eq!(edge, [0, 1, 2, 2, 1, 0]);
/// assert_eq!((counts.edges, counts.borders), (3, 0));
/// # Ok::<(), ryebadger::Refusal>(())
/// ```
pub fn build(
    vert: &[u32],
    points: &[i32],
    lent_twin: &mut [u32],
    lent_edge: &mut [u32],
) -> Result<CageCounts, Refusal> {
    let mut answer = [0; sys::CHECK_ANSWER];
    sys::build(vert, points, lent_twin, lent_edge, &mut answer);
    checked(answer)
}

/// Writing any level as binary STL, from its VERT table and its points, to the
/// front of the lent buffer; the file's length is returned, [`stl_length`] of F.
/// Bytes past it are untouched. Gives refusals 1, 2, 4, 8 and 9: 2 for a table
/// longer than [`LONGEST_TABLE`](crate::LONGEST_TABLE), 4 for a corner past the
/// points. An index of 8 above [`u32::MAX`] is told as that.
/// [`Cage::to_stl`] allocates.
///
/// ```
/// use ryebadger::{stl_length, write_stl};
///
/// let mut file = [1; stl_length(1)];
/// let points = [0, 0, 0, 800, 0, 0, 0, 800, 0];
/// assert_eq!(write_stl(&[0, 1, 2], &points, &mut file)?, 134);
/// // F, and after the normal and a corner x of the next, 800/1024.
/// assert_eq!(file[80..84], 1_u32.to_le_bytes());
/// assert_eq!(file[108..112], 0.78125_f32.to_le_bytes());
///
/// let refusal = write_stl(&[0, 1, 3], &points, &mut file).unwrap_err();
/// assert_eq!(refusal.to_string(), "refusal 4, VERTEX, at place 2");
/// # Ok::<(), ryebadger::Refusal>(())
/// ```
pub fn write_stl(vert: &[u32], points: &[i32], lent_file: &mut [u8]) -> Result<usize, Refusal> {
    let mut answer = [0; sys::WRITE_ANSWER];
    sys::write_stl(vert, points, lent_file, &mut answer);
    written(answer)
}

/// The bytes of an STL file of so many triangles.
pub const fn stl_length(triangles: u32) -> usize {
    84 + 50 * triangles as usize
}

/// The refusal of a number that is not 0.
pub(crate) fn refuse(number: u32, place: impl Into<u64>) -> Result<(), Refusal> {
    match number {
        0 => Ok(()),
        _ => Err(Refusal::told(number, place.into())),
    }
}

fn checked(answer: [u32; sys::CHECK_ANSWER]) -> Result<CageCounts, Refusal> {
    let [number, place, halfedges, edges, triangles, vertices, borders] = answer;
    refuse(number, place)?;
    Ok(CageCounts {
        halfedges,
        edges,
        triangles,
        vertices,
        borders,
    })
}

/// What a writer and a move answer.
pub(crate) fn written(answer: [u32; sys::WRITE_ANSWER]) -> Result<usize, Refusal> {
    let [number, place, length] = answer;
    refuse(number, place)?;
    Ok(length as usize)
}

fn counted(answer: &[u32; sys::COUNTS_ANSWER]) -> Result<LevelCounts, Refusal> {
    refuse(answer[0], answer[1])?;
    let of_levels = |first: usize| std::array::from_fn(|level| answer[first + level]);
    Ok(LevelCounts {
        halfedges: of_levels(2),
        edges: of_levels(2 + LEVELS),
        vertices: of_levels(2 + 2 * LEVELS),
        halfedge_room: answer[2 + 3 * LEVELS],
        vertex_room: answer[3 + 3 * LEVELS],
        edge_room: answer[4 + 3 * LEVELS],
    })
}
