//! Document 02, "The weight from the paper": the weight that refining gives an
//! inner vertex's spokes, chosen per call.

/// The most corners an inner vertex may have with the paper's weight.
pub const CORNER_LIMIT: usize = 32;

/// The weight of each spoke of an inner vertex, which is one on no border. It
/// decides where the vertex goes from one level to the next, and nothing else.
///
/// ```
/// use ryebadger::{OwnedCage, Refined, Weight};
///
/// // Document 01's pillow, on which every vertex has two corners.
/// let points = [0, 0, 0, 16, 0, 0, 0, 16, 0];
/// let pillow = OwnedCage::from_triangles(&[0, 1, 2, 0, 2, 1], &points)?;
/// for (weight, point) in [(Weight::Short, [3, 3, 0]), (Weight::Paper, [5, 5, 0])] {
///     let refined = Refined::new(pillow.as_cage(), 1, weight)?;
///     assert_eq!(refined.level(1).unwrap().points[..3], point);
/// }
/// # Ok::<(), ryebadger::Refusal>(())
/// ```
#[derive(Clone, Copy, Debug, PartialEq, Eq)]
pub enum Weight {
    /// Document 01's, 3/(8n) at a vertex of n corners.
    Short = 0,
    /// That of source document 002's rule V.3 to the nearest 2^24th, at a vertex
    /// of at most [`CORNER_LIMIT`] corners.
    Paper = 1,
}
