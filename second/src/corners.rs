//! Document 01, "The cage": the corner question.

use crate::refusal::{Refusal, SHAPE};

/// The three corner numbers of a triangle, as stored in the VERT table.
pub fn corner_question(vert: &[u32], triangle: u64) -> Result<[u32; 3], Refusal> {
    let (triangles, rest) = vert.as_chunks::<3>();
    usize::try_from(triangle)
        .ok()
        .filter(|_| rest.is_empty())
        .and_then(|triangle| triangles.get(triangle).copied())
        .ok_or(Refusal::new(SHAPE, 0))
}
