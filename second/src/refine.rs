//! Document 01, "One level to the next": refining, levels 0 to the depth end
//! to end in lent tables; document 02, §4: with the weight chosen; §6: with the
//! crease table "written level after level like the others".

use crate::cage::Cage;
use crate::check::check_for_refining;
use crate::counts::{count_question, LevelCounts};
use crate::level::next_level;
use crate::refusal::Refusal;
use crate::tables::LentTables;
use crate::weight::Weight;

/// Refusals 1 to 9, 15 between 6 and 7, with the paper's weight 14 between 7 and
/// 8, or the count question's answer for this cage and depth.
pub fn refine(
    cage: &Cage,
    depth: u64,
    weight: Weight,
    lent: &mut LentTables,
) -> Result<LevelCounts, Refusal> {
    let checked = check_for_refining(cage, depth, weight)?;
    let counts = count_question(checked.halfedges, checked.edges, checked.vertices, depth)?;
    lent.refuse_without_room(counts.halfedge_room, counts.vertex_room)?;
    lent.refuse_without_crease_room(counts.edge_room)?;
    lay_levels(cage, depth, weight, lent);
    Ok(counts)
}

fn lay_levels(cage: &Cage, depth: u64, weight: Weight, lent: &mut LentTables) {
    lent.lay(cage, 0, 0);
    lent.lay_creases(cage, 0);
    let mut level = cage.clone();
    let (mut halfedges_before, mut vertices_before, mut edges_before) = (0, 0, 0);
    for _ in 0..depth {
        halfedges_before += level.halfedge_count();
        vertices_before += level.vertex_count();
        edges_before += level.creases.len();
        level = next_level(&level, weight);
        lent.lay(&level, halfedges_before, vertices_before);
        lent.lay_creases(&level, edges_before);
    }
}
