//! Document 01, "The level lister": from the bytes of a cage file of either form
//! to the printed lines; document 02, §6: its room line has a third number.

use crate::cage::DEPTH_LIMIT;
use crate::check::check;
use crate::counts::{count_question, LEVELS};
use crate::file::read_cage;
use crate::refusal::Refusal;

/// What the level lister prints for these bytes.
pub fn list_levels(file: &[u8]) -> String {
    level_lines(file).unwrap_or_else(|refusal| refusal.line())
}

/// The lines of an accepted cage's levels, or the refusal.
pub fn level_lines(file: &[u8]) -> Result<String, Refusal> {
    let checked = check(&read_cage(file)?.cage)?;
    let counts = count_question(
        checked.halfedges,
        checked.edges,
        checked.vertices,
        DEPTH_LIMIT,
    )?;
    let mut lines = String::new();
    for level in 0..LEVELS {
        let (h, e, v) = (
            counts.halfedges[level],
            counts.edges[level],
            counts.vertices[level],
        );
        // Each border edge is cut in two from one level to the next.
        let (f, b) = (h / 3, checked.borders << level);
        lines += &format!("{level} {h} {e} {f} {v} {b}\n");
    }
    Ok(lines + &counts.room_line())
}
