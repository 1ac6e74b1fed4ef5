//! Ryebadger for Rust: check, quote, refine, read and write a triangle cage, tell
//! the cells of one halfedge at any level, say why a cage is sent back, move its
//! file from one form to the other, build a cage from plain triangles, or write
//! any level as STL.
//!
//! The operations are proved, and linked as an archive; this crate hands them
//! slices and names their answers. The words and numbers are those of document
//! 01, the scope of the build, and of document 02, its requests.
//!
//! | To | Call |
//! |---|---|
//! | check a cage | [`check`] |
//! | say why a cage is sent back | [`why()`], or [`Refusal::reason`] |
//! | make edges stay sharp | [`Cage::creases`], one number for each of so many [`edges`] |
//! | quote the counts of all levels, and the room | [`counts`] |
//! | refine a cage with a [`Weight`] | [`Refined::new`], or [`refine`] into lent tables |
//! | get one halfedge of any level, without the levels | [`halfedge()`], of a [`Cage::connectivity`] |
//! | get a triangle's corners | [`corners`] |
//! | read a cage file of either form | [`CageFile::read`], or [`read`] into lent tables |
//! | write a cage file of form 1 | [`Cage::to_file`], or [`write()`] into a lent buffer |
//! | write one of form 2, with creases and a weight | [`Cage::to_form_2_file`], or [`write_form_2`] into a lent buffer |
//! | move a cage file to the other form | [`moved_to_form_2`] and [`moved_to_form_1`], or [`to_form_2`] and [`to_form_1`] into a lent buffer |
//! | build a cage from plain triangles | [`OwnedCage::from_triangles`], or [`build`] into lent tables |
//! | write a level as STL | [`Cage::to_stl`], or [`write_stl`] into a lent buffer |
//!
//! Nothing here panics on any input. `check`, `why`, `edges`, `counts`, `refine`,
//! `halfedge`, `corners`, `read`, `write`, `write_form_2`, `to_form_2`,
//! `to_form_1`, `build` and `write_stl` allocate nothing; the others end the
//! program, as Rust does, where memory is short.
//!
//! ```
//! use ryebadger::{CageFile, Refined};
//!
//! fn finest(file: &[u8]) -> Result<Vec<i32>, ryebadger::Refusal> {
//!     let CageFile { cage, weight, .. } = CageFile::read(file)?;
//!     let refined = Refined::new(cage.as_cage(), 6, weight)?;
//!     Ok(refined.level(6).unwrap_or_default().points.to_vec())
//! }
//!
//! let refusal = finest(b"").unwrap_err();
//! assert_eq!(refusal.to_string(), "refusal 10, SHORT, at place 0");
//! ```

mod cage;
mod creases;
mod file;
mod halfedge;
mod operations;
mod owned;
mod reason;
mod refusal;
pub mod sys;
mod weight;
mod why;

pub use cage::{
    Cage, LentTables, OwnedCage, COORDINATE_LIMIT, DEPTH_LIMIT, HALFEDGE_LIMIT, LONGEST_TABLE,
    MARKER, VERTEX_LIMIT,
};
pub use creases::CREASE_LIMIT;
pub use file::{
    moved_to_form_1, moved_to_form_2, read, to_form_1, to_form_2, write, write_form_2, CageFile,
    FileCounts, Form, LONGEST_FILE, LONGEST_FORM_1, LONGEST_FORM_2,
};
pub use halfedge::{halfedge, Connectivity, Halfedge};
pub use operations::{
    build, check, corners, counts, edges, refine, stl_length, write_stl, CageCounts, LevelCounts,
    LEVELS,
};
pub use owned::Refined;
pub use reason::Reason;
pub use refusal::{Refusal, Table};
pub use weight::{Weight, CORNER_LIMIT};
pub use why::{why, Why};
