//! The independent second program of Ryebadger. It is written from document
//! 01, the scope of the build, and document 02, its requests, and from nothing
//! else, so that the proved program can be compared with it.
//!
//! Every public function answers for any table, number or bytes.

pub mod build;
pub mod cage;
pub mod check;
pub mod corners;
pub mod counter;
pub mod counts;
pub mod creases;
pub mod draw;
mod fan;
pub mod file;
pub mod halfedge;
mod interval;
mod level;
pub mod lister;
pub mod mirror;
mod points;
pub mod questions;
pub mod reason;
pub mod refine;
pub mod refusal;
mod rules;
mod sew;
mod size;
pub mod stl;
pub mod suite;
pub mod tables;
mod three_tables;
mod valence;
pub mod weight;
pub mod why;
