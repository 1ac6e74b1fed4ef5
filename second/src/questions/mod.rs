//! For trying what document 01 says: count questions and corner questions; and
//! what document 02 says: plain triangles, to be built and to be written as STL,
//! TWIN tables whose edges are to be counted, files of both forms, and questions
//! about one halfedge.

pub mod corners;
pub mod counts;
pub mod edges;
pub mod files;
pub mod halfedges;
mod plain;
mod sets;
pub mod stl;
pub mod triangles;
