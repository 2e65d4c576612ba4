// The stepping model, written from document 01 alone: geometry, the lone ring, its path, and all rings together.
pub mod forest;
pub mod geometry;
pub mod lone;
pub mod path;
