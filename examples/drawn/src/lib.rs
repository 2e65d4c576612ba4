//! The parts of the program `drawn`.
pub mod compare;
pub mod listing;
pub mod sweep;
