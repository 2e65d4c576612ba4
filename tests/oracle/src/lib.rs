// The oracle's parts, for its own commands (main.rs) and for the differential runs (../driver).
include!(concat!(env!("OUT_DIR"), "/clipper/modules.rs"));

pub mod answer;
pub mod batch;
pub mod boxes;
pub mod canon;
pub mod canon_cases;
pub mod cases;
pub mod charge;
pub mod check;
pub mod compare;
pub mod contains;
pub mod copies;
pub mod drawn;
pub mod fraction;
pub mod gen;
pub mod guard;
pub mod job;
pub mod mending;
pub mod model;
pub mod oracle;
pub mod raw;
pub mod read;
pub mod real;
pub mod reasons;
pub mod reasons_cases;
pub mod rng;
pub mod runs;
pub mod search;
pub mod show;
pub mod stats;
pub mod stepped;
pub mod stored;
pub mod table;
pub mod text;
pub mod trails;
pub mod vectors;

use std::io::Write;

/// Writes to standard output; a reader that has gone is an error like any other.
pub fn output(bytes: &[u8]) -> Result<(), String> {
    std::io::stdout().write_all(bytes).map_err(|why| format!("cannot write: {why}"))
}
