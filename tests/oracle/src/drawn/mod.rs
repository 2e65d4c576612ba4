// Real drawings: what a user hands to the Rust's `Clipper64`, what the whole `execute` gives for it, and the jobs that its sweep leaves.
pub mod cut;
mod gen;
mod shapes;
mod table;
mod text;

use crate::core::{FillRule, Paths64};
use crate::engine::ClipType;
use crate::engine_public::Clipper64;
use crate::job::{KEEP, REVERSE};

pub use gen::{drawing, KINDS};
pub use table::table;

/// A drawing to be clipped. `settings` are those of the job: bit 0 `preserve_collinear`, bit 1 `reverse_solution`.
#[derive(Clone, Debug)]
pub struct Drawing {
    pub clip_type: ClipType,
    pub fill_rule: FillRule,
    pub settings: u8,
    pub subject: Paths64,
    pub open: Paths64,
    pub clip: Paths64,
}

impl Default for Drawing {
    fn default() -> Drawing {
        let paths = Paths64::new;
        let (clip_type, fill_rule) = (ClipType::Union, FillRule::NonZero);
        Drawing { clip_type, fill_rule, settings: 0, subject: paths(), open: paths(), clip: paths() }
    }
}

impl Drawing {
    /// A clipper that holds the drawing; nothing is swept yet.
    pub fn clipper(&self) -> Clipper64 {
        let mut clipper = Clipper64::new();
        clipper.set_preserve_collinear(self.settings & KEEP != 0);
        clipper.set_reverse_solution(self.settings & REVERSE != 0);
        clipper.add_subject(&self.subject);
        clipper.add_open_subject(&self.open);
        clipper.add_clip(&self.clip);
        clipper
    }

    /// What the whole `execute` gives: closed and open paths; none where it gives up. May go on for ever on rings whose crossings do: see guard.rs.
    pub fn executed(&self) -> Option<(Paths64, Paths64)> {
        let (mut closed, mut open) = (Paths64::new(), Paths64::new());
        let done = self.clipper().execute(self.clip_type, self.fill_rule, &mut closed, Some(&mut open));
        done.then_some((closed, open))
    }
}
