// The oracle's answer to a job: rows 1 to 10 in order, then the real Rust's own paths.
use crate::answer::Answer;
use crate::engine::ClipperBase;
use crate::guard::{Guard, Ran};
use crate::job::{Job, POINTS, RECORDS, REVERSE};
use crate::model::forest::Forest;
use crate::real::{self, Joined, FULL};
use crate::{check, read};

#[derive(Default)]
pub struct Oracle {
    guard: Guard,
}

/// A job that was read, checked and joined.
pub struct Opened {
    pub job: Job,
    pub base: ClipperBase,
    pub joined: Joined,
}

/// Reads, checks and joins a job.
pub fn open(bytes: &[u8]) -> Result<Opened, u8> {
    let job = read::read(bytes)?;
    check::check(&job)?;
    let (base, joined) = real::open(&job)?;
    Ok(Opened { job, base, joined })
}

/// The model's forest for an opened job.
pub fn forest(opened: &Opened) -> Forest {
    let state = real::look(&opened.base);
    let rings = state.records.into_iter().map(|r| (r.open, r.ring.into_iter().map(|(_, at)| at).collect()));
    Forest::new(opened.job.settings, state.points, rings.collect())
}

impl Oracle {
    /// Whether the real run of an opened job needs more places than there are. The model only says where the real run may be
    /// made; what it needs is told by that run.
    pub fn full(&mut self, opened: &Opened, model_full: bool) -> bool {
        let (points, records) = if model_full {
            match self.guard.run(&opened.job) {
                Ran::Grew => return true,
                Ran::Ended(points, records) => (points, records),
            }
        } else {
            let mut base = real::copy(&opened.base);
            real::clean_all(&mut base);
            (base.outpt_arena.len(), base.outrec_list.len())
        };
        points > POINTS || records > RECORDS
    }

    pub fn answer(&mut self, bytes: &[u8]) -> Answer {
        let opened = match open(bytes) {
            Err(number) => return Answer::Refused(number),
            Ok(opened) => opened,
        };
        let model_full = forest(&opened).finish(|_, _, _, _| ()).is_err();
        if self.full(&opened, model_full) {
            return Answer::Refused(FULL);
        }
        let reversed = opened.job.settings & REVERSE != 0;
        let (closed, open) = real::paths(opened.base);
        Answer::Paths { closed, open, reversed }
    }
}
