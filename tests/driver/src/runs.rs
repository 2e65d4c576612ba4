// Many cases of a kind on several threads. A case is told by its kind, seed and number alone; the first that differs is reported,
// whatever the number of threads.
use crate::calls::Fault;
use crate::room::{Room, Same};
use crate::tally::Tally;
use crate::{
    altered, canon, contains, damage, drawn, finish, kept, laid, large, mended, open, pair, reasons, steps, turned,
    windows,
};
use oracle::gen;
use oracle::rng::Rng;
use std::panic::{catch_unwind, AssertUnwindSafe};
use std::sync::atomic::{AtomicU64, Ordering};
use std::time::Instant;

/// Cases are handed out in blocks of this many.
const BLOCK: u64 = 64;

#[derive(Clone, Copy, Debug, PartialEq)]
pub enum Kind {
    Finish,
    Large,
    Steps,
    Bytes,
    Altered,
    Canon,
    Reasons,
    Kept,
    Laid,
    Drawn,
    Contains,
    Mended,
    Windows,
}

pub const KINDS: &[(&str, Kind)] = &[
    ("finish", Kind::Finish),
    ("large", Kind::Large),
    ("steps", Kind::Steps),
    ("bytes", Kind::Bytes),
    ("altered", Kind::Altered),
    ("canon", Kind::Canon),
    ("reasons", Kind::Reasons),
    ("kept", Kind::Kept),
    ("laid", Kind::Laid),
    ("drawn", Kind::Drawn),
    ("contains", Kind::Contains),
    ("mended", Kind::Mended),
    ("windows", Kind::Windows),
];

impl Kind {
    pub fn named(name: &str) -> Option<Kind> {
        KINDS.iter().find(|(known, _)| *known == name).map(|(_, kind)| *kind)
    }

    pub fn name(self) -> &'static str {
        KINDS.iter().find(|(_, kind)| *kind == self).map_or("", |(name, _)| name)
    }

    fn case(self, room: &mut Room, seed: u64, index: u64) -> Same {
        let mut rng = Rng::of(!seed, index);
        let at = rng.below(8);
        match self {
            Kind::Finish => {
                room.start(&gen::job(seed, index), at);
                finish::case(room, &mut rng)
            }
            Kind::Large => {
                room.start(&large::job(&mut rng), at);
                finish::case(room, &mut rng)?;
                steps::case(room, &mut rng)
            }
            Kind::Steps => {
                room.start(&gen::job(seed, index), at);
                steps::case(room, &mut rng)
            }
            Kind::Bytes => {
                let bytes = damage::bytes(seed, index, &mut rng);
                room.start(&bytes, at);
                open::open_job(room, crate::words::WORDS, rng.bits() as u32)?;
                finish::case(room, &mut rng)
            }
            Kind::Altered => altered::case(room, seed, index, &mut rng),
            Kind::Canon => {
                let bytes = canon::bytes(seed, index, &mut rng);
                room.start(&bytes, at);
                canon::case(room, &mut rng)
            }
            Kind::Reasons => {
                room.start(&gen::job(seed, index), at);
                reasons::case(room, &mut rng)
            }
            Kind::Kept => {
                room.start(&gen::job(seed, index), at);
                kept::case(room, seed, index, &mut rng)
            }
            Kind::Laid => {
                room.start(&gen::job(seed, index), at);
                laid::case(room, seed, index, &mut rng)
            }
            Kind::Drawn => drawn::case(room, &mut rng),
            Kind::Contains => {
                room.start(&contains::job(seed, index, &mut rng), at);
                contains::case(room, &mut rng)
            }
            Kind::Mended => mended::case(room, seed, index, &mut rng),
            Kind::Windows => windows::case(room, seed, index, &mut rng),
        }
    }

    /// The answers that a long run must have seen, by call.
    fn must_see(self) -> Vec<(&'static str, Vec<u32>)> {
        match self {
            Kind::Finish => vec![("finish", (0..=11).collect()), ("turned", (0..=11).collect())],
            Kind::Steps => {
                vec![("open", (0..=10).collect()), ("step", vec![0, 10, 12]), ("write", vec![0, 10, 11, 12])]
            }
            Kind::Large => {
                vec![("finish", vec![0, 9, 10, 11]), ("step", vec![0, 10, 12]), ("write", vec![0, 10, 11, 12])]
            }
            Kind::Bytes => vec![("open", (0..=10).collect()), ("finish", (0..=11).collect())],
            Kind::Altered => {
                vec![("step", vec![0, 3, 4, 5, 6, 7, 10, 12]), ("write", vec![0, 3, 4, 5, 6, 7, 11, 12])]
            }
            Kind::Canon => vec![("rewrite", (0..=8).chain(10..=11).collect()), ("finish", vec![0, 9, 10, 11])],
            Kind::Reasons => vec![("reason", vec![0, 3, 4, 5, 6, 7, 10, 12])],
            Kind::Kept => kept::must_see(),
            Kind::Laid => laid::must_see(),
            Kind::Drawn => vec![("finish", vec![0, 3, 10, 11])],
            Kind::Contains => vec![("contained", (0..=11).collect())],
            Kind::Mended => vec![("mend", (0..=5).chain(17..=17).collect())],
            Kind::Windows => vec![("records in", vec![0, 3, 4, 5, 6, 7, 10, 11])],
        }
    }

    /// The calls on altered work spaces, whose refusals must have stood in every way to what ringless records keep, to boxes and to names.
    fn must_test(self) -> &'static [&'static str] {
        match self {
            Kind::Altered => &["step", "write"],
            Kind::Reasons => &["reason"],
            Kind::Kept => &kept::TESTED,
            Kind::Laid => &laid::TESTED,
            Kind::Windows => &["records in"],
            _ => &[],
        }
    }
}

pub struct Difference {
    pub index: u64,
    pub what: String,
    pub job: Vec<u8>,
    pub trace: Vec<String>,
}

pub struct Run {
    pub kind: Kind,
    pub seed: u64,
    pub from: u64,
    pub to: u64,
    pub threads: u64,
    pub fault: Fault,
}

impl Run {
    /// One thread's share: blocks of cases until none is left or a lower case has differed.
    fn share(&self, next: &AtomicU64, lowest: &AtomicU64) -> (Tally, Option<Difference>) {
        let mut room = Room::new(self.fault);
        loop {
            let block = next.fetch_add(BLOCK, Ordering::Relaxed);
            if block >= self.to {
                return (room.tally, None);
            }
            for index in block..(block + BLOCK).min(self.to) {
                if index > lowest.load(Ordering::Relaxed) {
                    return (room.tally, None);
                }
                let told = catch_unwind(AssertUnwindSafe(|| self.kind.case(&mut room, self.seed, index)));
                if let Err(what) = told.unwrap_or_else(|_| Err("the driver or the oracle broke off".into())) {
                    lowest.fetch_min(index, Ordering::Relaxed);
                    let (job, trace) = (room.job().to_vec(), std::mem::take(&mut room.trace));
                    return (room.tally, Some(Difference { index, what, job, trace }));
                }
            }
        }
    }

    /// All cases; the tally, or the first case that differs.
    pub fn all(&self) -> Result<Tally, Difference> {
        let (next, lowest) = (AtomicU64::new(self.from), AtomicU64::new(u64::MAX));
        let shares: Vec<_> = std::thread::scope(|scope| {
            let threads: Vec<_> = (0..self.threads).map(|_| scope.spawn(|| self.share(&next, &lowest))).collect();
            threads.into_iter().map(|thread| thread.join().expect("a thread of the run ends")).collect()
        });
        let mut tally = Tally::default();
        let mut first: Option<Difference> = None;
        for (part, difference) in shares {
            tally.merge(&part);
            if let Some(found) = difference {
                if first.as_ref().map_or(true, |known| found.index < known.index) {
                    first = Some(found);
                }
            }
        }
        first.map_or(Ok(tally), Err)
    }

    /// Runs, prints the tally and the rate; an error tells the first difference.
    pub fn report(&self) -> Result<(), String> {
        let start = Instant::now();
        let (name, seed) = (self.kind.name(), self.seed);
        let tally = self.all().map_err(|found| told(name, seed, &found))?;
        let (count, seconds) = (self.to - self.from, start.elapsed().as_secs_f64());
        let rate = count as f64 / seconds;
        println!("{name}, seed {seed}: {count} cases, none differs, {seconds:.1} s, {rate:.0} a second");
        print!("{}", tally.print());
        let must = self.kind.must_see().into_iter();
        let mut lacking: Vec<String> = must.flat_map(|(call, answers)| tally.lacking(call, &answers)).collect();
        if self.kind == Kind::Finish {
            lacking.extend(tally.lacking_events(&[turned::SEEN[0], turned::SEEN[1], turned::SEEN[3], turned::SEEN[4]]));
        }
        if self.kind == Kind::Reasons {
            lacking.extend(tally.lacking_events(&reasons::TOLD));
        }
        if self.kind == Kind::Kept {
            lacking.extend(tally.lacking_events(&kept::EVENTS));
        }
        if self.kind == Kind::Laid {
            lacking.extend(tally.lacking_events(&pair::MET));
            lacking.extend(tally.lacking_events(&laid::EVENTS));
        }
        if self.kind == Kind::Drawn {
            lacking.extend(tally.lacking_events(&drawn::SEEN));
        }
        if self.kind == Kind::Contains {
            lacking.extend(tally.lacking_events(&contains::SEEN));
        }
        if self.kind == Kind::Mended {
            lacking.extend(tally.lacking_events(&mended::SEEN));
        }
        if self.kind == Kind::Windows {
            lacking.extend(tally.lacking_events(&oracle::boxes::WINDOWS));
            lacking.extend(tally.lacking_events(&windows::SEEN));
        }
        lacking.extend(self.kind.must_test().iter().flat_map(|call| tally.lacking_kept(call)));
        if count >= 10_000 && !lacking.is_empty() {
            return Err(format!("{name}: among {count} cases these never came up: {}", lacking.join(", ")));
        }
        Ok(())
    }
}

/// A difference as text: the case, what differs, the job's bytes, the calls.
fn told(name: &str, seed: u64, found: &Difference) -> String {
    let hex: String = found.job.iter().map(|byte| format!("{byte:02x}")).collect();
    let calls = found.trace.join("\n  ");
    format!(
        "{name} case {} of seed {seed} differs: {}\njob of {} bytes: {hex}\ncalls:\n  {calls}",
        found.index,
        found.what,
        found.job.len()
    )
}
