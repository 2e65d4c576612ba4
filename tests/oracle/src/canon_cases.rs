// Ask 3 tried on jobs: cases written by hand, stored ones, and all that it says of generated jobs and their copies.
use crate::canon::{accepted, drawing, rewrite, rewritten};
use crate::cases::{self, Case};
use crate::copies::{self, CHANGES};
use crate::job::Job;
use crate::oracle::Oracle;
use crate::output;
use crate::rng::Rng;
use crate::runs::{self, Compares};
use crate::stored;
use crate::text::{hex, parse, show};
use std::collections::BTreeMap;

/// What is written of a job, or its refusal, as text.
fn written(bytes: &[u8]) -> String {
    rewrite(bytes).map_or_else(|number| format!("refused {number}\n"), |job| show(&job))
}

/// Cases written by hand: a job as text, and as expectation the job as it is written, in text too, or `refused N`.
pub fn expect(path: &str) -> Result<(), String> {
    cases::hold(path, |case| {
        let refused = case.expected.starts_with("refused ");
        let expected = if refused { case.expected.clone() } else { show(&parse(&case.expected)?) };
        Ok((written(&case.job), expected))
    })
}

/// Of the generated jobs that have stored answers those of at most so many bytes are exported again and stored as well.
const SHORT: usize = 370;

/// The stored answers of a folder: its cases written by hand, then the short ones of its seed list, exported again.
pub fn make(folder: &str) -> Result<(), String> {
    let mut all = cases::load(&format!("{folder}/canon.txt"))?;
    for (number, case) in stored::seeded(&format!("{folder}/seeds.txt"))?.into_iter().enumerate() {
        let mut rng = Rng::of(0, number as u64);
        let exported = |job| copies::with_ringless(&mut rng, &job);
        let job = accepted(&case.job).map(exported).map(|job| copies::again(&mut rng, &job).bytes());
        let case = Case { job: job.unwrap_or(case.job), ..case };
        if case.job.len() <= SHORT {
            all.push(case);
        }
    }
    for case in all {
        let answer = rewrite(&case.job).map_or_else(|n| format!("refused {n}"), |job| format!("written {}", hex(&job)));
        output(format!("case {}\njob {}\n{answer}\n\n", case.name, hex(&case.job)).as_bytes())?;
    }
    Ok(())
}

#[derive(Default)]
struct Holds {
    oracle: Oracle,
    counts: BTreeMap<String, u64>,
}

fn expect_that(holds: bool, what: &str) -> Result<(), String> {
    if holds {
        Ok(())
    } else {
        Err(what.to_string())
    }
}

impl Holds {
    fn count(&mut self, what: &str) {
        *self.counts.entry(what.to_string()).or_default() += 1;
    }

    /// What is written is accepted, written again is the same, has the same drawing, and is finished alike.
    fn written(&mut self, job: &Job) -> Result<(), String> {
        let bytes = rewritten(job).bytes();
        let again = accepted(&bytes).map_err(|number| format!("what is written is refused with {number}"))?;
        expect_that(bytes.len() == job.bytes().len(), "what is written has another length")?;
        expect_that(rewritten(&again).bytes() == bytes, "written again it is other bytes")?;
        expect_that(drawing(&again) == drawing(job), "what is written is another drawing")?;
        let (theirs, ours) = (self.oracle.answer(&job.bytes()), self.oracle.answer(&bytes));
        expect_that(theirs == ours && theirs.tray() == ours.tray(), "what is written is finished otherwise")?;
        self.count(match ours.number() {
            0 => "finished alike",
            9 => "refused alike: 9",
            _ => "refused alike: 10",
        });
        Ok(())
    }

    /// Another export of the same drawing is written alike.
    fn copied(&mut self, job: &Job, rng: &mut Rng) -> Result<(), String> {
        let copy = copies::again(rng, job);
        let copy = accepted(&copy.bytes()).map_err(|number| format!("a copy is refused with {number}"))?;
        expect_that(drawing(&copy) == drawing(job), "a copy is another drawing")?;
        expect_that(rewritten(&copy).bytes() == rewritten(job).bytes(), "a copy is written otherwise")?;
        let elsewhere = copy.points.iter().any(|point| copy.records[point.record as usize].first == crate::job::NONE);
        self.count(if elsewhere { "copies that name ringless records" } else { "other copies" });
        Ok(())
    }

    /// One thing changed, and exported again: written alike exactly when the drawing is the same all the same.
    fn changed(&mut self, job: &Job, rng: &mut Rng) -> Result<(), String> {
        for (name, change) in CHANGES {
            let Some(other) = copies::changed(rng, job, change) else { continue };
            let Ok(other) = accepted(&other.bytes()) else { continue };
            let other = copies::again(rng, &other);
            let (same, alike) = (rewritten(&other).bytes() == rewritten(job).bytes(), drawing(&other) == drawing(job));
            expect_that(same == alike, &format!("{name}: bytes and drawing disagree"))?;
            expect_that(!same || change.may_look_alike(), &format!("{name}: written alike"))?;
            self.count(&if same { format!("{name}, which looks alike") } else { format!("{name}: other bytes") });
        }
        Ok(())
    }
}

impl Compares for Holds {
    fn compare(&mut self, seed: u64, index: u64, bytes: &[u8]) -> Result<(), String> {
        let mut rng = Rng::of(!seed, index);
        let job = match accepted(bytes) {
            Err(number) => {
                self.count(&format!("refused {number}"));
                return Ok(());
            }
            Ok(job) => copies::with_ringless(&mut rng, &job),
        };
        self.written(&job)?;
        self.copied(&job, &mut rng)?;
        self.changed(&job, &mut rng)
    }
}

/// Ask 3 on the jobs of one seed; each change must come up, and each answer.
pub fn compare(seed: u64, count: u64, threads: u64) -> Result<(), String> {
    let (parts, head) = runs::all::<Holds>(seed, count, threads)?;
    let mut counts: BTreeMap<String, u64> = BTreeMap::new();
    for (name, times) in parts.into_iter().flat_map(|part| part.counts) {
        *counts.entry(name).or_default() += times;
    }
    let lines: String = counts.iter().map(|(name, times)| format!("{times:>10}  {name}\n")).collect();
    output((head + &lines).as_bytes())?;
    let changes = CHANGES.iter().map(|(name, _)| format!("{name}: other bytes"));
    let answers = (1..=8)
        .map(|number| format!("refused {number}"))
        .chain(["refused alike: 9", "refused alike: 10"].map(String::from));
    let never: Vec<String> = changes.chain(answers).filter(|name| !counts.contains_key(name)).collect();
    if never.is_empty() || count < 10_000 {
        Ok(())
    } else {
        Err(format!("never among {count} jobs: {}", never.join("; ")))
    }
}
