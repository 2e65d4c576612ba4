// Kind `drawn`: drawings of several kinds, swept by the Rust; the state that the sweep leaves at one of three cuts is a job, and finishing it must give what the whole `execute` gives.
use crate::finish::{self, Expected};
use crate::room::{expect, Room, Same};
use oracle::answer::Answer;
use oracle::core::{Path64, Paths64};
use oracle::drawn::cut::{self, Cut, CUTS};
use oracle::drawn::{self, Drawing};
use oracle::job::{Job, JOINS, POINTS, RECORDS, REVERSE, SEGMENTS};
use oracle::read::CROWDED;
use oracle::real::{self, FULL};
use oracle::rng::Rng;

/// What a long run must have seen beside the answers.
pub const SEEN: [&str; 11] = [
    "drawn at the limits",
    "drawn blocks",
    "drawn degenerate rings",
    "drawn letters",
    "drawn lines",
    "drawn trays",
    "cut before the last segments",
    "cut before the joins",
    "cut after the joins",
    "jobs with segments",
    "jobs with joins",
];

/// A drawing and a cut; the job that the sweep leaves there, if it does not give up.
pub fn case(room: &mut Room, rng: &mut Rng) -> Same {
    let (kind, drawing) = drawn::drawing(rng);
    let (at, cut) = (rng.below(8), rng.pick(&CUTS));
    let Some(job) = cut::job(&drawing, cut) else {
        room.tally.event("sweeps that give up", 1);
        return Ok(());
    };
    room.start(&job.bytes(), at);
    room.trace.push(format!("{} of {kind}: {drawing}", told(cut)));
    for (name, seen) in [
        (kind, true),
        (told(cut), true),
        ("jobs with segments", !job.segments.is_empty()),
        ("jobs with joins", !job.joins.is_empty()),
    ] {
        room.tally.event(name, seen.into());
    }
    let expected = finish::expected(room);
    executed(&drawing, &job, &expected)?;
    finish::against(room, rng, &expected)
}

fn told(cut: Cut) -> &'static str {
    match cut {
        Cut::Segments => "cut before the last segments",
        Cut::Joins => "cut before the joins",
        Cut::Rings => "cut after the joins",
    }
}

/// What is expected of the job is what the Rust gives for the drawing in one call; or the job is too large, by its counts or for what finishing makes. A sweep leaves nothing else that is refused.
fn executed(drawing: &Drawing, job: &Job, expected: &Expected) -> Same {
    let past = job.points.len() > POINTS
        || job.records.len() > RECORDS
        || job.segments.len() > SEGMENTS
        || job.joins.len() > JOINS;
    match expected {
        Expected::Refused(CROWDED) => expect(past, || "a job within the limits is too many".into()),
        Expected::Refused(FULL) => expect(!past, || "a job past the limits is read".into()),
        Expected::Refused(number) => Err(format!("what a sweep left is refused with {number}")),
        Expected::Finished { answer, .. } => {
            expect(!past, || "a job past the limits is accepted".into())?;
            let (closed, open) = drawing.executed().ok_or("the sweep gives up in one call")?;
            let reversed = drawing.settings & REVERSE != 0;
            let whole = Answer::Paths { closed: values(&closed), open: values(&open), reversed };
            expect(*answer == whole, || "the stage on the exported job and the whole `execute`".into())
        }
    }
}

fn values(paths: &Paths64) -> Vec<Vec<real::Pt>> {
    let path = |path: &Path64| path.iter().map(real::value).collect();
    paths.iter().map(path).collect()
}
