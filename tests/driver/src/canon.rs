// Kind `canon`: outline_rewrite against the oracle's second writing of the rule, on generated and damaged jobs, on other exports of
// them, on what was written and on drawings that differ in one thing: the answer, every byte, every word; and both finished alike.
use crate::finish::{tray_length, work_length};
use crate::room::{all_zero, expect, Room, Same};
use crate::words::WORDS;
use crate::{damage, large};
use oracle::canon::{accepted, rewrite, rewrite_within};
use oracle::copies::{self, Change, CHANGES};
use oracle::gen;
use oracle::job::Job;
use oracle::rng::Rng;

/// A job: mostly generated, one in 32 large, one in 8 damaged.
pub fn bytes(seed: u64, index: u64, rng: &mut Rng) -> Vec<u8> {
    match rng.below(32) {
        0 => large::job(rng),
        1..=4 => damage::bytes(seed, index, rng),
        _ => gen::job(seed, index),
    }
}

/// One call on the room's job, with lent slices of any length and content.
fn one_call(room: &mut Room, rng: &mut Rng) -> Same {
    let need = rewrite(room.job()).map_or(room.job().len(), |written| written.len());
    let (words, length) = (work_length(rng), tray_length(rng, need));
    let expected = if words < WORDS { Err(10) } else { rewrite_within(room.job(), length) };
    room.work.lend(words, 1 + rng.below(70_000) as u32);
    room.tray.lend(length, 1 + rng.below(255) as u8);
    let (answer, count) = room.calls.rewrite(&room.paper[room.at..], room.work.get_mut(), room.tray.get_mut());
    room.trace.push(format!("rewrite with {words} words and a tray of {length} bytes: {answer}, {count} bytes"));
    room.tally.answer("rewrite", answer);
    let number = expected.as_ref().err().map_or(0, |number| *number as u32);
    expect(answer == number, || format!("writing the job answers {answer}, the oracle {number}"))?;
    room.margins()?;
    expect(all_zero(room.work.get()), || "writing the job leaves a word".into())?;
    let bytes = expected.unwrap_or_default();
    expect(count == bytes.len(), || format!("the written job has {count} bytes, the oracle's {}", bytes.len()))?;
    let (written, rest) = room.tray.get().split_at(bytes.len());
    expect(written == bytes, || "the written job's bytes".into())?;
    expect(all_zero(rest), || "a byte past the written job".into())
}

/// What finishing answers, and the tray that it leaves.
fn finished(room: &mut Room, job: &[u8], length: usize) -> (u32, Vec<u8>) {
    room.work.lend(WORDS, u32::MAX);
    room.tray.lend(length, 0xa5);
    let answer = room.calls.finish(job, room.work.get_mut(), room.tray.get_mut());
    room.tally.answer("finish", answer);
    (answer, room.tray.get().to_vec())
}

/// The room's job, and if it is accepted its copies.
pub fn case(room: &mut Room, rng: &mut Rng) -> Same {
    one_call(room, rng)?;
    let Ok(job) = accepted(room.job()) else { return Ok(()) };
    let written = rewrite(room.job()).expect("an accepted job is written");
    let length = tray_length(rng, 200);
    let (before, after) = (finished(room, &job.bytes(), length), finished(room, &written, length));
    expect(before == after, || format!("the written job, with a tray of {length} bytes, is finished otherwise"))?;
    room.start(&written, 1);
    one_call(room, rng)?;
    copied(room, rng, &job, &written)?;
    deeper(room, rng, &job, &written)?;
    changed(room, rng, &job, &written)
}

/// Another depth of one point, which is written otherwise.
fn deeper(room: &mut Room, rng: &mut Rng, job: &Job, written: &[u8]) -> Same {
    let Some(other) = copies::changed(rng, job, Change::Depth) else { return Ok(()) };
    let other = copies::again(rng, &other).bytes();
    expect(rewrite(&other).is_ok_and(|bytes| bytes != written), || "the oracle writes another depth alike".into())?;
    room.start(&other, 5);
    room.tally.event("other depths", 1);
    one_call(room, rng)
}

/// Another export of the same drawing, which is written alike; then one with records more that points may name.
fn copied(room: &mut Room, rng: &mut Rng, job: &Job, written: &[u8]) -> Same {
    let copy = copies::again(rng, job).bytes();
    expect(rewrite(&copy).as_deref() == Ok(written), || "the oracle writes another export otherwise".into())?;
    room.start(&copy, 2);
    one_call(room, rng)?;
    room.tally.event("other exports", 1);
    let more = copies::with_ringless(rng, job);
    room.start(&copies::again(rng, &more).bytes(), 3);
    one_call(room, rng)
}

/// One thing changed; where the job is then refused, by both.
fn changed(room: &mut Room, rng: &mut Rng, job: &Job, written: &[u8]) -> Same {
    let (_, change) = rng.pick(&CHANGES);
    let Some(other) = copies::changed(rng, job, change) else { return Ok(()) };
    room.start(&other.bytes(), 4);
    if rewrite(room.job()).is_ok_and(|bytes| bytes != written) {
        room.tally.event("other drawings", 1);
    }
    one_call(room, rng)
}
