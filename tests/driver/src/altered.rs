// Kind `altered`: a work space after opening and some steps, some words altered; then steps and writing out against the plain
// reading of the tests, then 12, then 10; where a step is carried out, against the model loaded from the words.
use crate::alter::{alter, kept, made_up, names_beside, progress};
use crate::calls::{Calls, Fault};
use crate::finish::tray_length;
use crate::model::{load, same_forest, stray};
use crate::plain;
use crate::room::{expect, Room, Same};
use crate::steps::act_name;
use crate::words::*;
use oracle::answer::Answer;
use oracle::gen;
use oracle::model::forest::{Entry, Forest};
use oracle::model::lone::{Act, Due};
use oracle::rng::Rng;

/// So many cases in a row start from one work space.
const FROM_ONE: u64 = 8;

/// A work space that a job and some steps left.
#[derive(Default)]
pub struct Base {
    key: Option<(u64, u64)>,
    job: Vec<u8>,
    words: Vec<u32>,
    trace: Vec<String>,
}

/// Takes the first job of a row that is accepted, and steps its rings some way.
fn base(room: &mut Room, seed: u64, row: u64) {
    if room.base.key == Some((seed, row)) {
        return;
    }
    let mut rng = Rng::of(seed ^ 0x00ba_5e00, row);
    let calls = Calls(Fault::None);
    let mut words = vec![0; WORDS];
    let mut index = 64 * row;
    let job = loop {
        let job = gen::job(seed, index);
        if calls.open(&job, &mut words) == 0 {
            break job;
        }
        index += 1;
    };
    let mut trace = vec!["open".to_string()];
    for _ in 0..rng.below(4) * rng.below(60) {
        let record = rng.below(records(&words).max(1)) as u32;
        calls.step(&mut words, record);
        trace.push(format!("step {record}"));
    }
    room.base = Base { key: Some((seed, row)), job, words, trace };
}

pub fn case(room: &mut Room, seed: u64, index: u64, rng: &mut Rng) -> Same {
    base(room, seed, index / FROM_ONE);
    let job = std::mem::take(&mut room.base.job);
    room.start(&job, 0);
    room.base.job = job;
    room.trace.extend(room.base.trace.iter().cloned());
    let past = rng.below(2) * rng.below(20);
    let fill = rng.bits() as u32;
    room.work.lend(WORDS + past, fill)[..KEPT].copy_from_slice(&room.base.words[..KEPT]);
    // One case in three has rings elsewhere in their stepping only, so that steps are carried out there.
    let elsewhere = rng.one_in(3);
    let change = if elsewhere { progress } else { alter };
    if rng.one_in(8) {
        let said = made_up(&mut room.work.get_mut()[..BLOCK], rng);
        room.trace.push(said);
    }
    for _ in 0..1 + rng.below(3) {
        let said = change(&mut room.work.get_mut()[..KEPT], rng);
        room.trace.push(said);
    }
    // Beside other faults, so that the order of the tests shows.
    if !elsewhere && rng.one_in(4) {
        let said = kept(&mut room.work.get_mut()[..KEPT], rng);
        room.trace.push(said);
    }
    if !elsewhere && rng.one_in(6) {
        let said = names_beside(&mut room.work.get_mut()[..KEPT], rng);
        room.trace.push(said);
    }
    if rng.one_in(30) {
        return short(room, rng);
    }
    for _ in 0..1 + rng.below(4) {
        let number = which(room, rng);
        step(room, number)?;
        if rng.one_in(2) {
            write(room, rng)?;
        }
    }
    room.behind(fill)
}

/// A record number: mostly one with a ring that isn't done.
fn which(room: &Room, rng: &mut Rng) -> u32 {
    let w = room.work.get();
    let held = records(w).min(MOST_RECORDS);
    let live: Vec<usize> = (0..held).filter(|&r| is_live(w, r)).collect();
    match rng.below(8) {
        0 => rng.below(held + 2) as u32,
        1 => rng.pick(&[511, 512, 513, 65_535, u32::MAX]),
        _ if live.is_empty() => rng.below(held.max(1)) as u32,
        _ => rng.pick(&live) as u32,
    }
}

/// What a step comes to on words that passed the tests: the model's answer, and the model after it.
fn model_step(w: &[u32], number: u32) -> (Result<Act, u8>, Forest) {
    let mut model = load(w);
    (model.step(number as usize), model)
}

pub fn step(room: &mut Room, number: u32) -> Same {
    let before = room.front().to_vec();
    let answer = room.calls.step(room.work.get_mut(), number);
    room.trace.push(format!("step {number}: {answer}"));
    room.tally.tested("step", &before, answer);
    let (act, model) = match plain::tested(&before) {
        Err(refusal) => (Err(refusal), None),
        Ok(()) => {
            let (act, model) = model_step(&before, number);
            (act, Some(model))
        }
    };
    let theirs = act.err().map_or(0, u32::from);
    expect(answer == theirs, || format!("the step answers {answer}, the plain reading {theirs}"))?;
    room.margins()?;
    let w = &room.work.get()[..KEPT];
    let (Ok(act), Some(mut model)) = (act, model) else {
        return expect(w == before, || "a refused step leaves another word".into());
    };
    room.tally.event(act_name(act), 1);
    if let Some(at) = stray(&before, w, number as usize) {
        return Err(format!("a step on record {number} writes word {at}"));
    }
    expect(plain::tested(w).is_ok(), || "after a step the work space fails the tests".into())?;
    meet_new_point(&mut model, &before, w, number as usize);
    same_forest(w, &model)
}

/// A start is only compared, so one that named no point names a new one as soon as that is made. The model has values, not numbers,
/// and is told.
fn meet_new_point(model: &mut Forest, before: &[u32], w: &[u32], r: usize) {
    let start = w[START + r] as usize;
    let ring = ring(w, r).unwrap_or_default();
    let stale = before[START + r] as usize == start && start >= points(before);
    let place = ring.iter().position(|&p| stale && p == start);
    if let (Some(place), Entry::Closed { lone, .. }) = (place, &mut model.records[r]) {
        let place = (place + lone.first) % lone.circle.len();
        match &mut lone.due {
            Due::Split { start, .. } if start.is_none() => *start = Some(place),
            _ => {}
        }
    }
}

pub fn write(room: &mut Room, rng: &mut Rng) -> Same {
    let before = room.front().to_vec();
    let tests = plain::tested(&before);
    let live = tests.is_ok() && (0..records(&before)).any(|r| is_live(&before, r));
    let bytes = if tests.is_ok() && !live {
        let forest = load(&before);
        let (closed, open) = forest.paths();
        Answer::Paths { closed, open, reversed: forest.reverse }.tray()
    } else {
        Vec::new()
    };
    let (length, fill) = (tray_length(rng, bytes.len()), 1 + rng.below(255) as u8);
    room.tray.lend(length, fill);
    let answer = room.calls.write(room.work.get(), room.tray.get_mut());
    room.trace.push(format!("write with a tray of {length} bytes: {answer}"));
    room.tally.tested("write", &before, answer);
    let number = match tests {
        Err(refusal) => refusal as u32,
        Ok(()) if live => 12,
        Ok(()) if bytes.len() > length => 11,
        Ok(()) => 0,
    };
    expect(answer == number, || format!("writing out answers {answer}, the plain reading {number}"))?;
    room.wrote(&before, number, fill, &bytes)
}

/// Both calls in a work space that is too short: 10 before every test.
fn short(room: &mut Room, rng: &mut Rng) -> Same {
    let before = room.work.get().to_vec();
    let words = rng.pick(&[0, 2, 3, WORDS / 3, WORDS - 1]);
    room.tray.lend(64, 7);
    let stepped = room.calls.step(&mut room.work.get_mut()[..words], rng.below(4) as u32);
    let written = room.calls.write(&room.work.get()[..words], room.tray.get_mut());
    room.trace.push(format!("step and write with {words} words: {stepped}, {written}"));
    room.tally.answer("step, short work space", stepped);
    room.tally.answer("write, short work space", written);
    expect((stepped, written) == (10, 10), || format!("in {words} words: {stepped} and {written}, not 10"))?;
    expect(room.work.get() == before, || "a refused call leaves another word".into())?;
    expect(room.tray.get().iter().all(|b| *b == 7), || "a refused call leaves another byte".into())
}
