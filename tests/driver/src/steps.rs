// Kind `steps`: lists of steps through outline_open, outline_step and outline_write against the oracle's stepping model.
use crate::boxes;
use crate::finish::tray_length;
use crate::model::{same_counts, same_forest, same_record, stray};
use crate::open::open_job;
use crate::plain;
use crate::room::{expect, Room, Same, TRAY};
use crate::tidied::Passes;
use crate::words::*;
use oracle::answer::Answer;
use oracle::model::forest::Forest;
use oracle::model::lone::{Act, Due};
use oracle::oracle::forest;
use oracle::rng::Rng;

/// Rings with more points than this in all are compared whole only now and then.
const FEW: usize = 64;
/// Longer lists are cut off, but for one job in eight.
const LONG: usize = 400;

/// Opens the room's job, steps its rings in some order, writing out between, and writes out at the end.
pub fn case(room: &mut Room, rng: &mut Rng) -> Same {
    let words = if rng.one_in(50) { rng.below(WORDS) } else { WORDS + rng.below(2) * rng.below(40) };
    let fill = rng.bits() as u32;
    let Some(opened) = open_job(room, words, fill)? else {
        return Ok(());
    };
    let mut model = forest(&opened);
    same_forest(room.work.get(), &model)?;
    room.passes = Passes::opened(room.work.get())?;
    let whole = rng.one_in(8) || model.points <= FEW;
    let most = if whole { 8 * LONG } else { LONG / 4 };
    let rising = steps(room, rng, &mut model, most)?;
    same_forest(room.work.get(), &model)?;
    expect(plain::tests(room.work.get()).is_ok(), || "the work space fails the tests".into())?;
    room.freed(fill)?;
    let done = (0..model.records.len()).all(|r| model.due(r) == Due::Done);
    room.tally.event(if done { "lists until all are done" } else { "lists that end before" }, 1);
    if done && rising {
        as_in_one_call(room, fill)?;
    }
    write_out(room, rng, &model, WORDS, TRAY)?;
    write_out(room, rng, &model, WORDS, 0)
}

/// The record of the next step, and how often it is stepped in a row.
fn pick(rng: &mut Rng, busy: &[usize], order: usize) -> (usize, usize) {
    match order {
        0 => (0, 1),
        1 => (busy.len() - 1, 1),
        2 => (rng.below(busy.len()), 1 + rng.below(40)),
        _ => (rng.below(busy.len()), 1 + rng.below(3)),
    }
}

/// Steps until every ring is done or refuses, or so many were made; whether the rings were stepped in rising order.
fn steps(room: &mut Room, rng: &mut Rng, model: &mut Forest, most: usize) -> Result<bool, String> {
    let mut busy: Vec<usize> = (0..model.records.len()).collect();
    let order = rng.below(5);
    let mut made = 0;
    while !busy.is_empty() && made < most {
        let (at, times) = pick(rng, &busy, order);
        let (record, held) = (busy[at], model.records.len());
        for _ in 0..times {
            made += 1;
            aside(room, rng, model, order == 0)?;
            if step(room, rng, model, record as u32)? != 0 {
                busy.remove(at);
                break;
            }
        }
        busy.extend(held..model.records.len());
    }
    Ok(order == 0)
}

/// Finishing in one call is the list that steps the rings in rising order: where the same was found, it leaves the same words.
fn as_in_one_call(room: &mut Room, fill: u32) -> Same {
    let mut work = vec![fill; WORDS];
    let answer = room.calls.finish(&room.paper[room.at..], &mut work, room.tray.lend(TRAY, 0));
    expect(answer == 0 && work[..KEPT] == *room.front(), || "finishing in one call leaves other words".into())?;
    room.tally.event("lists in rising order, the words as after finishing in one call", 1);
    Ok(())
}

/// Now and then another call: a step on a number of any size, one in a short work space, a writing out.
fn aside(room: &mut Room, rng: &mut Rng, model: &mut Forest, rising: bool) -> Same {
    let held = model.records.len() as u32;
    match rng.below(48) {
        0 => {
            let far = rng.bits() as u32;
            let number = rng.pick(&[held, held + 1, 511, 512, 513, 65_535, 65_536, u32::MAX, 1 << 31, far]);
            step(room, rng, model, number).map(|_| ())
        }
        1 if !rising => {
            let any = rng.below(held.max(1) as usize) as u32;
            step(room, rng, model, any).map(|_| ())
        }
        2 => {
            let words = rng.pick(&[0, 1, WORDS / 2, WORDS - 1]);
            short_step(room, words, rng.below(held as usize + 1) as u32)
        }
        3 => {
            let words = if rng.one_in(4) { rng.below(WORDS) } else { room.work.get().len() };
            let need = rng.below(200);
            let length = tray_length(rng, need);
            write_out(room, rng, model, words, length)
        }
        _ => Ok(()),
    }
}

/// One step on a record number, against the model; the answer.
fn step(room: &mut Room, rng: &mut Rng, model: &mut Forest, number: u32) -> Result<u32, String> {
    let before = room.front().to_vec();
    let answer = room.calls.step(room.work.get_mut(), number);
    room.trace.push(format!("step {number}: {answer}"));
    room.tally.answer("step", answer);
    let act = model.step(number as usize);
    let theirs = act.err().map_or(0, u32::from);
    expect(answer == theirs, || format!("the step answers {answer}, the model {theirs}"))?;
    room.margins()?;
    let w = &room.work.get()[..KEPT];
    let Ok(act) = act else {
        expect(w == before, || "a refused step leaves another word".into())?;
        return Ok(answer);
    };
    let record = number as usize;
    room.passes.stepped(&before, w, record, &mut room.tally)?;
    if let Some(at) = stray(&before, w, record) {
        return Err(format!("a step on record {record} writes word {at}"));
    }
    boxes::zeros(w)?;
    if records(w) > records(&before) {
        new_offcut(w, record)?;
    }
    if points(w) <= FEW || rng.one_in(16) {
        same_forest(w, model)?;
    } else {
        same_counts(w, model)?;
        same_record(w, model, record)?;
        same_record(w, model, model.records.len() - 1)?;
    }
    room.tally.event(act_name(act), 1);
    Ok(answer)
}

/// The offcut that a cut has just made: closed, owned as its ring is, at its start, its points naming it.
fn new_offcut(w: &[u32], record: usize) -> Same {
    let r = records(w) - 1;
    let ring = ring(w, r).ok_or("an offcut's ring that does not close")?;
    let head = [w[FLAGS + r], w[OWNER + r], w[MARK + r], w[PRESENT + r], w[CUT + r]];
    let theirs = [0, w[OWNER + record], VALIDITY, w[FIRST + r], record as u32];
    expect(head == theirs, || format!("the offcut {r} has {head:?}, not {theirs:?}"))?;
    expect(ring.len() == 3 && ring.iter().all(|p| w[REC + p] == r as u32), || format!("the points of the offcut {r}"))
}

/// What a step did, for the tally.
pub fn act_name(act: Act) -> &'static str {
    match act {
        Act::Begin => "act: a test finds nothing",
        Act::Discard => "act: discard",
        Act::Move => "act: move on",
        Act::Drop => "act: drop a point",
        Act::DropDiscard => "act: drop and discard",
        Act::Settle => "act: done at the triangle test",
        Act::Double => "act: double",
        Act::Cut { offcut: true, .. } => "act: cut with an offcut",
        Act::Cut { offcut: false, .. } => "act: cut without",
    }
}

/// A step in a work space that is too short.
fn short_step(room: &mut Room, words: usize, number: u32) -> Same {
    let before = room.work.get().to_vec();
    let answer = room.calls.step(&mut room.work.get_mut()[..words], number);
    room.trace.push(format!("step {number} with {words} words: {answer}"));
    room.tally.answer("step, short work space", answer);
    expect(answer == 10, || format!("a step in {words} words answers {answer}, not 10"))?;
    expect(room.work.get() == before, || "a refused step leaves another word".into())
}

/// Writing out against the model: 10 for the length, 12 while a closed ring isn't done, 11, else every byte.
pub fn write_out(room: &mut Room, rng: &mut Rng, model: &Forest, words: usize, tray: usize) -> Same {
    let before = room.front().to_vec();
    let fill = 1 + rng.below(255) as u8;
    room.tray.lend(tray, fill);
    let answer = room.calls.write(&room.work.get()[..words], room.tray.get_mut());
    room.trace.push(format!("write with {words} words and a tray of {tray} bytes: {answer}"));
    room.tally.answer("write", answer);
    let due = (0..model.records.len()).any(|r| model.due(r) != Due::Done);
    let (closed, open) = model.paths();
    let bytes = if due { Vec::new() } else { Answer::Paths { closed, open, reversed: model.reverse }.tray() };
    let number = match () {
        _ if words < WORDS => 10,
        _ if due => 12,
        _ if bytes.len() > tray => 11,
        _ => 0,
    };
    expect(answer == number, || format!("writing out answers {answer}, the model {number}"))?;
    room.wrote(&before, number, fill, &bytes)
}
