// Kind `reasons`: outline_reason after opening, steps in any order and finishing in one call, against what happened in the oracle's stepping model; on altered
// work spaces, against a plain reading of document 02, Ask 5. The work space is only read.
use crate::alter::{alter, kept, made_up, names_beside};
use crate::finish::read_tray;
use crate::open::open_job;
use crate::plain;
use crate::room::{expect, Room, Same, TRAY};
use crate::words::*;
use oracle::answer::Answer;
use oracle::model::path::{build, Built};
use oracle::oracle::open;
use oracle::reasons::{in_lists, History, Reason};
use oracle::rng::Rng;

/// Longer lists of steps are cut off.
const LONG: usize = 600;
/// Of more records than this only some are asked for.
const FEW: usize = 24;

pub fn case(room: &mut Room, rng: &mut Rng) -> Same {
    match rng.below(4) {
        0 => in_one_call(room, rng),
        1 => by_steps(room, rng),
        _ => altered(room, rng),
    }
}

/// The answer: in its low half 0 or the refusal's number; in its high half the reason, 256 times the tray's tag of a written path's list, and 65,536 times the taker or the place.
fn packed(told: Result<Reason, u32>) -> u64 {
    let reason = match told {
        Err(number) => return number as u64,
        Ok(reason) => reason,
    };
    let (list, number) = match reason {
        Reason::Joined { taker } => (0, taker),
        Reason::Written { open, place } => (6 + open as u64, place),
        _ => (0, 0),
    };
    (reason.number() as u64 + 256 * list + 65_536 * number as u64) << 32
}

/// What may be told, for the tally; a long run must have met each.
pub const TOLD: [&str; 9] = [
    "told 1: no ring in the job",
    "told 2: joined into another",
    "told 3: too small at the validity test",
    "told 4: fell invalid while points were removed",
    "told 5: area under 2 at a split",
    "told 6: path too short",
    "told 7: path too small",
    "told 8: written, closed",
    "told 8: written, open",
];

fn event(reason: Reason) -> &'static str {
    let open = matches!(reason, Reason::Written { open: true, .. });
    TOLD[reason.number() as usize - 1 + open as usize]
}

/// Asks for one record's reason, in the first so many words.
pub fn ask_in(room: &mut Room, words: usize, record: u32, told: Result<Reason, u32>) -> Same {
    let before = room.front().to_vec();
    let answer = room.calls.reason(&room.work.get()[..words], record);
    room.trace.push(format!("reason of {record} with {words} words: {}, {:#x}", answer as u32, answer >> 32));
    room.tally.tested("reason", &before, answer as u32);
    if let Ok(reason) = told {
        room.tally.event(event(reason), 1);
    }
    let theirs = packed(told);
    expect(answer == theirs, || {
        format!("the reason of record {record} is {answer:#x}, by the rule {theirs:#x}: {told:?}")
    })?;
    room.margins()?;
    expect(room.front() == before, || "asking for a reason changes a word".into())
}

pub fn ask(room: &mut Room, record: u32, told: Result<Reason, u32>) -> Same {
    let words = room.work.get().len();
    ask_in(room, words, record, told)
}

/// A number that names no record of so many.
fn unknown(rng: &mut Rng, held: usize) -> u32 {
    let held = held as u32;
    rng.pick(&[held, held + 1, 512, 513, 65_535, 65_536, held + (1 << 16), 1 << 31, u32::MAX])
}

/// Every record's reason, or 12 while a closed ring isn't done; an unknown record; a short work space.
fn ask_all(room: &mut Room, rng: &mut Rng, history: &History) -> Same {
    let held = history.forest.records.len();
    let reasons = if history.done() { Some(history.reasons()?) } else { None };
    let most = if reasons.is_some() { FEW } else { 2 };
    for record in 0..held {
        if held <= most || rng.below(held) < most {
            ask(room, record as u32, reasons.as_ref().map_or(Err(12), |reasons| Ok(reasons[record])))?;
        }
    }
    ask(room, unknown(rng, held), Err(12))?;
    let short = rng.pick(&[0, 1, 3, CUT, REASON, TAKER, BLOCK, WORDS - 1]);
    ask_in(room, short, rng.below(held + 1) as u32, Err(10))
}

/// What the work space keeps of each record without a ring is what ended it.
pub fn same_kept(w: &[u32], history: &History) -> Same {
    for r in (0..records(w)).filter(|&r| w[FIRST + r] == NONE) {
        let kept = history.kept(r).ok_or_else(|| format!("record {r} has lost its ring, but nothing ended it"))?;
        let (reason, taker) = (w[REASON + r], w[TAKER + r] as usize);
        expect(reason == kept.number() as u32, || format!("record {r} keeps the reason {reason}: {kept:?}"))?;
        if let Reason::Joined { taker: theirs } = kept {
            expect(taker == theirs, || format!("record {r} keeps the taker {taker}, not {theirs}"))?;
        }
    }
    Ok(())
}

/// Finished in one call: the reasons are those of the steps in rising order, and the tray has each path at the place told.
fn in_one_call(room: &mut Room, rng: &mut Rng) -> Same {
    let fill = rng.bits() as u32;
    room.work.lend(WORDS + rng.below(2) * rng.below(40), fill);
    room.tray.lend(TRAY, 0);
    let answer = room.calls.finish(&room.paper[room.at..], room.work.get_mut(), room.tray.get_mut());
    room.trace.push(format!("finish: {answer}"));
    if answer != 0 {
        // Every word is 0: a good work space without a record.
        ask(room, rng.below(2) as u32, Err(12))?;
        return room.freed(0);
    }
    let opened = open(room.job()).map_err(|number| format!("the Rust refuses the job with {number}"))?;
    let mut history = History::opened(&opened);
    history.finish().map_err(|number| format!("the model refuses a step with {number}"))?;
    same_kept(room.work.get(), &history)?;
    let w = room.work.get();
    let Some(Answer::Paths { closed, open, .. }) = read_tray(room.tray.get(), w[SETTINGS] as u8) else {
        return Err("the tray cannot be read back".into());
    };
    in_lists(&history.reasons()?, &(closed, open), |r| match built(w, r) {
        Some(Built::Path(path)) => Some(path),
        _ => None,
    })?;
    ask_all(room, rng, &history)?;
    room.freed(fill)
}

/// Opened and stepped in any order, asked between the steps and at the end.
fn by_steps(room: &mut Room, rng: &mut Rng) -> Same {
    let (words, fill) = (WORDS + rng.below(2) * rng.below(40), rng.bits() as u32);
    let Some(opened) = open_job(room, words, fill)? else { return Ok(()) };
    let mut history = History::opened(&opened);
    same_kept(room.work.get(), &history)?;
    let mut busy: Vec<usize> = (0..history.forest.records.len()).collect();
    let mut made = 0;
    while !busy.is_empty() && made < LONG {
        let at = rng.below(busy.len());
        let (record, held) = (busy[at], history.forest.records.len());
        for _ in 0..1 + rng.below(12) {
            made += 1;
            let answer = room.calls.step(room.work.get_mut(), record as u32);
            room.trace.push(format!("step {record}: {answer}"));
            let theirs = history.step(record).err().map_or(0, u32::from);
            expect(answer == theirs, || format!("the step answers {answer}, the model {theirs}"))?;
            if answer != 0 {
                busy.swap_remove(at);
                break;
            }
        }
        busy.extend(held..history.forest.records.len());
        if rng.one_in(12) {
            same_kept(room.work.get(), &history)?;
            ask_all(room, rng, &history)?;
        }
    }
    same_kept(room.work.get(), &history)?;
    ask_all(room, rng, &history)?;
    room.freed(fill)
}

/// What building the path of a record's ring comes to; none where it has no ring.
fn built(w: &[u32], r: usize) -> Option<Built> {
    let ring = ring(w, r).filter(|ring| !ring.is_empty())?;
    Some(build(&values(w, &ring), w[SETTINGS] & 2 != 0, is_open(w, r)))
}

/// Document 02, Ask 5, read plainly of any words: the length and the tests, then 12, then what is kept of a record without a ring, or what its path comes to.
pub fn told(w: &[u32], record: u32) -> Result<Reason, u32> {
    plain::tests(w).map_err(u32::from)?;
    let r = record as usize;
    if r >= records(w) || (0..records(w)).any(|r| is_live(w, r)) {
        return Err(12);
    }
    let open = is_open(w, r);
    let is_path = |q: &usize| is_open(w, *q) == open && matches!(built(w, *q), Some(Built::Path(_)));
    Ok(match (built(w, r), w[REASON + r]) {
        (None, NO_RING) => Reason::NoRing,
        (None, JOINED) => Reason::Joined { taker: w[TAKER + r] as usize },
        (None, AT_VALIDITY) => Reason::SmallRing,
        (None, WHILE_REMOVING) => Reason::RingFell,
        (None, _) => Reason::SmallArea,
        (Some(Built::Short), _) => Reason::ShortPath,
        (Some(Built::Small), _) => Reason::SmallPath,
        (Some(Built::Path(_)), _) => Reason::Written { open, place: (0..r).filter(is_path).count() },
    })
}

/// A finished or an opened work space with some words altered, reasons and takers mostly.
fn altered(room: &mut Room, rng: &mut Rng) -> Same {
    let fill = rng.bits() as u32;
    room.work.lend(WORDS + rng.below(2) * rng.below(20), fill);
    room.tray.lend(TRAY, 0);
    let finish = !rng.one_in(6);
    let (work, job) = (room.work.get_mut(), &room.paper[room.at..]);
    let answer = if finish { room.calls.finish(job, work, room.tray.get_mut()) } else { room.calls.open(job, work) };
    room.trace.push(format!("{}: {answer}", if finish { "finish" } else { "open" }));
    let w = &mut work[..KEPT];
    if rng.one_in(8) {
        room.trace.push(made_up(&mut w[..BLOCK], rng));
        (0..records(w)).filter(|_| rng.one_in(3)).for_each(|r| w[MARK + r] = DONE);
    }
    for _ in 0..1 + rng.below(4) {
        let said = if rng.one_in(4) { alter(w, rng) } else { kept(w, rng) };
        room.trace.push(said);
    }
    if rng.one_in(4) {
        room.trace.push(names_beside(w, rng));
    }
    for _ in 0..4 {
        let w = room.work.get();
        let held = records(w).min(MOST_RECORDS);
        let record = if held == 0 || rng.one_in(8) { unknown(rng, held) } else { rng.below(held) as u32 };
        let told = told(w, record);
        ask(room, record, told)?;
    }
    ask_in(room, rng.below(WORDS), 0, Err(10))?;
    room.behind(if answer == 0 { fill } else { 0 })
}
