// Kind `kept`: lists of calls on one work space. Steps, keeping, going back, dropping, writing out, asking for a reason, each in short work spaces too; opening again, finishing, listing
// and writing a job over what is kept; names, copies and live words altered. Where only calls wrote, or names were altered, the states are those of the oracle's trails, which keep no copy;
// the plain readings tell every other answer. All words are held against a shadow, on which the calls are carried out as the plain reading has them.
use crate::alter::{alter, names, names_beside};
use crate::altered;
use crate::boxes;
use crate::finish::tray_length;
use crate::listed::TEXT;
use crate::model::{same_forest, stray};
use crate::names::{copy_of, name_at, Named};
use crate::open::open_lent;
use crate::plain;
use crate::reasons::{ask, same_kept, told};
use crate::room::{all_zero, expect, Room, Same, TRAY};
use crate::steps::{act_name, write_out};
use crate::words::*;
use oracle::answer::Answer;
use oracle::canon::rewrite_within;
use oracle::gen;
use oracle::oracle::open;
use oracle::reasons::{History, Reason};
use oracle::rng::Rng;
use oracle::trails::Trails;

/// What a long run must have met.
pub const EVENTS: [&str; 17] = [
    "a name replaced",
    "the name 0",
    "the name 255",
    "a fifth name, refused",
    "a name kept where the word was above 256",
    "a name dropped",
    "back, and points and records fewer",
    "back to where the live state is",
    "back to an altered copy",
    "back to a state of an earlier job",
    "refused on the way back: the live block is spoilt",
    "14 on zeros: a refused job keeps no name",
    "opened over kept names",
    "finished or listed over kept names",
    "refused over kept names: all zero",
    "written the one way over kept names: all zero",
    "kept after finishing in one call",
];

/// The calls whose refusals must have stood in every way to the words.
pub const TESTED: [&str; 6] = ["keep", "go back", "drop", "step", "write", "reason"];

pub fn must_see() -> Vec<(&'static str, Vec<u32>)> {
    let tests = [0, 3, 4, 5, 6, 7, 10];
    let with = |more: &[u32]| tests.iter().chain(more).copied().collect();
    vec![
        ("keep", with(&[15])),
        ("go back", with(&[14])),
        ("drop", with(&[14])),
        ("step", with(&[12])),
        ("write", with(&[11, 12])),
        ("reason", with(&[12])),
        ("open", (0..=10).collect()),
        ("finish", (0..=11).collect()),
    ]
}

/// What the work space should hold, and how it came about.
pub struct List {
    pub shadow: Vec<u32>,
    pub trails: Trails,
    /// The names that this list uses.
    pool: Vec<u8>,
    /// The last call finished a job.
    finished: bool,
    seed: u64,
}

/// A work space that held anything.
pub fn lend(room: &mut Room, seed: u64, rng: &mut Rng) -> List {
    let words = WORDS + rng.below(2) * rng.below(40);
    let w = room.work.lend(words, rng.bits() as u32);
    for place in 0..STATES {
        w[NAMES + place] = rng.pick(&[0, 1, 2, 256, 257, u32::MAX, 8, 8]);
    }
    for _ in 0..40 {
        let at = KEPT + rng.below(words - KEPT);
        w[at] = rng.bits() as u32;
    }
    let mut pool = vec![0, 255, 1, 254, 7, rng.below(256) as u8];
    pool.remove(rng.below(6));
    List { shadow: room.work.get().to_vec(), trails: Trails::default(), pool, finished: false, seed }
}

pub fn case(room: &mut Room, seed: u64, index: u64, rng: &mut Rng) -> Same {
    let mut list = lend(room, seed ^ index, rng);
    begin(room, rng, &mut list)?;
    for _ in 0..8 + rng.below(36) {
        one(room, rng, &mut list)?;
    }
    if rng.one_in(2) {
        spoilt(room, rng, &mut list)?;
    }
    copies(room, &list)
}

/// The next call, or an alteration.
pub fn one(room: &mut Room, rng: &mut Rng, list: &mut List) -> Same {
    let known = list.trails.is_known();
    if records(room.front()) == 0 && rng.one_in(3) {
        return again(room, rng, list);
    }
    match rng.below(64) {
        0..=23 => steps(room, rng, list),
        24..=31 => named(room, rng, list, Named::Keep),
        32..=38 => named(room, rng, list, Named::GoBack),
        39..=42 => named(room, rng, list, Named::Drop),
        43..=45 => write(room, rng, list),
        46..=48 => reason(room, rng, list),
        49 => short(room, rng, list),
        50 => again(room, rng, list),
        // Words that somebody else wrote are left after a while.
        51..=56 if !known => again(room, rng, list),
        51 | 52 => alter_name(room, rng, list),
        53 => alter_copy(room, rng, list),
        54 => alter_live(room, rng, list),
        _ => tried(room, rng, list),
    }
}

/// As it is meant: a state is kept, some steps are taken, and gone back from.
pub fn tried(room: &mut Room, rng: &mut Rng, list: &mut List) -> Same {
    let name = list.name(rng);
    call(room, list, Named::Keep, name)?;
    for _ in 0..1 + rng.below(4) {
        steps(room, rng, list)?;
    }
    call(room, list, Named::GoBack, name)
}

impl List {
    /// One of the list's names.
    fn name(&self, rng: &mut Rng) -> u8 {
        rng.pick(&self.pool)
    }

    /// A name for a call: to keep, any; else one that is kept, every other time.
    fn name_for(&self, rng: &mut Rng, call: Named) -> u8 {
        let kept: Vec<u8> = (0..STATES).filter_map(|place| name_at(&self.shadow, place)).collect();
        match call {
            Named::GoBack | Named::Drop if !kept.is_empty() && rng.one_in(2) => rng.pick(&kept),
            _ => self.name(rng),
        }
    }

    pub fn keeps_some(&self) -> bool {
        (0..STATES).any(|place| name_at(&self.shadow, place).is_some())
    }

    /// The live block was looked at; every word behind it is as it should be.
    pub fn settle(&mut self, room: &Room) -> Same {
        let w = room.work.get();
        self.shadow[..BLOCK].copy_from_slice(&w[..BLOCK]);
        self.same(w)
    }

    pub fn same(&self, w: &[u32]) -> Same {
        let other = || (0..w.len()).find(|&at| w[at] != self.shadow[at]).unwrap_or(0);
        expect(w == self.shadow, || format!("word {} is {}, not {}", other(), w[other()], self.shadow[other()]))
    }

    /// Somebody else writes the same into the work space and into the shadow.
    pub fn alter(&mut self, room: &mut Room, at: std::ops::Range<usize>, change: impl FnOnce(&mut [u32]) -> String) {
        let said = change(&mut room.work.get_mut()[at.clone()]);
        self.shadow[at.clone()].copy_from_slice(&room.work.get()[at.clone()]);
        room.trace.push(format!("from word {} on: {said}", at.start));
    }
}

/// The live block and a history's state: rings, boxes, progress, counts, and what ended each record without a ring.
pub fn same_state(block: &[u32], history: &History) -> Same {
    same_forest(block, &history.forest)?;
    boxes::zeros(block)?;
    same_kept(block, history)
}

/// The live block and its trail's state, as far as it is known.
pub fn as_live(room: &Room, list: &List) -> Same {
    list.trails.live().map_or(Ok(()), |history| same_state(room.work.get(), &history))
}

/// At the end each copy is what replaying its own trail gives, whether a name keeps it or not; and so is the live block.
pub fn copies(room: &Room, list: &List) -> Same {
    let w = room.work.get();
    for place in 0..STATES {
        if let Some(table) = list.trails.copy(place) {
            same_state(&w[copy_of(place)], &table.as_one())
                .map_err(|what| format!("the copy of place {place}: {what}"))?;
        }
    }
    list.trails.live_replayed().map_or(Ok(()), |table| same_state(w, &table.as_one()))
}

/// A job is opened, or finished or listed in one call, over whatever is there.
pub fn begin(room: &mut Room, rng: &mut Rng, list: &mut List) -> Same {
    list.finished = false;
    match rng.below(4) {
        0 => finish(room, rng, list),
        _ => open_over(room, list),
    }
}

/// The same again with this job or another; or a job is written the one way; or one is opened in a part of the words.
fn again(room: &mut Room, rng: &mut Rng, list: &mut List) -> Same {
    if rng.one_in(2) {
        let job = gen::job(list.seed, rng.below(1000) as u64);
        room.change(&job, rng.below(8));
    }
    match rng.below(8) {
        0 => rewrite(room, rng, list),
        1 => open_short(room, rng, list),
        _ => begin(room, rng, list),
    }
}

/// The words after a job that was opened: no name is kept, the words behind the names, and the boxes of no record, are as found; after a refused one: zeros.
fn opened_over(room: &mut Room, list: &mut List, start: Option<History>, accepted: &'static str) -> Same {
    let kept = list.keeps_some();
    match start {
        Some(start) => {
            list.trails.open(start);
            boxes::unused(room.work.get(), |at| list.shadow[at])?;
            list.shadow[NAMES..KEPT].fill(0);
            if kept {
                room.tally.event(accepted, 1);
            }
        }
        None => {
            list.trails.refused();
            list.shadow.fill(0);
            if kept {
                room.tally.event("refused over kept names: all zero", 1);
            }
        }
    }
    list.settle(room)
}

pub fn open_over(room: &mut Room, list: &mut List) -> Same {
    let start = open_lent(room)?.map(|opened| History::opened(&opened));
    opened_over(room, list, start, "opened over kept names")?;
    as_live(room, list)
}

/// A slice that is too short: 10, and its words are 0; the others stay.
fn open_short(room: &mut Room, rng: &mut Rng, list: &mut List) -> Same {
    let words = rng.pick(&[1, BLOCK, NAMES + 2, KEPT, KEPT + BLOCK, WORDS - 1]);
    let answer = room.calls.open(&room.paper[room.at..], &mut room.work.get_mut()[..words]);
    room.trace.push(format!("open with {words} words: {answer}"));
    room.tally.answer("open", answer);
    expect(answer == 10, || format!("opening in {words} words answers {answer}, not 10"))?;
    list.shadow[..words].fill(0);
    list.trails.lose_live();
    for place in 0..STATES {
        list.trails.write_word(place, list.shadow[NAMES + place]);
        if copy_of(place).start < words {
            list.trails.lose_copy(place);
        }
    }
    room.margins()?;
    list.same(room.work.get())
}

/// Finished in one call, or listed: the steps in rising order are the live trail's.
fn finish(room: &mut Room, rng: &mut Rng, list: &mut List) -> Same {
    let mut trails = Trails::default();
    let model = open(room.job()).and_then(|opened| {
        trails.open(History::opened(&opened));
        trails.finish()
    });
    let paths = |history: &History| {
        let (closed, open) = history.forest.paths();
        Answer::Paths { closed, open, reversed: history.forest.reverse }.tray()
    };
    let bytes = if model.is_ok() { trails.live().map_or(Vec::new(), |history| paths(&history)) } else { Vec::new() };
    let length = tray_length(rng, bytes.len());
    room.tray.lend(length, 1 + rng.below(255) as u8);
    let number = match model {
        Err(number) => u32::from(number),
        Ok(()) if bytes.len() > length => 11,
        Ok(()) => 0,
    };
    let answer = if rng.one_in(3) { listed(room, number)? } else { finished(room) };
    room.trace.push(format!("finished with a tray of {length} bytes: {answer}"));
    expect(answer == number, || format!("finishing answers {answer}, the model {number}"))?;
    room.margins()?;
    let (paths, rest) = room.tray.get().split_at(if number == 0 { bytes.len() } else { 0 });
    expect(paths == &bytes[..paths.len()] && all_zero(rest), || "the tray of a job that is finished".into())?;
    let start = open(room.job()).ok().filter(|_| number == 0).map(|opened| History::opened(&opened));
    opened_over(room, list, start, "finished or listed over kept names")?;
    if number == 0 {
        list.finished = true;
        list.trails.finish().map_err(|number| format!("the model refuses a step with {number}"))?;
    }
    as_live(room, list)
}

fn finished(room: &mut Room) -> u32 {
    let answer = room.calls.finish(&room.paper[room.at..], room.work.get_mut(), room.tray.get_mut());
    room.tally.answer("finish", answer);
    answer
}

/// First at a bad rate or into a short text, which leaves every word; then well. The refusal that the text says, or 0.
fn listed(room: &mut Room, number: u32) -> Result<u32, String> {
    let before = room.work.get().to_vec();
    for (rate, length) in [(1001, TEXT), (0, TEXT - 1)] {
        room.text.lend(length, 0);
        room.calls.list(&room.paper[room.at..], room.work.get_mut(), room.tray.get_mut(), rate, room.text.get_mut());
        expect(room.work.get() == before, || "no listing, and a word is another".into())?;
    }
    room.text.lend(TEXT, 0);
    let (work, tray) = (room.work.get_mut(), room.tray.get_mut());
    let length = room.calls.list(&room.paper[room.at..], work, tray, 0, room.text.get_mut()) as usize;
    let refused = format!("refused {number}\n");
    let said = &room.text.get()[..length];
    Ok(if said == refused.as_bytes() { number } else { u32::from(said.starts_with(b"refused")) })
}

/// Writing a job the one way leaves every word 0, whatever the answer.
fn rewrite(room: &mut Room, rng: &mut Rng, list: &mut List) -> Same {
    let length = rng.pick(&[0, 40, TRAY, 3 * TRAY]);
    let number = rewrite_within(room.job(), length).err().map_or(0, u32::from);
    room.tray.lend(length, 7);
    let (answer, _) = room.calls.rewrite(&room.paper[room.at..], room.work.get_mut(), room.tray.get_mut());
    room.trace.push(format!("rewrite with a tray of {length} bytes: {answer}"));
    room.tally.answer("rewrite", answer);
    expect(answer == number, || format!("writing the job answers {answer}, the oracle {number}"))?;
    room.margins()?;
    if list.keeps_some() {
        room.tally.event("written the one way over kept names: all zero", 1);
    }
    list.trails.refused();
    list.shadow.fill(0);
    list.same(room.work.get())
}

/// Some steps on one record, mostly one with a ring that isn't done, until one is refused.
pub fn steps(room: &mut Room, rng: &mut Rng, list: &mut List) -> Same {
    let w = room.front();
    let held = records(w).min(MOST_RECORDS);
    let live: Vec<usize> = (0..held).filter(|&r| is_live(w, r)).collect();
    let record = match rng.below(12) {
        0 => rng.pick(&[held, held + 1, 511, 512, 65_535, u32::MAX as usize]),
        1 => rng.below(held.max(1)),
        _ if live.is_empty() => rng.below(held.max(1)),
        _ => rng.pick(&live),
    };
    list.finished = false;
    for _ in 0..1 + rng.below(12) {
        if step(room, list, record as u32)? != 0 {
            break;
        }
    }
    list.settle(room)
}

/// One step; the answer.
pub fn step(room: &mut Room, list: &mut List, number: u32) -> Result<u32, String> {
    if !list.trails.is_known() {
        let before = plain::tested(room.front());
        altered::step(room, number)?;
        return Ok(before.is_err() as u32);
    }
    let before = room.front().to_vec();
    let answer = room.calls.step(room.work.get_mut(), number);
    room.trace.push(format!("step {number}: {answer}"));
    room.tally.tested("step", &before, answer);
    let act = list.trails.step(number as usize);
    let theirs = act.err().map_or(0, u32::from);
    expect(answer == theirs, || format!("the step answers {answer}, the model {theirs}"))?;
    room.margins()?;
    let w = &room.work.get()[..KEPT];
    let Ok(act) = act else {
        expect(w == before, || "a refused step leaves another word".into())?;
        return Ok(answer);
    };
    room.tally.event(act_name(act), 1);
    if let Some(at) = stray(&before, w, number as usize) {
        return Err(format!("a step on record {number} writes word {at}"));
    }
    as_live(room, list)?;
    Ok(answer)
}

/// Keeping, going back or dropping under some name.
pub fn named(room: &mut Room, rng: &mut Rng, list: &mut List, which: Named) -> Same {
    let name = list.name_for(rng, which);
    call(room, list, which, name)
}

fn call(room: &mut Room, list: &mut List, call: Named, name: u8) -> Same {
    let place = call.place(&list.shadow, name);
    let answer = room.calls.named(call, room.work.get_mut(), name);
    room.trace.push(format!("{} {name}: {answer}", call.word()));
    room.tally.tested(call.word(), &list.shadow[..KEPT], answer);
    let number = place.err().map_or(0, u32::from);
    expect(answer == number, || format!("{} {name} answers {answer}, the plain reading {number}", call.word()))?;
    room.margins()?;
    events(room, list, call, name, place);
    if let Ok(place) = place {
        call.write(&mut list.shadow, place, name);
    }
    list.same(room.work.get())?;
    told_by_trails(room, list, call, name, place)
}

/// The same by the trails, as far as they know the live state.
fn told_by_trails(room: &Room, list: &mut List, call: Named, name: u8, place: Result<usize, u8>) -> Same {
    let known = list.trails.is_known();
    // A live block that somebody spoilt is no matter of trails.
    if !known && place.is_err() {
        return Ok(());
    }
    let theirs = match call {
        Named::Keep => list.trails.keep(name),
        Named::GoBack => list.trails.go_back(name),
        Named::Drop => list.trails.drop_name(name),
    };
    expect(place == theirs, || format!("{} {name} comes to {place:?}, by its trails {theirs:?}", call.word()))?;
    as_live(room, list)
}

/// For the tally, before the shadow follows.
fn events(room: &mut Room, list: &mut List, call: Named, name: u8, place: Result<usize, u8>) {
    let mut event = |holds: bool, name: &'static str| {
        if holds {
            room.tally.event(name, 1);
        }
    };
    let w = &list.shadow;
    match (call, place) {
        (Named::Keep, Ok(place)) => {
            event(name_at(w, place) == Some(name), "a name replaced");
            event(name == 0, "the name 0");
            event(name == 255, "the name 255");
            event(w[NAMES + place] > 256, "a name kept where the word was above 256");
            event(list.finished, "kept after finishing in one call");
        }
        (Named::Keep, Err(number)) => event(number == 15, "a fifth name, refused"),
        (Named::GoBack, Ok(place)) => {
            let copy = &w[copy_of(place)];
            event(copy[POINTS] < w[POINTS] && copy[RECORDS] < w[RECORDS], "back, and points and records fewer");
            event(copy == &w[..BLOCK], "back to where the live state is");
            event(plain::tested(&[copy, &w[NAMES..KEPT]].concat()).is_err(), "back to an altered copy");
            event(list.trails.is_earlier(place), "back to a state of an earlier job");
        }
        (Named::GoBack, Err(number)) => {
            let spoilt = (3..=7).contains(&number) && (0..STATES).any(|place| name_at(w, place) == Some(name));
            event(spoilt, "refused on the way back: the live block is spoilt");
            event(number == 14 && all_zero(w), "14 on zeros: a refused job keeps no name");
        }
        (Named::Drop, Ok(_)) => event(true, "a name dropped"),
        _ => {}
    }
    list.finished &= call == Named::Keep;
}

pub fn write(room: &mut Room, rng: &mut Rng, list: &mut List) -> Same {
    match list.trails.live() {
        Some(history) if list.trails.tested().is_ok() => {
            let words = if rng.one_in(6) { rng.below(WORDS) } else { room.work.get().len() };
            let need = rng.below(200);
            let tray = tray_length(rng, need);
            write_out(room, rng, &history.forest, words, tray)?;
        }
        _ => altered::write(room, rng)?,
    }
    list.same(room.work.get())
}

pub fn reason(room: &mut Room, rng: &mut Rng, list: &mut List) -> Same {
    let held = records(room.front()).min(MOST_RECORDS);
    let record = if rng.one_in(6) { held } else { rng.below(held.max(1)) };
    let told: Result<Reason, u32> = match list.trails.live() {
        None => told(room.work.get(), record as u32),
        Some(history) => match list.trails.tested() {
            Err(number) => Err(u32::from(number)),
            Ok(()) if record >= held || !history.done() => Err(12),
            Ok(()) => Ok(history.reasons()?[record]),
        },
    };
    ask(room, record as u32, told)?;
    list.same(room.work.get())
}

/// Every call in a part of the words: 10 before every test, and every word as found.
pub fn short(room: &mut Room, rng: &mut Rng, list: &mut List) -> Same {
    let words = rng.pick(&[0, 1, 3, BLOCK - 1, BLOCK, NAMES + 1, KEPT, KEPT + BLOCK, WORDS - 1]);
    let name = list.name(rng);
    room.tray.lend(64, 7);
    for call in Named::ALL {
        let answer = room.calls.named(call, &mut room.work.get_mut()[..words], name);
        room.tally.answer(call.word(), answer);
        expect(answer == 10, || format!("{} in {words} words answers {answer}, not 10", call.word()))?;
    }
    let stepped = room.calls.step(&mut room.work.get_mut()[..words], 0);
    let written = room.calls.write(&room.work.get()[..words], room.tray.get_mut());
    let told = room.calls.reason(&room.work.get()[..words], 0);
    for (call, answer) in [("step", stepped), ("write", written), ("reason", told as u32)] {
        room.tally.answer(call, answer);
        expect(answer == 10, || format!("{call} in {words} words answers {answer}, not 10"))?;
    }
    room.margins()?;
    list.same(room.work.get())
}

/// A place's word is written by hand: another place's, one that says free, or some name.
fn alter_name(room: &mut Room, rng: &mut Rng, list: &mut List) -> Same {
    let known = u32::from(list.name(rng)) + 1;
    let place = rng.below(STATES);
    list.alter(room, 0..KEPT, |w| match rng.below(3) {
        0 => {
            w[NAMES + place] = known;
            format!("place {place} has the word {known}")
        }
        _ => names(w, rng),
    });
    (0..STATES).for_each(|place| list.trails.write_word(place, list.shadow[NAMES + place]));
    Ok(())
}

fn alter_copy(room: &mut Room, rng: &mut Rng, list: &mut List) -> Same {
    let place = rng.below(STATES);
    list.alter(room, copy_of(place), |w| alter(w, rng));
    list.trails.lose_copy(place);
    Ok(())
}

fn alter_live(room: &mut Room, rng: &mut Rng, list: &mut List) -> Same {
    list.alter(room, 0..BLOCK, |w| if rng.one_in(2) { crate::alter::kept(w, rng) } else { alter(w, rng) });
    list.trails.lose_live();
    Ok(())
}

/// Live words and names altered in several ways at once, so that the order of the tests shows: every call, twice over.
fn spoilt(room: &mut Room, rng: &mut Rng, list: &mut List) -> Same {
    let front = list.shadow[..KEPT].to_vec();
    for _ in 0..2 {
        let times = 1 + rng.below(4);
        list.alter(room, 0..KEPT, |w| {
            w.copy_from_slice(&front);
            let mut said: Vec<String> = (0..times).map(|_| alter(w, rng)).collect();
            if rng.one_in(2) {
                said.push(crate::alter::kept(w, rng));
            }
            if rng.one_in(2) {
                said.push(names_beside(w, rng));
            }
            said.join("; ")
        });
        list.trails.lose_live();
        (0..STATES).for_each(|place| list.trails.write_word(place, list.shadow[NAMES + place]));
        write(room, rng, list)?;
        reason(room, rng, list)?;
        for call in Named::ALL {
            named(room, rng, list, call)?;
        }
        steps(room, rng, list)?;
    }
    Ok(())
}
