// Kind `windows`: outline_records_in on one work space between calls and alterations of every kind (kept.rs). The answer and every word of the list: where only calls wrote, from the rings of the
// oracle's trails; else from a plain reading of the tests, and the rings as the words have them. The work space is only read.
use crate::alter::{self, a_box, alter, names_beside};
use crate::boxes;
use crate::calls::{Calls, Fault};
use crate::contains;
use crate::kept::{self, List};
use crate::lent::Lent;
use crate::plain;
use crate::room::{expect, Room, Same};
use crate::words::*;
use oracle::boxes::{meets, of_forest, records_in, window, Rect, SMALL_TRAY};
use oracle::gen;
use oracle::rng::Rng;

extern "C" {
    fn outline_records_in(
        work: *const u32,
        words: usize,
        left: i32,
        top: i32,
        right: i32,
        bottom: i32,
        list: *mut u32,
        list_words: usize,
    ) -> u64;
}

/// What a long run must have met, beside the kinds of windows.
pub const SEEN: [&str; 10] = [
    "an open ring listed",
    "a ring that is done listed",
    "an offcut listed",
    "a record without a ring, not listed",
    "a record without a ring that has a box, not listed",
    "a list that just suffices",
    "nothing listed, no list",
    "more than a hundred listed",
    "some listed and some not",
    "a list that is one too short",
];

pub fn case(room: &mut Room, seed: u64, index: u64, rng: &mut Rng) -> Same {
    let at = rng.below(8);
    let job = if rng.one_in(2) { gen::job(seed, index) } else { contains::job(seed, index, rng) };
    room.start(&job, at);
    let mut list = kept::lend(room, seed ^ index, rng);
    kept::begin(room, rng, &mut list)?;
    look(room, rng, &list)?;
    for _ in 0..4 + rng.below(16) {
        if !rng.one_in(3) {
            kept::one(room, rng, &mut list)?;
        }
        look(room, rng, &list)?;
    }
    if rng.one_in(2) {
        spoilt(room, rng, &mut list)?;
    }
    kept::copies(room, &list)
}

/// Live words, boxes and names altered in several ways at once, so that the order of the tests shows.
fn spoilt(room: &mut Room, rng: &mut Rng, list: &mut List) -> Same {
    let front = list.shadow[..KEPT].to_vec();
    for _ in 0..3 {
        let times = rng.below(4);
        list.alter(room, 0..KEPT, |w| {
            w.copy_from_slice(&front);
            let mut said: Vec<String> = (0..times).map(|_| alter(w, rng)).collect();
            for more in [alter::kept, a_box, names_beside] {
                if rng.one_in(2) {
                    said.push(more(w, rng));
                }
            }
            said.join("; ")
        });
        list.trails.lose_live();
        (0..STATES).for_each(|place| list.trails.write_word(place, list.shadow[NAMES + place]));
        look(room, rng, list)?;
        look(room, rng, list)?;
    }
    Ok(())
}

/// One call: a window of some kind, a list of some length, now and then a part of the words.
pub fn look(room: &mut Room, rng: &mut Rng, list: &List) -> Same {
    let w = room.work.get();
    let (tests, rings) = match list.trails.live() {
        Some(history) => (list.trails.tested(), of_forest(&history.forest)),
        None => (plain::tests(w), boxes::all(w)),
    };
    let (window, kind) = window(rng, &rings);
    let found = records_in(&rings, window, MOST_RECORDS).unwrap_or_default();
    let length = match rng.below(8) {
        0 => found.len(),
        1 => found.len().saturating_sub(1),
        2 => rng.below(found.len() + 2),
        3 => 0,
        4 => MOST_RECORDS + rng.below(8),
        _ => MOST_RECORDS,
    };
    let words = if rng.one_in(24) { rng.pick(&[0, 1, 3, BOXES, BLOCK, KEPT, WORDS - 1]) } else { w.len() };
    let told = match tests {
        _ if words < WORDS => Err(10),
        Err(refusal) => Err(refusal),
        Ok(()) => records_in(&rings, window, length),
    };
    match &told {
        Ok(records) => events(room, kind, &rings, records, length),
        Err(number) if *number == SMALL_TRAY && length + 1 == found.len() => room.tally.event(SEEN[9], 1),
        Err(_) => {}
    }
    call(room, window, words, length, &told)?;
    list.same(room.work.get())
}

/// The call, against what it should say.
fn call(room: &mut Room, window: Rect, words: usize, length: usize, told: &Result<Vec<u32>, u8>) -> Same {
    const FILL: u32 = 0x0707_0707;
    let mut list = Lent::new(MOST_RECORDS + 16, 0x5a5a_5a5a);
    list.lend(length, FILL);
    let answer = room.calls.records_in(&room.work.get()[..words], window, list.get_mut());
    let number = answer as u32;
    room.trace
        .push(format!("records in {window:?} with {words} words and a list of {length}: {number}, {}", answer >> 32));
    match words < WORDS {
        true => room.tally.answer("records in", number),
        false => room.tally.tested("records in", &room.work.get()[..KEPT], number),
    }
    let (theirs, left) = match told {
        Err(number) => (u64::from(*number), vec![FILL; length]),
        Ok(records) => {
            let mut left = vec![0; length];
            left[..records.len()].copy_from_slice(records);
            ((records.len() as u64) << 32, left)
        }
    };
    expect(answer == theirs, || {
        format!("the window {window:?} answers {answer:#x}, by the rings {theirs:#x}: {told:?}")
    })?;
    room.margins()?;
    expect(list.kept(), || "a word beside the list is written".into())?;
    let ours = list.get();
    let other = (0..length).find(|&at| ours[at] != left[at]);
    expect(other.is_none(), || {
        format!("word {other:?} of the list of the window {window:?} is another: by the rings {told:?}")
    })
}

/// For the tally.
fn events(room: &mut Room, kind: &'static str, rings: &[Option<Rect>], records: &[u32], length: usize) {
    let w = room.work.get();
    let any = |holds: fn(&[u32], usize) -> bool| records.iter().any(|r| holds(w, *r as usize));
    let boxed = |r: usize| rings[r].is_none() && boxes::beside(w, r) != [0; 4];
    let seen = [
        any(is_open),
        any(|w, r| !is_open(w, r) && w[MARK + r] == DONE),
        any(|w, r| w[CUT + r] != NONE),
        rings.iter().any(Option::is_none),
        (0..rings.len()).any(boxed),
        length == records.len() && length > 0,
        length == 0,
        records.len() > 100,
        !records.is_empty() && records.len() < rings.iter().flatten().count(),
    ];
    let met: Vec<&'static str> = SEEN.into_iter().zip(seen).filter_map(|(name, holds)| holds.then_some(name)).collect();
    met.into_iter().chain([kind]).for_each(|name| room.tally.event(name, 1));
}

impl Calls {
    /// The low half is 0 or the refusal's number, the high half how many records were found.
    pub fn records_in(self, work: &[u32], window: Rect, list: &mut [u32]) -> u64 {
        let [left, top, right, bottom] = [window.left, window.top, window.right, window.bottom].map(|side| side as i32);
        let (words, room, found) = (work.len(), list.len(), list.to_vec());
        let first = list.as_mut_ptr();
        let answer = unsafe { outline_records_in(work.as_ptr(), words, left, top, right, bottom, first, room) };
        match (self.0, answer as u32) {
            (Fault::WindowEdge, 0) => listed(list, &boxes::all(work), |ring| just(window, ring)),
            (Fault::WindowRingless, 0) => {
                let zero = Some(Rect { left: -RAISED, top: -RAISED, right: -RAISED, bottom: -RAISED });
                let rings: Vec<_> = boxes::all(work).into_iter().map(|ring| ring.or(zero)).collect();
                listed(list, &rings, |ring| meets(window, ring))
            }
            (Fault::WindowInsideOut, 0) => {
                let [xs, ys] = [[window.left, window.right], [window.top, window.bottom]];
                let (left, right) = (xs[0].min(xs[1]), xs[0].max(xs[1]));
                let (top, bottom) = (ys[0].min(ys[1]), ys[0].max(ys[1]));
                listed(list, &boxes::all(work), |ring| meets(Rect { left, top, right, bottom }, ring))
            }
            (Fault::WindowWraps, 0) => {
                let raised = |side: i64| i64::from((side + RAISED) as u32) - RAISED;
                let [left, top, right, bottom] = [window.left, window.top, window.right, window.bottom].map(raised);
                listed(list, &boxes::all(work), |ring| meets(Rect { left, top, right, bottom }, ring))
            }
            (Fault::WindowFalling, 0) => {
                list[..(answer >> 32) as usize].reverse();
                answer
            }
            (Fault::WindowPast, 0) => {
                let past = (answer >> 32) as usize;
                list[past..].copy_from_slice(&found[past..]);
                answer
            }
            (Fault::WindowShort, 3..=7) if room == 0 => 11,
            (Fault::WindowFound, 1..) if room > 0 => {
                list[0] = 0;
                answer
            }
            _ => answer,
        }
    }
}

/// Some place of both is inside both, not on an edge.
fn just(window: Rect, ring: Rect) -> bool {
    let inner = Rect { left: window.left + 1, top: window.top + 1, right: window.right - 1, bottom: window.bottom - 1 };
    meets(inner, ring)
}

/// A list by another rule, as far as there is room, and its answer.
fn listed(list: &mut [u32], rings: &[Option<Rect>], rule: impl Fn(Rect) -> bool) -> u64 {
    let hits = (0..rings.len()).filter(|&r| rings[r].is_some_and(&rule));
    let found: Vec<u32> = hits.map(|r| r as u32).take(list.len()).collect();
    list.fill(0);
    list[..found.len()].copy_from_slice(&found);
    (found.len() as u64) << 32
}
