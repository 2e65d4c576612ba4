// The oracle's stepping model against a work space: one record's ring, step due, loop and parent; and which words a step may write.
use crate::boxes;
use crate::room::{expect, Same};
use crate::words::{self, *};
use oracle::model::forest::{Entry, Forest};
use oracle::model::lone::{Due, Lone};

/// Counts, and every record.
pub fn same_forest(w: &[u32], forest: &Forest) -> Same {
    same_counts(w, forest)?;
    (0..forest.records.len()).try_for_each(|r| same_record(w, forest, r))
}

pub fn same_counts(w: &[u32], forest: &Forest) -> Same {
    expect(points(w) == forest.points, || format!("{} points, {} in the model", points(w), forest.points))?;
    let held = forest.records.len();
    expect(records(w) == held, || format!("{} records, {held} in the model", records(w)))
}

/// A record's ring by value from its first point, its box, whether it is open; of a closed one the step due and what the loop remembers.
pub fn same_record(w: &[u32], forest: &Forest, r: usize) -> Same {
    let ring = words::ring(w, r).ok_or_else(|| format!("the ring of record {r} does not close"))?;
    let (ours, theirs) = (values(w, &ring), forest.ring(r));
    expect(ours == theirs, || format!("the ring of record {r} is {ours:?}, in the model {theirs:?}"))?;
    boxes::same(w, r, &theirs)?;
    match &forest.records[r] {
        Entry::Ringless => Ok(()),
        Entry::Open(_) => expect(is_open(w, r), || format!("record {r} is open in the model")),
        Entry::Closed { lone, cut_from } => {
            expect(!is_open(w, r), || format!("record {r} is closed in the model"))?;
            let from = cut_from.map_or(NONE, |from| from as u32);
            expect(w[CUT + r] == from, || format!("record {r} is cut from {}, in the model {from}", w[CUT + r]))?;
            same_progress(w, r, &ring, lone)
        }
    }
}

/// The step due, the present place and the loop's start, as positions from the first point.
fn same_progress(w: &[u32], r: usize, ring: &[usize], lone: &Lone) -> Same {
    let n = lone.circle.len();
    let from_first = |at: usize| (at + n - lone.first) % n;
    let place = |word: u32| ring.iter().position(|&p| p == word as usize);
    let (mark, present, start) = match lone.due {
        Due::Validity => (VALIDITY, None, None),
        Due::Removal { at, start } => (REMOVAL, Some(from_first(at)), Some(start.map(from_first))),
        Due::Triangle => (TRIANGLE, None, None),
        Due::Split { at, start } => (SPLIT, Some(from_first(at)), Some(start.map(from_first))),
        Due::Done => (DONE, None, None),
    };
    expect(w[MARK + r] == mark, || format!("the mark of record {r} is {}, in the model {mark}", w[MARK + r]))?;
    if let Some(present) = present {
        expect(place(w[PRESENT + r]) == Some(present), || format!("the present place of record {r}"))?;
    }
    match start {
        Some(start) => expect(place(w[START + r]) == start, || format!("the loop's start of record {r}")),
        None => Ok(()),
    }
}

/// The model of any work space that passes the tests. A loop whose start isn't on the ring has none.
pub fn load(w: &[u32]) -> Forest {
    let entry = |r: usize| {
        let ring = words::ring(w, r).expect("a ring of a tested work space closes");
        let place = |word: u32| ring.iter().position(|&p| p == word as usize);
        let here = || place(w[PRESENT + r]).expect("the present place of a tested work space is on its ring");
        let circle = values(w, &ring);
        match (ring.is_empty(), is_open(w, r)) {
            (true, _) => Entry::Ringless,
            (false, true) => Entry::Open(circle),
            (false, false) => {
                let due = match w[MARK + r] {
                    VALIDITY => Due::Validity,
                    REMOVAL => Due::Removal { at: here(), start: place(w[START + r]) },
                    TRIANGLE => Due::Triangle,
                    SPLIT => Due::Split { at: here(), start: place(w[START + r]) },
                    _ => Due::Done,
                };
                let cut_from = (w[CUT + r] != NONE).then_some(w[CUT + r] as usize);
                Entry::Closed { lone: Lone { circle, first: 0, due }, cut_from }
            }
        }
    };
    let records = (0..records(w)).map(entry).collect();
    Forest { keep: w[SETTINGS] & 1 != 0, reverse: w[SETTINGS] & 2 != 0, points: points(w), records }
}

/// A word that a step carried out on a record may not have written: all but both counts, the links and record names of its
/// ring's points, the record's first point, mark and loop, its box, and the places that are new; and, once it is emptied, its reason, which must be that of the mark, and its box, which must be zeros.
pub fn stray(before: &[u32], after: &[u32], record: usize) -> Option<usize> {
    let mut allowed = before.to_vec();
    let mut allow = |at: usize| allowed[at] = after[at];
    [POINTS, RECORDS].into_iter().for_each(&mut allow);
    for p in words::ring(before, record).unwrap_or_default() {
        [NEXT + p, PREV + p, REC + p].into_iter().for_each(&mut allow);
    }
    [FIRST, MARK, PRESENT, START].into_iter().for_each(|column| allow(column + record));
    for p in points(before)..points(after).min(MOST_POINTS) {
        [X, Y, NEXT, PREV, REC, Z].into_iter().for_each(|column| allow(column + p));
    }
    for r in records(before)..records(after).min(MOST_RECORDS) {
        [FLAGS, OWNER, FIRST, MARK, PRESENT, START, CUT].into_iter().for_each(|column| allow(column + r));
        SIDES.into_iter().for_each(|column| allow(column + r));
    }
    for column in SIDES {
        allowed[column + record] = if after[FIRST + record] == NONE { 0 } else { after[column + record] };
    }
    if let (NONE, Some(reason)) = (after[FIRST + record], discarded_at(before[MARK + record])) {
        allowed[REASON + record] = reason;
    }
    if allowed == after {
        return None;
    }
    (0..after.len()).find(|&at| allowed[at] != after[at])
}
