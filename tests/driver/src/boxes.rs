// A plain reading of document 02, Ask 13, on the words of a work space: the boxes beside the rings, and which are not their rings'. And the faults that spoil what a call left of boxes (calls.rs).
use crate::calls::Fault;
use crate::plain;
use crate::room::{expect, Same};
use crate::words::{self, *};
use oracle::boxes::{around, Rect};
use oracle::real::Pt;

/// The four words beside a record.
pub fn beside(w: &[u32], r: usize) -> [u32; 4] {
    SIDES.map(|column| w[column + r])
}

/// A box as its words: raised.
fn raised(b: Rect) -> [u32; 4] {
    [b.left, b.top, b.right, b.bottom].map(|side| (side + RAISED) as u32)
}

/// The box of a record's ring as the words have it; none without a ring, or where the walk does not come back.
pub fn of_ring(w: &[u32], r: usize) -> Option<Rect> {
    around(&values(w, &words::ring(w, r)?))
}

/// The box of each record's ring.
pub fn all(w: &[u32]) -> Vec<Option<Rect>> {
    (0..records(w).min(MOST_RECORDS)).map(|r| of_ring(w, r)).collect()
}

/// "A work space whose box isn't its ring's": of a record without a ring nothing is asked.
pub fn is_other(w: &[u32], r: usize) -> bool {
    of_ring(w, r).is_some_and(|ring| raised(ring) != beside(w, r))
}

/// Puts a record's box beside its ring, if it has one.
pub fn set(w: &mut [u32], r: usize) {
    if let Some(ring) = of_ring(w, r) {
        SIDES.into_iter().zip(raised(ring)).for_each(|(column, word)| w[column + r] = word);
    }
}

/// Of each record whether its box is right.
pub fn right(w: &[u32]) -> Vec<bool> {
    (0..MOST_RECORDS).map(|r| r >= records(w) || !is_other(w, r)).collect()
}

/// After an alteration: the boxes that were right before are right again.
pub fn follow(w: &mut [u32], right: &[bool]) {
    (0..records(w).min(MOST_RECORDS)).filter(|&r| right[r]).for_each(|r| set(w, r));
}

/// A record's words are the box of a ring that the model has; of a record without one nothing is asked.
pub fn same(w: &[u32], r: usize, ring: &[Pt]) -> Same {
    let Some(theirs) = around(ring).map(raised) else { return Ok(()) };
    let ours = beside(w, r);
    expect(ours == theirs, || format!("the box of record {r} is {ours:?}, not {theirs:?}"))
}

/// Where only calls wrote, a record without a ring has four zeros.
pub fn zeros(w: &[u32]) -> Same {
    let other = (0..records(w)).find(|&r| w[FIRST + r] == NONE && beside(w, r) != [0; 4]);
    expect(other.is_none(), || format!("record {other:?} has no ring, but a box"))
}

/// Opening, and finishing in one call, write the boxes of records that are in use; every other is as found.
pub fn unused(w: &[u32], found: impl Fn(usize) -> u32) -> Same {
    let mut others = SIDES.into_iter().flat_map(|column| column + records(w)..column + MOST_RECORDS);
    let other = others.find(|&at| w[at] != found(at));
    expect(other.is_none(), || format!("word {other:?}, of a box of no record, is another"))
}

/// How a refusal may stand to a box that is not its ring's: each must come up, of every call that tests a work space.
pub const OTHER: [&str; 6] = [
    "3, before a box",
    "4, before a box",
    "5, before a box",
    "6, before a box",
    "7 for a box alone",
    "7 for a box, and a name kept twice",
];

/// Which of these a refusal of these words is, if any.
pub fn stands(w: &[u32], refusal: u8) -> Option<&'static str> {
    let held = records(w).min(MOST_RECORDS);
    if !(3..=7).contains(&refusal) || !(0..held).any(|r| is_other(w, r)) {
        return None;
    }
    let mut right = w[..KEPT].to_vec();
    (0..held).for_each(|r| set(&mut right, r));
    match (refusal, plain::tested(&right)) {
        (3..=6, _) => Some(OTHER[refusal as usize - 3]),
        (7, Ok(())) => Some(OTHER[4]),
        (7, Err(_)) if plain::rings_tested(w).is_ok() => Some(OTHER[5]),
        _ => None,
    }
}

// ---- deliberate faults

/// Whether a fault spoils the boxes that a step leaves, or the test of them.
pub fn of_steps(fault: Fault) -> bool {
    use Fault::*;
    matches!(fault, BoxSpike | BoxCut | BoxOffcut | BoxDiscarded | BoxPasses | BoxRingless)
}

/// The answer of a step with a fault.
pub fn stepped(fault: Fault, before: &[u32], w: &mut [u32], r: usize, answer: u32) -> u32 {
    if w.len() < WORDS || r >= records(before).min(MOST_RECORDS) {
        return answer;
    }
    let cut = answer == 0 && records(w) > records(before);
    let put = |w: &mut [u32], r: usize, words: [u32; 4]| {
        SIDES.into_iter().zip(words).for_each(|(column, word)| w[column + r] = word);
    };
    match (fault, answer) {
        (Fault::BoxSpike, 0) if !cut && w[FIRST + r] != NONE => put(w, r, beside(before, r)),
        (Fault::BoxCut, 0) if points(w) > points(before) && w[FIRST + r] != NONE => put(w, r, beside(before, r)),
        (Fault::BoxOffcut, 0) if cut => {
            let ring = beside(before, r);
            put(w, records(before), ring)
        }
        (Fault::BoxDiscarded, 0) if w[FIRST + r] == NONE => put(w, r, beside(before, r)),
        (Fault::BoxPasses, 7) if stands(before, 7) == Some(OTHER[4]) => return 0,
        (Fault::BoxRingless, 0 | 12) => {
            if (0..records(before)).any(|r| before[FIRST + r] == NONE && beside(before, r) != [0; 4]) {
                w.copy_from_slice(before);
                return 7;
            }
        }
        _ => {}
    }
    answer
}

/// Opening sets no box beside an open ring, or clears the boxes of no record.
pub fn opened(fault: Fault, w: &mut [u32]) {
    for r in 0..MOST_RECORDS {
        let spoilt = match fault {
            Fault::BoxOpen => r < records(w) && is_open(w, r),
            _ => r >= records(w),
        };
        if spoilt {
            SIDES.into_iter().for_each(|column| w[column + r] = 0);
        }
    }
}
