// A plain reading of document 01: "A step, or writing out after steps, first tests the work space it is handed".
// And of document 02, Ask 5: "A ringless record without one of the first five reasons kept meets 7; a taker's number naming nothing meets 5".
// And of Ask 13: "A work space whose box isn't its ring's meets 7". And of Ask 8: "A work space keeping one name twice meets 7", last of all. Written from these paragraphs and
// docs/WORKSPACE.md alone.
use crate::boxes;
use crate::names;
use crate::words::*;

/// The tests in the paper's order; the refusal's number where one fails. A work space that is too short is 10, before them all.
pub fn tests(w: &[u32]) -> Result<(), u8> {
    if w.len() < WORDS {
        return Err(10);
    }
    tested(w)
}

/// The tests after the length, of a live block and its names: of its rings, then of the boxes beside them, then of the names.
pub fn tested(w: &[u32]) -> Result<(), u8> {
    rings_tested(w)?;
    if (0..records(w)).any(|r| boxes::is_other(w, r)) || names::twice(w) {
        return Err(7);
    }
    Ok(())
}

/// The tests of the rings alone.
pub fn rings_tested(w: &[u32]) -> Result<(), u8> {
    if points(w) > MOST_POINTS || records(w) > MOST_RECORDS {
        return Err(3);
    }
    let reached = reached(w);
    if reached.iter().any(|&p| off_the_table(w[X + p]) || off_the_table(w[Y + p])) {
        return Err(4);
    }
    if reached.iter().any(|&p| no_such_link(w, p)) || (0..records(w)).any(|r| no_such_name(w, r) || no_such_taker(w, r))
    {
        return Err(5);
    }
    if reached.iter().any(|&p| loose(w, p)) {
        return Err(6);
    }
    if shared(w) || (0..records(w)).any(|r| misplaced(w, r) || untold(w, r)) {
        return Err(7);
    }
    Ok(())
}

/// How a refusal may stand to what ringless records keep: each must come up, of every call that tests a work space.
pub const KEPT: [&str; 8] = [
    "4, before a taker or a reason",
    "5 for a taker alone",
    "5 for a taker, before 6",
    "5 for a taker, before 7",
    "5 for a taker, before a missing reason",
    "5 for another number, before a missing reason",
    "6, before a missing reason",
    "7 for a missing reason alone",
];

/// Which of these a refusal of these words is, if any.
pub fn kept(w: &[u32], refusal: u8) -> Option<&'static str> {
    if !(4..=7).contains(&refusal) {
        return None;
    }
    let ringless: Vec<usize> = (0..records(w)).filter(|&r| w[FIRST + r] == NONE).collect();
    let taker = ringless.iter().any(|&r| no_such_taker(w, r));
    let reason = ringless.iter().any(|&r| untold(w, r));
    if !taker && !reason {
        return None;
    }
    // The same words, but that these records keep a right reason.
    let mut other = w.to_vec();
    ringless.iter().for_each(|&r| other[REASON + r] = NO_RING);
    let which = match (refusal, tested(&other)) {
        (4, _) => 0,
        (5, Ok(())) => 1 + 3 * reason as usize,
        (5, Err(6)) => 2,
        (5, Err(7)) => 3,
        (5, _) if reason => 5,
        (6, _) if reason => 6,
        (7, Ok(())) => 7,
        _ => return None,
    };
    Some(KEPT[which])
}

/// All points reached along next from the first points, as far as a number names a point.
fn reached(w: &[u32]) -> Vec<usize> {
    let mut seen = [false; MOST_POINTS];
    let mut reached = Vec::new();
    for record in 0..records(w) {
        let mut at = w[FIRST + record] as usize;
        while at < points(w) && !seen[at] {
            seen[at] = true;
            reached.push(at);
            at = w[NEXT + at] as usize;
        }
    }
    reached
}

fn off_the_table(word: u32) -> bool {
    word as i64 - RAISED > RAISED
}

/// Next, prev and record of a point.
fn no_such_link(w: &[u32], p: usize) -> bool {
    let point = |number: u32| (number as usize) < points(w);
    !point(w[NEXT + p]) || !point(w[PREV + p]) || w[REC + p] as usize >= records(w)
}

/// Owner and first point of a record; 65,535 means none in these two.
fn no_such_name(w: &[u32], r: usize) -> bool {
    let (owner, first) = (w[OWNER + r], w[FIRST + r]);
    (owner != NONE && owner as usize >= records(w)) || (first != NONE && first as usize >= points(w))
}

/// The taker of a ringless record that was joined into another.
fn no_such_taker(w: &[u32], r: usize) -> bool {
    w[FIRST + r] == NONE && w[REASON + r] == JOINED && w[TAKER + r] as usize >= records(w)
}

/// A ringless record that keeps none of the first five reasons.
fn untold(w: &[u32], r: usize) -> bool {
    w[FIRST + r] == NONE && !(NO_RING..=AT_SPLIT).contains(&w[REASON + r])
}

/// Next of prev, or prev of next, isn't the point.
fn loose(w: &[u32], p: usize) -> bool {
    let (next, prev) = (w[NEXT + p] as usize, w[PREV + p] as usize);
    w[NEXT + prev] as usize != p || w[PREV + next] as usize != p
}

/// Two records share a ring: a walk from a first point meets a point of an earlier record's ring.
fn shared(w: &[u32]) -> bool {
    let mut on = [usize::MAX; MOST_POINTS];
    for record in (0..records(w)).filter(|&r| w[FIRST + r] != NONE) {
        let mut at = w[FIRST + record] as usize;
        while on[at] != record {
            if on[at] != usize::MAX {
                return true;
            }
            on[at] = record;
            at = w[NEXT + at] as usize;
        }
    }
    false
}

/// An unfinished closed ring whose mark has no meaning, or whose present place isn't on it.
fn misplaced(w: &[u32], r: usize) -> bool {
    if !is_live(w, r) {
        return false;
    }
    let first = w[FIRST + r];
    let mut at = first;
    while at != w[PRESENT + r] {
        at = w[NEXT + at as usize];
        if at == first {
            return true;
        }
    }
    w[MARK + r] > DONE
}
