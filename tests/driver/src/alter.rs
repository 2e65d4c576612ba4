// Alterations of a work space, by kind: counts, links, records, first points, progress marks, present places, reasons and takers, coordinates, depths, boxes, names, any word;
// and some that keep it sound but leave it in a state that our own calls never make. For laying together, what it asks. Whoever alters a ring mostly sets its box too.
use crate::boxes;
use crate::words::*;
use oracle::gen;
use oracle::rng::Rng;

/// A number that names one of `count`, or nearly, or nothing at all.
fn number(rng: &mut Rng, count: usize) -> u32 {
    let count = count as u32;
    match rng.below(12) {
        0 => count,
        1 => NONE,
        2 => rng.pick(&[count.wrapping_add(1), 2047, 2048, 511, 512, NONE + 1, count ^ 65_536, u32::MAX, 1 << 31]),
        3 => rng.bits() as u32,
        _ => rng.below(count.max(1) as usize) as u32,
    }
}

/// A point of some record's ring; none where there are no rings.
fn ring_point(rng: &mut Rng, w: &[u32]) -> Option<usize> {
    let record = some_record(rng, w)?;
    let mut at = w[FIRST + record];
    for _ in 0..rng.below(12) {
        if (at as usize) < MOST_POINTS {
            at = w[NEXT + at as usize];
        }
    }
    ((at as usize) < points(w).min(MOST_POINTS)).then_some(at as usize)
}

fn some_record(rng: &mut Rng, w: &[u32]) -> Option<usize> {
    let held = records(w).min(MOST_RECORDS);
    let record = rng.below(held.max(1));
    (held > 0).then_some(record)
}

/// Alters something and says what: a box; or something else, and boxes that were right follow, but once in eight times.
pub fn alter(w: &mut [u32], rng: &mut Rng) -> String {
    if rng.one_in(12) {
        return a_box(w, rng);
    }
    let right = boxes::right(w);
    let said = some_way(w, rng);
    if rng.one_in(8) {
        return said;
    }
    boxes::follow(w, &right);
    said + ", and its box"
}

fn some_way(w: &mut [u32], rng: &mut Rng) -> String {
    match rng.below(33) {
        0 => count(w, rng),
        1..=4 => point_word(w, rng),
        5..=11 => record_word(w, rng),
        12 => {
            let at = rng.below(w.len());
            put(w, at, rng.bits() as u32)
        }
        13 => {
            let at = rng.below(X);
            put(w, at, rng.bits() as u32)
        }
        14..=16 => exchange(w, rng),
        17..=19 => take_out(w, rng),
        20 => fill(w, rng),
        21 => end_all(w, rng),
        22 => lone_point(w, rng),
        23..=25 => kept(w, rng),
        _ => progress(w, rng),
    }
}

fn put(w: &mut [u32], at: usize, word: u32) -> String {
    w[at] = word;
    format!("word {at} is {word}")
}

fn count(w: &mut [u32], rng: &mut Rng) -> String {
    let (at, most) = rng.pick(&[(POINTS, MOST_POINTS as u32), (RECORDS, MOST_RECORDS as u32)]);
    let held = w[at];
    let word =
        rng.pick(&[0, 1, held.wrapping_sub(1), held.wrapping_add(1), most, most + 1, most - 1, u32::MAX, 65_536]);
    put(w, at, word)
}

/// A coordinate, a depth, which may be any word, a link or the record of a point on a ring.
fn point_word(w: &mut [u32], rng: &mut Rng) -> String {
    let Some(p) = ring_point(rng, w) else {
        return "nothing".into();
    };
    let (points, records) = (points(w), records(w));
    match rng.below(9) {
        8 => put(w, Z + p, any_depth(rng)),
        0 | 1 => {
            let near = (1 << 20) + rng.below(24) as u32;
            let word = rng.pick(&[0, 1 << 20, 1 << 21, (1 << 21) + 1, u32::MAX, near, near]);
            put(w, rng.pick(&[X, Y]) + p, word)
        }
        2 | 3 => put(w, NEXT + p, number(rng, points)),
        4 | 5 => put(w, PREV + p, number(rng, points)),
        _ => put(w, REC + p, number(rng, records)),
    }
}

/// The word of any depth.
fn any_depth(rng: &mut Rng) -> u32 {
    gen::depth(rng) as u32
}

/// One word of a record.
fn record_word(w: &mut [u32], rng: &mut Rng) -> String {
    let Some(r) = some_record(rng, w) else {
        return "nothing".into();
    };
    let (points, records) = (points(w), records(w));
    let on_ring = ring_point(rng, w).unwrap_or(0) as u32;
    match rng.below(11) {
        0 => put(w, FLAGS + r, rng.bits() as u32),
        1 => put(w, FLAGS + r, w[FLAGS + r] ^ 1),
        2 => put(w, OWNER + r, number(rng, records)),
        3 => put(w, FIRST + r, number(rng, points)),
        4 => put(w, FIRST + r, rng.pick(&[on_ring, NONE])),
        5 => put(w, MARK + r, rng.pick(&[0, 1, 2, 3, 4, 5, 6, 255, NONE, u32::MAX])),
        6 => {
            let any = number(rng, points);
            put(w, PRESENT + r, rng.pick(&[on_ring, any]))
        }
        7 => {
            let any = number(rng, points);
            put(w, START + r, rng.pick(&[on_ring, any]))
        }
        8 => put(w, CUT + r, number(rng, records)),
        9 => put(w, REASON + r, rng.pick(&[0, 1, 2, 3, 4, 5, 6, NONE, u32::MAX])),
        _ => put(w, TAKER + r, number(rng, records)),
    }
}

/// A link of a point on a ring leads to some point on a ring.
pub fn a_link(w: &mut [u32], rng: &mut Rng) -> String {
    match (ring_point(rng, w), ring_point(rng, w)) {
        (Some(p), Some(q)) => put(w, rng.pick(&[NEXT, PREV]) + p, q as u32),
        _ => "nothing".into(),
    }
}

/// A side of a record's box, with a ring or without, is another, or all four are.
pub fn a_box(w: &mut [u32], rng: &mut Rng) -> String {
    let Some(r) = some_record(rng, w) else {
        return "nothing".into();
    };
    if rng.one_in(6) {
        let from = rng.below(records(w).min(MOST_RECORDS));
        SIDES.into_iter().for_each(|column| w[column + r] = w[column + from]);
        return format!("record {r} has the box of record {from}");
    }
    let at = rng.pick(&SIDES) + r;
    let held = w[at];
    let any = rng.bits() as u32;
    let near = [held.wrapping_add(1), held.wrapping_sub(1), held ^ 65_536, held ^ (1 << 31)];
    put(w, at, rng.pick(&[near[0], near[0], near[1], near[1], near[2], near[3], 0, 1 << 20, 1 << 21, u32::MAX, any]))
}

/// A place's word is another: another place's, free in one of two ways, some name.
pub fn names(w: &mut [u32], rng: &mut Rng) -> String {
    let place = rng.below(STATES);
    let other = (place + 1 + rng.below(STATES - 1)) % STATES;
    let name = 1 + rng.below(256) as u32;
    let word = rng.pick(&[w[NAMES + other], name, 1, 256, 257, 65_536 + name, u32::MAX, 0]);
    if !rng.one_in(4) {
        put(w, NAMES + other, word);
    }
    put(w, NAMES + place, word) + &format!(", and word {} is {}", NAMES + other, w[NAMES + other])
}

/// Names, and beside them a count, a coordinate, a link, a box or nothing, so that the order of the tests shows.
pub fn names_beside(w: &mut [u32], rng: &mut Rng) -> String {
    let said = names(w, rng);
    let beside = match (rng.below(5), ring_point(rng, w)) {
        (4, _) => a_box(w, rng),
        (0, _) => count(w, rng),
        (1, Some(p)) => put(w, rng.pick(&[X, Y]) + p, rng.pick(&[(1 << 21) + 1, u32::MAX])),
        (2, _) => point_word(w, rng),
        _ => return said,
    };
    format!("{said}; {beside}")
}

/// A record loses its ring, or the reason or the taker of one without is another.
pub fn kept(w: &mut [u32], rng: &mut Rng) -> String {
    let held = records(w).min(MOST_RECORDS);
    if held == 0 {
        return "nothing".into();
    }
    let ringless: Vec<usize> = (0..held).filter(|&r| w[FIRST + r] == NONE).collect();
    let r = if ringless.is_empty() || rng.one_in(4) { rng.below(held) } else { rng.pick(&ringless) };
    if !rng.one_in(6) {
        w[FIRST + r] = NONE;
    }
    let any = held as u32;
    let taker = rng.pick(&[0, r as u32, any - 1, any - 1, any, any + 1, 511, 512, NONE, any + 65_536, u32::MAX]);
    match rng.below(5) {
        0 => w[REASON + r] = rng.pick(&[0, 6, 7, 8, 9, 255, 256 + JOINED, 65_536 + NO_RING, NONE, u32::MAX]),
        1 => w[TAKER + r] = taker,
        2 => (w[REASON + r], w[TAKER + r]) = (JOINED, taker),
        3 => (w[REASON + r], w[TAKER + r]) = (JOINED, rng.below(held) as u32),
        _ => w[REASON + r] = 1 + rng.below(5) as u32,
    }
    format!("record {r} has first point {}, reason {}, taker {}", w[FIRST + r], w[REASON + r], w[TAKER + r])
}

/// Two points exchange their nexts, links kept right: a ring falls in two, or two become one.
fn exchange(w: &mut [u32], rng: &mut Rng) -> String {
    let (Some(a), Some(b)) = (ring_point(rng, w), ring_point(rng, w)) else {
        return "nothing".into();
    };
    let (next_a, next_b) = (w[NEXT + a] as usize, w[NEXT + b] as usize);
    if next_a >= MOST_POINTS || next_b >= MOST_POINTS {
        return "nothing".into();
    }
    (w[NEXT + a], w[NEXT + b]) = (next_b as u32, next_a as u32);
    (w[PREV + next_b], w[PREV + next_a]) = (a as u32, b as u32);
    format!("points {a} and {b} exchange their nexts")
}

/// A point is taken out of its ring, links kept right; rings of one and of two points come of it.
fn take_out(w: &mut [u32], rng: &mut Rng) -> String {
    let times = 1 + rng.below(6);
    let mut said = "taken out:".to_string();
    for _ in 0..times {
        let Some(p) = ring_point(rng, w) else {
            break;
        };
        let (next, prev) = (w[NEXT + p] as usize, w[PREV + p] as usize);
        if next >= MOST_POINTS || prev >= MOST_POINTS || next == p {
            continue;
        }
        w[NEXT + prev] = next as u32;
        w[PREV + next] = prev as u32;
        // The record keeps a first point and a present place, mostly on the ring.
        for r in 0..records(w).min(MOST_RECORDS) {
            for column in [FIRST, PRESENT] {
                if w[column + r] as usize == p && !rng.one_in(8) {
                    w[column + r] = next as u32;
                }
            }
        }
        said += &format!(" {p}");
    }
    said
}

/// The store is full, or nearly: all points in use, or all records, the further ones ringless.
fn fill(w: &mut [u32], rng: &mut Rng) -> String {
    let left = rng.below(3);
    if rng.one_in(2) {
        return put(w, POINTS, (MOST_POINTS - left) as u32);
    }
    for r in records(w).min(MOST_RECORDS)..MOST_RECORDS - left {
        (w[OWNER + r], w[FIRST + r], w[REASON + r]) = (NONE, NONE, NO_RING);
    }
    put(w, RECORDS, (MOST_RECORDS - left) as u32)
}

/// Every ring is done, or all but one.
fn end_all(w: &mut [u32], rng: &mut Rng) -> String {
    let held = records(w).min(MOST_RECORDS);
    let but = if rng.one_in(3) { rng.below(held + 1) } else { held };
    (0..held).filter(|r| *r != but).for_each(|r| w[MARK + r] = DONE);
    format!("all marks are done but record {but}'s")
}

/// One more record with a ring of one new point.
fn lone_point(w: &mut [u32], rng: &mut Rng) -> String {
    let (p, r) = (points(w), records(w));
    if p >= MOST_POINTS || r >= MOST_RECORDS {
        return "nothing".into();
    }
    (w[POINTS], w[RECORDS]) = (p as u32 + 1, r as u32 + 1);
    (w[X + p], w[Y + p], w[Z + p]) = (1 << 20, 1 << 20, any_depth(rng));
    (w[NEXT + p], w[PREV + p], w[REC + p]) = (p as u32, p as u32, r as u32);
    (w[FLAGS + r], w[OWNER + r], w[FIRST + r]) = (rng.one_in(6) as u32, NONE, p as u32);
    (w[MARK + r], w[PRESENT + r], w[START + r], w[CUT + r]) = (rng.below(5) as u32, p as u32, number(rng, p), NONE);
    format!("a record {r} with a ring of one point")
}

/// A ring is somewhere else in its stepping: any mark, any place on it, any start.
pub fn progress(w: &mut [u32], rng: &mut Rng) -> String {
    let Some(r) = some_record(rng, w) else {
        return "nothing".into();
    };
    let mut at = w[FIRST + r];
    for _ in 0..rng.below(9) {
        if (at as usize) < MOST_POINTS {
            at = w[NEXT + at as usize];
        }
    }
    w[MARK + r] = rng.pick(&[0, 1, 1, 2, 3, 3, 3, 4]);
    w[PRESENT + r] = at;
    if rng.one_in(2) {
        w[START + r] = ring_point(rng, w).unwrap_or(0) as u32;
    }
    format!("record {r} has mark {}, present place {at}, start {}", w[MARK + r], w[START + r])
}

/// An alteration of any kind; settings, progress, and what laying asks of records more often than others.
pub fn before_laying(w: &mut [u32], rng: &mut Rng) -> String {
    match rng.below(16) {
        0 | 1 => {
            let any = rng.bits() as u32;
            let held = w[SETTINGS];
            w[SETTINGS] = rng.pick(&[held ^ 256, held ^ 4, held ^ 1, held ^ 2, held ^ 128, held | !255, any]);
            format!("the settings word is {}", w[SETTINGS])
        }
        2 | 3 => progress(w, rng),
        4 => kept(w, rng),
        5 => names_beside(w, rng),
        6 => {
            let said = made_up(&mut w[..BLOCK], rng);
            // As a job leaves them: laying is carried out on such words too.
            (0..records(w)).filter(|_| rng.one_in(2)).for_each(|r| (w[MARK + r], w[PRESENT + r]) = (0, w[FIRST + r]));
            said
        }
        7..=11 => asked(w, rng),
        _ => alter(w, rng),
    }
}

/// What laying asks of a record, or what it must carry over, altered so that the tests pass: the record it was cut from, a reason, a present place, a start, a taker, an owner.
fn asked(w: &mut [u32], rng: &mut Rng) -> String {
    let held = records(w).min(MOST_RECORDS);
    if held == 0 {
        return "nothing".into();
    }
    let live: Vec<usize> = (0..held).filter(|&r| is_live(w, r)).collect();
    let r = if live.is_empty() || rng.one_in(3) { rng.below(held) } else { rng.pick(&live) };
    let any = rng.pick(&[0, held as u32 - 1, held as u32, NONE, 1 << 20]);
    match rng.below(8) {
        0 => w[CUT + r] = any,
        1 => (w[FIRST + r], w[REASON + r]) = (NONE, 1 + rng.below(5) as u32),
        2 => w[TAKER + r] = any,
        3..=5 => w[PRESENT + r] = w[NEXT + (w[FIRST + r] as usize).min(MOST_POINTS - 1)],
        6 => w[START + r] = rng.pick(&[0, w[POINTS].wrapping_sub(1), w[POINTS], NONE, u32::MAX]),
        _ => w[OWNER + r] = rng.pick(&[NONE, (r + 1) as u32 % held as u32]),
    }
    format!(
        "record {r}: cut {}, reason {}, present {}, start {}, taker {}, owner {}",
        w[CUT + r],
        w[REASON + r],
        w[PRESENT + r],
        w[START + r],
        w[TAKER + r],
        w[OWNER + r]
    )
}

/// A work space that no job made: a few points in circles, a few records, numbers that mostly name something.
pub fn made_up(w: &mut [u32], rng: &mut Rng) -> String {
    let (points, records) = (1 + rng.below(9), 1 + rng.below(4));
    w.fill(rng.pick(&[0, NONE, u32::MAX]));
    (w[SETTINGS], w[POINTS], w[RECORDS]) = (rng.below(4) as u32, points as u32, records as u32);
    let mut next: Vec<usize> = (0..points).collect();
    (1..points).rev().for_each(|k| next.swap(k, rng.below(k + 1)));
    for p in 0..points {
        (w[X + p], w[Y + p]) = ((1 << 20) + rng.below(9) as u32, (1 << 20) + rng.below(9) as u32);
        w[Z + p] = any_depth(rng);
        w[NEXT + p] = next[p] as u32;
        w[PREV + next[p]] = p as u32;
        w[REC + p] = if rng.one_in(80) { number(rng, records) } else { rng.below(records) as u32 };
    }
    for r in 0..records {
        let any = rng.below(points) as u32;
        w[FLAGS + r] = rng.one_in(6) as u32;
        w[OWNER + r] = if rng.one_in(20) { number(rng, records) } else { NONE };
        w[FIRST + r] = if rng.one_in(3) { NONE } else { any };
        w[MARK + r] = rng.pick(&[0, 1, 1, 2, 3, 3, 3, 4, 4, 5]);
        w[PRESENT + r] = if rng.one_in(2) { any } else { rng.below(points) as u32 };
        w[START + r] = if rng.one_in(4) { number(rng, points) } else { rng.below(points) as u32 };
        w[CUT + r] = NONE;
        w[REASON + r] = if rng.one_in(20) { rng.below(8) as u32 } else { 1 + rng.below(5) as u32 };
        w[TAKER + r] = if rng.one_in(20) { number(rng, records) } else { rng.below(records) as u32 };
    }
    if !rng.one_in(12) {
        (0..records).for_each(|r| boxes::set(w, r));
    }
    format!("made up: {points} points, {records} records")
}
