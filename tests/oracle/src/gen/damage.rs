// Damaged copies of good jobs, for each refusal that reading can give.
use super::depths::depths;
use super::good::{closed_points, edges, level, tangled};
use crate::job::{field, Job, Point, Record, COORDINATE, NONE, OPEN, POINT};
use crate::rng::Rng;

pub fn damaged(rng: &mut Rng, deep: &mut Rng) -> Vec<u8> {
    let mut job = if rng.one_in(3) { level(rng) } else { tangled(rng) };
    depths(deep, &mut job);
    match rng.below(11) {
        0 => torn(rng, job.bytes()),
        1 => strange(rng, job.bytes()),
        2 => flipped(rng, job.bytes()),
        3 => on_a_point(rng, job, |rng, p, _| {
            let beyond = rng.pick(&[COORDINATE + 1, -COORDINATE - 1, i32::MIN, i32::MAX, 1 << 24]);
            if rng.one_in(2) {
                p.x = beyond
            } else {
                p.y = beyond
            }
        }),
        4 | 5 => no_such(rng, job),
        6 => on_a_point(rng, job, |rng, p, points| {
            let other = rng.below(points) as u16;
            if rng.one_in(2) {
                p.next = other
            } else {
                p.prev = other
            }
        }),
        7 | 8 => muddled(rng, job),
        9 => {
            edges(rng, &mut job, 1, 1);
            for record in job.records.iter_mut().filter(|_| rng.one_in(2)) {
                record.flags |= OPEN;
            }
            job.bytes()
        }
        _ => {
            // A knot: a join of a point with its next, after other joins or before.
            edges(rng, &mut job, 0, 1);
            if let Some(&point) = closed_points(&job).last() {
                let at = rng.below(job.joins.len() + 1);
                job.joins.insert(at, (point, job.points[point as usize].next));
            }
            job.bytes()
        }
    }
}

fn torn(rng: &mut Rng, mut bytes: Vec<u8>) -> Vec<u8> {
    match rng.below(4) {
        0 => bytes.truncate(1 + rng.below(bytes.len())),
        1 => bytes.extend((0..1 + rng.below(2)).map(|_| rng.bits() as u8)),
        2 => without_depth(rng, &mut bytes),
        _ => {
            let at = field_start(rng, &bytes) + 1 + rng.below(2);
            bytes[at] = bytes[at].wrapping_add(1 + rng.below(255) as u8);
        }
    }
    bytes
}

/// A point's field without its z, whole otherwise, as jobs had it before.
fn without_depth(rng: &mut Rng, bytes: &mut Vec<u8>) {
    let at = field_start(rng, bytes);
    if bytes[at] == 2 {
        bytes.drain(at + 3 + POINT - 4..at + 3 + POINT);
        bytes[at + 1] -= 4;
    }
}

/// Where a field of a good job starts.
fn field_start(rng: &mut Rng, bytes: &[u8]) -> usize {
    let mut starts = vec![0];
    let mut at = 0;
    while at + 3 < bytes.len() {
        at += 3 + u16::from_le_bytes([bytes[at + 1], bytes[at + 2]]) as usize;
        if at + 3 <= bytes.len() {
            starts.push(at);
        }
    }
    rng.pick(&starts)
}

fn strange(rng: &mut Rng, mut bytes: Vec<u8>) -> Vec<u8> {
    let at = field_start(rng, &bytes);
    match rng.below(5) {
        0 => return Vec::new(),
        1 => bytes[at] = rng.bits() as u8,
        2 => {
            let more = field(1, &[0]);
            bytes.splice(at..at, more);
        }
        3 => bytes.extend(field(2, &[0; POINT])),
        _ => bytes[3] |= 4 << rng.below(6),
    }
    bytes
}

/// A few bytes changed anywhere.
fn flipped(rng: &mut Rng, mut bytes: Vec<u8>) -> Vec<u8> {
    for _ in 0..1 + rng.below(3) {
        let at = rng.below(bytes.len());
        bytes[at] ^= 1 << rng.below(8);
    }
    bytes
}

fn on_a_point(rng: &mut Rng, mut job: Job, change: impl Fn(&mut Rng, &mut Point, usize)) -> Vec<u8> {
    let n = job.points.len();
    if n > 0 {
        let at = rng.below(n);
        change(rng, &mut job.points[at], n);
    }
    job.bytes()
}

/// A number that names nothing; 65,535 where it does not mean none.
fn no_such(rng: &mut Rng, mut job: Job) -> Vec<u8> {
    edges(rng, &mut job, 1, 1);
    let (points, records) = (job.points.len() as u16, job.records.len() as u16);
    let mut beyond = |count: u16, none: bool| {
        let far = count.saturating_add(rng.below(3) as u16);
        if none && rng.one_in(2) {
            NONE
        } else {
            far.min(NONE - 1)
        }
    };
    let (p, r) = (beyond(points, true), beyond(records, true));
    let (first, owner) = (beyond(points, false), beyond(records, false));
    let kind = rng.below(7);
    let (at, of) = (rng.below(points.max(1) as usize), rng.below(records.max(1) as usize));
    match kind {
        0..=2 if points > 0 => match kind {
            0 => job.points[at].next = p,
            1 => job.points[at].prev = p,
            _ => job.points[at].record = r,
        },
        3 if records > 0 => job.records[of].owner = owner,
        4 if records > 0 => job.records[of].first = first,
        5 => job.segments.push(p),
        _ => job.joins.push(if rng.one_in(2) { (p, 0) } else { (0, p) }),
    }
    job.bytes()
}

/// Links stay good; owners circle, a ring has no record or two, a point names another record.
fn muddled(rng: &mut Rng, mut job: Job) -> Vec<u8> {
    if job.records.is_empty() || job.points.is_empty() {
        job.add_ring(0, NONE, &[(0, 0, 1), (9, 0, 2), (9, 9, 3)]);
    }
    let (points, records) = (job.points.len(), job.records.len());
    let (at, of) = (rng.below(points), rng.below(records));
    match rng.below(5) {
        0 => {
            let to = rng.below(records);
            job.records[of].owner = to as u16;
            job.records[to].owner = of as u16;
        }
        1 => job.records[of].first = NONE,
        2 => job.records.push(Record { flags: 0, owner: NONE, first: at as u16 }),
        3 => job.points[at].record = of as u16,
        _ => {
            job.records.push(Record { flags: 0, owner: NONE, first: NONE });
            job.points[at].record = records as u16;
        }
    }
    job.bytes()
}
