// Jobs that fill the store, jobs on which the Rust does not end, and jobs at a limit and one past it.
use super::depths::depths;
use super::good::{closed_points, edges, level, renumber, tangled};
use super::shapes::{self, flat, At};
use crate::job::{field, Job, Record, COORDINATE, FRONT, JOINS, NONE, OPEN, POINTS, RECORDS, SEGMENTS};
use crate::rng::Rng;

/// Fills up to a number of points with one more ring, which is open or an outline without crossings.
fn fill_points(rng: &mut Rng, job: &mut Job, to: usize) {
    let n = to.saturating_sub(job.points.len());
    if n == 0 {
        return;
    }
    let half = (n + 1) as i32 / 2;
    let outline = |k: usize| {
        let k = k as i32;
        if k < half {
            (k, k % 2)
        } else {
            (2 * half - 1 - k, 5 + k % 2)
        }
    };
    let ring: Vec<At> = (0..n).map(outline).collect();
    let open = if rng.one_in(8) { 0 } else { OPEN };
    job.add_ring(open, NONE, &flat(&ring));
}

/// Fills up to a number of records with ringless ones in owner chains.
fn fill_records(rng: &mut Rng, job: &mut Job, to: usize) {
    let link = rng.one_in(2);
    while job.records.len() < to {
        let last = job.records.len() as u16;
        let owner = if link && last > 0 { last - 1 } else { NONE };
        job.records.push(Record { flags: 0, owner, first: NONE });
    }
}

/// Nearly no point left: segments or crossings need one more than there are, or just as many.
pub fn full_points(rng: &mut Rng) -> Job {
    let mut job = if rng.one_in(2) { level(rng) } else { tangled(rng) };
    for _ in 0..rng.below(3) {
        let size = rng.from(4, 12);
        let bow = shapes::bow(rng, size);
        job.add_ring(0, NONE, &flat(&bow));
    }
    let left = rng.below(5);
    fill_points(rng, &mut job, POINTS - left);
    job
}

/// Nearly no record left: a join that splits or a cut with an offcut needs one more than there are, or just as many.
pub fn full_records(rng: &mut Rng) -> Job {
    let mut job = Job { settings: rng.below(4) as u8, ..Job::default() };
    for _ in 0..1 + rng.below(4) {
        let size = rng.from(4, 12);
        let bow = shapes::bow(rng, size);
        job.add_ring(0, NONE, &flat(&bow));
    }
    if rng.one_in(2) {
        let joins = 1 + rng.below(3);
        edges(rng, &mut job, 0, joins);
    }
    let left = rng.below(4);
    fill_records(rng, &mut job, RECORDS - left);
    if rng.one_in(2) {
        renumber(rng, &mut job);
    }
    job
}

/// Many level segments over one another: with enough of them the joins they make fill the store.
pub fn many_segments(rng: &mut Rng) -> Job {
    let mut job = Job { settings: rng.below(4) as u8, ..Job::default() };
    let spread = rng.from(0, 12);
    for _ in 0..4 + rng.below(90) {
        let left = rng.from(0, spread);
        let (right, high) = (left + rng.from(4, 30), rng.from(1, 9));
        let mut ring = vec![(left, 0), (right, 0), (left, high)];
        if rng.one_in(2) {
            ring.reverse();
        }
        let base = job.points.len() as u16;
        let front = if rng.one_in(4) { FRONT } else { 0 };
        job.add_ring(front, NONE, &flat(&ring));
        let corner = if rng.one_in(8) { 2 } else { rng.below(2) };
        job.segments.push(base + corner as u16);
    }
    job
}

/// Rings on which the Rust doubles and cuts for ever (docs/DIFFERENCES.md), turned and mirrored; some with a point moved.
pub fn endless(rng: &mut Rng) -> Job {
    let ring = [(0, -1), (9, 2), (7, 13), (-1, 0), (8, 9), (0, 0), (9, 5), (10, 0), (6, 16), (9, 0)];
    let turn = rng.below(8);
    let turned = |(x, y): At| {
        let (x, y) = if turn & 1 != 0 { (y, x) } else { (x, y) };
        (if turn & 2 != 0 { -x } else { x }, if turn & 4 != 0 { -y } else { y })
    };
    let mut ring: Vec<At> = ring.into_iter().map(turned).collect();
    if rng.one_in(3) {
        let k = rng.below(ring.len());
        ring[k] = (ring[k].0 + rng.from(-1, 1), ring[k].1 + rng.from(-1, 1));
    }
    let mut job = if rng.one_in(2) { tangled(rng) } else { Job::default() };
    job.add_ring(0, NONE, &flat(&ring));
    if rng.one_in(2) {
        let n = ring.len();
        let k = rng.below(n);
        let record = job.records.len() - 1;
        job.records[record].first = (job.points.len() - n + k) as u16;
    }
    job
}

/// Exactly as many points, records, segments or joins as there may be, or a coordinate at the limit.
pub fn at_a_limit(rng: &mut Rng) -> Job {
    let mut job = tangled(rng);
    match rng.below(5) {
        0 => fill_points(rng, &mut job, POINTS),
        1 => fill_records(rng, &mut job, RECORDS),
        2 => {
            let point = closed_points(&job).first().copied();
            if let Some(point) = point {
                job.segments.resize(SEGMENTS, point);
            }
        }
        3 => {
            let base = job.points.len() as u16;
            job.add_ring(0, NONE, &flat(&shapes::scatter(rng, 5, 9)));
            // A join and its undoing, again and again: each pair splits a ring and merges it.
            while job.joins.len() < JOINS {
                let second = if job.joins.len() % 2 == 0 { base } else { base + 3 };
                job.joins.push((base + 2, second));
            }
        }
        _ => {
            if let Some(point) = job.points.first_mut() {
                (point.x, point.y) = (rng.pick(&[COORDINATE, -COORDINATE]), rng.pick(&[COORDINATE, -COORDINATE]));
            }
        }
    }
    job
}

/// One field more than there may be, or one coordinate beyond; sometimes a later fault too.
pub fn past_a_limit(rng: &mut Rng, deep: &mut Rng) -> Vec<u8> {
    let mut job = tangled(rng);
    match rng.below(5) {
        0 => fill_points(rng, &mut job, POINTS + 1),
        1 => fill_records(rng, &mut job, RECORDS + 1),
        2 => job.segments.resize(SEGMENTS + 1, 0),
        3 => job.joins.resize(JOINS + 1, (0, 0)),
        _ => {
            if let Some(point) = job.points.last_mut() {
                let beyond = rng.pick(&[COORDINATE + 1, -COORDINATE - 1, i32::MIN, i32::MAX]);
                if rng.one_in(2) {
                    point.x = beyond
                } else {
                    point.y = beyond
                }
            }
        }
    }
    depths(deep, &mut job);
    let mut bytes = job.bytes();
    if rng.one_in(4) {
        bytes.extend(field(9, &[]));
    }
    bytes
}
