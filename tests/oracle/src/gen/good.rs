// Jobs that can be read: tangled rings, rings with shared level edges, long rings, rings out to the coordinate limit.
use super::shapes::{self, flat, At};
use crate::job::{Job, Record, COORDINATE, FRONT, NONE, OPEN};
use crate::rng::Rng;

fn fresh(rng: &mut Rng) -> Job {
    Job { settings: rng.below(4) as u8, ..Job::default() }
}

/// An owner among the records there are, or none.
fn owner(rng: &mut Rng, job: &Job) -> u16 {
    if job.records.is_empty() || rng.one_in(2) {
        NONE
    } else {
        rng.below(job.records.len()) as u16
    }
}

fn add(rng: &mut Rng, job: &mut Job, ring: &[At]) {
    let open = if rng.one_in(8) { OPEN } else { 0 };
    let front = if rng.one_in(3) { FRONT } else { 0 };
    let owner = owner(rng, job);
    job.add_ring(open | front, owner, &flat(ring));
    if rng.one_in(8) {
        ringless(rng, job);
    }
}

/// A record without a ring, owned by the last one; some points of the ring that it leads to may name it.
fn ringless(rng: &mut Rng, job: &mut Job) {
    let number = job.records.len() as u16;
    let owner = if rng.one_in(4) { owner(rng, job) } else { number - 1 };
    job.records.push(Record { flags: rng.below(4) as u8, owner, first: NONE });
    let mut real = owner;
    while real != NONE && job.records[real as usize].first == NONE {
        real = job.records[real as usize].owner;
    }
    for point in job.points.iter_mut().filter(|p| p.record == real) {
        if rng.one_in(2) {
            point.record = number;
        }
    }
}

/// The points on closed rings.
pub fn closed_points(job: &Job) -> Vec<u16> {
    let mut out = Vec::new();
    for record in job.records.iter().filter(|r| r.first != NONE && r.flags & OPEN == 0) {
        let mut at = record.first;
        loop {
            out.push(at);
            at = job.points[at as usize].next;
            if at == record.first {
                break;
            }
        }
    }
    out
}

/// Level segments and joins at random closed points.
pub fn edges(rng: &mut Rng, job: &mut Job, segments: usize, joins: usize) {
    let closed = closed_points(job);
    if closed.is_empty() {
        return;
    }
    for _ in 0..segments {
        job.segments.push(rng.pick(&closed));
    }
    for _ in 0..joins {
        let first = rng.pick(&closed);
        let mut second = rng.pick(&closed);
        if job.points[first as usize].next == second && !rng.one_in(8) {
            second = job.points[first as usize].prev;
        }
        job.joins.push((first, second));
    }
}

/// The same job with its points and records numbered otherwise and its rings started elsewhere.
pub fn renumber(rng: &mut Rng, job: &mut Job) {
    let point = rng.order(job.points.len());
    let record = rng.order(job.records.len());
    let name = |record: &[u16], r: u16| if r == NONE { NONE } else { record[r as usize] };
    let mut points = job.points.clone();
    for (k, p) in job.points.iter().enumerate() {
        let to = &mut points[point[k] as usize];
        *to = p.clone();
        (to.next, to.prev, to.record) = (point[p.next as usize], point[p.prev as usize], record[p.record as usize]);
    }
    let mut records = job.records.clone();
    for (k, r) in job.records.iter().enumerate() {
        let mut first = r.first;
        for _ in 0..if first == NONE { 0 } else { rng.below(4) } {
            first = job.points[first as usize].next;
        }
        records[record[k] as usize] =
            Record { flags: r.flags, owner: name(&record, r.owner), first: name(&point, first) };
    }
    (job.points, job.records) = (points, records);
    job.segments.iter_mut().for_each(|s| *s = point[*s as usize]);
    job.joins.iter_mut().for_each(|(a, b)| (*a, *b) = (point[*a as usize], point[*b as usize]));
}

/// A few small rings of any shape.
pub fn tangled(rng: &mut Rng) -> Job {
    let mut job = fresh(rng);
    for _ in 0..rng.below(4) + rng.below(2) {
        let ring = shapes::any(rng);
        add(rng, &mut job, &ring);
    }
    if rng.one_in(4) {
        let (segments, joins) = (rng.below(4), rng.below(4));
        edges(rng, &mut job, segments, joins);
    }
    if rng.one_in(2) {
        renumber(rng, &mut job);
    }
    job
}

/// Rings that share level edges, with segments and joins on them.
pub fn level(rng: &mut Rng) -> Job {
    let mut job = fresh(rng);
    let step = rng.from(1, 6);
    let levels: Vec<i32> = (0..1 + rng.from(0, 3)).map(|k| k * step).collect();
    for _ in 0..1 + rng.below(4) {
        let ring = if rng.one_in(3) { shapes::comb(rng, &levels) } else { shapes::block(rng, &levels) };
        add(rng, &mut job, &ring);
    }
    let (segments, joins) = (rng.below(9), if rng.one_in(3) { rng.below(4) } else { 0 });
    edges(rng, &mut job, segments, joins);
    if rng.one_in(2) {
        renumber(rng, &mut job);
    }
    job
}

/// One or two rings of up to some ninety points.
pub fn long(rng: &mut Rng) -> Job {
    let mut job = fresh(rng);
    for _ in 0..1 + rng.below(2) {
        let n = 14 + rng.below(80);
        let side = rng.from(6, 60);
        let ring = match rng.below(3) {
            0 => shapes::scatter(rng, n, side),
            1 => shapes::wander(rng, n),
            _ => shapes::star(rng, n, side),
        };
        add(rng, &mut job, &ring);
    }
    renumber(rng, &mut job);
    job
}

/// Small shapes thrown out to the coordinate limit: crossings that round, and areas near 2^42.
pub fn wide(rng: &mut Rng) -> Job {
    let mut job = fresh(rng);
    for _ in 0..1 + rng.below(3) {
        let n = 3 + rng.below(9);
        let side = rng.pick(&[2, 1000, COORDINATE / 3, COORDINATE]);
        let coordinate = |rng: &mut Rng| {
            let c = rng.from(-side, side);
            rng.pick(&[c, c, c, COORDINATE, -COORDINATE])
        };
        let ring: Vec<At> = (0..n).map(|_| (coordinate(rng), coordinate(rng))).collect();
        add(rng, &mut job, &ring);
    }
    if rng.one_in(4) {
        edges(rng, &mut job, 2, 1);
    }
    renumber(rng, &mut job);
    job
}
