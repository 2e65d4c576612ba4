// Jobs for kind `large`: rings of up to some two thousand points, hundreds of small rings, up to 256 segments and joins.
use oracle::gen;
use oracle::job::{Job, FRONT, JOINS, NONE, OPEN, RECORDS, SEGMENTS};
use oracle::rng::Rng;

type At = (i32, i32);

pub fn job(rng: &mut Rng) -> Vec<u8> {
    let mut job = Job { settings: rng.below(4) as u8, ..Job::default() };
    let most = rng.pick(&[200, 500, 1000, 1500, 2000]);
    let alike = rng.below(5);
    while job.points.len() < most && job.records.len() < RECORDS - 12 {
        let left = most - job.points.len();
        let ring = match alike {
            0 => wander(rng, left),
            1 => {
                let n = left.min(12 + rng.below(400));
                star(rng, n)
            }
            2 => comb(rng, left),
            3 => outline(rng, left),
            _ => gen::ring(rng),
        };
        let flags = rng.one_in(3) as u8 * FRONT + rng.one_in(16) as u8 * OPEN;
        job.add_ring(flags, NONE, &gen::flat(&ring));
    }
    if rng.one_in(2) {
        edges(rng, &mut job);
    }
    gen::depths(rng, &mut job);
    job.bytes()
}

/// Segments and joins at points of closed rings.
fn edges(rng: &mut Rng, job: &mut Job) {
    let closed: Vec<u16> = (0..job.points.len() as u16)
        .filter(|p| job.records[job.points[*p as usize].record as usize].flags & OPEN == 0)
        .collect();
    if closed.is_empty() {
        return;
    }
    let (segments, joins) = (rng.pick(&[0, 3, 20, 60, SEGMENTS]), rng.pick(&[0, 3, 40, JOINS]));
    for _ in 0..segments {
        job.segments.push(rng.pick(&closed));
    }
    for _ in 0..joins {
        let (first, second) = (rng.pick(&closed), rng.pick(&closed));
        if job.points[first as usize].next != second {
            job.joins.push((first, second));
        }
    }
}

/// Short steps from point to point, or long ones.
fn wander(rng: &mut Rng, n: usize) -> Vec<At> {
    let reach = rng.pick(&[1, 3, 20, 400]);
    let mut at = (0, 0);
    (0..n)
        .map(|_| {
            at = (at.0 + rng.from(-reach, reach), at.1 + rng.from(-reach, reach));
            at
        })
        .collect()
}

/// Places round a circle, taken in strides.
fn star(rng: &mut Rng, n: usize) -> Vec<At> {
    let n = n.max(3);
    let (stride, size) = (1 + rng.below(n / 2), rng.pick(&[20.0, 300.0, 1_000_000.0]));
    let turn = |k: usize| (k * stride % n) as f64 / n as f64 * std::f64::consts::TAU;
    (0..n).map(|k| ((size * turn(k).cos()) as i32, (size * turn(k).sin()) as i32)).collect()
}

/// Level edges at a few heights, up and down.
fn comb(rng: &mut Rng, n: usize) -> Vec<At> {
    let mut x = 0;
    let heights = rng.from(1, 5);
    let mut ring = Vec::new();
    while ring.len() + 2 < n.max(6) {
        let y = rng.from(0, heights);
        ring.push((x, y));
        x += rng.from(1, 6);
        ring.push((x, y));
    }
    ring.push((x, -3));
    ring.push((0, -3));
    ring
}

/// An outline there and back, hardly crossing, with in-line points and small notches.
fn outline(rng: &mut Rng, n: usize) -> Vec<At> {
    let half = n.max(6) / 2;
    let there = (0..half).map(|k| (3 * k as i32, k as i32 % 2));
    let back = (0..half).map(|k| (3 * (half - k) as i32, 9 + rng.from(0, 1)));
    let mut ring: Vec<At> = there.chain(back.collect::<Vec<_>>()).collect();
    for _ in 0..rng.below(40) {
        let (a, b) = (rng.below(ring.len()), rng.below(ring.len()));
        if a.abs_diff(b) < 4 {
            ring.swap(a, b);
        }
    }
    ring
}
