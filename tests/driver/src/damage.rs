// Bytes for kind `bytes`: generated jobs with bytes flipped, cut off, doubled or moved, tags and lengths changed; right fields with
// wrong numbers; noise.
use oracle::gen;
use oracle::job::{field, Job, Point, Record, NONE, POINT};
use oracle::rng::Rng;

pub fn bytes(seed: u64, index: u64, rng: &mut Rng) -> Vec<u8> {
    match rng.below(10) {
        0 => noise(rng),
        1..=3 => loose_fields(rng),
        _ => {
            let mut bytes = gen::job(seed, index);
            for _ in 0..1 + rng.below(3) {
                bytes = damage(rng, bytes);
            }
            bytes
        }
    }
}

/// Noise: any bytes, or only small ones, sometimes after a right settings field, sometimes longer than any job.
fn noise(rng: &mut Rng) -> Vec<u8> {
    let length = match rng.below(16) {
        0 => 50_000 + rng.below(30_000),
        1..=4 => rng.below(4),
        _ => rng.below(120),
    };
    let most = rng.pick(&[2, 6, 16, 256]);
    let mut bytes: Vec<u8> = (0..length).map(|_| rng.below(most) as u8).collect();
    if rng.one_in(2) {
        bytes.splice(0..0, field(1, &[rng.below(4) as u8]));
    }
    bytes
}

/// Right fields in the right order whose numbers are mostly small and mostly name something.
fn loose_fields(rng: &mut Rng) -> Vec<u8> {
    let (points, records) = (rng.below(7), rng.below(5));
    let mut job = Job { settings: rng.below(4) as u8, ..Job::default() };
    let number = |rng: &mut Rng, count: usize, none: bool| match rng.below(40) {
        0 => count as u16,
        1 => NONE,
        2..=12 if none => NONE,
        _ => rng.below(count.max(1)) as u16,
    };
    // In any order, nexts go round in circles.
    let order = rng.order(points);
    for p in 0..points {
        let (x, y, z) = (rng.from(0, 9), rng.from(0, 9), gen::depth(rng));
        let mut point = Point { x, y, z, next: order[p], prev: 0, record: 0 };
        point.prev = order.iter().position(|next| *next as usize == p).unwrap_or(0) as u16;
        point.record = number(rng, records, false);
        if rng.one_in(30) {
            point.next = number(rng, points, false);
        }
        if rng.one_in(60) {
            point.x = rng.pick(&[1_048_576, 1_048_577, -1_048_576, -1_048_577]);
        }
        job.points.push(point);
    }
    for _ in 0..records {
        let (owner, first) = (number(rng, records, true), number(rng, points, true));
        job.records.push(Record { flags: rng.below(4) as u8, owner, first });
    }
    if rng.one_in(2) {
        named(&mut job);
    }
    for _ in 0..rng.below(3) {
        job.segments.push(number(rng, points, false));
    }
    for _ in 0..rng.below(3) {
        job.joins.push((number(rng, points, false), number(rng, points, false)));
    }
    job.bytes()
}

/// Each circle gets a record of its own, and its points name it.
fn named(job: &mut Job) {
    let mut seen = vec![false; job.points.len()];
    job.records.clear();
    for first in 0..job.points.len() {
        let mut at = first;
        let record = job.records.len() as u16;
        while at < seen.len() && !seen[at] {
            seen[at] = true;
            job.points[at].record = record;
            at = job.points[at].next as usize;
            if at == first {
                job.records.push(Record { flags: (first % 4 == 3) as u8, owner: NONE, first: first as u16 });
            }
        }
    }
}

/// The places where fields of these bytes start, as far as the lengths lead.
fn starts(bytes: &[u8]) -> Vec<usize> {
    let mut starts = vec![0];
    let mut at = 0;
    while at + 3 <= bytes.len() {
        at += 3 + u16::from_le_bytes([bytes[at + 1], bytes[at + 2]]) as usize;
        if at + 3 <= bytes.len() {
            starts.push(at);
        }
    }
    starts
}

/// One field's bytes, from its start to the next.
fn one_field(rng: &mut Rng, bytes: &[u8]) -> std::ops::Range<usize> {
    let starts = starts(bytes);
    let k = rng.below(starts.len());
    starts[k]..starts.get(k + 1).copied().unwrap_or(bytes.len())
}

fn damage(rng: &mut Rng, mut bytes: Vec<u8>) -> Vec<u8> {
    if bytes.len() < 3 {
        bytes.extend(field(1, &[0]));
    }
    let n = bytes.len();
    let (at, to) = (rng.below(n), rng.below(n));
    let field_at = one_field(rng, &bytes);
    match rng.below(12) {
        0 => (0..1 + rng.below(8)).for_each(|_| bytes[rng.below(n)] ^= 1 << rng.below(8)),
        1 => bytes[at] = rng.pick(&[0, 1, 2, 127, 128, 254, 255]),
        2 => bytes.truncate(at),
        3 => drop(bytes.drain(..at)),
        4 => bytes.extend_from_within(..),
        5 => bytes.extend_from_within(at.min(to)..at.max(to)),
        6 => drop(bytes.drain(field_at)),
        7 => bytes[field_at.start] = rng.below(8) as u8,
        8 => {
            let byte = field_at.start + 1 + rng.below(2);
            if byte < n {
                bytes[byte] = rng.pick(&[0, 1, 2, 4, 5, 14, POINT as u8, 255]);
            }
        }
        9 => {
            // A field given again, or moved, anywhere a field starts.
            let again = bytes[field_at.clone()].to_vec();
            let place = one_field(rng, &bytes).start;
            bytes.splice(place..place, again);
        }
        10 => {
            let tag = rng.below(8) as u8;
            let length = [0, 1, POINT, 5, 2, 4, 0, 3][tag as usize];
            let value: Vec<u8> = (0..length).map(|_| rng.below(3) as u8).collect();
            bytes.extend(field(tag, &value));
        }
        _ => {
            let more: Vec<u8> = (0..1 + rng.below(6)).map(|_| rng.bits() as u8).collect();
            bytes.splice(at..at, more);
        }
    }
    bytes
}
