// Kind `contains`: outline_contained against the real Rust's `path2_contains_path1` on the closed paths of the Rust's own run: the answer, every byte of the answers and of the tray, every word.
use crate::calls::Fault;
use crate::finish::{expected, read_tray, tray_length, work_length, Expected};
use crate::room::{all_zero, expect, Room, Same};
use crate::words::WORDS;
use oracle::answer::Answer;
use oracle::contains::{answers, pairs, path};
use oracle::core::{point_in_polygon, Path64, PointInPolygonResult};
use oracle::gen;
use oracle::job::{Job, NONE, RECORDS};
use oracle::real::Pt;
use oracle::rng::Rng;

extern "C" {
    fn outline_contained(
        job: *const u8,
        job_length: usize,
        work: *mut u32,
        words: usize,
        tray: *mut u8,
        tray_length: usize,
        answers: *mut u8,
        answers_length: usize,
    ) -> u32;
}

/// So many bytes always suffice.
const ANSWERS: usize = RECORDS * (RECORDS - 1);
/// What comes up; a long run must have met each.
pub const SEEN: [&str; 6] = [
    "pairs: yes",
    "pairs: no",
    "pairs: equal paths",
    "pairs: all of path1 on path2",
    "pairs: path2 begins level with path1's first point",
    "pairs: the middle decides",
];

type At = (i32, i32);

/// A job of any kind, or one of nested, touching, equal, level or many rings.
pub fn job(seed: u64, index: u64, rng: &mut Rng) -> Vec<u8> {
    let mut job = Job { settings: rng.below(4) as u8, ..Job::default() };
    let kind = rng.below(8);
    if kind < 2 {
        return gen::job(seed, index);
    }
    let most = if rng.one_in(40) { 400 } else { 1 + rng.below(12) };
    let mut ring = shape(rng, 0);
    for k in 0..most {
        ring = match kind {
            2 => nested(rng, k as i32),
            3 if rng.one_in(2) => turned(rng, ring),
            4 => level(rng),
            5 => square(rng.from(0, 40) * 30, rng.from(0, 40) * 30, rng.from(4, 40)),
            _ => touching(rng),
        };
        if job.points.len() + ring.len() > 1_900 {
            break;
        }
        job.add_ring(0, NONE, &gen::flat(&ring));
    }
    gen::depths(rng, &mut job);
    job.bytes()
}

fn square(x: i32, y: i32, side: i32) -> Vec<At> {
    vec![(x, y), (x + side, y), (x + side, y + side), (x, y + side)]
}

/// A triangle, square or diamond about the middle, larger with k.
fn shape(rng: &mut Rng, k: i32) -> Vec<At> {
    let r = 6 + 5 * k + rng.from(0, 6);
    match rng.below(3) {
        0 => vec![(-r, -r), (r, -r), (0, r)],
        1 => square(-r, -r, 2 * r),
        _ => vec![(0, -r), (r, 0), (0, r), (-r, 0)],
    }
}

/// Shapes one in another, either way round, from any of their points on.
fn nested(rng: &mut Rng, k: i32) -> Vec<At> {
    let ring = shape(rng, k);
    turned(rng, ring)
}

fn turned(rng: &mut Rng, mut ring: Vec<At>) -> Vec<At> {
    let first = rng.below(ring.len());
    ring.rotate_left(first);
    if rng.one_in(2) {
        ring.reverse();
    }
    ring
}

/// Corners and sides on a small grid: many lie on one another's.
fn touching(rng: &mut Rng) -> Vec<At> {
    let mut at = || (rng.from(0, 4) * 6, rng.from(0, 4) * 6);
    let ((a, b), (c, d), (e, f)) = (at(), at(), at());
    let (c, d) = (if c == a { a + 6 } else { c }, if d == b { b + 6 } else { d });
    let ring = match rng.below(3) {
        0 => vec![(a, b), (c, b), (e, f)],
        1 => vec![(a, b), (c, b), (c, d), (e, d), (a, f)],
        _ => vec![(a, b), (c, b), (c, d), (a, d)],
    };
    turned(rng, ring)
}

/// Rings that begin with several points of one height, at heights which others have too.
fn level(rng: &mut Rng) -> Vec<At> {
    let (x, y, n) = (rng.from(-8, 8), rng.from(0, 3) * 8, rng.from(2, 5));
    let mut ring: Vec<At> = (0..n).map(|k| (x + 9 * k, y + if k % 2 == 1 && rng.one_in(4) { 3 } else { 0 })).collect();
    ring.push((x + 9 * n, y + 8));
    ring.push((x + rng.from(-8, 8), y + 8 * rng.from(1, 3)));
    turned(rng, ring)
}

/// One call, with lent slices of any length and content.
pub fn case(room: &mut Room, rng: &mut Rng) -> Same {
    let expected = expected(room);
    let (bytes, closed) = match &expected {
        Expected::Refused(_) => (Vec::new(), Vec::new()),
        Expected::Finished { answer, .. } => (answer.tray(), closed_of(answer)),
    };
    let told = answers(&closed);
    let (words, length) = (work_length(rng), tray_length(rng, bytes.len()));
    let room_for = answers_length(rng, told.len());
    let fill = rng.pick(&[u32::MAX, 1, 65_535, 0x0101_0101]);
    room.work.lend(words, fill);
    room.tray.lend(length, 1 + rng.below(255) as u8);
    room.text.lend(room_for, 1 + rng.below(255) as u8);
    let answer = contained(room);
    room.trace.push(format!("contained with {words} words, a tray of {length} and a slice of {room_for}: {answer}"));
    room.tally.answer("contained", answer);
    let number = match &expected {
        _ if words < WORDS => 10,
        Expected::Refused(number) => *number as u32,
        Expected::Finished { .. } if bytes.len() > length || told.len() > room_for => 11,
        Expected::Finished { .. } => 0,
    };
    expect(answer == number, || format!("the answer is {answer}, the Rust's {number}"))?;
    room.margins()?;
    if number != 0 {
        expect(all_zero(room.work.get()), || "a refused job leaves a word".into())?;
        expect(all_zero(room.tray.get()), || "a refused job leaves a byte of the tray".into())?;
        return expect(all_zero(room.text.get()), || "a refused job leaves a byte of the answers".into());
    }
    same_pairs(room.text.get(), &told)?;
    let (tray, work) = (room.tray.get().to_vec(), room.work.get().to_vec());
    expect(tray[..bytes.len()] == bytes && all_zero(&tray[bytes.len()..]), || "the tray's bytes".into())?;
    room.freed(fill)?;
    room.work.lend(words, fill);
    room.tray.lend(length, 7);
    room.calls.finish(&room.paper[room.at..], room.work.get_mut(), room.tray.get_mut());
    expect(room.work.get() == work, || "another word than finishing leaves".into())?;
    seen(room, &closed, &told);
    Ok(())
}

fn same_pairs(slice: &[u8], told: &[u8]) -> Same {
    let (pairs, rest) = slice.split_at(told.len());
    if let Some(k) = (0..told.len()).find(|&k| pairs[k] != told[k]) {
        return Err(format!("byte {k} of {} answers is {}, the Rust's {}", told.len(), pairs[k], told[k]));
    }
    expect(all_zero(rest), || "a byte past the answers".into())
}

fn closed_of(answer: &Answer) -> Vec<Vec<Pt>> {
    match answer {
        Answer::Paths { closed, .. } => closed.clone(),
        _ => Vec::new(),
    }
}

/// A length for the slice of answers, of which there are so many.
fn answers_length(rng: &mut Rng, need: usize) -> usize {
    match rng.below(16) {
        0 => rng.below(need + 1),
        1 => need.saturating_sub(1),
        2..=5 => need,
        6 if rng.one_in(16) => ANSWERS,
        _ => need + rng.below(40),
    }
}

/// What the pairs are like.
fn seen(room: &mut Room, closed: &[Vec<Pt>], told: &[u8]) {
    let yes = told.iter().filter(|byte| **byte == 1).count();
    let mut met = [yes, told.len() - yes, 0, 0, 0, 0];
    if closed.len() < 20 {
        pairs(closed, |path1, path2| {
            let places: Vec<_> = path1.iter().map(|pt| point_in_polygon(*pt, path2)).collect();
            let off = places.iter().filter(|place| **place != PointInPolygonResult::IsOn).count();
            let inside = places.iter().filter(|place| **place == PointInPolygonResult::IsInside).count();
            met[2] += (path1.len() == path2.len() && path1.iter().all(|pt| path2.contains(pt))) as usize;
            met[3] += (off == 0) as usize;
            met[4] += (path1[0].y == path2[0].y) as usize;
            met[5] += (off == 1 && inside == 1) as usize;
            false
        });
    }
    for (name, times) in SEEN.into_iter().zip(met) {
        if times > 0 {
            room.tally.event(name, times as u64);
        }
    }
}

/// The call, and what a deliberate fault makes of it.
fn contained(room: &mut Room) -> u32 {
    let job = &room.paper[room.at..];
    let (work, tray, slice) = (room.work.get_mut(), room.tray.get_mut(), room.text.get_mut());
    let (words, length, bytes) = (work.len(), tray.len(), slice.len());
    let answer = unsafe {
        outline_contained(
            job.as_ptr(),
            job.len(),
            work.as_mut_ptr(),
            words,
            tray.as_mut_ptr(),
            length,
            slice.as_mut_ptr(),
            bytes,
        )
    };
    match (room.calls.0, answer) {
        (Fault::ContainedShort, 1..=9) if bytes < 2 => return 11,
        (Fault::ContainedRefused, 1..) if bytes > 0 => slice[bytes - 1] = 1,
        (Fault::ContainedPast, 0) if bytes > 0 && slice[bytes - 1] == 0 => slice[bytes - 1] = 1,
        (Fault::ContainedTurned | Fault::ContainedDiagonal | Fault::ContainedOnEdge, 0) => {
            let closed = read_tray(tray, 0).map_or(Vec::new(), |answer| closed_of(&answer));
            let other = spoilt(room.calls.0, &closed);
            let n = other.len().min(bytes);
            slice[..n].copy_from_slice(&other[..n]);
        }
        _ => {}
    }
    answer
}

/// The pair turned round; the diagonal counted; a point on the edge taken for inside.
fn spoilt(fault: Fault, closed: &[Vec<Pt>]) -> Vec<u8> {
    let real = oracle::engine_fns::path2_contains_path1;
    match fault {
        Fault::ContainedTurned => pairs(closed, |path1, path2| real(path2, path1)),
        Fault::ContainedDiagonal => {
            let paths: Vec<Path64> = closed.iter().map(|points| path(points)).collect();
            paths.iter().flat_map(|path1| paths.iter().map(|path2| real(path1, path2) as u8)).collect()
        }
        _ => pairs(closed, |path1, path2| {
            real(path1, path2) || path1.iter().all(|pt| point_in_polygon(*pt, path2) != PointInPolygonResult::IsOutside)
        }),
    }
}
