// Request 10, executed: one job finished by the library under either setting of `reverse_solution`, both runs compared with each other. What each path is to have of
// neighbours at one place is told from the words: neither our definitions nor the oracle's path is asked.
use crate::finish::{read_tray, tray_length, work_length, Expected};
use crate::listed::TEXT;
use crate::room::{all_zero, expect, Room, Same, TRAY};
use crate::words::*;
use oracle::answer::Answer;
use oracle::job::REVERSE;
use oracle::real::Pt;
use oracle::rng::Rng;

/// A path's tag in the tray and in what `outline_reason` tells.
const CLOSED: u64 = 6;
/// What comes up; a long run must have met all but the third, since closed rings have no equal neighbours once they are done.
pub const SEEN: [&str; 5] = [
    "turned round: closed paths",
    "turned round: open paths",
    "turned round: longer stretches, closed",
    "turned round: longer stretches, open",
    "turned round: stretches whose z differs",
];
/// Where the settings byte stands.
const SETTINGS_AT: usize = 3;

/// What one run left.
struct Left {
    answer: u32,
    words: Vec<u32>,
    tray: Vec<u8>,
}

/// The lengths and the content that both runs are lent.
struct Lending {
    words: usize,
    word: u32,
    tray: usize,
    byte: u8,
}

/// The room's job, and the job with that one bit turned over.
pub fn case(room: &mut Room, rng: &mut Rng, expected: &Expected) -> Same {
    let one = room.job().to_vec();
    let mut other = one.clone();
    if let Some(byte) = other.get_mut(SETTINGS_AT) {
        *byte ^= REVERSE;
    }
    let need = match expected {
        Expected::Refused(_) => 0,
        Expected::Finished { answer, .. } => answer.tray().len(),
    };
    let lending = Lending {
        words: work_length(rng),
        word: rng.bits() as u32,
        tray: tray_length(rng, need),
        byte: rng.below(256) as u8,
    };
    let this = finished(room, &one, &lending, false)?;
    let that = finished(room, &other, &lending, true)?;
    room.trace.push(format!(
        "turned round, {} words, a tray of {}: {} and {}",
        lending.words, lending.tray, this.answer, that.answer
    ));
    expect(this.answer == that.answer, || format!("turned round the answer is {}, not {}", that.answer, this.answer))?;
    room.tally.answer("turned", that.answer);
    if this.answer != 0 {
        let zero = |left: &Left| all_zero(&left.words) && all_zero(&left.tray);
        return expect(zero(&this) && zero(&that), || "a refused job leaves something".into());
    }
    same_words(&this.words, &that.words)?;
    paths(room, &this, &that)?;
    let rate = 1 + rng.below(1000) as u32;
    let (ours, others) = (charge(room, &one, rate), charge(room, &other, rate));
    expect(ours == others, || format!("turned round the charge is {others}, not {ours}"))
}

/// One run of finishing.
fn finished(room: &mut Room, job: &[u8], lending: &Lending, turned: bool) -> Result<Left, String> {
    room.work.lend(lending.words, lending.word);
    room.tray.lend(lending.tray, lending.byte);
    let answer = room.calls.turned(turned, job, room.work.get_mut(), room.tray.get_mut());
    room.margins()?;
    Ok(Left { answer, words: room.work.get().to_vec(), tray: room.tray.get().to_vec() })
}

/// The last line of the listing at a rate.
fn charge(room: &mut Room, job: &[u8], rate: u32) -> String {
    room.work.lend(WORDS, 0);
    room.tray.lend(TRAY, 0);
    room.text.lend(TEXT, 0);
    let length = room.calls.list(job, room.work.get_mut(), room.tray.get_mut(), rate, room.text.get_mut());
    let text = String::from_utf8_lossy(&room.text.get()[..length as usize]);
    text.lines().last().unwrap_or("").to_string()
}

/// Every word but the settings, and of these every bit but one.
fn same_words(this: &[u32], that: &[u32]) -> Same {
    expect(this[SETTINGS] ^ that[SETTINGS] == REVERSE as u32, || "turned round the settings word".into())?;
    let rest = |w: &[u32]| w[SETTINGS + 1..].to_vec();
    expect(SETTINGS == 0 && rest(this) == rest(that), || "turned round another word than the settings".into())
}

type Paths = [Vec<Vec<Pt>>; 2];

/// The closed and the open paths of a tray.
fn lists(left: &Left) -> Result<Paths, String> {
    match read_tray(&left.tray, left.words[SETTINGS] as u8) {
        Some(Answer::Paths { closed, open, .. }) => Ok([closed, open]),
        _ => Err("the tray cannot be read back".into()),
    }
}

/// Counts, places in opposite order, areas; then each record's reason, and its two paths by the stretches of its ring.
fn paths(room: &mut Room, this: &Left, that: &Left) -> Same {
    let (ours, others) = (lists(this)?, lists(that)?);
    for list in 0..2 {
        expect(ours[list].len() == others[list].len(), || "turned round another number of paths".into())?;
        for (place, (path, other)) in ours[list].iter().zip(&others[list]).enumerate() {
            let ground = |p: &Pt| (p.0, p.1);
            expect(path.iter().map(ground).eq(other.iter().rev().map(ground)), || {
                format!("turned round path {place} of list {list} is not in opposite order")
            })?;
            expect(area(path) == -area(other), || format!("turned round the area of path {place} of list {list}"))?;
        }
    }
    room.tally.event("turned round: jobs", 1);
    let mut told = 0;
    for record in 0..records(&this.words) {
        let reason = room.calls.reason(&this.words, record as u32);
        expect(reason == room.calls.reason(&that.words, record as u32), || {
            format!("turned round the reason of record {record}")
        })?;
        if reason as u32 == 0 && reason >> 32 & 255 == 8 {
            let (list, place) = ((reason >> 40 & 255) - CLOSED, (reason >> 48) as usize);
            let (path, other) = (&ours[list as usize][place], &others[list as usize][place]);
            stretches(room, &this.words, record, list == 1, path, other)?;
            told += 1;
        }
    }
    expect(told == ours[0].len() + ours[1].len(), || "a path of no record".into())
}

/// The ring's points, in the order in which this path walks them, fall into stretches at one place: this path is the first of each, the other the last of each,
/// in opposite order.
fn stretches(room: &mut Room, w: &[u32], record: usize, open: bool, path: &[Pt], other: &[Pt]) -> Same {
    let mut walk = values(w, &ring(w, record).ok_or("a ring that does not close")?);
    match w[SETTINGS] & REVERSE as u32 {
        0 => walk.rotate_left(1),
        _ => walk[1..].reverse(),
    }
    let parts: Vec<&[Pt]> = walk.chunk_by(|a, b| (a.0, a.1) == (b.0, b.1)).collect();
    let first: Vec<Pt> = parts.iter().map(|part| part[0]).collect();
    let last: Vec<Pt> = parts.iter().rev().map(|part| part[part.len() - 1]).collect();
    expect(path == first, || format!("record {record}: the path is not the first of each stretch"))?;
    expect(other == last, || format!("record {record}: turned round the path is not the last of each stretch"))?;
    let mut event = |seen: usize, times: usize| {
        if times > 0 {
            room.tally.event(SEEN[seen], times as u64);
        }
    };
    event(open as usize, 1);
    event(2 + open as usize, parts.iter().filter(|part| part.len() > 1).count());
    event(4, parts.iter().filter(|part| part[0] != part[part.len() - 1]).count());
    Ok(())
}

fn area(path: &[Pt]) -> i64 {
    let before = path.iter().cycle().skip(path.len().max(1) - 1);
    before.zip(path).map(|(a, b)| (a.1 + b.1) * (a.0 - b.0)).sum()
}

/// A tray's first path with its points in opposite order, or with the z of its two ends exchanged: what a deliberate fault does to the job turned round.
pub fn spoilt(tray: &mut [u8], order: bool) {
    if tray.len() < 3 || tray[0] == 0 {
        return;
    }
    let length = u16::from_le_bytes([tray[1], tray[2]]) as usize;
    let mut points: Vec<[u8; 12]> = tray[3..3 + length].chunks_exact(12).map(|p| p.try_into().unwrap()).collect();
    match order {
        true => points.reverse(),
        false => {
            let (first, last) = (points[0], points[points.len() - 1]);
            points[0][8..].copy_from_slice(&last[8..]);
            points.last_mut().unwrap()[8..].copy_from_slice(&first[8..]);
        }
    }
    tray[3..3 + length].copy_from_slice(&points.concat());
}
