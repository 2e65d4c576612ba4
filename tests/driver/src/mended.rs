// Kind `mended`: outline_mend against the oracle's second writing, on jobs whose links are spoilt in every way, on jobs that would meet 7 or 8, on short and torn ones: the answer and every byte; what comes
// out is opened, mended again and held to the unspoilt job. Command `mended_all`: every choice of links of up to four points.
use crate::calls::Fault;
use crate::open::open_job;
use crate::room::{expect, Room, Same};
use crate::words::WORDS;
use crate::{damage, large};
use oracle::check::LOOSE;
use oracle::gen;
use oracle::job::{Job, Point, Record, NONE, OPEN};
use oracle::mending::{before, mend, PAST_MENDING};
use oracle::read;
use oracle::rng::Rng;

extern "C" {
    fn outline_mend(job: *mut u8, job_length: usize) -> u32;
}

/// What a long run must have seen beside the answers.
pub const SEEN: [&str; 5] =
    ["back as it was", "unspoilt and unaltered", "mended and opened", "mended and muddled", "mended and an open edge"];

/// What is done to a job's links, and what comes of it.
#[derive(Clone, Copy)]
enum Spoil {
    Nothing,
    OnePrev,
    EveryPrev,
    PrevsOfNothing,
    PrevsAreNexts,
    OneNext,
    NextsExchanged,
    NextOfNothing,
    NoSuchRecord,
    OtherRecord,
    OpenEdge,
    Torn,
}

const SPOILS: [Spoil; 12] = [
    Spoil::Nothing,
    Spoil::OnePrev,
    Spoil::EveryPrev,
    Spoil::PrevsOfNothing,
    Spoil::PrevsAreNexts,
    Spoil::OneNext,
    Spoil::NextsExchanged,
    Spoil::NextOfNothing,
    Spoil::NoSuchRecord,
    Spoil::OtherRecord,
    Spoil::OpenEdge,
    Spoil::Torn,
];

/// A job with its links spoilt; whether only its prevs are others.
fn spoilt(rng: &mut Rng, bytes: &[u8]) -> (Vec<u8>, bool) {
    let Ok(mut job) = read::read(bytes) else { return (bytes.to_vec(), false) };
    let n = job.points.len();
    if n == 0 {
        return (bytes.to_vec(), false);
    }
    let (p, q) = (rng.below(n), rng.below(n));
    let spoil = rng.pick(&SPOILS);
    match spoil {
        Spoil::Nothing => {}
        Spoil::OnePrev => job.points[p].prev = q as u16,
        Spoil::EveryPrev => job.points.iter_mut().for_each(|point| point.prev = rng.below(n) as u16),
        Spoil::PrevsOfNothing => job.points[p].prev = rng.pick(&[n as u16, NONE]),
        Spoil::PrevsAreNexts => job.points.iter_mut().for_each(|point| point.prev = point.next),
        Spoil::OneNext => job.points[p].next = q as u16,
        Spoil::NextsExchanged => {
            let (a, b) = (job.points[p].next, job.points[q].next);
            (job.points[p].next, job.points[q].next) = (b, a);
        }
        Spoil::NextOfNothing => job.points[p].next = rng.pick(&[n as u16, NONE]),
        Spoil::NoSuchRecord => {
            // Where a next is wrong too, 5 comes before 17.
            job.points[p].record = NONE;
            job.points[q].next = p as u16;
        }
        Spoil::OtherRecord => job.points[p].record = rng.below(job.records.len().max(1)) as u16,
        Spoil::OpenEdge => {
            job.records.iter_mut().for_each(|record| record.flags |= OPEN);
            job.segments.push(p as u16);
        }
        Spoil::Torn => {
            let mut torn = job.bytes();
            torn.truncate(rng.below(torn.len()));
            return (torn, false);
        }
    }
    let prevs = matches!(spoil, Spoil::Nothing | Spoil::OnePrev | Spoil::EveryPrev | Spoil::PrevsAreNexts);
    (job.bytes(), prevs)
}

/// A job: mostly generated, one in 32 large, one in 8 damaged.
pub fn bytes(seed: u64, index: u64, rng: &mut Rng) -> Vec<u8> {
    match rng.below(32) {
        0 => large::job(rng),
        1..=4 => damage::bytes(seed, index, rng),
        _ => gen::job(seed, index),
    }
}

/// Whether some next names nothing, or nexts do not name every point once: what 17 would be said of if it came first.
fn past_mending(job: &[u8]) -> bool {
    let Ok(job) = read::read(job) else { return false };
    let names = |point: &Point| (point.next as usize) < job.points.len();
    !job.points.iter().all(names) || before(&job).iter().any(|before| before.len() != 1)
}

/// The call, on bytes that are lent in the tray's place. A fault spoils what it left.
fn call(room: &mut Room, job: &[u8]) -> u32 {
    room.tray.lend(job.len(), 0).copy_from_slice(job);
    let lent = room.tray.get_mut();
    let answer = unsafe { outline_mend(lent.as_mut_ptr(), lent.len()) };
    match (room.calls.0, answer) {
        (Fault::MendOrder, 5) if past_mending(job) => return PAST_MENDING as u32,
        // The first point's next stands 15 bytes into the job: its settings' field has 4, its header 3, x and y 8.
        (Fault::MendNext, 0) if lent.len() > 25 && lent[4] == 2 => lent[15] = lent[17],
        (Fault::MendFound, 1..) if !lent.is_empty() => lent[lent.len() / 2] ^= 1,
        _ => {}
    }
    answer
}

/// One call, against the oracle; the mended bytes, where both mend.
fn one_call(room: &mut Room, job: &[u8]) -> Result<Option<Vec<u8>>, String> {
    let theirs = mend(job);
    let answer = call(room, job);
    room.trace.push(format!("mend {} bytes: {answer}", job.len()));
    room.tally.answer("mend", answer);
    let number = theirs.as_ref().err().map_or(0, |number| *number as u32);
    expect(answer == number, || format!("mending answers {answer}, the oracle {number}"))?;
    room.margins()?;
    let left = theirs.as_deref().unwrap_or(job);
    let what = if number == 0 { "the mended bytes" } else { "a refused job is altered" };
    expect(room.tray.get() == left, || what.into())?;
    Ok(theirs.ok())
}

/// A job, its links spoilt, mended; then opened, and mended again.
pub fn case(room: &mut Room, seed: u64, index: u64, rng: &mut Rng) -> Same {
    let whole = bytes(seed, index, rng);
    let (job, prevs) = spoilt(rng, &whole);
    let at = rng.below(8);
    room.start(&job, at);
    let Some(out) = one_call(room, &job)? else { return Ok(()) };
    // Sound links, whatever row 7 or 8 says of the job: then there is one way to set them.
    let sound = mend(&whole).is_ok_and(|bytes| bytes == whole);
    if prevs && sound {
        expect(out == whole, || "mending does not give the unspoilt job back".into())?;
        room.tally.event(if job == whole { "unspoilt and unaltered" } else { "back as it was" }, 1);
    }
    expect(one_call(room, &out)?.as_ref() == Some(&out), || "mended again, another job".into())?;
    room.start(&out, at);
    let seen = match open_job(room, WORDS, rng.bits() as u32) {
        Ok(Some(_)) => "mended and opened",
        Ok(None) => refusal(&out)?,
        Err(what) => return Err(what),
    };
    room.tally.event(seen, 1);
    Ok(())
}

/// What a mended job is refused with by opening, which is never 6.
fn refusal(job: &[u8]) -> Result<&'static str, String> {
    match oracle::oracle::open(job).err() {
        Some(7) => Ok("mended and muddled"),
        Some(8) => Ok("mended and an open edge"),
        Some(LOOSE) => Err("a mended job meets 6".into()),
        _ => Ok("mended and refused later"),
    }
}

/// So many links, each below n, by their number.
fn links(n: usize, mut number: usize) -> Vec<u16> {
    let mut link = || {
        let one = number % n;
        number /= n;
        one as u16
    };
    (0..n).map(|_| link()).collect()
}

/// A job of so many points on one record, with these links.
fn job(next: &[u16], prev: &[u16]) -> Vec<u8> {
    let point = |k: usize| Point { x: k as i32, y: 0, z: -(k as i32), next: next[k], prev: prev[k], record: 0 };
    let points = (0..next.len()).map(point).collect();
    Job { points, records: vec![Record { flags: 0, owner: NONE, first: 0 }], ..Job::default() }.bytes()
}

/// Every choice of forward and of backward links of one to four points: of each choice of forward links those backward ones that opening does not refuse with 6 are the mender's and no other, or there
/// is none and the mender says 17, whatever the backward links were.
pub fn all() -> Result<(), String> {
    let mut room = Room::new(Fault::None);
    let (mut mended, mut past) = (0u64, 0u64);
    for n in 1..=4usize {
        let choices = n.pow(n as u32);
        for next in (0..choices).map(|number| links(n, number)) {
            let jobs: Vec<Vec<u8>> = (0..choices).map(|number| job(&next, &links(n, number))).collect();
            let mut sound = Vec::new();
            for job in &jobs {
                room.work.lend(WORDS, 7);
                if room.calls.open(job, room.work.get_mut()) != LOOSE as u32 {
                    sound.push(job);
                }
            }
            for job in &jobs {
                let out = one_call(&mut room, job)?;
                let only: Vec<&Vec<u8>> = out.iter().collect();
                expect(only == sound, || format!("nexts {next:?}: the mender's links, and those that avoid 6"))?;
                *if out.is_some() { &mut mended } else { &mut past } += 1;
            }
        }
    }
    println!("mended_all: every choice of links of one to four points: {mended} jobs mended, {past} past mending; no other backward links avoid 6");
    Ok(())
}
