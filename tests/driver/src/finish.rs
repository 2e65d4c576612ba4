// Kind `finish`: outline_finish against the real Rust: the answer, every byte of the tray, the listing, every word on a refusal,
// every ring, owner and count on an accepted job.
use crate::boxes;
use crate::listed;
use crate::plain;
use crate::room::{all_zero, expect, Room, Same, TRAY};
use crate::turned;
use crate::words::{self, *};
use oracle::answer::Answer;
use oracle::guard::Ran;
use oracle::job::REVERSE;
use oracle::oracle::{forest, open};
use oracle::real::{self, State, FULL};
use oracle::rng::Rng;

/// What the Rust comes to on a job: a refusal, or what its state holds at the end and its lists.
pub enum Expected {
    Refused(u8),
    Finished { settings: u8, state: State, answer: Answer },
}

/// The real run, guarded: where the model finds the store full the run is made in a child process.
pub fn expected(room: &mut Room) -> Expected {
    let opened = match open(room.job()) {
        Err(number) => return Expected::Refused(number),
        Ok(opened) => opened,
    };
    let past = |points: usize, records: usize| points > MOST_POINTS || records > MOST_RECORDS;
    if forest(&opened).finish(|_, _, _, _| ()).is_err() {
        let full = match room.guard.run(&opened.job) {
            Ran::Grew => true,
            Ran::Ended(points, records) => past(points, records),
        };
        assert!(full, "full in the model, not in the real run");
        return Expected::Refused(FULL);
    }
    let mut base = real::copy(&opened.base);
    real::clean_all(&mut base);
    let state = real::look(&base);
    assert!(!past(state.points, state.records.len()), "full in the real run, not in the model");
    let settings = opened.job.settings;
    let (closed, open) = real::paths(opened.base);
    Expected::Finished { settings, state, answer: Answer::Paths { closed, open, reversed: settings & REVERSE != 0 } }
}

/// A length for the work space: mostly the fixed one, else longer or too short.
pub fn work_length(rng: &mut Rng) -> usize {
    match rng.below(32) {
        0 => rng.below(WORDS),
        1 => rng.pick(&[0, 1, 2, 3, 16, FLAGS, BLOCK, KEPT, WORDS - 2, WORDS - 1]),
        2..=5 => WORDS + 1 + rng.below(60),
        _ => WORDS,
    }
}

/// A length for the tray, where the paths need so many bytes.
pub fn tray_length(rng: &mut Rng, need: usize) -> usize {
    match rng.below(16) {
        0 => rng.below(need + 1),
        1 => need.saturating_sub(1 + rng.below(8)),
        2 => need.saturating_sub(1),
        3..=5 => need,
        6 => need + 1 + rng.below(9),
        7 => TRAY + rng.below(40),
        _ => TRAY,
    }
}

/// The room's job finished in one call; one in four is listed, and one in four turned round.
pub fn case(room: &mut Room, rng: &mut Rng) -> Same {
    let expected = expected(room);
    against(room, rng, &expected)
}

/// The same, where what is expected is known.
pub fn against(room: &mut Room, rng: &mut Rng, expected: &Expected) -> Same {
    one_call(room, rng, expected)?;
    match rng.below(4) {
        0 => listed::case(room, rng, expected),
        1 => turned::case(room, rng, expected),
        _ => Ok(()),
    }
}

/// One call of outline_finish on the room's job, with lent slices of any length and content.
fn one_call(room: &mut Room, rng: &mut Rng, expected: &Expected) -> Same {
    let bytes = match expected {
        Expected::Refused(_) => Vec::new(),
        Expected::Finished { answer, .. } => answer.tray(),
    };
    let (words, length) = (work_length(rng), tray_length(rng, bytes.len()));
    let fill = rng.pick(&[u32::MAX, 1, 65_535, 0x0101_0101]);
    room.work.lend(words, fill);
    room.tray.lend(length, 1 + rng.below(255) as u8);
    let answer = room.calls.finish(&room.paper[room.at..], room.work.get_mut(), room.tray.get_mut());
    room.trace.push(format!("finish with {words} words and a tray of {length} bytes: {answer}"));
    room.tally.answer("finish", answer);
    let number = match expected {
        _ if words < WORDS => 10,
        Expected::Refused(number) => *number as u32,
        Expected::Finished { .. } if bytes.len() > length => 11,
        Expected::Finished { .. } => 0,
    };
    expect(answer == number, || format!("the answer is {answer}, the Rust's {number}"))?;
    room.margins()?;
    if number != 0 {
        expect(all_zero(room.work.get()), || "a refused job leaves a word".into())?;
        return expect(all_zero(room.tray.get()), || "a refused job leaves a byte of the tray".into());
    }
    let (paths, rest) = room.tray.get().split_at(bytes.len());
    expect(paths == bytes, || "the paths' bytes".into())?;
    expect(all_zero(rest), || "a byte past the paths".into())?;
    room.freed(fill)?;
    match expected {
        Expected::Finished { settings, state, answer } => finished(room, *settings, state, answer),
        Expected::Refused(_) => Ok(()),
    }
}

/// An accepted job: the listing, and the work space against the Rust's state.
fn finished(room: &mut Room, settings: u8, state: &State, answer: &Answer) -> Same {
    let listing = read_tray(room.tray.get(), settings).ok_or("the tray cannot be read back")?.listing();
    expect(listing == answer.listing(), || "the listing".into())?;
    let w = room.work.get();
    expect(w[SETTINGS] == settings as u32, || "the settings".into())?;
    same_state(w, state)?;
    expect((0..words::records(w)).all(|r| !is_live(w, r)), || "a closed ring isn't done".into())?;
    expect(plain::tests(w).is_ok(), || "the finished work space fails the tests".into())?;
    if let Answer::Paths { closed, open, .. } = answer {
        room.tally.event("closed paths", closed.len() as u64);
        room.tally.event("open paths", open.len() as u64);
    }
    Ok(())
}

/// Both counts, and each record: open, front edge, owner, ring by place and by value, and its box; zeros where there is no ring.
pub fn same_state(w: &[u32], state: &State) -> Same {
    expect(words::points(w) == state.points, || "the count of points".into())?;
    expect(words::records(w) == state.records.len(), || "the count of records".into())?;
    for (r, record) in state.records.iter().enumerate() {
        let ring = words::ring(w, r).ok_or("a ring that does not close")?;
        let ours = ring.iter().map(|&p| (p, words::value(w, p)));
        expect(ours.eq(record.ring.iter().copied()), || format!("the ring of record {r}"))?;
        boxes::same(w, r, &record.ring.iter().map(|(_, value)| *value).collect::<Vec<_>>())?;
        let flags = record.open as u32 + 2 * record.front as u32;
        expect(w[FLAGS + r] == flags, || format!("the flags of record {r}"))?;
        let owner = record.owner.map_or(NONE, |owner| owner as u32);
        expect(w[OWNER + r] == owner, || format!("the owner of record {r}"))?;
    }
    boxes::zeros(w)
}

/// The paths that a tray holds, read back from its bytes, and the setting they were written under.
pub fn read_tray(tray: &[u8], settings: u8) -> Option<Answer> {
    let (mut closed, mut open) = (Vec::new(), Vec::new());
    let mut rest = tray;
    while rest.len() >= 3 && rest[0] != 0 {
        let length = u16::from_le_bytes([rest[1], rest[2]]) as usize;
        let value = rest.get(3..3 + length)?;
        let number = |part: &[u8]| i32::from_le_bytes(part.try_into().unwrap()) as i64;
        let point = |part: &[u8]| (number(&part[..4]), number(&part[4..8]), number(&part[8..]));
        let path = value.chunks_exact(12).map(point).collect();
        match rest[0] {
            6 if open.is_empty() => closed.push(path),
            7 => open.push(path),
            _ => return None,
        }
        rest = &rest[3 + length..];
    }
    Some(Answer::Paths { closed, open, reversed: settings & REVERSE != 0 })
}
