// outline_open against the real opening: the answer, all zero on a refusal, else every ring, record, link and mark.
use crate::finish::same_state;
use crate::room::{all_zero, expect, Room, Same};
use crate::words::*;
use oracle::oracle::{open, Opened};
use oracle::real;

/// Opens the room's job in a work space of so many words; what the Rust opened where both accept.
pub fn open_job(room: &mut Room, words: usize, fill: u32) -> Result<Option<Opened>, String> {
    room.work.lend(words, fill);
    let opened = open_lent(room)?;
    if opened.is_some() {
        room.freed(fill)?;
    }
    Ok(opened)
}

/// The same in the work space as it is lent; of what is behind the live block only that a refused job leaves zeros.
pub fn open_lent(room: &mut Room) -> Result<Option<Opened>, String> {
    let (theirs, words) = (open(room.job()), room.work.get().len());
    let answer = room.calls.open(&room.paper[room.at..], room.work.get_mut());
    room.trace.push(format!("open with {words} words: {answer}"));
    room.tally.answer("open", answer);
    let number = match &theirs {
        _ if words < WORDS => 10,
        Err(number) => *number as u32,
        Ok(_) => 0,
    };
    expect(answer == number, || format!("opening answers {answer}, the Rust {number}"))?;
    room.margins()?;
    if number != 0 {
        expect(all_zero(room.work.get()), || "a refused job leaves a word".into())?;
        return Ok(None);
    }
    let opened = theirs.unwrap_or_else(|_| unreachable!("accepted by both"));
    as_opened(room.work.get(), &opened)?;
    Ok(Some(opened))
}

/// The work space of an accepted job: settings, rings and records, each point as the Rust has it, each closed ring at its start.
fn as_opened(w: &[u32], opened: &Opened) -> Same {
    expect(w[SETTINGS] == opened.job.settings as u32, || "the settings".into())?;
    expect(all_zero(&w[3..X]), || "a spare word after opening".into())?;
    same_state(w, &real::look(&opened.base))?;
    for (p, point) in opened.base.outpt_arena.iter().enumerate() {
        let theirs = [point.next as u32, point.prev as u32, point.outrec as u32];
        expect([w[NEXT + p], w[PREV + p], w[REC + p]] == theirs, || format!("point {p} as opened"))?;
        expect(value(w, p) == real::value(&point.pt), || format!("x, y and z of point {p} as opened"))?;
    }
    for r in (0..records(w)).filter(|&r| w[FIRST + r] == NONE) {
        let told = w[REASON + r] == NO_RING || (w[REASON + r] == JOINED && w[TAKER + r] == w[OWNER + r]);
        expect(told, || format!("why record {r} has no ring, as opened"))?;
    }
    for r in (0..records(w)).filter(|&r| w[FIRST + r] != NONE && !is_open(w, r)) {
        expect(w[MARK + r] == VALIDITY, || format!("the mark of record {r} as opened"))?;
        expect(w[PRESENT + r] == w[FIRST + r], || format!("the present place of record {r} as opened"))?;
        expect(w[CUT + r] == NONE, || format!("record {r} is cut from none"))?;
    }
    Ok(())
}
