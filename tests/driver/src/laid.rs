// Kind `laid`: two work spaces, each with a job opened in it and perhaps kept or stepped; laid together, in short parts too, the pair again, and a third; then calls of every kind on the pair.
// Each answer and every word of both work spaces with a plain reading of document 02, Ask 11 (pair.rs); where only calls wrote, also with the oracle's tables, on which each drawing lies as if alone.
// Words of either are altered in between. Where all rings end, the paths are those that the real Rust gives for each drawing's own job.
use crate::alter::{self, before_laying, names_beside};
use crate::finish::read_tray;
use crate::kept::{self, as_live, List};
use crate::lent::Lent;
use crate::names::{copy_of, name_at, Named};
use crate::pair;
use crate::plain;
use crate::reasons::ask;
use crate::room::{expect, Room, Same, TRAY};
use crate::steps::write_out;
use crate::windows;
use crate::words::*;
use oracle::answer::Answer;
use oracle::gen;
use oracle::job::{Job, Record, NONE as NO_NUMBER, OPEN};
use oracle::oracle::Oracle;
use oracle::rng::Rng;
use oracle::table::Table;

/// What a long run must have met, beside `pair::MET`.
pub const EVENTS: [&str; 11] = [
    "laid together, both known",
    "a pair and a third",
    "a drawing and a pair",
    "laid where the state is kept",
    "the first's names remain",
    "the second's names are not brought",
    "back out of the pair",
    "full at a step of the pair",
    "altered words laid",
    "a step after altered words were laid",
    "each drawing ends as the Rust ends it alone",
];

/// The call's refusals for the first, and for the second.
pub const TESTED: [&str; 2] = ["lay", FOR_SECOND];
const FOR_SECOND: &str = "lay, refused for the second";

/// Pairs of more points than this are stepped to the end only now and then, and longer lists of steps are cut off.
const MANY: usize = 300;
const LONG: usize = 800;
/// Of more records than this only some are asked for.
const FEW: usize = 24;

pub fn must_see() -> Vec<(&'static str, Vec<u32>)> {
    let steps = [("step", vec![0, 10, 12]), ("write", vec![0, 11, 12]), ("reason", vec![0, 12])];
    [("lay", vec![0, 3, 4, 5, 6, 7, 10, 12, 16])].into_iter().chain(steps).collect()
}

fn event(room: &mut Room, holds: bool, name: &'static str) {
    if holds {
        room.tally.event(name, 1);
    }
}

/// A work space beside the room's own.
struct Sheet {
    work: Lent<u32>,
    list: List,
}

impl Sheet {
    /// Puts it in the place of the room's for a while.
    fn at_work<T>(&mut self, room: &mut Room, call: impl FnOnce(&mut Room, &mut List) -> T) -> T {
        std::mem::swap(&mut room.work, &mut self.work);
        let told = call(room, &mut self.list);
        std::mem::swap(&mut room.work, &mut self.work);
        told
    }

    /// The two change places.
    fn exchange(&mut self, room: &mut Room, first: &mut List) {
        std::mem::swap(&mut room.work, &mut self.work);
        std::mem::swap(first, &mut self.list);
        room.trace.push("the two change places".into());
    }
}

pub fn case(room: &mut Room, seed: u64, index: u64, rng: &mut Rng) -> Same {
    let mut first = kept::lend(room, seed ^ index, rng);
    kept::open_over(room, &mut first)?;
    early(room, rng, &mut first)?;
    let mut other = Lent::new(WORDS + 64, 0x3c3c_3c3c);
    let job = partner(room, rng, seed, index);
    std::mem::swap(&mut room.work, &mut other);
    let list = kept::lend(room, seed ^ !index, rng);
    std::mem::swap(&mut room.work, &mut other);
    let mut second = Sheet { work: other, list };
    second.at_work(room, |room, list| beside(room, rng, list, &job))?;
    for _ in 0..1 + rng.below(4) {
        one(room, rng, &mut first, &mut second, (seed, index))?;
    }
    if !rng.one_in(3) {
        to_the_end(room, rng, &mut first)?;
    }
    kept::copies(room, &first)?;
    second.list.same(second.work.get())
}

/// The second's job: opened after the first's, in its own work space.
fn beside(room: &mut Room, rng: &mut Rng, list: &mut List, job: &[u8]) -> Same {
    room.change(job, rng.below(8));
    kept::open_over(room, list)?;
    early(room, rng, list)
}

/// What may have happened to a work space before it is laid: mostly nothing, or a state was kept and gone back to.
fn early(room: &mut Room, rng: &mut Rng, list: &mut List) -> Same {
    match rng.below(16) {
        0..=1 => kept::named(room, rng, list, Named::Keep),
        2..=4 => kept::tried(room, rng, list),
        5 => kept::steps(room, rng, list),
        6 => (0..1 + rng.below(5)).try_for_each(|_| kept::one(room, rng, list)),
        7 => kept::begin(room, rng, list),
        _ => Ok(()),
    }
}

/// A job to lay beside what the room's work space holds: mostly any other with the same settings; none, the same, or one that just fills the store.
fn partner(room: &Room, rng: &mut Rng, seed: u64, index: u64) -> Vec<u8> {
    let w = room.front();
    let settings = w[SETTINGS] as u8;
    match rng.below(24) {
        0 => Job { settings, ..Job::default() }.bytes(),
        1 => Vec::new(),
        2 => room.job().to_vec(),
        3..=7 => filling(rng, w),
        _ => {
            let mut job = gen::job(seed ^ 0x7ab1e, index ^ rng.below(64) as u64);
            if job.len() > 3 && !rng.one_in(8) {
                job[3] = settings;
            }
            job
        }
    }
}

/// About as many points, or records, as are left.
fn filling(rng: &mut Rng, w: &[u32]) -> Vec<u8> {
    let mut job = Job { settings: w[SETTINGS] as u8, ..Job::default() };
    let left = |most: usize, held: usize, rng: &mut Rng| (most.saturating_sub(held) + rng.below(5)).saturating_sub(3);
    let (points, records) = (left(MOST_POINTS, points(w), rng), left(MOST_RECORDS, records(w), rng));
    let both = rng.below(3);
    if points > 8 {
        job.add_ring(0, NO_NUMBER, &[(0, 0, 1), (10, 10, 2), (10, 0, 3), (0, 12, 4)]);
    }
    if both != 0 {
        let rest = points.saturating_sub(job.points.len());
        let line: Vec<(i32, i32, i32)> = (0..rest as i32).map(|k| (k, k % 2, -k)).collect();
        job.add_ring(OPEN, NO_NUMBER, &line);
    }
    if both != 1 {
        while job.records.len() < records {
            let owner = if rng.one_in(3) { NO_NUMBER } else { rng.below(job.records.len().max(1)) as u16 };
            let owner = if job.records.is_empty() { NO_NUMBER } else { owner };
            job.records.push(Record { flags: 0, owner, first: NO_NUMBER });
        }
    }
    job.bytes()
}

/// Laying together, mostly, and calls after it.
fn one(room: &mut Room, rng: &mut Rng, first: &mut List, second: &mut Sheet, of: (u64, u64)) -> Same {
    match rng.below(20) {
        0 => second.exchange(room, first),
        1 => second.at_work(room, |room, list| kept::one(room, rng, list))?,
        2 | 3 => {
            let job = partner(room, rng, of.0, !of.1);
            second.at_work(room, |room, list| beside(room, rng, list, &job))?;
        }
        4..=9 => altered(room, rng, first, second)?,
        10 => {
            let words = lengths(room, rng, second);
            lay(room, first, second, words)?;
        }
        _ => {
            let words = [room.work.get().len(), second.work.get().len()];
            lay(room, first, second, words)?;
            if rng.one_in(2) {
                for _ in 0..rng.below(10) {
                    call(room, rng, first)?;
                }
            }
        }
    }
    Ok(())
}

/// Parts of the words, one of them at least too short.
fn lengths(room: &Room, rng: &mut Rng, second: &Sheet) -> [usize; 2] {
    let short = rng.pick(&[0, 1, 2, 3, BLOCK - 1, BLOCK, NAMES + 1, KEPT, KEPT + BLOCK, WORDS - 1]);
    let other = rng.pick(&[0, KEPT, WORDS - 1]);
    match rng.below(3) {
        0 => [short, second.work.get().len()],
        1 => [room.work.get().len(), short],
        _ => [short, other],
    }
}

/// One call of outline_lay_together; the answer.
fn lay(room: &mut Room, first: &mut List, second: &mut Sheet, words: [usize; 2]) -> Result<u32, String> {
    let (ours, theirs) = (&first.shadow[..words[0]], &second.list.shadow[..words[1]]);
    let told = pair::laid(ours, theirs);
    let answer = room.calls.lay(&mut room.work.get_mut()[..words[0]], &mut second.work.get_mut()[..words[1]]);
    room.trace.push(format!("lay together, {} and {} words: {answer}", words[0], words[1]));
    let number = told.as_ref().map_or_else(|number| u32::from(*number), |_| 0);
    expect(answer == number, || format!("laying together answers {answer}, the plain reading {number}"))?;
    pair::met(ours, theirs, answer).into_iter().for_each(|name| room.tally.event(name, 1));
    room.tally.tested("lay", &first.shadow[..KEPT], answer);
    if plain::tested(&first.shadow).is_ok() && (3..=7).contains(&answer) {
        room.tally.tested(FOR_SECOND, &second.list.shadow[..KEPT], answer);
    }
    room.margins()?;
    expect(second.work.kept(), || "a word beside the second's work space is written".into())?;
    let full = words.iter().all(|words| *words >= WORDS);
    let is_kept =
        |place: usize| name_at(&first.shadow, place).is_some() && first.shadow[..BLOCK] == first.shadow[copy_of(place)];
    if told.is_ok() && (0..STATES).any(is_kept) {
        room.tally.event("laid where the state is kept", 1);
    }
    let told = told.map(|left| first.shadow[..words[0]].copy_from_slice(&left));
    first.same(room.work.get())?;
    second.list.same(second.work.get()).map_err(|what| format!("the second's work space: {what}"))?;
    if full {
        by_tables(room, first, second, told)?;
    }
    Ok(answer)
}

/// The same by the oracle's tables, where both are known.
fn by_tables(room: &mut Room, first: &mut List, second: &Sheet, told: Result<(), u8>) -> Same {
    let drawings = [&first.trails, &second.list.trails].map(|trails| trails.table().map(Table::drawings));
    if let [Some(ours), Some(theirs)] = drawings {
        let laid = first.trails.lay(&second.list.trails);
        expect(laid == told, || format!("laying together comes to {told:?}, by their tables {laid:?}"))?;
        if told.is_ok() {
            let mut when = |holds: bool, name: &'static str| event(room, holds, name);
            when(true, "laid together, both known");
            when(ours > 1, "a pair and a third");
            when(theirs > 1, "a drawing and a pair");
            when(first.keeps_some(), "the first's names remain");
            when(second.list.keeps_some(), "the second's names are not brought");
        }
        return as_live(room, first);
    }
    if told.is_ok() {
        first.trails.lose_live();
        event(room, true, "altered words laid");
    }
    Ok(())
}

/// A call on the first's work space.
fn call(room: &mut Room, rng: &mut Rng, first: &mut List) -> Same {
    let drawings = |list: &List| list.trails.table().map_or(0, Table::drawings);
    match rng.below(42) {
        40 | 41 => windows::look(room, rng, first),
        0..=19 => kept::steps(room, rng, first),
        20..=23 => kept::named(room, rng, first, Named::Keep),
        24..=27 => {
            let before = drawings(first);
            kept::named(room, rng, first, Named::GoBack)?;
            let fewer = (1..before).contains(&drawings(first));
            event(room, fewer, "back out of the pair");
            Ok(())
        }
        28 | 29 => kept::named(room, rng, first, Named::Drop),
        30..=32 => kept::write(room, rng, first),
        33..=35 => kept::reason(room, rng, first),
        36 => kept::short(room, rng, first),
        37 | 38 => kept::tried(room, rng, first),
        _ => kept::one(room, rng, first),
    }
}

/// Words of either or of both altered, in several ways; laid, in short parts too, and where that is carried out some calls after it. Then all is as before.
fn altered(room: &mut Room, rng: &mut Rng, first: &mut List, second: &mut Sheet) -> Same {
    let (ours, theirs) = (first.shadow[..KEPT].to_vec(), second.list.shadow[..KEPT].to_vec());
    let trails = (first.trails.clone(), second.list.trails.clone());
    let which = rng.below(5);
    if which > 2 {
        spoil(room, rng, first);
    }
    if which != 3 {
        second.at_work(room, |room, list| spoil(room, rng, list));
    }
    let words = match rng.below(6) {
        0 => lengths(room, rng, second),
        _ => [room.work.get().len(), second.work.get().len()],
    };
    if lay(room, first, second, words)? == 0 {
        kept::steps(room, rng, first)?;
        event(room, true, "a step after altered words were laid");
        kept::write(room, rng, first)?;
        kept::reason(room, rng, first)?;
    }
    let restore = |room: &mut Room, list: &mut List, front: &[u32]| {
        list.alter(room, 0..KEPT, |w| {
            w.copy_from_slice(front);
            "as before".into()
        })
    };
    restore(room, first, &ours);
    second.at_work(room, |room, list| restore(room, list, &theirs));
    (first.trails, second.list.trails) = trails;
    Ok(())
}

/// One alteration, or several, so that the order of the tests shows.
fn spoil(room: &mut Room, rng: &mut Rng, list: &mut List) {
    let times = rng.pick(&[1, 1, 1, 2, 3, 4]);
    list.alter(room, 0..KEPT, |w| {
        let mut said: Vec<String> = (0..times).map(|_| before_laying(w, rng)).collect();
        if times > 1 {
            said.push(alter::kept(w, rng));
            said.push(if rng.one_in(2) { alter::kept(w, rng) } else { names_beside(w, rng) });
            if rng.one_in(4) {
                said.push(alter::a_link(w, rng));
            }
        }
        said.join("; ")
    });
    list.trails.lose_live();
    (0..STATES).for_each(|place| list.trails.write_word(place, list.shadow[NAMES + place]));
}

/// Every ring to its end in some order, as far as there is room.
fn to_the_end(room: &mut Room, rng: &mut Rng, list: &mut List) -> Same {
    let Some(table) = list.trails.table().filter(|_| list.trails.tested().is_ok()) else { return Ok(()) };
    let drawings = table.drawings();
    let most = if rng.one_in(32) { 8 * LONG } else { LONG };
    if table.points() > MANY && most == LONG {
        return Ok(());
    }
    let mut busy: Vec<usize> = (0..table.records()).collect();
    let mut made = 0;
    while !busy.is_empty() && made < most {
        let (at, held) = (rng.below(busy.len()), records(room.front()));
        for _ in 0..1 + rng.below(20) {
            made += 1;
            match kept::step(room, list, busy[at] as u32)? {
                0 => {}
                answer => {
                    event(room, answer == 10 && drawings > 1, "full at a step of the pair");
                    busy.swap_remove(at);
                    break;
                }
            }
        }
        busy.extend(held..records(room.front()));
    }
    list.settle(room)?;
    if (0..records(room.front())).any(|r| is_live(room.front(), r)) {
        return Ok(());
    }
    each_its_own(room, rng, list)?;
    event(room, drawings > 1, "each drawing ends as the Rust ends it alone");
    Ok(())
}

/// Where every ring is done: paths and reasons by the model, and each drawing's own by the real Rust.
fn each_its_own(room: &mut Room, rng: &mut Rng, list: &List) -> Same {
    let (Some(history), Some(table)) = (list.trails.live(), list.trails.table()) else { return Ok(()) };
    write_out(room, rng, &history.forest, WORDS, TRAY)?;
    let reasons = history.reasons()?;
    for record in (0..reasons.len()).filter(|_| reasons.len() <= FEW || rng.below(reasons.len()) < FEW) {
        ask(room, record as u32, Ok(reasons[record]))?;
    }
    let (mut closed, mut open) = table.as_alone(&mut Oracle::default())?;
    let settings = room.front()[SETTINGS] as u8;
    let Some(Answer::Paths { closed: mut ours, open: mut lines, .. }) = read_tray(room.tray.get(), settings) else {
        return Err("the tray of a pair cannot be read back".into());
    };
    [&mut closed, &mut open, &mut ours, &mut lines].into_iter().for_each(|paths| paths.sort());
    expect((ours, lines) == (closed, open), || "the paths are not those that the Rust gives for each drawing".into())
}
