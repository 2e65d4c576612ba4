// Document 02, Ask 5: one reason for each record of a finished job, from what happened to it and not from any word that is kept: the job's record,
// the turn of the joins that emptied it, the step that discarded its ring and what was due, the path that was built or the test that ended it.
use crate::engine::{ClipperBase, NONE as UNLINKED};
use crate::engine_fns::{is_valid_closed_path, is_very_small_triangle};
use crate::job::{Job, NONE};
use crate::model::forest::{Entry, Forest};
use crate::model::lone::{Act, Due};
use crate::model::path::{build, Built};
use crate::oracle::{forest, open, Opened, Oracle};
use crate::real::{self, Pt, FULL};
use std::rc::Rc;

/// The eight reasons in the paper's order.
#[derive(Clone, Copy, Debug, PartialEq)]
pub enum Reason {
    NoRing,
    Joined { taker: usize },
    SmallRing,
    RingFell,
    SmallArea,
    ShortPath,
    SmallPath,
    Written { open: bool, place: usize },
}

impl Reason {
    pub fn number(self) -> u8 {
        match self {
            Reason::NoRing => 1,
            Reason::Joined { .. } => 2,
            Reason::SmallRing => 3,
            Reason::RingFell => 4,
            Reason::SmallArea => 5,
            Reason::ShortPath => 6,
            Reason::SmallPath => 7,
            Reason::Written { .. } => 8,
        }
    }

    /// What the program `reasons` prints of a record, after its number.
    fn words(self) -> String {
        match self {
            Reason::NoRing => "no ring in the job".into(),
            Reason::Joined { taker } => format!("joined into record {taker}"),
            Reason::SmallRing => "too small to begin with".into(),
            Reason::RingFell => "too little left once points were removed".into(),
            Reason::SmallArea => "area under 2 at a crossing".into(),
            Reason::ShortPath => "too few points left for an outline".into(),
            Reason::SmallPath => "too small for an outline".into(),
            Reason::Written { open: false, place } => format!("closed outline {place}"),
            Reason::Written { open: true, place } => format!("open outline {place}"),
        }
    }
}

/// A line a record; a refused job's is its refusal.
pub fn lines(told: &Told) -> String {
    match told {
        Err(number) => format!("refused {number}\n"),
        Ok(reasons) => {
            reasons.iter().enumerate().map(|(r, reason)| format!("record {r}: {}\n", reason.words())).collect()
        }
    }
}

/// The reason of each record, or the job's refusal.
pub type Told = Result<Vec<Reason>, u8>;

/// What may end a record, as it happened. Turns of the joins that merge two rings, and steps carried out, are counted from 0.
#[derive(Clone, Debug, PartialEq)]
pub enum Event {
    /// The job's record has no first point.
    NoFirst,
    /// This turn left the record without a ring, and this record had the ring after it.
    Emptied { turn: usize, taker: usize },
    /// This step discarded the ring; this was due, as it stood before the step.
    Discarded { step: usize, due: Due },
    /// The path of a ring that was there at the end.
    Path { open: bool, built: Built },
}

/// All rings of an opened job, and what has ended each record so far.
#[derive(Clone)]
pub struct History {
    /// The job that was opened.
    pub job: Rc<Job>,
    pub forest: Forest,
    pub events: Vec<Vec<Event>>,
    /// How many steps were carried out.
    pub steps: usize,
}

impl History {
    /// No ring and no record, as a work space of zeros has it.
    pub fn nothing() -> History {
        History { job: Rc::default(), forest: Forest::new(0, 0, Vec::new()), events: Vec::new(), steps: 0 }
    }

    /// What reading and the joins did.
    pub fn opened(opened: &Opened) -> History {
        let forest = forest(opened);
        let mut events = vec![Vec::new(); forest.records.len()];
        for (r, record) in opened.job.records.iter().enumerate() {
            if record.first == NONE {
                events[r].push(Event::NoFirst);
            }
        }
        for (turn, emptied) in opened.joined.merged.iter().enumerate() {
            events[emptied.record].push(Event::Emptied { turn, taker: emptied.taker });
        }
        History { job: Rc::new(opened.job.clone()), forest, events, steps: 0 }
    }

    /// One step; a discard is an event of its record.
    pub fn step(&mut self, record: usize) -> Result<Act, u8> {
        let due = self.forest.due(record);
        let act = self.forest.step(record)?;
        if matches!(act, Act::Discard | Act::DropDiscard) {
            self.events[record].push(Event::Discarded { step: self.steps, due });
        }
        self.steps += 1;
        self.events.resize(self.forest.records.len(), Vec::new());
        Ok(act)
    }

    /// Every ring to done, records rising.
    pub fn finish(&mut self) -> Result<(), u8> {
        let mut record = 0;
        while record < self.forest.records.len() {
            while self.forest.due(record) != Due::Done {
                self.step(record)?;
            }
            record += 1;
        }
        Ok(())
    }

    /// Whether a step was carried out.
    pub fn is_stepped(&self) -> bool {
        self.steps > 0
    }

    pub fn done(&self) -> bool {
        (0..self.forest.records.len()).all(|record| self.forest.due(record) == Due::Done)
    }

    /// The reason that has ended a record so far, which the work space keeps; none while it has a ring.
    pub fn kept(&self, record: usize) -> Option<Reason> {
        match &self.events[record][..] {
            [event] => told(event, &mut [0, 0]).ok(),
            _ => None,
        }
    }

    /// What ended a record, and if it has a ring its path.
    fn ends(&self, record: usize) -> Vec<Event> {
        let mut events = self.events[record].clone();
        let open = matches!(self.forest.records[record], Entry::Open(_));
        let ring = self.forest.ring(record);
        if !ring.is_empty() {
            events.push(Event::Path { open, built: build(&ring, self.forest.reverse, open) });
        }
        events
    }

    /// The reason of each record of a finished job: each must have exactly one.
    pub fn reasons(&self) -> Result<Vec<Reason>, String> {
        if !self.done() {
            return Err("a closed ring isn't done".into());
        }
        let mut written = [0, 0];
        let mut reason = |record: usize| match &self.ends(record)[..] {
            [event] => told(event, &mut written),
            events => Err(format!("record {record} ended in {} ways: {events:?}", events.len())),
        };
        (0..self.forest.records.len()).map(&mut reason).collect()
    }
}

/// The reason that an event is, so many closed and open paths having been written before it.
fn told(event: &Event, written: &mut [usize; 2]) -> Result<Reason, String> {
    Ok(match event {
        Event::NoFirst => Reason::NoRing,
        Event::Emptied { taker, .. } => Reason::Joined { taker: *taker },
        Event::Discarded { due: Due::Validity, .. } => Reason::SmallRing,
        Event::Discarded { due: Due::Removal { .. }, .. } => Reason::RingFell,
        Event::Discarded { due: Due::Split { .. }, .. } => Reason::SmallArea,
        Event::Discarded { due: Due::Triangle | Due::Done, .. } => {
            return Err(format!("no step discards so: {event:?}"))
        }
        Event::Path { built: Built::Short, .. } => Reason::ShortPath,
        Event::Path { built: Built::Small, .. } => Reason::SmallPath,
        Event::Path { open, built: Built::Path(_) } => {
            let count = &mut written[*open as usize];
            *count += 1;
            Reason::Written { open: *open, place: *count - 1 }
        }
    })
}

fn expect(holds: bool, record: usize, what: &str) -> Result<(), String> {
    if holds {
        Ok(())
    } else {
        Err(format!("record {record}: {what}"))
    }
}

/// Reasons against lists of paths: each record told written has its path at its place, every other has none, and each place is one record's.
pub fn in_lists(
    reasons: &[Reason],
    lists: &(Vec<Vec<Pt>>, Vec<Vec<Pt>>),
    path: impl Fn(usize) -> Option<Vec<Pt>>,
) -> Result<(), String> {
    let mut left = [lists.0.iter(), lists.1.iter()];
    for (r, reason) in reasons.iter().enumerate() {
        match reason {
            Reason::Written { open, place } => {
                let list = if *open { &lists.1 } else { &lists.0 };
                expect(list.get(*place) == path(r).as_ref(), r, "its path is not at the place told")?;
                expect(left[*open as usize].next() == list.get(*place), r, "a place is left out, or told twice")?;
            }
            _ => expect(path(r).is_none(), r, "it has a path, and is not told written")?,
        }
    }
    expect(left.iter().all(|list| list.len() == 0), reasons.len(), "a path that no record is told to have written")
}

/// Reasons of a job finished in one call against the real Rust: its lists, its records, and its own tests on its own rings.
fn as_in_rust(opened: &Opened, reverse: bool, reasons: &[Reason]) -> Result<(), String> {
    let mut done = real::copy(&opened.base);
    real::clean_all(&mut done);
    let records = &done.outrec_list;
    expect(records.len() == reasons.len(), reasons.len(), "another count of records")?;
    let lists = real::paths(real::copy(&opened.base));
    in_lists(reasons, &lists, |r| real::path_of(&done, r, reverse, records[r].is_open))?;
    for (r, reason) in reasons.iter().enumerate() {
        let record = &records[r];
        expect(record.pts.is_none() == (reason.number() <= 5), r, "a ring, or none, against the Rust")?;
        let open = !record.is_open || matches!(reason.number(), 1 | 6 | 8);
        expect(open, r, "an open record has a reason of closed ones")?;
        match *reason {
            Reason::Joined { taker } => expect(record.owner == Some(taker), r, "the Rust names another taker")?,
            Reason::ShortPath => expect(!small(&done, r, reverse), r, "the Rust finds the path small")?,
            Reason::SmallPath => expect(small(&done, r, reverse), r, "the Rust finds the path short")?,
            _ => {}
        }
    }
    let broken = broken(&done);
    let told = |wanted: [Reason; 2]| reasons.iter().filter(|reason| wanted.contains(reason)).count();
    let left = (told([Reason::SmallRing, Reason::RingFell]), told([Reason::SmallArea; 2]));
    let few = broken.iter().filter(|(_, points)| *points <= 3).count();
    let others = "the Rust discards other rings as too small, or at a crossing";
    expect((few, broken.len() - few) == left, reasons.len(), others)?;
    // An offcut has three points, which name it.
    for (r, reason) in reasons.iter().enumerate().skip(opened.base.outrec_list.len()) {
        let left = broken.iter().find(|(record, _)| *record == r).map(|(_, points)| *points);
        let wanted = match reason {
            Reason::SmallRing => Some(3),
            Reason::RingFell => Some(2),
            _ => None,
        };
        expect(left == wanted, r, "the Rust discards the offcut otherwise, or not at all")?;
    }
    for (r, record) in opened.job.records.iter().enumerate() {
        expect((record.first == NONE) == (reasons[r] == Reason::NoRing), r, "a ring in the job, or none")?;
    }
    for (r, record) in opened.base.outrec_list.iter().enumerate().filter(|(_, record)| record.pts.is_some()) {
        let valid = record.is_open || is_valid_closed_path(record.pts, &opened.base.outpt_arena);
        expect(valid == (reasons[r] != Reason::SmallRing), r, "the Rust's validity test says otherwise")?;
    }
    Ok(())
}

/// The rings that the Rust discarded: the record that the last point names, and how many points are left, 4 for more. It breaks the circle of such a ring at one next, and keeps
/// every prev. A ring that is not valid has at most three points, and one that has a crossing has more.
fn broken(base: &ClipperBase) -> Vec<(usize, usize)> {
    let before = |at: &usize| Some(base.outpt_arena[*at].prev);
    let ends = (0..base.outpt_arena.len()).filter(|&at| base.outpt_arena[at].next == UNLINKED);
    let points = |end: usize| std::iter::successors(before(&end), before).take(3).position(|at| at == end);
    ends.map(|end| (base.outpt_arena[end].outrec, points(end).map_or(4, |at| at + 1))).collect()
}

/// Whether the Rust's small test ends the path of a record's ring. It is asked of a closed ring whose path has three points; built as an open one, the path meets
/// no test of closed ones.
fn small(base: &ClipperBase, record: usize, reverse: bool) -> bool {
    let three = real::path_of(base, record, reverse, true).is_some_and(|path| path.len() == 3);
    let record = &base.outrec_list[record];
    !record.is_open && three && record.pts.is_some_and(|first| is_very_small_triangle(first, &base.outpt_arena))
}

/// An opened job finished in one call, and its reasons, told by the model and held against the Rust; or its refusal.
pub fn finished(oracle: &mut Oracle, opened: &Opened) -> Result<Result<(History, Vec<Reason>), u8>, String> {
    let mut history = History::opened(opened);
    let ended = history.finish();
    if oracle.full(opened, ended.is_err()) {
        return Ok(Err(FULL));
    }
    let reasons = history.reasons()?;
    as_in_rust(opened, history.forest.reverse, &reasons)?;
    Ok(Ok((history, reasons)))
}

/// The reasons of a job finished in one call.
pub fn of_job(oracle: &mut Oracle, bytes: &[u8]) -> Result<Told, String> {
    match open(bytes) {
        Err(number) => Ok(Err(number)),
        Ok(opened) => Ok(finished(oracle, &opened)?.map(|(_, reasons)| reasons)),
    }
}
