// Compares the real one-call run with the stepping model on one job: every ring by value, both counts, the lists.
use crate::answer::{Answer, SMALL_TRAY};
use crate::guard::{Guard, Ran};
use crate::job::{POINTS, RECORDS};
use crate::model::forest::{Entry, Forest};
use crate::model::lone::{Act, Due};
use crate::oracle::{forest, open, Opened};
use crate::real::{self, FULL};
use crate::rng::Rng;
use crate::stats::Stats;
use crate::{check, model, read};

/// The length that always suffices: document 02, Ask 9.
const TRAY: usize = 26_112;

#[derive(Default)]
pub struct Comparer {
    guard: Guard,
    pub stats: Stats,
}

type Same = Result<(), String>;

fn expect(holds: bool, what: &str) -> Same {
    if holds {
        Ok(())
    } else {
        Err(what.to_string())
    }
}

impl Comparer {
    /// Compares on one job; an error says what disagrees.
    pub fn job(&mut self, bytes: &[u8], rng: &mut Rng) -> Same {
        self.stats.jobs += 1;
        let opened = match open(bytes) {
            Err(number) => {
                self.count_refusal(bytes, number);
                return Ok(());
            }
            Ok(opened) => opened,
        };
        expect(opened.job.bytes() == bytes, "an accepted job, written again, is other bytes")?;
        self.stats.add("join made from segments", opened.joined.made as u64);
        self.stats.add("join splits a ring", opened.joined.split as u64);
        self.stats.add("join merges two rings", opened.joined.merged.len() as u64);
        let copies = &opened.base.outpt_arena[opened.job.points.len()..];
        let deep = copies.iter().filter(|copy| copy.pt.z != 0).count();
        self.stats.add("copy by a join, of a point with a depth", deep as u64);
        self.paths_as_opened(&opened)?;
        let start = forest(&opened);
        let mut done = start.clone();
        // Acts count only where the job is accepted: an endless job has thousands.
        let mut acts = Stats::default();
        match done.finish(|forest, record, due, act| count_act(&mut acts, forest, record, due, act)) {
            Ok(()) => {
                self.stats.merge(&acts);
                self.finished(opened, start, done, rng)
            }
            Err(number) => {
                expect(number == FULL, "a step on an unfinished ring is refused otherwise than as full")?;
                self.full(opened, start, done, rng)
            }
        }
    }

    /// The path of each ring as opening left it, either way round, open and closed. A finished ring has no equal neighbours, so
    /// only here do paths drop them.
    fn paths_as_opened(&mut self, opened: &Opened) -> Same {
        for (record, held) in real::look(&opened.base).records.iter().enumerate() {
            let ring: Vec<_> = held.ring.iter().map(|(_, at)| *at).collect();
            for (reverse, open) in [(false, false), (true, false), (false, true), (true, true)] {
                let path = real::path_of(&opened.base, record, reverse, open);
                expect(path == model::path::path(&ring, reverse, open), "the path of a ring as opened")?;
                if path.map_or(false, |path| path.len() < ring.len()) {
                    self.stats.add("path that drops equal neighbours", 1);
                    let apart = |(a, b): (&real::Pt, &real::Pt)| model::geometry::same(*a, *b) && a.2 != b.2;
                    let deep = ring.iter().zip(&ring[1..]).any(apart);
                    self.stats.add("path that drops an equal neighbour of another depth", deep as u64);
                }
            }
            let closed = model::path::path(&ring, false, false).unwrap_or_default();
            let close = |a: usize, b: usize| model::geometry::close(closed[a], closed[b]);
            if closed.len() == 3 && (close(0, 1) || close(1, 2) || close(2, 0)) {
                self.stats.add("small path that stays, its ring having more points", 1);
            }
        }
        Ok(())
    }

    fn count_refusal(&mut self, bytes: &[u8], number: u8) {
        self.stats.refused(number);
        if number == FULL {
            let job = read::read(bytes).expect("a job refused as full is readable");
            check::check(&job).expect("and passes rows 4 to 8");
            let stage = match real::needs_points(&job) {
                true => "full: points, while joins are made from segments",
                false => "full: records, at a join that splits",
            };
            self.stats.add(stage, 1);
        }
    }

    /// The model finished: the real run must leave the same rings, counts and lists, and so must any other order of steps.
    fn finished(&mut self, opened: Opened, start: Forest, done: Forest, rng: &mut Rng) -> Same {
        let mut base = real::copy(&opened.base);
        real::clean_all(&mut base);
        let state = real::look(&base);
        expect(state.points == done.points, "the count of points")?;
        expect(state.records.len() == done.records.len(), "the count of records")?;
        for (record, real) in state.records.iter().enumerate() {
            let ring: Vec<_> = real.ring.iter().map(|(_, at)| *at).collect();
            expect(ring == done.ring(record), "a record's ring by value")?;
            expect(real.open == matches!(done.records[record], Entry::Open(_)) || ring.is_empty(), "an open ring")?;
        }
        let (closed, open) = real::paths(opened.base);
        expect((closed.clone(), open.clone()) == done.paths(), "the lists of paths")?;
        self.stats.add("accepted", 1);
        self.stats.add("closed path", closed.len() as u64);
        self.stats.add("open path", open.len() as u64);
        let answer = Answer::Paths { closed, open, reversed: done.reverse };
        let length = answer.tray().len();
        expect(length <= TRAY, "a tray of more bytes than always suffice")?;
        expect(answer.clone().within(length) == answer, "a tray that just fits")?;
        if length > 0 {
            expect(answer.within(length - 1) == Answer::Refused(SMALL_TRAY), "a tray one byte short")?;
            self.stats.refused(SMALL_TRAY);
        }
        let other = self.any_order(start, rng);
        expect(other.points == done.points && other.records.len() == done.records.len(), "counts in another order")?;
        expect(family(&other) == family(&done), "rings and offcuts in another order")
    }

    /// The model is full: the real run must need more places or go on for ever, and no order of steps may get past it.
    fn full(&mut self, opened: Opened, start: Forest, done: Forest, rng: &mut Rng) -> Same {
        self.stats.refused(FULL);
        let stage = if done.lacks_points() { "full: points, at a step" } else { "full: records, at a step" };
        self.stats.add(stage, 1);
        match self.guard.run(&opened.job) {
            Ran::Grew => self.stats.add("full: the Rust grows past the guard", 1),
            Ran::Ended(points, records) => {
                expect(points > POINTS || records > RECORDS, "full in the model, not in the real run")?;
                self.stats.add("full: the Rust ends past the limits", 1);
            }
        }
        let other = self.any_order(start, rng);
        let unfinished = (0..other.records.len()).any(|record| other.due(record) != Due::Done);
        expect(unfinished, "another order gets past a full store")
    }

    /// Steps in a random order, wrong record numbers among them, until every ring is done or refuses as full.
    fn any_order(&mut self, mut forest: Forest, rng: &mut Rng) -> Forest {
        let mut busy: Vec<usize> = (0..forest.records.len()).collect();
        busy.push(forest.records.len() + rng.below(3));
        while !busy.is_empty() {
            let pick = rng.below(busy.len());
            let record = busy[pick];
            let held = forest.records.len();
            for _ in 0..1 + rng.below(6) {
                if let Err(number) = forest.step(record) {
                    if number != FULL {
                        self.stats.refused(number);
                    }
                    busy.swap_remove(pick);
                    break;
                }
            }
            busy.extend(held..forest.records.len());
        }
        forest
    }
}

/// Each record that opening left, then its offcuts in cutting order, and theirs.
pub fn families(forest: &Forest) -> Vec<Vec<usize>> {
    let mut members: Vec<Vec<usize>> = vec![Vec::new(); forest.records.len()];
    let mut roots = Vec::new();
    for (record, entry) in forest.records.iter().enumerate() {
        match entry {
            Entry::Closed { cut_from: Some(from), .. } => members[*from].push(record),
            _ => roots.push(record),
        }
    }
    let line = |root: usize| {
        let mut out = Vec::new();
        let mut stack = vec![root];
        while let Some(record) = stack.pop() {
            out.push(record);
            stack.extend(members[record].iter().rev());
        }
        out
    };
    roots.into_iter().map(line).collect()
}

/// The rings of each family.
pub fn family(forest: &Forest) -> Vec<Vec<Vec<real::Pt>>> {
    let rings = |family: Vec<usize>| family.into_iter().map(|record| forest.ring(record)).collect();
    families(forest).into_iter().map(rings).collect()
}

fn count_act(stats: &mut Stats, forest: &Forest, record: usize, due: Due, act: Act) {
    let name = match (due, act) {
        (Due::Validity, Act::Discard) => "discard at the validity test",
        (_, Act::Discard) => "discard at the split's area test",
        (_, Act::Drop) => "drop",
        (_, Act::DropDiscard) => "discard after a drop",
        (_, Act::Settle) => "done at the triangle test",
        (_, Act::Double) if forest.due(record) == Due::Done => "doubling that ends the loop",
        (_, Act::Double) => "doubling that goes on",
        (_, Act::Cut { point: true, offcut: true, .. }) => "cut, new ring point, offcut",
        (_, Act::Cut { point: true, offcut: false, .. }) => "cut, new ring point, no offcut",
        (_, Act::Cut { point: false, offcut: true, .. }) => "cut, no new ring point, offcut",
        (_, Act::Cut { point: false, offcut: false, .. }) => "cut, no new ring point, no offcut",
        _ => return,
    };
    stats.add(name, 1);
    count_depth(stats, forest, record, act);
    if let Act::Cut { .. } = act {
        if forest.ring(record).len() == 2 {
            stats.add("cut that leaves two points", 1);
        }
        let started = matches!(due, Due::Split { start: Some(_), .. });
        if started && matches!(forest.due(record), Due::Split { start: None, .. }) {
            stats.add("cut that takes the loop's start away", 1);
        }
    }
}

/// A doubling leaves its copy before the present place; a cut leaves the first edge's start as the first point, and without a new point the second edge's end as the next.
fn count_depth(stats: &mut Stats, forest: &Forest, record: usize, act: Act) {
    let Entry::Closed { lone, .. } = &forest.records[record] else { return };
    let n = lone.circle.len();
    match (act, lone.due) {
        (Act::Double, Due::Split { at, .. }) if lone.circle[(at + n - 1) % n].2 != 0 => {
            stats.add("doubling of a point with a depth", 1)
        }
        (Act::Cut { at, point: false, .. }, _) => {
            let deep = lone.points().iter().take(2).any(|end| model::geometry::same(*end, at) && end.2 != 0);
            stats.add("crossing that drops onto an end with a depth", deep as u64)
        }
        _ => {}
    }
}
