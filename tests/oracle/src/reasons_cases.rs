// Ask 5 tried on jobs: cases written by hand, stored ones, and generated ones, finished in one call and by lists of steps in other orders.
use crate::cases::sections;
use crate::compare::families;
use crate::engine::ClipperBase;
use crate::model::path::path;
use crate::oracle::{open, Opened, Oracle};
use crate::reasons::{finished, in_lists, lines, of_job, History, Reason, Told};
use crate::rng::Rng;
use crate::runs::{self, Compares};
use crate::text::{self, hex, number};
use crate::{output, stepped, stored};
use std::collections::BTreeMap;

/// A case written by hand: its job, the steps of its line `steps` if it has one, and what is told.
struct Case {
    name: String,
    job: Vec<u8>,
    steps: Option<String>,
    expected: String,
}

fn load(path: &str) -> Result<Vec<Case>, String> {
    let content = std::fs::read_to_string(path).map_err(|why| format!("cannot read {path}: {why}"))?;
    let mut out = Vec::new();
    for [name, text, expected] in sections(&content).map_err(|why| format!("{path}: {why}"))? {
        let (steps, job): (Vec<&str>, Vec<&str>) = text.lines().partition(|line| line.starts_with("steps "));
        let job = text::parse(&job.join("\n")).map_err(|why| format!("{path}: case {name}: {why}"))?;
        out.push(Case { name, job, steps: steps.first().map(|line| line["steps ".len()..].to_string()), expected });
    }
    Ok(out)
}

/// Steps an opened job by a list: record numbers, or the name of an order.
fn stepped(opened: &Opened, words: &str) -> Result<History, String> {
    let mut history = History::opened(opened);
    let list = match words {
        "reverse" => stepped::reverse(history.forest.clone()),
        "in turn" => stepped::in_turn(history.forest.clone()),
        _ => words.split(' ').map(number).collect::<Result<_, _>>()?,
    };
    for record in list {
        let _ = history.step(record as usize);
    }
    Ok(history)
}

/// The reasons of another order of steps: its own lists have the paths where it says, and each ring has the reason that it has in one call, apart from
/// the numbers of offcuts and of places. Whether these numbers are others.
pub fn same_reasons(one: &History, other: &History) -> Result<bool, String> {
    let (ours, theirs) = (one.reasons()?, other.reasons()?);
    let forest = &other.forest;
    let is_open = |r: usize| matches!(theirs[r], Reason::Written { open: true, .. });
    in_lists(&theirs, &forest.paths(), |r| path(&forest.ring(r), forest.reverse, is_open(r)))?;
    let (mine, others) = (families(&one.forest), families(forest));
    let sizes = |all: &[Vec<usize>]| all.iter().map(Vec::len).collect::<Vec<_>>();
    if sizes(&mine) != sizes(&others) {
        return Err("another order cuts other offcuts".into());
    }
    for (r, q) in mine.into_iter().flatten().zip(others.into_iter().flatten()) {
        let same = match (ours[r], theirs[q]) {
            (Reason::Written { open, .. }, Reason::Written { open: other, .. }) => open == other,
            (ours, theirs) => ours == theirs,
        };
        if !same {
            return Err(format!("record {r} is told {:?}, in another order, as {q}, {:?}", ours[r], theirs[q]));
        }
    }
    Ok(ours != theirs)
}

/// What is told of a case: in one call, and then the other orders must tell the same; or after its steps.
fn tell(oracle: &mut Oracle, case: &Case) -> Result<String, String> {
    let opened = match open(&case.job) {
        Err(number) => return Ok(lines(&Err(number))),
        Ok(opened) => opened,
    };
    if let Some(words) = &case.steps {
        let history = stepped(&opened, words)?;
        return Ok(lines(&if history.done() { Ok(history.reasons()?) } else { Err(12) }));
    }
    let told: Told = match finished(oracle, &opened)? {
        Err(number) => Err(number),
        Ok((history, reasons)) => {
            for order in ["reverse", "in turn"] {
                same_reasons(&history, &stepped(&opened, order)?)?;
            }
            Ok(reasons)
        }
    };
    Ok(lines(&told))
}

/// The cases written by hand.
pub fn expect(path: &str) -> Result<(), String> {
    let mut oracle = Oracle::default();
    let cases = load(path)?;
    for case in &cases {
        let said = |why: String| format!("{path}: case {}: {why}", case.name);
        let got = tell(&mut oracle, case).map_err(said)?;
        if got != case.expected {
            return Err(said(format!("expected\n{}got\n{got}", case.expected)));
        }
    }
    output(format!("{path}: {} cases as expected\n", cases.len()).as_bytes())
}

/// Of the generated jobs that have stored answers those of at most so many bytes have their reasons stored too.
const SHORT: usize = 370;

/// The stored reasons of a folder: its cases written by hand, finished in one call, then the short ones of its seed list.
pub fn make(folder: &str) -> Result<(), String> {
    let by_hand = load(&format!("{folder}/reasons.txt"))?.into_iter().filter(|case| case.steps.is_none());
    let seeded = stored::seeded(&format!("{folder}/seeds.txt"))?.into_iter().filter(|case| case.job.len() <= SHORT);
    let all = by_hand.map(|case| (case.name, case.job)).chain(seeded.map(|case| (case.name, case.job)));
    let mut oracle = Oracle::default();
    for (name, job) in all {
        let told = of_job(&mut oracle, &job).map_err(|why| format!("case {name}: {why}"))?;
        output(format!("case {name}\njob {}\n{}\n", hex(&job), lines(&told)).as_bytes())?;
    }
    Ok(())
}

/// What a long run must have told.
const MUST: [&str; 15] = [
    "1 no ring in the job",
    "1 no ring in the job, open",
    "2 joined",
    "2 joined, the taker joined later itself",
    "3 too small to begin with",
    "3 too small to begin with, an offcut",
    "4 too little left",
    "5 area under 2",
    "6 too few points, closed",
    "6 too few points, open",
    "7 too small for an outline",
    "8 closed outline",
    "8 closed outline, an offcut",
    "8 open outline",
    "another order, other numbers",
];

#[derive(Default)]
struct Teller {
    oracle: Oracle,
    counts: BTreeMap<String, u64>,
}

impl Teller {
    fn count(&mut self, what: impl Into<String>) {
        *self.counts.entry(what.into()).or_default() += 1;
    }

    fn count_reason(&mut self, base: &ClipperBase, reasons: &[Reason], r: usize) {
        let open = base.outrec_list.get(r).is_some_and(|record| record.is_open);
        let offcut = if r >= base.outrec_list.len() { ", an offcut" } else { "" };
        self.count(match reasons[r] {
            Reason::NoRing => format!("1 no ring in the job{}", if open { ", open" } else { "" }),
            Reason::Joined { taker } => match reasons[taker] {
                Reason::Joined { .. } => "2 joined, the taker joined later itself".into(),
                _ => "2 joined".into(),
            },
            Reason::SmallRing => format!("3 too small to begin with{offcut}"),
            Reason::RingFell => format!("4 too little left{offcut}"),
            Reason::SmallArea => "5 area under 2".into(),
            Reason::ShortPath => format!("6 too few points, {}", if open { "open" } else { "closed" }),
            Reason::SmallPath => format!("7 too small for an outline{offcut}"),
            Reason::Written { open: false, .. } => format!("8 closed outline{offcut}"),
            Reason::Written { open: true, .. } => "8 open outline".into(),
        });
    }
}

/// Steps in a random order, wrong record numbers among them, until every ring is done.
fn any_order(opened: &Opened, rng: &mut Rng) -> History {
    let mut history = History::opened(opened);
    while !history.done() {
        let record = rng.below(history.forest.records.len() + 1);
        for _ in 0..1 + rng.below(6) {
            let _ = history.step(record);
        }
    }
    history
}

impl Compares for Teller {
    fn compare(&mut self, seed: u64, index: u64, bytes: &[u8]) -> Result<(), String> {
        let opened = match open(bytes) {
            Err(number) => {
                self.count(format!("refused {number}"));
                return Ok(());
            }
            Ok(opened) => opened,
        };
        let (history, reasons) = match finished(&mut self.oracle, &opened)? {
            Err(_) => {
                self.count("refused 10, at a step");
                return Ok(());
            }
            Ok(told) => told,
        };
        (0..reasons.len()).for_each(|r| self.count_reason(&opened.base, &reasons, r));
        let others = same_reasons(&history, &any_order(&opened, &mut Rng::of(!seed, index)))?;
        self.count(if others { "another order, other numbers" } else { "another order, the same numbers" });
        Ok(())
    }
}

/// Ask 5 on the jobs of one seed; each reason must come up.
pub fn compare(seed: u64, count: u64, threads: u64) -> Result<(), String> {
    let (parts, head) = runs::all::<Teller>(seed, count, threads)?;
    let mut counts: BTreeMap<String, u64> = BTreeMap::new();
    for (name, times) in parts.into_iter().flat_map(|part| part.counts) {
        *counts.entry(name).or_default() += times;
    }
    let lines: String = counts.iter().map(|(name, times)| format!("{times:>10}  {name}\n")).collect();
    output((head + &lines).as_bytes())?;
    let never: Vec<&str> = MUST.into_iter().filter(|name| !counts.contains_key(*name)).collect();
    if never.is_empty() || count < 10_000 {
        Ok(())
    } else {
        Err(format!("never among {count} jobs: {}", never.join("; ")))
    }
}
