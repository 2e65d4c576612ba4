// Cases of the program crate `stepped_cases`: stored jobs and jobs written by hand, stepped in rising order, in reverse, in turn, or by a list. README.md has the formats.
use crate::answer::Answer;
use crate::batch::{read_part, write_part};
use crate::gen;
use crate::model::forest::{Entry, Forest, OUT_OF_TURN};
use crate::model::lone::Due;
use crate::oracle::{self, Oracle};
use crate::rng::Rng;
use crate::show;
use crate::stored;
use crate::text::{self, number};
use std::io::{self, BufReader, BufWriter, Write};

/// A stored job with more acts than this is left out: rings that go on until the store is full are written by hand, with less room.
const ACTS: usize = 150;
/// So many stored jobs that make several rings are also stepped in other orders.
const ORDERS: usize = 12;
/// No longer job is drawn, so that a hundred cases fit the program's input.
const LONGEST: usize = 2400;
/// A start that is not on the ring.
const NOWHERE: u16 = 65535;

/// A job, the progress that some of its records are given, and the record numbers to step; none of these means rising order, to the end.
#[derive(Default)]
struct Case {
    job: Vec<u8>,
    progress: Vec<[u16; 4]>,
    steps: Vec<u16>,
}

fn busy(forest: &Forest) -> Vec<usize> {
    (0..forest.records.len()).filter(|&record| forest.due(record) != Due::Done).collect()
}

/// The highest unfinished record each time, each done ring and an unknown record once more; ends where a step is full.
pub fn reverse(mut forest: Forest) -> Vec<u16> {
    let mut out = Vec::new();
    while let Some(&record) = busy(&forest).last() {
        out.push(record as u16);
        match forest.step(record) {
            Err(_) => return out,
            Ok(_) if forest.due(record) == Due::Done => out.push(record as u16),
            Ok(_) => {}
        }
    }
    out.push(forest.records.len() as u16);
    out
}

/// All records in turn, done ones and an unknown one among them, until no step is granted.
pub fn in_turn(mut forest: Forest) -> Vec<u16> {
    let mut out = Vec::new();
    let mut granted = true;
    while granted {
        granted = false;
        for record in 0..=forest.records.len() {
            out.push(record as u16);
            granted |= forest.step(record).is_ok();
        }
    }
    out
}

/// The stored jobs: all that are accepted and short in rising order, some in the other two.
fn from_stored(path: &str) -> Result<Vec<Case>, String> {
    let (mut rising, mut others) = (Vec::new(), Vec::new());
    for (_, job) in stored::load(path)? {
        let Ok(opened) = oracle::open(&job) else { continue };
        let start = oracle::forest(&opened);
        let (mut done, mut acts) = (start.clone(), 0);
        let ended = done.finish(|_, _, _, _| acts += 1);
        if acts > ACTS || ended.is_err() {
            continue;
        }
        if done.records.len() > 2 && others.len() < 2 * ORDERS {
            others.push(Case { job: job.clone(), steps: reverse(start.clone()), ..Case::default() });
            others.push(Case { job: job.clone(), steps: in_turn(start), ..Case::default() });
        }
        rising.push(Case { job, ..Case::default() });
    }
    rising.extend(others);
    Ok(rising)
}

/// A line `progress RECORD MARK PRESENT START`.
fn progress(words: &str) -> Result<[u16; 4], String> {
    let place = |word: &str| if word == "-" { Ok(NOWHERE) } else { number(word) };
    match words.split(' ').collect::<Vec<_>>()[..] {
        [record, mark, present, start] => Ok([number(record)?, number(mark)?, number(present)?, place(start)?]),
        _ => Err(format!("not a record's progress: {words}")),
    }
}

/// The steps of a line `steps ..`: record numbers, or the name of an order.
fn steps(case: &Case, words: &str) -> Result<Vec<u16>, String> {
    let forest = || start(case).map_err(|number| format!("the job is refused with {number}"));
    match words {
        "rising" => Ok(Vec::new()),
        "reverse" => Ok(reverse(forest()?)),
        "in turn" => Ok(in_turn(forest()?)),
        _ => words.split(' ').map(number).collect(),
    }
}

/// The cases written by hand, each up to its line `steps`.
fn by_hand(path: &str) -> Result<Vec<Case>, String> {
    let content = std::fs::read_to_string(path).map_err(|why| format!("cannot read {path}: {why}"))?;
    let (mut out, mut case, mut job) = (Vec::new(), Case::default(), String::new());
    for line in content.lines().filter(|line| !line.starts_with("case ")) {
        if let Some(words) = line.strip_prefix("progress ") {
            case.progress.push(progress(words)?);
        } else if let Some(words) = line.strip_prefix("steps ") {
            case.job = text::parse(&job)?;
            case.steps = steps(&case, words)?;
            out.push(std::mem::take(&mut case));
            job.clear();
        } else {
            job += line;
            job.push('\n');
        }
    }
    Ok(out)
}

fn bytes(numbers: impl Iterator<Item = u16>) -> Vec<u8> {
    numbers.flat_map(u16::to_le_bytes).collect()
}

fn numbers(part: &[u8]) -> Vec<u16> {
    part.chunks_exact(2).map(|pair| u16::from_le_bytes([pair[0], pair[1]])).collect()
}

/// A case drawn for a job: rising order; or a list of steps, wrong record numbers among them, after any progress of some records.
fn drawn(job: Vec<u8>, rng: &mut Rng) -> Case {
    let mut case = Case { job, ..Case::default() };
    let Ok(forest) = start(&case) else { return case };
    if rng.one_in(4) {
        return case;
    }
    let altered = rng.one_in(2);
    for record in busy(&forest) {
        if altered && rng.one_in(2) {
            let start = if rng.one_in(3) { NOWHERE } else { rng.below(9) as u16 };
            case.progress.push([record as u16, rng.below(4) as u16, rng.below(9) as u16, start]);
        }
    }
    let most = forest.records.len() + 3;
    case.steps = (0..1 + rng.below(60)).map(|_| rng.below(most) as u16).collect();
    case
}

/// The program's input for generated jobs of a seed that are not long.
pub fn draw(seed: u64, from: u64, count: u64) -> Result<(), String> {
    let jobs = (from..from + count).map(|index| (gen::job(seed, index), Rng::of(seed, !index)));
    let short = jobs.filter(|(job, _)| job.len() <= LONGEST);
    write_cases(short.map(|(job, mut rng)| drawn(job, &mut rng)).collect())
}

/// The program's input for a folder of cases.
pub fn make(folder: &str) -> Result<(), String> {
    let mut cases = from_stored(&format!("{folder}/stored.txt"))?;
    cases.extend(by_hand(&format!("{folder}/steps.txt"))?);
    write_cases(cases)
}

fn write_cases(cases: Vec<Case>) -> Result<(), String> {
    let mut output = BufWriter::new(io::stdout().lock());
    for case in cases {
        write_part(&mut output, &case.job)?;
        write_part(&mut output, &bytes(case.progress.iter().flatten().copied()))?;
        write_part(&mut output, &bytes(case.steps.into_iter()))?;
    }
    output.flush().map_err(|why| format!("cannot write: {why}"))
}

/// The model's forest as the case's steps find it, or the refusal of its job.
fn start(case: &Case) -> Result<Forest, u8> {
    let mut forest = oracle::forest(&oracle::open(&case.job)?);
    for &[record, mark, present, start] in &case.progress {
        if let Some(Entry::Closed { lone, .. }) = forest.records.get_mut(record as usize) {
            lone.set_progress(mark, present as usize, (start != NOWHERE).then_some(start as usize));
        }
    }
    Ok(forest)
}

/// What the program prints of a case: each step, the rings, and what writing out then gives.
fn tell(oracle: &mut Oracle, case: &Case) -> Result<String, String> {
    let mut forest = match start(case) {
        Err(number) => return Ok(show::refused(number)),
        Ok(forest) => forest,
    };
    let rising = case.steps.is_empty();
    let mut out = if rising { show::rising(&mut forest) } else { show::listed(&mut forest, &case.steps) };
    let (closed, open) = forest.paths();
    let done = busy(&forest).is_empty();
    let answer =
        if done { Answer::Paths { closed, open, reversed: forest.reverse } } else { Answer::Refused(OUT_OF_TURN) };
    if rising && done && case.progress.is_empty() && oracle.answer(&case.job) != answer {
        return Err("the real run has other paths than the model".into());
    }
    out += &show::rings(&forest);
    Ok(out + &answer.listing())
}

/// The program's output for its input.
pub fn answer() -> Result<(), String> {
    let mut oracle = Oracle::default();
    let mut input = BufReader::new(io::stdin().lock());
    let mut output = BufWriter::new(io::stdout().lock());
    let mut count = 0;
    while let Some(job) = read_part(&mut input)? {
        let mut part = || read_part(&mut input)?.ok_or_else(|| "the input ends inside a case".to_string());
        let progress = numbers(&part()?).chunks_exact(4).map(|four| [four[0], four[1], four[2], four[3]]).collect();
        let case = Case { job, progress, steps: numbers(&part()?) };
        let text = tell(&mut oracle, &case).map_err(|why| format!("case {count}: {why}"))?;
        write!(output, "case {count}\n{text}").map_err(|why| format!("cannot write: {why}"))?;
        count += 1;
    }
    output.flush().map_err(|why| format!("cannot write: {why}"))
}
