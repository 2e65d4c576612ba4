// Stored answers: made from the hand-written cases and the seed list, and read back. tests/answers/README.md has the format.
use crate::batch::{answer_part, write_part};
use crate::cases::{self, Case};
use crate::compare::Comparer;
use crate::gen;
use crate::oracle::Oracle;
use crate::output;
use crate::rng::Rng;
use crate::show;
use crate::stats::{Stats, NAMES};
use crate::text::{hex, unhex};
use std::collections::{HashMap, HashSet};
use std::io::{self, BufWriter, Write};

/// The cases of a seed list: `SEED INDEX name` on each line.
pub fn seeded(path: &str) -> Result<Vec<Case>, String> {
    let content = std::fs::read_to_string(path).map_err(|why| format!("cannot read {path}: {why}"))?;
    let mut out = Vec::new();
    for line in content.lines().filter(|line| !line.starts_with('#') && !line.is_empty()) {
        let bad = || format!("{path}: not a seed, a number and a name: {line}");
        let mut words = line.splitn(3, ' ');
        let mut number = || words.next().and_then(|word| word.parse().ok()).ok_or_else(bad);
        let (seed, index): (u64, u64) = (number()?, number()?);
        let name = format!("{seed} {index} {}", words.next().ok_or_else(bad)?);
        out.push(Case { name, job: gen::job(seed, index), expected: String::new() });
    }
    Ok(out)
}

/// The whole file of stored answers for a folder of cases.
pub fn make(folder: &str) -> Result<String, String> {
    let mut all = cases::load(&format!("{folder}/paper.txt"))?;
    all.extend(cases::load(&format!("{folder}/refusals.txt"))?);
    all.extend(cases::load(&format!("{folder}/paths.txt"))?);
    all.extend(seeded(&format!("{folder}/seeds.txt"))?);
    let mut oracle = Oracle::default();
    let mut out = String::new();
    for case in all {
        let answer = oracle.answer(&case.job);
        let (listing, tray) = (answer.listing(), hex(&answer.tray()));
        out += &format!("case {}\njob {}\n{listing}tray {tray}\n\n", case.name, hex(&case.job));
    }
    Ok(out)
}

/// Names and jobs of a file of stored answers.
pub fn load(path: &str) -> Result<Vec<(String, Vec<u8>)>, String> {
    let content = std::fs::read_to_string(path).map_err(|why| format!("cannot read {path}: {why}"))?;
    let mut out = Vec::new();
    let mut name = None;
    for line in content.lines() {
        if let Some(word) = line.strip_prefix("case ") {
            name = Some(word.to_string());
        } else if let Some(bytes) = line.strip_prefix("job ") {
            let name = name.take().ok_or_else(|| format!("{path}: a job without a case"))?;
            out.push((name, unhex(bytes)?));
        }
    }
    if out.is_empty() {
        return Err(format!("{path}: no stored answer"));
    }
    Ok(out)
}

/// A file of stored answers in another form: length-prefixed jobs or answers, or each job's rings or acts as text.
pub fn emit(form: &str, path: &str) -> Result<(), String> {
    let mut oracle = Oracle::default();
    let mut output = BufWriter::new(io::stdout().lock());
    for (name, job) in load(path)? {
        match form {
            "jobs" => write_part(&mut output, &job)?,
            "answers" => write_part(&mut output, &answer_part(&mut oracle, &job, None))?,
            "opened" => write_text(&mut output, &name, &show::opened(&job))?,
            "acts" => write_text(&mut output, &name, &show::acts(&job))?,
            _ => return Err(format!("not jobs, answers, opened or acts: {form}")),
        }
    }
    output.flush().map_err(|why| format!("cannot write: {why}"))
}

fn write_text(output: &mut impl Write, name: &str, text: &str) -> Result<(), String> {
    write!(output, "case {name}\n{text}\n").map_err(|why| format!("cannot write: {why}"))
}

/// What comes up in one job, and its length if it is short enough to store.
fn seen(comparer: &mut Comparer, seed: u64, index: u64, job: &[u8]) -> Result<Vec<&'static str>, String> {
    comparer.stats = Stats::default();
    comparer.job(job, &mut Rng::of(!seed, index))?;
    Ok(comparer.stats.seen())
}

/// Prints a seed list: for each refusal and event the first few jobs of a run that show it and are small.
pub fn choose(seed: u64, count: u64, each: usize) -> Result<(), String> {
    let mut comparer = Comparer::default();
    let mut chosen: HashMap<&str, usize> = HashMap::new();
    let mut jobs = HashSet::new();
    for index in 0..count {
        let job = gen::job(seed, index);
        // Only a store that is full of points or records needs a long job.
        if job.len() > 8600 || jobs.contains(&job) {
            continue;
        }
        let names = seen(&mut comparer, seed, index, &job)?;
        let long = job.len() > 610;
        let wanted = |name: &&&str| {
            let stage = name.starts_with("full:") || **name == "refused 3 crowded";
            let trays = name.starts_with("refused 11") || name.starts_with("refused 12");
            let enough = if long { each / 3 } else { each };
            !trays && (stage || !long) && chosen.get(**name).copied().unwrap_or(0) < enough
        };
        let rarest = NAMES.iter().rev().filter(|name| names.contains(name)).find(wanted);
        if let Some(name) = rarest {
            *chosen.entry(name).or_default() += 1;
            output(format!("{seed} {index} {name}\n").as_bytes())?;
            jobs.insert(job);
        }
    }
    Ok(())
}
