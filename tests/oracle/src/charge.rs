// The charge line of document 02, Ask 1, from the Rust's own lists, in wide whole numbers; and the cases with arguments. README.md and tests/answers/README.md have the formats.
use crate::answer::Answer;
use crate::oracle::Oracle;
use crate::output;
use crate::real::Pt;
use crate::text::{self, hex};

pub const BAD_RATE: u8 = 13;

/// Twice the square micrometres of a square decimetre.
const DIVISOR: i128 = 2 * 100_000 * 100_000;

/// What the arguments say: no rate, a rate, or a bad one.
#[derive(Clone, Copy, Debug, PartialEq)]
pub enum Rate {
    None,
    Cents(u32),
    Bad,
}

/// One argument's rate: digits alone, of which those after the leading zeros are at most four.
fn rate_in(argument: &[u8]) -> Rate {
    let digits: Vec<u8> = argument.iter().copied().skip_while(|&byte| byte == b'0').collect();
    if argument.is_empty() || !digits.iter().all(u8::is_ascii_digit) || digits.len() > 4 {
        return Rate::Bad;
    }
    match String::from_utf8_lossy(&digits).parse() {
        Ok(cents @ 1..=1000) => Rate::Cents(cents),
        _ => Rate::Bad,
    }
}

/// The rate of all arguments, the program's name left out.
pub fn rate_of<T: AsRef<[u8]>>(arguments: &[T]) -> Rate {
    match arguments {
        [] => Rate::None,
        [argument] => rate_in(argument.as_ref()),
        _ => Rate::Bad,
    }
}

/// The sum of the doubled areas, each the sum of (prev y + y) × (prev x − x) over a path.
fn net_area(closed: &[Vec<Pt>]) -> i128 {
    let wide = |(x, y, _): Pt| (i128::from(x), i128::from(y));
    let edges =
        closed.iter().flat_map(|path| (0..path.len()).map(|i| (path[(i + path.len() - 1) % path.len()], path[i])));
    edges.map(|(prev, at)| (wide(prev), wide(at))).map(|(prev, at)| (prev.1 + at.1) * (prev.0 - at.0)).sum()
}

fn line(closed: &[Vec<Pt>], cents: u32) -> String {
    let total = net_area(closed).abs() * i128::from(cents);
    let (charge, remainder) = (total.div_euclid(DIVISOR), total.rem_euclid(DIVISOR));
    assert!(total == charge * DIVISOR + remainder && (0..DIVISOR).contains(&remainder), "the paper's equation");
    format!("charge {charge} {remainder}\n")
}

/// The listing of a job's answer with these arguments; a bad rate is told before the job is asked for.
pub fn listing(rate: Rate, answer: impl FnOnce() -> Result<Answer, String>) -> Result<String, String> {
    if rate == Rate::Bad {
        return Ok(Answer::Refused(BAD_RATE).listing());
    }
    let answer = answer()?;
    Ok(match (&answer, rate) {
        (Answer::Paths { closed, .. }, Rate::Cents(cents)) => answer.listing() + &line(closed, cents),
        _ => answer.listing(),
    })
}

/// The arguments of a line `at "A" "B" ..`, each in double quotes.
fn arguments(line: &str) -> Result<Vec<&str>, String> {
    let bad = || format!("not arguments in double quotes: {line}");
    let parts: Vec<&str> = line.split('"').collect();
    let between = parts.iter().step_by(2).all(|part| part.trim().is_empty());
    if parts.len() % 2 == 0 || !between {
        return Err(bad());
    }
    Ok(parts.into_iter().skip(1).step_by(2).collect())
}

/// The stored answers of a file of cases with arguments: every job at each of its lines `at`.
pub fn make(path: &str) -> Result<(), String> {
    let content = std::fs::read_to_string(path).map_err(|why| format!("cannot read {path}: {why}"))?;
    let mut oracle = Oracle::default();
    let (mut name, mut job) = (None, String::new());
    for row in content.lines().filter(|row| !row.starts_with('#') && !row.trim().is_empty()) {
        if let Some(word) = row.strip_prefix("case ") {
            (name, job) = (Some(word), String::new());
            continue;
        }
        let name = name.ok_or_else(|| format!("{path}: not the start of a case: {row}"))?;
        let Some(words) = row.strip_prefix("at") else {
            job += row;
            job.push('\n');
            continue;
        };
        let said = |why: String| format!("{path}: case {name}: {why}");
        let rate = rate_of(&arguments(words).map_err(said)?);
        let bytes = text::parse(&job).map_err(said)?;
        let listing = listing(rate, || Ok(oracle.answer(&bytes)))?;
        output(format!("case {name}\n{row}\njob {}\n{listing}\n", hex(&bytes)).as_bytes())?;
    }
    Ok(())
}
