// Cases written by hand: a job as text and the listing that a paper, not a run, says it has. tests/answers/README.md has the format.
use crate::oracle::Oracle;
use crate::output;
use crate::text;

pub struct Case {
    pub name: String,
    pub job: Vec<u8>,
    pub expected: String,
}

/// Each case of a file as text: its name, what stands before its line `expect`, and what stands after it.
pub fn sections(content: &str) -> Result<Vec<[String; 3]>, String> {
    let mut out = Vec::new();
    let mut lines = content.lines().filter(|line| !line.trim_start().starts_with('#'));
    while let Some(line) = lines.next() {
        if line.trim().is_empty() {
            continue;
        }
        let name = line.strip_prefix("case ").ok_or_else(|| format!("not the start of a case: {line}"))?.to_string();
        let part = |until: &str, lines: &mut dyn Iterator<Item = &str>| {
            let mut out = String::new();
            for line in lines {
                if line == until {
                    return Ok(out);
                }
                out += line;
                out.push('\n');
            }
            Err(format!("case {name} has no line '{until}'"))
        };
        let job = part("expect", &mut lines)?;
        let expected = part("end", &mut lines)?;
        out.push([name, job, expected]);
    }
    Ok(out)
}

pub fn parse(content: &str) -> Result<Vec<Case>, String> {
    let case = |[name, job, expected]: [String; 3]| {
        let job = text::parse(&job).map_err(|why| format!("case {name}: {why}"))?;
        Ok(Case { name, job, expected })
    };
    sections(content)?.into_iter().map(case).collect()
}

pub fn load(path: &str) -> Result<Vec<Case>, String> {
    let content = std::fs::read_to_string(path).map_err(|why| format!("cannot read {path}: {why}"))?;
    parse(&content).map_err(|why| format!("{path}: {why}"))
}

/// Compares each case's answer, given as text, with its expectation.
pub fn hold(path: &str, mut answer: impl FnMut(&Case) -> Result<(String, String), String>) -> Result<(), String> {
    let cases = load(path)?;
    for case in &cases {
        let (got, expected) = answer(case).map_err(|why| format!("{path}: case {}: {why}", case.name))?;
        if got != expected {
            let line = |text: &str| text.trim_end().replace('\n', " / ");
            let (expected, got) = (line(&expected), line(&got));
            return Err(format!("{path}: case {}: expected {expected}, got {got}", case.name));
        }
    }
    output(format!("{path}: {} cases as expected\n", cases.len()).as_bytes())
}

/// Each case's listing, by the oracle.
pub fn expect(path: &str) -> Result<(), String> {
    let mut oracle = Oracle::default();
    hold(path, |case| Ok((oracle.answer(&case.job).listing(), case.expected.clone())))
}
