// Jobs as text, so that a job can be written by hand and shown. README.md has the format.
use crate::job::{Job, Point, Record, NONE, OPEN};
use crate::read;

pub fn hex(bytes: &[u8]) -> String {
    bytes.iter().map(|byte| format!("{byte:02x}")).collect()
}

pub fn unhex(text: &str) -> Result<Vec<u8>, String> {
    let digits: Vec<u8> = text.bytes().filter(|c| !c.is_ascii_whitespace()).collect();
    if digits.len() % 2 != 0 || !digits.iter().all(u8::is_ascii_hexdigit) {
        return Err(format!("not bytes in hex: {text}"));
    }
    let pairs = digits.chunks(2).map(|pair| u8::from_str_radix(std::str::from_utf8(pair).unwrap(), 16).unwrap());
    Ok(pairs.collect())
}

pub fn number<T: std::str::FromStr>(word: &str) -> Result<T, String> {
    word.parse().map_err(|_| format!("not a number in range: {word}"))
}

fn maybe(word: &str) -> Result<u16, String> {
    if word == "-" {
        Ok(NONE)
    } else {
        number(word)
    }
}

/// A point X,Y or X,Y,Z; without a z it is 0.
fn place(word: &str) -> Result<(i32, i32, i32), String> {
    match word.split(',').collect::<Vec<_>>()[..] {
        [x, y] => Ok((number(x)?, number(y)?, 0)),
        [x, y, z] => Ok((number(x)?, number(y)?, number(z)?)),
        _ => Err(format!("not a point x,y or x,y,z: {word}")),
    }
}

/// Takes one line into the job being written, or into the bytes that follow it.
fn take_line(job: &mut Option<Job>, tail: &mut Vec<u8>, line: &str) -> Result<(), String> {
    let words: Vec<&str> = line.split_whitespace().collect();
    if words[0] == "times" && words.len() > 2 {
        let lines = words[2..].join(" ");
        for _ in 0..number::<u16>(words[1])? {
            lines.split(" ; ").try_for_each(|line| take_line(job, tail, line))?;
        }
        return Ok(());
    }
    if words[0] == "bytes" {
        tail.extend(unhex(&words[1..].concat())?);
        return Ok(());
    }
    if words[0] == "settings" && words.len() == 2 && job.is_none() {
        *job = Some(Job { settings: number(words[1])?, ..Job::default() });
        return Ok(());
    }
    let job = job.as_mut().ok_or_else(|| format!("before any settings: {line}"))?;
    match words[..] {
        ["point", at, next, prev, record] => {
            let (x, y, z) = place(at)?;
            job.points.push(Point { x, y, z, next: number(next)?, prev: number(prev)?, record: number(record)? });
        }
        ["record", flags, owner, first] => {
            job.records.push(Record { flags: number(flags)?, owner: maybe(owner)?, first: maybe(first)? });
        }
        ["ring", flags, owner, ..] => {
            let at: Result<Vec<_>, _> = words[3..].iter().map(|word| place(word)).collect();
            job.add_ring(number(flags)?, maybe(owner)?, &at?);
        }
        ["fill", count] => {
            job.add_ring(OPEN, NONE, &vec![(0, 0, 0); number::<u16>(count)? as usize]);
        }
        ["segment", point] => job.segments.push(number(point)?),
        ["join", first, second] => job.joins.push((number(first)?, number(second)?)),
        _ => return Err(format!("not a line of a job: {line}")),
    }
    Ok(())
}

/// The bytes of a job written as text.
pub fn parse(text: &str) -> Result<Vec<u8>, String> {
    let (mut job, mut tail) = (None, Vec::new());
    for line in text.lines() {
        let line = line.split('#').next().unwrap().trim();
        if !line.is_empty() {
            take_line(&mut job, &mut tail, line)?;
        }
    }
    let mut bytes = job.map_or_else(Vec::new, |job: Job| job.bytes());
    bytes.extend(tail);
    Ok(bytes)
}

/// A job as text: field by field where its bytes can be read, else the bytes.
pub fn show(bytes: &[u8]) -> String {
    let none = |number: u16| if number == NONE { "-".to_string() } else { number.to_string() };
    let job = match read::read(bytes) {
        Err(_) => return format!("bytes {}\n", hex(bytes)),
        Ok(job) => job,
    };
    let mut out = format!("settings {}\n", job.settings);
    for p in &job.points {
        out += &format!("point {},{},{} {} {} {}\n", p.x, p.y, p.z, p.next, p.prev, p.record);
    }
    for r in &job.records {
        out += &format!("record {} {} {}\n", r.flags, none(r.owner), none(r.first));
    }
    for s in &job.segments {
        out += &format!("segment {s}\n");
    }
    for (a, b) in &job.joins {
        out += &format!("join {a} {b}\n");
    }
    out
}
