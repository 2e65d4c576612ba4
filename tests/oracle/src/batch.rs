// Batch mode: length-prefixed jobs in, length-prefixed answers out. README.md has the format.
use crate::oracle::{self, Oracle};
use std::io::{self, BufReader, BufWriter, Read, Write};

/// No part may be longer; a job is decided by its first 50,201 bytes.
const LONGEST: usize = 1 << 24;

/// Reads one length-prefixed part; none at the end of the input.
pub fn read_part(input: &mut impl Read) -> Result<Option<Vec<u8>>, String> {
    let mut length = [0; 4];
    let mut got = 0;
    while got < 4 {
        match input.read(&mut length[got..]) {
            Ok(0) if got == 0 => return Ok(None),
            Ok(0) => return Err("the input ends inside a length".into()),
            Ok(more) => got += more,
            Err(why) => return Err(format!("cannot read the input: {why}")),
        }
    }
    let length = u32::from_le_bytes(length) as usize;
    if length > LONGEST {
        return Err(format!("a part of {length} bytes is longer than {LONGEST}"));
    }
    let mut part = vec![0; length];
    input.read_exact(&mut part).map_err(|_| format!("the input ends inside a part of {length} bytes"))?;
    Ok(Some(part))
}

pub fn write_part(output: &mut impl Write, part: &[u8]) -> Result<(), String> {
    let length = (part.len() as u32).to_le_bytes();
    output.write_all(&length).and_then(|_| output.write_all(part)).map_err(|why| format!("cannot write: {why}"))
}

/// An answer's part: the refusal's number or 0, the listing's length (u32), the listing, the tray's bytes.
pub fn answer_part(oracle: &mut Oracle, job: &[u8], tray: Option<usize>) -> Vec<u8> {
    let mut answer = oracle.answer(job);
    if let Some(length) = tray {
        answer = answer.within(length);
    }
    let listing = answer.listing();
    let mut part = vec![answer.number()];
    part.extend((listing.len() as u32).to_le_bytes());
    part.extend(listing.as_bytes());
    part.extend(answer.tray());
    part
}

pub fn batch(tray: Option<usize>) -> Result<(), String> {
    let mut oracle = Oracle::default();
    let mut input = BufReader::new(io::stdin().lock());
    let mut output = BufWriter::new(io::stdout().lock());
    while let Some(job) = read_part(&mut input)? {
        write_part(&mut output, &answer_part(&mut oracle, &job, tray))?;
    }
    output.flush().map_err(|why| format!("cannot write: {why}"))
}

/// The model's answers to a list of steps on a job, and the rings they leave.
fn steps_part(job: &[u8], records: &[u8]) -> Vec<u8> {
    let mut forest = match oracle::open(job) {
        Err(number) => return vec![number],
        Ok(opened) => oracle::forest(&opened),
    };
    let mut part = vec![0];
    for record in records.chunks(2) {
        let record = u16::from_le_bytes([record[0], record[1]]) as usize;
        part.push(forest.step(record).err().unwrap_or(0));
    }
    part.extend((forest.points as u16).to_le_bytes());
    part.extend((forest.records.len() as u16).to_le_bytes());
    for record in 0..forest.records.len() {
        let ring = forest.ring(record);
        part.push(forest.due(record).number());
        part.extend((ring.len() as u16).to_le_bytes());
        part.extend(ring.iter().flat_map(|&(x, y, z)| [x, y, z]).flat_map(|n| (n as i32).to_le_bytes()));
    }
    part
}

pub fn batch_steps() -> Result<(), String> {
    let mut input = BufReader::new(io::stdin().lock());
    let mut output = BufWriter::new(io::stdout().lock());
    while let Some(job) = read_part(&mut input)? {
        let records = read_part(&mut input)?.ok_or("the input ends before a list of steps")?;
        if records.len() % 2 != 0 {
            return Err("a list of steps has half a record number".into());
        }
        write_part(&mut output, &steps_part(&job, &records))?;
    }
    output.flush().map_err(|why| format!("cannot write: {why}"))
}
