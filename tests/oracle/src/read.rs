// Reading a job's bytes: rows 1, 2 and 3 of document 01's table, field by field.
use crate::job::{Job, Point, Record, JOINS, POINT, POINTS, RECORDS, SEGMENTS};

pub const TORN: u8 = 1;
pub const STRANGE: u8 = 2;
pub const CROWDED: u8 = 3;

/// The length of each tag's value.
const LENGTH: [usize; 6] = [0, 1, POINT, 5, 2, 4];

/// Reads a whole job. A refusal is the first one met: header, tag, length and value, bits, count.
pub fn read(bytes: &[u8]) -> Result<Job, u8> {
    if bytes.is_empty() {
        return Err(STRANGE);
    }
    let mut job = Job::default();
    let mut last = 0;
    let mut rest = bytes;
    while !rest.is_empty() {
        if rest.len() < 3 {
            return Err(TORN);
        }
        let tag = rest[0];
        let misplaced = if last == 0 { tag != 1 } else { tag == 1 || tag < last };
        if misplaced || tag > 5 {
            return Err(STRANGE);
        }
        let length = u16::from_le_bytes([rest[1], rest[2]]) as usize;
        if length != LENGTH[tag as usize] || rest.len() < 3 + length {
            return Err(TORN);
        }
        take_field(&mut job, tag, &rest[3..3 + length])?;
        last = tag;
        rest = &rest[3 + length..];
    }
    Ok(job)
}

fn word(value: &[u8], at: usize) -> u16 {
    u16::from_le_bytes([value[at], value[at + 1]])
}

fn signed(value: &[u8], at: usize) -> i32 {
    i32::from_le_bytes([value[at], value[at + 1], value[at + 2], value[at + 3]])
}

/// Takes one field of the right length into the job: unused bits first, then the count.
fn take_field(job: &mut Job, tag: u8, value: &[u8]) -> Result<(), u8> {
    if (tag == 1 || tag == 3) && value[0] > 3 {
        return Err(STRANGE);
    }
    let crowded = match tag {
        1 => {
            job.settings = value[0];
            false
        }
        2 => {
            let (x, y) = (signed(value, 0), signed(value, 4));
            let (next, prev, record) = (word(value, 8), word(value, 10), word(value, 12));
            job.points.push(Point { x, y, z: signed(value, 14), next, prev, record });
            job.points.len() > POINTS
        }
        3 => {
            job.records.push(Record { flags: value[0], owner: word(value, 1), first: word(value, 3) });
            job.records.len() > RECORDS
        }
        4 => {
            job.segments.push(word(value, 0));
            job.segments.len() > SEGMENTS
        }
        _ => {
            job.joins.push((word(value, 0), word(value, 2)));
            job.joins.len() > JOINS
        }
    };
    if crowded {
        return Err(CROWDED);
    }
    Ok(())
}
