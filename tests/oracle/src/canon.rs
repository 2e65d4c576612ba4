// Document 02, Ask 3, written a second time: the one way to write a job, and in what two jobs agree that are written alike.
use crate::answer::SMALL_TRAY;
use crate::check::{self, resolve};
use crate::job::{Job, Point, Record, NONE};
use crate::read;

/// A job that passes rows 1 to 8.
pub fn accepted(bytes: &[u8]) -> Result<Job, u8> {
    let job = read::read(bytes)?;
    check::check(&job)?;
    Ok(job)
}

/// A record's points in walk order from its first; none without a ring.
fn walk(job: &Job, record: &Record) -> Vec<usize> {
    let mut ring = Vec::new();
    let mut at = record.first;
    while at != NONE {
        ring.push(at as usize);
        at = job.points[at as usize].next;
        if at == record.first {
            break;
        }
    }
    ring
}

/// An accepted job as it is written: records in their order, each ring's points in walk order from its first point, points
/// renumbered so, every point naming the record it resolves to, segments and joins renumbered to match.
pub fn rewritten(job: &Job) -> Job {
    let order: Vec<usize> = job.records.iter().flat_map(|record| walk(job, record)).collect();
    let mut new = vec![NONE; job.points.len()];
    order.iter().enumerate().for_each(|(number, &point)| new[point] = number as u16);
    let name = |point: u16| new[point as usize];
    let point = |&old: &usize| {
        let Point { x, y, z, next, prev, record } = job.points[old];
        let home = resolve(job, record).expect("a point of an accepted job resolves to its ring's record");
        Point { x, y, z, next: name(next), prev: name(prev), record: home as u16 }
    };
    let record = |old: &Record| {
        let first = if old.first == NONE { NONE } else { name(old.first) };
        Record { first, ..old.clone() }
    };
    Job {
        settings: job.settings,
        points: order.iter().map(point).collect(),
        records: job.records.iter().map(record).collect(),
        segments: job.segments.iter().map(|&s| name(s)).collect(),
        joins: job.joins.iter().map(|&(a, b)| (name(a), name(b))).collect(),
    }
}

/// What is written of any bytes: the first refusal of rows 1 to 8, or the job.
pub fn rewrite(bytes: &[u8]) -> Result<Vec<u8>, u8> {
    Ok(rewritten(&accepted(bytes)?).bytes())
}

/// The same into a tray of a given length: row 11 comes last.
pub fn rewrite_within(bytes: &[u8], tray: usize) -> Result<Vec<u8>, u8> {
    let written = rewrite(bytes)?;
    if written.len() > tray {
        return Err(SMALL_TRAY);
    }
    Ok(written)
}

/// A point of a segment or join, by its ring's record and its place in the walk.
type Named = (usize, usize);

/// All in which two accepted jobs agree exactly when they are written alike; no number of a point is in it.
#[derive(Debug, PartialEq)]
pub struct Drawing {
    pub settings: u8,
    /// Flags, owner, and the ring's coordinates from the first point, z too.
    pub records: Vec<(u8, u16, Vec<(i32, i32, i32)>)>,
    pub segments: Vec<Named>,
    pub joins: Vec<(Named, Named)>,
}

pub fn drawing(job: &Job) -> Drawing {
    let rings: Vec<Vec<usize>> = job.records.iter().map(|record| walk(job, record)).collect();
    let place = |(record, ring): (usize, &Vec<usize>), point: u16| {
        ring.iter().position(|&at| at == point as usize).map(|place| (record, place))
    };
    let name = |point: u16| {
        rings.iter().enumerate().find_map(|ring| place(ring, point)).expect("a point of an accepted job is on a ring")
    };
    let at = |&point: &usize| (job.points[point].x, job.points[point].y, job.points[point].z);
    let record = |(record, ring): (&Record, &Vec<usize>)| (record.flags, record.owner, ring.iter().map(at).collect());
    Drawing {
        settings: job.settings,
        records: job.records.iter().zip(&rings).map(record).collect(),
        segments: job.segments.iter().map(|&s| name(s)).collect(),
        joins: job.joins.iter().map(|&(a, b)| (name(a), name(b))).collect(),
    }
}
