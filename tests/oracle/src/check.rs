// Rows 4 to 8 of document 01's table, each over the whole job, in that order.
use crate::job::{Job, COORDINATE, NONE, OPEN};

pub const OFF_THE_TABLE: u8 = 4;
pub const NO_SUCH: u8 = 5;
pub const LOOSE: u8 = 6;
pub const MUDDLED: u8 = 7;
pub const OPEN_EDGE: u8 = 8;

pub fn check(job: &Job) -> Result<(), u8> {
    if job.points.iter().any(|p| beyond(p.x) || beyond(p.y)) {
        return Err(OFF_THE_TABLE);
    }
    if !numbers_name_something(job) {
        return Err(NO_SUCH);
    }
    if !linked(job) {
        return Err(LOOSE);
    }
    let on = rings(job).ok_or(MUDDLED)?;
    let edge = |p: &u16| job.records[on[*p as usize]].flags & OPEN != 0;
    if job.segments.iter().any(edge) || job.joins.iter().any(|(a, b)| edge(a) || edge(b)) {
        return Err(OPEN_EDGE);
    }
    Ok(())
}

fn beyond(coordinate: i32) -> bool {
    !(-COORDINATE..=COORDINATE).contains(&coordinate)
}

fn numbers_name_something(job: &Job) -> bool {
    let point = |p: u16| (p as usize) < job.points.len();
    let record = |r: u16| (r as usize) < job.records.len();
    job.points.iter().all(|p| point(p.next) && point(p.prev) && record(p.record))
        && job.records.iter().all(|r| (r.owner == NONE || record(r.owner)) && (r.first == NONE || point(r.first)))
        && job.segments.iter().all(|&s| point(s))
        && job.joins.iter().all(|&(a, b)| point(a) && point(b))
}

fn linked(job: &Job) -> bool {
    let at = |p: u16| &job.points[p as usize];
    (0..job.points.len()).all(|i| {
        let p = &job.points[i];
        at(p.prev).next as usize == i && at(p.next).prev as usize == i
    })
}

/// Whether the owner chain from a record comes to an end.
fn chain_ends(job: &Job, record: usize) -> bool {
    let mut at = record as u16;
    for _ in 0..=job.records.len() {
        if at == NONE {
            return true;
        }
        at = job.records[at as usize].owner;
    }
    false
}

/// `get_real_outrec`: the first with points among a record and its owners.
pub fn resolve(job: &Job, record: u16) -> Option<usize> {
    let mut at = record;
    while at != NONE {
        if job.records[at as usize].first != NONE {
            return Some(at as usize);
        }
        at = job.records[at as usize].owner;
    }
    None
}

/// The record whose ring each point is on; none where row 7 refuses.
fn rings(job: &Job) -> Option<Vec<usize>> {
    if !(0..job.records.len()).all(|r| chain_ends(job, r)) {
        return None;
    }
    let mut on = vec![None; job.points.len()];
    for (r, record) in job.records.iter().enumerate().filter(|(_, record)| record.first != NONE) {
        let mut at = record.first as usize;
        loop {
            if resolve(job, job.points[at].record) != Some(r) {
                return None;
            }
            on[at] = Some(r);
            at = job.points[at].next as usize;
            if at == record.first as usize {
                break;
            }
        }
    }
    on.into_iter().collect()
}
