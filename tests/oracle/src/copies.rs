// Copies of accepted jobs: other exports of the same drawing, and drawings that differ in one thing.
use crate::check::resolve;
use crate::job::{Job, Record, COORDINATE, FRONT, KEEP, NONE, OPEN, RECORDS, REVERSE};
use crate::rng::Rng;

/// Up to three records more, without rings, that lead to others: names for points.
pub fn with_ringless(rng: &mut Rng, job: &Job) -> Job {
    let mut job = job.clone();
    for _ in 0..rng.below(4) {
        let records = job.records.len();
        if records == 0 || records >= RECORDS {
            break;
        }
        job.records.push(Record { flags: rng.below(4) as u8, owner: rng.below(records) as u16, first: NONE });
    }
    job
}

/// The same drawing exported again: points in another order, each naming any record that resolves to its ring's.
pub fn again(rng: &mut Rng, job: &Job) -> Job {
    let to = rng.order(job.points.len());
    let homes: Vec<_> = (0..job.records.len()).map(|r| resolve(job, r as u16)).collect();
    let mut names = vec![Vec::new(); job.records.len()];
    for (record, home) in homes.iter().enumerate().filter_map(|(record, home)| Some((record, (*home)?))) {
        names[home].push(record as u16);
    }
    let mut copy = job.clone();
    for (point, &new) in job.points.iter().zip(&to) {
        let home = homes[point.record as usize].expect("a point of an accepted job resolves");
        let at = &mut copy.points[new as usize];
        *at = point.clone();
        (at.next, at.prev) = (to[point.next as usize], to[point.prev as usize]);
        at.record = rng.pick(&names[home]);
    }
    for record in copy.records.iter_mut().filter(|record| record.first != NONE) {
        record.first = to[record.first as usize];
    }
    copy.segments.iter_mut().for_each(|s| *s = to[*s as usize]);
    copy.joins.iter_mut().for_each(|(a, b)| (*a, *b) = (to[*a as usize], to[*b as usize]));
    copy
}

/// The one thing that a changed copy differs in.
#[derive(Clone, Copy, Debug, PartialEq)]
pub enum Change {
    Settings,
    Open,
    Front,
    Owner,
    Coordinate,
    Depth,
    FirstPoint,
    WayRound,
    Segment,
    SegmentOrder,
    JoinPoint,
    JoinDirection,
    JoinOrder,
    OneLess,
}

pub const CHANGES: [(&str, Change); 14] = [
    ("another settings bit", Change::Settings),
    ("open or closed", Change::Open),
    ("a front edge", Change::Front),
    ("another owner", Change::Owner),
    ("another coordinate", Change::Coordinate),
    ("another depth", Change::Depth),
    ("another first point", Change::FirstPoint),
    ("the other way round", Change::WayRound),
    ("another segment", Change::Segment),
    ("two segments exchanged", Change::SegmentOrder),
    ("another point of a join", Change::JoinPoint),
    ("a join's points exchanged", Change::JoinDirection),
    ("two joins exchanged", Change::JoinOrder),
    ("a segment or join less", Change::OneLess),
];

impl Change {
    /// Whether the drawing may be the same all the same: a ring may look alike from two of its points, or both ways round.
    pub fn may_look_alike(self) -> bool {
        matches!(self, Change::FirstPoint | Change::WayRound)
    }
}

/// Two different places below `n`.
fn two(rng: &mut Rng, n: usize) -> Option<(usize, usize)> {
    if n < 2 {
        return None;
    }
    let (a, more) = (rng.below(n), 1 + rng.below(n - 1));
    Some((a, (a + more) % n))
}

/// A number other than this one below `n`.
fn other(rng: &mut Rng, number: u16, n: usize) -> Option<u16> {
    if n < 2 {
        return None;
    }
    Some(((number as usize + 1 + rng.below(n - 1)) % n) as u16)
}

/// The job with one thing changed; none where it has nothing of the kind. It need not be accepted any more.
pub fn changed(rng: &mut Rng, job: &Job, change: Change) -> Option<Job> {
    let mut copy = job.clone();
    let (points, records, segments, joins) = (job.points.len(), job.records.len(), job.segments.len(), job.joins.len());
    let (p, r, s, j) =
        (rng.below(points.max(1)), rng.below(records.max(1)), rng.below(segments.max(1)), rng.below(joins.max(1)));
    let of = |count: usize| (count > 0).then_some(());
    match change {
        Change::Settings => copy.settings ^= rng.pick(&[KEEP, REVERSE]),
        Change::Open | Change::Front => {
            of(records)?;
            copy.records[r].flags ^= if change == Change::Open { OPEN } else { FRONT };
        }
        Change::Owner => {
            of(records)?;
            let owner = job.records[r].owner;
            let any = if owner == NONE { rng.below(records) as u16 } else { NONE };
            copy.records[r].owner = if rng.one_in(3) { other(rng, owner, records).unwrap_or(any) } else { any };
        }
        Change::Coordinate => {
            of(points)?;
            let at = if rng.one_in(2) { &mut copy.points[p].x } else { &mut copy.points[p].y };
            *at = if *at == COORDINATE { 0 } else { *at + 1 };
        }
        Change::Depth => {
            of(points)?;
            copy.points[p].z ^= if rng.one_in(2) { 1 << rng.below(32) } else { 1 };
        }
        Change::FirstPoint => {
            of(points)?;
            let record = copy.records.get_mut(r).filter(|record| record.first != NONE)?;
            record.first = other_on_ring(rng, job, record.first)?;
        }
        Change::WayRound => turn_round(&mut copy, r)?,
        Change::Segment => {
            of(segments)?;
            copy.segments[s] = other(rng, job.segments[s], points)?;
        }
        Change::SegmentOrder => {
            let (a, b) = two(rng, segments).filter(|&(a, b)| job.segments[a] != job.segments[b])?;
            copy.segments.swap(a, b);
        }
        Change::JoinPoint => {
            of(joins)?;
            let (first, second) = job.joins[j];
            copy.joins[j] = match rng.one_in(2) {
                true => (other(rng, first, points)?, second),
                false => (first, other(rng, second, points)?),
            };
        }
        Change::JoinDirection => {
            let &(first, second) = job.joins.get(j).filter(|(first, second)| first != second)?;
            copy.joins[j] = (second, first);
        }
        Change::JoinOrder => {
            let (a, b) = two(rng, joins).filter(|&(a, b)| job.joins[a] != job.joins[b])?;
            copy.joins.swap(a, b);
        }
        Change::OneLess => {
            of(segments + joins)?;
            let segment = joins == 0 || segments > 0 && rng.one_in(2);
            if segment {
                copy.segments.remove(s);
            } else {
                copy.joins.remove(j);
            }
        }
    }
    Some(copy)
}

/// Another point of the ring that a point is on.
fn other_on_ring(rng: &mut Rng, job: &Job, first: u16) -> Option<u16> {
    let mut ring = Vec::new();
    let mut at = job.points[first as usize].next;
    while at != first {
        ring.push(at);
        at = job.points[at as usize].next;
    }
    (!ring.is_empty()).then(|| rng.pick(&ring))
}

/// Walks a record's ring the other way.
fn turn_round(job: &mut Job, record: usize) -> Option<()> {
    let first = job.records.get(record).map(|record| record.first).filter(|&first| first != NONE)?;
    let mut at = first;
    loop {
        let point = &mut job.points[at as usize];
        at = point.next;
        (point.next, point.prev) = (point.prev, point.next);
        if at == first {
            return Some(());
        }
    }
}
