// The real Rust on a job: its state is set directly, its own functions run, and what they leave is read back.
use crate::core::{FillRule, Path64, Paths64, Point64};
use crate::engine::{ClipType, ClipperBase, HorzJoin, HorzSegment, OutPt, OutRec};
use crate::engine_fns::build_path64_from_outpt;
use crate::engine_public::Clipper64;
use crate::job::{Job, FRONT, KEEP, NONE, OPEN, POINTS, RECORDS, REVERSE};

pub const KNOT: u8 = 9;
pub const FULL: u8 = 10;

/// A point by value: x, y, z. The Rust's own equality ignores z; this one does not.
pub type Pt = (i64, i64, i64);

/// What one record holds; its ring is indices and points in walk order from the first.
#[derive(Clone, Debug, PartialEq)]
pub struct Ring {
    pub open: bool,
    pub front: bool,
    pub owner: Option<usize>,
    pub ring: Vec<(usize, Pt)>,
}

/// What the Rust's state holds, as far as document 01 speaks of it.
#[derive(Clone, Debug, PartialEq)]
pub struct State {
    pub points: usize,
    pub records: Vec<Ring>,
}

/// A join that left a record without a ring: the record, and the one that has the ring after that join.
#[derive(Clone, Copy, Debug, PartialEq)]
pub struct Emptied {
    pub record: usize,
    pub taker: usize,
}

/// How a job's joins went; those that merged two rings, in their order.
#[derive(Clone, Debug, Default, PartialEq)]
pub struct Joined {
    pub made: usize,
    pub split: usize,
    pub merged: Vec<Emptied>,
}

fn named(number: u16) -> Option<usize> {
    (number != NONE).then_some(number as usize)
}

/// The Rust's state for a job that passed rows 1 to 8.
fn set(job: &Job) -> ClipperBase {
    let mut base = ClipperBase::new();
    base.preserve_collinear = job.settings & KEEP != 0;
    base.reverse_solution = job.settings & REVERSE != 0;
    for p in &job.points {
        let mut op = OutPt::new(Point64::new_z(p.x as i64, p.y as i64, p.z as i64), p.record as usize);
        op.next = p.next as usize;
        op.prev = p.prev as usize;
        base.outpt_arena.push(op);
    }
    for (idx, r) in job.records.iter().enumerate() {
        let mut record = OutRec::new(idx);
        record.owner = named(r.owner);
        record.pts = named(r.first);
        record.is_open = r.flags & OPEN != 0;
        record.front_edge = (r.flags & FRONT != 0).then_some(0);
        base.outrec_list.push(record);
    }
    base.horz_seg_list = job.segments.iter().map(|&s| HorzSegment::with_op(s as usize)).collect();
    base.horz_join_list = job.joins.iter().map(|&(a, b)| HorzJoin::with_ops(a as usize, b as usize)).collect();
    base
}

/// Opens a job: refusals 9 and 10 are found by running the real functions, one join at a time; an accepted job is then
/// opened again in one call of each, and both ways must leave the same state.
pub fn open(job: &Job) -> Result<(ClipperBase, Joined), u8> {
    let mut base = set(job);
    base.call_convert_horz_segs_to_joins();
    if base.outpt_arena.len() > POINTS {
        return Err(FULL);
    }
    let joins = std::mem::take(&mut base.horz_join_list);
    let mut joined = Joined { made: joins.len() - job.joins.len(), ..Joined::default() };
    for join in joins {
        let first = join.op1.unwrap();
        if base.outpt_arena[first].next == join.op2.unwrap() {
            return Err(KNOT);
        }
        let before = with_rings(&base);
        base.horz_join_list = vec![join];
        base.call_process_horz_joins();
        if base.outrec_list.len() > RECORDS {
            return Err(FULL);
        }
        if base.outrec_list.len() > before.len() {
            joined.split += 1;
        } else {
            joined.merged.push(emptied(&base, &before, first));
        }
    }
    let whole = open_untested(job);
    assert!(same(&base, &whole), "joining one at a time and in one call differ");
    Ok((whole, joined))
}

/// Which records have a ring.
fn with_rings(base: &ClipperBase) -> Vec<bool> {
    base.outrec_list.iter().map(|record| record.pts.is_some()).collect()
}

/// After a join that made no record: the one record that had a ring before, and the record whose first point is on the ring of the join's first point.
/// Told from the rings alone, without an owner.
fn emptied(base: &ClipperBase, before: &[bool], first: usize) -> Emptied {
    let gone: Vec<usize> = (0..before.len()).filter(|&r| before[r] && base.outrec_list[r].pts.is_none()).collect();
    let mut on_ring = vec![false; base.outpt_arena.len()];
    walk(base, first).into_iter().for_each(|(at, _)| on_ring[at] = true);
    let has_it = |r: &usize| base.outrec_list[*r].pts.is_some_and(|first| on_ring[first]);
    let takers: Vec<usize> = (0..before.len()).filter(has_it).collect();
    match (&gone[..], &takers[..]) {
        (&[record], &[taker]) => Emptied { record, taker },
        _ => panic!("a join of two rings empties {gone:?}, and {takers:?} have the ring"),
    }
}

/// Opening as the Rust does it, one call of each function, without rows 9 and 10.
pub fn open_untested(job: &Job) -> ClipperBase {
    let mut base = set(job);
    base.call_convert_horz_segs_to_joins();
    base.call_process_horz_joins();
    base
}

/// Whether making joins from a job's segments needs more points than there are.
pub fn needs_points(job: &Job) -> bool {
    let mut base = set(job);
    base.call_convert_horz_segs_to_joins();
    base.outpt_arena.len() > POINTS
}

/// A point of the Rust's with its z.
pub fn value(pt: &Point64) -> Pt {
    (pt.x, pt.y, pt.z)
}

/// Whether two states agree in every link and every record.
fn same(a: &ClipperBase, b: &ClipperBase) -> bool {
    let point = |p: &OutPt| (value(&p.pt), p.next, p.prev, p.outrec);
    let record = |r: &OutRec| (r.owner, r.pts, r.is_open, r.front_edge);
    a.outpt_arena.iter().map(point).eq(b.outpt_arena.iter().map(point))
        && a.outrec_list.iter().map(record).eq(b.outrec_list.iter().map(record))
}

/// What the state holds now.
pub fn look(base: &ClipperBase) -> State {
    let records = base.outrec_list.iter().map(|record| Ring {
        open: record.is_open,
        front: record.front_edge.is_some(),
        owner: record.owner,
        ring: record.pts.map_or_else(Vec::new, |first| walk(base, first)),
    });
    State { points: base.outpt_arena.len(), records: records.collect() }
}

fn walk(base: &ClipperBase, first: usize) -> Vec<(usize, Pt)> {
    let mut ring = Vec::new();
    let mut at = first;
    loop {
        let op = &base.outpt_arena[at];
        ring.push((at, value(&op.pt)));
        at = op.next;
        if at == first {
            return ring;
        }
    }
}

/// A copy of a state after opening.
pub fn copy(base: &ClipperBase) -> ClipperBase {
    let mut copy = ClipperBase::new();
    copy.preserve_collinear = base.preserve_collinear;
    copy.reverse_solution = base.reverse_solution;
    copy.outpt_arena = base.outpt_arena.clone();
    copy.outrec_list = base.outrec_list.clone();
    copy
}

/// The real `clean_collinear` on each closed ring, records rising, as `build_paths64` calls it; for looking at the rings,
/// since the public call clears them. May go on for ever: see guard.rs.
pub fn clean_all(base: &mut ClipperBase) {
    let mut record = 0;
    while record < base.outrec_list.len() {
        if base.outrec_list[record].pts.is_some() && !base.outrec_list[record].is_open {
            base.clean_collinear(record);
        }
        record += 1;
    }
}

/// The real `build_path64_from_outpt` on a record's ring as it stands; none too where the record has no ring.
pub fn path_of(base: &ClipperBase, record: usize, reverse: bool, open: bool) -> Option<Vec<Pt>> {
    let first = base.outrec_list[record].pts?;
    let path = build_path64_from_outpt(first, reverse, open, &base.outpt_arena)?;
    Some(path.iter().map(value).collect())
}

/// The real `build_paths64`, closed and open lists: for NoClip the public call runs it on the state as it stands, and nothing
/// before it. May go on for ever: see guard.rs.
pub fn paths(base: ClipperBase) -> (Vec<Vec<Pt>>, Vec<Vec<Pt>>) {
    let mut clipper = Clipper64 { base };
    let (mut closed, mut open) = (Paths64::new(), Paths64::new());
    clipper.execute(ClipType::NoClip, FillRule::EvenOdd, &mut closed, Some(&mut open));
    let values = |path: &Path64| path.iter().map(value).collect();
    (closed.iter().map(values).collect(), open.iter().map(values).collect())
}
