// The jobs that a sweep leaves: its state written down at one of three places, just before the stage that is ours.
use super::Drawing;
use crate::engine::{ClipperBase, OutRec};
use crate::job::{Job, Point, Record, FRONT, NONE, OPEN};

/// Where the sweep's state is written down.
#[derive(Clone, Copy, Debug, PartialEq)]
pub enum Cut {
    /// Before the last scanline's level segments are made into joins: segments and joins.
    Segments,
    /// Before the joins are carried out: joins.
    Joins,
    /// After them: rings only.
    Rings,
}

pub const CUTS: [Cut; 3] = [Cut::Segments, Cut::Joins, Cut::Rings];

/// The sweep's state at a cut; none where the sweep gives up.
pub fn swept(drawing: &Drawing, cut: Cut) -> Option<ClipperBase> {
    let mut base = drawing.clipper().base;
    if cut == Cut::Rings {
        return base.execute_internal(drawing.clip_type, drawing.fill_rule, false).then_some(base);
    }
    if !base.sweep_to_last_line(drawing.clip_type, drawing.fill_rule) {
        return None;
    }
    if cut == Cut::Joins {
        base.call_convert_horz_segs_to_joins();
        base.horz_seg_list.clear();
    }
    Some(base)
}

/// What the numbers of a state become in a job: its points, ring after ring; a number past the limits is its low 16 bits, and the job is too long to be read that far.
struct Numbers(Vec<Option<u16>>);

impl Numbers {
    fn of(base: &ClipperBase) -> Numbers {
        let mut numbers = vec![None; base.outpt_arena.len()];
        for (new, at) in base.outrec_list.iter().flat_map(|record| walk(base, record)).enumerate() {
            numbers[at] = Some(new as u16);
        }
        Numbers(numbers)
    }

    fn get(&self, at: Option<usize>) -> Option<u16> {
        at.and_then(|at| self.0[at])
    }
}

/// A record's ring from its first point on.
fn walk(base: &ClipperBase, record: &OutRec) -> Vec<usize> {
    let Some(first) = record.pts else { return Vec::new() };
    let mut ring = vec![first];
    let mut at = base.outpt_arena[first].next;
    while at != first {
        ring.push(at);
        at = base.outpt_arena[at].next;
    }
    ring
}

fn point(base: &ClipperBase, numbers: &Numbers, at: usize, record: usize) -> Point {
    let op = &base.outpt_arena[at];
    let link = |to: usize| numbers.get(Some(to)).expect("a ring's links stay on it");
    let number = |n: i64| i32::try_from(n).expect("a drawing's numbers have 32 bits");
    let (x, y, z) = (number(op.pt.x), number(op.pt.y), number(op.pt.z));
    Point { x, y, z, next: link(op.next), prev: link(op.prev), record: record as u16 }
}

/// The state as a job, every record with its owner, segments and joins. A segment or a join whose point is on no ring any more is left out, as the Rust passes it over.
pub fn whole(base: &ClipperBase, settings: u8) -> Job {
    let numbers = Numbers::of(base);
    let mut job = Job { settings, ..Job::default() };
    for record in &base.outrec_list {
        for at in walk(base, record) {
            job.points.push(point(base, &numbers, at, base.outpt_arena[at].outrec));
        }
        let flags = if record.is_open { OPEN } else { 0 } | if record.front_edge.is_some() { FRONT } else { 0 };
        let owner = record.owner.map_or(NONE, |owner| owner as u16);
        job.records.push(Record { flags, owner, first: numbers.get(record.pts).unwrap_or(NONE) });
    }
    job.segments = base.horz_seg_list.iter().filter_map(|segment| numbers.get(segment.left_op)).collect();
    let join = |ops: (Option<usize>, Option<usize>)| Some((numbers.get(ops.0)?, numbers.get(ops.1)?));
    job.joins = base.horz_join_list.iter().filter_map(|j| join((j.op1, j.op2))).collect();
    job
}

/// The rings alone: each with a record of its own and no owner, no segments, no joins.
pub fn rings(base: &ClipperBase, settings: u8) -> Job {
    let numbers = Numbers::of(base);
    let mut job = Job { settings, ..Job::default() };
    for record in base.outrec_list.iter().filter(|record| record.pts.is_some()) {
        let number = job.records.len();
        job.points.extend(walk(base, record).into_iter().map(|at| point(base, &numbers, at, number)));
        let flags = if record.is_open { OPEN } else { 0 };
        job.records.push(Record { flags, owner: NONE, first: numbers.get(record.pts).unwrap_or(NONE) });
    }
    job
}

/// The job that a drawing's sweep leaves at a cut.
pub fn job(drawing: &Drawing, cut: Cut) -> Option<Job> {
    let base = swept(drawing, cut)?;
    Some(match cut {
        Cut::Rings => rings(&base, drawing.settings),
        _ => whole(&base, drawing.settings),
    })
}
