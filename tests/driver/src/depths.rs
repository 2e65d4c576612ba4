// What the deliberate faults of depth do to what a call left (calls.rs): each is a rule of document 02, Ask 9, told wrongly.
use crate::calls::Fault;
use crate::model::load;
use crate::words::{self, *};
use oracle::answer::Answer;
use oracle::job::POINT;
use oracle::model::geometry::same;
use oracle::model::lone::Act;
use oracle::model::path::path;
use oracle::real::Pt;

/// Whether a fault is told from the words before a step.
pub fn of_steps(fault: Fault) -> bool {
    use Fault::*;
    matches!(fault, StepDoubled | StepCrossing | StepEnd | StepEquals | StepDepth)
}

/// Spoils what a step on a record left that was carried out; the answer.
pub fn stepped(fault: Fault, before: &[u32], work: &mut [u32], r: usize) -> u32 {
    let next = |p: usize| before[NEXT + p] as usize;
    let here = before[PRESENT + r] as usize;
    let made = points(before)..points(work);
    match (fault, load(before).step(r)) {
        (Fault::StepDoubled, Ok(Act::Double)) => made.for_each(|p| work[Z + p] = 0),
        (Fault::StepCrossing, Ok(Act::Cut { .. })) => {
            made.for_each(|p| work[Z + p] = before[Z + before[PREV + here] as usize]);
        }
        (Fault::StepEnd, Ok(Act::Cut { .. })) => made.for_each(|p| work[Z + p] = before[Z + next(next(here))]),
        (Fault::StepEquals, Ok(Act::Drop)) if differs(before, here) => {
            work.copy_from_slice(before);
            work[PRESENT + r] = next(here) as u32;
        }
        (Fault::StepDepth, _) if far(before, r) => return 4,
        _ => {}
    }
    0
}

/// Whether points in line are kept, and the point equals a neighbour of another depth.
fn differs(w: &[u32], p: usize) -> bool {
    let near = |column: usize| value(w, w[column + p] as usize);
    let other = |q: Pt| same(q, value(w, p)) && q != value(w, p);
    w[SETTINGS] & 1 != 0 && (other(near(NEXT)) || other(near(PREV)))
}

/// Whether a point of a record's ring has a depth that no coordinate may have.
fn far(w: &[u32], r: usize) -> bool {
    words::ring(w, r).unwrap_or_default().into_iter().any(|p| value(w, p).2.abs() > RAISED)
}

/// The points that joins made have depth 0.
pub fn opened(job: &[u8], work: &mut [u32]) {
    let read = oracle::read::read(job).map_or(0, |job| job.points.len());
    (read..points(work)).for_each(|p| work[Z + p] = 0);
}

/// A path that keeps the last of neighbouring equals, or those of different depths.
fn wrongly(fault: Fault, ring: &[Pt], reverse: bool) -> Vec<Pt> {
    let mut order = ring.to_vec();
    if reverse {
        order[1..].reverse();
    } else {
        order.rotate_left(1);
    }
    if fault == Fault::FinishEquals {
        order.dedup();
        return order;
    }
    order.reverse();
    order.dedup_by(|next, kept| same(*next, *kept));
    order.reverse();
    order
}

/// The tray as such paths fill it, if it has room.
pub fn walked(fault: Fault, work: &[u32], tray: &mut [u8]) {
    let reversed = work[SETTINGS] & 2 != 0;
    let (mut closed, mut open) = (Vec::new(), Vec::new());
    for r in 0..records(work) {
        let ring = values(work, &words::ring(work, r).unwrap_or_default());
        if path(&ring, reversed, is_open(work, r)).is_some() {
            let list = if is_open(work, r) { &mut open } else { &mut closed };
            list.push(wrongly(fault, &ring, reversed));
        }
    }
    let bytes = Answer::Paths { closed, open, reversed }.tray();
    if bytes.len() <= tray.len() {
        tray.fill(0);
        tray[..bytes.len()].copy_from_slice(&bytes);
    }
}

/// A listing whose depths have no sign, if there is room for it; its length.
pub fn unsigned(text: &mut [u8], length: usize) -> u64 {
    let listing = String::from_utf8_lossy(&text[..length]).into_owned();
    let word = |word: &str| match word.split(',').collect::<Vec<_>>()[..] {
        [x, y, z] => format!("{x},{y},{}", z.parse::<i32>().map_or(0, |z| z as u32)),
        _ => word.to_string(),
    };
    let line = |line: &str| line.split(' ').map(word).collect::<Vec<_>>().join(" ") + "\n";
    let other: String = listing.lines().map(line).collect();
    if other.len() > text.len() {
        return length as u64;
    }
    text[..other.len()].copy_from_slice(other.as_bytes());
    other.len() as u64
}

/// The last point of a written job has depth 0.
pub fn rewritten(tray: &mut [u8], length: usize) {
    let points = tray[4..length].chunks(3 + POINT).take_while(|field| field[0] == 2).count();
    if points > 0 {
        let end = 4 + points * (3 + POINT);
        tray[end - 4..end].fill(0);
    }
}
