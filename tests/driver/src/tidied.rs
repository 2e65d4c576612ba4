// Request 6, executed: what a whole removal pass leaves of a ring, told from the words before and after each step. The removal test is written
// here from the Rust's rule, over whole numbers; neither our definitions nor the oracle's model is asked.
use crate::room::{expect, Same};
use crate::tally::Tally;
use crate::words::*;
use oracle::real::Pt;

/// Each record's ring as it was at its start, by value from the first point.
#[derive(Default)]
pub struct Passes(Vec<Vec<Pt>>);

impl Passes {
    /// The rings that opening left.
    pub fn opened(w: &[u32]) -> Result<Passes, String> {
        let mut passes = Passes::default();
        passes.take_in(w)?;
        Ok(passes)
    }

    /// Records that are new.
    fn take_in(&mut self, w: &[u32]) -> Same {
        for r in self.0.len()..records(w) {
            self.0.push(ring_values(w, r)?);
        }
        Ok(())
    }

    /// A step on a record was carried out: a removal turn drops only a point that meets the test; where the triangle test has become due, the pass
    /// was whole.
    pub fn stepped(&mut self, before: &[u32], after: &[u32], record: usize, tally: &mut Tally) -> Same {
        self.take_in(after)?;
        if before[MARK + record] == REMOVAL && after[FIRST + record] != NONE {
            removal_turn(before, after, record)?;
        }
        if after[MARK + record] == TRIANGLE {
            let keep = after[SETTINGS] & 1 != 0;
            let went = whole_pass(keep, &self.0[record], &ring_values(after, record)?)?;
            tally.event(if keep { "whole removal passes, preserve_collinear on" } else { "whole removal passes, preserve_collinear off" }, 1);
            tally.event("points that went in whole removal passes", went as u64);
        }
        Ok(())
    }
}

fn ring_values(w: &[u32], record: usize) -> Result<Vec<Pt>, String> {
    Ok(values(w, &ring(w, record).ok_or("a ring that does not close")?))
}

/// A turn that keeps the ring: it is as it was, or lacks the present point, which met the test against its neighbours.
fn removal_turn(before: &[u32], after: &[u32], record: usize) -> Same {
    let at = before[PRESENT + record] as usize;
    let ring = |w| ring(w, record).ok_or("a ring that does not close");
    let (old, new) = (ring(before)?, ring(after)?);
    if old == new {
        return Ok(());
    }
    let near = |column: usize| value(before, before[column + at] as usize);
    let meets = removable(before[SETTINGS] & 1 != 0, near(PREV), value(before, at), near(NEXT));
    expect(meets, || format!("record {record}: the point {at} went without meeting the removal test"))?;
    let rest: Vec<usize> = old.into_iter().filter(|&point| point != at).collect();
    expect(is_turned(&rest, &new), || format!("record {record}: more than the point {at} went"))
}

/// No survivor meets the test, they are the ring's points, z too, in their cyclic order, and the doubled area is what it was; how many points went.
fn whole_pass(keep: bool, start: &[Pt], now: &[Pt]) -> Result<usize, String> {
    let n = now.len();
    let stray = (0..n).find(|&i| removable(keep, now[(i + n - 1) % n], now[i], now[(i + 1) % n]));
    expect(stray.is_none(), || format!("a whole pass left {now:?}, whose point {stray:?} meets the test"))?;
    let places = (0..start.len().max(1)).any(|from| is_among(now, start.iter().cycle().skip(from).take(start.len())));
    expect(places, || format!("a whole pass made {now:?} of {start:?}, in another order"))?;
    let (was, is) = (doubled_area(start), doubled_area(now));
    expect(was == is, || format!("a whole pass changed the doubled area from {was} to {is}"))?;
    Ok(start.len() - n)
}

/// The Rust's test in `clean_collinear`; equality ignores z.
fn removable(keep: bool, a: Pt, b: Pt, c: Pt) -> bool {
    let in_line = (b.0 - a.0) * (c.1 - b.1) == (b.1 - a.1) * (c.0 - b.0);
    let dot = (b.0 - a.0) * (c.0 - b.0) + (b.1 - a.1) * (c.1 - b.1);
    let same = |p: Pt, q: Pt| (p.0, p.1) == (q.0, q.1);
    in_line && (same(b, a) || same(b, c) || !keep || dot < 0)
}

/// These stand in the list, in this order.
fn is_among<'a>(few: &[Pt], all: impl Iterator<Item = &'a Pt>) -> bool {
    let mut left = few.iter().peekable();
    for point in all {
        left.next_if(|next| *next == point);
    }
    left.peek().is_none()
}

/// The same circle, seen from some place.
fn is_turned(a: &[usize], b: &[usize]) -> bool {
    a.len() == b.len() && a.iter().position(|point| Some(point) == b.first()).map_or(a.is_empty(), |at| a[at..].iter().chain(&a[..at]).eq(b))
}

fn doubled_area(ring: &[Pt]) -> i64 {
    let before = ring.iter().cycle().skip(ring.len().max(1) - 1);
    before.zip(ring).map(|(a, b)| (a.1 + b.1) * (a.0 - b.0)).sum()
}
