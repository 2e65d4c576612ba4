//! One opened job stepped to its end in some order; the third order keeps a state on its way, tries some steps, and goes back once.
use crate::view::{self, Ring};
use outline::{go_back, keep, paths, step, write, Path, Refused, TRAY_BYTES};

/// The third order keeps its state under this name after so many steps, and goes back to it after so many more, or where none is left.
const TRIED: u8 = b't';
const BEFORE: usize = 3;
const MORE: usize = 12;

/// Which of the records that can still be stepped is stepped next.
#[derive(Clone, Copy)]
pub enum Order {
    Rising,
    Falling,
    Shuffled(u64),
}

impl Order {
    pub fn name(self) -> &'static str {
        match self {
            Order::Rising => "rising",
            Order::Falling => "falling",
            Order::Shuffled(_) => "shuffled",
        }
    }

    /// The place of the next record among those left, which are kept rising. A shuffle draws its next number (splitmix64).
    fn choose(&mut self, left: usize) -> usize {
        match self {
            Order::Rising => 0,
            Order::Falling => left - 1,
            Order::Shuffled(seed) => {
                *seed = seed.wrapping_add(0x9e37_79b9_7f4a_7c15);
                let drawn = (*seed ^ (*seed >> 30)).wrapping_mul(0xbf58_476d_1ce4_e5b9);
                let drawn = (drawn ^ (drawn >> 27)).wrapping_mul(0x94d0_49bb_1331_11eb);
                ((drawn ^ (drawn >> 31)) % left as u64) as usize
            }
        }
    }
}

/// A step that was carried out: the record, its ring afterwards, and the ring that was cut off, if any.
pub struct Step {
    pub record: usize,
    pub ring: Ring,
    pub offcut: Option<Ring>,
}

/// What became of a job in one order.
pub struct Run {
    pub order: Order,
    /// The steps that led to the end; and, where it went back, how many more there were.
    pub count: usize,
    pub taken_back: Option<usize>,
    /// Each step that led to the end, where they were asked for.
    pub steps: Vec<Step>,
    /// Every record's ring at the end.
    pub rings: Vec<Ring>,
    /// The paths that writing out gives, or the refusal that ended the steps.
    pub paths: Result<Vec<Path>, Refused>,
}

/// A work space on its way.
struct Way {
    work: Vec<u32>,
    order: Order,
    /// The records that may still have a step to take, rising.
    left: Vec<usize>,
    count: usize,
    /// None where the steps were not asked for.
    steps: Option<Vec<Step>>,
}

impl Way {
    /// Steps until so many were carried out or none is left.
    fn go_on(&mut self, most: usize) -> Result<(), Refused> {
        while self.count < most && !self.left.is_empty() {
            let at = self.order.choose(self.left.len());
            let (record, before) = (self.left[at], view::records(&self.work));
            match step(&mut self.work, record as u32) {
                Ok(()) => self.stepped(record, before),
                // Done, open or without a ring.
                Err(Refused::OUT_OF_TURN) => drop(self.left.remove(at)),
                Err(refused) => return Err(refused),
            }
        }
        Ok(())
    }

    fn stepped(&mut self, record: usize, before: usize) {
        let work = &self.work;
        self.count += 1;
        self.left.extend(before..view::records(work));
        if let Some(steps) = &mut self.steps {
            let offcut = (before < view::records(work)).then(|| view::ring(work, before));
            steps.push(Step { record, ring: view::ring(work, record), offcut });
        }
    }

    /// Keeps the state after some steps, tries some more, and goes back, also from a refusal; how many were taken back.
    fn try_some(&mut self) -> Result<usize, Refused> {
        self.go_on(BEFORE)?;
        keep(&mut self.work, TRIED)?;
        let (left, count) = (self.left.clone(), self.count);
        let _ = self.go_on(count + MORE);
        let taken_back = self.count - count;
        go_back(&mut self.work, TRIED)?;
        (self.left, self.count) = (left, count);
        if let Some(steps) = &mut self.steps {
            steps.truncate(count);
        }
        Ok(taken_back)
    }
}

/// Steps a copy of an opened work space until every ring is done or a step is refused as full, then writes out.
pub fn run(opened: &[u32], order: Order, keep_steps: bool) -> Run {
    let left = (0..view::records(opened)).collect();
    let mut way = Way { work: opened.to_vec(), order, left, count: 0, steps: keep_steps.then(Vec::new) };
    let tried = if matches!(order, Order::Shuffled(_)) { way.try_some().map(Some) } else { Ok(None) };
    let mut tray = vec![0; TRAY_BYTES];
    let ended = tried.and_then(|_| way.go_on(usize::MAX)).and_then(|()| write(&way.work, &mut tray));
    Run {
        order,
        count: way.count,
        taken_back: tried.unwrap_or(None),
        steps: way.steps.unwrap_or_default(),
        rings: view::rings(&way.work),
        paths: ended.map(|()| paths(&tray)),
    }
}

#[cfg(test)]
mod tests {
    use super::*;

    /// The third order cuts the sample's ring, goes back, and cuts it again: the same rings, and no step too many.
    #[test]
    fn goes_back_once() {
        let mut work = vec![7; outline::WORK_WORDS];
        outline::open(include_bytes!("../../../../../samples/crossed.job"), &mut work).unwrap();
        let (rising, shuffled) = (run(&work, Order::Rising, true), run(&work, Order::Shuffled(3), true));
        assert_eq!((rising.taken_back, shuffled.taken_back), (None, Some(10)));
        assert_eq!((rising.count, shuffled.count), (13, 13));
        assert_eq!(shuffled.steps.len(), 13);
        assert_eq!(shuffled.steps.iter().filter(|step| step.offcut.is_some()).count(), 1);
        assert_eq!(rising.rings, shuffled.rings);
    }
}
