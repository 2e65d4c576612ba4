// All rings of a joined job, stepped in any order: answers ok, 10 or 12. Uses none of the Rust's code.
use super::geometry::Pt;
use super::lone::{Act, Due, Lone};
use super::path::path;

pub const FULL: u8 = 10;
pub const OUT_OF_TURN: u8 = 12;
const POINTS: usize = 2048;
const RECORDS: usize = 512;

#[derive(Clone, Debug, PartialEq)]
pub enum Entry {
    Ringless,
    Open(Vec<Pt>),
    Closed { lone: Lone, cut_from: Option<usize> },
}

#[derive(Clone, Debug)]
pub struct Forest {
    pub keep: bool,
    pub reverse: bool,
    pub points: usize,
    pub records: Vec<Entry>,
}

impl Forest {
    /// A joined job: the settings, the count of points, and each record's ring with whether it is open.
    pub fn new(settings: u8, points: usize, rings: Vec<(bool, Vec<Pt>)>) -> Forest {
        let records = rings.into_iter().map(|(open, ring)| match (open, ring.is_empty()) {
            (_, true) => Entry::Ringless,
            (true, false) => Entry::Open(ring),
            (false, false) => Entry::Closed { lone: Lone::new(ring), cut_from: None },
        });
        Forest { keep: settings & 1 != 0, reverse: settings & 2 != 0, points, records: records.collect() }
    }

    pub fn due(&self, record: usize) -> Due {
        match self.records.get(record) {
            Some(Entry::Closed { lone, .. }) => lone.due,
            _ => Due::Done,
        }
    }

    /// What a step on a record number would do, if there is room for it.
    pub fn decide(&self, record: usize) -> Result<Act, u8> {
        match self.records.get(record) {
            Some(Entry::Closed { lone, .. }) => lone.decide(self.keep).ok_or(OUT_OF_TURN),
            _ => Err(OUT_OF_TURN),
        }
    }

    /// One step on a record number.
    pub fn step(&mut self, record: usize) -> Result<Act, u8> {
        let held = self.records.len();
        let act = self.decide(record)?;
        let (points, records) = act.takes();
        if self.points + points > POINTS || held + records > RECORDS {
            return Err(FULL);
        }
        let Entry::Closed { lone, .. } = &mut self.records[record] else { return Err(OUT_OF_TURN) };
        let offcut = lone.apply(act);
        self.points += points;
        if let Some(lone) = offcut {
            self.records.push(Entry::Closed { lone, cut_from: Some(record) });
        }
        Ok(act)
    }

    /// Whether an unfinished ring's step needs more points than are left.
    pub fn lacks_points(&self) -> bool {
        let points = |entry: &Entry| match entry {
            Entry::Closed { lone, .. } => lone.decide(self.keep).map_or(0, |act| act.takes().0),
            _ => 0,
        };
        self.records.iter().any(|entry| self.points + points(entry) > POINTS)
    }

    /// Steps every ring to done, records rising, showing each step and the act it was; stops at the first refusal.
    pub fn finish(&mut self, mut show: impl FnMut(&Forest, usize, Due, Act)) -> Result<(), u8> {
        let mut record = 0;
        while record < self.records.len() {
            while self.due(record) != Due::Done {
                let due = self.due(record);
                let act = self.step(record)?;
                show(self, record, due, act);
            }
            record += 1;
        }
        Ok(())
    }

    /// A record's ring by value, from the first in walk order.
    pub fn ring(&self, record: usize) -> Vec<Pt> {
        match &self.records[record] {
            Entry::Ringless => Vec::new(),
            Entry::Open(ring) => ring.clone(),
            Entry::Closed { lone, .. } => lone.points(),
        }
    }

    /// The closed and the open paths, records rising.
    pub fn paths(&self) -> (Vec<Vec<Pt>>, Vec<Vec<Pt>>) {
        let (mut closed, mut open) = (Vec::new(), Vec::new());
        for record in 0..self.records.len() {
            match &self.records[record] {
                Entry::Ringless => {}
                Entry::Open(ring) => open.extend(path(ring, self.reverse, true)),
                Entry::Closed { lone, .. } => closed.extend(path(&lone.points(), self.reverse, false)),
            }
        }
        (closed, open)
    }
}
