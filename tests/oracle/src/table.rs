// Document 02, Ask 11: drawings on one table. Each lies there as if alone, its rings, records and events under its own numbers. They share the places, which the table counts, and the
// record numbers, of which the table knows whose each is. So no number is raised here but where the table is told as one.
use crate::compare::family;
use crate::job::{POINTS, RECORDS};
use crate::model::forest::{Entry, Forest, FULL, OUT_OF_TURN};
use crate::model::lone::Act;
use crate::oracle::{Opened, Oracle};
use crate::real::{self, Pt};
use crate::reasons::{finished, Event, History};
use crate::reasons_cases::same_reasons;
use std::borrow::Cow;
use std::rc::Rc;

pub const SETTINGS_DIFFER: u8 = 16;

#[derive(Clone)]
pub struct Table {
    drawings: Vec<History>,
    /// Whose each record is: a drawing, and the record's number there.
    records: Vec<(usize, usize)>,
}

/// Closed and open paths.
pub type Lists = (Vec<Vec<Pt>>, Vec<Vec<Pt>>);

impl Table {
    /// A drawing alone.
    pub fn of(drawing: History) -> Table {
        let records = (0..drawing.forest.records.len()).map(|record| (0, record)).collect();
        Table { drawings: vec![drawing], records }
    }

    /// How many drawings there are.
    pub fn drawings(&self) -> usize {
        self.drawings.len()
    }

    /// How many records they have.
    pub fn records(&self) -> usize {
        self.records.len()
    }

    /// How many points they have.
    pub fn points(&self) -> usize {
        self.drawings.iter().map(|drawing| drawing.forest.points).sum()
    }

    fn has_room(&self, points: usize, records: usize) -> Result<(), u8> {
        if self.points() + points > POINTS || self.records() + records > RECORDS {
            return Err(FULL);
        }
        Ok(())
    }

    /// Another table's drawings after this one's: 16, then 12 where a step was carried out on any, then 10.
    pub fn beside(&self, other: &Table) -> Result<Table, u8> {
        let settings = |table: &Table| table.drawings.first().map(|drawing| drawing.job.settings);
        if settings(self) != settings(other) {
            return Err(SETTINGS_DIFFER);
        }
        if self.drawings.iter().chain(&other.drawings).any(History::is_stepped) {
            return Err(OUT_OF_TURN);
        }
        self.has_room(other.points(), other.records())?;
        let mut both = self.clone();
        both.drawings.extend(other.drawings.iter().cloned());
        both.records.extend(other.records.iter().map(|(drawing, own)| (self.drawings() + drawing, *own)));
        Ok(both)
    }

    /// One step on a record of the table: its own drawing's, if the table has room for it.
    pub fn step(&mut self, record: usize) -> Result<Act, u8> {
        let &(drawing, own) = self.records.get(record).ok_or(OUT_OF_TURN)?;
        let (points, records) = self.drawings[drawing].forest.decide(own)?.takes();
        self.has_room(points, records)?;
        let held = self.drawings[drawing].forest.records.len();
        let act = self.drawings[drawing].step(own)?;
        self.records.extend((held..held + records).map(|own| (drawing, own)));
        Ok(act)
    }

    /// All drawings as one, each record under the table's number.
    pub fn as_one(&self) -> Cow<'_, History> {
        if let [alone] = &self.drawings[..] {
            return Cow::Borrowed(alone);
        }
        let mut numbers = vec![Vec::new(); self.drawings()];
        self.records.iter().enumerate().for_each(|(number, &(drawing, _))| numbers[drawing].push(number));
        let entry = |&(drawing, own): &(usize, usize)| match &self.drawings[drawing].forest.records[own] {
            Entry::Closed { lone, cut_from } => {
                let cut_from = cut_from.map(|from| numbers[drawing][from]);
                Entry::Closed { lone: lone.clone(), cut_from }
            }
            entry => entry.clone(),
        };
        let event = |drawing: usize, event: &Event| match event {
            Event::Emptied { turn, taker } => Event::Emptied { turn: *turn, taker: numbers[drawing][*taker] },
            event => event.clone(),
        };
        let events = |&(drawing, own): &(usize, usize)| {
            self.drawings[drawing].events[own].iter().map(|told| event(drawing, told)).collect()
        };
        let first = &self.drawings[0];
        let forest =
            Forest { points: self.points(), records: self.records.iter().map(entry).collect(), ..first.forest };
        Cow::Owned(History {
            job: Rc::clone(&first.job),
            forest,
            events: self.records.iter().map(events).collect(),
            steps: self.drawings.iter().map(|drawing| drawing.steps).sum(),
        })
    }

    /// Once all is done: each drawing's job, finished alone by the real Rust, is accepted, and leaves the rings, offcuts and reasons that the drawing has here. The Rust's lists, of all.
    pub fn as_alone(&self, oracle: &mut Oracle) -> Result<Lists, String> {
        let (mut closed, mut open) = (Vec::new(), Vec::new());
        for drawing in &self.drawings {
            let (base, joined) =
                real::open(&drawing.job).map_err(|number| format!("a drawing is refused with {number}"))?;
            let opened = Opened { job: (*drawing.job).clone(), base, joined };
            let (alone, _) =
                finished(oracle, &opened)?.map_err(|number| format!("a drawing, alone, is refused with {number}"))?;
            if family(&alone.forest) != family(&drawing.forest) {
                return Err("a drawing has other rings or offcuts than alone".into());
            }
            same_reasons(&alone, drawing)?;
            let lists = real::paths(opened.base);
            closed.extend(lists.0);
            open.extend(lists.1);
        }
        Ok((closed, open))
    }
}
