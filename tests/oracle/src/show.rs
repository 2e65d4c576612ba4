// A job's state as text: the rings after opening, and the model's steps one by one. README.md has the formats.
use crate::answer::points;
use crate::model::forest::Forest;
use crate::model::lone::{Act, Due};
use crate::oracle::{forest, open};
use crate::real::{self, State};
use crate::search;

pub fn refused(number: u8) -> String {
    format!("refused {number}\n")
}

/// Each record's ring after the real `process_horz_joins`, and both counts.
pub fn opened(bytes: &[u8]) -> String {
    match open(bytes) {
        Err(number) => refused(number),
        Ok(opened) => rings_of(&real::look(&opened.base)),
    }
}

/// Both counts, then a record a line: number, flags, owner, points by index and place from the first in walk order.
pub fn rings_of(state: &State) -> String {
    let mut out = format!("points {} records {}\n", state.points, state.records.len());
    for (r, record) in state.records.iter().enumerate() {
        let flags = record.open as u8 + 2 * record.front as u8;
        let owner = record.owner.map_or("-".to_string(), |owner| owner.to_string());
        let ring: String = record.ring.iter().map(|(at, (x, y, z))| format!(" {at}:{x},{y},{z}")).collect();
        out += &format!("record {r} flags {flags} owner {owner} ring {}{ring}\n", record.ring.len());
    }
    out
}

fn due_word(due: Due) -> &'static str {
    match due {
        Due::Validity => "validity",
        Due::Removal { .. } => "removal",
        Due::Triangle => "triangle",
        Due::Split { .. } => "split",
        Due::Done => "done",
    }
}

fn act_words(act: Act) -> String {
    match act {
        Act::Begin => "begin".into(),
        Act::Discard | Act::DropDiscard => "discard".into(),
        Act::Move => "move".into(),
        Act::Drop => "drop".into(),
        Act::Settle => "settle".into(),
        Act::Double => "double".into(),
        Act::Cut { at: (x, y, z), point, offcut } => {
            let point = if point { "point" } else { "spliced" };
            let offcut = if offcut { "offcut" } else { "nothing" };
            format!("cut {x},{y},{z} {point} {offcut}")
        }
    }
}

/// One step: the record, the step that was due, the act, the step now due.
fn line(forest: &Forest, record: usize, due: Due, act: Act) -> String {
    format!("{record} {} {} due {}\n", due_word(due), act_words(act), due_word(forest.due(record)))
}

/// Both counts and each record's ring by value, from the first in walk order.
pub fn rings(forest: &Forest) -> String {
    let mut out = format!("points {} records {}\n", forest.points, forest.records.len());
    for record in 0..forest.records.len() {
        let ring = points(&forest.ring(record));
        out +=
            &format!("record {record} due {} ring {}{ring}\n", due_word(forest.due(record)), forest.ring(record).len());
    }
    out
}

/// The acts that step every ring to done, records rising; ends where a step is refused.
pub fn rising(forest: &mut Forest) -> String {
    let mut out = String::new();
    if let Err(number) = forest.finish(|forest, record, due, act| out += &line(forest, record, due, act)) {
        let refused = (0..forest.records.len()).find(|&record| forest.due(record) != Due::Done);
        out += &refused_step(refused.expect("a refused step leaves its ring unfinished"), number);
    }
    out
}

/// The answers to a list of steps.
pub fn listed(forest: &mut Forest, records: &[u16]) -> String {
    let mut out = String::new();
    for record in records.iter().map(|&record| record as usize) {
        let due = forest.due(record);
        out += &match forest.step(record) {
            Ok(act) => line(forest, record, due, act),
            Err(number) => refused_step(record, number),
        };
    }
    out
}

fn refused_step(record: usize, number: u8) -> String {
    format!("{record} refused {number}\n")
}

fn stepped(bytes: &[u8], by: impl FnOnce(&mut Forest) -> String) -> String {
    match open(bytes) {
        Err(number) => refused(number),
        Ok(opened) => {
            let mut forest = forest(&opened);
            by(&mut forest) + &rings(&forest)
        }
    }
}

/// The model's acts from opening to done, or up to a step that is full; then the rings.
pub fn acts(bytes: &[u8]) -> String {
    stepped(bytes, rising)
}

/// The model's answers to a list of steps, then the rings they leave.
pub fn steps(bytes: &[u8], records: &[u16]) -> String {
    stepped(bytes, |forest| listed(forest, records))
}

/// Whether each ring, stepped alone and without limit, ends.
pub fn alone(bytes: &[u8]) -> String {
    let forest = match open(bytes) {
        Err(number) => return refused(number),
        Ok(opened) => forest(&opened),
    };
    let closed = |record: &usize| forest.due(*record) != Due::Done;
    let told = |record: usize| format!("{record} {}\n", search::alone(forest.ring(record), forest.keep));
    (0..forest.records.len()).filter(closed).map(told).collect()
}
