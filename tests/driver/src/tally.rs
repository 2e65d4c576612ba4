// How often each call gave each answer, and each event came up.
use crate::{boxes, names, plain};
use std::collections::BTreeMap;

#[derive(Clone, Default)]
pub struct Tally {
    answers: BTreeMap<(&'static str, u32), u64>,
    events: BTreeMap<&'static str, u64>,
    /// How a call's refusals stood to what ringless records keep, to a box that is not its ring's, and to a name that is kept twice.
    kept: BTreeMap<(&'static str, &'static str), u64>,
}

impl Tally {
    pub fn answer(&mut self, call: &'static str, answer: u32) {
        *self.answers.entry((call, answer)).or_default() += 1;
    }

    pub fn event(&mut self, name: &'static str, times: u64) {
        *self.events.entry(name).or_default() += times;
    }

    /// A call's answer on a work space that somebody altered.
    pub fn tested(&mut self, call: &'static str, w: &[u32], answer: u32) {
        self.answer(call, answer);
        let Ok(refusal) = u8::try_from(answer) else { return };
        let boxed = boxes::stands(w, refusal);
        for name in plain::kept(w, refusal).into_iter().chain(boxed).chain(names::stands(w, refusal)) {
            *self.kept.entry((call, name)).or_default() += 1;
        }
    }

    pub fn merge(&mut self, other: &Tally) {
        for (key, times) in &other.answers {
            *self.answers.entry(*key).or_default() += times;
        }
        for (name, times) in &other.events {
            self.event(name, *times);
        }
        for (key, times) in &other.kept {
            *self.kept.entry(*key).or_default() += times;
        }
    }

    /// Which of these answers never came up.
    pub fn lacking(&self, call: &'static str, answers: &[u32]) -> Vec<String> {
        let missing = answers.iter().filter(|answer| !self.answers.contains_key(&(call, **answer)));
        missing.map(|answer| format!("{call} {answer}")).collect()
    }

    /// Which of these events never came up.
    pub fn lacking_events(&self, events: &[&'static str]) -> Vec<String> {
        events.iter().filter(|name| !self.events.contains_key(*name)).map(|name| name.to_string()).collect()
    }

    /// In which ways a call's refusals never stood to what ringless records keep, to a box, or to a name that is kept twice.
    pub fn lacking_kept(&self, call: &'static str) -> Vec<String> {
        let ways = plain::KEPT.iter().chain(&boxes::OTHER).chain(&names::TWICE);
        let missing = ways.filter(|name| !self.kept.contains_key(&(call, **name)));
        missing.map(|name| format!("{call} {name}")).collect()
    }

    pub fn print(&self) -> String {
        let mut out = String::new();
        for ((call, answer), times) in &self.answers {
            out += &format!("{times:>12}  {call} {answer}\n");
        }
        for ((call, name), times) in &self.kept {
            out += &format!("{times:>12}  {call} {name}\n");
        }
        for (name, times) in &self.events {
            out += &format!("{times:>12}  {name}\n");
        }
        out
    }
}
