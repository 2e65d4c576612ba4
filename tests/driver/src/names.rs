// A plain reading of document 02, Ask 8, on the words of a work space: which names are kept, and what keeping, going back and dropping come to.
use crate::plain;
use crate::words::*;

/// The name that a place keeps: its word is the name and 1. 0 and every other word is free.
pub fn name_at(w: &[u32], place: usize) -> Option<u8> {
    u8::try_from(w[NAMES + place].checked_sub(1)?).ok()
}

/// The place that keeps a name; of two that do, the first.
pub fn place_of(w: &[u32], name: u8) -> Option<usize> {
    (0..STATES).find(|&place| name_at(w, place) == Some(name))
}

/// The lowest free place.
fn free_place(w: &[u32]) -> Option<usize> {
    (0..STATES).find(|&place| name_at(w, place).is_none())
}

/// Two places keep one name.
pub fn twice(w: &[u32]) -> bool {
    (0..STATES).any(|place| name_at(w, place).is_some_and(|name| place_of(w, name) != Some(place)))
}

/// The words of a place's copy.
pub fn copy_of(place: usize) -> std::ops::Range<usize> {
    KEPT + BLOCK * place..KEPT + BLOCK * (place + 1)
}

#[derive(Clone, Copy, Debug, PartialEq)]
pub enum Named {
    Keep,
    GoBack,
    Drop,
}

impl Named {
    pub const ALL: [Named; 3] = [Named::Keep, Named::GoBack, Named::Drop];

    /// For the tally and the report.
    pub fn word(self) -> &'static str {
        match self {
            Named::Keep => "keep",
            Named::GoBack => "go back",
            Named::Drop => "drop",
        }
    }

    /// The place that the call is about: 10, 3 to 7, then 14, or 15 where four others are kept.
    pub fn place(self, w: &[u32], name: u8) -> Result<usize, u8> {
        plain::tests(w)?;
        match self {
            Named::Keep => place_of(w, name).or_else(|| free_place(w)).ok_or(15),
            Named::GoBack | Named::Drop => place_of(w, name).ok_or(14),
        }
    }

    /// What the call writes.
    pub fn write(self, w: &mut [u32], place: usize, name: u8) {
        match self {
            Named::Keep => {
                w.copy_within(..BLOCK, copy_of(place).start);
                w[NAMES + place] = u32::from(name) + 1;
            }
            Named::GoBack => w.copy_within(copy_of(place), 0),
            Named::Drop => w[NAMES + place] = 0,
        }
    }
}

/// How a refusal may stand to a name that is kept twice: each must come up, of every call that tests a work space.
pub const TWICE: [&str; 5] = [
    "3, before a name kept twice",
    "4, before a name kept twice",
    "5, before a name kept twice",
    "6, before a name kept twice",
    "7 for a name kept twice alone",
];

/// Which of these a refusal of these words is, if any.
pub fn stands(w: &[u32], refusal: u8) -> Option<&'static str> {
    if !(3..=7).contains(&refusal) || !twice(w) {
        return None;
    }
    let mut other = w[..KEPT].to_vec();
    other[NAMES..].fill(0);
    match (refusal, plain::tested(&other)) {
        (3..=6, _) => Some(TWICE[refusal as usize - 3]),
        (7, Ok(())) => Some(TWICE[4]),
        _ => None,
    }
}
