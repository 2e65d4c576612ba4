// Laying two drawings together, as liboutline.a exports it; a fault spoils what the call left (calls.rs).
use crate::calls::{Calls, Fault};
use crate::pair::{is_crowd, is_stepped, settings_differ};
use crate::plain;
use crate::words::*;

extern "C" {
    fn outline_lay_together(first: *mut u32, first_words: usize, second: *const u32, second_words: usize) -> u32;
}

/// Both work spaces are long enough and pass their tests.
fn tested(first: &[u32], second: &[u32]) -> bool {
    plain::tests(first).is_ok() && plain::tests(second).is_ok()
}

impl Calls {
    pub fn lay(self, first: &mut [u32], second: &mut [u32]) -> u32 {
        if self.0 == Fault::None {
            return lay(first, second);
        }
        let before = first.to_vec();
        let answer = lay(first, second);
        let at = before.get(RECORDS).map_or(0, |records| *records as usize);
        match (self.0, answer) {
            (Fault::LayTaker, 0) => {
                (0..records(second)).for_each(|r| first[TAKER + at + r] = second[TAKER + r]);
            }
            (Fault::LayOwner, 0) => {
                let raised = |r: &usize| second[OWNER + r] == NONE;
                (0..records(second)).filter(raised).for_each(|r| first[OWNER + at + r] = NONE + at as u32);
            }
            (Fault::LayStates, 0) => first[NAMES..WORDS].copy_from_slice(&second[NAMES..WORDS]),
            (Fault::LayStepped, 16) if is_stepped(&before) || is_stepped(second) => return 12,
            (Fault::LayCrowd, 12 | 16) if is_crowd(&before, second) => return 10,
            (Fault::LayLength, 10) if second.len() < WORDS => {
                return plain::tests(&before).err().map_or(10, u32::from);
            }
            (Fault::LayWord, 0) if before[SETTINGS] != second[SETTINGS] => {
                first.copy_from_slice(&before);
                return 16;
            }
            (Fault::LayBits, 16) if tested(&before, second) && before[SETTINGS] & 3 == second[SETTINGS] & 3 => {
                return 0
            }
            (Fault::LaySecond, 0) => second[RECORDS] = 0,
            (Fault::LayBoxes, 0) => {
                for r in at..at + records(second) {
                    SIDES.into_iter().for_each(|column| first[column + r] = before[column + r]);
                }
            }
            (Fault::LayOrder, 3..=7) if plain::tests(second).is_err() => {
                return plain::tests(second).err().map_or(answer, u32::from);
            }
            (Fault::LayPresent, 12) if only_present(&before) && only_present(second) => return 0,
            (Fault::LayKept, 0) => first[NAMES..KEPT].fill(0),
            (Fault::LayDiscarded, 12)
                if !settings_differ(&before, second) && !is_going(&before) && !is_going(second) =>
            {
                return 0;
            }
            _ => {}
        }
        answer
    }
}

fn lay(first: &mut [u32], second: &[u32]) -> u32 {
    unsafe { outline_lay_together(first.as_mut_ptr(), first.len(), second.as_ptr(), second.len()) }
}

/// What is stepped is so by present places alone.
fn only_present(w: &[u32]) -> bool {
    (0..records(w)).all(|r| matches!(crate::pair::stepped(w, r), None | Some("12 for a present place alone")))
}

/// Some closed ring isn't at its start, or is an offcut.
fn is_going(w: &[u32]) -> bool {
    (0..records(w)).any(|r| !matches!(crate::pair::stepped(w, r), None | Some("12 for a discarded record")))
}
