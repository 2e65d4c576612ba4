// Keeping a state, going back to it, dropping its name, as liboutline.a exports them; a fault spoils what a call left (calls.rs).
use crate::calls::{Calls, Fault};
use crate::names::{copy_of, name_at, place_of, Named};
use crate::words::*;

extern "C" {
    fn outline_keep(work: *mut u32, words: usize, name: u8) -> u32;
    fn outline_go_back(work: *mut u32, words: usize, name: u8) -> u32;
    fn outline_drop(work: *mut u32, words: usize, name: u8) -> u32;
}

fn is_free(w: &[u32], place: usize) -> bool {
    name_at(w, place).is_none()
}

impl Calls {
    pub fn named(self, call: Named, work: &mut [u32], name: u8) -> u32 {
        match call {
            Named::Keep => self.keep(work, name),
            Named::GoBack => self.go_back(work, name),
            Named::Drop => self.drop_name(work, name),
        }
    }

    fn keep(self, work: &mut [u32], name: u8) -> u32 {
        let before = if self.0 == Fault::None { Vec::new() } else { work.to_vec() };
        let answer = unsafe { outline_keep(work.as_mut_ptr(), work.len(), name) };
        match (self.0, answer) {
            (Fault::KeepColumn, 0) => {
                let at = copy_of(place_of(work, name).unwrap_or(0)).start + START;
                work[at..at + MOST_RECORDS].copy_from_slice(&before[at..at + MOST_RECORDS]);
            }
            (Fault::KeepAgain, 0) if place_of(&before, name).is_some() && !(0..STATES).any(|p| is_free(&before, p)) => {
                work.copy_from_slice(&before);
                return 15;
            }
            (Fault::KeepFifth, 15) => {
                Named::Keep.write(work, 0, name);
                return 0;
            }
            (Fault::KeepWord, 0)
                if place_of(&before, name).is_none() && (0..STATES).all(|p| before[NAMES + p] != 0) =>
            {
                work.copy_from_slice(&before);
                return 15;
            }
            (Fault::KeepHighest, 0) if place_of(&before, name).is_none() => {
                work.copy_from_slice(&before);
                let highest = (0..STATES).rev().find(|&p| is_free(&before, p));
                Named::Keep.write(work, highest.unwrap_or(0), name);
            }
            _ => {}
        }
        answer
    }

    fn go_back(self, work: &mut [u32], name: u8) -> u32 {
        let before = if self.0 == Fault::None { Vec::new() } else { work.to_vec() };
        let answer = unsafe { outline_go_back(work.as_mut_ptr(), work.len(), name) };
        match (self.0, answer) {
            (Fault::BackOrder, 7) if place_of(work, name).is_none() => return 14,
            (Fault::BackFrees, 0) => work[NAMES + place_of(work, name).unwrap_or(0)] = 0,
            (Fault::BackOther, 0) => {
                let other = (place_of(work, name).unwrap_or(0) + 1) % STATES;
                Named::GoBack.write(work, other, name);
            }
            (Fault::BoxBack, 0) => work[BOXES..BLOCK].copy_from_slice(&before[BOXES..BLOCK]),
            (Fault::BackCounts, 0) => work[POINTS..=RECORDS].copy_from_slice(&before[POINTS..=RECORDS]),
            _ => {}
        }
        answer
    }

    fn drop_name(self, work: &mut [u32], name: u8) -> u32 {
        let place = if work.len() < KEPT { None } else { place_of(work, name) };
        let answer = unsafe { outline_drop(work.as_mut_ptr(), work.len(), name) };
        match (self.0, answer) {
            (Fault::DropOrder, 7) if place.is_none() => return 14,
            (Fault::DropStays, 0) => work[NAMES + place.unwrap_or(0)] = u32::from(name) + 1,
            _ => {}
        }
        answer
    }
}
