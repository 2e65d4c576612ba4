//! Which records a window shows.
use crate::{answer, Refused};

mod c {
    extern "C" {
        pub fn outline_records_in(
            work: *const u32,
            words: usize,
            left: i32,
            top: i32,
            right: i32,
            bottom: i32,
            list: *mut u32,
            list_words: usize,
        ) -> u64;
    }
}

/// A window, or a box: from the least to the greatest x and y, edges counted as inside. Any four numbers are a window; one turned inside out, left above right or top above bottom, shows nothing.
#[derive(Clone, Copy, Debug, PartialEq, Eq, Hash)]
pub struct Rect {
    /// The least x.
    pub left: i32,
    /// The least y.
    pub top: i32,
    /// The greatest x.
    pub right: i32,
    /// The greatest y.
    pub bottom: i32,
}

impl Rect {
    /// Every place.
    pub const ALL: Rect = Rect { left: i32::MIN, top: i32::MIN, right: i32::MAX, bottom: i32::MAX };
}

/// The records that a window shows: those with a ring, closed or open, done or not, whose box has a place in common with the window. A ring's box is from the least to the greatest x and y of its
/// points as they are now, and stands beside it in the work space. The records' numbers, rising, are put into the list and given back; every word past them is 0.
/// [`RECORDS`](crate::RECORDS) words are always enough; [`Refused::SMALL_TRAY`]: there are more records to show than words. Refused, it leaves the list as found.
///
/// ```
/// # use outline::*;
/// let (mut work, mut list) = (vec![0; WORK_WORDS], vec![7; RECORDS]);
/// // Cut into two triangles, the ring, record 0, to the left of (5, 5), and its offcut, record 1, to the right.
/// open(include_bytes!("../../../samples/crossed.job"), &mut work)?;
/// while step(&mut work, 0).is_ok() {}
/// assert_eq!(records_in(&work, Rect::ALL, &mut list)?, [0, 1]);
/// assert!(list[2..].iter().all(|word| *word == 0));
/// assert_eq!(records_in(&work, Rect { left: 6, top: 0, right: 9, bottom: 9 }, &mut list)?, [1]);
/// // An edge that is just touched counts; a window turned inside out shows nothing.
/// assert_eq!(records_in(&work, Rect { left: 10, top: 10, right: 20, bottom: 20 }, &mut list)?, [1]);
/// assert_eq!(records_in(&work, Rect { left: 20, top: 0, right: 0, bottom: 20 }, &mut list)?, []);
/// assert_eq!(records_in(&work, Rect::ALL, &mut list[..1]), Err(Refused::SMALL_TRAY));
/// # Ok::<(), Refused>(())
/// ```
pub fn records_in<'a>(work: &[u32], window: Rect, list: &'a mut [u32]) -> Result<&'a [u32], Refused> {
    let Rect { left, top, right, bottom } = window;
    let (words, room, first) = (work.len(), list.len(), list.as_mut_ptr());
    let both = unsafe { c::outline_records_in(work.as_ptr(), words, left, top, right, bottom, first, room) };
    answer(both as u32)?;
    Ok(&list[..(both >> 32) as usize])
}
