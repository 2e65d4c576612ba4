//! States to come back to.
use crate::{answer, Refused};

mod c {
    extern "C" {
        pub fn outline_keep(work: *mut u32, words: usize, name: u8) -> u32;
        pub fn outline_go_back(work: *mut u32, words: usize, name: u8) -> u32;
        pub fn outline_drop(work: *mut u32, words: usize, name: u8) -> u32;
    }
}

/// Keeps the state, the rings as they are now, under a name: any byte. A state that the name kept is replaced. At most [`STATES`](crate::STATES) names are kept;
/// [`Refused::NO_PLACE`]: as many others are. Refused, it leaves every word as found.
///
/// Names and copies are words of the work space: [`open`](crate::open), [`finish`](crate::finish) and [`list`](crate::list) leave no name kept.
///
/// ```
/// # use outline::*;
/// # let mut work = vec![0; WORK_WORDS];
/// open(include_bytes!("../../../samples/crossed.job"), &mut work)?;
/// for name in [0, 255, 1, 2] {
///     keep(&mut work, name)?;
/// }
/// assert_eq!(keep(&mut work, 3), Err(Refused::NO_PLACE));
/// drop_name(&mut work, 255)?;
/// keep(&mut work, 3)?;
/// # Ok::<(), Refused>(())
/// ```
pub fn keep(work: &mut [u32], name: u8) -> Result<(), Refused> {
    answer(unsafe { c::outline_keep(work.as_mut_ptr(), work.len(), name) })
}

/// Goes back to the state that a name keeps: points, records, progress, reasons and counts are those kept, and the name stays kept.
/// [`Refused::UNKNOWN_NAME`]: it isn't kept. Refused, it leaves every word as found.
///
/// Where somebody else wrote into the rings, this call is refused for them first, as every other: then there is no way back but [`open`](crate::open).
///
/// ```
/// # use outline::*;
/// # let mut work = vec![0; WORK_WORDS];
/// open(include_bytes!("../../../samples/crossed.job"), &mut work)?;
/// keep(&mut work, 7)?;
/// let opened = work.clone();
/// // Until the ring is done; the offcut, record 1, has a step to take.
/// while step(&mut work, 0).is_ok() {}
/// assert_eq!(step(&mut work, 1), Ok(()));
/// go_back(&mut work, 7)?;
/// assert_eq!(work, opened);
/// assert_eq!(step(&mut work, 1), Err(Refused::OUT_OF_TURN));
/// assert_eq!(go_back(&mut work, 8), Err(Refused::UNKNOWN_NAME));
/// # Ok::<(), Refused>(())
/// ```
pub fn go_back(work: &mut [u32], name: u8) -> Result<(), Refused> {
    answer(unsafe { c::outline_go_back(work.as_mut_ptr(), work.len(), name) })
}

/// Drops a name, which frees its place for another; the rings stay as they are. (`outline_drop`; `drop` means something else in Rust.)
/// [`Refused::UNKNOWN_NAME`]: it isn't kept. Refused, it leaves every word as found.
///
/// ```
/// # use outline::*;
/// # let mut work = vec![0; WORK_WORDS];
/// open(include_bytes!("../../../samples/crossed.job"), &mut work)?;
/// assert_eq!(drop_name(&mut work, 0), Err(Refused::UNKNOWN_NAME));
/// keep(&mut work, 0)?;
/// drop_name(&mut work, 0)?;
/// # Ok::<(), Refused>(())
/// ```
pub fn drop_name(work: &mut [u32], name: u8) -> Result<(), Refused> {
    answer(unsafe { c::outline_drop(work.as_mut_ptr(), work.len(), name) })
}
