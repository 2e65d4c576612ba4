//! Finishing outlines: safe functions over the proved entry points of `liboutline.a`. Rust's own rules give what they ask of a caller: slices
//! that hold what their length says, aligned, and not overlapping. Any bytes and any words may be given; nothing panics.
//!
//! A job goes in as bytes, closed and open paths come out of a tray; `docs/JOB.md` says what a job is and what finishing does. In one call:
//!
//! ```
//! // A ring that crosses itself, (0,0) (10,10) (10,0) (0,12) with z 1, 2, 3 and -4, is cut into two triangles. Points keep their z, and the crossing has 0.
//! let job = include_bytes!("../../../samples/depth.job");
//! let (mut work, mut tray) = (vec![0; outline::WORK_WORDS], vec![0; outline::TRAY_BYTES]);
//! outline::finish(job, &mut work, &mut tray)?;
//! let paths = outline::paths(&tray);
//! assert_eq!(paths.len(), 2);
//! let points = [(5, 5, 0), (0, 12, -4), (0, 0, 1)].map(outline::Point::from).to_vec();
//! assert_eq!(paths[0], outline::Path { open: false, points });
//! # Ok::<(), outline::Refused>(())
//! ```
//!
//! [`Job`] makes those bytes from rings, and shares rings that are too many for one job out over several.
//!
//! Or by steps, in any order: [`open`], [`step`] on each record until it is refused as [`Refused::OUT_OF_TURN`], [`write()`]. On the way a state may be kept under a name, and gone back to:
//! [`keep`], [`go_back`], [`drop_name`]. Two opened jobs may be laid on one table, and stepped as one: [`lay_together`]. Which records a window shows, at any time: [`records_in`].
//!
//! A work space is lent by the caller and nothing else is kept between calls, so two threads may use two work spaces at once.
#![deny(missing_docs)]

mod contained;
mod job;
mod laying;
mod mending;
mod reason;
mod refused;
mod states;
mod tray;
mod windows;

pub use contained::contained;
pub use job::{Job, Ring};
pub use laying::lay_together;
pub use mending::mend;
pub use reason::Reason;
pub use refused::Refused;
pub use states::{drop_name, go_back, keep};
pub use tray::{paths, Path, Point};
pub use windows::{records_in, Rect};

/// At most so many points, those made while finishing included.
pub const POINTS: usize = 2_048;
/// At most so many records, offcuts included.
pub const RECORDS: usize = 512;
/// At most so many level segments in a job.
pub const SEGMENTS: usize = 256;
/// At most so many joins in a job.
pub const JOINS: usize = 256;
/// A coordinate is at most so many micrometres either way; a depth may be any `i32`.
pub const COORDINATE: i32 = 1_048_576;
/// At most so many states are kept, each under a name.
pub const STATES: usize = 4;
/// The fixed length of a work space in words: the live block, and a name and a copy of it for each state. A shorter one is refused with 10.
pub const WORK_WORDS: usize = (1 + STATES) * (16 + 6 * POINTS + 13 * RECORDS) + STATES;
/// A tray of so many bytes is always long enough.
pub const TRAY_BYTES: usize = 3 * RECORDS + 12 * POINTS;
/// The first so many bytes of a job decide what becomes of it: the longest job that is accepted, and one point more.
pub const JOB_BYTES: usize = 4 + 21 * (POINTS + 1) + 8 * RECORDS + 5 * SEGMENTS + 7 * JOINS;

/// A tray of so many bytes has room for any accepted job, written the one way.
pub const REWRITTEN_BYTES: usize = JOB_BYTES - 21;

/// A text of so many bytes has room for the listing of any job.
pub const TEXT_BYTES: usize = 54 + 49 * RECORDS + 66 * POINTS + 49;
/// A slice of so many bytes has room for the answers of any job: which shape lies in which.
pub const ANSWER_BYTES: usize = RECORDS * (RECORDS - 1);
/// The largest rate, in cents for a square decimetre; 0 is none.
pub const RATE: u32 = 1_000;

/// A slice is passed as a pointer and a length.
mod c {
    extern "C" {
        pub fn outline_work_words() -> u64;
        pub fn outline_open(job: *const u8, bytes: usize, work: *mut u32, words: usize) -> u32;
        pub fn outline_step(work: *mut u32, words: usize, record: u32) -> u32;
        pub fn outline_write(work: *const u32, words: usize, tray: *mut u8, bytes: usize) -> u32;
        pub fn outline_reason(work: *const u32, words: usize, record: u32) -> u64;
        pub fn outline_finish(
            job: *const u8,
            job_bytes: usize,
            work: *mut u32,
            words: usize,
            tray: *mut u8,
            tray_bytes: usize,
        ) -> u32;
        pub fn outline_rewrite(
            job: *const u8,
            job_bytes: usize,
            work: *mut u32,
            words: usize,
            tray: *mut u8,
            tray_bytes: usize,
        ) -> u64;
        pub fn outline_list(
            job: *const u8,
            job_bytes: usize,
            work: *mut u32,
            words: usize,
            tray: *mut u8,
            tray_bytes: usize,
            rate: u32,
            text: *mut u8,
            text_bytes: usize,
        ) -> u64;
    }
}

fn answer(number: u32) -> Result<(), Refused> {
    match number {
        0 => Ok(()),
        number => Err(Refused(number)),
    }
}

/// [`WORK_WORDS`], as the library has it.
///
/// ```
/// assert_eq!(outline::work_words(), outline::WORK_WORDS as u64);
/// ```
pub fn work_words() -> u64 {
    unsafe { c::outline_work_words() }
}

/// Opens a job: reads it and joins its rings; no name is kept. Refused, it leaves every word 0.
///
/// ```
/// let mut work = vec![7; outline::WORK_WORDS];
/// assert_eq!(outline::open(b"no job", &mut work), Err(outline::Refused::STRANGE));
/// assert!(work.iter().all(|word| *word == 0));
/// ```
pub fn open(job: &[u8], work: &mut [u32]) -> Result<(), Refused> {
    answer(unsafe { c::outline_open(job.as_ptr(), job.len(), work.as_mut_ptr(), work.len()) })
}

/// One step on the ring of a record. Refused, it leaves every word as found; [`Refused::OUT_OF_TURN`] says that there is nothing to step.
///
/// ```
/// # use outline::*;
/// # let mut work = vec![0; WORK_WORDS];
/// open(include_bytes!("../../../samples/crossed.job"), &mut work)?;
/// let mut steps = 0;
/// while step(&mut work, 0).is_ok() {
///     steps += 1;
/// }
/// assert!(steps > 0);
/// assert_eq!(step(&mut work, 0), Err(Refused::OUT_OF_TURN));
/// # Ok::<(), Refused>(())
/// ```
pub fn step(work: &mut [u32], record: u32) -> Result<(), Refused> {
    answer(unsafe { c::outline_step(work.as_mut_ptr(), work.len(), record) })
}

/// Writes the paths of finished rings into the tray, zeros after them. Refused, it leaves every byte as found.
///
/// ```
/// # use outline::*;
/// # let (mut work, mut tray) = (vec![0; WORK_WORDS], vec![7; TRAY_BYTES]);
/// open(include_bytes!("../../../samples/crossed.job"), &mut work)?;
/// assert_eq!(write(&work, &mut tray), Err(Refused::OUT_OF_TURN));
/// // Record 1 is the offcut.
/// for record in [0, 1] {
///     while step(&mut work, record).is_ok() {}
/// }
/// write(&work, &mut tray)?;
/// assert_eq!(paths(&tray).len(), 2);
/// # Ok::<(), Refused>(())
/// ```
pub fn write(work: &[u32], tray: &mut [u8]) -> Result<(), Refused> {
    answer(unsafe { c::outline_write(work.as_ptr(), work.len(), tray.as_mut_ptr(), tray.len()) })
}

/// Opens, steps every ring until it is done, and writes out; no name is kept. Refused, it leaves every word and every byte 0.
///
/// ```
/// # use outline::*;
/// let (mut work, mut tray) = (vec![7; WORK_WORDS], vec![7; TRAY_BYTES]);
/// let refused = finish(&[1], &mut work, &mut tray).unwrap_err();
/// assert_eq!(refused.to_string(), "refused 1, torn: a field is cut off, or its length is not its tag's");
/// assert!(work.iter().all(|word| *word == 0) && tray.iter().all(|byte| *byte == 0));
/// ```
pub fn finish(job: &[u8], work: &mut [u32], tray: &mut [u8]) -> Result<(), Refused> {
    let (words, bytes) = (work.len(), tray.len());
    answer(unsafe { c::outline_finish(job.as_ptr(), job.len(), work.as_mut_ptr(), words, tray.as_mut_ptr(), bytes) })
}

/// Finishes a job as [`finish`] does and gives its listing, ASCII, which `./cutlist` prints: two counts, a line for each path and, unless the rate is 0,
/// the charge; or `refused` and the number. A short work space is refused first of all, with 10. Else None, and everything as found, if the text has fewer than
/// [`TEXT_BYTES`] bytes.
///
/// ```
/// # use outline::*;
/// let (mut work, mut tray, mut text) = (vec![0; WORK_WORDS], vec![0; TRAY_BYTES], vec![0; TEXT_BYTES]);
/// let job = include_bytes!("../../../samples/crossed.job");
/// let listing = list(job, &mut work, &mut tray, 0, &mut text).unwrap();
/// assert_eq!(listing, b"closed 2 open 0\npiece 3 60 5,5,0 0,12,0 0,0,0\nhole 3 -50 10,10,0 10,0,0 5,5,0\n");
/// assert!(list(job, &mut work, &mut tray, 1000, &mut text).unwrap().ends_with(b"\ncharge 0 10000\n"));
/// assert_eq!(list(job, &mut work, &mut tray, RATE + 1, &mut text), Some(&b"refused 13\n"[..]));
/// assert_eq!(list(job, &mut work[1..], &mut tray, RATE + 1, &mut text), Some(&b"refused 10\n"[..]));
/// let mut reversed = job.to_vec();
/// reversed[3] = 2; // `reverse_solution`: the areas change sign, the words stay
/// let listing = list(&reversed, &mut work, &mut tray, 0, &mut text).unwrap();
/// assert_eq!(listing, b"closed 2 open 0\npiece 3 -60 0,0,0 0,12,0 5,5,0\nhole 3 50 5,5,0 10,0,0 10,10,0\n");
/// assert_eq!(list(job, &mut work, &mut tray, 0, &mut text[1..]), None);
/// ```
pub fn list<'a>(job: &[u8], work: &mut [u32], tray: &mut [u8], rate: u32, text: &'a mut [u8]) -> Option<&'a [u8]> {
    let (words, bytes, room) = (work.len(), tray.len(), text.len());
    let (work, tray, start) = (work.as_mut_ptr(), tray.as_mut_ptr(), text.as_mut_ptr());
    match unsafe { c::outline_list(job.as_ptr(), job.len(), work, words, tray, bytes, rate, start, room) } {
        0 => None,
        length => text.get(..length as usize),
    }
}

/// Writes a job the one way, without joining or finishing it, and gives its bytes: two jobs give the same exactly when they hold the same drawing. The rest of the
/// tray, and every word, is then 0. Refused, it leaves every word and every byte 0.
///
/// ```
/// # use outline::*;
/// let (mut work, mut tray) = (vec![7; WORK_WORDS], vec![7; REWRITTEN_BYTES]);
/// let job = include_bytes!("../../../samples/crossed.job");
/// // Its ring is numbered from the first point on already.
/// assert_eq!(rewrite(job, &mut work, &mut tray)?, job);
/// assert!(work.iter().all(|word| *word == 0) && tray[job.len()..].iter().all(|byte| *byte == 0));
/// assert_eq!(rewrite(job, &mut work, &mut tray[1..job.len()]), Err(Refused::SMALL_TRAY));
/// # Ok::<(), Refused>(())
/// ```
pub fn rewrite<'a>(job: &[u8], work: &mut [u32], tray: &'a mut [u8]) -> Result<&'a [u8], Refused> {
    let (words, room) = (work.len(), tray.len());
    let both =
        unsafe { c::outline_rewrite(job.as_ptr(), job.len(), work.as_mut_ptr(), words, tray.as_mut_ptr(), room) };
    answer(both as u32)?;
    Ok(&tray[..(both >> 32) as usize])
}

/// Why a record has an outline, or none. [`Refused::OUT_OF_TURN`]: there is no such record, or a closed ring isn't done.
///
/// ```
/// # use outline::*;
/// let (mut work, mut tray) = (vec![0; WORK_WORDS], vec![0; TRAY_BYTES]);
/// finish(include_bytes!("../../../samples/crossed.job"), &mut work, &mut tray)?;
/// // The ring, and what was cut off it.
/// assert_eq!(reason(&work, 0)?, Reason::Written { open: false, place: 0 });
/// assert_eq!(reason(&work, 1)?, Reason::Written { open: false, place: 1 });
/// assert_eq!(reason(&work, 2), Err(Refused::OUT_OF_TURN));
/// # Ok::<(), Refused>(())
/// ```
pub fn reason(work: &[u32], record: u32) -> Result<Reason, Refused> {
    let both = unsafe { c::outline_reason(work.as_ptr(), work.len(), record) };
    answer(both as u32)?;
    Ok(Reason::told((both >> 32) as u32))
}
