// The proved entry points as liboutline.a exports them. A slice is a pointer and a length.
// A fault, which only the check of the driver itself switches on, spoils what a call left.
use crate::boxes;
use crate::depths;
use crate::names::stands;
use crate::plain::kept;
use crate::room::TRAY;
use crate::turned;
use crate::words::*;

extern "C" {
    fn outline_work_words() -> u64;
    fn outline_open(job: *const u8, job_length: usize, work: *mut u32, words: usize) -> u32;
    fn outline_step(work: *mut u32, words: usize, record: u32) -> u32;
    fn outline_write(work: *const u32, words: usize, tray: *mut u8, tray_length: usize) -> u32;
    fn outline_finish(
        job: *const u8,
        job_length: usize,
        work: *mut u32,
        words: usize,
        tray: *mut u8,
        tray_length: usize,
    ) -> u32;
    fn outline_list(
        job: *const u8,
        job_length: usize,
        work: *mut u32,
        words: usize,
        tray: *mut u8,
        tray_length: usize,
        rate: u32,
        text: *mut u8,
        text_length: usize,
    ) -> u64;
    fn outline_rewrite(
        job: *const u8,
        job_length: usize,
        work: *mut u32,
        words: usize,
        tray: *mut u8,
        tray_length: usize,
    ) -> u64;
    fn outline_reason(work: *const u32, words: usize, record: u32) -> u64;
}

/// What a deliberate fault does; each must be found (command `faults`).
#[derive(Clone, Copy, Debug, PartialEq)]
pub enum Fault {
    None,
    /// A job refused as full is said to be a knot.
    FinishAnswer,
    /// The last byte of the paths has its lowest bit changed.
    TrayByte,
    /// The last byte past the paths is 1.
    PastPaths,
    /// A refused job leaves a 1 in the last word.
    RefusedWord,
    /// A refused job leaves a 1 in the last byte of the tray.
    RefusedTray,
    /// The word before the work space is written.
    Beyond,
    /// A done ring's record is left with another owner.
    FinishOwner,
    /// Opening puts the present place of a ring after its first point.
    OpenPresent,
    /// Opening leaves a 1 in the last word that was lent.
    OpenPast,
    /// A step on an unknown record is refused with 5.
    StepAnswer,
    /// A refused step writes a spare word.
    StepFound,
    /// A step carried out writes a spare word.
    StepStray,
    /// A step carried out moves the first point on.
    StepFirst,
    /// A step carried out loses the loop's start.
    StepStart,
    /// A step that makes an offcut names the record 0 as the one it was cut from.
    StepCut,
    /// A step that makes an offcut leaves it without its ring's owner.
    StepOwner,
    /// Finishing in one call leaves another loop's start.
    FinishStart,
    /// A step refused for its links says numbers.
    TestsOrder,
    /// A step on a muddled work space is carried out: answer 0.
    TestsLeft,
    /// A refused writing out clears the tray's first byte.
    WriteFound,
    /// Writing out while a ring isn't done is carried out: answer 0.
    WriteEarly,
    /// The last digit of a listing at a rate is another.
    ListDigit,
    /// A bad rate clears the tray's first byte.
    ListFound,
    /// The words of a reversed job's listing go by the printed sign.
    ListWord,
    /// A depth below zero is listed as its word, without a sign.
    ListDepth,
    /// Opening makes a copy without its point's depth.
    OpenDepth,
    /// A doubling makes its copy without the point's depth.
    StepDoubled,
    /// A crossing keeps the depth of the first edge's start.
    StepCrossing,
    /// A crossing has the depth of the second edge's end.
    StepEnd,
    /// A removal turn compares depths too: of two equal neighbours of different depths none goes.
    StepEquals,
    /// A step refuses a depth past the coordinate limit.
    StepDepth,
    /// Of neighbouring equals a path keeps the last one walked.
    FinishLast,
    /// A path keeps neighbouring equals of different depths.
    FinishEquals,
    /// Writing out keeps the last one walked.
    WriteLast,
    /// A job is written with its last point's depth 0.
    RewriteDepth,
    /// A job is written with the points of its last join exchanged.
    RewriteJoin,
    /// A job is written with its last record's owner another.
    RewriteOwner,
    /// A small tray is said before an open edge.
    RewriteOrder,
    /// A job that joining would refuse is not written.
    RewriteKnot,
    /// Writing a job leaves a 1 in the last word.
    RewriteWord,
    /// A byte more is said to be written.
    RewriteLength,
    /// Opening keeps the record that has the ring in the end as the taker.
    OpenTaker,
    /// Opening keeps no reason of a record that has no ring in the job.
    OpenReason,
    /// A step that discards keeps another of its three reasons.
    StepReason,
    /// A step on a work space whose taker names nothing says muddled.
    StepTaker,
    /// A step says that a reason is missing before any number or link.
    StepOrder,
    /// Writing out passes a taker that names nothing.
    WriteTaker,
    /// Writing out passes a missing reason.
    WriteReason,
    /// The taker told is the record that has the ring in the end.
    ReasonTaker,
    /// A ring that fell invalid while points were removed is told too small to begin with.
    ReasonRule,
    /// A path too small is told too short.
    ReasonPath,
    /// The place told counts records, not paths.
    ReasonPlace,
    /// An open path is told to be in the closed list.
    ReasonList,
    /// A ringless record that keeps no reason is said before a number that names nothing.
    ReasonOrder,
    /// A ringless record that keeps no reason passes.
    ReasonLeft,
    /// Only the record's own ring has to be done.
    ReasonEarly,
    /// An unknown record is refused with 5.
    ReasonUnknown,
    /// A refusal has a reason beside it.
    ReasonHalf,
    /// A job turned round has its first path in the same order.
    TurnedOrder,
    /// A job turned round has the z of its first path's ends exchanged.
    TurnedDepth,
    /// The second's takers are not raised.
    LayTaker,
    /// An owner of none is raised.
    LayOwner,
    /// The second's kept states are brought.
    LayStates,
    /// The first's names are freed.
    LayKept,
    /// What was stepped is said before settings that differ.
    LayStepped,
    /// A crowd is said before settings that differ, and before what was stepped.
    LayCrowd,
    /// The second's length is tested after the first's own tests.
    LayLength,
    /// The second's tests come before the first's.
    LayOrder,
    /// Settings are compared by the word.
    LayWord,
    /// Settings are compared by the two bits that have a meaning.
    LayBits,
    /// A present place is not asked.
    LayPresent,
    /// A record that a step discarded is not asked.
    LayDiscarded,
    /// The second's work space is emptied.
    LaySecond,
    /// The second's boxes are not brought.
    LayBoxes,
    /// Which shape lies in which: the pair is turned round.
    ContainedTurned,
    /// A path is tested against itself too.
    ContainedDiagonal,
    /// A point on the edge is taken for inside.
    ContainedOnEdge,
    /// The last byte past the answers is 1.
    ContainedPast,
    /// A refused job leaves a 1 in the last byte of the answers.
    ContainedRefused,
    /// A short slice is said before the job's own refusals.
    ContainedShort,
    /// A job past mending is said so before a number that names nothing.
    MendOrder,
    /// A mended job has another next.
    MendNext,
    /// A job that the mender refuses is altered.
    MendFound,
    /// Opening sets no box beside an open ring.
    BoxOpen,
    /// Opening clears the boxes of no record.
    BoxUnused,
    /// A box is not shrunk where a spike is dropped.
    BoxSpike,
    /// A box is not shrunk where a part is cut off.
    BoxCut,
    /// An offcut has its ring's box.
    BoxOffcut,
    /// A ring that a step discards leaves its box.
    BoxDiscarded,
    /// A step passes a box that is not its ring's.
    BoxPasses,
    /// A step asks the box of a record without a ring.
    BoxRingless,
    /// Going back leaves the boxes.
    BoxBack,
    /// A box that a window just touches is not listed.
    WindowEdge,
    /// A record without a ring is listed by its four zeros.
    WindowRingless,
    /// A window turned inside out is turned back.
    WindowInsideOut,
    /// A window's side below the table is taken for one above it.
    WindowWraps,
    /// The records are listed falling.
    WindowFalling,
    /// The word past the records stays.
    WindowPast,
    /// A short list is said before a muddled work space.
    WindowShort,
    /// A refused call clears the list's first word.
    WindowFound,
    /// A copy misses a column: the loop's starts stay what they were.
    KeepColumn,
    /// A name that is kept, with three others, is refused with 15.
    KeepAgain,
    /// A fifth name replaces the first.
    KeepFifth,
    /// A word above 256 is taken for a name.
    KeepWord,
    /// A name is kept at the highest free place.
    KeepHighest,
    /// A name not kept is said before a muddled work space.
    BackOrder,
    /// Going back frees the name.
    BackFrees,
    /// Going back takes another place's copy.
    BackOther,
    /// Going back leaves the counts.
    BackCounts,
    /// A dropped name stays.
    DropStays,
    /// A name not kept is said before a muddled work space.
    DropOrder,
    /// Opening leaves a name.
    OpenName,
    /// Opening clears a word behind the names.
    OpenBehind,
    /// A refused job leaves a copy's first word.
    OpenCopy,
    /// Finishing in one call leaves a name.
    FinishName,
    /// A step passes a name that is kept twice.
    StepTwice,
}

pub const FAULTS: &[Fault] = &[
    Fault::FinishAnswer,
    Fault::TrayByte,
    Fault::PastPaths,
    Fault::RefusedWord,
    Fault::RefusedTray,
    Fault::Beyond,
    Fault::FinishOwner,
    Fault::OpenPresent,
    Fault::OpenPast,
    Fault::StepAnswer,
    Fault::StepFound,
    Fault::StepStray,
    Fault::StepFirst,
    Fault::StepStart,
    Fault::StepCut,
    Fault::StepOwner,
    Fault::FinishStart,
    Fault::TestsOrder,
    Fault::TestsLeft,
    Fault::WriteFound,
    Fault::WriteEarly,
    Fault::ListDigit,
    Fault::ListFound,
    Fault::ListWord,
    Fault::ListDepth,
    Fault::OpenDepth,
    Fault::StepDoubled,
    Fault::StepCrossing,
    Fault::StepEnd,
    Fault::StepEquals,
    Fault::StepDepth,
    Fault::FinishLast,
    Fault::FinishEquals,
    Fault::WriteLast,
    Fault::RewriteDepth,
    Fault::RewriteJoin,
    Fault::RewriteOwner,
    Fault::RewriteOrder,
    Fault::RewriteKnot,
    Fault::RewriteWord,
    Fault::RewriteLength,
    Fault::OpenTaker,
    Fault::OpenReason,
    Fault::StepReason,
    Fault::StepTaker,
    Fault::StepOrder,
    Fault::WriteTaker,
    Fault::WriteReason,
    Fault::ReasonTaker,
    Fault::ReasonRule,
    Fault::ReasonPath,
    Fault::ReasonPlace,
    Fault::ReasonList,
    Fault::ReasonOrder,
    Fault::ReasonLeft,
    Fault::ReasonEarly,
    Fault::ReasonUnknown,
    Fault::ReasonHalf,
    Fault::TurnedOrder,
    Fault::TurnedDepth,
    Fault::LayTaker,
    Fault::LayOwner,
    Fault::LayStates,
    Fault::LayKept,
    Fault::LayStepped,
    Fault::LayCrowd,
    Fault::LayLength,
    Fault::LayOrder,
    Fault::LayWord,
    Fault::LayBits,
    Fault::LayPresent,
    Fault::LayDiscarded,
    Fault::LaySecond,
    Fault::LayBoxes,
    Fault::ContainedTurned,
    Fault::ContainedDiagonal,
    Fault::ContainedOnEdge,
    Fault::ContainedPast,
    Fault::ContainedRefused,
    Fault::ContainedShort,
    Fault::MendOrder,
    Fault::MendNext,
    Fault::MendFound,
    Fault::BoxOpen,
    Fault::BoxUnused,
    Fault::BoxSpike,
    Fault::BoxCut,
    Fault::BoxOffcut,
    Fault::BoxDiscarded,
    Fault::BoxPasses,
    Fault::BoxRingless,
    Fault::BoxBack,
    Fault::WindowEdge,
    Fault::WindowRingless,
    Fault::WindowInsideOut,
    Fault::WindowWraps,
    Fault::WindowFalling,
    Fault::WindowPast,
    Fault::WindowShort,
    Fault::WindowFound,
    Fault::KeepColumn,
    Fault::KeepAgain,
    Fault::KeepFifth,
    Fault::KeepWord,
    Fault::KeepHighest,
    Fault::BackOrder,
    Fault::BackFrees,
    Fault::BackOther,
    Fault::BackCounts,
    Fault::DropStays,
    Fault::DropOrder,
    Fault::OpenName,
    Fault::OpenBehind,
    Fault::OpenCopy,
    Fault::FinishName,
    Fault::StepTwice,
];

/// Whether a fault is one of names and copies.
pub fn is_of_names(fault: Fault) -> bool {
    let first = FAULTS.iter().position(|other| *other == Fault::KeepColumn);
    FAULTS.iter().position(|other| *other == fault) >= first
}

/// The listing with `piece` and `hole` exchanged, and its length.
fn exchanged(text: &mut [u8], length: usize) -> u64 {
    let listing = String::from_utf8_lossy(&text[..length]).into_owned();
    let line = |line: &str| match line.split_once(' ') {
        Some(("piece", rest)) => format!("hole {rest}\n"),
        Some(("hole", rest)) => format!("piece {rest}\n"),
        _ => format!("{line}\n"),
    };
    let other: String = listing.lines().map(line).collect();
    text[..other.len()].copy_from_slice(other.as_bytes());
    other.len() as u64
}

pub fn work_words() -> u64 {
    unsafe { outline_work_words() }
}

#[derive(Clone, Copy)]
pub struct Calls(pub Fault);

impl Calls {
    pub fn open(self, job: &[u8], work: &mut [u32]) -> u32 {
        let n = work.len();
        let found = [NAMES, KEPT].map(|at| work.get(at).copied().unwrap_or(0));
        let answer = unsafe { outline_open(job.as_ptr(), job.len(), work.as_mut_ptr(), work.len()) };
        match self.0 {
            Fault::OpenName if answer == 0 => work[NAMES] = found[0],
            Fault::OpenBehind if answer == 0 => work[KEPT] = 0,
            Fault::OpenCopy if answer != 0 && n > KEPT => work[KEPT] = found[1],
            Fault::OpenPresent if answer == 0 && is_live(work, 0) => {
                work[PRESENT] = work[NEXT + work[FIRST] as usize];
            }
            Fault::OpenPast if answer == 0 && n > WORDS => work[n - 1] = 1,
            Fault::OpenTaker if answer == 0 => {
                (0..records(work)).for_each(|r| work[TAKER + r] = in_the_end(work, r) as u32)
            }
            Fault::OpenDepth if answer == 0 => depths::opened(job, work),
            Fault::BoxOpen | Fault::BoxUnused if answer == 0 => boxes::opened(self.0, work),
            Fault::OpenReason if answer == 0 => {
                (0..records(work)).for_each(|r| work[REASON + r] &= !NO_RING);
            }
            _ => {}
        }
        answer
    }

    pub fn step(self, work: &mut [u32], record: u32) -> u32 {
        let known = work.len() >= WORDS && (record as usize) < records(work).min(MOST_RECORDS);
        let held = if known { records(work) } else { 0 };
        let before = (depths::of_steps(self.0) || boxes::of_steps(self.0)).then(|| work.to_vec());
        let answer = unsafe { outline_step(work.as_mut_ptr(), work.len(), record) };
        let r = record as usize;
        match before {
            Some(before) if boxes::of_steps(self.0) => return boxes::stepped(self.0, &before, work, r, answer),
            Some(before) if answer == 0 => return depths::stepped(self.0, &before, work, r),
            _ => {}
        }
        match (self.0, answer) {
            (Fault::StepAnswer, 12) if !known => return 5,
            (Fault::StepFound, 1..) if known => work[9] ^= 1,
            (Fault::StepStray, 0) => work[15] ^= 1,
            (Fault::StepFirst, 0) if is_live(work, r) => work[FIRST + r] = work[NEXT + work[FIRST + r] as usize],
            (Fault::StepStart, 0) if is_live(work, r) => work[START + r] = NONE,
            (Fault::StepCut, 0) if records(work) > held => work[CUT + held] = 0,
            (Fault::StepOwner, 0) if records(work) > held => work[OWNER + held] ^= 1,
            (Fault::TestsOrder, 6) => return 5,
            (Fault::TestsLeft, 7) => return 0,
            (Fault::StepReason, 0) if work[FIRST + r] == NONE => work[REASON + r] = AT_VALIDITY + (work[REASON + r] - JOINED) % 3,
            (Fault::StepTaker, 5) if kept(work, 5) == Some("5 for a taker alone") => return 7,
            (Fault::StepOrder, 5 | 6) if untold(work) => return 7,
            (Fault::StepTwice, 7) if stands(work, 7).is_some() => return 0,
            (Fault::Beyond, 0) => unsafe { *work.as_mut_ptr().sub(1) = 1 },
            _ => {}
        }
        answer
    }

    pub fn write(self, work: &[u32], tray: &mut [u8]) -> u32 {
        let answer = unsafe { outline_write(work.as_ptr(), work.len(), tray.as_mut_ptr(), tray.len()) };
        match (self.0, answer) {
            (Fault::WriteFound, 1..) if !tray.is_empty() => tray[0] = 0,
            (Fault::WriteEarly, 12) => return 0,
            (Fault::WriteLast, 0) => depths::walked(self.0, work, tray),
            (Fault::WriteTaker, 5) if kept(work, 5) == Some("5 for a taker alone") => return 0,
            (Fault::WriteReason, 7) if kept(work, 7).is_some() => return 0,
            _ => {}
        }
        answer
    }

    pub fn finish(self, job: &[u8], work: &mut [u32], tray: &mut [u8]) -> u32 {
        let (bytes, n) = (tray.len(), work.len());
        let name = work.get(NAMES).copied().unwrap_or(0);
        let answer = unsafe { outline_finish(job.as_ptr(), job.len(), work.as_mut_ptr(), n, tray.as_mut_ptr(), bytes) };
        match (self.0, answer) {
            (Fault::FinishAnswer, 10) => return 9,
            (Fault::TrayByte, 0) => {
                if let Some(last) = tray.iter().rposition(|byte| *byte != 0) {
                    tray[last] ^= 1;
                }
            }
            (Fault::PastPaths, 0) if bytes == TRAY && tray[bytes - 1] == 0 => tray[bytes - 1] = 1,
            (Fault::RefusedWord, 1..) if n > 0 => work[n - 1] = 1,
            (Fault::RefusedTray, 1..) if bytes > 0 => tray[bytes - 1] = 1,
            (Fault::FinishName, 0) => work[NAMES] = name,
            (Fault::FinishStart, 0) if records(work) > 0 => work[START] ^= 1,
            (Fault::FinishLast | Fault::FinishEquals, 0) => depths::walked(self.0, work, tray),
            (Fault::FinishOwner, 0) if records(work) > 1 => work[OWNER + 1] = 0,
            _ => {}
        }
        answer
    }

    /// Finishing a job that was turned round, or the one that it was.
    pub fn turned(self, turned: bool, job: &[u8], work: &mut [u32], tray: &mut [u8]) -> u32 {
        let answer = self.finish(job, work, tray);
        match (self.0, answer) {
            (Fault::TurnedOrder, 0) if turned => turned::spoilt(tray, true),
            (Fault::TurnedDepth, 0) if turned => turned::spoilt(tray, false),
            _ => {}
        }
        answer
    }

    pub fn list(self, job: &[u8], work: &mut [u32], tray: &mut [u8], rate: u32, text: &mut [u8]) -> u64 {
        let (n, bytes, room) = (work.len(), tray.len(), text.len());
        let (words, fields, start) = (work.as_mut_ptr(), tray.as_mut_ptr(), text.as_mut_ptr());
        let answer = unsafe { outline_list(job.as_ptr(), job.len(), words, n, fields, bytes, rate, start, room) };
        match self.0 {
            Fault::ListDigit if answer > 11 && rate > 0 => text[answer as usize - 2] ^= 1,
            Fault::ListFound if rate > 1000 && bytes > 0 => tray[0] = 0,
            Fault::ListDepth => return depths::unsigned(text, answer as usize),
            Fault::ListWord if job.len() > 3 && job[3] & 2 != 0 => return exchanged(text, answer as usize),
            _ => {}
        }
        answer
    }

    /// The refusal's number, and how many bytes were written.
    pub fn rewrite(self, job: &[u8], work: &mut [u32], tray: &mut [u8]) -> (u32, usize) {
        let (n, bytes) = (work.len(), tray.len());
        let answer =
            unsafe { outline_rewrite(job.as_ptr(), job.len(), work.as_mut_ptr(), n, tray.as_mut_ptr(), bytes) };
        let (number, length) = (answer as u32, (answer >> 32) as usize);
        match (self.0, number) {
            (Fault::RewriteJoin, 0) if length > 7 && tray[length - 7] == 5 => tray[length - 4..length].rotate_left(2),
            (Fault::RewriteOwner, 0) if length > 8 && tray[length - 8] == 3 => tray[length - 4] ^= 1,
            (Fault::RewriteOrder, 8) if bytes < job.len() => return (11, 0),
            (Fault::RewriteKnot, 0) if oracle::oracle::open(job).is_err() => return (9, 0),
            (Fault::RewriteDepth, 0) => depths::rewritten(tray, length),
            (Fault::RewriteWord, 0) => work[n - 1] = 1,
            (Fault::RewriteLength, 0) => return (0, length + 1),
            _ => {}
        }
        (number, length)
    }

    /// The low half is 0 or the refusal's number; the high half the reason, 256 times its list and 65,536 times its number.
    pub fn reason(self, work: &[u32], record: u32) -> u64 {
        let answer = unsafe { outline_reason(work.as_ptr(), work.len(), record) };
        let told = |reason: u64, list: u64, number: u64| (reason + 256 * list + 65_536 * number) << 32;
        let (reason, list, number) = (answer >> 32 & 255, answer >> 40 & 255, answer >> 48);
        match (self.0, answer as u32, reason) {
            (Fault::ReasonTaker, 0, 2) => return told(2, 0, in_the_end(work, record as usize) as u64),
            (Fault::ReasonRule, 0, 4) => return told(3, 0, 0),
            (Fault::ReasonPath, 0, 7) => return told(6, 0, 0),
            (Fault::ReasonPlace, 0, 8) => return told(8, list, record as u64),
            (Fault::ReasonList, 0, 8) => return told(8, 6, number),
            (Fault::ReasonOrder, 5, _) if untold(work) => return 7,
            (Fault::ReasonLeft, 7, _) if untold(work) => return told(1, 0, 0),
            (Fault::ReasonEarly, 12, _) if known(work, record) && !is_live(work, record as usize) => {
                return told(1, 0, 0)
            }
            (Fault::ReasonUnknown, 12, _) if !known(work, record) => return 5,
            (Fault::ReasonHalf, 1.., _) => return answer + told(1, 0, 0),
            _ => {}
        }
        answer
    }
}

/// The first with a ring among a record and its owners.
fn in_the_end(work: &[u32], record: usize) -> usize {
    let mut at = record;
    for _ in 0..MOST_RECORDS {
        if work[FIRST + at] == NONE && (work[OWNER + at] as usize) < records(work) {
            at = work[OWNER + at] as usize;
        }
    }
    at
}

fn known(work: &[u32], record: u32) -> bool {
    (record as usize) < records(work)
}

/// Whether some record without a ring keeps none of the first five reasons.
fn untold(work: &[u32]) -> bool {
    (0..records(work)).any(|r| work[FIRST + r] == NONE && !(NO_RING..=AT_SPLIT).contains(&work[REASON + r]))
}
