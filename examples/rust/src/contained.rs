//! Which shape lies in which.
use crate::{answer, Refused};

extern "C" {
    fn outline_contained(
        job: *const u8,
        job_bytes: usize,
        work: *mut u32,
        words: usize,
        tray: *mut u8,
        tray_bytes: usize,
        answers: *mut u8,
        answers_bytes: usize,
    ) -> u32;
}

/// Finishes a job as [`finish`](crate::finish) does and answers for every ordered pair of its closed paths whether the second contains the first: a byte each, 1 for yes and 0 for
/// no, by rising first place and then second, a path never with itself. Of n paths the byte `i * (n - 1) + j`, one less if `j > i`, says whether path i lies in path j. Refused as finishing is, or
/// as [`Refused::SMALL_TRAY`] if the slice is shorter than the answers; then every word and every byte is 0. Past the answers the slice is 0.
///
/// ```
/// # use outline::*;
/// let (mut work, mut tray, mut answers) = (vec![0; WORK_WORDS], vec![0; TRAY_BYTES], vec![7; ANSWER_BYTES]);
/// // A plate, and a hole in it: the second path lies in the first.
/// let job = include_bytes!("../../../samples/hole.job");
/// contained(job, &mut work, &mut tray, &mut answers)?;
/// assert_eq!(paths(&tray).len(), 2);
/// assert_eq!(answers[..2], [0, 1]);
/// assert!(answers[2..].iter().all(|byte| *byte == 0));
/// assert_eq!(contained(job, &mut work, &mut tray, &mut answers[..1]), Err(Refused::SMALL_TRAY));
/// # Ok::<(), Refused>(())
/// ```
pub fn contained(job: &[u8], work: &mut [u32], tray: &mut [u8], answers: &mut [u8]) -> Result<(), Refused> {
    let (words, bytes, room) = (work.len(), tray.len(), answers.len());
    let (work, tray, first) = (work.as_mut_ptr(), tray.as_mut_ptr(), answers.as_mut_ptr());
    answer(unsafe { outline_contained(job.as_ptr(), job.len(), work, words, tray, bytes, first, room) })
}
