// Document 02, Ask 14, written a second time: a job's backward links set by its forward ones. It works on the numbers of the job as read, and writes the job again.
use crate::check::{check, NO_SUCH, OFF_THE_TABLE};
use crate::job::Job;
use crate::read;

pub const PAST_MENDING: u8 = 17;

/// The points whose next each point is.
pub fn before(job: &Job) -> Vec<Vec<u16>> {
    let mut before = vec![Vec::new(); job.points.len()];
    job.points.iter().enumerate().for_each(|(p, point)| before[point.next as usize].push(p as u16));
    before
}

/// The job of any bytes, mended; or the first refusal: rows 1 to 5, then 17.
pub fn mend(bytes: &[u8]) -> Result<Vec<u8>, u8> {
    let mut job = read::read(bytes)?;
    if let Err(number @ (OFF_THE_TABLE | NO_SUCH)) = check(&job) {
        return Err(number);
    }
    let before = before(&job);
    for (point, before) in job.points.iter_mut().zip(&before) {
        let &[only] = before.as_slice() else { return Err(PAST_MENDING) };
        point.prev = only;
    }
    Ok(job.bytes())
}
