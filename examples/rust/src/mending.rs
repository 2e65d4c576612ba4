//! Backward links set by the forward ones.
use crate::{answer, Refused};

mod c {
    extern "C" {
        pub fn outline_mend(job: *mut u8, bytes: usize) -> u32;
    }
}

/// Mends the backward links of a job, in its bytes: if every point is the next of exactly one point, each prev becomes that point, and no other byte changes. A mended job never meets
/// [`Refused::LOOSE`], and one whose links are sound comes back as it was. Refused as [`open`](crate::open) with 1 to 5, then with [`Refused::PAST_MENDING`]: some point is the next of none or
/// of more than one. Refused, it leaves every byte as found. It takes some 90 kB of stack.
///
/// ```
/// # use outline::*;
/// let job = include_bytes!("../../../samples/crossed.job");
/// // Point 0's prev stands in bytes 17 and 18, its next in 15 and 16.
/// let mut spoilt = job.to_vec();
/// spoilt[17] = 0;
/// assert_eq!(open(&spoilt, &mut vec![0; WORK_WORDS]), Err(Refused::LOOSE));
/// mend(&mut spoilt)?;
/// assert_eq!(spoilt, job);
/// spoilt[15] = 0;
/// assert_eq!(mend(&mut spoilt), Err(Refused::PAST_MENDING));
/// # Ok::<(), Refused>(())
/// ```
pub fn mend(job: &mut [u8]) -> Result<(), Refused> {
    answer(unsafe { c::outline_mend(job.as_mut_ptr(), job.len()) })
}
