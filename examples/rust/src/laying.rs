//! Two drawings on one table.
use crate::{answer, Refused};

mod c {
    extern "C" {
        pub fn outline_lay_together(
            first: *mut u32,
            first_words: usize,
            second: *const u32,
            second_words: usize,
        ) -> u32;
    }
}

/// Lays two drawings on one table, each opened and not yet stepped: the second's points and records stand after the first's, in the first's work space, with numbers raised to fit; no joins
/// are made across. Record `r` of the second is then record `r` and as many as the first had. Both are stepped and written out from there as one job, and give each drawing's own outlines.
/// The limits bind the pair; a pair may be laid together with a third. The states that the first keeps remain, and going back to one leaves the pair; the second's are not brought.
///
/// Refused, it leaves every word as found. Both lengths are tested, then the first, then the second; then [`Refused::SETTINGS_DIFFER`]; [`Refused::OUT_OF_TURN`]: a step was carried out in either;
/// [`Refused::FULL`]: the pair has more points or records than there may be.
///
/// ```
/// # use outline::*;
/// let (mut first, mut second, mut tray) = (vec![0; WORK_WORDS], vec![0; WORK_WORDS], vec![0; TRAY_BYTES]);
/// open(include_bytes!("../../../samples/crossed.job"), &mut first)?;
/// open(include_bytes!("../../../samples/depth.job"), &mut second)?;
/// lay_together(&mut first, &second)?;
/// // Records 0 and 1 are the two crossed rings, 2 and 3 their offcuts.
/// for record in 0..4 {
///     while step(&mut first, record).is_ok() {}
/// }
/// write(&first, &mut tray)?;
/// let z = |path: &Path| path.points.iter().map(|point| point.z).collect::<Vec<_>>();
/// assert_eq!(paths(&tray).iter().map(z).collect::<Vec<_>>(), [[0, 0, 0], [0, -4, 1], [0, 0, 0], [2, 3, 0]]);
/// // What was stepped is laid no more.
/// assert_eq!(lay_together(&mut second, &first), Err(Refused::OUT_OF_TURN));
/// # Ok::<(), Refused>(())
/// ```
pub fn lay_together(first: &mut [u32], second: &[u32]) -> Result<(), Refused> {
    answer(unsafe { c::outline_lay_together(first.as_mut_ptr(), first.len(), second.as_ptr(), second.len()) })
}
