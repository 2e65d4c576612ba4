// Depths of a job's points. Places know nothing of them, so points at one place mostly have different ones.
use crate::job::Job;
use crate::rng::Rng;

/// How the depths of one job are drawn.
#[derive(Clone, Copy)]
enum Manner {
    /// All 0, as in a job of before.
    None,
    /// All the same.
    One(i32),
    /// A few small ones, 0 among them.
    Few,
    /// Each point's another, so that a depth tells whose it is.
    Own,
    /// The two extremes and their neighbours.
    Far,
    /// Anything.
    Any,
}

const FAR: [i32; 8] = [i32::MIN, i32::MAX, i32::MIN + 1, i32::MAX - 1, 0, -1, 1, 1 << 24];

/// Any depth: 0, small, far or anything.
pub fn depth(rng: &mut Rng) -> i32 {
    match rng.below(8) {
        0 | 1 => 0,
        2..=4 => rng.from(-9, 9),
        5 => rng.pick(&FAR),
        _ => rng.bits() as i32,
    }
}

/// Gives every point of a job a depth.
pub fn depths(rng: &mut Rng, job: &mut Job) {
    let manner = match rng.below(16) {
        0 | 1 => Manner::None,
        2 => Manner::One(depth(rng)),
        3..=5 => Manner::Few,
        6..=9 => Manner::Own,
        10 | 11 => Manner::Far,
        _ => Manner::Any,
    };
    for (k, point) in job.points.iter_mut().enumerate() {
        point.z = match manner {
            Manner::None => 0,
            Manner::One(z) => z,
            Manner::Few => rng.from(-2, 2),
            Manner::Own if k % 2 == 0 => k as i32 + 1,
            Manner::Own => -(k as i32) - 1,
            Manner::Far => rng.pick(&FAR),
            Manner::Any => depth(rng),
        };
    }
}
