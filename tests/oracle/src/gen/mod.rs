// The seeded generator: which kind of job a number gives.
mod damage;
mod depths;
mod good;
mod limits;
mod shapes;

use crate::rng::Rng;
pub use depths::{depth, depths};
pub use shapes::flat;

/// The bytes of one job, told by a seed and the job's number in that seed's run. Depths have numbers of their own, so that they
/// change nothing else of a job.
pub fn job(seed: u64, index: u64) -> Vec<u8> {
    let mut rng = Rng::of(seed, index);
    let mut deep = Rng::of(!seed, !index);
    let mut job = match rng.below(1000) {
        0..=429 => good::tangled(&mut rng),
        430..=629 => good::level(&mut rng),
        630..=659 => good::long(&mut rng),
        660..=689 => good::wide(&mut rng),
        690..=699 => limits::full_points(&mut rng),
        700..=707 => limits::many_segments(&mut rng),
        708..=722 => limits::full_records(&mut rng),
        723..=729 => limits::endless(&mut rng),
        730..=739 => limits::at_a_limit(&mut rng),
        740..=749 => return limits::past_a_limit(&mut rng, &mut deep),
        _ => return damage::damaged(&mut rng, &mut deep),
    };
    depths(&mut deep, &mut job);
    job.bytes()
}

/// A small ring of any shape, its points' places in walk order.
pub fn ring(rng: &mut Rng) -> Vec<(i32, i32)> {
    shapes::any(rng)
}
