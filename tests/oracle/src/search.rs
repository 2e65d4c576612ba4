// Rings on which the Rust does not end (docs/DIFFERENCES.md): a search for small ones, and a check that one comes back to a state.
use crate::model::forest::Forest;
use crate::model::geometry::Pt;
use crate::model::lone::{Due, Lone};
use crate::output;
use crate::rng::Rng;
use std::collections::HashMap;

/// More steps than any ring of a job needs that ends within the store.
const STEPS: usize = 100_000;

/// A lone ring's state with its present place in front: the rest of its steps follow from it. No step looks at a z.
fn state(lone: &Lone) -> Option<(Vec<(i64, i64)>, usize, Option<usize>)> {
    let (at, start) = match lone.due {
        Due::Split { at, start } => (at, start),
        _ => return None,
    };
    let n = lone.circle.len();
    let from = |place: usize| (place + n - at) % n;
    let mut circle: Vec<_> = lone.circle.iter().map(|&(x, y, _)| (x, y)).collect();
    circle.rotate_left(at);
    Some((circle, from(lone.first), start.map(from)))
}

/// Steps a ring alone, without limit, until it is done or its split loop comes back to an earlier state; then it never ends.
pub fn alone(ring: Vec<Pt>, keep: bool) -> String {
    let mut lone = Lone::new(ring);
    let mut met = HashMap::new();
    for step in 0..STEPS {
        if let Some(before) = state(&lone).and_then(|state| met.insert(state, step)) {
            return format!("never ends: after {step} steps it is as after {before}");
        }
        match lone.decide(keep) {
            None => return format!("ends after {step} steps"),
            Some(act) => drop(lone.apply(act)),
        }
    }
    format!("neither ends nor comes back within {STEPS} steps")
}

/// Rings of `n` points in a square, drawn from a seed; prints those on which the model fills the store.
pub fn endless(seed: u64, count: u64, n: usize, side: i32) -> Result<(), String> {
    if n == 0 || side < 1 {
        return Err("a ring has a point or more, and a square a side of 1 or more".into());
    }
    for index in 0..count {
        let mut rng = Rng::of(seed, index);
        let ring: Vec<Pt> = (0..n).map(|_| (rng.from(0, side) as i64, rng.from(0, side) as i64, 0)).collect();
        let mut forest = Forest::new(0, n, vec![(false, ring.clone())]);
        if forest.finish(|_, _, _, _| ()).is_err() {
            let points: String = ring.iter().map(|(x, y, _)| format!(" {x},{y}")).collect();
            output(format!("ring 0 -{points}\n").as_bytes())?;
        }
    }
    Ok(())
}
