// Rings as points in walk order: dense and small, so that in-line, equal, touching and crossing points are common.
use crate::rng::Rng;

pub type At = (i32, i32);

/// Places as points of depth 0.
pub fn flat(ring: &[At]) -> Vec<(i32, i32, i32)> {
    ring.iter().map(|&(x, y)| (x, y, 0)).collect()
}

/// Points anywhere in a small square.
pub fn scatter(rng: &mut Rng, n: usize, side: i32) -> Vec<At> {
    (0..n).map(|_| (rng.from(0, side), rng.from(0, side))).collect()
}

/// Short steps from point to point, often in line, sometimes none.
pub fn wander(rng: &mut Rng, n: usize) -> Vec<At> {
    let mut at = (0, 0);
    let reach = rng.from(1, 4);
    (0..n)
        .map(|_| {
            at = (at.0 + rng.from(-reach, reach), at.1 + rng.from(-reach, reach));
            at
        })
        .collect()
}

/// A star: places round a rough circle, taken in strides, so that edges cross.
pub fn star(rng: &mut Rng, n: usize, size: i32) -> Vec<At> {
    let stride = 1 + rng.below(n.max(3) / 2);
    let turn = |k: usize| (k * stride % n) as f64 / n as f64 * std::f64::consts::TAU;
    let place = |k: usize| ((size as f64 * turn(k).cos()) as i32, (size as f64 * turn(k).sin()) as i32);
    (0..n).map(place).map(|(x, y)| (x + rng.from(-1, 1), y + rng.from(-1, 1))).collect()
}

/// Two triangles that meet at a crossing.
pub fn bow(rng: &mut Rng, size: i32) -> Vec<At> {
    let near = |rng: &mut Rng, x: i32, y: i32| (x + rng.from(-2, 2), y + rng.from(-2, 2));
    vec![near(rng, 0, 0), near(rng, size, size), near(rng, size, 0), near(rng, 0, size)]
}

/// A flat strip whose edges nearly coincide, so that crossings fall on its ends.
pub fn sliver(rng: &mut Rng, n: usize) -> Vec<At> {
    let long = rng.from(8, 40);
    (0..n).map(|_| (rng.from(0, long), rng.from(0, 2))).collect()
}

/// One edge that two neighbouring edges cross, which makes doublings.
pub fn notch(rng: &mut Rng) -> Vec<At> {
    let w = rng.from(6, 16);
    let tip = (rng.from(2, w - 2), rng.from(-6, -1));
    let back = rng.from(1, 6);
    let mut ring = vec![(0, 0), (w, 0), (rng.from(1, w), back), tip, (rng.from(1, w), back + rng.from(0, 3))];
    for _ in 0..rng.below(4) {
        ring.push((rng.from(0, w), rng.from(-4, 12)));
    }
    ring
}

/// A block with level edges, extra points on them, either way round.
pub fn block(rng: &mut Rng, levels: &[i32]) -> Vec<At> {
    let (left, low) = (rng.from(0, 12), rng.pick(levels));
    let right = left + rng.from(1, 12);
    let high = if rng.one_in(12) { low } else { low + rng.from(1, 6) };
    let mut ring = vec![(left, low)];
    between(rng, &mut ring, left, right, low);
    ring.push((right, low));
    ring.push((right, high));
    between(rng, &mut ring, right, left, high);
    ring.push((left, high));
    if rng.one_in(2) {
        ring.reverse();
    }
    ring
}

/// Extra points on a level edge, in order.
fn between(rng: &mut Rng, ring: &mut Vec<At>, from: i32, to: i32, y: i32) {
    let mut x = from;
    for _ in 0..rng.below(3) {
        x += (to - x).signum() * rng.from(0, (to - x).abs());
        ring.push((x, y));
    }
}

/// A comb: level edges at shared heights, teeth up and down.
pub fn comb(rng: &mut Rng, levels: &[i32]) -> Vec<At> {
    let mut ring = Vec::new();
    let mut x = rng.from(0, 4);
    for _ in 0..2 + rng.below(4) {
        let y = rng.pick(levels);
        ring.push((x, y));
        x += rng.from(1, 5);
        ring.push((x, y));
    }
    let y = rng.pick(levels);
    ring.push((x, y));
    ring.push((0, y));
    if rng.one_in(2) {
        ring.reverse();
    }
    ring
}

/// Any small ring.
pub fn any(rng: &mut Rng) -> Vec<At> {
    match rng.below(10) {
        0..=3 => {
            let n = 1 + rng.below(12);
            let side = rng.from(1, 14);
            scatter(rng, n, side)
        }
        4 => {
            let n = 3 + rng.below(12);
            wander(rng, n)
        }
        5 => {
            let n = 4 + rng.below(8);
            let size = rng.from(3, 14);
            star(rng, n, size)
        }
        6 => {
            let size = rng.from(3, 12);
            bow(rng, size)
        }
        7 => {
            let n = 4 + rng.below(5);
            sliver(rng, n)
        }
        8 => notch(rng),
        _ => {
            let n = 6 + rng.below(6);
            let side = rng.from(8, 20);
            scatter(rng, n, side)
        }
    }
}
