// Shapes to draw with: each a list of rings around or beside 0,0, anticlockwise ones outside and clockwise ones as holes.
use crate::core::{Path64, Paths64, Point64};
use crate::rng::Rng;

pub type At = (i64, i64);

/// Moved by `to` after its coordinates were taken `unit` times.
pub fn placed(rings: &[Vec<At>], unit: i64, to: At) -> Paths64 {
    let point = |&(x, y): &At| Point64::new(x * unit + to.0, y * unit + to.1);
    rings.iter().map(|ring| ring.iter().map(point).collect::<Path64>()).collect()
}

pub fn block(from: At, to: At) -> Vec<At> {
    vec![from, (to.0, from.1), to, (from.0, to.1)]
}

/// 4 m points on a circle of radius r: a quarter by the fractions (1 - t²) / (1 + t²) and 2 t / (1 + t²), which are the same floats everywhere, and its three turns.
pub fn circle(r: i64, m: i64) -> Vec<At> {
    let quarter: Vec<At> = (0..m)
        .map(|k| {
            let t = k as f64 / m as f64;
            let part = |c: f64| (r as f64 * c / (1.0 + t * t)) as i64;
            (part(1.0 - t * t), part(2.0 * t))
        })
        .collect();
    let turned = |turns: usize| {
        let turn = move |&at: &At| (0..turns).fold(at, |(x, y), _| (-y, x));
        quarter.iter().map(turn).collect::<Vec<At>>()
    };
    (0..4).flat_map(turned).collect()
}

/// Five points joined by every second one: it crosses itself five times.
pub fn pentagram() -> Vec<At> {
    vec![(0, 100), (59, -81), (-95, 31), (95, 31), (-59, -81)]
}

/// Capital letters, six wide and eight high; those with counters have holes.
pub const LETTERS: &str = "AEHLOT8";

pub fn letter(which: char) -> Vec<Vec<At>> {
    match which {
        'A' => vec![vec![(0, 0), (1, 0), (2, 2), (4, 2), (5, 0), (6, 0), (4, 8), (2, 8)], vec![(2, 3), (3, 7), (4, 3)]],
        'E' => {
            vec![vec![(0, 0), (6, 0), (6, 1), (1, 1), (1, 4), (4, 4), (4, 5), (1, 5), (1, 7), (6, 7), (6, 8), (0, 8)]]
        }
        'H' => {
            vec![vec![(0, 0), (1, 0), (1, 4), (5, 4), (5, 0), (6, 0), (6, 8), (5, 8), (5, 5), (1, 5), (1, 8), (0, 8)]]
        }
        'L' => vec![vec![(0, 0), (6, 0), (6, 1), (1, 1), (1, 8), (0, 8)]],
        'O' => vec![
            vec![(2, 0), (4, 0), (6, 2), (6, 6), (4, 8), (2, 8), (0, 6), (0, 2)],
            vec![(1, 2), (1, 6), (2, 7), (4, 7), (5, 6), (5, 2), (4, 1), (2, 1)],
        ],
        'T' => vec![vec![(2, 0), (4, 0), (4, 7), (6, 7), (6, 8), (0, 8), (0, 7), (2, 7)]],
        // An eight: two counters.
        _ => vec![block((0, 0), (6, 8)), vec![(1, 1), (1, 3), (5, 3), (5, 1)], vec![(1, 5), (1, 7), (5, 7), (5, 5)]],
    }
}

/// Any of the shapes, at most some eight units wide.
pub fn any(rng: &mut Rng, unit: i64, to: At) -> Paths64 {
    match rng.below(6) {
        0 | 1 => {
            let corner = |rng: &mut Rng| (rng.below(5) as i64, rng.below(5) as i64);
            let (from, size) = (corner(rng), corner(rng));
            placed(&[block(from, (from.0 + 1 + size.0, from.1 + 1 + size.1))], unit, to)
        }
        2 => {
            let (r, m) = (unit * (2 + rng.below(3) as i64), 2 + rng.below(7) as i64);
            placed(&[circle(r, m)], 1, (to.0 + 4 * unit, to.1 + 4 * unit))
        }
        3 => placed(&[pentagram()], (unit / 25).max(1), (to.0 + 4 * unit, to.1 + 4 * unit)),
        _ => {
            let which = LETTERS.chars().nth(rng.below(LETTERS.len()));
            placed(&letter(which.unwrap_or('O')), unit, to)
        }
    }
}
