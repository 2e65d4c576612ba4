// The drawings that are timed (bench) and tried by name: the same ones every time.
use super::shapes::{self, At};
use super::Drawing;
use crate::core::{FillRule, Paths64};
use crate::engine::ClipType;
use crate::rng::Rng;

fn union(subject: Paths64) -> Drawing {
    Drawing { subject, ..Drawing::default() }
}

/// 60 shapes in rows that do not touch.
fn tray() -> Drawing {
    let mut rng = Rng::of(37, 0);
    let place = |k: i64| (25_000 * (k % 10), 25_000 * (k / 10));
    union((0..60).flat_map(|k| shapes::any(&mut rng, 2_000, place(k))).collect())
}

/// A plate with letters cut out of it, in three rows.
fn letters() -> Drawing {
    let place = |k: i64| (10_000 + 16_000 * (k % 7), 10_000 + 20_000 * (k / 7));
    let letters = (0..).zip(shapes::LETTERS.chars().cycle().take(21));
    let clip = letters.flat_map(|(k, which)| shapes::placed(&shapes::letter(which), 2_000, place(k))).collect();
    let plate = shapes::placed(&[shapes::block((0, 0), (128_000, 76_000))], 1, (0, 0));
    Drawing { clip_type: ClipType::Difference, fill_rule: FillRule::EvenOdd, clip, ..union(plate) }
}

/// 128 blocks as bricks in a wall, each touching its neighbours above and below along half a level edge.
fn bricks() -> Drawing {
    let brick = |k: i64| {
        let (row, at) = (k / 16, k % 16);
        let from: At = (44_000 * at + 22_000 * (row % 2), 20_000 * row);
        shapes::block(from, (from.0 + 40_000, from.1 + 20_000))
    };
    union(shapes::placed(&(0..128).map(brick).collect::<Vec<_>>(), 1, (0, 0)))
}

/// Circles that overlap in a net, so that the sweep leaves nearly as many points as a job may have.
fn net() -> Drawing {
    let ring = |k: i64| shapes::placed(&[shapes::circle(30_000, 15)], 1, (50_000 * (k % 9), 50_000 * (k / 9)));
    union((0..72).flat_map(ring).collect())
}

pub fn table() -> Vec<(&'static str, Drawing)> {
    vec![
        ("a tray of 60 shapes", tray()),
        ("21 letters cut out of a plate", letters()),
        ("a wall of 128 bricks", bricks()),
        ("a net of 72 circles", net()),
    ]
}
