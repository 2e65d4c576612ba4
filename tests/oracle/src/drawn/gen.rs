// Drawings of several kinds, told by their random numbers alone.
use super::shapes::{self, At};
use super::Drawing;
use crate::core::{FillRule, Paths64};
use crate::engine::ClipType;
use crate::job::COORDINATE;
use crate::rng::Rng;

/// A kind's name and how it is drawn.
pub type Kind = (&'static str, fn(&mut Rng) -> Drawing);

pub const KINDS: [Kind; 6] = [
    ("drawn blocks", blocks),
    ("drawn letters", letters),
    ("drawn lines", lines),
    ("drawn degenerate rings", degenerate),
    ("drawn at the limits", limits),
    ("drawn trays", trays),
];

/// A drawing of any kind, a tray one time in twenty, with any clip type, fill rule, settings and depths; and its kind's name.
pub fn drawing(rng: &mut Rng) -> (&'static str, Drawing) {
    let at = if rng.one_in(20) { KINDS.len() - 1 } else { rng.below(KINDS.len() - 1) };
    let (name, draw) = KINDS[at];
    let mut drawing = draw(rng);
    let clips = [ClipType::Intersection, ClipType::Union, ClipType::Difference, ClipType::Xor];
    drawing.clip_type = if rng.one_in(100) { ClipType::NoClip } else { rng.pick(&clips) };
    drawing.fill_rule = rng.pick(&[FillRule::EvenOdd, FillRule::NonZero, FillRule::Positive, FillRule::Negative]);
    drawing.settings = rng.below(4) as u8;
    depths(rng, &mut drawing);
    (name, drawing)
}

/// None; or each point with one of its own; or a few of them, the extremes too, so that equal places have different depths.
fn depths(rng: &mut Rng, drawing: &mut Drawing) {
    let way = rng.below(3);
    let mut count = 0;
    let all = drawing.subject.iter_mut().chain(&mut drawing.open).chain(&mut drawing.clip);
    for p in all.flatten() {
        count += 1;
        p.z = match way {
            0 => 0,
            1 => count,
            _ => rng.pick(&[0, 1, -1, 7, i32::MIN as i64, i32::MAX as i64]),
        };
    }
}

fn split(rng: &mut Rng, drawing: &mut Drawing, mut paths: Paths64) {
    if rng.one_in(3) {
        paths.iter_mut().for_each(|path| path.reverse());
    }
    match rng.one_in(3) {
        true => drawing.clip.extend(paths),
        false => drawing.subject.extend(paths),
    }
}

/// Blocks on a coarse grid, so that many level edges touch or overlap.
fn blocks(rng: &mut Rng) -> Drawing {
    let mut drawing = Drawing::default();
    let (grid, unit) = (2 + rng.below(9), rng.pick(&[1, 2, 10, 1000]));
    for _ in 0..1 + rng.below(16) {
        let mut place = || (rng.below(grid) as i64, rng.below(grid) as i64);
        let (from, size) = (place(), place());
        let block = shapes::block(from, (from.0 + 1 + size.0 / 2, from.1 + 1 + size.1 / 2));
        split(rng, &mut drawing, shapes::placed(&[block], unit, (0, 0)));
    }
    drawing
}

/// A few letters, circles and pentagrams that lie on one another.
fn letters(rng: &mut Rng) -> Drawing {
    let mut drawing = Drawing::default();
    let unit = rng.pick(&[1, 3, 25, 1000, 5000]);
    for _ in 0..1 + rng.below(7) {
        let to = (unit * rng.below(12) as i64, unit * rng.below(8) as i64);
        let shape = shapes::any(rng, unit, to);
        split(rng, &mut drawing, shape);
    }
    drawing
}

/// Open lines through shapes, level runs and repeated points among them.
fn lines(rng: &mut Rng) -> Drawing {
    let mut drawing = letters(rng);
    let unit = rng.pick(&[1, 3, 1000]);
    for _ in 0..1 + rng.below(5) {
        let mut at = (unit * rng.below(20) as i64, unit * rng.below(16) as i64);
        let mut line = vec![at];
        for _ in 0..1 + rng.below(8) {
            let step = (unit * rng.from(-6, 6) as i64, unit * rng.from(-5, 5) as i64);
            at = match rng.below(4) {
                0 => (at.0 + step.0, at.1),
                1 => (at.0, at.1 + step.1),
                _ => (at.0 + step.0, at.1 + step.1),
            };
            line.push(at);
        }
        drawing.open.extend(shapes::placed(&[line], 1, (0, 0)));
    }
    drawing
}

/// Rings of any points on very few places: repeated points, spikes, no area, crossings of every kind.
fn degenerate(rng: &mut Rng) -> Drawing {
    let mut drawing = Drawing::default();
    let (wide, high) = (2 + rng.below(12), 1 + rng.below(10));
    for _ in 0..1 + rng.below(4) {
        let ring: Vec<At> = (0..1 + rng.below(14)).map(|_| (rng.below(wide) as i64, rng.below(high) as i64)).collect();
        match rng.below(8) {
            0 => drawing.open.extend(shapes::placed(&[ring], 1, (0, 0))),
            _ => split(rng, &mut drawing, shapes::placed(&[ring], 1, (0, 0))),
        }
    }
    drawing
}

/// Rings whose points lie at, near and anywhere within the largest coordinates.
fn limits(rng: &mut Rng) -> Drawing {
    let mut drawing = Drawing::default();
    let limit = COORDINATE as i64;
    let coordinate = |rng: &mut Rng| match rng.below(6) {
        0 | 1 => rng.pick(&[-limit, limit]),
        2 => rng.pick(&[1 - limit, limit - 1, 0]),
        _ => rng.from(-COORDINATE, COORDINATE) as i64,
    };
    for _ in 0..1 + rng.below(5) {
        let ring: Vec<At> = (0..3 + rng.below(9)).map(|_| (coordinate(rng), coordinate(rng))).collect();
        match rng.below(8) {
            0 => drawing.open.extend(shapes::placed(&[ring], 1, (0, 0))),
            _ => split(rng, &mut drawing, shapes::placed(&[ring], 1, (0, 0))),
        }
    }
    drawing
}

/// 30 to 200 shapes in rows, which may reach into one another; a frame to clip them by, or lines through them.
fn trays(rng: &mut Rng) -> Drawing {
    let mut drawing = Drawing::default();
    let (count, across) = (30 + rng.below(171), 8 + rng.below(12));
    let (unit, step) = (rng.pick(&[10, 250, 2000]), rng.pick(&[6, 8, 10, 12]));
    for k in 0..count {
        let to = (unit * step * (k % across) as i64, unit * step * (k / across) as i64);
        drawing.subject.extend(shapes::any(rng, unit, to));
    }
    let size = unit * step * across as i64;
    if rng.one_in(2) {
        drawing.clip.extend(shapes::placed(
            &[shapes::block((0, 0), (size * 3 / 4, size / 2))],
            1,
            (size / 9, size / 7),
        ));
    }
    if rng.one_in(4) {
        drawing.open.extend(shapes::placed(&[vec![(0, 0), (size, size / 2), (0, size / 3), (size, 0)]], 1, (0, 0)));
    }
    drawing
}
