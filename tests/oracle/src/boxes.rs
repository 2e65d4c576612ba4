// Document 02, Ask 13, written a second time: a ring's box from its points' coordinates in order, and the records that a window meets from the places that two boxes have in common.
use crate::model::forest::Forest;
use crate::model::geometry::Pt;
use crate::rng::Rng;

/// The list is shorter than the records that meet the window.
pub const SMALL_TRAY: u8 = 11;

/// From the least to the greatest x and y; of a window, any four numbers.
#[derive(Clone, Copy, Debug, PartialEq)]
pub struct Rect {
    pub left: i64,
    pub top: i64,
    pub right: i64,
    pub bottom: i64,
}

/// The box of a ring; none without points.
pub fn around(ring: &[Pt]) -> Option<Rect> {
    let ends = |axis: fn(&Pt) -> i64| {
        let mut along: Vec<i64> = ring.iter().map(axis).collect();
        along.sort_unstable();
        along.first().copied().zip(along.last().copied())
    };
    let ((left, right), (top, bottom)) = (ends(|point| point.0)?, ends(|point| point.1)?);
    Some(Rect { left, top, right, bottom })
}

/// The box of each record's ring.
pub fn of_forest(forest: &Forest) -> Vec<Option<Rect>> {
    (0..forest.records.len()).map(|record| around(&forest.ring(record))).collect()
}

/// The places that two boxes have in common: a box again, turned inside out where there are none, as it is where one of the two is.
fn common(a: Rect, b: Rect) -> Rect {
    Rect {
        left: a.left.max(b.left),
        top: a.top.max(b.top),
        right: a.right.min(b.right),
        bottom: a.bottom.min(b.bottom),
    }
}

/// "Edges counted as inside"; "a window turned inside out meets nothing".
pub fn meets(window: Rect, ring: Rect) -> bool {
    let Rect { left, top, right, bottom } = common(window, ring);
    left <= right && top <= bottom
}

/// The records whose boxes meet a window, ascending; or 11 where a list of so many words is short.
pub fn records_in(boxes: &[Option<Rect>], window: Rect, words: usize) -> Result<Vec<u32>, u8> {
    let hit = |(record, ring): (usize, &Option<Rect>)| ring.filter(|ring| meets(window, *ring)).map(|_| record as u32);
    let found: Vec<u32> = boxes.iter().enumerate().filter_map(hit).collect();
    if found.len() > words {
        return Err(SMALL_TRAY);
    }
    Ok(found)
}

/// What a window may be; a long run must have tried each.
pub const WINDOWS: [&str; 12] = [
    "window: a box itself",
    "window: just touching an edge",
    "window: just touching a corner",
    "window: just beside an edge",
    "window: a place in a box",
    "window: a place anywhere",
    "window: inside out in x",
    "window: inside out in y",
    "window: inside out in both",
    "window: the whole of i32",
    "window: far away",
    "window: any two places",
];

const LEAST: i64 = i32::MIN as i64;
const GREATEST: i64 = i32::MAX as i64;
/// Where a word of 0 stands: a record without a ring must not be taken to lie there.
const ZERO: i64 = -(1 << 20);

/// A window of some kind about these boxes, and which kind it is.
pub fn window(rng: &mut Rng, boxes: &[Option<Rect>]) -> (Rect, &'static str) {
    let rings: Vec<Rect> = boxes.iter().flatten().copied().collect();
    let b = if rings.is_empty() { Rect { left: 0, top: 0, right: 9, bottom: 9 } } else { rng.pick(&rings) };
    let kind = rng.below(WINDOWS.len());
    let of = |left: i64, top: i64, right: i64, bottom: i64| Rect { left, top, right, bottom };
    let grow = rng.pick(&[0, 0, 1, 5, 1000]);
    let window = match kind {
        0 => b,
        1 => beside(rng, b, 0, grow),
        2 => match rng.below(4) {
            0 => of(b.right, b.bottom, b.right + grow, b.bottom + grow),
            1 => of(b.left - grow, b.bottom, b.left, b.bottom + grow),
            2 => of(b.left - grow, b.top - grow, b.left, b.top),
            _ => of(b.right, b.top - grow, b.right + grow, b.top),
        },
        3 => beside(rng, b, 1, grow),
        4 => {
            let (x, y) = (within(rng, b.left, b.right), within(rng, b.top, b.bottom));
            of(x, y, x, y)
        }
        5 => {
            let (x, y) = (place(rng, b.left), place(rng, b.top));
            of(x, y, x, y)
        }
        6 => of(b.right + 1 + grow, b.top, b.left, b.bottom),
        7 => of(b.left, b.bottom + 1 + grow, b.right, b.top),
        8 => of(b.right + 1, b.bottom + 1, b.left - grow, b.top - grow),
        9 => of(LEAST, LEAST, GREATEST, GREATEST),
        10 => match rng.below(4) {
            0 => of(LEAST, LEAST, LEAST + grow, GREATEST),
            1 => of(GREATEST - grow, LEAST, GREATEST, GREATEST),
            2 => of(LEAST, LEAST, GREATEST, ZERO - 1),
            _ => of(LEAST, GREATEST - grow, GREATEST, GREATEST),
        },
        _ => {
            let (xs, ys) = ([place(rng, b.left), place(rng, b.right)], [place(rng, b.top), place(rng, b.bottom)]);
            of(xs[0].min(xs[1]), ys[0].min(ys[1]), xs[0].max(xs[1]), ys[0].max(ys[1]))
        }
    };
    let side = |side: i64| side.clamp(LEAST, GREATEST);
    (of(side(window.left), side(window.top), side(window.right), side(window.bottom)), WINDOWS[kind])
}

/// A window along one side of a box, so far from it.
fn beside(rng: &mut Rng, b: Rect, far: i64, grow: i64) -> Rect {
    match rng.below(4) {
        0 => Rect { left: b.right + far, right: b.right + far + grow, ..b },
        1 => Rect { left: b.left - far - grow, right: b.left - far, ..b },
        2 => Rect { top: b.bottom + far, bottom: b.bottom + far + grow, ..b },
        _ => Rect { top: b.top - far - grow, bottom: b.top - far, ..b },
    }
}

fn within(rng: &mut Rng, least: i64, greatest: i64) -> i64 {
    least + rng.below((greatest - least + 1) as usize) as i64
}

/// A number near another, on the table's edges, where a word of 0 stands, or anywhere.
fn place(rng: &mut Rng, near: i64) -> i64 {
    let any = rng.bits() as i32 as i64;
    let about = near + rng.below(41) as i64 - 20;
    rng.pick(&[about, about, about, about, ZERO, ZERO - 1, -ZERO, 1 - ZERO, LEAST, GREATEST, any])
}
