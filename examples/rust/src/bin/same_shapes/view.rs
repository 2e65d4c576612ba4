//! The rings that a work space holds: docs/WORKSPACE.md's layout, read here and nowhere else.
use outline::{Point, Reason, POINTS, RECORDS};

const HEAD: usize = 16;
/// How far a coordinate's word is raised.
const RAISED: i32 = outline::COORDINATE;
const NONE: usize = 65_535;

/// The columns of a point and of a record, in their order.
enum OfPoint {
    X = 0,
    Y = 1,
    Next = 2,
    Z = 5,
}
const POINT_COLUMNS: usize = 6;
enum OfRecord {
    Flags = 0,
    First = 2,
    Mark = 3,
    Present = 4,
    Cut = 6,
    Reason = 7,
    Taker = 8,
}

/// A record's ring: its points from the first in walk order, and how far it is.
#[derive(Clone, Debug, Default, PartialEq)]
pub struct Ring {
    pub open: bool,
    /// The step due: 0 validity test, 1 removal turn, 2 triangle test, 3 split turn; 4 done.
    pub due: u32,
    /// Where on the ring its loop is.
    pub present: usize,
    /// The record that it was cut from.
    pub cut_from: Option<usize>,
    /// Why it has no points, in the words of the program reasons; empty while it has some.
    pub why: String,
    pub points: Vec<Point>,
}

fn of_point(work: &[u32], column: OfPoint, point: usize) -> usize {
    work[HEAD + POINTS * column as usize + point] as usize
}

fn of_record(work: &[u32], column: OfRecord, record: usize) -> usize {
    work[HEAD + POINTS * POINT_COLUMNS + RECORDS * column as usize + record] as usize
}

/// A point by value; z is not raised.
fn value(work: &[u32], point: usize) -> Point {
    let lowered = |column| of_point(work, column, point) as i32 - RAISED;
    Point { x: lowered(OfPoint::X), y: lowered(OfPoint::Y), z: of_point(work, OfPoint::Z, point) as u32 as i32 }
}

/// What a record without points keeps.
fn why(work: &[u32], record: usize) -> String {
    let reason = match of_record(work, OfRecord::Reason, record) {
        1 => Reason::NoRing,
        2 => Reason::Joined { taker: of_record(work, OfRecord::Taker, record) as u32 },
        3 => Reason::SmallRing,
        4 => Reason::RingFell,
        5 => Reason::SmallArea,
        _ => return String::new(),
    };
    reason.to_string()
}

/// How many records are in use.
pub fn records(work: &[u32]) -> usize {
    work[2] as usize
}

/// The ring of a record in a work space that the library left.
pub fn ring(work: &[u32], record: usize) -> Ring {
    let first = of_record(work, OfRecord::First, record);
    let cut = of_record(work, OfRecord::Cut, record);
    let mut ring = Ring {
        open: of_record(work, OfRecord::Flags, record) & 1 == 1,
        due: of_record(work, OfRecord::Mark, record) as u32,
        cut_from: (cut != NONE).then_some(cut),
        why: if first == NONE { why(work, record) } else { String::new() },
        ..Ring::default()
    };
    let mut at = first;
    while at != NONE && ring.points.len() < POINTS {
        if at == of_record(work, OfRecord::Present, record) {
            ring.present = ring.points.len();
        }
        ring.points.push(value(work, at));
        at = of_point(work, OfPoint::Next, at);
        if at == first {
            break;
        }
    }
    ring
}

pub fn rings(work: &[u32]) -> Vec<Ring> {
    (0..records(work)).map(|record| ring(work, record)).collect()
}

#[cfg(test)]
mod tests {
    use super::*;

    #[test]
    fn the_sample_as_opened() {
        let mut work = vec![7; outline::WORK_WORDS];
        outline::open(include_bytes!("../../../../../samples/depth.job"), &mut work).unwrap();
        let points = [(0, 0, 1), (10, 10, 2), (10, 0, 3), (0, 12, -4)].map(Point::from).to_vec();
        assert_eq!(rings(&work), [Ring { points, ..Ring::default() }]);
        while outline::step(&mut work, 0).is_ok() {}
        let points = [(5, 5, 0), (10, 10, 2), (10, 0, 3)].map(Point::from).to_vec();
        let cut = Ring { cut_from: Some(0), points, ..Ring::default() };
        assert_eq!(rings(&work)[1], cut);
        assert_eq!((rings(&work)[0].due, rings(&work)[0].points.len()), (4, 3));
    }
}
