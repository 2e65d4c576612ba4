//! The paths that a tray holds.

/// A point of a path. As values two points are equal where x, y and z are; finishing itself compares x and y alone.
#[derive(Clone, Copy, Debug, Default, PartialEq, Eq, PartialOrd, Ord, Hash)]
pub struct Point {
    /// In micrometres.
    pub x: i32,
    /// In micrometres.
    pub y: i32,
    /// Its depth: the job's, or 0 of a crossing that was made.
    pub z: i32,
}

impl std::fmt::Display for Point {
    /// As a listing has it: `x,y,z`.
    fn fmt(&self, f: &mut std::fmt::Formatter<'_>) -> std::fmt::Result {
        write!(f, "{},{},{}", self.x, self.y, self.z)
    }
}

impl From<(i32, i32, i32)> for Point {
    fn from((x, y, z): (i32, i32, i32)) -> Point {
        Point { x, y, z }
    }
}

/// The bytes of a point in a tray: x, y and z, four each.
const POINT: usize = 12;

/// One path of a tray: whether it is open, and its points.
#[derive(Clone, Debug, PartialEq, Eq)]
pub struct Path {
    /// A line, not a ring.
    pub open: bool,
    /// In the order in which the knife runs.
    pub points: Vec<Point>,
}

/// The path at the front and what comes after it, if there is a whole one: tag 6 or 7, and a value of whole points that does not run past the end.
fn first(tray: &[u8]) -> Option<(Path, &[u8])> {
    let &[tag @ (6 | 7), low, high, ref rest @ ..] = tray else { return None };
    let length = usize::from(u16::from_le_bytes([low, high]));
    if length % POINT != 0 || length > rest.len() {
        return None;
    }
    let (value, rest) = rest.split_at(length);
    let number = |b: &[u8]| i32::from_le_bytes([b[0], b[1], b[2], b[3]]);
    let point = |b: &[u8]| Point { x: number(b), y: number(&b[4..]), z: number(&b[8..]) };
    let points = value.chunks_exact(POINT).map(point).collect();
    Some((Path { open: tag == 7, points }, rest))
}

/// The paths that a written tray holds. Any bytes may be given: it ends before the first that are no whole path, as the zeros after the last one are.
///
/// ```
/// # use outline::{paths, Path};
/// let line = [7, 24, 0, 5, 0, 0, 0, 6, 0, 0, 0, 7, 0, 0, 0, 0xff, 0xff, 0xff, 0xff, 0, 0, 0, 0, 0xfe, 0xff, 0xff, 0xff];
/// assert_eq!(paths(&line), [Path { open: true, points: vec![(5, 6, 7).into(), (-1, 0, -2).into()] }]);
/// assert_eq!(paths(&line[..26]), []);
/// ```
pub fn paths(tray: &[u8]) -> Vec<Path> {
    let mut rest = tray;
    std::iter::from_fn(|| {
        let (path, after) = first(rest)?;
        rest = after;
        Some(path)
    })
    .collect()
}
