// A ring's path after document 01's "Path and tray". Uses none of the Rust's code.
use super::geometry::{close, same, Pt};

/// What building a path came to: the path, or the test that ended it.
#[derive(Clone, Debug, PartialEq)]
pub enum Built {
    Path(Vec<Pt>),
    /// Too few points: of the ring, or of the path once neighbouring equals are dropped.
    Short,
    /// Three points of which two are close, the ring having three as well.
    Small,
}

/// Builds the path of a ring given from its first point in walk order.
pub fn build(ring: &[Pt], reverse: bool, open: bool) -> Built {
    let n = ring.len();
    if n < 2 || (!open && n == 2) {
        return Built::Short;
    }
    let mut order: Vec<Pt> = ring.to_vec();
    if reverse {
        order[1..].reverse();
    } else {
        order.rotate_left(1);
    }
    // Of neighbouring equals the first walked stays, with its z.
    order.dedup_by(|next, kept| same(*next, *kept));
    let small = n == 3 && (close(ring[0], ring[1]) || close(ring[1], ring[2]) || close(ring[2], ring[0]));
    if !open && order.len() == 3 && small {
        return Built::Small;
    }
    if order.len() < 2 {
        return Built::Short;
    }
    Built::Path(order)
}

/// The path, or none.
pub fn path(ring: &[Pt], reverse: bool, open: bool) -> Option<Vec<Pt>> {
    match build(ring, reverse, open) {
        Built::Path(path) => Some(path),
        Built::Short | Built::Small => None,
    }
}
