//! Where a record's ring went: the eight reasons, by name, by number and in words.
use std::fmt;

/// Where a record's ring went. Its words are those of the program `reasons`.
#[derive(Clone, Copy, Debug, PartialEq, Eq)]
pub enum Reason {
    /// The job has no ring for it.
    NoRing,
    /// Joined into another record.
    Joined {
        /// The record that took it in that join, which may have been joined later itself.
        taker: u32,
    },
    /// Too small at the validity test.
    SmallRing,
    /// Fell invalid while points were removed.
    RingFell,
    /// Its area was under 2.0 at a split.
    SmallArea,
    /// Too short when its path was built.
    ShortPath,
    /// Too small when its path was built.
    SmallPath,
    /// Its path is in the tray.
    Written {
        /// Whether it is among the open paths.
        open: bool,
        /// Its place among the closed or the open paths, from 0.
        place: u32,
    },
}

impl Reason {
    /// Its number, 1 to 8, in this order.
    pub fn number(self) -> u32 {
        match self {
            Reason::NoRing => 1,
            Reason::Joined { .. } => 2,
            Reason::SmallRing => 3,
            Reason::RingFell => 4,
            Reason::SmallArea => 5,
            Reason::ShortPath => 6,
            Reason::SmallPath => 7,
            Reason::Written { .. } => 8,
        }
    }

    /// The high half of an answer: the reason's number, the tag of its path's list, the taker or the place.
    pub(crate) fn told(half: u32) -> Reason {
        let (list, number) = (half >> 8 & 255, half >> 16);
        match half & 255 {
            1 => Reason::NoRing,
            2 => Reason::Joined { taker: number },
            3 => Reason::SmallRing,
            4 => Reason::RingFell,
            5 => Reason::SmallArea,
            6 => Reason::ShortPath,
            7 => Reason::SmallPath,
            _ => Reason::Written { open: list == 7, place: number },
        }
    }
}

impl fmt::Display for Reason {
    fn fmt(&self, f: &mut fmt::Formatter<'_>) -> fmt::Result {
        match self {
            Reason::NoRing => f.write_str("no ring in the job"),
            Reason::Joined { taker } => write!(f, "joined into record {taker}"),
            Reason::SmallRing => f.write_str("too small to begin with"),
            Reason::RingFell => f.write_str("too little left once points were removed"),
            Reason::SmallArea => f.write_str("area under 2 at a crossing"),
            Reason::ShortPath => f.write_str("too few points left for an outline"),
            Reason::SmallPath => f.write_str("too small for an outline"),
            Reason::Written { open, place } => write!(f, "{} outline {place}", if *open { "open" } else { "closed" }),
        }
    }
}
