//! The refusals: their names, and their words from the file that has them: a copy of tools/refusals, so that this package may be built elsewhere.
use std::fmt;

/// A number, a word and what it means in each line, with a tab between them.
const TABLE: &str = include_str!("../refusals");

/// The number of a refusal, 1 to 17.
///
/// ```
/// use outline::Refused;
/// let refused: Box<dyn std::error::Error> = Refused(7).into();
/// assert!(refused.to_string().starts_with("refused 7, muddled: owners go in a circle"));
/// assert_eq!(Refused(11), Refused::SMALL_TRAY);
/// ```
#[derive(Clone, Copy, Debug, PartialEq, Eq, Hash)]
pub struct Refused(pub u32);

impl Refused {
    /// A field is cut off, or its length is not its tag's.
    pub const TORN: Refused = Refused(1);
    /// The job is empty, or has a tag or a bit that does not belong there.
    pub const STRANGE: Refused = Refused(2);
    /// More points, records, segments or joins than a job may have.
    pub const CROWDED: Refused = Refused(3);
    /// A coordinate is beyond [`COORDINATE`](crate::COORDINATE) either way.
    pub const OFF_THE_TABLE: Refused = Refused(4);
    /// A number names no point or no record of the job.
    pub const NO_SUCH: Refused = Refused(5);
    /// A point's next and prev do not lead back to it.
    pub const LOOSE: Refused = Refused(6);
    /// Owners go in a circle, or a point is not on the ring of the record that it names.
    pub const MUDDLED: Refused = Refused(7);
    /// A segment or a join names a point of an open ring.
    pub const OPEN_EDGE: Refused = Refused(8);
    /// A join's second point is already the next of its first.
    pub const KNOT: Refused = Refused(9);
    /// Finishing, or laying together, needs more points or records than there may be, or a work space is too short.
    pub const FULL: Refused = Refused(10);
    /// The paths, or the job that is written, need more bytes than the tray has, the pairs more than the answers have, or the records in a window more words than the list has.
    pub const SMALL_TRAY: Refused = Refused(11);
    /// A step on a record that has none to take, the reason of an unknown record, writing out or asking for a reason before every closed ring is done, or laying together what was stepped.
    pub const OUT_OF_TURN: Refused = Refused(12);
    /// More than one rate is given, or one that is not a whole number from 1 to [`RATE`](crate::RATE).
    pub const BAD_RATE: Refused = Refused(13);
    /// Going back to, or dropping, a name that is not kept.
    pub const UNKNOWN_NAME: Refused = Refused(14);
    /// Keeping a fifth name.
    pub const NO_PLACE: Refused = Refused(15);
    /// Laying together two drawings whose settings bytes are unequal.
    pub const SETTINGS_DIFFER: Refused = Refused(16);
    /// Some point is the next of none or of more than one, so no backward links would do.
    pub const PAST_MENDING: Refused = Refused(17);

    /// The word and the meaning; none of a number that is no refusal's.
    fn said(self) -> Option<(&'static str, &'static str)> {
        TABLE.lines().find_map(|line| {
            let mut parts = line.split('\t');
            let number = parts.next()?.parse() == Ok(self.0);
            number.then_some((parts.next()?, parts.next()?))
        })
    }

    /// Its word, such as `out of turn`; empty for a number that is no refusal's.
    pub fn word(self) -> &'static str {
        self.said().map_or("", |(word, _)| word)
    }

    /// What it means, in a line; empty for a number that is no refusal's.
    pub fn meaning(self) -> &'static str {
        self.said().map_or("", |(_, meaning)| meaning)
    }
}

impl fmt::Display for Refused {
    fn fmt(&self, f: &mut fmt::Formatter<'_>) -> fmt::Result {
        match self.said() {
            Some((word, meaning)) => write!(f, "refused {}, {word}: {meaning}", self.0),
            None => write!(f, "refused {}", self.0),
        }
    }
}

impl std::error::Error for Refused {}
