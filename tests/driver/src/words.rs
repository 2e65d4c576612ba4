// The work space as docs/WORKSPACE.md lays it out, written from that table and not from the code.
use oracle::real::Pt;

pub const MOST_POINTS: usize = 2048;
pub const MOST_RECORDS: usize = 512;
pub const NONE: u32 = 65_535;
/// A coordinate's word is raised by this; twice this is the greatest.
pub const RAISED: i64 = 1_048_576;

pub const SETTINGS: usize = 0;
pub const POINTS: usize = 1;
pub const RECORDS: usize = 2;
pub const X: usize = 16;
pub const Y: usize = X + MOST_POINTS;
pub const NEXT: usize = Y + MOST_POINTS;
pub const PREV: usize = NEXT + MOST_POINTS;
pub const REC: usize = PREV + MOST_POINTS;
pub const Z: usize = REC + MOST_POINTS;
pub const FLAGS: usize = Z + MOST_POINTS;
pub const OWNER: usize = FLAGS + MOST_RECORDS;
pub const FIRST: usize = OWNER + MOST_RECORDS;
pub const MARK: usize = FIRST + MOST_RECORDS;
pub const PRESENT: usize = MARK + MOST_RECORDS;
pub const START: usize = PRESENT + MOST_RECORDS;
pub const CUT: usize = START + MOST_RECORDS;
pub const REASON: usize = CUT + MOST_RECORDS;
pub const TAKER: usize = REASON + MOST_RECORDS;

/// The boxes beside the rings: least x, least y, greatest x, greatest y, raised as coordinates are.
pub const BOXES: usize = TAKER + MOST_RECORDS;
pub const LEFT: usize = BOXES;
pub const TOP: usize = LEFT + MOST_RECORDS;
pub const RIGHT: usize = TOP + MOST_RECORDS;
pub const BOTTOM: usize = RIGHT + MOST_RECORDS;
pub const SIDES: [usize; 4] = [LEFT, TOP, RIGHT, BOTTOM];

/// The live block; behind it a word for each place's name, and a copy of the block for each.
pub const BLOCK: usize = BOTTOM + MOST_RECORDS;
pub const STATES: usize = 4;
pub const NAMES: usize = BLOCK;
pub const KEPT: usize = NAMES + STATES;
/// The fixed length.
pub const WORDS: usize = KEPT + STATES * BLOCK;

/// Why a record has no ring: none in the job, joined into another, and a step's three rules in the order of the marks.
pub const NO_RING: u32 = 1;
pub const JOINED: u32 = 2;
pub const AT_VALIDITY: u32 = 3;
pub const WHILE_REMOVING: u32 = 4;
pub const AT_SPLIT: u32 = 5;

/// The marks: the four kinds of step, and done.
pub const VALIDITY: u32 = 0;
pub const REMOVAL: u32 = 1;
pub const TRIANGLE: u32 = 2;
pub const SPLIT: u32 = 3;
pub const DONE: u32 = 4;

/// What is kept of a ring that a step at this mark discards; none at the others.
pub fn discarded_at(mark: u32) -> Option<u32> {
    match mark {
        VALIDITY => Some(AT_VALIDITY),
        REMOVAL => Some(WHILE_REMOVING),
        SPLIT => Some(AT_SPLIT),
        _ => None,
    }
}

pub fn points(w: &[u32]) -> usize {
    w[POINTS] as usize
}

pub fn records(w: &[u32]) -> usize {
    w[RECORDS] as usize
}

pub fn is_open(w: &[u32], record: usize) -> bool {
    w[FLAGS + record] & 1 != 0
}

/// A point with its z, which is its word's 32 bits as a signed number.
pub fn value(w: &[u32], point: usize) -> Pt {
    (w[X + point] as i64 - RAISED, w[Y + point] as i64 - RAISED, w[Z + point] as i32 as i64)
}

/// A record's ring: the points along next from the first; none where the walk does not come back.
pub fn ring(w: &[u32], record: usize) -> Option<Vec<usize>> {
    let first = w[FIRST + record];
    let mut ring = Vec::new();
    let mut at = first;
    if first == NONE {
        return Some(ring);
    }
    while ring.len() < MOST_POINTS && (at as usize) < MOST_POINTS {
        ring.push(at as usize);
        at = w[NEXT + at as usize];
        if at == first {
            return Some(ring);
        }
    }
    None
}

pub fn values(w: &[u32], ring: &[usize]) -> Vec<Pt> {
    ring.iter().map(|&point| value(w, point)).collect()
}

/// Whether a record has a closed ring that isn't done.
pub fn is_live(w: &[u32], record: usize) -> bool {
    !is_open(w, record) && w[FIRST + record] != NONE && w[MARK + record] != DONE
}
