// What an accepted or refused job answers: the tray's bytes and the listing, as document 01 lays them out.
use crate::job::field;
use crate::real::Pt;

pub const SMALL_TRAY: u8 = 11;

#[derive(Clone, Debug, PartialEq)]
pub enum Answer {
    Refused(u8),
    /// The lists, and whether they were written under `reverse_solution`.
    Paths {
        closed: Vec<Vec<Pt>>,
        open: Vec<Vec<Pt>>,
        reversed: bool,
    },
}

/// One path as an output field: x, y, z for each point.
fn path_field(tag: u8, path: &[Pt]) -> Vec<u8> {
    let number =
        |n: i64| i32::try_from(n).expect("a number of the Rust's has 32 bits, as the job's have").to_le_bytes();
    let value: Vec<u8> = path.iter().flat_map(|&(x, y, z)| [x, y, z]).flat_map(number).collect();
    field(tag, &value)
}

/// Sum of (prev y + y) × (prev x − x) over a path.
fn doubled_area(path: &[Pt]) -> i64 {
    let mut sum = 0;
    let mut prev = path[path.len() - 1];
    for &at in path {
        sum += (prev.1 + at.1) * (prev.0 - at.0);
        prev = at;
    }
    sum
}

/// The word follows the sense that the ring had before reversal.
fn word(area: i64, reversed: bool) -> &'static str {
    match (area.signum(), reversed) {
        (0, _) => "flat",
        (1, false) | (-1, true) => "piece",
        _ => "hole",
    }
}

/// Points after a space each, as every text here shows them.
pub fn points(path: &[Pt]) -> String {
    path.iter().map(|(x, y, z)| format!(" {x},{y},{z}")).collect()
}

impl Answer {
    /// The bytes of the paths; none for a refusal.
    pub fn tray(&self) -> Vec<u8> {
        match self {
            Answer::Refused(_) => Vec::new(),
            Answer::Paths { closed, open, .. } => {
                let closed = closed.iter().map(|path| path_field(6, path));
                closed.chain(open.iter().map(|path| path_field(7, path))).flatten().collect()
            }
        }
    }

    pub fn listing(&self) -> String {
        let (closed, open, reversed) = match self {
            Answer::Refused(number) => return format!("refused {number}\n"),
            Answer::Paths { closed, open, reversed } => (closed, open, *reversed),
        };
        let mut out = format!("closed {} open {}\n", closed.len(), open.len());
        for path in closed {
            let area = doubled_area(path);
            out += &format!("{} {} {area}{}\n", word(area, reversed), path.len(), points(path));
        }
        for path in open {
            out += &format!("line {}{}\n", path.len(), points(path));
        }
        out
    }

    /// The answer with a tray of a given length: row 11 comes last.
    pub fn within(self, tray: usize) -> Answer {
        if self.tray().len() > tray {
            return Answer::Refused(SMALL_TRAY);
        }
        self
    }

    pub fn number(&self) -> u8 {
        match self {
            Answer::Refused(number) => *number,
            Answer::Paths { .. } => 0,
        }
    }
}
