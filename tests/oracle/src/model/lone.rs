// The lone ring of document 01: one circle of points by value, stepped by its rules. Uses none of the Rust's code.
use super::geometry::{close, crosses, crossing_point, doubled_area, droppable, same, Pt};

/// The step due; a place is a position on the circle, and a start that was cut away is none.
#[derive(Clone, Copy, Debug, PartialEq)]
pub enum Due {
    Validity,
    Removal { at: usize, start: Option<usize> },
    Triangle,
    Split { at: usize, start: Option<usize> },
    Done,
}

impl Due {
    /// 0 for done, else the kinds of step in document 01's order.
    pub fn number(self) -> u8 {
        match self {
            Due::Done => 0,
            Due::Validity => 1,
            Due::Removal { .. } => 2,
            Due::Triangle => 3,
            Due::Split { .. } => 4,
        }
    }
}

/// What a step does.
#[derive(Clone, Copy, Debug, PartialEq)]
pub enum Act {
    /// The validity test or the triangle test finds nothing against the ring.
    Begin,
    /// The validity test or the split's area test discards the ring.
    Discard,
    Move,
    Drop,
    DropDiscard,
    /// The triangle test ends the ring.
    Settle,
    Double,
    Cut {
        at: Pt,
        point: bool,
        offcut: bool,
    },
}

#[derive(Clone, Debug, PartialEq)]
pub struct Lone {
    pub circle: Vec<Pt>,
    pub first: usize,
    pub due: Due,
}

/// Validity fails for no points, one, two, or three of which two are close.
fn valid(circle: &[Pt]) -> bool {
    match circle {
        [] | [_] | [_, _] => false,
        [a, b, c] => !(close(*a, *b) || close(*b, *c) || close(*c, *a)),
        _ => true,
    }
}

impl Lone {
    pub fn new(circle: Vec<Pt>) -> Lone {
        Lone { circle, first: 0, due: Due::Validity }
    }

    /// The points from the first in walk order.
    pub fn points(&self) -> Vec<Pt> {
        let mut points = self.circle.clone();
        if !points.is_empty() {
            points.rotate_left(self.first);
        }
        points
    }

    /// Gives the ring any progress: a mark of the work space, and present place and start counted from the first point, the start on the ring or none.
    pub fn set_progress(&mut self, mark: u16, present: usize, start: Option<usize>) {
        let at = self.after(self.first, present);
        let start = start.map(|start| self.after(self.first, start));
        self.due = match mark {
            0 => Due::Validity,
            1 => Due::Removal { at, start },
            2 => Due::Triangle,
            3 => Due::Split { at, start },
            _ => Due::Done,
        };
    }

    fn after(&self, at: usize, by: usize) -> usize {
        (at + by) % self.circle.len()
    }

    fn before(&self, at: usize) -> usize {
        (at + self.circle.len() - 1) % self.circle.len()
    }

    fn value(&self, at: usize, by: usize) -> Pt {
        self.circle[self.after(at, by)]
    }

    /// What the step due does; nothing for a done ring.
    pub fn decide(&self, keep: bool) -> Option<Act> {
        Some(match self.due {
            Due::Validity if valid(&self.circle) => Act::Begin,
            Due::Validity => Act::Discard,
            Due::Removal { at, .. } => self.decide_removal(at, keep),
            Due::Triangle if self.three() => Act::Settle,
            Due::Triangle => Act::Begin,
            Due::Split { at, .. } => self.decide_split(at),
            Due::Done => return None,
        })
    }

    /// The point before is the second after: three points, or one, which only others' progress brings to this test.
    fn three(&self) -> bool {
        self.before(self.first) == self.after(self.first, 2)
    }

    fn decide_removal(&self, at: usize, keep: bool) -> Act {
        if !droppable(self.circle[self.before(at)], self.circle[at], self.value(at, 1), keep) {
            return Act::Move;
        }
        let mut left = self.circle.clone();
        left.remove(at);
        if valid(&left) {
            Act::Drop
        } else {
            Act::DropDiscard
        }
    }

    fn decide_split(&self, at: usize) -> Act {
        let (prev, here) = (self.circle[self.before(at)], self.circle[at]);
        let (next, second, third) = (self.value(at, 1), self.value(at, 2), self.value(at, 3));
        if !crosses(prev, here, next, second) {
            return Act::Move;
        }
        if crosses(prev, here, second, third) {
            return Act::Double;
        }
        let ring = doubled_area(&self.circle);
        if ring.abs() < 4 {
            return Act::Discard;
        }
        let meet = crossing_point(prev, here, next, second);
        let triangle = doubled_area(&[meet, here, next]);
        // The triangle's doubled area stands against the ring's area as it is, so the ring's doubled one is halved.
        let larger = 2 * triangle.abs() > ring.abs();
        let offcut = triangle != 0 && (larger || (triangle > 0) == (ring > 0));
        Act::Cut { at: meet, point: !same(meet, prev) && !same(meet, second), offcut }
    }

    /// Does an act that `decide` gave; answers the offcut where one is cut.
    pub fn apply(&mut self, act: Act) -> Option<Lone> {
        match (act, self.due) {
            (Act::Begin, Due::Validity) => self.due = Due::Removal { at: self.first, start: Some(self.first) },
            (Act::Begin, _) => self.due = Due::Split { at: self.first, start: Some(self.first) },
            (Act::Discard, _) | (Act::DropDiscard, _) => self.discard(),
            (Act::Settle, _) => self.due = Due::Done,
            (Act::Move, Due::Removal { at, start }) => {
                let at = self.after(at, 1);
                self.due = if Some(at) == start { Due::Triangle } else { Due::Removal { at, start } };
            }
            (Act::Drop, Due::Removal { at, .. }) => self.drop_point(at),
            (Act::Move, Due::Split { at, start }) => self.go_on(self.after(at, 1), start),
            (Act::Double, Due::Split { at, start }) => self.double(at, start),
            (Act::Cut { at: meet, point, offcut }, Due::Split { at, start }) => {
                return self.cut(at, start, meet, point, offcut);
            }
            _ => unreachable!("an act that isn't the due step's"),
        }
        None
    }

    fn discard(&mut self) {
        *self = Lone { circle: Vec::new(), first: 0, due: Due::Done };
    }

    /// Drops a point: a first point hands on to the one before it, and the loop starts again at the next.
    fn drop_point(&mut self, at: usize) {
        let first = if at == self.first { self.before(at) } else { self.first };
        self.circle.remove(at);
        self.first = if first > at { first - 1 } else { first };
        let next = at % self.circle.len();
        self.due = Due::Removal { at: next, start: Some(next) };
    }

    /// The split loop's end test.
    fn go_on(&mut self, at: usize, start: Option<usize>) {
        let ends = Some(at) == start || at == self.first;
        self.due = if ends { Due::Done } else { Due::Split { at, start } };
    }

    /// Puts a copy of the point two ahead, z too, before the present one, which stays the present one.
    fn double(&mut self, at: usize, start: Option<usize>) {
        let copy = self.value(at, 2);
        let shift = |place: usize| if place >= at { place + 1 } else { place };
        self.first = shift(self.first);
        let start = start.map(shift);
        self.circle.insert(at, copy);
        self.go_on(at + 1, start);
    }

    /// Cuts the present point and the next away; the ring goes on at the point before, which is now the first.
    fn cut(&mut self, at: usize, start: Option<usize>, meet: Pt, point: bool, offcut: bool) -> Option<Lone> {
        let prev = self.before(at);
        let n = self.circle.len();
        let triangle = vec![meet, self.circle[at], self.value(at, 1)];
        self.circle.rotate_left(prev);
        let place = |p: usize| (p + n - prev) % n;
        let start = match start.map(place) {
            Some(1) | Some(2) | None => None,
            Some(0) => Some(0),
            Some(p) => Some(p - 2 + point as usize),
        };
        self.circle.splice(1..3, point.then_some(meet));
        self.first = 0;
        self.due = if self.circle.len() == 3 { Due::Done } else { Due::Split { at: 0, start } };
        offcut.then(|| Lone::new(triangle))
    }
}

impl Act {
    /// The points and records that the act newly takes.
    pub fn takes(self) -> (usize, usize) {
        match self {
            Act::Double => (1, 0),
            Act::Cut { point, offcut, .. } => (point as usize + offcut as usize, offcut as usize),
            _ => (0, 0),
        }
    }
}
