// A job as document 01 lays it out: limits, fields, and how a job is written as bytes.

pub const POINTS: usize = 2048;
pub const RECORDS: usize = 512;
pub const SEGMENTS: usize = 256;
pub const JOINS: usize = 256;
pub const COORDINATE: i32 = 1_048_576;
/// Means none, in a record's owner and first point only.
pub const NONE: u16 = 65_535;

/// The length of a point's value: x, y, next, prev, record, z.
pub const POINT: usize = 18;

pub const KEEP: u8 = 1;
pub const REVERSE: u8 = 2;
pub const OPEN: u8 = 1;
pub const FRONT: u8 = 2;

#[derive(Clone, Debug, PartialEq)]
pub struct Point {
    pub x: i32,
    pub y: i32,
    /// Any number: no row of the table binds it.
    pub z: i32,
    pub next: u16,
    pub prev: u16,
    pub record: u16,
}

#[derive(Clone, Debug, PartialEq)]
pub struct Record {
    pub flags: u8,
    pub owner: u16,
    pub first: u16,
}

#[derive(Clone, Debug, Default, PartialEq)]
pub struct Job {
    pub settings: u8,
    pub points: Vec<Point>,
    pub records: Vec<Record>,
    pub segments: Vec<u16>,
    pub joins: Vec<(u16, u16)>,
}

/// One tagged field: tag, length, value.
pub fn field(tag: u8, value: &[u8]) -> Vec<u8> {
    let mut out = vec![tag];
    out.extend((value.len() as u16).to_le_bytes());
    out.extend(value);
    out
}

impl Job {
    pub fn bytes(&self) -> Vec<u8> {
        let mut out = field(1, &[self.settings]);
        for p in &self.points {
            let mut value = Vec::with_capacity(POINT);
            value.extend(p.x.to_le_bytes());
            value.extend(p.y.to_le_bytes());
            for number in [p.next, p.prev, p.record] {
                value.extend(number.to_le_bytes());
            }
            value.extend(p.z.to_le_bytes());
            out.extend(field(2, &value));
        }
        for r in &self.records {
            let mut value = vec![r.flags];
            value.extend(r.owner.to_le_bytes());
            value.extend(r.first.to_le_bytes());
            out.extend(field(3, &value));
        }
        for s in &self.segments {
            out.extend(field(4, &s.to_le_bytes()));
        }
        for (a, b) in &self.joins {
            let mut value = a.to_le_bytes().to_vec();
            value.extend(b.to_le_bytes());
            out.extend(field(5, &value));
        }
        out
    }

    /// Adds a ring of new points in walk order, named by a new record that starts at the first of them.
    pub fn add_ring(&mut self, flags: u8, owner: u16, at: &[(i32, i32, i32)]) -> u16 {
        let record = self.records.len() as u16;
        let (base, n) = (self.points.len(), at.len());
        for (k, &(x, y, z)) in at.iter().enumerate() {
            let next = (base + (k + 1) % n) as u16;
            let prev = (base + (k + n - 1) % n) as u16;
            self.points.push(Point { x, y, z, next, prev, record });
        }
        let first = if n == 0 { NONE } else { base as u16 };
        self.records.push(Record { flags, owner, first });
        record
    }
}
