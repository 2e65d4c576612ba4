//! A job from rings, and one whose rings are too many for one job.
use crate::{finish, paths, reason, Path, Point, Reason, Refused};
use crate::{JOB_BYTES, POINTS, RECORDS, TRAY_BYTES, WORK_WORDS};

/// A ring of points, in the order in which they are walked, from its first point on.
#[derive(Clone, Debug, Default, PartialEq, Eq)]
pub struct Ring {
    /// A line: it runs from the second point on, and its end is the first.
    pub open: bool,
    /// Its points; a ring without any has no outline.
    pub points: Vec<Point>,
}

/// Rings to finish, as a sweep leaves them once it has joined them (`docs/CLIPPER.md`), and the settings.
///
/// ```
/// use outline::{Job, Ring};
/// let points = [(0, 0, 0), (10, 10, 0), (10, 0, 0), (0, 12, 0)].map(outline::Point::from).to_vec();
/// let job = Job { rings: vec![Ring { open: false, points }], ..Job::default() };
/// assert_eq!(job.bytes()?, include_bytes!("../../../samples/crossed.job"));
/// let outlines = job.finish()?;
/// assert_eq!(outlines[0].points, [(5, 5, 0), (0, 12, 0), (0, 0, 0)].map(outline::Point::from));
/// assert_eq!(outlines.len(), 2);
/// # Ok::<(), outline::Refused>(())
/// ```
#[derive(Clone, Debug, Default, PartialEq, Eq)]
pub struct Job {
    /// Keep points that lie in line.
    pub preserve_collinear: bool,
    /// Write every path the other way round.
    pub reverse_solution: bool,
    /// In the order of their outlines.
    pub rings: Vec<Ring>,
}

/// None, in a record's owner and first point.
const NONE: u16 = 65_535;

impl Job {
    /// The job's bytes: a record for each ring, in their order, without owners, segments and joins. [`Refused::CROWDED`] where one job cannot hold them all:
    /// [`Job::finish`] shares them out.
    pub fn bytes(&self) -> Result<Vec<u8>, Refused> {
        self.bytes_of(&self.rings)
    }

    fn bytes_of(&self, rings: &[Ring]) -> Result<Vec<u8>, Refused> {
        let all: usize = rings.iter().map(|ring| ring.points.len()).sum();
        if rings.len() > RECORDS || all > POINTS {
            return Err(Refused::CROWDED);
        }
        let mut job = Vec::with_capacity(JOB_BYTES);
        put(&mut job, 1, &[&[u8::from(self.preserve_collinear) + 2 * u8::from(self.reverse_solution)]]);
        let mut first = 0;
        for (record, ring) in rings.iter().enumerate() {
            let count = ring.points.len();
            let number = |k: usize| ((first + k % count) as u16).to_le_bytes();
            for (k, p) in ring.points.iter().enumerate() {
                let [x, y, z] = [p.x, p.y, p.z].map(i32::to_le_bytes);
                let (next, prev, record) = (number(k + 1), number(k + count - 1), (record as u16).to_le_bytes());
                put(&mut job, 2, &[&x, &y, &next, &prev, &record, &z]);
            }
            first += count;
        }
        first = 0;
        for ring in rings {
            let start = if ring.points.is_empty() { NONE } else { first as u16 };
            put(&mut job, 3, &[&[u8::from(ring.open)], &NONE.to_le_bytes(), &start.to_le_bytes()]);
            first += ring.points.len();
        }
        Ok(job)
    }

    /// Finishes the rings and gives their outlines, closed ones before open ones, in the order in which the Rust would have them of all the rings at once: those of the rings, then
    /// those of what was cut off them, which are triangles and are not cut again. Rings that one job cannot hold are shared out over several, each ring whole: no ring's outline
    /// depends on the others. Refused as the first job that is: [`Refused::CROWDED`] where one ring has more than [`POINTS`](crate::POINTS) points, [`Refused::FULL`] where finishing one needs more.
    pub fn finish(&self) -> Result<Vec<Path>, Refused> {
        let mut lent = Lent::new();
        let mut all = Outlines::default();
        let (mut rest, mut most) = (&self.rings[..], RECORDS);
        while !rest.is_empty() {
            let (share, after) = rest.split_at(fitting(rest).min(most));
            match lent.outlines(&self.bytes_of(share)?, share.len(), &mut all) {
                Ok(()) => (rest, most) = (after, RECORDS),
                // What finishing makes counts too.
                Err(Refused::FULL) if share.len() > 1 => most = share.len() / 2,
                Err(refused) => return Err(refused),
            }
        }
        Ok([all.closed, all.cut_off, all.open].concat())
    }
}

/// Adds a field: its tag, the length of its value, the value.
fn put(job: &mut Vec<u8>, tag: u8, parts: &[&[u8]]) {
    let length: usize = parts.iter().map(|part| part.len()).sum();
    job.push(tag);
    job.extend_from_slice(&(length as u16).to_le_bytes());
    parts.iter().for_each(|part| job.extend_from_slice(part));
}

/// How many rings from the first on one job can hold; one at least.
fn fitting(rings: &[Ring]) -> usize {
    let mut points = 0;
    let fits = rings.iter().take(RECORDS).take_while(|ring| {
        points += ring.points.len();
        points <= POINTS
    });
    fits.count().max(1)
}

/// The outlines of some rings: closed ones, those of what was cut off them, and open ones.
#[derive(Default)]
struct Outlines {
    closed: Vec<Path>,
    cut_off: Vec<Path>,
    open: Vec<Path>,
}

struct Lent {
    work: Vec<u32>,
    tray: Vec<u8>,
}

impl Lent {
    fn new() -> Lent {
        Lent { work: vec![0; WORK_WORDS], tray: vec![0; TRAY_BYTES] }
    }

    /// Adds the outlines of a job of so many rings. The tray has closed ones by rising record, and what was cut off has the records after the job's own.
    fn outlines(&mut self, job: &[u8], rings: usize, all: &mut Outlines) -> Result<(), Refused> {
        finish(job, &mut self.work, &mut self.tray)?;
        let (open, mut closed): (Vec<Path>, Vec<Path>) = paths(&self.tray).into_iter().partition(|path| path.open);
        let cut_off = (rings as u32..).map_while(|record| reason(&self.work, record).ok());
        let written = cut_off.filter(|told| matches!(told, Reason::Written { .. })).count();
        all.cut_off.extend(closed.split_off(closed.len().saturating_sub(written)));
        all.closed.extend(closed);
        all.open.extend(open);
        Ok(())
    }
}
