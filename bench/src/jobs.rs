// The jobs that are timed.
use oracle::core::Point64;
use oracle::drawn::cut::{self, Cut};
use oracle::drawn::Drawing;
use oracle::job::{Job, Point, Record, NONE};

type At = (i32, i32);

/// One closed record for each ring, its points in walk order, each of depth 0.
pub fn of_rings(rings: &[Vec<At>]) -> Job {
    let mut job = Job::default();
    for (record, ring) in rings.iter().enumerate() {
        let (base, n) = (job.points.len(), ring.len());
        let number = |k: usize| (base + k % n) as u16;
        for (k, &(x, y)) in ring.iter().enumerate() {
            job.points.push(Point { x, y, z: 0, next: number(k + 1), prev: number(k + n - 1), record: record as u16 });
        }
        job.records.push(Record { flags: 0, owner: NONE, first: base as u16 });
    }
    job
}

fn square(x: i32, y: i32, side: i32) -> Vec<At> {
    vec![(x, y), (x + side, y), (x + side, y + side), (x, y + side)]
}

/// n points on a circle: nothing is in line, nothing crosses.
pub fn smooth(n: usize) -> Job {
    let turn = |k: usize| k as f64 / n as f64 * std::f64::consts::TAU;
    of_rings(&[(0..n).map(|k| ((1e6 * turn(k).cos()) as i32, (1e6 * turn(k).sin()) as i32)).collect()])
}

fn small_ring() -> Job {
    of_rings(&[square(0, 0, 10)])
}

fn small_rings() -> Job {
    of_rings(&(0..500).map(|k| square(20 * k, 0, 10)).collect::<Vec<_>>())
}

/// A long ring whose lower side has a small crossing in every step; every other one is left as an offcut.
fn crossings() -> Job {
    let mut ring = Vec::new();
    for k in 0..250 {
        let x = 40 * k;
        ring.extend(match k % 2 {
            0 => [(x, 0), (x + 30, 10), (x + 30, 0), (x, 11), (x + 35, 20)],
            _ => [(x, 0), (x + 30, 0), (x, 12), (x + 30, 14), (x + 35, 20)],
        });
    }
    ring.extend([(10_000, 5_000), (0, 5_000)]);
    of_rings(&[ring])
}

/// 128 blocks in a row as a sweep leaves them before the last scanline's level segments are made into joins: their level edges at one height.
fn level_segments() -> Job {
    let blocks =
        (0..128).map(|k| square(40 * k, 0, 20).into_iter().map(|(x, y)| Point64::new(x.into(), y.into())).collect());
    let drawing = Drawing { subject: blocks.collect(), ..Drawing::default() };
    cut::job(&drawing, Cut::Segments).expect("the sweep does not give up")
}

pub fn table() -> Vec<(&'static str, Job)> {
    vec![
        ("one small ring", small_ring()),
        ("500 small rings", small_rings()),
        ("one smooth ring of 2,000 points", smooth(2000)),
        ("one ring, 250 crossings", crossings()),
        ("128 blocks, level segments of one height", level_segments()),
    ]
}
