// Times outline_finish and the real Rust on the same jobs, side by side in one run, steps by outline_step, which shape lies in which, and which records a window shows.
mod drawings;
mod jobs;
mod pairs;
mod windows;

use oracle::answer::Answer;
use oracle::{check, read, real};
use outline::{Refused, TRAY_BYTES, WORK_WORDS};
use std::hint::black_box;
use std::time::{Duration, Instant};

/// A lent work space and tray.
struct Lent {
    work: Vec<u32>,
    tray: Vec<u8>,
}

impl Lent {
    fn new() -> Lent {
        Lent { work: vec![0; WORK_WORDS], tray: vec![0; TRAY_BYTES] }
    }

    fn finish(&mut self, job: &[u8]) -> Result<(), Refused> {
        outline::finish(job, &mut self.work, &mut self.tray)
    }
}

fn once(call: &mut dyn FnMut(), times: u32) -> Duration {
    let began = Instant::now();
    for _ in 0..times {
        call();
    }
    began.elapsed() / times
}

/// The shortest of two hundred turns of each call, in microseconds; the calls take turns, so that what else the machine does
/// meets all of them.
fn side_by_side(calls: &mut [&mut dyn FnMut()], times: u32) -> Vec<f64> {
    let mut best = vec![Duration::MAX; calls.len()];
    for _ in 0..200 {
        for (call, best) in calls.iter_mut().zip(&mut best) {
            *best = once(*call, times).min(*best);
        }
    }
    best.iter().map(|time| time.as_secs_f64() * 1e6).collect()
}

/// Ours; the Rust from the same bytes, with the oracle's reader and rows 4 to 8; the Rust's stage alone, from a job that is
/// read and tested.
fn row(name: &str, bytes: &[u8]) {
    let mut lent = Lent::new();
    let job = read::read(bytes).expect("the job is read");
    let (closed, open) = real::paths(real::open_untested(&job));
    let paths = Answer::Paths { closed, open, reversed: false }.tray();
    assert_eq!(lent.finish(bytes), Ok(()), "{name} is refused");
    assert!(
        lent.tray.starts_with(&paths) && lent.tray[paths.len()..].iter().all(|b| *b == 0),
        "{name}: the trays differ"
    );
    let mut ours = || {
        let _ = black_box(lent.finish(black_box(bytes)));
    };
    let mut whole = || {
        let job = read::read(black_box(bytes)).unwrap();
        check::check(&job).unwrap();
        black_box(real::paths(real::open_untested(&job)));
    };
    let mut stage = || {
        black_box(real::paths(real::open_untested(black_box(&job))));
    };
    let times = if bytes.len() < 1_500 { 100 } else { 5 };
    let t = side_by_side(&mut [&mut ours, &mut whole, &mut stage], times);
    println!("| {name} | {:.1} | {:.1} | {:.2} | {:.1} | {:.2} |", t[0], t[1], t[0] / t[1], t[2], t[0] / t[2]);
}

/// Every ring of a job stepped to done, each step a call that tests the whole work space first: the shortest of five rounds,
/// of two hundred for a small job, whose ten steps take less than a microsecond.
fn steps(name: &str, bytes: &[u8]) {
    let mut lent = Lent::new();
    let (mut taken, mut best) = (0, f64::MAX);
    let rounds = if bytes.len() < 1_500 { 200 } else { 5 };
    for _ in 0..rounds {
        assert_eq!(outline::open(bytes, &mut lent.work), Ok(()), "{name} is refused");
        let began = Instant::now();
        taken = 0;
        let mut record = 0;
        while record < lent.work[2] {
            while outline::step(&mut lent.work, record).is_ok() {
                taken += 1;
            }
            record += 1;
        }
        best = best.min(began.elapsed().as_secs_f64());
    }
    println!("| {name} | {taken} | {:.0} |", taken as f64 / best);
}

fn main() {
    println!("| job | ours, µs | Rust from bytes, µs | ratio | Rust's stage alone, µs | ratio |");
    println!("|---|---|---|---|---|---|");
    for (name, job) in jobs::table() {
        row(name, &job.bytes());
    }
    drawings::stages();
    for n in [64, 128, 256, 512, 1024, 2048] {
        row(&format!("one smooth ring of {n} points"), &jobs::smooth(n).bytes());
    }
    drawings::whole_way();
    pairs::rows();
    windows::rows();
    println!("\n| job, stepped | steps | steps a second |");
    println!("|---|---|---|");
    for (name, job) in jobs::table() {
        steps(name, &job.bytes());
    }
}
