// Which shape lies in which: the answers for all pairs of a job's closed paths, beside the real Rust's on the same paths.
use crate::jobs::of_rings;
use crate::{side_by_side, Lent};
use oracle::contains;
use oracle::engine_fns::path2_contains_path1;
use oracle::job::POINTS;
use oracle::{read, real};
use std::hint::black_box;

type At = (i32, i32);

/// n points round a middle.
fn round((x, y): At, radius: f64, n: usize) -> Vec<At> {
    let turn = |k: usize| 0.1 + k as f64 / n as f64 * std::f64::consts::TAU;
    (0..n).map(|k| (x + (radius * turn(k).cos()) as i32, y + (radius * turn(k).sin()) as i32)).collect()
}

/// So many paths side by side, as many points in all as a job may have.
pub fn apart(paths: usize) -> Vec<Vec<At>> {
    let wide = (paths as f64).sqrt().ceil() as usize;
    let middle = |k: usize| ((k % wide) as i32 * 40_000 - 500_000, (k / wide) as i32 * 40_000 - 500_000);
    (0..paths).map(|k| round(middle(k), 15_000.0, POINTS / paths)).collect()
}

/// So many paths, each in the next.
fn nested(paths: usize) -> Vec<Vec<At>> {
    (1..=paths).map(|k| round((0, 0), 1e6 * k as f64 / paths as f64, POINTS / paths)).collect()
}

/// Ours, less finishing alone, which the Rust's figure does not have either.
fn row(name: &str, rings: &[Vec<At>]) {
    let bytes = of_rings(rings).bytes();
    let job = read::read(&bytes).expect("the job is read");
    let (closed, _) = real::paths(real::open_untested(&job));
    let told = contains::answers(&closed);
    let paths: Vec<_> = closed.iter().map(|points| contains::path(points)).collect();
    let (mut lent, mut alone) = (Lent::new(), Lent::new());
    let mut answers = vec![7; told.len()];
    assert_eq!(outline::contained(&bytes, &mut lent.work, &mut lent.tray, &mut answers), Ok(()), "{name} is refused");
    assert!(answers == told, "{name}: the answers differ");
    let mut whole = || {
        let _ = black_box(outline::contained(black_box(&bytes), &mut lent.work, &mut lent.tray, &mut answers));
    };
    let mut finished = || {
        let _ = black_box(alone.finish(black_box(&bytes)));
    };
    let mut rust = || {
        let mut said = Vec::with_capacity(told.len());
        for (i, path1) in paths.iter().enumerate() {
            for (j, path2) in paths.iter().enumerate() {
                if i != j {
                    said.push(path2_contains_path1(black_box(path1), black_box(path2)) as u8);
                }
            }
        }
        black_box(said);
    };
    let t = side_by_side(&mut [&mut whole, &mut finished, &mut rust], 1);
    let ours = t[0] - t[1];
    println!("| {} {name} | {} | {ours:.0} | {:.0} | {:.2} |", closed.len(), told.len(), t[2], ours / t[2]);
}

pub fn rows() {
    println!("\n| closed paths | pairs | ours, µs | `path2_contains_path1`, µs | ratio |");
    println!("|---|---|---|---|---|");
    for paths in [16, 128, 512] {
        row("side by side", &apart(paths));
        row("one in another", &nested(paths));
    }
}
