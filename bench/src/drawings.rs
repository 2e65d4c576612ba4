// Real jobs: drawings swept by the Rust, cut before its joins, so that joining is timed too; and the whole way from the drawing.
use crate::{row, side_by_side, Lent};
use drawn::sweep;
use oracle::drawn::cut::{self, Cut};
use oracle::drawn::{table, Drawing};
use oracle::job::Job;
use std::hint::black_box;

fn name_of(name: &str, job: &Job) -> String {
    format!("{name}: {} points, {} joins", job.points.len(), job.joins.len())
}

/// The stage on each drawing's job.
pub fn stages() {
    for (name, drawing) in table() {
        let job = cut::job(&drawing, Cut::Joins).expect("the sweep does not give up");
        row(&name_of(name, &job), &job.bytes());
    }
}

/// Sweep, export, ours, its paths read from the tray; beside the whole `execute`.
fn whole(name: &str, drawing: &Drawing) {
    let mut lent = Lent::new();
    let job = || {
        sweep::job(&mut drawing.clipper(), drawing.clip_type, drawing.fill_rule).expect("the sweep does not give up")
    };
    let mut ours = || {
        let bytes = black_box(job()).bytes().expect("one job holds it");
        lent.finish(&bytes).expect("the job is accepted");
        black_box(outline::paths(&lent.tray));
    };
    let mut swept = || {
        black_box(job());
    };
    let mut rust = || {
        black_box(drawing.executed());
    };
    let t = side_by_side(&mut [&mut ours, &mut swept, &mut rust], 2);
    println!("| {name} | {:.1} | {:.1} | {:.1} | {:.2} |", t[0], t[1], t[2], t[0] / t[2]);
}

pub fn whole_way() {
    println!(
        "\n| drawing | sweep, export and ours, µs | of it sweep and export, µs | the whole `execute`, µs | ratio |"
    );
    println!("|---|---|---|---|---|");
    for (name, drawing) in table() {
        whole(name, &drawing);
    }
}
