//! two_ways FILE: opens the job in FILE and keeps that state; steps its rings in rising record order to the end and prints the paths; goes back and
//! steps them in falling order. The shapes are the same; offcuts are cut otherwise, so they may have other record numbers and another order in the list.
#[path = "../out.rs"]
mod out;

use outline::{drop_name, go_back, keep, open, paths, step, write, Refused, RECORDS, TRAY_BYTES, WORK_WORDS};
use std::process::exit;

const USAGE: &str = "usage: two_ways FILE

Steps the rings of the job in FILE in rising record order, prints the paths, goes back to the job as it was opened, and steps them in falling order.
Ends with 0; with 1 if the job is refused, and then prints its number; with 2 if it could not be run.
";

/// The name that the opened state is kept under.
const OPENED: u8 = b'o';

/// Steps these records, each until it is done; how many steps there were.
fn step_each(work: &mut [u32], records: impl Iterator<Item = u32>) -> Result<usize, Refused> {
    let mut steps = 0;
    for record in records {
        loop {
            match step(work, record) {
                Ok(()) => steps += 1,
                Err(Refused::OUT_OF_TURN) => break,
                Err(refused) => return Err(refused),
            }
        }
    }
    Ok(steps)
}

/// A line for each path.
fn said_paths(work: &[u32]) -> Result<String, Refused> {
    let mut tray = vec![0; TRAY_BYTES];
    write(work, &mut tray)?;
    let mut said = String::new();
    for path in paths(&tray) {
        let points: String = path.points.iter().map(|point| format!(" {point}")).collect();
        said += &format!("{}{points}\n", if path.open { "open" } else { "closed" });
    }
    Ok(said)
}

/// What is to be printed of a job.
fn run(job: &[u8]) -> Result<String, Refused> {
    let mut work = vec![0; WORK_WORDS];
    open(job, &mut work)?;
    keep(&mut work, OPENED)?;
    let rising = step_each(&mut work, 0..RECORDS as u32)?;
    let mut said = format!("rising, {rising} steps\n{}", said_paths(&work)?);
    go_back(&mut work, OPENED)?;
    // An offcut has a higher number than its ring, so it waits for the next time down.
    let mut falling = 0;
    loop {
        match step_each(&mut work, (0..RECORDS as u32).rev())? {
            0 => break,
            steps => falling += steps,
        }
    }
    said += &format!("back, and falling, {falling} steps\n{}", said_paths(&work)?);
    drop_name(&mut work, OPENED)?;
    if let Err(refused) = go_back(&mut work, OPENED) {
        said += &format!("dropped: {refused}\n");
    }
    Ok(said)
}

fn fail(what: &str) -> ! {
    out::complain("two_ways", what);
    exit(2)
}

fn main() {
    let words: Vec<String> = std::env::args().skip(1).collect();
    let file = match words.iter().map(String::as_str).collect::<Vec<_>>()[..] {
        ["--help" | "-h"] => return out::print("two_ways", USAGE),
        ["--version"] => return out::print("two_ways", &out::version("two_ways")),
        [file] => file,
        _ => fail("one job at a time; two_ways --help says more"),
    };
    let job = std::fs::read(file).unwrap_or_else(|why| fail(&format!("cannot read {file}: {why}")));
    match run(&job) {
        Ok(said) => out::print("two_ways", &said),
        Err(Refused(number)) => {
            out::print("two_ways", &format!("refused {number}\n"));
            exit(1)
        }
    }
}
