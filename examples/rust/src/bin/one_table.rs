//! one_table FILE FILE ..: opens each job, lays them together on one table, finishes them by steps as one, and prints a line for each record: where its outline is, and its points,
//! or why it has none. The second job's records follow the first's, and so on; offcuts come last.
#[path = "../out.rs"]
mod out;

use outline::{lay_together, open, paths, reason, step, write, Reason, Refused, RECORDS, TRAY_BYTES, WORK_WORDS};
use std::process::exit;

const USAGE: &str = "usage: one_table FILE FILE ..

Lays the jobs in these files together on one table, finishes them as one, and prints what became of each record.
Ends with 0; with 1 if one of them is refused, or does not go with those before it, and then says which and its number; with 2 if it could not be run.
";

/// Every ring to its end. An offcut has a higher number than its ring, so it still has its turn.
fn step_all(work: &mut [u32]) -> Result<(), Refused> {
    for record in 0..RECORDS as u32 {
        loop {
            match step(work, record) {
                Ok(()) => {}
                Err(Refused::OUT_OF_TURN) => break,
                Err(refused) => return Err(refused),
            }
        }
    }
    Ok(())
}

/// Both counts, and a line for each record.
fn said(work: &[u32]) -> Result<String, Refused> {
    let mut tray = vec![0; TRAY_BYTES];
    write(work, &mut tray)?;
    let paths = paths(&tray);
    let closed = paths.iter().filter(|path| !path.open).count();
    let mut said = format!("closed {closed} open {}\n", paths.len() - closed);
    for record in 0..RECORDS as u32 {
        let told = match reason(work, record) {
            // There are no more.
            Err(Refused::OUT_OF_TURN) => break,
            told => told?,
        };
        said += &format!("record {record}: {told}");
        if let Reason::Written { open, place } = told {
            let path = &paths[place as usize + if open { closed } else { 0 }];
            path.points.iter().for_each(|point| said += &format!(" {point}"));
        }
        said += "\n";
    }
    Ok(said)
}

/// Opens a job and lays it beside what is on the table; the first is the table.
fn lay(table: &mut Option<Vec<u32>>, job: &[u8]) -> Result<(), Refused> {
    let mut work = vec![0; WORK_WORDS];
    open(job, &mut work)?;
    match table {
        Some(first) => lay_together(first, &work)?,
        None => *table = Some(work),
    }
    Ok(())
}

fn fail(what: &str) -> ! {
    out::complain("one_table", what);
    exit(2)
}

fn refuse(what: &str, refused: Refused) -> ! {
    out::print("one_table", &format!("{what}: {refused}\n"));
    exit(1)
}

fn main() {
    let words: Vec<String> = std::env::args().skip(1).collect();
    match words.iter().map(String::as_str).collect::<Vec<_>>()[..] {
        ["--help" | "-h"] => return out::print("one_table", USAGE),
        ["--version"] => return out::print("one_table", &out::version("one_table")),
        [] | [_] => fail("two jobs or more; one_table --help says more"),
        _ => {}
    }
    let mut table = None;
    for file in &words {
        let job = std::fs::read(file).unwrap_or_else(|why| fail(&format!("cannot read {file}: {why}")));
        lay(&mut table, &job).unwrap_or_else(|refused| refuse(file, refused));
    }
    let mut table = table.unwrap_or_default();
    match step_all(&mut table).and_then(|()| said(&table)) {
        Ok(said) => out::print("one_table", &said),
        Err(refused) => refuse("together", refused),
    }
}
