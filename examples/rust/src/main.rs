//! steps FILE: opens the job in FILE, steps its rings one after another in falling record order until none can be stepped, writes out, and
//! prints the paths. The order of the steps changes no path, only the order in which offcuts are listed.
mod out;

use outline::{open, paths, step, write, Refused, RECORDS, TRAY_BYTES, WORK_WORDS};
use std::process::exit;

const USAGE: &str = "usage: steps FILE

Steps the rings of the job in FILE in falling record order and prints how many steps it took and the paths.
Ends with 0; with 1 if the job is refused, and then prints its number; with 2 if it could not be run.
";

/// Steps every ring until it is done; an offcut that a step cuts off is a record of its own.
fn step_all(work: &mut [u32]) -> Result<usize, Refused> {
    let mut steps = 0;
    loop {
        let before = steps;
        for record in (0..RECORDS as u32).rev() {
            while match step(work, record) {
                Ok(()) => true,
                Err(Refused::OUT_OF_TURN) => false,
                Err(refused) => return Err(refused),
            } {
                steps += 1;
            }
        }
        if steps == before {
            return Ok(steps);
        }
    }
}

/// What is to be printed of a job.
fn run(job: &[u8]) -> Result<String, Refused> {
    let (mut work, mut tray) = (vec![0; WORK_WORDS], vec![0; TRAY_BYTES]);
    open(job, &mut work)?;
    let steps = step_all(&mut work)?;
    write(&work, &mut tray)?;
    let mut said = format!("{steps} steps\n");
    for path in paths(&tray) {
        let points: String = path.points.iter().map(|point| format!(" {point}")).collect();
        said += &format!("{}{points}\n", if path.open { "open" } else { "closed" });
    }
    Ok(said)
}

fn fail(what: &str) -> ! {
    out::complain("steps", what);
    exit(2)
}

fn main() {
    let words: Vec<String> = std::env::args().skip(1).collect();
    let file = match words.iter().map(String::as_str).collect::<Vec<_>>()[..] {
        ["--help" | "-h"] => return out::print("steps", USAGE),
        ["--version"] => return out::print("steps", &out::version("steps")),
        [file] => file,
        _ => fail("one job at a time; steps --help says more"),
    };
    let job = std::fs::read(file).unwrap_or_else(|why| fail(&format!("cannot read {file}: {why}")));
    match run(&job) {
        Ok(said) => out::print("steps", &said),
        Err(Refused(number)) => {
            out::print("steps", &format!("refused {number}\n"));
            exit(1)
        }
    }
}
