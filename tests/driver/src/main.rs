// The differential driver: the proved entry points against the oracle, in one process. docs/DIFFERENTIAL.md says what is compared.
mod alter;
mod altered;
mod audit_cases;
mod boxes;
mod calls;
mod canon;
mod contains;
mod damage;
mod depths;
mod drawn;
mod finish;
mod kept;
mod laid;
mod large;
mod laying;
mod lent;
mod listed;
mod mended;
mod model;
mod names;
mod open;
mod pair;
mod plain;
mod reasons;
mod room;
mod runs;
mod states;
mod steps;
mod tally;
mod tidied;
mod turned;
mod windows;
mod words;

use calls::{is_of_names, Fault, FAULTS};
use oracle::text::number;
use runs::{Kind, Run, KINDS};

const USAGE: &str =
    "usage: driver finish|large|steps|bytes|altered|canon|reasons|kept|laid|drawn|contains|mended|windows SEED COUNT THREADS [FROM], driver faults SEED COUNT, \
                     driver fault NAME KIND SEED COUNT, driver audit_cases, or driver mended_all";

fn run_of(kind: &str, seed: &str, count: &str, threads: &str, from: u64) -> Result<Run, String> {
    let kind = Kind::named(kind).ok_or(USAGE)?;
    let (seed, count, threads): (u64, u64, u64) = (number(seed)?, number(count)?, number(threads)?);
    if !(1..=64).contains(&threads) {
        return Err(format!("not a number of threads from 1 to 64: {threads}"));
    }
    Ok(Run { kind, seed, from, to: from + count, threads, fault: Fault::None })
}

/// Whether a kind is tried with a fault: the kind of its own that a call has; kind `kept` with the faults of names and copies alone, all of which it must find; kind `laid` with those of laying; kind `windows` with those
/// of windows and boxes, and of these the kinds of steps with boxes alone; every other with the rest.
fn is_tried(fault: Fault, kind: Kind) -> bool {
    let name = format!("{fault:?}");
    match () {
        // The same calls as kind `finish`, and slower: one fault shows that it sees.
        _ if kind == Kind::Drawn => fault == Fault::TrayByte,
        _ if kind == Kind::Laid || name.starts_with("Lay") => kind == Kind::Laid && name.starts_with("Lay"),
        _ if name.starts_with("Window") => kind == Kind::Windows,
        _ if name.starts_with("Box") => matches!(kind, Kind::Windows | Kind::Steps | Kind::Altered),
        _ if kind == Kind::Windows => false,
        _ if kind == Kind::Kept => is_of_names(fault),
        _ if kind == Kind::Contains || name.starts_with("Contained") => kind == Kind::Contains && name.starts_with("Contained"),
        _ if kind == Kind::Mended || name.starts_with("Mend") => kind == Kind::Mended && name.starts_with("Mend"),
        _ if ["Keep", "Back", "Drop"].iter().any(|call| name.starts_with(call)) => false,
        _ if name.starts_with("Reason") => kind == Kind::Reasons,
        _ if name.starts_with("Rewrite") => kind == Kind::Canon,
        _ => true,
    }
}

/// Each deliberate fault must be found by some kind within so many cases.
fn faults(seed: u64, count: u64) -> Result<(), String> {
    let mut missed = Vec::new();
    for &fault in FAULTS {
        let mut found = Vec::new();
        for &(name, kind) in KINDS.iter().filter(|(_, kind)| is_tried(fault, *kind)) {
            let run = Run { kind, seed, from: 0, to: count, threads: 1, fault };
            if let Err(difference) = run.all() {
                found.push(format!("{name} at case {} ({})", difference.index, difference.what));
            }
        }
        match found.is_empty() || (is_of_names(fault) && !found.iter().any(|by| by.starts_with("kept"))) {
            true => missed.push(format!("{fault:?}")),
            false => println!("fault {fault:?}: found by {}", found.join("; ")),
        }
    }
    if missed.is_empty() {
        return Ok(());
    }
    Err(format!("deliberate faults that no case found: {}", missed.join(", ")))
}

fn run(words: &[&str]) -> Result<(), String> {
    let stated = calls::work_words();
    if stated != words::WORDS as u64 {
        return Err(format!("outline_work_words answers {stated}, not {}", words::WORDS));
    }
    match words {
        ["mended_all"] => mended::all(),
        ["audit_cases"] => oracle::output(audit_cases::lines().as_bytes()),
        ["faults", seed, count] => faults(number(seed)?, number(count)?),
        ["fault", name, kind, seed, count] => {
            let fault = *FAULTS.iter().find(|fault| format!("{fault:?}") == *name).ok_or(USAGE)?;
            Run { fault, ..run_of(kind, seed, count, "2", 0)? }.report()
        }
        [kind, seed, count, threads] => run_of(kind, seed, count, threads, 0)?.report(),
        [kind, seed, count, threads, from] => run_of(kind, seed, count, threads, number(from)?)?.report(),
        // The guard starts this program again as the child in which the Rust may grow.
        ["child"] => oracle::guard::child(),
        _ => Err(USAGE.into()),
    }
}

fn main() {
    let words: Vec<String> = std::env::args().skip(1).collect();
    let words: Vec<&str> = words.iter().map(String::as_str).collect();
    if let Err(line) = run(&words) {
        eprintln!("driver: {line}");
        std::process::exit(1);
    }
}
