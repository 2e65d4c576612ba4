//! What the programs print. A pipe that its reader closes takes no more, and nothing else changes; what else cannot be written is said, and ends the program with 2.
use std::io::{ErrorKind, Write};
use std::process::exit;

/// A line on standard error; if that takes nothing, nobody listens.
pub fn complain(program: &str, what: &str) {
    let _ = writeln!(std::io::stderr(), "{program}: {what}");
}

/// Prints a text to standard output, all of it at once.
pub fn print(program: &str, text: &str) {
    let mut out = std::io::stdout().lock();
    match out.write_all(text.as_bytes()).and_then(|()| out.flush()) {
        Err(why) if why.kind() != ErrorKind::BrokenPipe => {
            complain(program, &format!("cannot write to standard output: {why}"));
            exit(2)
        }
        _ => {}
    }
}

/// What --version prints.
pub fn version(program: &str) -> String {
    format!("{program} {}\n", env!("CARGO_PKG_VERSION"))
}
