// What the Rust does by itself on a job that passed rows 1 to 8, without rows 9 and 10; for docs/DIFFERENCES.md.
use crate::answer::Answer;
use crate::guard::{limit, GREW};
use crate::{check, read, real, show};
use std::io::Write;
use std::process::{Command, Stdio};

fn opened(bytes: &[u8]) -> Result<crate::engine::ClipperBase, String> {
    let refused = |number: u8| format!("the job is refused with {number}");
    let job = read::read(bytes).map_err(refused)?;
    check::check(&job).map_err(refused)?;
    Ok(real::open_untested(&job))
}

/// The rings after the Rust's own joins, then its listing, or that it goes on for ever, or how it breaks off.
pub fn raw(bytes: &[u8]) -> Result<String, String> {
    let rings = show::rings_of(&real::look(&opened(bytes)?));
    let exe = std::env::current_exe().map_err(|why| why.to_string())?;
    let mut command = Command::new(exe);
    let child = command.arg("raw-paths").stdin(Stdio::piped()).stdout(Stdio::piped()).stderr(Stdio::piped());
    let mut child = child.spawn().map_err(|why| why.to_string())?;
    child.stdin.take().unwrap().write_all(bytes).map_err(|why| why.to_string())?;
    let ended = child.wait_with_output().map_err(|why| why.to_string())?;
    let told = match ended.status.code() {
        Some(0) => String::from_utf8_lossy(&ended.stdout).into_owned(),
        Some(GREW) => "goes on for ever: its memory grew past the guard\n".into(),
        _ => {
            let lines = String::from_utf8_lossy(&ended.stderr).into_owned();
            let why = lines.lines().find(|line| line.contains("index out of bounds")).unwrap_or("no word of why");
            format!("breaks off: {why}\n")
        }
    };
    Ok(rings + &told)
}

/// The child's side of `raw`.
pub fn paths(bytes: &[u8]) -> Result<String, String> {
    let base = opened(bytes)?;
    limit();
    let mut copy = real::copy(&base);
    real::clean_all(&mut copy);
    let (points, records) = (copy.outpt_arena.len(), copy.outrec_list.len());
    let reversed = base.reverse_solution;
    let (closed, open) = real::paths(base);
    Ok(format!("ends with points {points} records {records}\n{}", Answer::Paths { closed, open, reversed }.listing()))
}
