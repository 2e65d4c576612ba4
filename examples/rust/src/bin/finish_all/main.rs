//! finish_all DIR: finishes every job below a folder on all cores, one work space a thread, and writes a listing beside each job.
mod folder;
#[path = "../../out.rs"]
mod out;
mod tally;

use outline::{list, Refused, JOB_BYTES, RATE, TEXT_BYTES, TRAY_BYTES, WORK_WORDS};
use std::io::{IsTerminal, Read, Write};
use std::path::{Path, PathBuf};
use std::process::exit;
use std::sync::atomic::{AtomicUsize, Ordering};
use std::time::{Duration, Instant};
use tally::Tally;

const USAGE: &str = "usage: finish_all DIR [--rate N] [--threads N]

Finishes every file NAME.job below DIR, on all cores or on N, and writes its listing, as ./cutlist prints it, to NAME.list beside it.
--rate N: 1 to 1000 cents for each square decimetre; each listing then has the charge.
Says at the end how many were accepted, and how many refused with which word; each refused file is named on standard error.
--version says which version this is.
Ends with 0 if all were accepted, with 1 if some were refused or a file could not be read or written, with 2 if it could not be run.
";

fn fail(what: &str) -> ! {
    out::complain("finish_all", what);
    exit(2)
}

struct Asked {
    folder: PathBuf,
    threads: usize,
    /// Cents for a square decimetre; 0 is none.
    rate: u32,
}

fn asked() -> Asked {
    let cores = std::thread::available_parallelism().map_or(1, usize::from);
    let (mut folder, mut threads, mut rate) = (None, cores, 0);
    let mut words = std::env::args().skip(1);
    while let Some(word) = words.next() {
        match word.as_str() {
            "--help" | "-h" => {
                out::print("finish_all", USAGE);
                exit(0)
            }
            "--version" => {
                out::print("finish_all", &out::version("finish_all"));
                exit(0)
            }
            "--rate" => match words.next().and_then(|word| word.parse().ok()) {
                Some(number @ 1..=RATE) => rate = number,
                _ => fail("--rate needs a number from 1 to 1000"),
            },
            "--threads" => match words.next().and_then(|word| word.parse().ok()) {
                Some(number @ 1..=1024) => threads = number,
                _ => fail("--threads needs a number from 1 to 1024"),
            },
            option if option.starts_with("--") => fail(&format!("no such option: {option}")),
            name if folder.is_none() => folder = Some(PathBuf::from(name)),
            _ => fail("one folder at a time"),
        }
    }
    match folder {
        Some(folder) => Asked { folder, threads, rate },
        None => fail("no folder is given; finish_all --help says more"),
    }
}

/// The answer that a listing says.
fn answer(listing: &[u8]) -> Result<(), Refused> {
    match listing.strip_prefix(b"refused ") {
        None => Ok(()),
        Some(rest) => Err(Refused(String::from_utf8_lossy(rest).trim().parse().expect("a refusal's number"))),
    }
}

/// What a thread keeps from job to job: nothing but room.
struct Room {
    job: Vec<u8>,
    work: Vec<u32>,
    tray: Vec<u8>,
    text: Vec<u8>,
    rate: u32,
}

impl Room {
    fn new(rate: u32) -> Room {
        Room { job: Vec::new(), work: vec![0; WORK_WORDS], tray: vec![0; TRAY_BYTES], text: vec![0; TEXT_BYTES], rate }
    }

    /// Finishes the job in a file and writes its listing.
    fn finish(&mut self, file: &Path) -> std::io::Result<Result<(), Refused>> {
        self.job.clear();
        std::fs::File::open(file)?.take(JOB_BYTES as u64).read_to_end(&mut self.job)?;
        let (work, tray) = (&mut self.work, &mut self.tray);
        let listing = list(&self.job, work, tray, self.rate, &mut self.text).expect("room for the listing");
        std::fs::write(file.with_extension("list"), listing)?;
        Ok(answer(listing))
    }
}

/// One thread's share: the next job that nobody has taken, until there is none.
fn share(files: &[PathBuf], rate: u32, next: &AtomicUsize, done: &AtomicUsize) -> Tally {
    let (mut room, mut tally) = (Room::new(rate), Tally::default());
    while let Some(file) = files.get(next.fetch_add(1, Ordering::Relaxed)) {
        match room.finish(file) {
            Ok(answer) => tally.count(file, answer),
            Err(why) => tally.fail(format!("{}: {why}", file.display())),
        }
        done.fetch_add(1, Ordering::Relaxed);
    }
    tally
}

/// A bar on a terminal, until all are done.
fn bar(all: usize, done: &AtomicUsize) {
    if !std::io::stderr().is_terminal() {
        return;
    }
    loop {
        let count = done.load(Ordering::Relaxed);
        let filled = 40 * count / all;
        let mut err = std::io::stderr().lock();
        let _ = write!(err, "\r[{}{}] {count} of {all}", "#".repeat(filled), "-".repeat(40 - filled));
        if count == all {
            let _ = write!(err, "\r\x1b[K");
            break;
        }
        drop(err);
        std::thread::sleep(Duration::from_millis(80));
    }
}

fn finish_all(files: &[PathBuf], threads: usize, rate: u32) -> Tally {
    let (next, done) = (AtomicUsize::new(0), AtomicUsize::new(0));
    std::thread::scope(|scope| {
        let shares: Vec<_> = (0..threads).map(|_| scope.spawn(|| share(files, rate, &next, &done))).collect();
        bar(files.len(), &done);
        shares.into_iter().map(|share| share.join().expect("a thread's share")).fold(Tally::default(), Tally::with)
    })
}

fn main() {
    let Asked { folder, threads, rate } = asked();
    let files = folder::jobs(&folder).unwrap_or_else(|why| fail(&format!("cannot read {}: {why}", folder.display())));
    if files.is_empty() {
        fail(&format!("no file NAME.job below {}", folder.display()));
    }
    let threads = threads.min(files.len());
    let began = Instant::now();
    let tally = finish_all(&files, threads, rate);
    let seconds = began.elapsed().as_secs_f64();
    tally.complaints().iter().for_each(|what| out::complain("finish_all", what));
    let speed = files.len() as f64 / seconds.max(1e-9);
    let end = if threads == 1 { "" } else { "s" };
    let took = format!("{seconds:.2} seconds, {speed:.0} jobs a second, {threads} thread{end}");
    out::print("finish_all", &format!("{}{took}\n", tally.summary()));
    exit(if tally.all_accepted() { 0 } else { 1 })
}
