// The guard: on some accepted jobs the Rust goes on for ever and its memory grows (docs/DIFFERENCES.md). Where the model finds
// the store full, the real run is therefore made in a child process, which ends itself once one list grows past a limit.
use crate::batch::{read_part, write_part};
use crate::job::Job;
use crate::real;
use std::alloc::{GlobalAlloc, Layout, System};
use std::io::{self, Read, Write};
use std::process::{Child, Command, Stdio};
use std::sync::atomic::{AtomicUsize, Ordering};

/// The longest single piece of memory that a child may ask for: about 32,000 of the Rust's points, where 2,048 are allowed.
const CHILD_LIMIT: usize = 2 << 20;
/// The same for every other run; far above what a job needs, so that a wrong model ends in a message, not in a full machine.
const LIMIT: usize = 1 << 28;
const GREW_LINE: &[u8] =
    b"oracle: a list grows past 256 MB: the model finds room where the real run has none, or the input is too long\n";
/// The status that a child ends itself with.
pub const GREW: i32 = 77;
const PANICKED: i32 = 101;

struct Guarded;

static CEILING: AtomicUsize = AtomicUsize::new(LIMIT);

#[global_allocator]
static GUARDED: Guarded = Guarded;

extern "C" {
    fn _exit(status: i32) -> !;
}

/// Ends the process at a request beyond the ceiling, without unwinding; a child does so silently.
fn allow(size: usize) {
    let ceiling = CEILING.load(Ordering::Relaxed);
    if size > ceiling {
        if ceiling == LIMIT {
            let _ = io::stderr().write_all(GREW_LINE);
        }
        unsafe { _exit(GREW) }
    }
}

// The system's allocator with a ceiling on each request.
unsafe impl GlobalAlloc for Guarded {
    unsafe fn alloc(&self, layout: Layout) -> *mut u8 {
        allow(layout.size());
        System.alloc(layout)
    }

    unsafe fn dealloc(&self, at: *mut u8, layout: Layout) {
        System.dealloc(at, layout)
    }

    unsafe fn realloc(&self, at: *mut u8, layout: Layout, size: usize) -> *mut u8 {
        allow(size);
        System.realloc(at, layout, size)
    }
}

/// What a guarded run came to.
#[derive(Clone, Copy, Debug, PartialEq)]
pub enum Ran {
    /// It ended with these counts of points and records.
    Ended(usize, usize),
    /// It grew past the child's limit.
    Grew,
}

/// From here on this process ends itself when it grows. A panic ends it at once with its message: printing a trace takes more
/// memory than the limit, and would then look like growth.
pub fn limit() {
    std::panic::set_hook(Box::new(|why| {
        eprintln!("{why}");
        unsafe { _exit(PANICKED) }
    }));
    CEILING.store(CHILD_LIMIT, Ordering::Relaxed);
}

/// The child's side: a job in, both counts out, until the input ends.
pub fn child() -> Result<(), String> {
    limit();
    let (mut input, mut output) = (io::stdin().lock(), io::stdout().lock());
    while let Some(bytes) = read_part(&mut input)? {
        let job = crate::read::read(&bytes).map_err(|number| format!("the job is refused with {number}"))?;
        let (mut base, _) = real::open(&job).map_err(|number| format!("the job is refused with {number}"))?;
        real::clean_all(&mut base);
        let mut counts = (base.outpt_arena.len() as u32).to_le_bytes().to_vec();
        counts.extend((base.outrec_list.len() as u32).to_le_bytes());
        write_part(&mut output, &counts)?;
        output.flush().map_err(|why| why.to_string())?;
    }
    Ok(())
}

/// A child that stays up from job to job and is replaced when it ended itself.
#[derive(Default)]
pub struct Guard {
    child: Option<Child>,
}

impl Guard {
    pub fn run(&mut self, job: &Job) -> Ran {
        if self.child.is_none() {
            let exe = std::env::current_exe().expect("this program's own path");
            let child = Command::new(exe).arg("child").stdin(Stdio::piped()).stdout(Stdio::piped()).spawn();
            self.child = Some(child.expect("a child of this program starts"));
        }
        let child = self.child.as_mut().unwrap();
        let input = child.stdin.as_mut().unwrap();
        write_part(input, &job.bytes()).expect("the child takes a job");
        input.flush().expect("the child takes a job");
        let mut counts = [0; 12];
        if child.stdout.as_mut().unwrap().read_exact(&mut counts).is_ok() {
            let number = |at: usize| u32::from_le_bytes(counts[at..at + 4].try_into().unwrap()) as usize;
            return Ran::Ended(number(4), number(8));
        }
        let status = self.child.take().unwrap().wait().expect("the child ends");
        assert_eq!(status.code(), Some(GREW), "the child ended otherwise than by its guard");
        Ran::Grew
    }
}

impl Drop for Guard {
    fn drop(&mut self) {
        if let Some(mut child) = self.child.take() {
            drop(child.stdin.take());
            let _ = child.wait();
        }
    }
}
