// What one thread holds from case to case: buffers, the guarded Rust, the tally, and what the present case did so far.
use crate::altered::Base;
use crate::boxes;
use crate::calls::{Calls, Fault};
use crate::lent::Lent;
use crate::listed::TEXT;
use crate::tally::Tally;
use crate::tidied::Passes;
use crate::words::{KEPT, NAMES, WORDS};
use oracle::guard::Guard;

/// The length that always suffices: document 02, Ask 9.
pub const TRAY: usize = 26_112;

pub type Same = Result<(), String>;

pub fn expect(holds: bool, what: impl FnOnce() -> String) -> Same {
    if holds {
        Ok(())
    } else {
        Err(what())
    }
}

pub struct Room {
    pub guard: Guard,
    pub calls: Calls,
    pub work: Lent<u32>,
    pub tray: Lent<u8>,
    pub text: Lent<u8>,
    pub tally: Tally,
    /// Kinds `large` and `steps`: the rings as they were at their start.
    pub passes: Passes,
    /// Kind `altered`: the work space that this row of cases starts from.
    pub base: Base,
    /// The present case's job, from a place in a longer slice on; and its calls and alterations in order, for the report.
    pub paper: Vec<u8>,
    pub at: usize,
    pub trace: Vec<String>,
}

impl Room {
    pub fn new(fault: Fault) -> Room {
        Room {
            guard: Guard::default(),
            calls: Calls(fault),
            work: Lent::new(WORDS + 64, 0x5a5a_5a5a),
            tray: Lent::new(TRAY + 64, 0x5a),
            text: Lent::new(TEXT + 64, 0x5a),
            tally: Tally::default(),
            passes: Passes::default(),
            base: Base::default(),
            paper: Vec::new(),
            at: 0,
            trace: Vec::new(),
        }
    }

    /// Takes a job in, at any alignment.
    pub fn start(&mut self, job: &[u8], at: usize) {
        self.paper.clear();
        self.paper.resize(at, 0xee);
        self.paper.extend(job);
        self.at = at;
        self.trace.clear();
    }

    /// Takes another job in, in the course of a case.
    pub fn change(&mut self, job: &[u8], at: usize) {
        let trace = std::mem::take(&mut self.trace);
        self.start(job, at);
        self.trace = trace;
        self.trace.push("another job".into());
    }

    pub fn job(&self) -> &[u8] {
        &self.paper[self.at..]
    }

    /// The live block and the names.
    pub fn front(&self) -> &[u32] {
        &self.work.get()[..KEPT]
    }

    /// The words behind the names are as they were lent; each kind looks at them once, when a case is over.
    pub fn behind(&self, fill: u32) -> Same {
        expect(all_are(&self.work.get()[KEPT..], fill), || "a word behind the names is another".into())
    }

    /// A job was opened over words that were filled: no name is kept, and the words behind the names, and the boxes of no record, are as they were lent.
    pub fn freed(&self, fill: u32) -> Same {
        boxes::unused(self.work.get(), |_| fill)?;
        expect(all_zero(&self.work.get()[NAMES..KEPT]), || "opening leaves a name".into())?;
        self.behind(fill)
    }

    /// What writing out leaves: every word of the front; refused, every byte of a tray that was filled; else the paths' bytes and zeros.
    pub fn wrote(&self, before: &[u32], number: u32, fill: u8, bytes: &[u8]) -> Same {
        self.margins()?;
        expect(self.front() == before, || "writing out changes a word".into())?;
        if number != 0 {
            return expect(self.tray.get().iter().all(|b| *b == fill), || {
                "a refused writing out leaves another byte".into()
            });
        }
        let (paths, rest) = self.tray.get().split_at(bytes.len());
        expect(paths == bytes, || "the paths' bytes written out".into())?;
        expect(all_zero(rest), || "a byte past the paths".into())
    }

    /// Nothing beside the lent slices was written.
    pub fn margins(&self) -> Same {
        expect(self.work.kept(), || "a word beside the work space is written".into())?;
        expect(self.tray.kept(), || "a byte beside the tray is written".into())?;
        expect(self.text.kept(), || "a byte beside the text is written".into())
    }
}

pub fn all_zero<T: Copy + PartialEq + Default>(all: &[T]) -> bool {
    all_are(all, T::default())
}

/// Part by part, each without a branch in it: a work space is long.
pub fn all_are<T: Copy + PartialEq>(all: &[T], one: T) -> bool {
    all.chunks(128).all(|part| part.iter().fold(true, |same, x| same & (*x == one)))
}
