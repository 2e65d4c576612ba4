//! How many jobs were accepted, and how many refused with which number.
use outline::Refused;
use std::collections::BTreeMap;
use std::path::{Path, PathBuf};

#[derive(Default)]
pub struct Tally {
    accepted: usize,
    /// The files refused with each number.
    refused: BTreeMap<u32, Vec<PathBuf>>,
    /// What could not be read or written, and why.
    failed: Vec<String>,
}

impl Tally {
    pub fn count(&mut self, file: &Path, answer: Result<(), Refused>) {
        match answer {
            Ok(()) => self.accepted += 1,
            Err(Refused(number)) => self.refused.entry(number).or_default().push(file.to_path_buf()),
        }
    }

    pub fn fail(&mut self, what: String) {
        self.failed.push(what);
    }

    pub fn with(mut self, other: Tally) -> Tally {
        self.accepted += other.accepted;
        other.refused.into_iter().for_each(|(number, files)| self.refused.entry(number).or_default().extend(files));
        self.failed.extend(other.failed);
        self
    }

    pub fn all_accepted(&self) -> bool {
        self.refused.is_empty() && self.failed.is_empty()
    }

    /// A line for each file that was refused, by the refusals' numbers and then by name, then one for each that failed.
    pub fn complaints(&self) -> Vec<String> {
        let mut lines = Vec::new();
        for (number, files) in &self.refused {
            let mut files: Vec<_> = files.iter().collect();
            files.sort();
            let word = Refused(*number).word();
            lines.extend(files.iter().map(|file| format!("{}: refused {number}, {word}", file.display())));
        }
        lines.extend(self.failed.iter().cloned());
        lines
    }

    /// A line for all, then a line for each refusal that came up.
    pub fn summary(&self) -> String {
        let refused: usize = self.refused.values().map(Vec::len).sum();
        let (accepted, failed) = (self.accepted, self.failed.len());
        let mut out =
            format!("{} jobs: {accepted} accepted, {refused} refused, {failed} failed\n", accepted + refused + failed);
        for (number, files) in &self.refused {
            out += &format!("{:8}  refused {number} {}\n", files.len(), Refused(*number).word());
        }
        out
    }
}
