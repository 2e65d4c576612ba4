// How often each refusal and each event came up, and how that is printed.

/// Everything that is counted, in the order it is printed.
pub const NAMES: [&str; 43] = [
    "accepted",
    "refused 1 torn",
    "refused 2 strange",
    "refused 3 crowded",
    "refused 4 off the table",
    "refused 5 no such",
    "refused 6 loose",
    "refused 7 muddled",
    "refused 8 open edge",
    "refused 9 knot",
    "refused 10 full",
    "refused 11 small tray",
    "refused 12 out of turn",
    "full: points, while joins are made from segments",
    "full: records, at a join that splits",
    "full: points, at a step",
    "full: records, at a step",
    "full: the Rust ends past the limits",
    "full: the Rust grows past the guard",
    "join made from segments",
    "join splits a ring",
    "join merges two rings",
    "drop",
    "discard at the validity test",
    "discard after a drop",
    "discard at the split's area test",
    "done at the triangle test",
    "doubling that goes on",
    "doubling that ends the loop",
    "cut, new ring point, offcut",
    "cut, new ring point, no offcut",
    "cut, no new ring point, offcut",
    "cut, no new ring point, no offcut",
    "cut that leaves two points",
    "cut that takes the loop's start away",
    "closed path",
    "open path",
    "path that drops equal neighbours",
    "small path that stays, its ring having more points",
    "copy by a join, of a point with a depth",
    "doubling of a point with a depth",
    "crossing that drops onto an end with a depth",
    "path that drops an equal neighbour of another depth",
];

#[derive(Clone)]
pub struct Stats {
    pub jobs: u64,
    counts: [u64; NAMES.len()],
}

impl Default for Stats {
    fn default() -> Stats {
        Stats { jobs: 0, counts: [0; NAMES.len()] }
    }
}

impl Stats {
    pub fn add(&mut self, name: &str, times: u64) {
        let at = NAMES.iter().position(|known| *known == name).expect("a name of the list");
        self.counts[at] += times;
    }

    pub fn refused(&mut self, number: u8) {
        self.counts[number as usize] += 1;
    }

    pub fn merge(&mut self, other: &Stats) {
        self.jobs += other.jobs;
        for (mine, theirs) in self.counts.iter_mut().zip(other.counts) {
            *mine += theirs;
        }
    }

    /// What came up less often than `least` times.
    pub fn rare(&self, least: u64) -> Vec<&'static str> {
        NAMES.iter().zip(self.counts).filter(|(_, count)| *count < least).map(|(name, _)| *name).collect()
    }

    /// The names of what came up.
    pub fn seen(&self) -> Vec<&'static str> {
        NAMES.iter().zip(self.counts).filter(|(_, count)| *count > 0).map(|(name, _)| *name).collect()
    }

    pub fn print(&self) -> String {
        NAMES.iter().zip(self.counts).map(|(name, count)| format!("{count:>10}  {name}\n")).collect()
    }
}
