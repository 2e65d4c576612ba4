// Many generated jobs: compared on several threads, or printed for other programs.
use crate::batch::write_part;
use crate::compare::Comparer;
use crate::gen;
use crate::output;
use crate::rng::Rng;
use crate::stats::Stats;
use std::io::{self, BufWriter, Write};
use std::time::Instant;

/// What compares one job and counts: the run's seed, the job's number, its bytes.
pub trait Compares: Default + Send {
    fn compare(&mut self, seed: u64, index: u64, bytes: &[u8]) -> Result<(), String>;
}

/// Jobs `from`, `from` + `stride`, .. below `count` of a seed's run; stops at the first disagreement.
fn share<T: Compares>(seed: u64, from: u64, stride: u64, count: u64) -> Result<T, String> {
    let mut comparer = T::default();
    let mut index = from;
    while index < count {
        let told = |what: String| format!("disagreement at job {index} of seed {seed}: {what}");
        comparer.compare(seed, index, &gen::job(seed, index)).map_err(told)?;
        index += stride;
    }
    Ok(comparer)
}

/// The first `count` jobs of a seed on so many threads: each thread's comparer, and a line that says how long it took.
pub fn all<T: Compares>(seed: u64, count: u64, threads: u64) -> Result<(Vec<T>, String), String> {
    if !(1..=64).contains(&threads) {
        return Err(format!("not a number of threads from 1 to 64: {threads}"));
    }
    let start = Instant::now();
    let parts: Result<Vec<T>, String> = std::thread::scope(|scope| {
        let shares: Vec<_> = (0..threads).map(|t| scope.spawn(move || share::<T>(seed, t, threads, count))).collect();
        let broke = |_| Err("a run of the comparison broke off".to_string());
        shares.into_iter().map(|part| part.join().unwrap_or_else(broke)).collect()
    });
    let parts = parts?;
    let seconds = start.elapsed().as_secs_f64();
    let rate = count as f64 / seconds;
    Ok((parts, format!("seed {seed}: {count} jobs, no disagreement, {seconds:.1} s, {rate:.0} jobs a second\n")))
}

impl Compares for Comparer {
    fn compare(&mut self, seed: u64, index: u64, bytes: &[u8]) -> Result<(), String> {
        self.job(bytes, &mut Rng::of(!seed, index))
    }
}

/// Compares the jobs of one seed; `least` is how often each refusal and event must come up in every 100,000 jobs.
pub fn compare(seed: u64, count: u64, threads: u64, least: u64) -> Result<(), String> {
    let (parts, head) = all::<Comparer>(seed, count, threads)?;
    let mut stats = Stats::default();
    parts.iter().for_each(|part| stats.merge(&part.stats));
    output((head + &stats.print()).as_bytes())?;
    let rare = stats.rare(least * count / 100_000);
    if rare.is_empty() {
        Ok(())
    } else {
        Err(format!("too seldom among {count} jobs: {}", rare.join("; ")))
    }
}

/// Length-prefixed jobs of one seed's run, for a batch.
pub fn generate(seed: u64, count: u64) -> Result<(), String> {
    let mut output = BufWriter::new(io::stdout().lock());
    for index in 0..count {
        write_part(&mut output, &gen::job(seed, index))?;
    }
    output.flush().map_err(|why| format!("cannot write: {why}"))
}
