//! Ours beside what the Rust gives.
use oracle::core::{Path64, Paths64};
use outline::Path;

type At = (i64, i64, i64);

fn theirs(path: &Path64) -> Vec<At> {
    path.iter().map(|p| (p.x, p.y, p.z)).collect()
}

fn ours(path: &Path) -> Vec<At> {
    path.points.iter().map(|p| (p.x.into(), p.y.into(), p.z.into())).collect()
}

/// Whether outlines are the Rust's lists, point by point and in order; else the first that is not.
pub fn same(outlines: &[Path], closed: &Paths64, open: &Paths64) -> Result<(), String> {
    for (word, is_open, list) in [("closed", false, closed), ("open", true, open)] {
        let mine: Vec<&Path> = outlines.iter().filter(|path| path.open == is_open).collect();
        let differs = |k: &usize| mine.get(*k).map(|path| ours(path)) != list.get(*k).map(theirs);
        if let Some(k) = (0..mine.len().max(list.len())).find(differs) {
            return Err(format!("{word} path {k} differs"));
        }
    }
    Ok(())
}
