// Which shape lies in which, from document 02, Ask 12: the real `path2_contains_path1` on every ordered pair of closed paths.
use crate::core::{Path64, Point64};
use crate::engine_fns::path2_contains_path1;
use crate::real::Pt;

/// A path as the Rust has it.
pub fn path(points: &[Pt]) -> Path64 {
    points.iter().map(|&(x, y, z)| Point64::new_z(x, y, z)).collect()
}

/// What a rule says of each ordered pair, by rising first place and then second; no path is tested against itself.
pub fn pairs(closed: &[Vec<Pt>], mut rule: impl FnMut(&Path64, &Path64) -> bool) -> Vec<u8> {
    let paths: Vec<Path64> = closed.iter().map(|points| path(points)).collect();
    let mut bytes = Vec::with_capacity(paths.len() * paths.len().saturating_sub(1));
    for (i, path1) in paths.iter().enumerate() {
        let others = paths.iter().enumerate().filter(|(j, _)| *j != i);
        bytes.extend(others.map(|(_, path2)| rule(path1, path2) as u8));
    }
    bytes
}

/// 1 for yes and 0 for no, with the pair's first as path1.
pub fn answers(closed: &[Vec<Pt>]) -> Vec<u8> {
    pairs(closed, path2_contains_path1)
}
