//! The jobs below a folder, in the order of their names.
use std::io::Result;
use std::path::{Path, PathBuf};

/// Folders that are links are not followed, so this ends.
fn collect(folder: &Path, files: &mut Vec<PathBuf>) -> Result<()> {
    for entry in std::fs::read_dir(folder)? {
        let entry = entry?;
        let path = entry.path();
        if entry.file_type()?.is_dir() {
            collect(&path, files)?;
        } else if path.extension().is_some_and(|extension| extension == "job") && !path.is_dir() {
            files.push(path);
        }
    }
    Ok(())
}

pub fn jobs(folder: &Path) -> Result<Vec<PathBuf>> {
    let mut files = Vec::new();
    collect(folder, &mut files)?;
    files.sort();
    Ok(files)
}
