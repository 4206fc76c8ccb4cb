//! What is stored in a folder: NAME.in, and what must be printed of it in NAME.out.

use super::Compared;
use crate::fuzz::other::Other;
use std::fs;
use std::io;
use std::path::{Path, PathBuf};

pub fn compare(folder: &Path, command: &[&str]) -> io::Result<Vec<Compared>> {
    let other = Other::new(command);
    let mut inputs = inputs(folder)?;
    inputs.sort();
    let compare = |path: PathBuf| {
        let printed = other.print(&fs::read(&path)?)?;
        let name = path.file_stem().unwrap_or_default().to_string_lossy();
        let stored = fs::read(path.with_extension("out"))?;
        Ok(Compared::of(&name, &stored, &printed))
    };
    inputs.into_iter().map(compare).collect()
}

fn inputs(folder: &Path) -> io::Result<Vec<PathBuf>> {
    let mut inputs = Vec::new();
    for entry in fs::read_dir(folder)? {
        let path = entry?.path();
        if path.extension().is_some_and(|extension| extension == "in") {
            inputs.push(path);
        }
    }
    Ok(inputs)
}
