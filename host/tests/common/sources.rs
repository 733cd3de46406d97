//! The proved crates' sources, as text.

use std::fs;
use std::path::{Path, PathBuf};

/// The Rattle files below a folder, but for what is built.
pub fn sources(folder: &Path) -> Vec<PathBuf> {
    let mut found = Vec::new();
    for entry in fs::read_dir(folder).unwrap() {
        let path = entry.unwrap().path();
        if path.is_dir() && path.ends_with("out") {
            continue;
        } else if path.is_dir() {
            found.extend(sources(&path));
        } else if path.extension().is_some_and(|e| e == "rt") {
            found.push(path);
        }
    }
    found
}

/// The lines of a source, without comments.
pub fn code(text: &str) -> Vec<&str> {
    text.lines()
        .map(|line| line.split("//").next().unwrap().trim_end())
        .collect()
}
