//! The repository's files.

use std::fs;
use std::path::{Path, PathBuf};

/// Folders with what is built, by cargo and by rt, and git's own.
const OTHERS: [&str; 3] = ["target", "out", ".git"];

/// All files under the folder, in order, but for what is built.
pub fn files(folder: &Path) -> Vec<PathBuf> {
    let mut found = Vec::new();
    gather(folder, &mut found);
    found.sort();
    found
}

fn gather(folder: &Path, found: &mut Vec<PathBuf>) {
    let entries = fs::read_dir(folder).expect("the folder can be read");
    for entry in entries {
        let path = entry.expect("the folder can be read").path();
        let name = path.file_name().expect("an entry has a name");
        if !path.is_dir() {
            found.push(path);
        } else if OTHERS.iter().all(|other| name != *other) {
            gather(&path, found);
        }
    }
}

/// Those of the files that have this ending and this folder right above them.
pub fn with_ending<'a>(
    files: &'a [PathBuf],
    folder: &'a str,
    ending: &'a str,
) -> impl Iterator<Item = &'a PathBuf> {
    files.iter().filter(move |file| {
        let above = file.parent().and_then(Path::file_name);
        above.is_some_and(|name| name == folder)
            && file.extension().is_some_and(|found| found == ending)
    })
}

/// How many lines these files have together.
pub fn lines_of<'a>(files: impl Iterator<Item = &'a PathBuf>) -> usize {
    let counted = files.map(|file| {
        let text = fs::read_to_string(file).expect("the file can be read");
        text.lines().count()
    });
    counted.sum()
}

/// The version of Rust that the workspace of the repository in this folder asks
/// for.
pub fn rust_version(root: &Path) -> String {
    let manifest = fs::read_to_string(root.join("rust/Cargo.toml")).expect("it can be read");
    let mut lines = manifest.lines();
    let wanted = lines.find_map(|line| line.strip_prefix("rust-version = "));
    let wanted = wanted.expect("the workspace asks for a version");
    wanted.trim_matches('"').to_owned()
}
