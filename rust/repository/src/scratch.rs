//! Scripts that stand in for programs, and where they stand.

use std::ops::Deref;
use std::os::unix::fs::PermissionsExt;
use std::path::{Path, PathBuf};
use std::sync::{Mutex, MutexGuard};
use std::{env, fs, process};

/// Writes a script with these lines, to be run.
pub fn put_script(file: &Path, lines: &str) {
    fs::write(file, format!("#!/usr/bin/env bash\n{lines}\n")).expect("it can be written");
    fs::set_permissions(file, fs::Permissions::from_mode(0o755)).expect("it can be run");
}

/// A folder that is gone when this is. It lies outside of the repository, below
/// which `rt ci` stops at links and at a second list of crates.
pub struct Scratch(PathBuf);

impl Scratch {
    /// An empty one; no other test of the same program has the name.
    pub fn new(name: &str) -> Self {
        let folder = env::temp_dir().join(format!("plankeeper-{}-{name}", process::id()));
        fs::create_dir(&folder).expect("there is room for a folder");
        Scratch(folder)
    }
}

impl Deref for Scratch {
    type Target = Path;

    fn deref(&self) -> &Path {
        &self.0
    }
}

impl Drop for Scratch {
    fn drop(&mut self) {
        let _ = fs::remove_dir_all(&self.0);
    }
}

/// One test at a time: a script that is being written cannot be run, and whoever
/// starts another program may hold it open.
pub fn alone() -> MutexGuard<'static, ()> {
    static ALONE: Mutex<()> = Mutex::new(());
    ALONE
        .lock()
        .unwrap_or_else(|poisoned| poisoned.into_inner())
}
