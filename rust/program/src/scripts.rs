//! The scripts for people as processes, and what a process has told.

use std::path::Path;
use std::process::{Command, Output, Stdio};
use std::sync::Mutex;

use crate::{fed, root};

/// The script of this name in the repository's root, run in this folder with
/// these arguments and these bytes as its standard input. What it builds is built
/// by one at a time.
pub fn script(name: &str, folder: &Path, arguments: &[&str], input: &[u8]) -> Output {
    static BUILDING: Mutex<()> = Mutex::new(());
    let _alone = BUILDING.lock();
    let mut command = Command::new(root().join(name));
    command.args(arguments).current_dir(folder);
    command.stdin(Stdio::piped());
    command.stdout(Stdio::piped()).stderr(Stdio::piped());
    fed(command.spawn().expect("the script starts"), input)
}

/// The exit status of a process, what it has printed and what it has said.
pub fn told(output: &Output) -> (Option<i32>, &str, &str) {
    let text = str::from_utf8(&output.stdout).expect("it prints UTF-8");
    let message = str::from_utf8(&output.stderr).expect("messages are UTF-8");
    (output.status.code(), text, message)
}
