//! Before the library is built: documentation and checks need none, and a build
//! stops and says what is missing.

use std::fs;
use std::path::PathBuf;
use std::process::{Command, Output};

use clients::{run, scratch};
use program::root;

/// A folder without a library.
fn nowhere() -> PathBuf {
    let folder = scratch(env!("CARGO_TARGET_TMPDIR"), "nowhere");
    fs::create_dir_all(&folder).expect("there is room for a folder");
    folder
}

/// Cargo with these arguments, for the crate for planners and one that uses it.
fn cargo(arguments: &[&str]) -> Output {
    let mut cargo = Command::new(env!("CARGO"));
    cargo.current_dir(root().join("rust"));
    cargo.env("PLANKEEPER_LIB", nowhere()).args(arguments);
    cargo.args(["--offline", "-p", "plankeeper", "-p", "ask", "--target-dir"]);
    run(cargo.arg(nowhere().join("target")))
}

#[test]
fn what_is_said() {
    let sentence = format!(
        "the proved engine is not built: {}/libengine.a is missing; run `tools/library engine` in \
         the repository's root first, or name the folder that has it in PLANKEEPER_LIB\n",
        nowhere().display()
    );
    for (arguments, passes) in [
        (&["doc", "--no-deps"][..], true),
        (&["check"], true),
        (&["build"], false),
    ] {
        let output = cargo(arguments);
        let message = String::from_utf8_lossy(&output.stderr);
        assert_eq!(output.status.success(), passes, "{arguments:?}: {message}");
        assert!(message.contains(&sentence), "{arguments:?}: {message}");
    }
}
