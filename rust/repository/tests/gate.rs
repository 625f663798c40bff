//! `.ci/run` looks for what it needs before it proves anything, and so do the
//! scripts for people: in a folder of the tests' own stand the programs that they
//! find. Then it goes by what the kit says.

use std::env;
use std::os::unix::fs::symlink;
use std::path::Path;
use std::process::{Command, Output};

use program::{root, told};
use repository::{Scratch, alone, put_script, rust_version};

/// What the scripts find of the system.
const COMMON: [&str; 11] = [
    "basename", "bash", "cat", "dirname", "env", "grep", "mktemp", "rm", "sed", "sort", "tail",
];

/// A folder with these and nothing else.
fn folder(name: &str) -> Scratch {
    let folder = Scratch::new(name);
    let path = env::var_os("PATH").expect("there is a PATH");
    for tool in COMMON {
        let mut places = env::split_paths(&path).map(|place| place.join(tool));
        let found = places
            .find(|place| place.is_file())
            .expect("the system has it");
        symlink(found, folder.join(tool)).expect("it can be linked");
    }
    folder
}

/// The script, with nothing on its PATH but what the folder has.
fn run(script: &str, folder: &Path) -> Output {
    let mut command = Command::new(root().join(script));
    let output = command.current_dir(folder).env("PATH", folder).output();
    output.expect("the script can be run as it is")
}

/// What is said of cargo where it is missing.
fn no_cargo() -> String {
    let version = rust_version(root());
    format!("'cargo' is not on the PATH; it comes with Rust, from version {version} on")
}

#[test]
fn all_that_is_missing_is_said_at_once() {
    let _alone = alone();
    let compiler = "it comes with a C and C++ compiler with binutils";
    let expected = [
        "'rt' is not on the PATH; it comes with the Rattle kit".to_owned(),
        no_cargo(),
        format!("'cc' is not on the PATH; {compiler}"),
        format!("'c++' is not on the PATH; {compiler}"),
        format!("'nm' is not on the PATH; {compiler}"),
    ];
    let expected: String = expected
        .iter()
        .map(|line| format!("gate: {line}\n"))
        .collect();
    let output = run(".ci/run", &folder("bare"));
    assert_eq!(told(&output), (Some(1), "", expected.as_str()));
}

/// With everything there it begins, with a kit that does nothing but say so.
#[test]
fn versions_of_cargo() {
    let _alone = alone();
    let folder = folder("versions");
    for tool in ["cc", "c++", "nm"] {
        put_script(&folder.join(tool), "");
    }
    put_script(&folder.join("rt"), "echo \"rt $*\" >&2; exit 9");
    let wanted = rust_version(root());
    let old = format!("gate: 'cargo' is too old: it has to be of version {wanted} or newer\n");
    let (old, begun) = ((Some(1), "", old.as_str()), (Some(9), "rt ci\n", ""));
    for (version, expected) in [
        ("cargo 1.87.0 (0123456 2025-05-01)", old),
        ("cargo 1.9.0", old),
        ("cargo 0.99.0", old),
        ("nothing like a version", old),
        (&format!("cargo {wanted}.0 (0123456 2025-06-01)"), begun),
        ("cargo 1.1000.0-nightly (0123456 2026-11-01)", begun),
        ("cargo 2.0.0", begun),
    ] {
        put_script(&folder.join("cargo"), &format!("echo '{version}'"));
        let output = run(".ci/run", &folder);
        assert_eq!(told(&output), expected, "{version}");
    }
}

/// What the kit says of a crate, and of an edit that can be applied no more.
const PROVED: &str = "== low\nfn low::echo: proved\nrt: low proved\n";
const BAD: &str = "rt: must-fail low/adds.edit: BAD EDIT: there is no file src/adds.rt\n";

/// It ends where the kit fails, with the kit's status and all that it says.
#[test]
fn what_is_not_proved() {
    let said = format!("{PROVED}rt: FAILED: low/adds.edit\n1 passed, 1 failed\n");
    for status in [1, 2] {
        assert_eq!(told_of(&said, status), (Some(status), said.clone()));
    }
}

/// It ends where an edit is bad, or where it cannot see whether one is; the last
/// line is not the kit's.
#[test]
fn edits_that_are_bad() {
    let ok =
        |edits: &str| format!("rt: ok; handles allowed: none; must-fail edits: {edits}; 1 of 1");
    for (line, expected) in [
        (
            ok("3 refused, 1 bad"),
            "gate: must-fail edits are bad, as told above",
        ),
        (
            ok("3 refused, 2 of them only by a limit, 12 bad"),
            "gate: must-fail edits are bad, as told above",
        ),
        ("rt: none".to_owned(), "gate: rt has no line 'rt: ok'"),
    ] {
        let said = format!("{PROVED}{BAD}{line}\n4 passed, 0 failed\n");
        let shown = format!("rt: low proved\n{BAD}{line}\n{expected}\n");
        assert_eq!(told_of(&said, 0), (Some(1), shown));
    }
    let said = format!("{PROVED}{}\n4 passed, 1 failed\n", ok("3 refused"));
    let shown = format!("rt: low proved\n{}\n4 passed, 1 failed\n", ok("3 refused"));
    assert_eq!(told_of(&said, 0), (Some(1), shown));
}

/// How the gate ends, and what it prints, where the kit says this.
fn told_of(said: &str, status: i32) -> (Option<i32>, String) {
    let _alone = alone();
    let folder = folder("verdicts");
    for tool in ["cc", "c++", "nm"] {
        put_script(&folder.join(tool), "");
    }
    put_script(&folder.join("cargo"), "echo 'cargo 2.0.0'");
    std::fs::write(folder.join("said"), said).expect("it can be written");
    put_script(
        &folder.join("rt"),
        "[[ $* == ci ]] && cat \"${0%/*}/said\"\nexit STATUS"
            .replace("STATUS", &status.to_string())
            .as_str(),
    );
    let output = run(".ci/run", &folder);
    let (status, text, message) = told(&output);
    assert_eq!(message, "");
    (status, text.to_owned())
}

#[test]
fn scripts_for_people() {
    let _alone = alone();
    let folder = folder("people");
    for script in ["list", "show"] {
        let expected = format!("{script}: {}\n", no_cargo());
        let output = run(script, &folder);
        assert_eq!(told(&output), (Some(1), "", expected.as_str()));
    }
}
