//! What `./list` says while something is proved: which crate, of how many. It runs
//! on a copy of the scripts, with programs that take their time and do nothing.

use std::fs;
use std::os::unix::fs::symlink;
use std::path::Path;
use std::process::{Command, Output};
use std::sync::Mutex;

use program::{root, told};
use repository::{Scratch, put_script};

/// A folder with the scripts, the list of crates, a program that rt has made, and
/// these programs on the PATH.
fn copy(name: &str, rt: &str) -> Scratch {
    let folder = Scratch::new(name);
    let out = "crates/plankeeper/out";
    let made = ["bin", "rust/target/release", out].map(|part| folder.join(part));
    for part in made {
        fs::create_dir_all(part).expect("there is room for a folder");
    }
    for part in ["tools", "weeks", "list"] {
        symlink(root().join(part), folder.join(part)).expect("it can be linked");
    }
    let manifest = "rust/Cargo.toml";
    fs::copy(root().join(manifest), folder.join(manifest)).expect("it can be copied");
    let listed = "# comment\na:\nplankeeper: b io # more\nother staticlib: a\nb: a\n";
    fs::write(folder.join("crates.txt"), listed).expect("it can be written");
    put_script(&folder.join("bin/rt"), rt);
    put_script(&folder.join("bin/cargo"), "echo 'cargo 2.0.0'");
    put_script(&folder.join("rust/target/release/week"), "");
    put_script(&folder.join(out).join("plankeeper"), "echo 'TOTAL 0'");
    folder
}

/// `./list` in such a folder. One at a time: a script that is being written cannot be
/// run, and whoever starts another program may hold it open.
fn made(name: &str, rt: &str, patience: &str) -> Output {
    static ALONE: Mutex<()> = Mutex::new(());
    let _alone = ALONE.lock();
    list(&copy(name, rt), patience)
}

/// `./list`, whose programs are the folder's; it speaks of what takes longer than so
/// many seconds.
fn list(folder: &Path, patience: &str) -> Output {
    let path = std::env::var("PATH").expect("there is a PATH");
    let path = format!("{}:{path}", folder.join("bin").display());
    let mut command = Command::new(folder.join("list"));
    let command = command
        .env("PATH", path)
        .env("PLANKEEPER_PATIENCE", patience);
    command.output().expect("the script starts")
}

/// A kit that does this where the program is to be built, and nothing else. What it
/// says of its work goes to standard error, as where it runs what it has built.
fn run(lines: &str) -> String {
    let asked = "[[ $*,${PWD##*/} == run,plankeeper ]] || { echo \"rt $*\" >&2; exit 9; }";
    format!("{asked}\nexec >&2\n{lines}")
}

/// A line for each crate that takes long, and none twice; one that is proved
/// already is not spoken of.
#[test]
fn which_crate_of_how_many() {
    let slow = "echo 'rt: chose --jobs 2 for b'; echo 'fn b::f: proved'; sleep 3
                echo 'rt: chose --jobs 4 for plankeeper'; sleep 3; echo 'logic=proved functions=1'";
    let output = made("slow", &run(slow), "1");
    let (status, text, message) = told(&output);
    assert_eq!((status, text), (Some(0), "TOTAL 0\n"));
    // What cargo builds may take long, too.
    let proving: Vec<&str> = message
        .lines()
        .filter(|line| line.contains("proving"))
        .collect();
    let line = |end| format!("list: proving the listing program: crate {end}");
    assert_eq!(proving, [line("2 of 3, b"), line("3 of 3, plankeeper")]);
}

/// Before rt has told of a crate, as while it reads the sources.
#[test]
fn no_crate_yet() {
    let output = made("reading", &run("echo 'only=0 proved=0'; sleep 3"), "1");
    let (status, text, message) = told(&output);
    assert_eq!((status, text), (Some(0), "TOTAL 0\n"));
    let mut lines = message.lines();
    assert!(lines.any(|line| line == "list: proving the listing program"));
}

#[test]
fn what_does_not_take_long() {
    let output = made("quick", &run("echo 'TOTAL 1'"), "600");
    assert_eq!(told(&output), (Some(0), "TOTAL 0\n", ""));
}

/// What the command has said is shown where it fails.
#[test]
fn what_fails() {
    let output = made("failing", &run("echo 'fn b::f: not proved'; exit 1"), "600");
    let expected = "fn b::f: not proved\nlist: this failed: tools/program\n";
    assert_eq!(told(&output), (Some(1), "", expected));
}
