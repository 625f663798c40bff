//! `tools/library` has rt build a static library, and puts it where those who link
//! it look. It runs in a folder of the tests' own, with an rt that proves nothing.

use std::fs;
use std::os::unix::fs::symlink;
use std::path::Path;
use std::process::{Command, Output};

use program::{root, told};
use repository::{Scratch, alone, put_script};

/// A folder with the scripts, the crate `engine`, and no kit yet.
fn folder(name: &str) -> Scratch {
    let folder = Scratch::new(name);
    for part in ["bin", "crates/engine/out", "rust"] {
        fs::create_dir_all(folder.join(part)).expect("there is room for a folder");
    }
    symlink(root().join("tools"), folder.join("tools")).expect("it can be linked");
    folder
}

/// `tools/library` with these arguments, and an rt that does this in the crate's
/// folder.
fn library(folder: &Path, arguments: &[&str], rt: &str) -> Output {
    let asked = "[[ $*,${PWD##*/} == lib,engine ]] || { echo \"rt $*\" >&2; exit 9; }";
    put_script(&folder.join("bin/rt"), &format!("{asked}\n{rt}"));
    let path = std::env::var("PATH").expect("there is a PATH");
    let path = format!("{}:{path}", folder.join("bin").display());
    let mut command = Command::new(folder.join("tools/library"));
    let output = command.args(arguments).env("PATH", path).output();
    output.expect("the script starts")
}

/// A library that is the same stays: cargo builds anew what is newer.
#[test]
fn where_it_is_put() {
    let _alone = alone();
    let folder = folder("put");
    let archive = folder.join("target/staticlib/libengine.a");
    let found = || {
        let text = fs::read_to_string(&archive).expect("the library is there");
        let made = fs::metadata(&archive).and_then(|file| file.modified());
        (text, made.expect("files have times"))
    };
    let build = |text: &str| {
        let rt = format!("echo '{text}' >out/libengine.a; echo 'logic=proved'");
        let output = library(&folder, &["engine"], &rt);
        assert_eq!(told(&output), (Some(0), "logic=proved\n", ""));
    };
    build("one");
    let (text, made) = found();
    assert_eq!(text, "one\n");
    build("one");
    assert_eq!(found(), (text, made));
    build("other");
    assert_eq!(found().0, "other\n");
    let entries = fs::read_dir(archive.parent().expect("it stands in a folder"));
    assert_eq!(entries.expect("the folder can be read").count(), 1);
}

#[test]
fn what_is_not_built() {
    let _alone = alone();
    let folder = folder("not");
    let output = library(&folder, &["engine"], "echo 'logic=not-proved'; exit 3");
    assert_eq!(told(&output), (Some(3), "logic=not-proved\n", ""));
    let output = library(&folder, &["engine"], "");
    let message = "library: rt has not made crates/engine/out/libengine.a\n";
    assert_eq!(told(&output), (Some(1), "", message));
    let output = library(&folder, &["other"], "");
    let message = "library: there is no crate 'other'\n";
    assert_eq!(told(&output), (Some(1), "", message));
    for arguments in [&[][..], &[""], &["--help"], &["engine", "probes"]] {
        let output = library(&folder, arguments, "");
        let message = "usage: tools/library NAME\n";
        assert_eq!(told(&output), (Some(2), "", message), "{arguments:?}");
    }
    assert!(!folder.join("target").exists());
}
