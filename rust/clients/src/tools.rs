//! Compilers, and the programs that they build.

use std::fs;
use std::path::{Path, PathBuf};
use std::process::{Command, Output};

use program::root;

/// Every warning is an error: a client's author may have them on.
const STRICT: [&str; 6] = [
    "-Wall",
    "-Wextra",
    "-pedantic",
    "-Wconversion",
    "-Wshadow",
    "-Werror",
];

/// What a source is compiled as.
#[derive(Clone, Copy, Debug, PartialEq, Eq)]
pub enum Language {
    /// C99.
    C,
    /// C++98, the oldest one.
    Cpp,
}

impl Language {
    /// Its compiler, asked to take a source of any name for this language.
    fn compiler(self) -> Command {
        let (name, language, standard) = match self {
            Language::C => ("cc", "c", "-std=c99"),
            Language::Cpp => ("c++", "c++", "-std=c++98"),
        };
        let mut compiler = Command::new(name);
        compiler.arg(standard).args(STRICT).arg("-I");
        compiler.arg(root().join("include")).args(["-x", language]);
        compiler
    }
}

/// The static library. Panics, and says what to build, where it is missing.
pub fn library() -> PathBuf {
    let library = root().join("target/staticlib/libengine.a");
    assert!(
        library.is_file(),
        "the proved engine is not built: target/staticlib/libengine.a is missing; run \
         `tools/library engine` in the repository's root first"
    );
    library
}

/// A place for a file, in a folder of this crate's within cargo's folder for
/// tests.
pub fn scratch(tests: &str, name: &str) -> PathBuf {
    let folder = Path::new(tests).join("clients");
    fs::create_dir_all(&folder).expect("there is room for what the tests build");
    folder.join(name)
}

/// Compiles the source alone. Panics with what the compiler says, if anything.
pub fn compile(language: Language, source: &Path, object: &Path) {
    let mut compiler = language.compiler();
    compiler.arg(source).arg("-c").arg("-o").arg(object);
    well(&mut compiler);
}

/// Compiles the source and links it with the static library.
pub fn link(language: Language, source: &Path, binary: &Path) {
    let mut compiler = language.compiler();
    compiler.arg(source).args(["-x", "none"]).arg(library());
    compiler.arg("-o").arg(binary);
    well(&mut compiler);
}

/// The example of this name in the Rust crate `plankeeper`, built by cargo into
/// the folder that the tests themselves are built in.
pub fn rust_example(tests: &str, name: &str) -> PathBuf {
    let target = Path::new(tests)
        .parent()
        .expect("it is a folder of cargo's");
    let mut cargo = Command::new(env!("CARGO"));
    cargo.current_dir(root().join("rust"));
    cargo.args(["build", "--release", "--quiet", "--offline"]);
    cargo.args(["-p", "plankeeper", "--example", name, "--target-dir"]);
    well(cargo.arg(target));
    target.join("release/examples").join(name)
}

/// The functions that the static library defines, in order.
pub fn symbols() -> Vec<String> {
    let listed = well(Command::new("nm").arg(library()));
    let listed = String::from_utf8(listed).expect("names are ASCII");
    let mut names: Vec<String> = listed
        .lines()
        .filter_map(|line| line.split_once(" T "))
        .map(|(_, name)| name.into())
        .collect();
    names.sort();
    names
}

/// Runs the command to its end. Panics, and says what is missing, where it
/// cannot start.
pub fn run(command: &mut Command) -> Output {
    command.output().unwrap_or_else(|error| {
        let program = command.get_program().display();
        panic!("`{program}` cannot be started: {error}; these tests need cc, c++, nm and cargo")
    })
}

/// Runs a command that has to end well and without a message; gives what it
/// prints.
pub fn well(command: &mut Command) -> Vec<u8> {
    let Output {
        status,
        stdout,
        stderr,
    } = run(command);
    assert!(
        status.success() && stderr.is_empty(),
        "{command:?} ended with {status}:\n{}{}",
        String::from_utf8_lossy(&stdout),
        String::from_utf8_lossy(&stderr)
    );
    stdout
}
