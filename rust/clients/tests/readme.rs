//! The programs in C that the documents show work as they stand.

use std::fs;
use std::process::Command;

use clients::{library, scratch, well};
use program::root;

const TESTS: &str = env!("CARGO_TARGET_TMPDIR");

fn text(file: &str) -> String {
    fs::read_to_string(root().join(file)).expect("the document can be read")
}

/// The text between the first line that is `from` and the next that is `to`.
fn between<'a>(text: &'a str, from: &str, to: &str) -> &'a str {
    let part = text.split_once(&format!("{from}\n"));
    let (_, part) = part.unwrap_or_else(|| panic!("there is no line `{from}`"));
    let part = part.split_once(&format!("\n{to}"));
    let (part, _) = part.unwrap_or_else(|| panic!("no `{to}` ends what `{from}` begins"));
    part
}

/// Builds the source by this command, with its files in a folder for tests and
/// all else as it says, and gives what the program prints.
fn built_and_run(command: &str, source: &str) -> String {
    library();
    let name = command.rsplit(' ').next().expect("a command has words");
    let (file, binary) = (scratch(TESTS, &format!("{name}.c")), scratch(TESTS, name));
    fs::write(&file, source).expect("the source can be written");
    let mut words = command.split(' ');
    let mut compiler = Command::new(words.next().expect("a command has words"));
    compiler.current_dir(root()).args(words.map(|word| {
        if word == name {
            binary.clone().into_os_string()
        } else if word.strip_suffix(".c") == Some(name) {
            file.clone().into_os_string()
        } else {
            word.into()
        }
    }));
    well(&mut compiler);
    let printed = well(&mut Command::new(&binary));
    String::from_utf8(printed).expect("it prints text")
}

#[test]
fn the_program_in_the_readme() {
    let readme = text("README.md");
    let section = between(&readme, "## The engineer: in your own program", "## ");
    let source = between(section, "```c", "```").to_owned() + "\n";
    let console = between(section, "```console", "```");
    let commands = console.lines().filter_map(|line| line.strip_prefix("$ "));
    let commands: Vec<&str> = commands.collect();
    let [library, compiler, program] = commands[..] else {
        panic!("the library is built, the program is built and run: {commands:?}");
    };
    assert_eq!((library, program), ("tools/library engine", "./week"));
    let printed = console.lines().filter(|line| !line.starts_with("$ "));
    let printed: String = printed.map(|line| line.to_owned() + "\n").collect();
    assert_eq!(built_and_run(compiler, &source), printed);
}

/// The example at the top of the header: the indented lines of its comment.
#[test]
fn the_program_in_the_header() {
    let header = text("include/plankeeper.h");
    let (comment, _) = header
        .split_once("*/")
        .expect("a comment begins the header");
    let lines = comment.lines().filter_map(|line| {
        let code = line.strip_prefix(" *")?;
        let code = code
            .strip_prefix("     ")
            .or(code.is_empty().then_some(""))?;
        Some(code.to_owned() + "\n")
    });
    let lines: Vec<String> = lines.collect();
    let command = lines.iter().rposition(|line| line.starts_with("cc "));
    let command = command.expect("the comment says how to build it");
    let source = lines[..command].concat();
    let printed = built_and_run(lines[command].trim_end(), source.trim_start());
    assert_eq!(printed, "moved\n");
}
