//! The header compiles alone, as C and as C++, and a program that has all it
//! knows from it does with the library what it says.

use std::fs;
use std::process::Command;

use clients::{Language, compile, link, scratch, well};
use program::root;

const TESTS: &str = env!("CARGO_TARGET_TMPDIR");

fn check_alone(language: Language) {
    for times in 1..=2 {
        let source = scratch(TESTS, &format!("alone-{language:?}-{times}.c"));
        let text = "#include \"plankeeper.h\"\n".repeat(times) + "typedef plankeeper alone;\n";
        fs::write(&source, text).expect("the source can be written");
        compile(language, &source, &source.with_extension("o"));
    }
}

fn check_program(language: Language) {
    let source = root().join("rust/clients/tests/header.c");
    let binary = scratch(TESTS, &format!("header-{language:?}"));
    link(language, &source, &binary);
    well(&mut Command::new(binary));
}

#[test]
fn alone_as_c() {
    check_alone(Language::C);
}

#[test]
fn alone_as_cpp() {
    check_alone(Language::Cpp);
}

#[test]
fn every_name_does_as_it_says_in_c() {
    check_program(Language::C);
}

#[test]
fn every_name_does_as_it_says_in_cpp() {
    check_program(Language::Cpp);
}
