//! What a header says: functions, numbers with names, macros with arguments, and
//! the table of refusals in its comments.

use std::collections::{BTreeMap, BTreeSet};

use crate::prototype::{Parameter, Prototype};

/// A header's contents.
pub struct Header {
    /// The functions declared.
    pub functions: Vec<Prototype>,
    /// The macros and enumerators that stand for a number.
    pub numbers: BTreeMap<String, u64>,
    /// The macros with arguments.
    pub macros: BTreeSet<String>,
    /// The enumerators of each enum, in order.
    pub enums: BTreeMap<String, Vec<String>>,
    /// The table of refusals.
    pub causes: Vec<Cause>,
}

/// A row of the table of refusals.
#[derive(Debug, PartialEq, Eq)]
pub struct Cause {
    /// The refusal's number.
    pub number: usize,
    /// A letter for each kind of function that gives it.
    pub givers: String,
    /// The cause in words.
    pub sentence: String,
}

impl Header {
    /// Reads a header. Panics where it meets a form that it does not know.
    pub fn parse(text: &str) -> Self {
        let mut header = Header {
            functions: Vec::new(),
            numbers: BTreeMap::new(),
            macros: BTreeSet::new(),
            enums: BTreeMap::new(),
            causes: text.lines().filter_map(cause).collect(),
        };
        let (directives, code) = parts(&without_comments(text));
        for directive in &directives {
            header.directive(directive);
        }
        for declaration in code.split(';').map(str::trim) {
            header.declaration(declaration);
        }
        header
    }

    fn directive(&mut self, line: &str) {
        let Some(definition) = line.strip_prefix("#define ") else {
            return;
        };
        let end = definition.find([' ', '(']).unwrap_or(definition.len());
        let (name, value) = definition.split_at(end);
        if value.starts_with('(') {
            assert!(self.macros.insert(name.into()), "{name} is defined twice");
        } else if !value.is_empty() {
            self.number(name, value);
        }
    }

    fn number(&mut self, name: &str, value: &str) {
        let value = value.trim().parse();
        let value = value.unwrap_or_else(|_| panic!("{name} is no decimal number"));
        let before = self.numbers.insert(name.into(), value);
        assert_eq!(before, None, "{name} is defined twice");
    }

    fn declaration(&mut self, declaration: &str) {
        if let Some(definition) = declaration.strip_prefix("enum ") {
            let (name, body) = definition.split_once('{').expect("an enum is defined");
            let body = body.trim().strip_suffix('}').expect("its definition ends");
            let mut names = Vec::new();
            for enumerator in body.split(',') {
                let (name, value) = enumerator.split_once('=').expect("it has a number");
                self.number(name.trim(), value);
                names.push(name.trim().into());
            }
            self.enums.insert(name.trim().into(), names);
        } else if declaration.contains('(') {
            let function = self.function(declaration);
            self.functions.push(function);
        } else {
            let known = declaration.is_empty() || declaration.starts_with("typedef struct ");
            assert!(known, "`{declaration}` is of no known form");
        }
    }

    fn function(&self, declaration: &str) -> Prototype {
        let (front, rest) = declaration.split_once('(').expect("it is a function");
        let parameters = rest.strip_suffix(')').expect("its parameters end");
        let (result, name) = front.rsplit_once(' ').expect("it has a result");
        Prototype {
            name: name.into(),
            result: result.into(),
            parameters: match parameters {
                "void" => Vec::new(),
                some => some.split(',').map(|one| self.parameter(one)).collect(),
            },
        }
    }

    /// The type and then the name; an array's length by its number.
    fn parameter(&self, text: &str) -> Parameter {
        let (text, length) = match text.trim().strip_suffix(']') {
            Some(array) => array.split_once('[').expect("an array has a length"),
            None => (text, ""),
        };
        let text = text.replace('*', " * ");
        let mut words: Vec<&str> = text.split_whitespace().collect();
        let name = words.pop().expect("it has a name");
        let mut kind = words.join(" ");
        if !length.is_empty() {
            let length = self.numbers.get(length);
            let length = length.unwrap_or_else(|| panic!("{name} has no length with a name"));
            kind += &format!(" [{length}]");
        }
        Parameter::new(&kind, name)
    }
}

fn without_comments(text: &str) -> String {
    let mut parts = text.split("/*");
    let front = parts.next().unwrap_or_default().to_owned();
    parts.fold(front, |code, part| {
        let (_, behind) = part.split_once("*/").expect("a comment ends");
        code + " " + behind
    })
}

/// The lines for the preprocessor, and the code without them and without the
/// braces that only C++ sees.
fn parts(text: &str) -> (Vec<String>, String) {
    let mut directives = Vec::new();
    let mut code = String::new();
    let mut for_cpp = false;
    for line in text.lines() {
        match line.trim_end() {
            "#ifdef __cplusplus" => for_cpp = true,
            "#endif" => for_cpp = false,
            directive if directive.starts_with('#') => directives.push(directive.into()),
            _ if for_cpp => {}
            line => code = code + line + "\n",
        }
    }
    (directives, code)
}

/// A row of the table, by its columns: number, a letter or a space for each
/// giver, sentence.
fn cause(line: &str) -> Option<Cause> {
    let row = line.strip_prefix(" *")?;
    Some(Cause {
        number: row.get(..7)?.trim().parse().ok()?,
        givers: row.get(7..24)?.replace(' ', ""),
        sentence: row.get(24..)?.into(),
    })
}
