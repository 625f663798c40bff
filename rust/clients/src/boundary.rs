//! The functions that the library's source exports, and those that sources in
//! Rust declare, as C sees them.

use std::fs;
use std::path::Path;

use crate::prototype::{Parameter, Prototype};

const EXPORT: &str = "#[unsafe(no_mangle)]\npub extern \"C\" fn ";

/// An exported function.
pub struct Export {
    /// What C sees of it.
    pub prototype: Prototype,
    /// Whether its contract has a `requires`, which its caller has to see to.
    pub requires: bool,
}

/// The exported functions in the source files of the folder. Panics where it
/// meets a type that does not cross the boundary.
pub fn exported(folder: &Path) -> Vec<Export> {
    let entries = fs::read_dir(folder).expect("the library's source is there");
    let mut exports = Vec::new();
    for entry in entries {
        let file = entry.expect("the folder can be read").path();
        if file.extension().is_none_or(|ending| ending != "rt") {
            continue;
        }
        let source = fs::read_to_string(&file).expect("the source can be read");
        let functions = source.split(EXPORT).skip(1);
        assert_eq!(
            source.matches("\n#[unsafe(no_mangle)]").count(),
            functions.clone().count(),
            "{} exports a function in another form",
            file.display()
        );
        exports.extend(functions.map(|function| {
            let contract = function.split("\n{").next().expect("a split has parts");
            Export {
                prototype: prototype(function),
                requires: contract.contains("\n    requires "),
            }
        }));
    }
    exports
}

/// The library's functions that a source in Rust declares. Its types for words
/// are defined in the other text.
pub fn declared(source: &str, definitions: &str) -> Vec<Prototype> {
    let mut source = source.to_owned();
    for (name, words) in word_types(definitions) {
        let referent = match words.as_str() {
            "19232" => "Cluster".into(),
            "2404" => "Words".into(),
            words => format!("[u32; {words}]"),
        };
        source = source.replace(&format!("&{name}"), &format!("&{referent}"));
        source = source.replace(&format!("&mut {name}"), &format!("&mut {referent}"));
    }
    let functions = source.split("fn plankeeper").skip(1);
    functions
        .map(|function| prototype(&format!("plankeeper{function}")))
        .collect()
}

/// Each `type NAME = [u32; LENGTH]` with its length's number.
fn word_types(definitions: &str) -> Vec<(&str, String)> {
    let types = definitions.split("pub type ").skip(1);
    types
        .filter_map(|definition| {
            let (name, rest) = definition.split_once(" = [u32; ")?;
            let (length, _) = rest.split_once("];")?;
            let value = format!("const {length}: usize = ");
            let (_, value) = definitions.split_once(&value)?;
            let (value, _) = value.split_once(';')?;
            Some((name, value.replace('_', "")))
        })
        .collect()
}

/// The function whose name the source begins with.
fn prototype(source: &str) -> Prototype {
    let (name, rest) = source.split_once('(').expect("a function has parameters");
    let (parameters, rest) = rest.split_once(')').expect("its parameters end");
    // What stands in front of the contract, or of a declaration's end.
    let front = rest.find(['\n', ';']).map_or(rest, |end| &rest[..end]);
    let result = match front.trim().strip_prefix("->") {
        Some(result) => scalar(result.trim()).unwrap_or_else(|| unknown(name, result)),
        None => "void",
    };
    let parameters = parameters.split(',').map(str::trim);
    let parameters = parameters.filter(|parameter| !parameter.is_empty());
    let parameters: Vec<(&str, &str)> = parameters
        .map(|parameter| parameter.split_once(": ").expect("it has a type"))
        .collect();
    Prototype {
        name: name.into(),
        result: result.into(),
        parameters: (0..parameters.len())
            .flat_map(|place| {
                let (_, kind) = parameters[place];
                let parameter = name_in_c(place, &parameters);
                translated(parameter, kind).unwrap_or_else(|| unknown(name, kind))
            })
            .collect(),
    }
}

/// The parameter's name in C: that of memory which the engine made says what it
/// is, unless another parameter is called so.
fn name_in_c<'a>(place: usize, parameters: &[(&'a str, &'a str)]) -> &'a str {
    let (name, kind) = parameters[place];
    let memory = match kind {
        "&Cluster" | "&mut Cluster" => "cluster",
        "&Words" | "&mut Words" => "shard",
        _ => return name,
    };
    let mut others = parameters.iter().enumerate();
    if others.any(|(other, (name, _))| other != place && *name == memory) {
        name
    } else {
        memory
    }
}

fn unknown<T>(function: &str, kind: &str) -> T {
    panic!("{function}: the type `{kind}` is none that crosses the boundary")
}

/// Types that pass as they are; a slice passes as a pointer and a length.
fn scalar(kind: &str) -> Option<&'static str> {
    Some(match kind {
        "u32" => "uint32_t",
        "u64" => "uint64_t",
        "usize" => "size_t",
        "*const u8" => "const uint8_t *",
        "*mut u8" => "uint8_t *",
        _ => return None,
    })
}

/// The parameters in C. Memory that the engine made has a type of its own there,
/// and a slice's length a parameter.
fn translated(name: &str, kind: &str) -> Option<Vec<Parameter>> {
    if let Some(kind) = scalar(kind) {
        return Some(vec![Parameter::new(kind, name)]);
    }
    let (constant, referent) = match kind.strip_prefix("&mut ") {
        Some(referent) => ("", referent),
        None => ("const ", kind.strip_prefix('&')?),
    };
    let one = |kind: &str, name: &str| Parameter::new(&format!("{constant}{kind}"), name);
    Some(match referent {
        "Cluster" => vec![one("plankeeper *", name)],
        "Words" => vec![one("plankeeper_shard *", name)],
        "[u8]" => vec![one("uint8_t *", name), Parameter::new("size_t", "length")],
        words => {
            let length = words.strip_prefix("[u32; ")?.strip_suffix(']')?;
            vec![one(&format!("uint32_t [{length}]"), name)]
        }
    })
}
