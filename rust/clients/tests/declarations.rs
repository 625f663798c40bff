//! The declarations of the library's functions in Rust say what its source says.

use std::collections::BTreeMap;
use std::fs;
use std::path::Path;

use clients::{Export, Prototype, declared, exported};
use program::root;

/// The texts of all Rust files below the folder.
fn sources(folder: &Path) -> Vec<String> {
    let Ok(entries) = fs::read_dir(folder) else {
        return Vec::new();
    };
    let paths = entries.map(|entry| entry.expect("the folder can be read").path());
    paths
        .flat_map(|path| match path.extension() {
            _ if path.is_dir() => sources(&path),
            Some(ending) if ending == "rs" => {
                vec![fs::read_to_string(&path).expect("the source can be read")]
            }
            _ => Vec::new(),
        })
        .collect()
}

/// The parts of the texts within `unsafe extern "C"`.
fn extern_blocks(sources: &[String]) -> String {
    let blocks = sources.iter().flat_map(|source| {
        let blocks = source.split("\nunsafe extern \"C\" {").skip(1);
        blocks.map(|block| block.split("\n}").next().expect("a split has parts"))
    });
    blocks.collect()
}

/// Checks every declaration in a crate, and gives how many there are.
fn check_crate(name: &str, exports: &BTreeMap<String, Export>) -> usize {
    let sources = sources(&root().join("rust").join(name).join("src"));
    let blocks = extern_blocks(&sources);
    let functions = declared(&blocks, &sources.concat());
    for function in &functions {
        let export = exports.get(&function.name);
        let export = export.unwrap_or_else(|| panic!("{name}: {function} is not exported"));
        assert_eq!(function.to_string(), export.prototype.to_string(), "{name}");
        // A safe function may be handed anything.
        let safe = blocks.contains(&format!("safe fn {}(", function.name));
        let asks = export.requires || takes_bytes(function);
        assert!(!(safe && asks), "{name}: {function} is not safe");
    }
    functions.len()
}

/// Whether it is handed a pointer that it cannot see the end of.
fn takes_bytes(function: &Prototype) -> bool {
    let mut kinds = function.parameters.iter().map(|parameter| &parameter.kind);
    kinds.any(|kind| kind.contains("uint8_t *"))
}

/// In every crate that declares some; one for planners declares them all.
#[test]
fn declarations_are_those_of_the_source() {
    let exports: BTreeMap<String, Export> = exported(&root().join("crates/engine/src"))
        .into_iter()
        .map(|export| (export.prototype.name.clone(), export))
        .collect();
    let crates = fs::read_dir(root().join("rust")).expect("the folder can be read");
    let counts = crates.map(|entry| {
        let name = entry.expect("the folder can be read").file_name();
        let name = name.to_str().expect("names are UTF-8").to_owned();
        (check_crate(&name, &exports), name)
    });
    let counts: Vec<(usize, String)> = counts.filter(|(count, _)| *count > 0).collect();
    println!("{counts:?}");
    assert!(!counts.is_empty(), "no crate declares a function");
    for (count, name) in counts {
        let all = name != "plankeeper" || count == exports.len();
        assert!(all, "{name} declares {count} of {}", exports.len());
    }
}
