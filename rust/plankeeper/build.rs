//! Links the proved engine's static library: from the repository's target
//! folder, or from the folder that PLANKEEPER_LIB names.

use std::env;
use std::path::{Path, PathBuf};

fn main() {
    println!("cargo::rerun-if-changed=build.rs");
    println!("cargo::rerun-if-env-changed=PLANKEEPER_LIB");
    let folder = folder();
    let archive = folder.join("libengine.a");
    // Named even while it is missing, so that cargo looks again once it is built.
    println!("cargo::rerun-if-changed={}", archive.display());
    println!("cargo::rustc-link-search=native={}", folder.display());
    println!("cargo::rustc-link-lib=static=engine");
    // Documentation and checks need no library. Where it is to be linked, the
    // compiler stops, and cargo shows this beside it.
    if !archive.is_file() {
        println!(
            "cargo::warning=the proved engine is not built: {} is missing; run \
             `tools/library engine` in the repository's root first, or name the folder that has \
             it in PLANKEEPER_LIB",
            archive.display()
        );
    }
}

fn folder() -> PathBuf {
    if let Some(named) = env::var_os("PLANKEEPER_LIB") {
        return named.into();
    }
    let manifest = env::var("CARGO_MANIFEST_DIR").expect("cargo names the manifest's folder");
    Path::new(&manifest).join("../../target/staticlib")
}
