//! Links the proved engine's probes for tests and benchmarks from the
//! repository's target folder.

use std::{env, path::Path};

fn main() {
    let manifest = env::var("CARGO_MANIFEST_DIR").expect("cargo names the manifest's folder");
    let folder = Path::new(&manifest).join("../../target/staticlib");
    let archive = folder.join("libprobes.a");
    println!("cargo::rerun-if-changed=build.rs");
    // Named even while it is missing, so that cargo looks again once it is built.
    println!("cargo::rerun-if-changed={}", archive.display());
    println!("cargo::rustc-link-search=native={}", folder.display());
    println!("cargo::rustc-link-lib=static=probes");
    // Documentation and checks need none. Where they are to be linked, the
    // compiler stops, and cargo shows this beside it.
    if !archive.is_file() {
        println!(
            "cargo::warning=the probes of the proved engine are not built: {} is missing; run \
             `tools/library probes` in the repository's root first",
            archive.display()
        );
    }
}
