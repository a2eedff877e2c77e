//! Tells the tests where the proved static libraries are and which are missing.

use std::env;
use std::path::PathBuf;

/// The static libraries that tests link, each made by `./library NAME`.
const LIBRARIES: [&str; 3] = ["linear", "elimination_ties", "protocol"];

fn main() {
    let folder = library_folder();
    println!("cargo:rerun-if-changed=build.rs");
    println!("cargo:rerun-if-env-changed=SERVICE_PAIR_LIB");
    // The folder, not the files: a library that is not there yet would make
    // every build start anew.
    println!("cargo:rerun-if-changed={}", folder.display());
    println!("cargo:rustc-link-search=native={}", folder.display());
    for name in LIBRARIES {
        let library = folder.join(format!("lib{name}.a"));
        println!("cargo:rustc-check-cfg=cfg(missing_{name})");
        // A missing library stops only the tests that link it, so it is told
        // to them and is no failure here.
        if !library.is_file() {
            println!("cargo:rustc-cfg=missing_{name}");
        }
    }
}

/// `SERVICE_PAIR_LIB`, or the folder that `./library` writes to.
fn library_folder() -> PathBuf {
    match env::var_os("SERVICE_PAIR_LIB") {
        Some(folder) => PathBuf::from(folder),
        None => {
            let manifest = env::var_os("CARGO_MANIFEST_DIR").unwrap_or_default();
            PathBuf::from(manifest).join("../target/staticlib")
        }
    }
}
