//! Links the proved code. `C2_LIB_DIR` names the folder with the static libraries.

use std::env;
use std::path::{Path, PathBuf};

const LIBRARIES: [&str; 6] = ["c2", "c2_wire_probe", "c2_run", "dump", "hex", "radio"];
const DEFAULT_DIR: &str = "../target/staticlib";

fn library_dir() -> PathBuf {
    let manifest_dir = env::var_os("CARGO_MANIFEST_DIR").expect("cargo sets CARGO_MANIFEST_DIR");
    let dir = env::var_os("C2_LIB_DIR").unwrap_or_else(|| DEFAULT_DIR.into());
    Path::new(&manifest_dir).join(dir)
}

fn main() {
    let dir = library_dir();
    println!("cargo:rerun-if-env-changed=C2_LIB_DIR");
    println!("cargo:rerun-if-changed=build.rs");
    println!("cargo:rustc-link-search=native={}", dir.display());
    for library in LIBRARIES {
        let archive = dir.join(format!("lib{library}.a"));
        println!("cargo:rerun-if-changed={}", archive.display());
        assert!(archive.is_file(), "no static library at {}", archive.display());
        println!("cargo:rustc-link-lib=static={library}");
    }
}
