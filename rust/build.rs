//! Finds libjirvents.a, which `rt lib` makes in ../crates/jirvents: in the folder
//! that JIRVENTS_LIB_DIR names by its full path, else in ../crates/jirvents/out.

use std::env;
use std::path::{Path, PathBuf};

fn main() {
    println!("cargo:rerun-if-env-changed=JIRVENTS_LIB_DIR");
    let folder = match env::var_os("JIRVENTS_LIB_DIR") {
        Some(folder) => PathBuf::from(folder),
        None => Path::new(env!("CARGO_MANIFEST_DIR")).join("../crates/jirvents/out"),
    };
    let archive = folder.join("libjirvents.a");
    println!("cargo:rerun-if-changed={}", archive.display());
    if !archive.exists() {
        println!(
            "cargo:warning={} is missing: run `rt lib` in crates/jirvents",
            archive.display()
        );
    }
    println!("cargo:rustc-link-search=native={}", folder.display());
    println!("cargo:rustc-link-lib=static=jirvents");
}
