//! Finds liblinkage.a: in the folder LINKAGE_LIB_DIR, or else in that of the release that this package is part of.

use std::env;
use std::path::{Path, PathBuf};

fn main() {
    println!("cargo::rerun-if-env-changed=LINKAGE_LIB_DIR");
    let folder = match env::var_os("LINKAGE_LIB_DIR") {
        Some(folder) => PathBuf::from(folder),
        None => Path::new(env!("CARGO_MANIFEST_DIR")).join("../../lib"),
    };
    let library = folder.join("liblinkage.a");
    println!("cargo::rerun-if-changed={}", library.display());
    if !library.is_file() {
        println!(
            "cargo::error={} is missing: set LINKAGE_LIB_DIR",
            library.display()
        );
    }
    println!("cargo::rustc-link-search=native={}", folder.display());
    println!("cargo::rustc-link-lib=static=linkage");
    println!("cargo::rustc-link-lib=m");
}
