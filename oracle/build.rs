//! With the feature `host`, finds the Rattle's static libraries, which `./build host host_parts` makes, and takes the sum of the first.

#[path = "avian/sha256.rs"]
mod sha256;

use std::path::PathBuf;
use std::{env, fs};

fn main() {
    if env::var_os("CARGO_FEATURE_HOST").is_some() {
        let crates = PathBuf::from(env::var("CARGO_MANIFEST_DIR").unwrap()).join("../crates");
        let archive_of = |name: &str| crates.join(format!("{name}/out/lib{name}.a"));
        for archive in ["host", "host_parts"].map(archive_of) {
            println!("cargo::rerun-if-changed={}", archive.display());
            println!(
                "cargo::rustc-link-search=native={}",
                archive.parent().unwrap().display()
            );
        }
        let archive = fs::read(archive_of("host")).expect("`./build host host_parts` comes first");
        println!(
            "cargo::rustc-env=LIBHOST_SHA256={}",
            sha256::sha256(&archive)
        );
    }
}
