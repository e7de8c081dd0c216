//! Sets avian's own files, edited by the table in edits.rs, among the modules of stand_ins/ in the output folder.
//! They are read from AVIAN_SRC, a checkout of avian or the folder that holds its `src`; relative to the repository's
//! root, and ../shared/docs/src by default.

use std::path::{Path, PathBuf};
use std::{env, fs, process};

mod edits;
mod sha256;

fn stop(message: String) -> ! {
    eprintln!("{message}");
    process::exit(1)
}

fn write(path: &Path, text: &str) {
    fs::create_dir_all(path.parent().unwrap()).unwrap();
    fs::write(path, text).unwrap();
}

fn copy_tree(from: &Path, to: &Path) {
    for entry in fs::read_dir(from).unwrap() {
        let path = entry.unwrap().path();
        let place = to.join(path.file_name().unwrap());
        if path.is_dir() {
            copy_tree(&path, &place);
        } else {
            write(&place, &fs::read_to_string(&path).unwrap());
        }
    }
}

/// The pictures of avian's documentation are left empty.
fn write_pictures(text: &str, folder: &Path) {
    for part in text.split("include_str!(\"").skip(1) {
        write(&folder.join(part.split('"').next().unwrap()), "");
    }
}

fn main() {
    let package = PathBuf::from(env::var("CARGO_MANIFEST_DIR").unwrap());
    let root = package.join("../..");
    let avian = root
        .join(env::var("AVIAN_SRC").unwrap_or("../shared/docs/src".into()))
        .join("src");
    let out = PathBuf::from(env::var("OUT_DIR").unwrap());
    let tree = out.join("src");

    println!("cargo::rerun-if-env-changed=AVIAN_SRC");
    for own in ["build.rs", "edits.rs", "sha256.rs", "stand_ins"] {
        println!("cargo::rerun-if-changed={own}");
    }

    if tree.exists() {
        fs::remove_dir_all(&tree).unwrap();
    }
    copy_tree(&package.join("stand_ins"), &tree);

    for (file, hash) in edits::FILES {
        let path = avian.join(file);
        println!("cargo::rerun-if-changed={}", path.display());
        let bytes = fs::read(&path)
            .unwrap_or_else(|error| stop(format!("AVIAN_SRC: {}: {error}", path.display())));
        let found = sha256::sha256(&bytes);
        if found != *hash {
            stop(format!(
                "{}: SHA-256 is {found}, expected {hash}",
                path.display()
            ));
        }
        let mut text = String::from_utf8(bytes).unwrap();
        for edit in edits::EDITS.iter().filter(|edit| edit.file == *file) {
            let count = text.matches(edit.from).count();
            if count != edit.count {
                stop(format!(
                    "{file}: {:?} stands {count} times, expected {}",
                    edit.from, edit.count
                ));
            }
            text = text.replace(edit.from, edit.to);
        }
        let place = tree.join(file);
        if place.exists() {
            stop(format!("{file}: avian has this file and stand_ins/ too"));
        }
        write_pictures(&text, place.parent().unwrap());
        write(&place, &text);
    }
    if let Some(edit) = edits::EDITS
        .iter()
        .find(|edit| edits::FILES.iter().all(|(file, _)| *file != edit.file))
    {
        stop(format!("edits.rs: {} is not among the files", edit.file));
    }

    let modules = format!(
        "#[path = {:?}]\npub mod dynamics;\n",
        tree.join("dynamics/mod.rs")
    );
    write(&out.join("modules.rs"), &modules);
}
