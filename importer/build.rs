//! Links the static library with the C entries, if the feature `library` is on.

use std::env;
use std::fs;
use std::path::{absolute, Path, PathBuf};
use std::process::{Command, Stdio};

const FILE: &str = "librudzaviks.a";

fn main() {
    println!("cargo::rerun-if-changed=build.rs");
    if env::var_os("CARGO_FEATURE_LIBRARY").is_some() {
        link();
    }
}

fn link() {
    println!("cargo::rerun-if-env-changed=RUDZAVIKS_LIB_DIR");
    // what tools/tool says of a library whose time may be older than that of one linked before
    println!("cargo::rerun-if-env-changed=RUDZAVIKS_LIBRARY_SUM");
    let given = env::var_os("RUDZAVIKS_LIB_DIR").filter(|dir| !dir.is_empty());
    let top = top();
    let dir = match &given {
        Some(dir) => absolute(dir).expect("this folder has a name"),
        None => top.join("target/staticlib"),
    };
    let library = dir.join(FILE);
    println!("cargo::rerun-if-changed={}", library.display());
    if !library.is_file() {
        println!(
            "cargo::error=the library is missing: there is no {}; run tools/library, which proves \
             and builds it, or set RUDZAVIKS_LIB_DIR to the folder that has {FILE}",
            library.display()
        );
        return;
    }
    if given.is_none() {
        warn_if_stale(&top);
    }
    println!("cargo::rustc-link-search=native={}", dir.display());
    println!("cargo::rustc-link-lib=static=rudzaviks");
    // for the test that links the library to a C program
    println!("cargo::rustc-env=RUDZAVIKS_LIB={}", library.display());
}

/// The repository's folder.
fn top() -> PathBuf {
    let manifest = PathBuf::from(env::var_os("CARGO_MANIFEST_DIR").expect("cargo sets it"));
    manifest.parent().expect("importer is a folder of the repository").to_path_buf()
}

/// Warns of a library that was made of other sources than those in this folder.
fn warn_if_stale(top: &Path) {
    let script = top.join("tools/library");
    if !script.is_file() {
        return;
    }
    watch_sources(top);
    let check = Command::new("bash").arg(&script).arg("--check").stdin(Stdio::null()).output();
    // (where it cannot be run, nothing is known)
    let Ok(check) = check else { return };
    if check.status.code() == Some(1) {
        let said = String::from_utf8_lossy(&check.stderr);
        let why = said.lines().last().unwrap_or("rudzaviks: the library is stale");
        let why = why.strip_prefix("rudzaviks: ").unwrap_or(why);
        println!("cargo::warning={why}; run tools/library, which proves and builds it");
    }
}

/// Has this run again when something changes that the check looks at.
fn watch_sources(top: &Path) {
    // (this folder has what says what the library was made of)
    for name in ["crates.txt", "tools/library", "target/staticlib"] {
        println!("cargo::rerun-if-changed={}", top.join(name).display());
    }
    for folder in entries(&top.join("crates")) {
        // What rt keeps, and the edits that it must refuse, are not part of the library.
        let parts = entries(&folder).into_iter();
        for part in parts.filter(|part| !part.ends_with("out") && !part.ends_with("must-fail")) {
            println!("cargo::rerun-if-changed={}", part.display());
        }
    }
}

/// What is in this folder, if it is one, in an order that stays.
fn entries(folder: &Path) -> Vec<PathBuf> {
    let entries = fs::read_dir(folder).into_iter().flatten().flatten();
    let mut entries: Vec<PathBuf> = entries.map(|entry| entry.path()).collect();
    entries.sort();
    entries
}
