//! Names the original's files to the compiler where they lie: nothing of the original is copied.
//!
//! The folder is CACHEKIT_SRC, or `../../shared/docs/src` seen from here. For each module of the original's tree that we
//! use, a small file in OUT_DIR declares its files with `#[path]`; `src/lib.rs` includes those declarations.

use std::path::{Path, PathBuf};
use std::process::exit;
use std::{env, fs};

/// The modules of the original that are built, and the files of each, unchanged.
const ORIGINAL: [(&str, &[&str]); 3] = [
    ("ds", &["slot_arena", "frequency_buckets"]),
    ("store", &["hashmap"]),
    ("policy", &["lfu"]),
];

fn main() {
    let here = PathBuf::from(env::var("CARGO_MANIFEST_DIR").unwrap());
    let out = PathBuf::from(env::var("OUT_DIR").unwrap());
    let folder = match env::var("CACHEKIT_SRC") {
        Ok(named) => PathBuf::from(named),
        Err(_) => here.join("../../shared/docs/src"),
    };
    println!("cargo::rerun-if-env-changed=CACHEKIT_SRC");
    for (module, files) in ORIGINAL {
        let declarations: String = files.iter().map(|file| declaration(&folder, module, file)).collect();
        fs::write(out.join(format!("{module}.rs")), declarations).unwrap();
    }
}

/// `pub mod FILE`, read from its place in the original's folder.
fn declaration(folder: &Path, module: &str, file: &str) -> String {
    let path = folder.join("src").join(module).join(format!("{file}.rs"));
    let Ok(path) = path.canonicalize() else {
        eprintln!("no file {}: name the original's folder in CACHEKIT_SRC", path.display());
        exit(1);
    };
    println!("cargo::rerun-if-changed={}", path.display());
    format!("#[path = {path:?}]\npub mod {file};\n")
}
