//! Finds the proved library, libexport.a: in the folder that TROUTGABLE_LIB names, else in
//! target/staticlib of the nearest folder above this crate's that has it there.
use std::env;
use std::fs;
use std::path::PathBuf;
use std::process::exit;

fn folder() -> PathBuf {
    if let Some(named) = env::var_os("TROUTGABLE_LIB") {
        return PathBuf::from(named);
    }
    let here = PathBuf::from(env::var_os("CARGO_MANIFEST_DIR").unwrap_or_default());
    let made = here
        .ancestors()
        .skip(1)
        .map(|above| above.join("target/staticlib"));
    made.into_iter()
        .find(|folder| folder.join("libexport.a").is_file())
        .unwrap_or_else(|| here.join("../target/staticlib"))
}

fn main() {
    let folder = folder();
    let folder = fs::canonicalize(&folder).unwrap_or(folder);
    let archive = folder.join("libexport.a");
    println!("cargo:rerun-if-env-changed=TROUTGABLE_LIB");
    println!("cargo:rerun-if-changed={}", archive.display());
    if !archive.is_file() {
        eprintln!("troutgable: there is no {}", archive.display());
        eprintln!("Make it with `make library` in the repository's root (this writes target/staticlib/libexport.a),");
        eprintln!("or set TROUTGABLE_LIB to the folder that holds libexport.a.");
        exit(1);
    }
    println!("cargo:rustc-link-search=native={}", folder.display());
    println!("cargo:rustc-link-lib=static=export");
}
