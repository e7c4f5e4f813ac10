//! Finds the static library, `libcapi.a`: in the folder that GULLYFORK_STATICLIB names (a relative path starts at this package's
//! folder), or else in target/staticlib of the repository.
use std::path::PathBuf;
use std::{env, fs, process};

fn main() {
    println!("cargo:rerun-if-env-changed=GULLYFORK_STATICLIB");
    let folder = PathBuf::from(env::var("GULLYFORK_STATICLIB").unwrap_or_else(|_| "../../target/staticlib".to_string()));
    let library = folder.join("libcapi.a");
    println!("cargo:rerun-if-changed={}", library.display());
    let Ok(found) = fs::canonicalize(&library) else {
        eprintln!("The static library {} is missing.", library.display());
        eprintln!("Run bindings/library of the repository, which proves the library and writes it to target/staticlib and needs the Rattle kit,");
        eprintln!("or set GULLYFORK_STATICLIB to the folder that has libcapi.a; a release has it as lib/libgullyfork.a (docs/CLIENT.md).");
        process::exit(1);
    };
    println!("cargo:rustc-link-search=native={}", found.parent().unwrap().display());
    println!("cargo:rustc-link-lib=static=capi");
}
