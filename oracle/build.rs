//! Names the five original files, unchanged, as modules of this crate, and links the port's static
//! library where there is one.
//!
//! GULLYFORK_PHONORS is the folder of cells.rs, common.rs, fc2.rs, fc3.rs and fc4.rs, and
//! GULLYFORK_STATICLIB that of libcapi.a. A relative path starts at this package's folder.
use std::path::{Path, PathBuf};
use std::process::Command;
use std::{env, fs};

const ORIGINALS: [&str; 5] = ["cells", "common", "fc2", "fc3", "fc4"];

fn folder(variable: &str, default: &str) -> PathBuf {
    println!("cargo:rerun-if-env-changed={variable}");
    PathBuf::from(env::var(variable).unwrap_or_else(|_| default.to_string()))
}

fn name_originals(from: &Path) -> String {
    let mut text = String::new();
    for name in ORIGINALS {
        let file = from.join(format!("{name}.rs"));
        let Ok(file) = fs::canonicalize(&file) else {
            panic!("no {}: set GULLYFORK_PHONORS to the folder of the original files", file.display());
        };
        println!("cargo:rerun-if-changed={}", file.display());
        text += &format!("#[allow(dead_code)]\n#[path = {file:?}]\nmod {name};\n");
    }
    text
}

/// The names that the library defines.
fn defined(library: &Path) -> Vec<String> {
    let nm = Command::new("nm").arg("--defined-only").arg(library).output().expect("nm can be run");
    let text = String::from_utf8_lossy(&nm.stdout).into_owned();
    text.lines().filter_map(|line| line.split(" T ").nth(1)).map(str::to_string).collect()
}

/// The names that src/c_names.rs declares.
fn declared() -> Vec<String> {
    println!("cargo:rerun-if-changed=src/c_names.rs");
    let text = fs::read_to_string("src/c_names.rs").unwrap();
    let name = |line: &str| line.trim().strip_prefix("pub fn ").map(|rest| rest.split('(').next().unwrap().to_string());
    text.lines().filter_map(name).collect()
}

/// The list of the names that are there; for each other one a function in its place that must not be called.
fn stand_ins(there: &[String]) -> String {
    let (present, missing): (Vec<String>, Vec<String>) = declared().into_iter().partition(|name| there.contains(name));
    let mut text = format!("pub const PRESENT: &[&str] = &{present:?};\n");
    for name in missing {
        text += &format!("#[no_mangle]\nextern \"C\" fn {name}() {{\n    panic!(\"{name} is not in the library\")\n}}\n");
    }
    text
}

fn main() {
    let out = PathBuf::from(env::var("OUT_DIR").unwrap());
    let originals = name_originals(&folder("GULLYFORK_PHONORS", "../../phonors/src"));
    fs::write(out.join("originals.rs"), originals).unwrap();

    let library = folder("GULLYFORK_STATICLIB", "../target/staticlib").join("libcapi.a");
    println!("cargo:rerun-if-changed={}", library.display());
    let mut there = vec![];
    if let Ok(found) = fs::canonicalize(library) {
        println!("cargo:rustc-link-search=native={}", found.parent().unwrap().display());
        println!("cargo:rustc-link-lib=static=capi");
        there = defined(&found);
    }
    fs::write(out.join("stand_ins.rs"), stand_ins(&there)).unwrap();
}
