//! Links the static library `libkebrawish.a` from the folder that the environment variable
//! `KEBRAWISH_STATICLIB` names by an absolute path, or from `target/staticlib` at the
//! repository's root. A package that depends on this one is told the archive:
//! `DEP_KEBRAWISH_ARCHIVE` in its build script.

use std::env;
use std::path::PathBuf;
use std::process::exit;

const VARIABLE: &str = "KEBRAWISH_STATICLIB";

fn main() {
    let folder = folder();
    let archive = folder.join("libkebrawish.a");
    println!("cargo:rerun-if-changed=build.rs");
    println!("cargo:rerun-if-env-changed={VARIABLE}");
    println!("cargo:rerun-if-changed={}", archive.display());
    if !archive.is_file() {
        eprintln!(
            "There is no {}. `tools/archive.sh` at the root of Kebrawish's repository proves the \
             library and writes it to target/staticlib (it needs rt, the command of the Rattle \
             toolchain). {VARIABLE} names another folder that has it.",
            archive.display()
        );
        exit(1);
    }
    println!("cargo:rustc-link-search=native={}", folder.display());
    println!("cargo:rustc-link-lib=static=kebrawish");
    println!("cargo:archive={}", archive.display());
}

/// The folder of the archive.
fn folder() -> PathBuf {
    match env::var_os(VARIABLE) {
        Some(folder) => PathBuf::from(folder),
        None => PathBuf::from(env::var_os("CARGO_MANIFEST_DIR").expect("the package's folder"))
            .join("../../target/staticlib"),
    }
}
