//! With the feature `library`, tells the tests which archive the crate `kebrawish` links.

use std::env;

fn main() {
    println!("cargo:rerun-if-changed=build.rs");
    if let Ok(archive) = env::var("DEP_KEBRAWISH_ARCHIVE") {
        println!("cargo:rustc-env=KEBRAWISH_ARCHIVE={archive}");
    }
}
