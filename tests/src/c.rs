//! Programs in C that include the header and are linked with the static library.

use std::io::ErrorKind;
use std::path::{Path, PathBuf};
use std::process::Command;

/// The options under which the header has to pass.
const STRICT: [&str; 4] = ["-Wall", "-Wextra", "-Werror", "-pedantic"];

/// The C header.
pub fn header() -> PathBuf {
    Path::new(env!("CARGO_MANIFEST_DIR")).join("../include/kebrawish.h")
}

/// The static library.
pub fn library() -> PathBuf {
    PathBuf::from(env!("KEBRAWISH_ARCHIVE"))
}

/// A compiler with the options and the header's folder; none if it is not installed.
pub fn compile(compiler: &str, standard: &str, rest: &[&Path]) -> Option<()> {
    let run = Command::new(compiler)
        .arg(format!("-std={standard}"))
        .args(STRICT)
        .arg("-I")
        .arg(header().parent().expect("the header's folder"))
        .args(rest)
        .output();
    let run = match run {
        Err(error) if error.kind() == ErrorKind::NotFound => return None,
        run => run.expect("the compiler"),
    };
    let said = String::from_utf8_lossy(&run.stderr);
    assert!(run.status.success(), "{compiler}: {said}");
    Some(())
}
