//! Runs the program in a folder of its own. Not every file of tests needs all of it.

#![allow(dead_code)]

use std::ffi::OsStr;
use std::fs::{self, File};
use std::path::{Path, PathBuf};
use std::process::{Command, Output};

/// A folder of one test.
pub struct Desk {
    pub folder: PathBuf,
}

impl Desk {
    /// A new folder of this name with such files.
    pub fn new(name: &str, files: &[(&str, &[u8])]) -> Desk {
        let folder = Path::new(env!("CARGO_TARGET_TMPDIR")).join(name);
        let _ = fs::remove_dir_all(&folder);
        fs::create_dir_all(&folder).expect("a folder");
        for (file, text) in files {
            fs::write(folder.join(file), text).expect("a file");
        }
        Desk { folder }
    }

    /// The program with such arguments, in the folder and with nothing on standard input.
    pub fn command<A: AsRef<OsStr>>(&self, arguments: &[A]) -> Command {
        let mut command = Command::new(env!("CARGO_BIN_EXE_kebrawish"));
        command
            .args(arguments)
            .current_dir(&self.folder)
            .stdin(File::open("/dev/null").unwrap());
        command
    }

    pub fn run<A: AsRef<OsStr>>(&self, arguments: &[A]) -> Output {
        self.command(arguments).output().expect("the program")
    }
}

/// Its folder goes with it: a crates.txt in it would be taken for one of the repository's by a later `rt ci`.
impl Drop for Desk {
    fn drop(&mut self) {
        let _ = fs::remove_dir_all(&self.folder);
    }
}

/// Checks the status and what is printed on standard output and standard error.
#[track_caller]
pub fn check(found: &Output, status: i32, printed: &str, said: &str) {
    assert_eq!(String::from_utf8_lossy(&found.stdout), printed);
    assert_eq!(String::from_utf8_lossy(&found.stderr), said);
    assert_eq!(found.status.code(), Some(status));
}

/// Lines, each with its end.
pub fn lines(lines: &[&str]) -> String {
    lines.iter().flat_map(|line| [*line, "\n"]).collect()
}
