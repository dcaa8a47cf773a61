//! What the program says: answers on standard output, errors on standard error, and its status.

use std::env;
use std::fmt::Display;
use std::io::{self, BufWriter, ErrorKind, IsTerminal, StdoutLock, Write};

/// The status with which the program ends: the greatest of its parts'.
#[derive(Clone, Copy, Debug, PartialEq, Eq, PartialOrd, Ord)]
pub enum Status {
    /// All is well.
    Good = 0,
    /// A text is refused.
    Refused = 1,
    /// A text can't be read, the answer can't be written, or the call is wrong.
    Failed = 2,
}

/// Why the program can't go on.
pub enum Stop {
    /// The call is wrong, and how.
    Call(String),
    /// Standard output can't be written.
    Output(io::Error),
}

impl From<io::Error> for Stop {
    fn from(error: io::Error) -> Stop {
        Stop::Output(error)
    }
}

/// Says an error at once, if standard error can be written.
pub fn complain(words: impl Display) {
    let line = format!("kebrawish: {words}\n");
    let _ = io::stderr().write_all(line.as_bytes());
}

/// An error of the system in its words, without its number.
pub fn reason(error: &io::Error) -> String {
    let words = error.to_string();
    match words.split_once(" (os error ") {
        Some((words, _)) => words.to_string(),
        None => words,
    }
}

/// Says that standard output can't be written; not if its reader has gone.
pub fn complain_of_output(error: &io::Error) {
    if error.kind() != ErrorKind::BrokenPipe {
        complain(format_args!("standard output: {}", reason(error)));
    }
}

/// How words are painted on a terminal.
#[derive(Clone, Copy)]
pub enum Paint {
    Place,
    Good,
    Fault,
}

impl Paint {
    /// The terminal's codes for it.
    fn codes(self) -> &'static str {
        match self {
            Paint::Place => "1",
            Paint::Good => "32",
            Paint::Fault => "1;31",
        }
    }
}

/// Standard output.
pub struct Output {
    writer: BufWriter<StdoutLock<'static>>,
    is_painted: bool,
}

impl Output {
    /// Standard output, with colours if it is a terminal that takes them, unless NO_COLOR is set.
    pub fn standard() -> Output {
        let is_set = |name: &str| env::var_os(name).is_some_and(|value| !value.is_empty());
        let is_dumb = env::var_os("TERM").is_some_and(|value| value == "dumb");
        let stdout = io::stdout();
        let is_painted = stdout.is_terminal() && !is_set("NO_COLOR") && !is_dumb;
        Output {
            writer: BufWriter::new(stdout.lock()),
            is_painted,
        }
    }

    pub fn line(&mut self, words: impl Display) -> io::Result<()> {
        writeln!(self.writer, "{words}")
    }

    pub fn flush(&mut self) -> io::Result<()> {
        self.writer.flush()
    }

    /// Words with their colour, if there are colours.
    pub fn painted(&self, paint: Paint, words: impl Display) -> String {
        match self.is_painted {
            true => format!("\x1B[{}m{words}\x1B[0m", paint.codes()),
            false => words.to_string(),
        }
    }
}
