//! The arguments of a subcommand: options, then `--` or not, and operands.

use std::ffi::{OsStr, OsString};

use crate::input;
use crate::output::Stop;
use crate::visible;

/// Whether an argument is an option; standard input is none.
pub fn is_option(argument: &OsStr) -> bool {
    argument.as_encoded_bytes().starts_with(b"-") && !input::is_standard(argument)
}

/// The arguments before `--`, and those after it.
fn parted(arguments: &[OsString]) -> (&[OsString], &[OsString]) {
    match arguments.iter().position(|argument| argument == "--") {
        Some(at) => (&arguments[..at], &arguments[at + 1..]),
        None => (arguments, &[]),
    }
}

/// Whether the arguments ask for help.
pub fn ask_for_help(arguments: &[OsString]) -> bool {
    let (before, _) = parted(arguments);
    before
        .iter()
        .any(|argument| argument == "--help" || argument == "-h")
}

/// The texts that the arguments name: at least one, and standard input at most once.
pub fn files(arguments: &[OsString]) -> Result<Vec<&OsStr>, Stop> {
    let (before, after) = parted(arguments);
    if let Some(option) = before.iter().find(|argument| is_option(argument)) {
        return Err(Stop::Call(format!(
            "there is no option {}",
            visible::name(option)
        )));
    }
    let files: Vec<&OsStr> = before
        .iter()
        .chain(after)
        .map(OsString::as_os_str)
        .collect();
    if files.is_empty() {
        return Err(Stop::Call("no FILE is named".to_string()));
    }
    if files.iter().filter(|file| input::is_standard(file)).count() > 1 {
        return Err(Stop::Call("standard input (-) is named twice".to_string()));
    }
    Ok(files)
}
