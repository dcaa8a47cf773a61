//! The program `kebrawish`. Each subcommand is a module and a row of a table.

mod arguments;
mod excerpt;
mod input;
mod judge;
mod output;
mod visible;

use std::env;
use std::ffi::{OsStr, OsString};
use std::process::ExitCode;

use output::{complain, complain_of_output, Output, Status, Stop};

/// What the program can be called for.
struct Subcommand {
    name: &'static str,
    operands: &'static str,
    about: &'static str,
    /// What `--help` prints below the usage.
    help: &'static str,
    /// Takes the arguments after the name.
    run: fn(&[OsString], &mut Output) -> Result<Status, Stop>,
}

static SUBCOMMANDS: [Subcommand; 1] = [Subcommand {
    name: "judge",
    operands: "FILE...",
    about: "says of each text that it is accepted, or what is wrong with it and where",
    help: judge::HELP,
    run: judge::run,
}];

const ABOUT: &str = "Kebrawish judges CityJSON 2.0 texts by exact rules.";
const USAGE: &str = "usage: kebrawish SUBCOMMAND ARGUMENT...";
const OPTIONS: &str = "\
options:
    -h, --help    prints this; after a subcommand, what that does
    --version     prints the version";

impl Subcommand {
    fn usage(&self) -> String {
        format!("usage: kebrawish {} {}", self.name, self.operands)
    }
}

fn main() -> ExitCode {
    let arguments: Vec<OsString> = env::args_os().skip(1).collect();
    let mut out = Output::standard();
    let answered = call(&arguments, &mut out).and_then(|status| {
        out.flush()?;
        Ok(status)
    });
    let status = answered.unwrap_or_else(|stop| {
        complain_of(&stop, &arguments);
        Status::Failed
    });
    ExitCode::from(status as u8)
}

/// Does what the arguments ask for.
fn call(arguments: &[OsString], out: &mut Output) -> Result<Status, Stop> {
    let Some((first, rest)) = arguments.split_first() else {
        return Err(Stop::Call("no subcommand is named".to_string()));
    };
    match first.to_str() {
        Some("--help" | "-h") => print_help(out),
        Some("--version") => print_version(out),
        _ => run(subcommand(first)?, rest, out),
    }
}

/// Runs a subcommand, or prints its help.
fn run(chosen: &Subcommand, arguments: &[OsString], out: &mut Output) -> Result<Status, Stop> {
    match arguments::ask_for_help(arguments) {
        true => print_help_of(chosen, out),
        false => (chosen.run)(arguments, out),
    }
}

fn print_help_of(chosen: &Subcommand, out: &mut Output) -> Result<Status, Stop> {
    out.line(format_args!("{}\n\n{}", chosen.usage(), chosen.help))?;
    Ok(Status::Good)
}

fn print_help(out: &mut Output) -> Result<Status, Stop> {
    out.line(format_args!("{ABOUT}\n\n{USAGE}\n\nsubcommands:"))?;
    for row in &SUBCOMMANDS {
        let (name, operands, about) = (row.name, row.operands, row.about);
        out.line(format_args!("    {name} {operands}\n        {about}"))?;
    }
    out.line(format_args!("\n{OPTIONS}"))?;
    Ok(Status::Good)
}

fn print_version(out: &mut Output) -> Result<Status, Stop> {
    out.line(format_args!("kebrawish {}", env!("CARGO_PKG_VERSION")))?;
    Ok(Status::Good)
}

/// The subcommand of a name.
fn subcommand(name: &OsStr) -> Result<&'static Subcommand, Stop> {
    let found = SUBCOMMANDS.iter().find(|row| name == row.name);
    found.ok_or_else(|| {
        let kind = match arguments::is_option(name) {
            true => "option",
            false => "subcommand",
        };
        Stop::Call(format!("there is no {kind} {}", visible::name(name)))
    })
}

/// Says why the program ends early; after a wrong call also how it is to be called.
fn complain_of(stop: &Stop, arguments: &[OsString]) {
    let why = match stop {
        Stop::Call(why) => why,
        Stop::Output(error) => return complain_of_output(error),
    };
    let called = arguments.first().and_then(|name| subcommand(name).ok());
    let (usage, name) = match called {
        Some(row) => (row.usage(), format!("kebrawish {}", row.name)),
        None => (USAGE.to_string(), "kebrawish".to_string()),
    };
    complain(format_args!("{why}\n{usage}\n`{name} --help` says more"));
}
