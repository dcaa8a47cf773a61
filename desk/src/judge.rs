//! `kebrawish judge FILE...`: says of each text that it is accepted, or what is wrong with it
//! and where.

use std::ffi::{OsStr, OsString};
use std::io;

use kebrawish::Refusal;

use crate::arguments;
use crate::excerpt::excerpt;
use crate::input;
use crate::output::{complain, reason, Output, Paint, Status, Stop};

pub const HELP: &str = "\
Judges each FILE, a CityJSON 2.0 text (- is standard input), and prints

    FILE: accepted, objects 9

if it breaks no rule, with the number of its city objects, or else

    FILE:10:50: refused 17: one-sided link
     10 |     \"shed\": {\"type\": \"BuildingPart\", \"parents\": [\"house\"]}
        |                                                  ^^^^^^^

with the line, the column and the rule, and carets under the value or the name
that is at fault, or one caret at the place, for the rules 1 to 5. No rule with
a lower number is broken, and this one not earlier: mend it, and judge again.
docs/RULES.md has every rule with its usual cause.

Lines and columns count from 1, and columns are characters. At most 100 columns
of a line are shown, with ... where it is cut; carets end with the line. A tab
is shown as a space, a control character as a picture, and what can't be seen or
is not UTF-8 as \u{FFFD}. Colours are for terminals, and not if NO_COLOR is set.

options:
    -h, --help    prints this
    --            what follows is a FILE, also if it begins with -

status: 0 if every text is accepted, 1 if one is refused, 2 if one can't be read
or an answer written, or the call is wrong";

/// Judges the texts that the arguments name, each whatever became of those before it.
pub fn run(arguments: &[OsString], out: &mut Output) -> Result<Status, Stop> {
    let mut status = Status::Good;
    for file in arguments::files(arguments)? {
        status = status.max(judge(file, out)?);
        out.flush()?;
    }
    Ok(status)
}

fn judge(file: &OsStr, out: &mut Output) -> io::Result<Status> {
    let name = input::name(file);
    let text = match input::read(file) {
        Ok(text) => text,
        Err(error) => {
            complain(format_args!("{name}: {}", reason(&error)));
            return Ok(Status::Failed);
        }
    };
    match kebrawish::judge(&text) {
        Ok(accepted) => {
            let word = out.painted(Paint::Good, "accepted");
            out.line(format_args!("{name}: {word}, objects {}", accepted.objects))?;
            Ok(Status::Good)
        }
        Err(refusal) => {
            show(&name, &text, &refusal, out)?;
            Ok(Status::Refused)
        }
    }
}

/// Prints a refusal, the line in which its place stands, and carets under the fault.
fn show(name: &str, text: &[u8], refusal: &Refusal, out: &mut Output) -> io::Result<()> {
    let fault = excerpt(text, refusal.range());
    let place = format!("{name}:{}:{}:", fault.line, fault.column);
    let place = out.painted(Paint::Place, place);
    let answer = format!("refused {}", refusal.rule.number());
    let answer = out.painted(Paint::Fault, answer);
    out.line(format_args!("{place} {answer}: {}", refusal.rule))?;

    let line = fault.line.to_string();
    let margin = " ".repeat(line.len());
    let gap = if fault.shown.is_empty() { "" } else { " " };
    out.line(format_args!(" {line} |{gap}{}", fault.shown))?;
    let indent = " ".repeat(fault.indent);
    let carets = out.painted(Paint::Fault, "^".repeat(fault.carets));
    out.line(format_args!(" {margin} | {indent}{carets}"))
}
