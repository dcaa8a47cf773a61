//! Reads a text on standard input and prints one line: the lister's, with a room of
//! 65,536 bytes, or with `--judge` the answer of judge. With `--dump` it prints the sheet of an
//! accepted text as a hex dump in place of the line.

use std::io::{self, Read};
use std::process::ExitCode;

use kebrawish_tests::dump::dump;
use kebrawish_tests::{judge, lay, read, sheet, Verdict};

const ROOM: usize = 65_536;

/// What is to be printed.
#[derive(Clone, Copy, PartialEq)]
enum Print {
    Laid,
    Judged,
    Dump,
}

fn main() -> ExitCode {
    let arguments: Vec<String> = std::env::args().skip(1).collect();
    let arguments: Vec<&str> = arguments.iter().map(String::as_str).collect();
    let print = match arguments.as_slice() {
        [] => Print::Laid,
        ["--judge"] => Print::Judged,
        ["--dump"] => Print::Dump,
        _ => {
            eprintln!("usage: reader [--judge | --dump] < TEXT");
            return ExitCode::from(2);
        }
    };
    let mut text = Vec::new();
    if let Err(error) = io::stdin().read_to_end(&mut text) {
        eprintln!("reader: {error}");
        return ExitCode::from(2);
    }
    if let (Print::Dump, Ok(model)) = (print, read(&text)) {
        print!("{}", dump(&sheet::encode(&model)));
        return ExitCode::SUCCESS;
    }
    let verdict = match print {
        Print::Laid => lay(&text, ROOM).0,
        Print::Judged | Print::Dump => judge(&text),
    };
    match verdict {
        Verdict::Refused { rule, place, end } => println!("refused {rule} at {place} to {end}"),
        Verdict::Accepted { length, objects } if print == Print::Laid => {
            println!("laid {length} bytes, objects {objects}")
        }
        Verdict::Accepted { objects, .. } => println!("accepted, objects {objects}"),
    }
    ExitCode::SUCCESS
}
