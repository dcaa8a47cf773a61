//! The C header: C programs that include it are compiled, linked with the static library and
//! run. The calls of lay come with the feature `lay`. The crate for Rust is held to it.

use std::collections::BTreeMap;
use std::fs;
use std::io::{self, Write};
use std::path::{Path, PathBuf};
use std::process::Command;

use kebrawish::{Rule, ROOM_FOR_ANY};
use kebrawish_tests::c::{compile, header, library};
use kebrawish_tests::compare::LARGE_ROOM;

const PACKAGE: &str = env!("CARGO_MANIFEST_DIR");

/// A file in the folder of these tests' output.
fn output(name: &str) -> PathBuf {
    Path::new(env!("CARGO_TARGET_TMPDIR")).join(name)
}

/// Compiles a C program at a level of optimization, links it with the static library and runs
/// it.
fn run(source: &Path, level: &str, name: &str) -> std::process::Output {
    let library = library();
    let program = output(name);
    let define: &Path = if cfg!(feature = "lay") {
        Path::new("-DKEBRAWISH_LAY")
    } else {
        Path::new("-UKEBRAWISH_LAY")
    };
    let level = Path::new(level);
    let rest = [level, define, source, &library, Path::new("-o"), &program];
    compile("cc", "c99", &rest).expect("a C compiler");
    Command::new(program).output().expect("the program")
}

/// The example in the header's comment, in a file of the given name.
fn example(name: &str) -> PathBuf {
    let header = fs::read_to_string(header()).expect("the header");
    let (_, rest) = header.split_once(" * Example:\n *\n").expect("an example");
    let (example, _) = rest.split_once(" * It prints").expect("its end");
    let lines = example.lines().map(|line| {
        let code = line.strip_prefix(" *").expect("a line of the comment");
        format!("{}\n", code.strip_prefix("     ").unwrap_or(code))
    });
    let source = output(name);
    fs::write(&source, lines.collect::<String>()).expect("the example's file");
    source
}

#[test]
fn a_c_program_calls_the_library() {
    let source = Path::new(PACKAGE).join("tests/calls.c");
    for level in ["-O0", "-O2"] {
        let run = run(&source, level, &format!("calls{level}"));
        assert_eq!(
            run.status.code(),
            Some(0),
            "{level}: the number of a wrong answer"
        );
    }
}

#[test]
#[cfg(feature = "lay")]
fn the_example_runs() {
    let run = run(&example("run.c"), "-O0", "example");
    assert_eq!(run.status.code(), Some(0));
    let line = String::from_utf8_lossy(&run.stdout);
    assert_eq!(line, "laid 78 bytes, objects 0\n");
    let header = fs::read_to_string(header()).expect("the header");
    assert!(header.contains(&format!(" * It prints `{}`.", line.trim_end())));
}

#[test]
fn the_example_compiles_as_c_and_as_cpp() {
    let source = example("checked.c");
    let check = Path::new("-fsyntax-only");
    compile("cc", "c99", &[check, &source]).expect("a C compiler");
    let cpp = [check, Path::new("-x"), Path::new("c++"), &source];
    if compile("c++", "c++11", &cpp).is_none() {
        let _ = writeln!(io::stderr(), "not tried: the header in C++ (no c++ here)");
    }
}

/// The words of the rules in the header's table, by their numbers. Two rules have a line.
fn words(header: &str) -> BTreeMap<u32, String> {
    let mut words = BTreeMap::new();
    for line in header.lines().filter_map(|line| line.strip_prefix(" *")) {
        let cells = line.split("  ").map(str::trim);
        let cells: Vec<&str> = cells.filter(|cell| !cell.is_empty()).collect();
        for pair in cells.chunks_exact(2) {
            if let Ok(number) = pair[0].parse() {
                words.insert(number, pair[1].to_string());
            }
        }
    }
    words
}

/// `nm` comes with the C compiler.
#[test]
fn the_library_needs_of_others_what_the_header_says() {
    let run = Command::new("nm")
        .arg("-u")
        .arg(library())
        .output()
        .expect("nm");
    assert!(
        run.status.success(),
        "{}",
        String::from_utf8_lossy(&run.stderr)
    );
    let said = String::from_utf8(run.stdout).expect("names");
    let needed: Vec<&str> = said
        .lines()
        .filter_map(|line| line.trim_start().strip_prefix("U "))
        .collect();
    assert_eq!(needed, ["memcpy", "memset"]);
    let header = fs::read_to_string(header()).expect("the header");
    assert!(header.contains("Of other libraries it needs C's memcpy and memset alone."));
}

#[test]
fn the_crate_has_the_rules_of_the_header() {
    let header = fs::read_to_string(header()).expect("the header");
    let own = Rule::ALL.map(|rule| match rule {
        Rule::NoRoom => (rule.number(), format!("{rule} (lay only)")),
        _ => (rule.number(), rule.to_string()),
    });
    assert_eq!(words(&header), BTreeMap::from(own));
}

/// `calls.c` has the same number for the header.
#[test]
fn the_crate_has_the_room_of_the_header() {
    assert_eq!((ROOM_FOR_ANY, LARGE_ROOM), (262_140, 262_140));
}
