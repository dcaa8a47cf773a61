//! The lister, run by its script: the bytes that it prints are those of the reader's program.

use std::env;
use std::fs::{self, File, OpenOptions};
use std::io::{ErrorKind, Write};
use std::os::unix::fs::symlink;
use std::path::{Path, PathBuf};
use std::process::{Command, Output, Stdio};
use std::thread;
use std::time::Duration;

use kebrawish_tests::compare::shown;
use kebrawish_tests::pages::root;
use kebrawish_tests::samples::{self, document, MINIMAL};
use kebrawish_tests::TEXT_LIMIT;

/// The lister, away from the repository's root.
fn lister() -> Command {
    let mut command = Command::new(root().join("lister"));
    command.current_dir(env!("CARGO_TARGET_TMPDIR"));
    command
}

/// Runs a program on a text that comes in pieces of so many bytes, with a pause after each
/// if there are several. It need not read the whole text.
fn run(mut command: Command, text: &[u8], piece: usize) -> Output {
    let mut child = command
        .stdin(Stdio::piped())
        .stdout(Stdio::piped())
        .stderr(Stdio::piped())
        .spawn()
        .expect("the program");
    let mut input = child.stdin.take().expect("its standard input");
    for part in text.chunks(piece) {
        match input.write_all(part) {
            Err(error) if error.kind() == ErrorKind::BrokenPipe => break,
            written => written.expect("the text is taken"),
        }
        if part.len() < text.len() {
            thread::sleep(Duration::from_micros(500));
        }
    }
    drop(input);
    child.wait_with_output().expect("its answer")
}

/// The line that both print for a text in such pieces.
fn line(text: &[u8], piece: usize) -> String {
    let output = run(lister(), text, piece);
    let said = String::from_utf8_lossy(&output.stderr);
    assert!(output.status.success(), "{said}\n{}", shown(text));
    let reader = Command::new(env!("CARGO_BIN_EXE_reader"));
    let expected = run(reader, text, text.len().max(1));
    assert_eq!(output.stdout, expected.stdout, "{}", shown(text));
    String::from_utf8(output.stdout).expect("a line")
}

fn example(name: &str) -> Vec<u8> {
    fs::read(root().join("examples").join(name)).expect("an example")
}

/// The minimal object with spaces after it, so many bytes in all.
fn padded(length: usize) -> Vec<u8> {
    let mut text = MINIMAL.as_bytes().to_vec();
    text.resize(length, b' ');
    text
}

#[test]
fn sample_readings() {
    for (text, _) in samples::readings() {
        line(&text, text.len().max(1));
    }
    assert_eq!(line(MINIMAL.as_bytes(), 1), "laid 78 bytes, objects 0\n");
    assert_eq!(line(b"{}", 1), "refused 8 at 0 to 2\n");
    assert_eq!(line(br#"{"a":1,"a":2}"#, 1), "refused 6 at 7 to 10\n");
    assert_eq!(line(b"", 1), "refused 3 at 0 to 0\n");
}

#[test]
fn examples() {
    let print = |name: &str| line(&example(name), usize::MAX);
    assert_eq!(print("minimal.city.json"), "laid 78 bytes, objects 0\n");
    assert_eq!(print("kiosk.city.json"), "laid 133 bytes, objects 1\n");
    assert_eq!(print("quarter.city.json"), "laid 1777 bytes, objects 9\n");
    assert_eq!(print("refused.city.json"), "refused 17 at 251 to 258\n");
}

#[test]
fn a_slow_pipe() {
    let market = example("quarter.city.json");
    assert_eq!(line(&market, 7), "laid 1777 bytes, objects 9\n");
    assert_eq!(line(&padded(TEXT_LIMIT), 97), "laid 78 bytes, objects 0\n");
    assert_eq!(line(&padded(200_000), 97), "refused 1 at 65535 to 65535\n");
}

#[test]
fn long_texts() {
    let print = |length: usize| line(&padded(length), usize::MAX);
    assert_eq!(print(TEXT_LIMIT), "laid 78 bytes, objects 0\n");
    assert_eq!(print(TEXT_LIMIT + 1), "refused 1 at 65535 to 65535\n");
    assert_eq!(print(TEXT_LIMIT + 2), "refused 1 at 65535 to 65535\n");
    assert_eq!(print(200_000), "refused 1 at 65535 to 65535\n");
    assert_eq!(
        line(&vec![0xFF; 65_536], usize::MAX),
        "refused 1 at 65535 to 65535\n"
    );
    assert_eq!(line(&vec![0xFF; 65_535], usize::MAX), "refused 2 at 0 to 0\n");
}

/// Kinds 1, 2 and 9 are 78 bytes and 12 a vertex: 5,454 fit in 65,536 bytes.
#[test]
fn a_sheet_that_does_not_fit() {
    let vertices = |count: usize| vec!["[0,0,0]"; count].join(",");
    let print = |count: usize| line(document("", &vertices(count)).as_bytes(), usize::MAX);
    assert_eq!(print(5_454), "laid 65526 bytes, objects 0\n");
    assert_eq!(print(5_455), "refused 18 at 0 to 0\n");
}

/// Reading a folder fails, and so does writing to a full device: there is no line then, a
/// message on standard error, and a status that is not 0.
#[test]
fn input_and_output_that_fail() {
    let folder = File::open(root()).expect("a folder");
    let read = lister().stdin(folder).output().expect("the lister");
    let said = String::from_utf8_lossy(&read.stderr);
    assert!(!read.status.success() && read.stdout.is_empty(), "{said}");
    assert!(said.contains("lister: standard input: "), "{said}");

    let full = OpenOptions::new().write(true).open("/dev/full");
    let text = File::open(root().join("examples/minimal.city.json")).expect("an example");
    let written = lister()
        .stdin(text)
        .stdout(full.expect("a full device"))
        .output()
        .expect("the lister");
    let said = String::from_utf8_lossy(&written.stderr);
    assert!(!written.status.success() && !said.is_empty(), "{said}");
}

/// Arguments are refused with a line of usage and status 2, and a text is not waited for.
#[test]
fn arguments() {
    for argument in ["examples/kiosk.city.json", "--help", ""] {
        let text = File::open(root().join("examples/minimal.city.json")).expect("an example");
        let output = lister().arg(argument).stdin(text).output().expect("the lister");
        assert_eq!(output.status.code(), Some(2));
        let said = String::from_utf8_lossy(&output.stderr);
        assert!(output.stdout.is_empty() && said.starts_with("usage: ") && said.lines().count() == 1, "{said}");
    }
}

/// Without standard input, and where the program is not built and `rt` is not there, one clear
/// line says so.
#[test]
fn what_is_missing() {
    let shell = |line: &str| {
        let mut command = Command::new("sh");
        command.arg("-c").arg(line).arg(root().join("lister"));
        command.output().expect("a shell")
    };
    let closed = shell(r#""$0" <&-"#);
    let said = String::from_utf8_lossy(&closed.stderr);
    assert_eq!((closed.status.code(), said.trim_end()), (Some(1), "lister: standard input: it is closed"));

    // A copy of the script with nothing built beside it, and a path that has no rt.
    let folder = Path::new(env!("CARGO_TARGET_TMPDIR")).join("not-built");
    let _ = fs::remove_dir_all(&folder);
    fs::create_dir_all(folder.join("tools")).expect("a folder");
    for file in ["lister", "tools/first-use.sh"] {
        fs::copy(root().join(file), folder.join(file)).expect("a copy");
    }
    let folders: Vec<PathBuf> = env::split_paths(&env::var_os("PATH").expect("a path")).collect();
    for tool in ["bash", "dirname", "readlink", "find"] {
        let mut places = folders.iter().map(|folder| folder.join(tool));
        let place = places.find(|place| place.exists()).expect(tool);
        symlink(place, folder.join(tool)).expect(tool);
    }
    let mut command = Command::new(folder.join("lister"));
    let command = command.env("PATH", &folder).stdin(Stdio::null());
    let output = command.output().expect("the copy");
    let said = String::from_utf8_lossy(&output.stderr);
    assert!(!output.status.success() && output.stdout.is_empty());
    assert!(said.contains("rt, the command of the Rattle toolchain") && said.lines().count() == 1, "{said}");
}
