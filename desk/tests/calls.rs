//! How `kebrawish` is called: help, version, wrong calls, terminals, and output that fails.

mod common;

use std::ffi::{c_char, c_int, CStr};
use std::fs::{File, OpenOptions};
use std::io::{self, Read};
use std::os::fd::FromRawFd;

use common::{check, lines, Desk};

#[test]
fn help() {
    let desk = Desk::new("help", &[]);
    let expected = lines(&[
        "Kebrawish judges CityJSON 2.0 texts by exact rules.",
        "",
        "usage: kebrawish SUBCOMMAND ARGUMENT...",
        "",
        "subcommands:",
        "    judge FILE...",
        "        says of each text that it is accepted, or what is wrong with it and where",
        "",
        "options:",
        "    -h, --help    prints this; after a subcommand, what that does",
        "    --version     prints the version",
    ]);
    for argument in ["--help", "-h"] {
        check(&desk.run(&[argument]), 0, &expected, "");
    }
}

#[test]
fn help_of_judge() {
    let desk = Desk::new("help-judge", &[]);
    let found = desk.run(&["judge", "--help"]);
    let printed = String::from_utf8(found.stdout.clone()).expect("UTF-8");
    check(&found, 0, &printed, "");
    assert!(printed.starts_with("usage: kebrawish judge FILE...\n\nJudges each FILE"));
    assert!(printed.ends_with("or the call is wrong\n"));
    assert!(printed.lines().all(|line| line.chars().count() <= 80));
    // Its example is what is printed of the example.
    let example = concat!(env!("CARGO_MANIFEST_DIR"), "/../examples/refused.city.json");
    let shown = String::from_utf8(desk.run(&["judge", example]).stdout).expect("UTF-8");
    let shown: Vec<String> = shown.lines().map(|line| format!("    {line}\n")).collect();
    assert!(
        printed.contains(&shown.concat().replace(example, "FILE")),
        "{printed}"
    );

    for arguments in [&["judge", "-h"][..], &["judge", "none.json", "--help"]] {
        check(&desk.run(arguments), 0, &printed, "");
    }
}

#[test]
fn version() {
    let desk = Desk::new("version", &[]);
    check(&desk.run(&["--version"]), 0, "kebrawish 0.1.0\n", "");
}

#[test]
fn wrong_calls() {
    let desk = Desk::new("wrong", &[("-", b"{}")]);
    let of_all = |why: &str| {
        let usage = "usage: kebrawish SUBCOMMAND ARGUMENT...";
        lines(&[
            &format!("kebrawish: {why}"),
            usage,
            "`kebrawish --help` says more",
        ])
    };
    check(
        &desk.run::<&str>(&[]),
        2,
        "",
        &of_all("no subcommand is named"),
    );
    check(
        &desk.run(&["jugde", "a.json"]),
        2,
        "",
        &of_all("there is no subcommand jugde"),
    );
    check(
        &desk.run(&[""]),
        2,
        "",
        &of_all("there is no subcommand ''"),
    );
    check(
        &desk.run(&["--colour"]),
        2,
        "",
        &of_all("there is no option --colour"),
    );
    check(&desk.run(&["-x"]), 2, "", &of_all("there is no option -x"));
    check(
        &desk.run(&["\x1B[1m"]),
        2,
        "",
        &of_all("there is no subcommand ␛[1m"),
    );

    let of_judge = |why: &str| {
        let usage = "usage: kebrawish judge FILE...";
        lines(&[
            &format!("kebrawish: {why}"),
            usage,
            "`kebrawish judge --help` says more",
        ])
    };
    check(&desk.run(&["judge"]), 2, "", &of_judge("no FILE is named"));
    check(
        &desk.run(&["judge", "--"]),
        2,
        "",
        &of_judge("no FILE is named"),
    );
    check(
        &desk.run(&["judge", "-q", "a.json"]),
        2,
        "",
        &of_judge("there is no option -q"),
    );
    check(
        &desk.run(&["judge", "a.json", "--all"]),
        2,
        "",
        &of_judge("there is no option --all"),
    );
    let twice = of_judge("standard input (-) is named twice");
    check(&desk.run(&["judge", "-", "a.json", "-"]), 2, "", &twice);
    // A file of that name can be named in another way.
    let printed = "./-:1:1: refused 8: required member absent\n 1 | {}\n   | ^^\n";
    check(&desk.run(&["judge", "./-"]), 1, printed, "");
}

/// Whoever reads the answers may leave; that a device is full is said.
#[test]
fn output_that_fails() {
    let desk = Desk::new("output", &[("a.json", b"[]")]);
    let (reader, writer) = io::pipe().expect("a pipe");
    drop(reader);
    let mut command = desk.command(&["judge", "a.json", "a.json"]);
    check(
        &command.stdout(writer).output().expect("the program"),
        2,
        "",
        "",
    );

    let said = "kebrawish: standard output: No space left on device\n";
    for arguments in [&["judge", "a.json"][..], &["--help"], &["judge", "--help"]] {
        let full = OpenOptions::new()
            .write(true)
            .open("/dev/full")
            .expect("a full device");
        let mut command = desk.command(arguments);
        check(
            &command.stdout(full).output().expect("the program"),
            2,
            "",
            said,
        );
    }
}

/// A terminal, if there are any here, and the path of the side on which programs run.
fn terminal() -> Option<(File, String)> {
    extern "C" {
        fn posix_openpt(flags: c_int) -> c_int;
        fn grantpt(terminal: c_int) -> c_int;
        fn unlockpt(terminal: c_int) -> c_int;
        fn ptsname_r(terminal: c_int, path: *mut c_char, length: usize) -> c_int;
    }
    let mut path = [0; 64];
    // Safety: C's functions for terminals; the path's room is as long as is said, and the
    // descriptor is a new one.
    let terminal = unsafe {
        // To be read and written, and not to become the tests' own terminal.
        let terminal = posix_openpt(0o2 | 0o400);
        if terminal < 0 {
            return None;
        }
        assert!(grantpt(terminal) == 0 && unlockpt(terminal) == 0);
        assert_eq!(ptsname_r(terminal, path.as_mut_ptr(), path.len()), 0);
        File::from_raw_fd(terminal)
    };
    let path = path.map(|byte| byte as u8);
    let path = CStr::from_bytes_until_nul(&path).expect("a path");
    Some((terminal, path.to_str().expect("UTF-8").to_string()))
}

/// What judge prints on a terminal with such variables, if there is a terminal.
fn on_a_terminal(desk: &Desk, files: &[&str], variables: &[(&str, &str)]) -> Option<String> {
    let (mut terminal, path) = terminal()?;
    let side = OpenOptions::new()
        .read(true)
        .write(true)
        .open(path)
        .expect("its side");
    let mut command = desk.command(&[&["judge"], files].concat());
    command
        .env_remove("NO_COLOR")
        .env("TERM", "xterm")
        .envs(variables.iter().copied());
    command.stdout(side).status().expect("the program");
    drop(command);
    // After what was printed comes an error, since nobody has the other side any more.
    let mut printed = Vec::new();
    let _ = terminal.read_to_end(&mut printed);
    let printed = String::from_utf8(printed).expect("UTF-8");
    Some(printed.replace("\r\n", "\n"))
}

#[test]
fn colours_on_a_terminal_only() {
    let good = r#"{"type":"CityJSON","version":"2.0","CityObjects":{},"vertices":[],
        "transform":{"scale":[1,1,1],"translate":[0,0,0]}}"#;
    let desk = Desk::new(
        "colours",
        &[("good.json", good.as_bytes()), ("bad.json", b"[\x1B]")],
    );
    let files = ["good.json", "bad.json"];
    let plain = lines(&[
        "good.json: accepted, objects 0",
        "bad.json:1:2: refused 3: not JSON",
        " 1 | [␛]",
        "   |  ^",
    ]);
    let coloured = lines(&[
        "good.json: \x1B[32maccepted\x1B[0m, objects 0",
        "\x1B[1mbad.json:1:2:\x1B[0m \x1B[1;31mrefused 3\x1B[0m: not JSON",
        " 1 | [␛]",
        "   |  \x1B[1;31m^\x1B[0m",
    ]);
    check(
        &desk.run(&["judge", "good.json", "bad.json"]),
        1,
        &plain,
        "",
    );
    let cases: [(&[(&str, &str)], &String); 4] = [
        (&[], &coloured),
        (&[("NO_COLOR", "")], &coloured),
        (&[("NO_COLOR", "1")], &plain),
        (&[("TERM", "dumb")], &plain),
    ];
    for (variables, expected) in cases {
        let Some(printed) = on_a_terminal(&desk, &files, variables) else {
            eprintln!("not tried: colours on a terminal (there are none here)");
            return;
        };
        assert_eq!(&printed, expected);
    }
}
