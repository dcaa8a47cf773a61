//! `./kebrawish`: builds on first use and when a source has changed, and runs what was built.
//! Here it runs in a folder of its own, with other commands in place of `rt` and `cargo`.

mod common;

use std::env;
use std::fs::{self, File};
use std::iter;
use std::os::unix::fs::{symlink, PermissionsExt};
use std::path::{Path, PathBuf};
use std::process::{Command, Output, Stdio};

use common::{check, lines, Desk};

/// In place of `rt`: says how it was called, takes a moment, and writes an archive in the crate's folder.
const RT: &str = "#!/bin/sh
echo \"rt $*, input $(cat)\"
sleep 0.2
test ! -e ../../fails && mkdir -p out && touch out/libkebrawish.a
";

/// In place of `cargo`: says how it was called, and writes a program that says how it was called.
const CARGO: &str = "#!/bin/sh
echo \"cargo $1, ${KEBRAWISH_STATICLIB#\"$PWD\"/}\"
mkdir -p target/desk/release
cat > target/desk/release/kebrawish <<'END'
#!/bin/sh
printf '<%s>' \"$@\"
cat
exit 7
END
chmod +x target/desk/release/kebrawish
";

const BUILDING: [&str; 3] = [
    "kebrawish: proving and building it (some minutes if nothing is proved yet)",
    "rt lib --cpu x86-64, input ",
    "cargo build, target/staticlib",
];

fn write_program(path: PathBuf, text: &str) {
    fs::write(&path, text).expect("a program");
    fs::set_permissions(&path, fs::Permissions::from_mode(0o755)).expect("its permissions");
}

/// A repository with the script and some sources, and the folder `commands` beside them.
fn repository(name: &str) -> Desk {
    let desk = Desk::new(name, &[("crates.txt", b""), ("text", b"the text")]);
    let here = Path::new(env!("CARGO_MANIFEST_DIR")).join("..");
    for folder in [
        "tools",
        "commands",
        "crates/one/src",
        "crates/one/specs",
        "crates/one/proofs",
        "crates/kebrawish",
        "rust/kebrawish/src",
        "desk/src",
    ] {
        fs::create_dir_all(desk.folder.join(folder)).expect("a folder");
    }
    for file in ["kebrawish", "tools/first-use.sh", "tools/archive.sh"] {
        fs::copy(here.join(file), desk.folder.join(file)).expect("a copy");
    }
    write_program(desk.folder.join("commands/rt"), RT);
    write_program(desk.folder.join("commands/cargo"), CARGO);
    desk
}

/// The script of a repository by such a path, away from it and with `commands` before others.
fn script(desk: &Desk, path: &Path) -> Command {
    let paths = env::var_os("PATH").expect("a path");
    let folders = iter::once(desk.folder.join("commands")).chain(env::split_paths(&paths));
    // By name, since a file that was written just now may still be busy.
    let mut command = Command::new("bash");
    command.arg(path).current_dir("/");
    command.env("PATH", env::join_paths(folders).expect("a path"));
    command.env("KEBRAWISH_STATICLIB", "/elsewhere");
    command.stdin(File::open(desk.folder.join("text")).expect("the text"));
    command
}

fn run(desk: &Desk) -> Output {
    let mut command = script(desk, &desk.folder.join("kebrawish"));
    command
        .args(["judge", "a b", "-"])
        .output()
        .expect("the script")
}

const RAN: &str = "<judge><a b><->the text";

/// Arguments, standard input and status are the program's, and a build is said on standard error.
#[test]
fn builds_on_first_use_and_after_changes() {
    let desk = repository("script");
    check(&run(&desk), 7, RAN, &lines(&BUILDING));
    check(&run(&desk), 7, RAN, "");
    for source in [
        "crates.txt",
        "crates/one/src/a.txt",
        "crates/one/specs/a.txt",
        "crates/one/proofs/a.txt",
        "rust/kebrawish/src/lib.rs",
        "desk/src/judge.rs",
    ] {
        fs::write(desk.folder.join(source), "changed").expect("a source");
        check(&run(&desk), 7, RAN, &lines(&BUILDING));
        check(&run(&desk), 7, RAN, "");
    }
    // What cargo leaves and takes away is no source.
    let left = desk.folder.join("desk/target");
    fs::create_dir(&left).expect("a folder");
    fs::write(left.join("left"), "").expect("a file");
    check(&run(&desk), 7, RAN, "");
    fs::remove_dir_all(&left).expect("the folder");
    check(&run(&desk), 7, RAN, "");
    fs::remove_file(desk.folder.join("target/desk/release/kebrawish")).expect("the program");
    check(&run(&desk), 7, RAN, &lines(&BUILDING));
}

#[test]
fn can_be_run() {
    let script = Path::new(env!("CARGO_MANIFEST_DIR")).join("../kebrawish");
    let permissions = fs::metadata(script).expect("the script").permissions();
    assert_eq!(permissions.mode() & 0o111, 0o111);
}

#[test]
fn runs_through_a_link() {
    let desk = repository("script-link");
    let link = desk.folder.join("desk/link");
    symlink("../kebrawish", &link).expect("a link");
    let found = script(&desk, &link).arg("-").output().expect("the script");
    check(&found, 7, "<->the text", &lines(&BUILDING));
}

#[test]
fn builds_once_for_several() {
    let desk = repository("script-several");
    let start = || {
        let mut command = script(&desk, &desk.folder.join("kebrawish"));
        command
            .stdout(Stdio::piped())
            .stderr(Stdio::piped())
            .spawn()
            .expect("the script")
    };
    let children: Vec<_> = (0..3).map(|_| start()).collect();
    let found = children
        .into_iter()
        .map(|child| child.wait_with_output().expect("its answer"));
    let found: Vec<Output> = found.collect();
    assert!(found.iter().all(|output| output.status.code() == Some(7)));
    let said: Vec<u8> = found.into_iter().flat_map(|output| output.stderr).collect();
    assert_eq!(String::from_utf8_lossy(&said), lines(&BUILDING));
}

/// A build that fails is no answer, and is tried again.
#[test]
fn builds_that_fail() {
    let desk = repository("script-fails");
    let fails = desk.folder.join("fails");
    fs::write(&fails, "").expect("a file");
    let why = "kebrawish: rt could not build the library";
    for _ in 0..2 {
        check(&run(&desk), 2, "", &lines(&[BUILDING[0], BUILDING[1], why]));
    }
    fs::remove_file(&fails).expect("a file");
    write_program(desk.folder.join("commands/cargo"), "#!/bin/sh\nexit 101\n");
    let why = "kebrawish: cargo could not build the program";
    check(&run(&desk), 2, "", &lines(&[BUILDING[0], BUILDING[1], why]));
    write_program(desk.folder.join("commands/cargo"), CARGO);
    check(&run(&desk), 7, RAN, &lines(&BUILDING));
}

/// Where nothing can be built there is no answer either.
#[test]
fn a_folder_that_cannot_be_made() {
    let desk = repository("script-file");
    fs::write(desk.folder.join("target"), "no folder").expect("a file");
    let found = run(&desk);
    assert_eq!((found.status.code(), &*found.stdout), (Some(2), &b""[..]));
    assert!(!found.stderr.is_empty());
}

/// Each command that the build needs is named if it is missing.
#[test]
fn what_is_missing() {
    let desk = repository("script-missing");
    let few = desk.folder.join("few");
    fs::create_dir(&few).expect("a folder");
    let path = env::var_os("PATH").expect("a path");
    let folders: Vec<PathBuf> = env::split_paths(&path).collect();
    for tool in ["bash", "dirname", "readlink", "find"] {
        let place = folders
            .iter()
            .map(|folder| folder.join(tool))
            .find(|place| place.exists());
        symlink(place.expect(tool), few.join(tool)).expect(tool);
    }
    let missing = |tool: &str, what: &str| {
        let mut command = script(&desk, &desk.folder.join("kebrawish"));
        let found = command.env("PATH", &few).output().expect("the script");
        let said =
            format!("kebrawish: it has to be built, and {tool}, {what}, is not on the PATH\n");
        check(&found, 2, "", &said);
        write_program(few.join(tool), "#!/bin/sh\n");
    };
    missing("rt", "the command of the Rattle toolchain");
    missing("cargo", "the command of the Rust toolchain");
    missing("cc", "a C compiler");
}
