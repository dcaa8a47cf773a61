//! The stack that a call takes, in bytes, held to what the C header says of it. A C program
//! measures it: see `stack.c`.

use std::fs;
use std::path::{Path, PathBuf};
use std::process::Command;

use kebrawish_tests::c::{compile, header, library};
use kebrawish_tests::generate::{self, Large};

const PACKAGE: &str = env!("CARGO_MANIFEST_DIR");

/// Texts of so many bytes have a figure of their own.
const SHORT: usize = 4_096;

/// What one text takes, and the most that the header states for it.
struct Taken {
    label: String,
    judge: usize,
    lay: usize,
    stated: usize,
}

impl Taken {
    fn most(&self) -> usize {
        self.judge.max(self.lay)
    }
}

/// A file in the folder of these tests' output.
fn output(name: &str) -> PathBuf {
    Path::new(env!("CARGO_TARGET_TMPDIR")).join(name)
}

/// The C program. Functions of other libraries are looked up before it starts, since the
/// look-up would take stack of the first call.
fn program() -> PathBuf {
    let source = Path::new(PACKAGE).join("tests/stack.c");
    let library = library();
    let program = output("stack");
    let rest = [&source, &library, Path::new("-Wl,-z,now"), Path::new("-o"), &program];
    compile("cc", "c99", &rest).expect("a C compiler");
    program
}

/// The two figures of the header.
fn stated() -> (usize, usize) {
    stated_in(&header())
}

/// The two figures that a file states, in bytes: for any text, and for a short one.
fn stated_in(file: &Path) -> (usize, usize) {
    let text = fs::read_to_string(file).expect("a file");
    let words: Vec<&str> = text.split_whitespace().collect();
    let figures: Vec<usize> = words
        .windows(2)
        .filter(|pair| pair[1] == "KiB")
        .map(|pair| pair[0].replace(',', "").parse::<usize>().expect("a number") * 1024)
        .collect();
    let [any, short] = figures[..] else {
        panic!("{} has {} figures in KiB", file.display(), figures.len());
    };
    (any, short)
}

/// The texts at the limits and the examples.
fn texts() -> Vec<(String, Vec<u8>)> {
    let large = |large: Large| (large.label.to_string(), large.text);
    let mut texts: Vec<_> = generate::large_texts().into_iter().map(large).collect();
    for name in ["minimal", "kiosk", "refused", "quarter"] {
        let file = Path::new(PACKAGE).join(format!("../examples/{name}.city.json"));
        texts.push((name.to_string(), fs::read(file).expect("an example")));
    }
    texts
}

fn numbers(line: &str) -> (usize, usize) {
    let number = |word: &str| word.parse().expect("a number");
    let (first, second) = line.split_once(' ').expect("two numbers");
    (number(first), number(second))
}

/// Runs the program on the texts, after it has shown that it measures.
fn measure(texts: &[(String, Vec<u8>)]) -> Vec<Taken> {
    let (any, short) = stated();
    let mut command = Command::new(program());
    for (number, (_, text)) in texts.iter().enumerate() {
        let file = output(&format!("stack-{number}.json"));
        fs::write(&file, text).expect("a text's file");
        command.arg(file);
    }
    let run = command.output().expect("the program");
    assert!(run.status.success(), "the program's status");
    let lines = String::from_utf8(run.stdout).expect("lines of numbers");
    let lines: Vec<_> = lines.lines().map(numbers).collect();
    assert_eq!(lines.len(), texts.len() + 1);
    let (known, measured) = lines[0];
    let room = known..known + 512;
    assert!(room.contains(&measured), "{measured} measured of {known}");
    let taken = |((label, text), (judge, lay)): (&(String, Vec<u8>), &(usize, usize))| Taken {
        label: format!("{label} ({} bytes)", text.len()),
        judge: *judge,
        lay: *lay,
        stated: if text.len() <= SHORT { short } else { any },
    };
    texts.iter().zip(&lines[1..]).map(taken).collect()
}

/// No text takes more than the header states, and the worst of them not much less.
#[test]
fn the_header_states_the_stack() {
    let (any, short) = stated();
    let all = measure(&texts());
    for taken in &all {
        let Taken { label, stated, .. } = taken;
        let (judge, lay) = (taken.judge, taken.lay);
        println!("{label}: judge {judge}, lay {lay}, stated {stated}");
        assert!(taken.most() <= *stated, "{label}");
    }
    for stated in [any, short] {
        let of = all.iter().filter(|taken| taken.stated == stated);
        let worst = of.map(Taken::most).max().expect("a text");
        assert!(worst >= stated / 5 * 4, "{worst} is far below {stated}");
    }
}

#[test]
fn the_crate_states_the_same() {
    let source = Path::new(PACKAGE).join("../rust/kebrawish/src/lib.rs");
    assert_eq!(stated_in(&source), stated());
}
