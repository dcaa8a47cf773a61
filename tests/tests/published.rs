//! The published test files, on the reader and, with the features `library` and `lay`, on
//! the library.

use std::ops::Range;

use kebrawish_tests::published::{json_suite, utf8_lines, File, OPEN_FILES};
use kebrawish_tests::samples::{document, MINIMAL};
use kebrawish_tests::{compare, Refusal, Verdict};

/// The files of the suite, each as a text, as an unexamined member and as a city object.
#[test]
fn the_json_suite() {
    let Some(files) = json_suite() else {
        return;
    };
    for file in &files {
        let name = file.name.as_str();
        let verdict = compare::all(&file.bytes, name).judge;
        check_file(file, verdict);
        let value = file.bytes.as_slice();
        let start = br#"{"metadata":"#.as_slice();
        let rest = MINIMAL.replacen('{', ",", 1).into_bytes();
        compare::all(&[start, value, &rest].concat(), name);
        let around = document("\"a\":#", "");
        let (start, rest) = around.split_once('#').unwrap();
        let text = [start.as_bytes(), value, rest.as_bytes()].concat();
        compare::all(&text, name);
    }
    println!("{} files, each as three texts", files.len());
}

/// What the suite says of a file, by its name.
fn check_file(file: &File, verdict: Verdict) {
    let name = file.name.as_str();
    match name.split_at(2).0 {
        "y_" => check_json(file, verdict),
        "n_" => assert!((1..=4).contains(&verdict.rule()), "{name}: {verdict:?}"),
        _ => {
            let mut rows = OPEN_FILES.iter();
            let row = rows.find(|row| name.strip_suffix(".json") == Some(row.0));
            let (_, rule, place) = *row.unwrap_or_else(|| panic!("{name} is in no row"));
            let refusal = match rule {
                7 => Refusal::of(rule, place..file.bytes.len()),
                _ => Refusal::at(rule, place),
            };
            assert_eq!(verdict, refusal.into(), "{name}");
        }
    }
}

/// JSON, and none of these is too long or too deep, or has the members of a city: the root is
/// refused, if no name is repeated.
fn check_json(file: &File, verdict: Verdict) {
    let name = file.name.as_str();
    match verdict.rule() {
        6 => assert!(
            name.starts_with("y_object_duplicated"),
            "{name}: {verdict:?}"
        ),
        rule => {
            assert!([7, 8].contains(&rule), "{name}: {verdict:?}");
            assert_eq!(
                verdict,
                Refusal::of(rule, trimmed(&file.bytes)).into(),
                "{name}"
            );
        }
    }
}

/// Where a text begins and ends without the white space around it.
fn trimmed(text: &[u8]) -> Range<usize> {
    let filled = |byte: &u8| !b" \t\n\r".contains(byte);
    let first = text.iter().position(filled).expect("a value");
    let last = text.iter().rposition(filled).expect("a value");
    first..last + 1
}

/// Kuhn's labels of lines that are UTF-8 by RFC 3629.
const WHOLE: [&str; 15] = [
    "2.1.1", "2.1.2", "2.1.3", "2.1.4", "2.2.1", "2.2.2", "2.2.3", "2.3.1", "2.3.2", "2.3.3",
    "2.3.4", "5.3.1", "5.3.2", "5.3.3", "5.3.4",
];

/// What a labelled line of the test is refused for: one that is UTF-8 at the label's second
/// point, which stops a number, any other at the first byte between its quotes.
fn labelled(line: &[u8]) -> Option<Verdict> {
    let quote = line.iter().position(|byte| *byte == b'"')?;
    if !line.first().is_some_and(u8::is_ascii_digit) {
        return None;
    }
    let label = String::from_utf8_lossy(&line[..5]).into_owned();
    let refusal = if WHOLE.contains(&label.as_str()) {
        Refusal::at(3, 3)
    } else {
        Refusal::at(2, quote + 1)
    };
    Some(refusal.into())
}

/// The lines of the UTF-8 test, each as a text, in a JSON string and as an object's name.
#[test]
fn the_utf8_test() {
    let Some(lines) = utf8_lines() else {
        return;
    };
    let mut counts = [0; 2];
    for (number, line) in (1..).zip(&lines) {
        let what = format!("line {number} of the UTF-8 test");
        let verdict = compare::all(line, &what).judge;
        if let Some(expected) = labelled(line) {
            assert_eq!(verdict, expected, "{what}");
            counts[usize::from(verdict.rule() == 2)] += 1;
        }
        let string = in_quotes(line);
        compare::all(&string, &what);
        let around = document("#:{\"type\":\"Road\"}", "");
        let (start, rest) = around.split_once('#').unwrap();
        let text = [start.as_bytes(), &string, rest.as_bytes()].concat();
        let verdict = compare::all(&text, &what).judge;
        let whole = std::str::from_utf8(line).is_ok();
        let control = line.iter().any(|byte| *byte < 0x20);
        let rule = if control && whole {
            3
        } else {
            2 * u8::from(!whole)
        };
        assert_eq!(verdict.rule(), rule, "{what} as a name");
    }
    let [whole, damaged] = counts;
    println!("{} lines, each as three texts", lines.len());
    println!("labelled lines that are UTF-8: {whole}, that are not: {damaged}");
    assert_eq!(counts, [14, 57]);
}

/// The bytes as a JSON string, if they have no control character and are UTF-8.
fn in_quotes(line: &[u8]) -> Vec<u8> {
    let mut string = vec![b'"'];
    for byte in line {
        if matches!(byte, b'"' | b'\\') {
            string.push(b'\\');
        }
        string.push(*byte);
    }
    string.push(b'"');
    string
}
