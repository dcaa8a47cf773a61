//! Tests of what only the reader has. The expected values come from the papers' rules
//! (docs/RULES.md, docs/SHEET.md).

use std::collections::BTreeMap;
use std::io::Write;
use std::process::{Command, Stdio};

use kebrawish_tests::decimal::{self, Pair};
use kebrawish_tests::generate::{self, Random};
use kebrawish_tests::samples::MINIMAL;
use kebrawish_tests::{json, read, sheet, Refusal};

/// The reader program's line for a text.
fn line(arguments: &[&str], text: &[u8]) -> String {
    let mut child = Command::new(env!("CARGO_BIN_EXE_reader"))
        .args(arguments)
        .stdin(Stdio::piped())
        .stdout(Stdio::piped())
        .spawn()
        .expect("the reader");
    let mut input = child.stdin.take().expect("its standard input");
    input.write_all(text).expect("the text is read");
    drop(input);
    let output = child.wait_with_output().expect("its answer");
    String::from_utf8(output.stdout).expect("its line")
}

#[test]
fn the_printed_line() {
    let minimal = MINIMAL.as_bytes();
    assert_eq!(line(&[], minimal), "laid 78 bytes, objects 0\n");
    assert_eq!(line(&[], b"{}"), "refused 8 at 0 to 2\n");
    assert_eq!(line(&[], br#"{"a":1,"a":2}"#), "refused 6 at 7 to 10\n");
    assert_eq!(line(&["--judge"], minimal), "accepted, objects 0\n");
    assert_eq!(line(&["--judge"], b"{}"), "refused 8 at 0 to 2\n");
}

#[test]
fn pairs() {
    let pair = |numeral: &str| decimal::pair(numeral).map(|Pair { m, e }| (m, e));
    assert_eq!(pair("0"), Some((0, 0)));
    assert_eq!(
        pair("-0.000e-999999999999999999999999999999999999"),
        Some((0, 0))
    );
    assert_eq!(pair("10e-23"), Some((1, -22)));
    assert_eq!(pair("1e23"), None);
    assert_eq!(pair("10e22"), None);
    assert_eq!(pair("1e22"), Some((1, 22)));
    assert_eq!(pair("1000000000000000"), Some((1, 15)));
    assert_eq!(
        pair("-999999999999999E-22"),
        Some((-999_999_999_999_999, -22))
    );
    assert_eq!(pair("9999999999999990e-1"), Some((999_999_999_999_999, 0)));
    assert_eq!(pair("1000000000000001"), None);
    assert_eq!(pair("0.0010"), Some((1, -3)));
    assert_eq!(pair("12.50E+0003"), Some((125, 2)));
    let zeros = "0".repeat(60_000);
    assert_eq!(pair(&format!("1{zeros}e-60000")), Some((1, 0)));
    assert_eq!(pair(&format!("0.{zeros}1e60001")), Some((1, 0)));
    assert_eq!(pair(&format!("1{zeros}e-60023")), None);
    assert_eq!(
        pair(&format!("0.{zeros}1e99999999999999999999999999")),
        None
    );
    assert_eq!(pair(&format!("7e{zeros}1")), Some((7, 1)));
}

/// What may follow a prefix of a short JSON text: the rest of a token, the rest of a
/// member, and closing brackets.
fn completions() -> Vec<String> {
    let tokens = [
        "", "0", "\"", "\\\"", "n\"", "u0000\"", "0000\"", "000\"", "00\"", "0\"", "rue", "ue",
        "e", "alse", "lse", "se", "ull", "ll", "l", "\"\"",
    ];
    let mut closers = vec![String::new()];
    for length in 0..3 {
        let longer: Vec<String> = closers
            .iter()
            .filter(|closer| closer.len() == length)
            .flat_map(|closer| [format!("{closer}]"), format!("{closer}}}")])
            .collect();
        closers.extend(longer);
    }
    let mut list = Vec::new();
    for token in tokens {
        for member in ["", ":0"] {
            for closer in &closers {
                list.push(format!("{token}{member}{closer}"));
            }
        }
    }
    list
}

/// Rules 3 and 4 by their definition, from what whole texts are JSON.
#[test]
fn short_texts_by_definition() {
    let alphabet = b"{}[]\":,\\0-.eu1 t\x01";
    let completions = completions();
    let texts = generate::short_texts(alphabet, 3);
    let mut begins_json = BTreeMap::new();
    for text in &texts {
        for levels in [1, 8] {
            let begins = completions.iter().any(|end| {
                let whole = [text.as_slice(), end.as_bytes()].concat();
                json::read_levels(&whole, levels).is_ok()
            });
            begins_json.insert((text.clone(), levels), begins);
        }
    }
    for text in &texts {
        let begins = |length: usize, levels| begins_json[&(text[..length].to_vec(), levels)];
        // At one level, a prefix that opens more has no completion within the level.
        let longest = (0..=text.len()).rev().find(|n| begins(*n, 1)).unwrap();
        let answer = json::read_levels(text, 1).map(drop);
        let expected = if longest < text.len() {
            let rule = if begins(longest + 1, 8) { 4 } else { 3 };
            Err(Refusal::at(rule, longest))
        } else if answer.is_ok() {
            Ok(())
        } else {
            Err(Refusal::at(3, longest))
        };
        assert_eq!(answer, expected, "{:?}", String::from_utf8_lossy(text));
    }
    println!("{} texts", texts.len());
}

#[test]
fn a_sheet_gives_its_model_back() {
    let mut random = Random::new(1);
    for _ in 0..2_000 {
        let model = generate::model(&mut random);
        let text = generate::write_plain(&model, &mut random);
        assert_eq!(read(&text).as_ref(), Ok(&model));
        assert_eq!(sheet::decode(&sheet::encode(&model)), Ok(model));
    }
}
