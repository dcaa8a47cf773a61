//! `docs/SHEET.md` beside the reader and the library: the dump of the kiosk's sheet is made
//! again, what the page says is not on a sheet is not on it, and the room that the header gives
//! suffices.

use std::fs;

use kebrawish_tests::compare::{self, LARGE_ROOM};
use kebrawish_tests::dump::dump;
use kebrawish_tests::pages::{page, root, section};
use kebrawish_tests::samples::{document, kiosk};
use kebrawish_tests::{Verdict, TEXT_LIMIT};

/// The sheet of an accepted text.
#[track_caller]
fn sheet(text: &str) -> Vec<u8> {
    let (verdict, mut bytes) = compare::lay(text.as_bytes(), LARGE_ROOM, 0xA5, "a text of the page");
    let Verdict::Accepted { length, .. } = verdict else {
        panic!("{verdict:?}: {text}");
    };
    bytes.truncate(length);
    bytes
}

/// The bytes that a dump has, after the offset of each line.
fn bytes(dump: &str) -> Vec<u8> {
    let hex = dump.lines().flat_map(|line| line[6..line.len().min(29)].split_whitespace());
    hex.map(|byte| u8::from_str_radix(byte, 16).expect("a byte")).collect()
}

#[test]
fn the_dump_of_the_kiosk() {
    let text = fs::read_to_string(root().join("examples/kiosk.city.json")).expect("an example");
    let page = page("SHEET.md");
    let (_, block) = section(&page, "## The kiosk, byte by byte").split_once("```\n").expect("a dump");
    let (printed, _) = block.split_once("```").expect("its end");
    let sheet = sheet(&text);
    assert_eq!(printed, dump(&sheet));
    assert_eq!((sheet.len(), bytes(printed)), (133, sheet));
}

/// Every kind of record has its lines: 3 to 8 of a text with links and semantics.
#[test]
fn a_dump_has_every_byte() {
    let text = fs::read_to_string(root().join("examples/quarter.city.json")).expect("an example");
    let sheet = sheet(&text);
    let dump = dump(&sheet);
    assert_eq!(bytes(&dump), sheet);
    for note in ["object number 1", "surface 0", "19: an added one", "lod 2.2: 2 * 16 + 2"] {
        assert!(dump.contains(note), "{note}");
    }
}

/// Members that are not examined, white space and the order of members alter nothing.
#[test]
fn what_is_not_on_a_sheet() {
    let plain = kiosk();
    let one = sheet(&plain);
    let with = |part: &str, more: &str| {
        assert_eq!(plain.matches(part).count(), 1, "{part}");
        plain.replace(part, &format!("{more},{part}"))
    };
    for text in [
        with(r#""version""#, r#""metadata":{"title":"Market"}"#),
        with(r#""version""#, r#""appearance":{"materials":[]}"#),
        with(r#""geometry""#, r#""attributes":{"height":3.5}"#),
        with(r#""geometry""#, r#""address":[],"geographicalExtent":[0,0,0,1,1,1]"#),
        with(r#""lod""#, r#""material":{}"#),
        plain.replace(":", " :\n "),
        plain.replace(r#""version":"2.0","#, "").replacen('{', r#"{"version":"2.0","#, 1),
        plain.replace(r#""lod":"1""#, r#""lo\u0064":"\u0031""#),
        plain.replace("[1.0,1.0,1.0]", "[1,10e-1,0.1e1]"),
        plain.replace(r#""geometry""#, r#""children":[],"parents":[],"geometry""#),
    ] {
        assert_ne!(text, plain);
        assert_eq!(sheet(&text), one, "{text}");
    }
}

/// No text of these takes more than twice its bytes, and one comes near: a boundary of `0,`.
#[test]
fn how_long_a_sheet_is() {
    let point = |count: usize| {
        let boundary = vec!["0"; count].join(",");
        let geometry = format!(r#"{{"type":"MultiPoint","lod":"1","boundaries":[{boundary}]}}"#);
        document(&format!(r#""a":{{"type":"Road","geometry":[{geometry}]}}"#), "[0,0,0]")
    };
    let longest = point(1 + (TEXT_LIMIT - point(1).len()) / 2);
    let objects: Vec<String> = (0..1_024).map(|k| format!(r#""{k}":{{"type":"Road"}}"#)).collect();
    let vertices = vec!["[0,0,0]"; 8_000].join(",");
    for text in [kiosk(), longest.clone(), document(&objects.join(","), ""), document("", &vertices)] {
        assert!(sheet(&text).len() <= 2 * text.len());
        let (verdict, _) = compare::lay(text.as_bytes(), 4 * text.len(), 0xA5, "in the header's room");
        assert_eq!(verdict.rule(), 0);
    }
    assert!(sheet(&longest).len() * 100 > 2 * longest.len() * 99);
    assert!(longest.len() + 2 > TEXT_LIMIT);
}
