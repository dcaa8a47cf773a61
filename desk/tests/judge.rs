//! `kebrawish judge`: what it prints of texts, line by line, and its statuses.

mod common;

use std::ffi::OsStr;
use std::fs::{self, File};
use std::os::unix::ffi::OsStrExt;
use std::path::Path;

use common::{check, lines, Desk};

/// A text that is accepted, with no city object.
const MINIMAL: &str = r#"{"type":"CityJSON","version":"2.0","transform":{"scale":[1,1,1],
"translate":[0,0,0]},"CityObjects":{},"vertices":[]}"#;

/// Judges a text, which is refused, in a file of this name, and checks the three lines.
#[track_caller]
fn refused(file: &str, text: impl AsRef<[u8]>, expected: [&str; 3]) {
    let desk = Desk::new(&format!("refused-{file}"), &[(file, text.as_ref())]);
    check(&desk.run(&["judge", file]), 1, &lines(&expected), "");
}

fn example(name: &str) -> Vec<u8> {
    fs::read(
        Path::new(env!("CARGO_MANIFEST_DIR"))
            .join("../examples")
            .join(name),
    )
    .unwrap()
}

#[test]
fn an_accepted_text() {
    let desk = Desk::new(
        "accepted",
        &[("quarter.json", &example("quarter.city.json"))],
    );
    check(
        &desk.run(&["judge", "quarter.json"]),
        0,
        "quarter.json: accepted, objects 9\n",
        "",
    );
}

#[test]
fn a_link_that_is_not_returned() {
    let expected = [
        r#"shed.json:10:50: refused 17: one-sided link"#,
        r#" 10 |     "shed": {"type": "BuildingPart", "parents": ["house"]}"#,
        r#"    |                                                  ^^^^^^^"#,
    ];
    refused("shed.json", example("refused.city.json"), expected);
}

#[test]
fn at_the_start_of_a_line() {
    let expected = [
        "array.json:1:1: refused 7: wrong JSON kind",
        " 1 | []",
        "   | ^^",
    ];
    refused("array.json", "[]", expected);
    let expected = [
        "object.json:1:1: refused 8: required member absent",
        " 1 | {}",
        "   | ^^",
    ];
    refused("object.json", "{}", expected);
    let expected = ["comma.json:3:1: refused 3: not JSON", " 3 | }", "   | ^"];
    refused("comma.json", "{\n  \"a\": 1,\n}\n", expected);
}

#[test]
fn in_the_middle_of_a_line() {
    let expected = [
        r#"twice.json:1:8: refused 6: repeated name"#,
        r#" 1 | {"a":1,"a":2}"#,
        r#"   |        ^^^"#,
    ];
    refused("twice.json", r#"{"a":1,"a":2}"#, expected);
    let expected = [
        r#"type.json:2:11: refused 6: repeated name"#,
        r#" 2 | "type":1, "type":1"#,
        r#"   |           ^^^^^^"#,
    ];
    refused("type.json", "{\n\"type\":1, \"type\":1\n}", expected);
    let expected = [
        r#"escape.json:1:2: refused 5: unpaired surrogate escape"#,
        r#" 1 | "\uD800""#,
        r#"   |  ^"#,
    ];
    refused("escape.json", r#""\uD800""#, expected);
    let expected = [
        "deep.json:1:33: refused 4: more than 32 levels",
        " 1 | [[[[[[[[[[[[[[[[[[[[[[[[[[[[[[[[[]",
        "   |                                 ^",
    ];
    refused("deep.json", "[".repeat(33) + "]", expected);
}

#[test]
fn at_the_end_of_a_line() {
    let expected = ["tru.json:1:4: refused 3: not JSON", " 1 | tru", "   |    ^"];
    refused("tru.json", "tru", expected);
    let expected = [
        r#"kind.json:2:10: refused 7: wrong JSON kind"#,
        r#" 2 |   "type":1"#,
        r#"   |          ^"#,
    ];
    refused("kind.json", "{\n  \"type\":1\n}\n", expected);
    // A string can't go on in the next line: the line feed is at fault.
    let expected = [
        r#"string.json:2:7: refused 3: not JSON"#,
        r#" 2 |   "a: "#,
        r#"   |       ^"#,
    ];
    refused("string.json", "{\n  \"a: \n\": 1}", expected);
    // The text ends too soon, after a line feed.
    let expected = ["cut.json:3:1: refused 3: not JSON", " 3 |", "   | ^"];
    refused("cut.json", "{\n  \"a\": 1\n", expected);
}

#[test]
fn over_several_lines() {
    let expected = [
        "root.json:1:1: refused 8: required member absent",
        " 1 | {",
        "   | ^",
    ];
    refused("root.json", "{\n}\n", expected);
    let text = MINIMAL.replace("{},", "{\"deck\": {\n  \"type\": \"BridgePart\"\n}},");
    let expected = [
        r#"deck.json:2:45: refused 16: second-level object with no parent"#,
        r#" 2 | "translate":[0,0,0]},"CityObjects":{"deck": {"#,
        r#"   |                                             ^"#,
    ];
    refused("deck.json", text, expected);
}

#[test]
fn an_empty_file() {
    let expected = ["empty.json:1:1: refused 3: not JSON", " 1 |", "   | ^"];
    refused("empty.json", "", expected);
}

#[test]
fn bytes_that_are_not_utf_8() {
    let expected = [
        r#"köln.json:1:12: refused 2: not UTF-8"#,
        r#" 1 | {"name": "K�ln"}"#,
        r#"   |            ^"#,
    ];
    refused("köln.json", b"{\"name\": \"K\xF6ln\"}", expected);
    // Two bytes of a character of three, then one that begins none.
    let expected = [
        "half.json:2:2: refused 2: not UTF-8",
        r#" 2 | "��"]"#,
        "   |  ^",
    ];
    refused("half.json", b"[\n\"\xE2\x82\xFF\"]", expected);
    let expected = ["ff.json:1:1: refused 2: not UTF-8", " 1 | �", "   | ^"];
    refused("ff.json", b"\xFF", expected);
}

#[test]
fn tabs_and_controls() {
    let expected = [
        r#"tabs.json:2:10: refused 6: repeated name"#,
        r#" 2 |   "a":1, "a":2}"#,
        r#"   |          ^^^"#,
    ];
    refused("tabs.json", "{\n\t\t\"a\":1,\t\"a\":2}", expected);
    let expected = [
        r#"escape.json:1:4: refused 3: not JSON"#,
        r#" 1 | {"a␛[31m":1}"#,
        r#"   |    ^"#,
    ];
    refused("escape.json", "{\"a\x1B[31m\":1}", expected);
    // Delete, C1's introducer of sequences, an override of direction, a separator of lines.
    let expected = [
        r#"steer.json:1:17: refused 6: repeated name"#,
        r#" 1 | {"␡���":1,"a":2,"a":3}"#,
        r#"   |                 ^^^"#,
    ];
    refused(
        "steer.json",
        "{\"\x7F\u{9B}\u{202E}\u{2028}\":1,\"a\":2,\"a\":3}",
        expected,
    );
    // A byte order mark.
    let expected = ["mark.json:1:1: refused 3: not JSON", " 1 | �{}", "   | ^"];
    refused("mark.json", "\u{FEFF}{}", expected);
}

#[test]
fn wide_characters_and_marks() {
    let expected = [
        r#"house.json:1:8: refused 6: repeated name"#,
        r#" 1 | {"家":1,"家":2}"#,
        r#"   |         ^^^^"#,
    ];
    refused("house.json", r#"{"家":1,"家":2}"#, expected);
    // An e with an acute accent after it.
    let expected = [
        "accent.json:1:9: refused 6: repeated name",
        " 1 | {\"e\u{301}\":1,\"e\u{301}\":2}",
        "   |        ^^^",
    ];
    refused("accent.json", "{\"e\u{301}\":1,\"e\u{301}\":2}", expected);
    let expected = [
        r#"smile.json:1:9: refused 3: not JSON"#,
        r#" 1 | {"한😀é": x}"#,
        r#"   |           ^"#,
    ];
    refused("smile.json", r#"{"한😀é": x}"#, expected);
}

#[test]
fn lines_that_end_with_cr_lf() {
    let expected = [
        r#"crlf.json:3:3: refused 6: repeated name"#,
        r#" 3 |   "a":2"#,
        r#"   |   ^^^"#,
    ];
    refused(
        "crlf.json",
        "{\r\n  \"a\":1,\r\n  \"a\":2\r\n}\r\n",
        expected,
    );
    let expected = [
        r#"word.json:1:10: refused 3: not JSON"#,
        r#" 1 | {"a": tru"#,
        r#"   |          ^"#,
    ];
    refused("word.json", "{\"a\": tru\r\n}\r\n", expected);
}

/// Of a line of more than 100 columns 94 are shown around the fault.
#[test]
fn one_very_long_line() {
    let x = |count: usize| "x".repeat(count);
    let blank = |count: usize| " ".repeat(count);
    let carets = |count: usize| "^".repeat(count);

    // At its start, and as long as the line.
    let first = "start.json:1:1: refused 7: wrong JSON kind";
    let shown = format!(" 1 | [\"{}...", x(92));
    let marked = format!("   | {}", carets(94));
    refused(
        "start.json",
        format!("[\"{}\"]", x(65_000)),
        [first, &shown, &marked],
    );

    // In its middle: 45 columns before the name, and 46 after it.
    let text = format!(r#"{{"p":"{}","p":"{}"}}"#, x(30_000), x(30_000));
    let first = "middle.json:1:30009: refused 6: repeated name";
    let shown = format!(r#" 1 | ...{}","p":"{}..."#, x(43), x(44));
    let marked = format!("   | {}^^^", blank(3 + 45));
    refused("middle.json", text, [first, &shown, &marked]);

    // At its end.
    let text = format!(r#"{{"a":"{}"#, x(64_994));
    let first = "end.json:1:65001: refused 3: not JSON";
    let shown = format!(" 1 | ...{}", x(94));
    let marked = format!("   | {}^", blank(3 + 94));
    refused("end.json", text, [first, &shown, &marked]);
}

/// Rule 1 is at 65,535, and what comes long after it is not read.
#[test]
fn more_than_65_535_bytes() {
    let zeros = |count: usize| "0".repeat(count);
    let blank = |count: usize| " ".repeat(count);
    let shown = format!(" 1 | ...{}", zeros(94));
    let marked = format!("   | {}^", blank(3 + 93));
    let first = "more.json:1:65536: refused 1: more than 65,535 bytes";
    refused("more.json", zeros(65_536), [first, &shown, &marked]);

    let shown = format!(" 1 | ...{}...", zeros(94));
    let marked = format!("   | {}^", blank(3 + 47));
    let first = "long.json:1:65536: refused 1: more than 65,535 bytes";
    refused("long.json", zeros(200_000), [first, &shown, &marked]);

    // The place is the second byte of a character, of which 32,767 are before it.
    let shown = format!(" 1 | ...{}...", "é".repeat(94));
    let first = "wide.json:1:32768: refused 1: more than 65,535 bytes";
    refused("wide.json", "é".repeat(40_000), [first, &shown, &marked]);

    let first = "lines.json:65536:1: refused 1: more than 65,535 bytes";
    refused(
        "lines.json",
        "\n".repeat(65_535) + "x",
        [first, " 65536 | x", "       | ^"],
    );

    let desk = Desk::new("endless", &[]);
    let expected = lines(&[
        "/dev/zero:1:65536: refused 1: more than 65,535 bytes",
        &format!(" 1 | ...{}...", "␀".repeat(94)),
        &marked,
    ]);
    check(&desk.run(&["judge", "/dev/zero"]), 1, &expected, "");
    let zero = File::open("/dev/zero").expect("zeros");
    let found = desk
        .command(&["judge", "-"])
        .stdin(zero)
        .output()
        .expect("the program");
    check(&found, 1, &expected.replace("/dev/zero", "<stdin>"), "");
}

#[test]
fn files_that_cannot_be_read() {
    let desk = Desk::new("not-there", &[]);
    let said = "kebrawish: none.json: No such file or directory\n";
    check(&desk.run(&["judge", "none.json"]), 2, "", said);
    check(
        &desk.run(&["judge", "."]),
        2,
        "",
        "kebrawish: .: Is a directory\n",
    );
    check(
        &desk.run(&["judge", ""]),
        2,
        "",
        "kebrawish: '': No such file or directory\n",
    );
    let folder = File::open(&desk.folder).expect("a folder");
    let found = desk
        .command(&["judge", "-"])
        .stdin(folder)
        .output()
        .expect("the program");
    check(&found, 2, "", "kebrawish: <stdin>: Is a directory\n");
}

/// Each file is judged whatever became of the others, and the status is the greatest.
#[test]
fn several_files() {
    let minimal = MINIMAL.as_bytes();
    let desk = Desk::new(
        "several",
        &[("a.json", minimal), ("b.json", minimal), ("c.json", b"0")],
    );
    let good = |file: &str| format!("{file}: accepted, objects 0\n");
    let bad = "c.json:1:1: refused 7: wrong JSON kind\n 1 | 0\n   | ^\n";
    let said = "kebrawish: none.json: No such file or directory\n";

    let printed = good("a.json") + &good("b.json");
    check(&desk.run(&["judge", "a.json", "b.json"]), 0, &printed, "");
    let printed = good("a.json") + bad + &good("b.json");
    check(
        &desk.run(&["judge", "a.json", "c.json", "b.json"]),
        1,
        &printed,
        "",
    );
    check(
        &desk.run(&["judge", "a.json", "none.json"]),
        2,
        &good("a.json"),
        said,
    );
    let printed = format!("{bad}{}{bad}", good("b.json"));
    let files = ["judge", "c.json", "none.json", "b.json", "c.json"];
    check(&desk.run(&files), 2, &printed, said);
}

#[test]
fn standard_input() {
    let text = "{\n \"type\": \"city\"\n}";
    let files: [(&str, &[u8]); 2] = [("in.json", text.as_bytes()), ("a.json", MINIMAL.as_bytes())];
    let desk = Desk::new("stdin", &files);
    let run = |arguments: &[&str], input: &str| {
        let input = File::open(desk.folder.join(input)).expect("a file");
        desk.command(arguments)
            .stdin(input)
            .output()
            .expect("the program")
    };
    check(
        &run(&["judge", "-"], "a.json"),
        0,
        "<stdin>: accepted, objects 0\n",
        "",
    );
    let refused = "<stdin>:1:1: refused 8: required member absent\n 1 | {\n   | ^\n";
    check(&run(&["judge", "-"], "in.json"), 1, refused, "");
    let both = format!("a.json: accepted, objects 0\n{refused}");
    check(&run(&["judge", "a.json", "-"], "in.json"), 1, &both, "");
    check(
        &run(&["judge", "--", "a.json", "-"], "in.json"),
        1,
        &both,
        "",
    );
    // Nothing is there.
    let empty = "<stdin>:1:1: refused 3: not JSON\n 1 |\n   | ^\n";
    check(&desk.run(&["judge", "-"]), 1, empty, "");
}

/// Nothing in a text or in a name gets to the terminal that could steer it.
#[test]
fn names_that_would_steer_the_terminal() {
    let name = "a\x1B[31m\n\u{202E}b.json";
    let desk = Desk::new(
        "names",
        &[(name, b"tru\x1B[0m"), ("-b", MINIMAL.as_bytes())],
    );
    let printed = lines(&[
        "a␛[31m␊�b.json:1:4: refused 3: not JSON",
        " 1 | tru␛[0m",
        "   |    ^",
    ]);
    check(&desk.run(&["judge", name]), 1, &printed, "");
    let said = "kebrawish: c␛]0;t␇: No such file or directory\n";
    check(&desk.run(&["judge", "c\x1B]0;t\x07"]), 2, "", said);
    check(
        &desk.run(&["judge", "--", "-b"]),
        0,
        "-b: accepted, objects 0\n",
        "",
    );
    // A name in Latin-1.
    let latin = OsStr::from_bytes(b"K\xF6ln.json");
    fs::write(desk.folder.join(latin), MINIMAL).expect("a file");
    let found = desk.run(&[OsStr::new("judge"), latin]);
    check(&found, 0, "K�ln.json: accepted, objects 0\n", "");
}
