//! `docs/RULES.md` beside the reader and the library: each text of the page is answered as the
//! page says, and each row of its tables of types is tried.

use kebrawish_tests::compare::{self, LARGE_ROOM};
use kebrawish_tests::pages::{page, rows, section};
use kebrawish_tests::samples::document;
use kebrawish_tests::sheet::payloads;
use kebrawish_tests::Verdict;

/// The bytes that a text of the page stands for: `⟨FF⟩` is a byte, `⟨33 × [⟩` what follows the
/// cross so many times, with `#` in it as the number of the time.
fn bytes(text: &str) -> Vec<u8> {
    let mut parts = text.split(['⟨', '⟩']);
    let mut bytes = parts.next().expect("a part").as_bytes().to_vec();
    while let Some(short) = parts.next() {
        match short.split_once(" × ") {
            Some((times, part)) => {
                for number in 1..=times.parse::<usize>().expect("a number") {
                    bytes.extend(part.replace('#', &number.to_string()).bytes());
                }
            }
            None => bytes.push(u8::from_str_radix(short, 16).expect("a byte")),
        }
        bytes.extend(parts.next().expect("a part").bytes());
    }
    bytes
}

/// What the page says of a rule: its smallest text, the room for lay, and the answer.
struct Sample {
    text: Vec<u8>,
    room: Option<usize>,
    answer: String,
}

fn sample(page: &str, rule: u8) -> Sample {
    let section = section(page, &format!("\n### Rule {rule}: "));
    let (_, block) = section.split_once("```\n").expect("a text");
    let (text, rest) = block.split_once("```").expect("its end");
    let answer = rest.trim_start().strip_prefix("Answer").expect("its answer");
    let (room, answer) = answer.split_once(": `").expect("the answer");
    let room = room.strip_prefix(" in a room of ").map(|room| {
        let (bytes, _) = room.split_once(' ').expect("a number of bytes");
        bytes.parse().expect("a number")
    });
    Sample {
        text: bytes(text.trim_end_matches('\n')),
        room,
        answer: answer.split('`').next().expect("the answer's end").to_string(),
    }
}

/// The answer of judge, or of lay if a room is given.
fn answer(text: &[u8], room: Option<usize>) -> Verdict {
    match room {
        Some(room) => compare::lay(text, room, 0xA5, "a text of the page").0,
        None => compare::judge(text, "a text of the page"),
    }
}

#[test]
fn each_rule_has_its_text() {
    let page = page("RULES.md");
    let numbers = rows(&page, "## The rules").into_iter();
    let numbers: Vec<String> = numbers.map(|row| row[0].trim().to_string()).collect();
    assert_eq!(numbers, (1..=18).map(|rule| rule.to_string()).collect::<Vec<_>>());
    for rule in 1..=18 {
        let sample = sample(&page, rule);
        let verdict = answer(&sample.text, sample.room);
        let Verdict::Refused { rule: found, place, end } = verdict else {
            panic!("the text of rule {rule} is accepted");
        };
        assert_eq!(format!("refused {found} at {place} to {end}"), sample.answer);
        assert_eq!(found, rule);
    }
}

/// With any run of its bytes left out, a text is no longer refused by its rule. The texts of
/// rules 1 and 9 are long: one byte less, and one object less.
#[test]
fn the_texts_are_smallest() {
    let page = page("RULES.md");
    for rule in (1..=18).filter(|rule| ![1, 9].contains(rule)) {
        let Sample { text, room, .. } = sample(&page, rule);
        for from in 0..text.len() {
            for to in from + 1..=text.len() {
                let shorter = [&text[..from], &text[to..]].concat();
                let found = answer(&shorter, room).rule();
                assert_ne!(found, rule, "{}", String::from_utf8_lossy(&shorter));
            }
        }
    }
    let long = sample(&page, 1).text;
    assert_ne!(answer(&long[1..], None).rule(), 1);
    let many = String::from_utf8(sample(&page, 9).text).expect("UTF-8");
    let fewer = many.replacen(r#""1":{"type":""},"#, "", 1);
    assert!(fewer.len() < many.len());
    assert_ne!(answer(fewer.as_bytes(), None).rule(), 9);
}

/// The rows of a table, each with its code first.
fn codes<'a>(page: &'a str, heading: &str) -> Vec<(u16, Vec<&'a str>)> {
    let rows = rows(page, heading).into_iter();
    rows.map(|row| {
        let cells: Vec<&str> = row.iter().map(|cell| cell.trim()).collect();
        (cells[0].parse().expect("a code"), cells)
    })
    .collect()
}

/// `1 to 7`, or codes with commas between them.
fn listed(cell: &str) -> Vec<u16> {
    let code = |text: &str| text.trim().parse::<u16>().expect("a code");
    match cell.split_once(" to ") {
        Some((first, last)) => (code(first)..=code(last)).collect(),
        None => cell.split(',').map(code).collect(),
    }
}

/// The records of a kind on the sheet of a text, each as its payload.
fn records(text: &str, kind: u16) -> Vec<Vec<u8>> {
    let (verdict, sheet) = compare::lay(text.as_bytes(), LARGE_ROOM, 0xA5, "a text of the page");
    let Verdict::Accepted { length, .. } = verdict else {
        panic!("{verdict:?}: {text}");
    };
    payloads(&sheet[..length], kind).expect("a sheet")
}

/// The code that the only record of a kind begins with.
fn code_on_sheet(text: &str, kind: u16) -> u16 {
    let records = records(text, kind);
    assert_eq!(records.len(), 1, "{text}");
    u16::from_le_bytes([records[0][0], records[0][1]])
}

fn rule(text: &str) -> u8 {
    compare::judge(text.as_bytes(), "a text of the page").rule()
}

/// An object of a type with a geometry, alone, or under a group.
fn object(word: &str, geometry: &str, has_parent: bool) -> String {
    let start = format!(r#"{{"type":"{word}","geometry":[{geometry}]"#);
    let objects = if has_parent {
        format!(r#""a":{start},"parents":["b"]}},"b":{{"type":"CityObjectGroup","children":["a"]}}"#)
    } else {
        format!(r#""a":{start}}}"#)
    };
    document(&objects, "[0,0,0]")
}

/// A geometry with the boundary and the rest of its members.
fn geometry(word: &str, boundary: &str, rest: &str) -> String {
    format!(r#"{{"type":"{word}","lod":"1","boundaries":{boundary}{rest}}}"#)
}

/// Arrays of one element within each other, so deep.
fn nested(depth: usize, leaf: &str) -> String {
    "[".repeat(depth) + leaf + &"]".repeat(depth)
}

#[test]
fn object_types() {
    let page = page("RULES.md");
    let objects = codes(&page, "### City objects");
    let geometries = codes(&page, "### Geometries");
    assert_eq!((objects.len(), geometries.len()), (33, 7));
    for (code, row) in &objects {
        let [_, word, level, permitted] = row[..] else {
            panic!("{row:?}");
        };
        let alone = rule(&object(word, "", false));
        assert_eq!(alone, if level == "1" { 0 } else { 16 }, "{word}");
        let with_parent = object(word, "", true);
        let on_sheet = &records(&with_parent, 3)[0];
        assert_eq!(u16::from_le_bytes([on_sheet[0], on_sheet[1]]), *code, "{word}");
        let permitted = listed(permitted);
        for (kind, geometry_row) in &geometries {
            let text = object(word, &geometry(geometry_row[1], "[]", ""), true);
            let expected = if permitted.contains(kind) { 0 } else { 14 };
            assert_eq!(rule(&text), expected, "{word}, {}", geometry_row[1]);
        }
    }
}

#[test]
fn geometry_types() {
    let page = page("RULES.md");
    for (code, row) in codes(&page, "### Geometries") {
        let [_, word, depth, values_depth] = row[..] else {
            panic!("{row:?}");
        };
        let [depth, values_depth] = [depth, values_depth].map(|cell| cell.parse::<usize>().expect("a depth"));
        let boundary = nested(depth, "0");
        let text = object("Road", &geometry(word, &boundary, ""), false);
        assert_eq!(code_on_sheet(&text, 6), code, "{word}");
        for other in [depth - 1, depth + 1].into_iter().filter(|depth| *depth > 0) {
            let text = object("Road", &geometry(word, &nested(other, "0"), ""), false);
            assert_eq!(rule(&text), 12, "{word}, {other}");
        }
        for tried in 1..6 {
            let values = nested(tried, "null");
            let semantics = format!(r#","semantics":{{"surfaces":[],"values":{values}}}"#);
            let text = object("Road", &geometry(word, &boundary, &semantics), false);
            let expected = if tried == values_depth { 0 } else { 12 };
            assert_eq!(rule(&text), expected, "{word}, values {tried}");
        }
    }
}

#[test]
fn surface_types() {
    let page = page("RULES.md");
    let surfaces = codes(&page, "### Surfaces");
    assert_eq!(surfaces.len(), 19);
    for (code, row) in surfaces {
        let word = if code == 19 { "+x" } else { row[1] };
        let semantics = format!(r#","semantics":{{"surfaces":[{{"type":"{word}"}}],"values":[]}}"#);
        let text = object("Road", &geometry("MultiPoint", "[]", &semantics), false);
        assert_eq!(code_on_sheet(&text, 7), code, "{word}");
    }
    let semantics = r#","semantics":{"surfaces":[{"type":"+"}],"values":[]}"#;
    let text = object("Road", &geometry("MultiPoint", "[]", semantics), false);
    assert_eq!(rule(&text), 10);
}
