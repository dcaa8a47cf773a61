//! Cases written by hand. The expected values come from the papers' rules (docs/RULES.md,
//! docs/SHEET.md); the reader gives them, and with the features `library` and `lay` the
//! library also.

use std::ops::Range;

use kebrawish_tests::samples::{self, document, MINIMAL};
use kebrawish_tests::{compare, Refusal, Verdict};

/// The answer of judge.
#[track_caller]
fn judge(text: &[u8]) -> Verdict {
    compare::all(text, "a case").judge
}

/// The answer of lay, and the room's bytes afterwards.
#[track_caller]
fn lay(text: &[u8], room: usize) -> (Verdict, Vec<u8>) {
    compare::lay(text, room, 0xA5, "a case")
}

/// The object types in the order of their codes, 1 to 33.
const OBJECTS: &str = concat!(
    "Bridge Building CityFurniture CityObjectGroup GenericCityObject LandUse ",
    "OtherConstruction PlantCover Railway Road SolitaryVegetationObject TINRelief ",
    "TransportSquare Tunnel WaterBody Waterway BridgePart BridgeInstallation ",
    "BridgeConstructiveElement BridgeRoom BridgeFurniture BuildingPart ",
    "BuildingInstallation BuildingConstructiveElement BuildingFurniture BuildingStorey ",
    "BuildingRoom BuildingUnit TunnelPart TunnelInstallation TunnelConstructiveElement ",
    "TunnelHollowSpace TunnelFurniture"
);

/// No white space, each byte of it, and several.
const SPACES: [&str; 6] = ["", " ", "\t", "\n", "\r", " \r\n\t"];

/// A text with one CityFurniture that has one geometry, over one vertex.
fn with_geometry(geometry: &str) -> String {
    let object = format!(r#""a":{{"type":"CityFurniture","geometry":[{geometry}]}}"#);
    document(&object, "[0,0,0]")
}

/// A geometry of lod 1.
fn shape(word: &str, boundary: &str) -> String {
    format!(r#"{{"type":"{word}","lod":"1","boundaries":{boundary}}}"#)
}

/// A geometry of lod 1 with semantics.
fn shape_with_semantics(word: &str, boundary: &str, surfaces: &str, values: &str) -> String {
    let semantics = format!(r#"{{"surfaces":{surfaces},"values":{values}}}"#);
    let shape = shape(word, boundary);
    let start = shape.strip_suffix('}').unwrap();
    format!(r#"{start},"semantics":{semantics}}}"#)
}

fn with_scale(number: &str) -> String {
    MINIMAL.replacen("1.0", number, 1)
}

/// The refusal of the value or the name that has these bytes: rules 6 to 17.
fn refused(rule: u8, bytes: Range<usize>) -> Verdict {
    Refusal::of(rule, bytes).into()
}

/// The refusal at a place that is its own end: rules 1 to 5, and 18.
fn stopped(rule: u8, place: usize) -> Verdict {
    Refusal::at(rule, place).into()
}

fn accepted(objects: usize) -> Verdict {
    let length = 0;
    Verdict::Accepted { length, objects }
}

#[track_caller]
fn check(text: &str, expected: Verdict) {
    assert_eq!(judge(text.as_bytes()), expected, "{text}");
}

/// Checks that the rule refuses the value or name `part`, which the text has once.
#[track_caller]
fn check_at(text: &str, rule: u8, part: &str) {
    check_before(text, rule, part, "");
}

/// Checks that the rule refuses the value or name `part` where `rest` follows it, which is
/// once in the text.
#[track_caller]
fn check_before(text: &str, rule: u8, part: &str, rest: &str) {
    let both = format!("{part}{rest}");
    assert_eq!(text.matches(&both).count(), 1, "{both} in {text}");
    let place = text.find(&both).unwrap();
    check(text, refused(rule, place..place + part.len()));
}

/// Checks that the rule refuses the value or name `part` where the text has it last.
#[track_caller]
fn check_at_last(text: &str, rule: u8, part: &str) {
    let place = text.rfind(part).unwrap();
    check(text, refused(rule, place..place + part.len()));
}

/// The sample readings (docs/TRACE.md).
#[test]
fn sample_readings() {
    for (text, expected) in samples::readings() {
        let (verdict, bytes) = lay(&text, 65_536);
        assert_eq!(verdict, expected, "{}", String::from_utf8_lossy(&text));
        let length = match verdict {
            Verdict::Accepted { length, .. } => length,
            Verdict::Refused { .. } => 0,
        };
        assert!(bytes[length..].iter().all(|byte| *byte == 0));
        let judged = judge(&text);
        match expected {
            Verdict::Accepted { objects, .. } => assert_eq!(judged, accepted(objects)),
            Verdict::Refused { .. } => assert_eq!(judged, expected),
        }
    }
}

#[test]
fn the_minimal_sheet_is_three_records() {
    let (_, bytes) = lay(MINIMAL.as_bytes(), 78);
    let mut expected = vec![60, 0, 0, 0, 1, 0];
    for _ in 0..3 {
        expected.extend([1, 0, 0, 0, 0, 0, 0, 0, 0, 0]);
    }
    expected.extend([0; 30]);
    expected.extend([0, 0, 0, 0, 2, 0]);
    expected.extend([0, 0, 0, 0, 9, 0]);
    assert_eq!(bytes, expected);
}

#[test]
fn the_kiosk() {
    let text = samples::kiosk();
    let (verdict, bytes) = lay(text.as_bytes(), 133);
    let length = 133;
    assert_eq!(verdict, Verdict::Accepted { length, objects: 1 });
    let mut tail = vec![12, 0, 0, 0, 2, 0];
    tail.extend([7, 0, 0, 0, 255, 255, 255, 255, 0, 1, 0, 0]);
    tail.extend([7, 0, 0, 0, 3, 0, 3, 0]);
    tail.extend(b"kiosk");
    tail.extend([0, 0, 0, 0, 4, 0]);
    tail.extend([0, 0, 0, 0, 5, 0]);
    tail.extend([12, 0, 0, 0, 6, 0, 1, 0, 31, 0, 1, 0, 0, 0, 0, 0, 0, 0]);
    tail.extend([0, 0, 0, 0, 9, 0]);
    assert_eq!(bytes[66..], tail);
}

#[test]
fn semantics_and_links_on_the_sheet() {
    let surfaces = r#"[{"type":"Window"},{"type":"+é"}]"#;
    let boundary = "[[[[0,0,0]],[[0]]],[]]";
    let solid = shape_with_semantics("Solid", boundary, surfaces, "[[1,null],[]]")
        .replace("\"1\"", "\"2.1\"");
    let parent = r#""p":{"type":"Building","children":["c"]}"#;
    let start = r#""c":{"type":"BuildingPart","parents":["p"]"#;
    let objects = format!(r#"{parent},{start},"geometry":[{solid}]}}"#);
    let text = document(&objects, "[0,0,0]");
    let (verdict, bytes) = lay(text.as_bytes(), 1_000);
    let mut tail = Vec::new();
    tail.extend([3, 0, 0, 0, 3, 0, 2, 0, b'p']);
    tail.extend([4, 0, 0, 0, 4, 0, 1, 0, 0, 0]);
    tail.extend([0, 0, 0, 0, 5, 0]);
    tail.extend([3, 0, 0, 0, 3, 0, 22, 0, b'c']);
    tail.extend([0, 0, 0, 0, 4, 0]);
    tail.extend([4, 0, 0, 0, 5, 0, 0, 0, 0, 0]);
    // Two shells: one of two surfaces of one ring each, and an empty one.
    let words: [u32; 11] = [2, 2, 1, 3, 0, 0, 0, 1, 1, 0, 0];
    tail.extend([48, 0, 0, 0, 6, 0, 5, 0, 33, 0]);
    tail.extend(words.iter().flat_map(|word| word.to_le_bytes()));
    tail.extend([2, 0, 0, 0, 7, 0, 7, 0]);
    tail.extend([5, 0, 0, 0, 7, 0, 19, 0, b'+', 0xC3, 0xA9]);
    tail.extend([8, 0, 0, 0, 8, 0, 1, 0, 0, 0, 255, 255, 255, 255]);
    tail.extend([0, 0, 0, 0, 9, 0]);
    let length = 66 + 18 + tail.len();
    assert_eq!(verdict, Verdict::Accepted { length, objects: 2 });
    assert_eq!(bytes[84..length], tail);
    assert!(bytes[length..].iter().all(|byte| *byte == 0));
}

#[test]
fn lengths() {
    assert_eq!(judge(&[0xFF; 65_536]), stopped(1, 65_535));
    assert_eq!(judge(&[0xFF; 65_535]), stopped(2, 0));
    assert_eq!(judge(&[b' '; 65_535]), stopped(3, 65_535));
    assert_eq!(judge(&vec![b'['; 1_000_000]), stopped(1, 65_535));
    let mut text = MINIMAL.as_bytes().to_vec();
    text.resize(65_535, b'\n');
    assert_eq!(judge(&text), accepted(0));
    text.push(b' ');
    assert_eq!(judge(&text), stopped(1, 65_535));
}

#[test]
fn utf8() {
    assert_eq!(judge(b"[\"\xC3\xA9\xC3"), stopped(2, 4));
    assert_eq!(judge(b"?\xED\xA0\x80"), stopped(2, 1));
    assert_eq!(judge(b"[\xF4\x90\x80\x80"), stopped(2, 1));
    check("\u{FEFF}{}", stopped(3, 0));
    check("\u{e9}", stopped(3, 0));
    check("\"\u{10FFFF}\"", refused(7, 0..6));
}

#[test]
fn depth() {
    let open = "[".repeat(32);
    check(&format!("{open}[?"), stopped(4, 32));
    check(&format!("{open}{{"), stopped(4, 32));
    check(&format!("{open}1["), stopped(3, 33));
    check(&format!("{open}]["), stopped(3, 33));
    check(&format!("{open}],["), stopped(3, 35));
    check(&format!("{open}],[["), stopped(4, 35));
}

#[test]
fn names_and_words_are_decoded() {
    check(&MINIMAL.replace("\"type\"", r#""ty\u0070e""#), accepted(0));
    check(&MINIMAL.replace("CityJSON", r"City\u004aSON"), accepted(0));
    check(&MINIMAL.replace("2.0", r"2\u002e0"), accepted(0));
    let text = MINIMAL.replacen('{', r#"{"ty\u0070e":"CityJSON","#, 1);
    check_at(&text, 6, "\"type\"");
}

/// Rule 5: each unpaired surrogate escape at its backslash, in values and in names.
#[test]
fn surrogates() {
    for kept in [
        r"\uD83D\uDE00",
        r"\ud83d\uDe00\uDBFF\uDFFF",
        r"\uD7FF\uE000",
        r"\\uD800",
    ] {
        let text = format!("\"{kept}\"");
        check(&text, refused(7, 0..text.len()));
    }
    let rows = [
        (r"\uD800", 1),
        (r"\uDFFF", 1),
        (r"a\uDC00", 2),
        (r"\uD83D\uDE00\uDE00", 13),
        (r"\uD83D\uD83D\uDE00", 1),
        (r"\uDE00\uD83D", 1),
        (r"\uD83D\n\uDE00", 1),
        (r"\uD83Dx\uDE00", 1),
        ("\\uD83D\u{1F600}", 1),
    ];
    for (string, place) in rows {
        check(&format!("\"{string}\""), stopped(5, place));
        check(&format!("{{\"{string}\":0}}"), stopped(5, place + 1));
    }
}

#[test]
fn unexamined_parts() {
    let inside = |value: &str| MINIMAL.replacen('{', &format!(r#"{{"metadata":{value},"#), 1);
    check(&inside(r#"{"type":1,"lod":2,"children":3}"#), accepted(0));
    let text = inside(r#"[["\uDC00"]]"#);
    check(&text, stopped(5, text.find('\\').unwrap()));
    check_at(&inside(r#"[{"x":1,"\u0078":2}]"#), 6, r#""\u0078""#);
    let attributes = r#"{"type":1,"geometry":2,"children":{}}"#;
    let object = format!(r#""a":{{"type":"Road","lod":5,"attributes":{attributes}}}"#);
    check(&document(&object, ""), accepted(1));
    check_at(&document(r#""a":{"type":"Road","attributes":77}"#, ""), 7, "77");
    let surfaces = r#"[{"type":"Door","children":"x","parent":{},"lod":0}]"#;
    let geometry = shape_with_semantics("MultiPoint", "[0]", surfaces, "[0]");
    check(&with_geometry(&geometry), accepted(1));
    check(
        &MINIMAL.replace("\"scale\"", r#""type":3,"scale""#),
        accepted(0),
    );
}

/// Rule 6 where an object has many names, also such as all go to one chain of the library's:
/// `Az` and `B?` have one number there, 65 * 59 + 122 and 66 * 59 + 63.
#[test]
fn many_names() {
    let alike = |n: usize| -> String { (0..7).map(|k| ["Az", "B?"][n >> k & 1]).collect() };
    let plain = |n: usize| format!("n{n}");
    let object = |names: &[String]| {
        let members: Vec<String> = names.iter().map(|name| format!("\"{name}\":0")).collect();
        format!("{{{}}}", members.join(","))
    };
    let inside = |value: &str| MINIMAL.replacen('{', &format!(r#"{{"metadata":{value},"#), 1);
    for name in [&alike as &dyn Fn(usize) -> String, &plain] {
        for count in [15, 16, 17, 18, 33, 128] {
            let names: Vec<String> = (0..count).map(name).collect();
            let whole = object(&names);
            check(&inside(&whole), accepted(0));
            check(&inside(&format!("[{whole},{whole}]")), accepted(0));
            for earlier in [0, 1, count / 2, count - 1] {
                let mut more = names.clone();
                more.push(names[earlier].clone());
                check_at_last(&inside(&object(&more)), 6, &format!("\"{}\"", names[earlier]));
                let escaped = format!("\\u{:04x}{}", names[earlier].as_bytes()[0], &names[earlier][1..]);
                more[count] = escaped.clone();
                check_at(&inside(&object(&more)), 6, &format!("\"{escaped}\""));
                more.swap(count, earlier);
                more.extend((count..2 * count).map(|n| format!("x{n}")));
                check_at_last(&inside(&object(&more)), 6, &format!("\"{}\"", names[earlier]));
            }
        }
    }
}

#[test]
fn the_lowest_rule_then_the_least_place() {
    check(r#"{"type":1,"x":{"a":1,"a":1}}"#, refused(6, 21..24));
    check(r#"{"vertices":1,"type":2}"#, refused(7, 12..13));
    check(r#"{"type":"x","a":["\uD800"],"a":1}"#, stopped(5, 18));
    check("[1,\u{1}\"\\uD800\"", stopped(3, 3));
}

/// The end of a refusal, for each kind of value and for names: one past its last byte, with
/// escapes as they are written. `#` stands for it in a text, and is tried with white space
/// after it, which is no part of it.
#[test]
fn ends() {
    let objects = |members: &str| document(members, "");
    let object = objects("\"a\":#");
    let word = objects(r#""a":{"type":#}"#);
    let version = MINIMAL.replace("\"2.0\"", "#");
    let scale = MINIMAL.replace("[1.0,1.0,1.0]", "#");
    let vertex = document("", "#");
    let index = with_geometry(&shape("MultiPoint", "[0,#]"));
    let values = with_geometry(&shape_with_semantics("MultiPoint", "[0]", "[]", "#"));
    let value = values.replace('#', "[#]");
    let geometry = r#"{"type":#,"lod":"1","boundaries":[]}"#;
    let terrain = objects(&format!(r#""a":{{"type":"TINRelief","geometry":[{geometry}]}}"#));
    let link = objects(r#""a":{"type":"Road","children":[#]},"b":{"type":"Road"}"#);
    let many: String = (0..1_024).map(|n| format!(r#""o{n}":{{"type":"Road"}},"#)).collect();
    let last = objects(&format!(r#"{many}#:{{"type":"Road"}}"#));
    let root = " \n#";
    let rows: [(u8, &str, &[&str]); 23] = [
        // An object.
        (8, root, &["{}", "{ }", r#"{"a":{"b":{}},"c":"}"}"#]),
        (8, &object, &[r#"{"typ":"Road"}"#, r#"{ "a" : { } }"#]),
        (16, &object, &[r#"{"type":"BuildingPart","attributes":{"a":{}}}"#]),
        (12, &vertex, &["{}", r#"{"}":[0,0,0]}"#]),
        // An array.
        (7, root, &["[]", "[ [ ] ]", r#"["]",[{}],1]"#]),
        (7, &version, &["[]", "[[2.0],[]]"]),
        (12, &scale, &["[]", "[1 , 1]", "[1,1,1,1]"]),
        (12, &vertex, &["[]", "[0,0]", "[ 0,0,0.5 ]", "[[0],[0],[0]]"]),
        (12, &values, &["[]", "[null,null]"]),
        // A name.
        (6, r#"{"a":1,#:2}"#, &["\"a\"", r#""\u0061""#]),
        (9, &last, &["\"b\"", r#""\"\u00e9""#]),
        // A string.
        (7, root, &["\"\"", r#""\"""#, "\"\u{e9}\u{20AC}\u{1F3E0}\""]),
        (10, &version, &["\"\"", r#""2\u002E1""#, r#""\"\\\/\b\f\n\r\t""#, r#""\uD83C\uDFE0""#]),
        (11, &word, &["\"+\"", r#""\u002bN\u00f6rd""#]),
        (14, &terrain, &["\"Solid\"", r#""So\u006cid""#]),
        (15, &link, &["\"c\"", r#""\"b\"""#]),
        (17, &link, &["\"b\"", r#""\u0062""#]),
        // A number.
        (7, &version, &["2", "2.0", "-12.50E+07"]),
        (12, &index, &["0.5", "0e0", "-1.0"]),
        (13, &index, &["1", "-1", "340282366920938463463374607431768211456"]),
        // A literal.
        (7, root, &["true", "false", "null"]),
        (12, &index, &["true", "null"]),
        (12, &value, &["true", "false"]),
    ];
    for (rule, text, parts) in rows {
        let place = text.find('#').unwrap();
        for part in parts {
            for space in SPACES {
                let text = text.replace('#', &format!("{part}{space}"));
                check(&text, refused(rule, place..place + part.len()));
            }
        }
    }
}

#[test]
fn object_and_surface_types_with_plus() {
    let object = |word: &str| document(&format!(r#""a":{{"type":"{word}"}}"#), "");
    check_at(&object("+"), 11, "\"+\"");
    check_at(&object("+Noise"), 11, "\"+Noise\"");
    check_at(&object("GeometryInstance"), 10, "\"GeometryInstance\"");
    let geometry = |word: &str| with_geometry(&shape(word, "[0]"));
    check_at(&geometry("+x"), 10, "\"+x\"");
    check_at(&geometry("GeometryInstance"), 11, "\"GeometryInstance\"");
    let surface = |word: &str| {
        let surfaces = format!(r#"[{{"type":"{word}"}}]"#);
        with_geometry(&shape_with_semantics("MultiPoint", "[0]", &surfaces, "[0]"))
    };
    check_at(&surface("+"), 10, "\"+\"");
    check(&surface("+x"), accepted(1));
    check_at(&surface("Roof"), 10, "\"Roof\"");
}

#[test]
fn an_instance_is_examined_by_rules_7_8_and_10() {
    let instance = |rest: &str| with_geometry(&format!(r#"{{"type":"GeometryInstance"{rest}}}"#));
    check_at(
        &instance(r#","boundaries":[0],"template":0"#),
        11,
        "\"GeometryInstance\"",
    );
    check_at(&instance(""), 8, r#"{"type":"GeometryInstance"}"#);
    check_at(&instance(r#","boundaries":77"#), 7, "77");
    check_at(&instance(r#","boundaries":[],"lod":77"#), 7, "77");
    check_at(&instance(r#","boundaries":[],"lod":"x""#), 10, "\"x\"");
    check_at(&instance(r#","boundaries":[],"semantics":77"#), 7, "77");
    let semantics = r#","boundaries":[],"semantics":{"surfaces":[]}"#;
    check_at(&instance(semantics), 8, r#"{"surfaces":[]}"#);
    let semantics = r#","boundaries":[],"semantics":{"surfaces":[{"type":"x"}],"values":[5]}"#;
    check_at(&instance(semantics), 10, "\"x\"");
    check_at(
        &instance(r#","boundaries":[9,{}]"#),
        11,
        "\"GeometryInstance\"",
    );
}

/// Rule 7, for each value that docs/RULES.md names: `#` stands for it, and its kind is that
/// of the second text.
#[test]
fn kinds() {
    let root = |name: &str, old: &str| {
        let new = MINIMAL.replace(&format!("\"{name}\":{old}"), &format!("\"{name}\":#"));
        assert_ne!(new, MINIMAL);
        new
    };
    let object = |rest: &str| document(&format!(r#""a":{{"type":"Road"{rest}}}"#), "[0,0,0]");
    let geometry = |text: &str| object(&format!(r#","geometry":[{text}]"#));
    let point = r#"{"type":"MultiPoint","lod":"1","boundaries":[0]"#;
    let semantics = |text: &str| geometry(&format!(r#"{point},"semantics":{text}}}"#));
    let rows = [
        ("#".to_string(), "{}"),
        (
            root(
                "transform",
                r#"{"scale":[1.0,1.0,1.0],"translate":[0.0,0.0,0.0]}"#,
            ),
            "{}",
        ),
        (root("CityObjects", "{}"), "{}"),
        (document("\"a\":#", ""), "{}"),
        (object(r#","attributes":#"#), "{}"),
        (geometry("#"), "{}"),
        (semantics("#"), "{}"),
        (semantics(r#"{"surfaces":[#],"values":[null]}"#), "{}"),
        (root("type", "\"CityJSON\""), "\"\""),
        (root("version", "\"2.0\""), "\"\""),
        (document(r#""a":{"type":#}"#, ""), "\"\""),
        (geometry(r#"{"type":#,"lod":"1","boundaries":[]}"#), "\"\""),
        (
            geometry(r#"{"type":"Solid","lod":#,"boundaries":[]}"#),
            "\"\"",
        ),
        (
            semantics(r#"{"surfaces":[{"type":#}],"values":[null]}"#),
            "\"\"",
        ),
        (object(r#","children":[#]"#), "\"\""),
        (object(r#","parents":[#]"#), "\"\""),
        (root("scale", "[1.0,1.0,1.0]").replace('#', "[1,#,1]"), "0"),
        (
            root("translate", "[0.0,0.0,0.0]").replace('#', "[0,0,#]"),
            "0",
        ),
        (root("scale", "[1.0,1.0,1.0]"), "[]"),
        (root("translate", "[0.0,0.0,0.0]"), "[]"),
        (root("vertices", "[]"), "[]"),
        (object(r#","geometry":#"#), "[]"),
        (object(r#","children":#"#), "[]"),
        (object(r#","parents":#"#), "[]"),
        (
            geometry(r#"{"type":"Solid","lod":"1","boundaries":#}"#),
            "[]",
        ),
        (semantics(r#"{"surfaces":#,"values":[null]}"#), "[]"),
        (semantics(r#"{"surfaces":[],"values":#}"#), "[]"),
    ];
    for (text, wanted) in rows {
        let place = text.find('#').unwrap();
        for value in ["null", "true", "false", "0", "\"\"", "[]", "{}"] {
            let verdict = judge(text.replace('#', value).as_bytes());
            let wrong = verdict == refused(7, place..place + value.len());
            assert_eq!(wrong, value != wanted, "{value} in {text}: {verdict:?}");
        }
    }
}

/// Rule 10, for the words that other cases leave out.
#[test]
fn wrong_words() {
    for wrong in ["", "cityjson", "CityJSONFeature", "CityJSO"] {
        let text = MINIMAL.replace("CityJSON", wrong);
        check_at(&text, 10, &format!("\"{wrong}\""));
    }
    for wrong in ["", "2", "2.0.1", "1.1"] {
        let text = MINIMAL.replace("2.0", wrong);
        check_at(&text, 10, &format!("\"{wrong}\""));
    }
    for wrong in ["", "road", "Roads", "Solid", "RoofSurface"] {
        let text = document(&format!(r#""a":{{"type":"{wrong}"}}"#), "");
        check_at(&text, 10, &format!("\"{wrong}\""));
    }
    for wrong in ["", "solid", "Solids", "Road", "RoofSurface"] {
        check_at(
            &with_geometry(&shape(wrong, "[]")),
            10,
            &format!("\"{wrong}\""),
        );
    }
}

#[test]
fn required_members() {
    for name in ["type", "version", "transform", "CityObjects", "vertices"] {
        let text = MINIMAL.replace(&format!("\"{name}\""), "\"other\"");
        check(&text, refused(8, 0..text.len()));
    }
    let transform = r#"{"x":[1.0,1.0,1.0],"translate":[0.0,0.0,0.0]}"#;
    check_at(&MINIMAL.replace("\"scale\"", "\"x\""), 8, transform);
    let transform = r#"{"scale":[1.0,1.0,1.0],"x":[0.0,0.0,0.0]}"#;
    check_at(&MINIMAL.replace("\"translate\"", "\"x\""), 8, transform);
    check_at(&document(r#""a":  {"lod":"1"}"#, ""), 8, r#"{"lod":"1"}"#);
    let geometry = r#"{"type":"MultiPoint","boundaries":[0]}"#;
    check_at(&with_geometry(geometry), 8, geometry);
    let geometry = r#"{"lod":"1","boundaries":[0]}"#;
    check_at(&with_geometry(geometry), 8, geometry);
    let geometry = r#"{"type":"MultiPoint","lod":"1"}"#;
    check_at(&with_geometry(geometry), 8, geometry);
    for semantics in [r#"{"values":[0]}"#, r#"{"surfaces":[]}"#, "{ }"] {
        let point = r#"{"type":"MultiPoint","lod":"1","boundaries":[0]"#;
        let text = with_geometry(&format!(r#"{point},"semantics":{semantics}}}"#));
        check_at(&text, 8, semantics);
    }
    let surface = r#"{"children":[]}"#;
    let geometry = shape_with_semantics("MultiPoint", "[0]", &format!("[{surface}]"), "[0]");
    check_at(&with_geometry(&geometry), 8, surface);
}

#[test]
fn object_counts() {
    let objects = |count: usize| {
        let list: Vec<String> = (0..count)
            .map(|number| format!(r#""o{number}":{{"type":"Road"}}"#))
            .collect();
        document(&list.join(","), "")
    };
    check(&objects(1_024), accepted(1_024));
    check_at(&objects(1_025), 9, "\"o1024\"");
    check_at(&objects(1_030), 9, "\"o1024\"");
}

#[test]
fn lods() {
    let lod = |word: &str| {
        with_geometry(&format!(
            r#"{{"type":"MultiPoint","lod":"{word}","boundaries":[0]}}"#
        ))
    };
    for word in ["0", "9", "0.0", "2.1", "9.9"] {
        check(&lod(word), accepted(1));
    }
    for word in [
        "",
        "2.",
        ".2",
        "12",
        "2.10",
        "2,1",
        "\u{ff12}",
        "\u{ff12}.1",
        "a",
    ] {
        check_before(&lod(word), 10, &format!("\"{word}\""), ",");
    }
}

#[test]
fn vertices() {
    for wrong in [
        "7",
        "[0,0]",
        "[0,0,0,0]",
        "[0,0,1.0]",
        "[0,0,1e0]",
        "[0,0,null]",
        "[]",
    ] {
        check_at_last(&document("", wrong), 12, wrong);
    }
    check(&document("", "[-0,2147483647,-2147483648]"), accepted(0));
    check_at(&document("", "[0,2147483648,0]"), 13, "2147483648");
    check_at(&document("", "[0,0,-2147483649]"), 13, "-2147483649");
    let long = format!("1{}", "0".repeat(200));
    check_at(&document("", &format!("[0,0,{long}]")), 13, &long);
}

#[test]
fn transforms() {
    check_at(&MINIMAL.replace("[1.0,1.0,1.0]", "[1,1]"), 12, "[1,1]");
    check_at(
        &MINIMAL.replace("[1.0,1.0,1.0]", "[1,1,1,1]"),
        12,
        "[1,1,1,1]",
    );
    check_at(&MINIMAL.replace("[1.0,1.0,1.0]", "[1,1,\"1\"]"), 7, "\"1\"");
    check_at(&MINIMAL.replace("[1.0,1.0,1.0]", "[1,1,1,null]"), 7, "null");
    for kept in [
        "0e999999999999",
        "10e-23",
        "1000000000000000",
        "999999999999999e22",
        "-0.0",
    ] {
        check(&with_scale(kept), accepted(0));
    }
    for wrong in [
        "1e23",
        "1e-23",
        "1000000000000001",
        "1e99999999999999999999999",
    ] {
        check_at(&with_scale(wrong), 13, wrong);
    }
}

#[test]
fn boundaries() {
    let geometry = |word: &str, boundary: &str| with_geometry(&shape(word, boundary));
    let deep = [
        "[]",
        "[0]",
        "[[0]]",
        "[[[0]]]",
        "[[[[0]]]]",
        "[[[[[0]]]]]",
        "[[[[[[0]]]]]]",
    ];
    let depths = [
        ("MultiPoint", 1),
        ("MultiLineString", 2),
        ("MultiSurface", 3),
        ("CompositeSurface", 3),
        ("Solid", 4),
        ("MultiSolid", 5),
        ("CompositeSolid", 5),
    ];
    for (word, depth) in depths {
        check(&geometry(word, "[]"), accepted(1));
        check(&geometry(word, deep[depth]), accepted(1));
        let start = geometry(word, "#").find('#').unwrap();
        // The array `[0]` that stands where an integer is wanted, or the reverse.
        let place = start + depth;
        check(&geometry(word, deep[depth + 1]), refused(12, place..place + 3));
        if depth > 1 {
            check(&geometry(word, deep[depth - 1]), refused(12, place - 1..place));
        }
    }
    check_at(&geometry("MultiPoint", "[-0,7.0]"), 12, "7.0");
    check_at(&geometry("MultiPoint", "[0,-7]"), 13, "-7");
    check_at(&geometry("MultiPoint", "[0,77]"), 13, "77");
    check_at(&geometry("MultiPoint", "[0,4294967296]"), 13, "4294967296");
    check(&geometry("MultiPoint", "[-0]"), accepted(1));
    check_before(&geometry("MultiPoint", "[1]"), 13, "1", "]}]}}");
}

#[test]
fn semantic_values() {
    let geometry = |boundary: &str, values: &str| {
        with_geometry(&shape_with_semantics(
            "Solid",
            boundary,
            r#"[{"type":"Door"}]"#,
            values,
        ))
    };
    let two_shells = "[[[[0]],[[0]]],[[[0]]]]";
    check(&geometry(two_shells, "[[0,null],[-0]]"), accepted(1));
    check_at(&geometry(two_shells, "[[0,null]]"), 12, "[[0,null]]");
    check_at(
        &geometry(two_shells, "[[0,null],[-0,null]]"),
        12,
        "[-0,null]",
    );
    check_at(&geometry(two_shells, "[[ 0],[0,0]]"), 12, "[ 0]");
    check_before(&geometry(two_shells, "[[0,null],null]"), 12, "null", "]}");
    check_before(&geometry(two_shells, "[[0,null],[0.0]]"), 12, "0.0", "]]}");
    check_before(&geometry(two_shells, "[[0,null],[[0]]]"), 12, "[0]", "]]}");
    check_at(&geometry(two_shells, "[[0,-1],[0]]"), 13, "-1");
    check_before(&geometry(two_shells, "[[0,1],[0]]"), 13, "1", "],[0]]}");
    check_at(
        &geometry(two_shells, "[[0,4294967295],[0]]"),
        13,
        "4294967295",
    );
    // Over a boundary that is not well shaped, the values are not judged.
    check_at(&geometry("[[[[0]],[[0.5]]]]", "[ 1]"), 12, "0.5");
    let point = |boundary: &str| {
        let start = r#"{"semantics":{"values":[7,7],"surfaces":[]},"#;
        with_geometry(&shape("MultiPoint", boundary).replacen('{', start, 1))
    };
    check_at(&point("[null]"), 12, "null");
    check_at(&point("[0]"), 12, "[7,7]");
}

#[test]
fn permissions() {
    let everything = [1, 2, 3, 4, 5, 6, 7];
    let permitted = |word: &str| -> Vec<usize> {
        match word {
            "Bridge" | "BridgePart" | "Tunnel" | "TunnelPart" | "Building" | "BuildingPart"
            | "BuildingStorey" | "BuildingRoom" | "BuildingUnit" => vec![3, 4, 5, 7],
            "GenericCityObject" => vec![1, 2, 3, 4, 5, 7],
            "LandUse" => vec![3, 4],
            "PlantCover" => vec![3, 4, 5, 6, 7],
            "TINRelief" => vec![4],
            "WaterBody" => vec![2, 3, 4, 5, 7],
            _ => everything.to_vec(),
        }
    };
    let geometries = concat!(
        "MultiPoint MultiLineString MultiSurface CompositeSurface Solid MultiSolid ",
        "CompositeSolid"
    );
    for (index, object) in OBJECTS.split(' ').enumerate() {
        for (code, geometry) in (1..).zip(geometries.split(' ')) {
            let parent = r#""p":{"type":"Road","children":["a"]}"#;
            let start = format!(r#""a":{{"type":"{object}","parents":["p"]"#);
            let shape = shape(geometry, "[]");
            let text = document(&format!(r#"{parent},{start},"geometry":[{shape}]}}"#), "");
            if permitted(object).contains(&code) {
                check(&text, accepted(2));
                let (_, bytes) = lay(text.as_bytes(), 1_000);
                // After kinds 1, 2, the first object with one child: 66 + 6 + 9 + 10 + 6.
                let record = &bytes[97..106];
                assert_eq!(record, [3, 0, 0, 0, 3, 0, index as u8 + 1, 0, b'a']);
            } else {
                check_at(&text, 14, &format!("\"{geometry}\""));
            }
        }
    }
}

/// The codes of geometry and surface types, on the sheet.
#[test]
fn codes() {
    let geometries = [
        "MultiPoint",
        "MultiLineString",
        "MultiSurface",
        "CompositeSurface",
        "Solid",
        "MultiSolid",
        "CompositeSolid",
    ];
    let surfaces = concat!(
        "RoofSurface GroundSurface WallSurface ClosureSurface OuterCeilingSurface ",
        "OuterFloorSurface Window Door InteriorWallSurface CeilingSurface FloorSurface ",
        "WaterSurface WaterGroundSurface WaterClosureSurface TrafficArea ",
        "AuxiliaryTrafficArea TransportationMarking TransportationHole +"
    );
    for (geometry, word) in (1..).zip(geometries) {
        for (surface, name) in (1..).zip(surfaces.split(' ')) {
            let name = name.replace('+', "+x");
            let surfaces = format!(r#"[{{"type":"{name}"}}]"#);
            let text = with_geometry(&shape_with_semantics(word, "[]", &surfaces, "[]"));
            let sheet = lay(text.as_bytes(), 500).1;
            // After kinds 1 to 5: 66, 18, 9, 6 and 6 bytes. The lod is 1, the boundary empty.
            let kind_6 = [8, 0, 0, 0, 6, 0, geometry, 0, 31, 0, 0, 0, 0, 0];
            assert_eq!(sheet[105..119], kind_6, "{word}");
            let length = if surface == 19 { 4 } else { 2 };
            let kind_7 = [length, 0, 0, 0, 7, 0, surface, 0];
            assert_eq!(sheet[119..127], kind_7, "{name}");
        }
    }
}

/// The transform and the vertices on the sheet: little-endian, in two's complement.
#[test]
fn numbers_on_the_sheet() {
    let transform = r#"{"scale":[0.001,1e22,-15],"translate":[0,-12.50,999999999999999e-22]}"#;
    let text = document("", "[1,-1,-2147483648]").replace(
        r#"{"scale":[1.0,1.0,1.0],"translate":[0.0,0.0,0.0]}"#,
        transform,
    );
    let pairs: [(i64, i16); 6] = [
        (1, -3),
        (1, 22),
        (-15, 0),
        (0, 0),
        (-125, -1),
        (999_999_999_999_999, -22),
    ];
    let mut expected = vec![60, 0, 0, 0, 1, 0];
    for (m, e) in pairs {
        expected.extend(m.to_le_bytes());
        expected.extend(e.to_le_bytes());
    }
    expected.extend([12, 0, 0, 0, 2, 0]);
    expected.extend([1, 0, 0, 0, 255, 255, 255, 255, 0, 0, 0, 128]);
    expected.extend([0, 0, 0, 0, 9, 0]);
    assert_eq!(lay(text.as_bytes(), 90).1, expected);
}

/// Texts that are alike, and texts that are not.
#[test]
fn alike_texts() {
    let laid = |text: &str| {
        let (verdict, bytes) = lay(text.as_bytes(), 1_000);
        assert_eq!(verdict.rule(), 0, "{text}");
        bytes
    };
    let one = document(
        r#""a":{"type":"Road","children":["b"]},"b":{"type":"Road","parents":["a"]}"#,
        "[0,10,-5]",
    );
    // Members in another order, escapes, numbers by value, white space, unexamined members.
    let two = r#" { "vertices":[[-0,10,-5]], "metadata":[{"type":7}],
        "CityObjects":{"a":{"children":["\u0062"],"attributes":{"x":1},"type":"R\u006fad"},
        "\u0062":{"geometry":[],"parents":["a"],"address":null,"type":"Road"}},
        "transform":{"translate":[0,-0,0e9],"scale":[1,10e-1,0.01E+2]},
        "version":"2.0","type":"CityJSON"} "#;
    assert_eq!(laid(&one), laid(two));
    // City objects in another order, an array in another order, another ID.
    let order = document(
        r#""b":{"type":"Road","parents":["a"]},"a":{"type":"Road","children":["b"]}"#,
        "[0,10,-5]",
    );
    assert_ne!(laid(&one), laid(&order));
    assert_ne!(laid(&one), laid(&one.replace("[0,10,-5]", "[10,0,-5]")));
    assert_ne!(laid(&one), laid(&one.replace("\"b\"", "\"B\"")));
}

#[test]
fn links() {
    let two = |a: &str, b: &str| document(&format!(r#""a":{{{a}}},"b":{{{b}}}"#), "");
    let road = r#""type":"Road""#;
    // The rule, what it refuses, and what follows that.
    let check_links = |a: &str, b: &str, expected: Option<(u8, &str, &str)>| {
        let text = two(a, b);
        match expected {
            None => check(&text, accepted(2)),
            Some((rule, part, rest)) => check_before(&text, rule, part, rest),
        }
    };
    check_links(
        r#""type":"Road","children":["b"]"#,
        r#""type":"Road","parents":["a"]"#,
        None,
    );
    check_links(
        r#""type":"Road","children":["x"]"#,
        road,
        Some((15, "\"x\"", "")),
    );
    check_links(
        r#""type":"Road","parents":["x"]"#,
        road,
        Some((15, "\"x\"", "")),
    );
    check_links(
        r#""type":"Road","children":["b", "\u0062"]"#,
        r#""type":"Road","parents":["a"]"#,
        Some((15, r#""\u0062""#, "")),
    );
    check_links(
        r#""type":"Road","children":["b","b" ]"#,
        r#""type":"Road","parents":["a"]"#,
        Some((15, "\"b\"", " ]")),
    );
    check_links(
        r#""type":"Road","children":["b"]"#,
        road,
        Some((17, "\"b\"", "]")),
    );
    check_links(
        r#""type":"Road","parents":["b"]"#,
        road,
        Some((17, "\"b\"", "]")),
    );
    check_links(r#""type":"CityObjectGroup","children":["b"]"#, road, None);
    check_links(
        r#""type":"CityObjectGroup","parents":["b"]"#,
        road,
        Some((17, "\"b\"", "]")),
    );
    check_links(
        r#""type":"Road","children":["b"]"#,
        r#""type":"CityObjectGroup""#,
        Some((17, "\"b\"", "]")),
    );
    check_links(
        r#""type":"CityObjectGroup""#,
        r#""type":"Road","parents":["a"]"#,
        Some((17, "\"a\"", "]")),
    );
    check_links(
        r#""type":"Road","parents":["a"],"children":["a"]"#,
        road,
        None,
    );
    check_links(
        r#""type":"Road","parents":["a"]"#,
        road,
        Some((17, "\"a\"", "]")),
    );
    let part = r#""type":"BuildingPart""#;
    let whole = r#"{"type":"BuildingPart"}"#;
    check_links(part, road, Some((16, whole, "")));
    let empty = r#""type":"BuildingPart","parents":[],"children":["b"]"#;
    check_links(empty, road, Some((16, &format!("{{{empty}}}"), "")));
    check_links(
        r#""type":"CityObjectGroup","children":["b"]"#,
        part,
        Some((16, whole, "")),
    );
    check_links(r#""type":"Road","children":[7]"#, road, Some((7, "7", "")));
    for (code, word) in (1..).zip(OBJECTS.split(' ')) {
        let second = (17..=33).contains(&code);
        let a = format!(r#""type":"{word}""#);
        let part = format!(r#"{{"type":"{word}"}}"#);
        check_links(
            &a,
            r#""type":"Road" "#,
            second.then_some((16, part.as_str(), "")),
        );
    }
}

#[test]
fn absent_and_empty_lists_are_the_same_model() {
    let absent = document(r#""a":{"type":"Road"}"#, "");
    let empty = document(
        r#""a":{"type":"Road","children":[],"parents":[],"geometry":[]}"#,
        "",
    );
    assert_eq!(lay(absent.as_bytes(), 200), lay(empty.as_bytes(), 200));
    let geometry = shape("MultiPoint", "[]");
    let with_semantics = shape_with_semantics("MultiPoint", "[]", "[]", "[]");
    let without = lay(with_geometry(&geometry).as_bytes(), 500).1;
    let with = lay(with_geometry(&with_semantics).as_bytes(), 500).1;
    assert_ne!(without, with);
}

/// The traps that docs/TRACE.md lists as builds that would sound right.
#[test]
fn builds_that_would_sound_right() {
    // Matching on raw bytes.
    let escaped = MINIMAL.replace("\"type\"", r#""ty\u0070e""#);
    check(&escaped, accepted(0));
    check_at(&escaped.replace("CityJSON", "City"), 10, "\"City\"");
    // Reporting the first fault met.
    check(r#"{"type":1,"type":1}"#, refused(6, 10..16));
    // Boundaries as one run of indices.
    let surface = |boundary: &str| {
        let geometry = shape("MultiSurface", boundary);
        let object = format!(r#""a":{{"type":"Road","geometry":[{geometry}]}}"#);
        let sheet = lay(document(&object, "[0,0,0],[1,0,0],[1,1,0]").as_bytes(), 500).1;
        // After kinds 1 to 5 (66, 42, 9, 6 and 6 bytes) and ten bytes of kind 6.
        sheet[139..167].to_vec()
    };
    let words = |words: [u32; 7]| words.map(u32::to_le_bytes).concat();
    assert_eq!(surface("[[[0,1],[2]]]"), words([1, 2, 2, 0, 1, 1, 2]));
    assert_eq!(surface("[[[0],[1,2]]]"), words([1, 2, 1, 0, 2, 1, 2]));
    // A value of -1 as null, or `-0` out of range.
    let value = |value: &str| {
        let geometry = shape_with_semantics("MultiPoint", "[-0]", r#"[{"type":"Door"}]"#, value);
        with_geometry(&geometry)
    };
    check_at(&value("[-1]"), 13, "-1");
    check(&value("[-0]"), accepted(1));
    assert_eq!(
        lay(value("[-0]").as_bytes(), 500),
        lay(value("[0]").as_bytes(), 500)
    );
    assert_ne!(
        lay(value("[null]").as_bytes(), 500),
        lay(value("[0]").as_bytes(), 500)
    );
    // Clearing only what was written, or nothing.
    let text = value("[0]");
    for text in [text.as_bytes(), b"{}", b"\xFF"] {
        for room in [1, 100, 1_000, 65_536] {
            let (verdict, bytes) = lay(text, room);
            let length = match verdict {
                Verdict::Accepted { length, .. } => length,
                Verdict::Refused { .. } => 0,
            };
            assert!(bytes[length..].iter().all(|byte| *byte == 0));
        }
    }
}

/// What the old edition of the source document has, and what is wrong here.
#[test]
fn the_old_edition() {
    let numeric = r#"{"type":"MultiPoint","lod":2.1,"boundaries":[0]}"#;
    check_at(&with_geometry(numeric), 7, "2.1");
    let bracket = shape("MultiSurface", "[[[[0,0,0]]]]");
    check_before(&with_geometry(&bracket), 12, "[0,0,0]", "]]]");
}

#[test]
fn rooms() {
    let text = with_geometry(&shape("MultiPoint", "[0]"));
    let length = 129;
    let (verdict, sheet) = lay(text.as_bytes(), length);
    assert_eq!(verdict, Verdict::Accepted { length, objects: 1 });
    for filling in [0x00, 0x01, 0xFF] {
        let lay = |text: &[u8], room| compare::lay(text, room, filling, "a room");
        for room in 0..length {
            assert_eq!(lay(text.as_bytes(), room), (stopped(18, 0), vec![0; room]));
        }
        for room in length..length + 80 {
            let mut expected = sheet.clone();
            expected.resize(room, 0);
            assert_eq!(lay(text.as_bytes(), room), (verdict, expected));
        }
        for room in 0..300 {
            assert_eq!(lay(b"{}", room), (refused(8, 0..2), vec![0; room]));
        }
    }
}
