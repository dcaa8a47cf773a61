//! Texts at the limits of length, depth and count.

use crate::samples::{document, MINIMAL};
use crate::TEXT_LIMIT;

/// A text at a limit, with a few words that say what it is and the rule it breaks, 0 for
/// none.
pub struct Large {
    pub label: &'static str,
    pub text: Vec<u8>,
    pub rule: u8,
}

/// The texts at the limits.
pub fn large_texts() -> Vec<Large> {
    let texts = texts();
    let large = |(rule, label, text)| Large { label, text, rule };
    texts.into_iter().map(large).collect()
}

fn texts() -> Vec<(u8, &'static str, Vec<u8>)> {
    vec![
        (4, "open arrays", vec![b'['; TEXT_LIMIT]),
        (3, "white space", vec![b' '; TEXT_LIMIT]),
        (7, "digits", vec![b'7'; TEXT_LIMIT]),
        (3, "quotes", vec![b'"'; TEXT_LIMIT]),
        (2, "bytes FF", vec![0xFF; TEXT_LIMIT]),
        (1, "too many bytes FF", vec![0xFF; TEXT_LIMIT + 1]),
        (1, "a million arrays", vec![b'['; 1_000_000]),
        (0, "32 levels in metadata", with_metadata(&nested(31))),
        (4, "33 levels in metadata", with_metadata(&nested(32))),
        (
            0,
            "many deep arrays",
            with_metadata(&list(&nested(30), 500)),
        ),
        (0, "empty arrays", with_metadata(&list("[]", 21_000))),
        (0, "empty objects", with_metadata(&list("{}", 21_000))),
        (
            0,
            "a long string",
            with_metadata(&format!("\"{}\"", "é".repeat(32_000))),
        ),
        (
            0,
            "many escapes",
            with_metadata(&format!("\"{}\"", "\\u00e9".repeat(10_800))),
        ),
        (
            0,
            "many pairs",
            with_metadata(&format!("\"{}\"", r"\uD83D\uDE00".repeat(5_400))),
        ),
        (0, "many names", with_metadata(&many_names(6_000, ""))),
        (
            0,
            "many names with one start",
            with_metadata(&many_names(900, &"n".repeat(60))),
        ),
        (
            6,
            "a repeated name at the end",
            with_metadata(&repeated_at_the_end(6_000)),
        ),
        (
            0,
            "names of one chain",
            with_metadata(&format!("[{},{}]", alike_names(400, ""), list("[]", 17_000))),
        ),
        (
            6,
            "a repeated name of one chain",
            with_metadata(&format!("[{},{}]", alike_names(400, &alike(7)), list("[]", 17_000))),
        ),
        (
            0,
            "a long numeral",
            with_scale(&format!("1{}e-60000", "0".repeat(60_000))),
        ),
        (
            0,
            "a long fraction",
            with_scale(&format!("0.{}1e60001", "0".repeat(60_000))),
        ),
        (
            13,
            "a long exponent",
            with_scale(&format!("1e{}", "9".repeat(60_000))),
        ),
        (
            0,
            "many zeros in an exponent",
            with_scale(&format!("1e{}1", "0".repeat(60_000))),
        ),
        (
            0,
            "a long zero",
            with_scale(&format!("0.{}", "0".repeat(60_000))),
        ),
        (
            0,
            "vertices",
            document("", &repeated("[0,0,0]", 8_100)).into_bytes(),
        ),
        (13, "vertices out of range", out_of_range(8_000)),
        (0, "1,024 objects", objects(1_024)),
        (9, "1,025 objects", objects(1_025)),
        (0, "1,024 objects with links", pairs(512)),
        (0, "a family", family("CityFurniture", true)),
        (0, "a group", family("CityObjectGroup", false)),
        (
            17,
            "a family with one-sided links",
            family("CityFurniture", false),
        ),
        (0, "a long boundary", with_points(&list("0", 32_500))),
        (
            0,
            "a boundary of empty arrays",
            with_lines(&list("[]", 21_700)),
        ),
        (
            0,
            "a long ID",
            document(
                &format!(r#""{}":{{"type":"Road"}}"#, "i".repeat(65_000)),
                "",
            )
            .into(),
        ),
        (0, "many geometries", many_geometries(1_100)),
        (0, "many values", many_values(13_000)),
        (0, "many surfaces", many_surfaces(3_000)),
        (0, "a dense quarter", filled(dense(64, 1_100), 64_000)),
        (
            0,
            "4,096 bytes of arrays",
            filled(with_metadata(&list("[]", 1_300)), 4_096),
        ),
        (0, "4,096 bytes of objects", filled(objects(180), 4_096)),
        (
            0,
            "4,096 bytes of objects with links",
            filled(pairs(50), 4_096),
        ),
        (
            0,
            "4,096 bytes of names of one chain",
            filled(with_metadata(&alike_names(130, "")), 4_096),
        ),
        (4, "4,096 bytes of open arrays", vec![b'['; 4_096]),
        (0, "4,097 bytes of objects", filled(objects(180), 4_097)),
        (
            0,
            "4,097 bytes of names of one chain",
            filled(with_metadata(&alike_names(130, "")), 4_097),
        ),
    ]
}

/// A text with line feeds after it, of the given length.
fn filled(text: Vec<u8>, length: usize) -> Vec<u8> {
    let mut filled = text;
    assert!(filled.len() <= length, "{} bytes", filled.len());
    filled.resize(length, b'\n');
    filled
}

/// A value written `count` times with commas between.
fn repeated(value: &str, count: usize) -> String {
    vec![value; count].join(",")
}

fn list(value: &str, count: usize) -> String {
    format!("[{}]", repeated(value, count))
}

/// Arrays and objects in turn, of the given depth.
fn nested(levels: usize) -> String {
    let open: String = (0..levels)
        .map(|level| ["[", "{\"a\":"][level % 2])
        .collect();
    let close: String = (0..levels)
        .rev()
        .map(|level| ["]", "}"][level % 2])
        .collect();
    format!("{open}null{close}")
}

fn with_metadata(value: &str) -> Vec<u8> {
    let start = format!(r#"{{"metadata":{value},"#);
    MINIMAL.replacen('{', &start, 1).into_bytes()
}

fn with_scale(numeral: &str) -> Vec<u8> {
    MINIMAL.replacen("1.0", numeral, 1).into_bytes()
}

/// The n-th of 4,096 names that go to one chain of the library's: `Az` and `B?` have one number there.
fn alike(n: usize) -> String {
    (0..12).map(|k| ["Az", "B?"][n >> k & 1]).collect()
}

/// An object of such names, and after them of one more if it is not empty.
fn alike_names(count: usize, last: &str) -> String {
    let names = (0..count).map(alike).chain([last.to_string()]);
    let members: Vec<String> = names.filter(|name| !name.is_empty()).map(|name| format!("\"{name}\":0")).collect();
    format!("{{{}}}", members.join(","))
}

fn many_names(count: usize, start: &str) -> String {
    let names: Vec<String> = (0..count).map(|n| format!("\"{start}{n}\":0")).collect();
    format!("{{{}}}", names.join(","))
}

fn repeated_at_the_end(count: usize) -> String {
    let names = many_names(count, "");
    format!(r#"{},"\u0030":0}}"#, names.trim_end_matches('}'))
}

fn out_of_range(count: usize) -> Vec<u8> {
    let vertices = format!("{},[0,0,2147483648]", repeated("[0,0,0]", count));
    document("", &vertices).into_bytes()
}

fn objects(count: usize) -> Vec<u8> {
    let object = |number| format!(r#""{number}":{{"type":"Road"}}"#);
    let list: Vec<String> = (0..count).map(object).collect();
    document(&list.join(","), "").into_bytes()
}

/// Objects of which each second one is the child of the one before it.
fn pairs(count: usize) -> Vec<u8> {
    let pair = |n| {
        let parent = format!(r#""{n}":{{"type":"Road","children":["{n}c"]}}"#);
        format!(r#"{parent},"{n}c":{{"type":"Road","parents":["{n}"]}}"#)
    };
    let list: Vec<String> = (0..count).map(pair).collect();
    document(&list.join(","), "").into_bytes()
}

/// Buildings of 24 walls each.
fn dense(buildings: usize, vertices: usize) -> Vec<u8> {
    let wall = |k: usize| format!("[[{},{},{},{}]]", k, k + 1, k + 101, k + 100);
    let building = |n: usize| {
        let walls: Vec<String> = (n..n + 24).map(wall).collect();
        let values = list("0", 24);
        let semantics = format!(r#"{{"surfaces":[{{"type":"WallSurface"}}],"values":[{values}]}}"#);
        let solid = format!(
            r#"{{"type":"Solid","lod":"2.2","boundaries":[[{}]],"semantics":{semantics}}}"#,
            walls.join(",")
        );
        format!(r#""b{n}":{{"type":"Building","geometry":[{solid}]}}"#)
    };
    let objects: Vec<String> = (0..buildings).map(building).collect();
    let vertex = |k: usize| format!("[{},{},{}]", 17 * k, -12 * k as i64, 3_000);
    let vertices: Vec<String> = (0..vertices).map(vertex).collect();
    document(&objects.join(","), &vertices.join(",")).into_bytes()
}

/// One object with 1,000 children, which list it as parent or list none.
fn family(word: &str, returned: bool) -> Vec<u8> {
    let ids: Vec<String> = (0..1_000).map(|number| format!("\"{number}\"")).collect();
    let parents = if returned { r#","parents":["p"]"# } else { "" };
    let child = |id: &String| format!(r#"{id}:{{"type":"Road"{parents}}}"#);
    let children: Vec<String> = ids.iter().map(child).collect();
    let parent = format!(r#""p":{{"type":"{word}","children":[{}]}}"#, ids.join(","));
    document(&format!("{parent},{}", children.join(",")), "").into_bytes()
}

fn with_geometries(geometries: &str) -> Vec<u8> {
    let object = format!(r#""a":{{"type":"Road","geometry":[{geometries}]}}"#);
    document(&object, "[0,0,0]").into_bytes()
}

fn with_points(boundary: &str) -> Vec<u8> {
    with_geometries(&format!(
        r#"{{"type":"MultiPoint","lod":"1","boundaries":{boundary}}}"#
    ))
}

fn with_lines(boundary: &str) -> Vec<u8> {
    with_geometries(&format!(
        r#"{{"type":"MultiLineString","lod":"1","boundaries":{boundary}}}"#
    ))
}

fn many_geometries(count: usize) -> Vec<u8> {
    let geometry = r#"{"type":"MultiPoint","lod":"1","boundaries":[0]}"#;
    with_geometries(&repeated(geometry, count))
}

fn many_values(count: usize) -> Vec<u8> {
    let boundary = list("0", count);
    let values = list("0", count);
    let semantics = format!(r#"{{"surfaces":[{{"type":"Door"}}],"values":{values}}}"#);
    with_geometries(&format!(
        r#"{{"type":"MultiPoint","lod":"1","boundaries":{boundary},"semantics":{semantics}}}"#
    ))
}

fn many_surfaces(count: usize) -> Vec<u8> {
    let surfaces = list(r#"{"type":"+x"}"#, count);
    let semantics = format!(r#"{{"surfaces":{surfaces},"values":[{}]}}"#, count - 1);
    with_geometries(&format!(
        r#"{{"type":"MultiPoint","lod":"1","boundaries":[0],"semantics":{semantics}}}"#
    ))
}
