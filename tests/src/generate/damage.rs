//! Damages: for each rule, a text that breaks this rule and none lower, with the place and
//! the end that the refusal is expected to name.

use super::draft::{anything, draft, Body, Draft, Entry, Role};
use super::city_model::{city_model, fresh_id, geometry};
use super::random::Random;
use super::spelling::{spell, Style};
use crate::model::{Model, Object};
use crate::words;
use crate::{Refusal, TEXT_LIMIT};

/// A text that breaks the given rule, from 1 to 17, once, and the role of what was damaged,
/// if that is a value or a name.
pub fn damaged(rule: u8, random: &mut Random) -> (Vec<u8>, Refusal, Option<Role>) {
    loop {
        let mut model = city_model(random, 6);
        let bytes = |(text, place)| Some((text, Refusal::at(rule, place), None));
        let found = match rule {
            1 => bytes(too_long(&model, random)),
            2 => bytes(not_utf8(&model, random)),
            3 if random.chance(40) => bytes(cut_or_extended(&model, random)),
            _ => damaged_text(rule, &mut model, random),
        };
        let Some((text, refusal, role)) = found else {
            continue;
        };
        if text.len() <= TEXT_LIMIT || rule == 1 {
            return (text, refusal, role);
        }
    }
}

/// The roles at which a rule from 7 to 17 is broken, by the places that docs/RULES.md gives.
pub fn targets(rule: u8) -> Vec<Role> {
    let roles = Role::ALL.into_iter();
    match rule {
        7 => roles.filter(|role| wanted_kind(*role).is_some()).collect(),
        8 => roles
            .filter(|role| !required_names(*role).is_empty())
            .collect(),
        9 => vec![Role::Plain],
        10 => roles
            .filter(|role| !wrong_words(*role).is_empty())
            .collect(),
        11 => vec![Role::ObjectType, Role::GeometryType],
        12 => vec![
            Role::TransformArray,
            Role::Vertex,
            Role::BoundaryPart,
            Role::Index(0),
            Role::Values,
            Role::ValuesPart,
            Role::Value(0),
            // An element added to a boundary.
            Role::Plain,
        ],
        13 => vec![
            Role::TransformNumber,
            Role::Coordinate,
            Role::Index(0),
            Role::Value(0),
        ],
        14 => vec![Role::GeometryType],
        15 | 17 => vec![Role::Link],
        16 => vec![Role::Object],
        _ => Vec::new(),
    }
}

/// A text with several damages; what it answers is not known beforehand.
pub fn damaged_often(random: &mut Random) -> Vec<u8> {
    let mut model = city_model(random, 6);
    let count = random.between(1, 3);
    let rules: Vec<u8> = (0..count).map(|_| random.between(5, 17) as u8).collect();
    for rule in rules.iter().filter(|rule| **rule >= 14) {
        damage_model(*rule, &mut model, random);
    }
    let mut draft = draft(&model, 15, random);
    for rule in rules.iter().filter(|rule| **rule < 14 && **rule != 9) {
        damage_draft(*rule, &mut draft, random);
    }
    if random.chance(40) {
        copy_over(&mut draft, random);
    }
    spell(&draft, Style::random(random), random).0
}

/// Puts a copy of one value in the place of another.
fn copy_over(draft: &mut Draft, random: &mut Random) {
    let any = |_: &Draft| true;
    let Some((copy, _)) = draft
        .pick(random, &any)
        .map(|(found, open)| (found.clone(), open))
    else {
        return;
    };
    if let Some((target, _)) = draft.pick(random, &any) {
        *target = copy;
    }
}

/// A text damaged in its bytes, without regard to what they mean.
pub fn damage_bytes(text: &mut Vec<u8>, random: &mut Random) {
    let alphabet = b"{}[]\":,\\u0123456789eE+-.truefalsn \t\n/dD8";
    for _ in 0..random.between(1, 3) {
        let place = random.below(text.len() + 1);
        let byte = if random.chance(70) {
            *random.pick(alphabet)
        } else {
            random.next_u64() as u8
        };
        match random.below(6) {
            0 => text.insert(place, byte),
            1 => text.truncate(place),
            2 if place < text.len() => drop(text.remove(place)),
            3 if place < text.len() => {
                let end = (place + random.between(1, 12)).min(text.len());
                let slice = text[place..end].to_vec();
                text.splice(place..place, slice);
            }
            _ if place < text.len() => text[place] = byte,
            _ => text.push(byte),
        }
    }
}

/// A whole text of the model.
fn whole_text(model: &Model, random: &mut Random) -> Vec<u8> {
    let draft = draft(model, 15, random);
    spell(&draft, Style::random(random), random).0
}

/// Rule 1: a text, or bytes of one sort, longer than the limit.
fn too_long(model: &Model, random: &mut Random) -> (Vec<u8>, usize) {
    let length = TEXT_LIMIT + random.between(1, 40);
    let mut text = whole_text(model, random);
    if random.chance(30) {
        text.clear();
    }
    let byte = *random.pick(b" [\xFFx");
    text.resize(length.max(text.len()), byte);
    (text, TEXT_LIMIT)
}

/// Rule 2: bytes that begin no character, between two characters.
fn not_utf8(model: &Model, random: &mut Random) -> (Vec<u8>, usize) {
    let wrong: [&[u8]; 12] = [
        b"\xFF",
        b"\x80",
        b"\xC0\x80",
        b"\xC1\xBF",
        b"\xE0\x9F\xBF",
        b"\xED\xA0\x80",
        b"\xF0\x8F\xBF\xBF",
        b"\xF4\x90\x80\x80",
        b"\xF8\x88\x80\x80\x80",
        b"\xC3",
        b"\xE2\x82",
        b"\xF0\x9F\x8F",
    ];
    let mut text = whole_text(model, random);
    let string = std::str::from_utf8(&text).expect("a whole text");
    let mut place = random.below(text.len() + 1);
    while !string.is_char_boundary(place) {
        place -= 1;
    }
    let bytes = random.pick(&wrong).iter().copied();
    text.splice(place..place, bytes);
    if random.chance(20) {
        // The rest is cut, so that the wrong bytes end the text.
        text.truncate(place + 1);
        text[place] = *random.pick(b"\xC3\xE2\xF0\xFF\x80");
    }
    (text, place)
}

/// Rule 3: a text cut before its end, or followed by what is no white space.
fn cut_or_extended(model: &Model, random: &mut Random) -> (Vec<u8>, usize) {
    let mut text = whole_text(model, random);
    if random.chance(40) {
        let place = text.len();
        text.extend(*random.pick(&[&b"}"[..], b",", b"{}", b"x", b"0", "\u{FEFF}".as_bytes()]));
        return (text, place);
    }
    let string = std::str::from_utf8(&text).expect("a whole text");
    let last = string.rfind('}').expect("the end of the root");
    let mut place = random.below(last + 1);
    while !string.is_char_boundary(place) {
        place -= 1;
    }
    text.truncate(place);
    (text, place)
}

/// Breaks the rule in the model or in its draft, and spells that.
fn damaged_text(
    rule: u8,
    model: &mut Model,
    random: &mut Random,
) -> Option<(Vec<u8>, Refusal, Option<Role>)> {
    let draft = if rule >= 14 {
        let target = damage_model(rule, model, random)?;
        let mut draft = draft(model, 15, random);
        target.mark(&mut draft);
        draft
    } else {
        let mut draft = draft(model, 15, random);
        damage_draft(rule, &mut draft, random)?;
        draft
    };
    let style = if rule == 9 {
        Style::PLAIN
    } else {
        Style::random(random)
    };
    let (text, mark) = spell(&draft, style, random);
    let mark = mark.expect("a marked damage");
    let refusal = if rule <= 5 {
        Refusal::at(rule, mark.start)
    } else {
        Refusal::of(rule, mark)
    };
    Some((text, refusal, draft.marked()))
}

/// Breaks a rule from 3 to 13 in a draft; none if the draft has no part for it.
fn damage_draft(rule: u8, draft: &mut Draft, random: &mut Random) -> Option<()> {
    match rule {
        3 => not_json(draft, random),
        4 => too_deep(draft, random),
        5 => unpaired(draft, random),
        6 => repeated_name(draft, random),
        7 => wrong_kind(draft, random),
        8 => absent_member(draft, random),
        9 => too_many_objects(draft, random),
        10 => wrong_word(draft, random),
        11 => not_carried(draft, random),
        12 => wrong_shape(draft, random),
        _ => out_of_range(draft, random),
    }
}

/// Rule 3: a value that is not JSON, with the offset at which it stops.
fn not_json(draft: &mut Draft, random: &mut Random) -> Option<()> {
    let wrong = [
        ("tru", 3),
        ("trux", 3),
        ("nul", 3),
        ("False", 0),
        ("NaN", 0),
        ("nan", 1),
        ("01", 1),
        ("-01", 2),
        ("-", 1),
        ("-x", 1),
        ("+1", 0),
        (".5", 0),
        ("1.", 2),
        ("1.e1", 2),
        ("1e", 2),
        ("1E+", 3),
        ("0x1", 1),
        ("1 2", 2),
        ("'a'", 0),
        ("\"\\x\"", 2),
        ("\"\\u12g4\"", 5),
        ("\"\\uD83\"", 6),
        ("\"a\tb\"", 2),
        ("\"\u{0}\"", 1),
        ("[1,]", 3),
        ("[,1]", 1),
        ("[1 2]", 3),
        ("[1}", 2),
        ("{\"a\":1,}", 7),
        ("{\"a\"}", 4),
        ("{\"a\" 1}", 5),
        ("{\"a\":}", 5),
        ("{a:1}", 1),
        ("{\"a\":1]", 6),
        ("\u{e9}", 0),
        ("\u{b}1", 0),
    ];
    let (raw, offset) = *random.pick(&wrong);
    let (value, _) = draft.pick(random, &|_| true)?;
    value.replace(Body::Raw(raw.to_string()), offset);
    Some(())
}

/// Rule 4: brackets up to the level 33 and beyond.
fn too_deep(draft: &mut Draft, random: &mut Random) -> Option<()> {
    let (value, open) = draft.pick(random, &|_| true)?;
    let mut raw = String::new();
    let mut closing = String::new();
    let mut mark = 0;
    for level in open + 1..=33 + random.below(3) {
        if level == 33 {
            mark = raw.len();
        }
        let (left, right) = *random.pick(&[("[", ']'), ("{\"a\":", '}'), ("[0, ", ']')]);
        raw += left;
        closing.insert(0, right);
    }
    let inner = ["0", "", "?", "\"\\uD800\""];
    raw += *random.pick(&inner);
    if random.chance(80) {
        raw += &closing;
    }
    value.replace(Body::Raw(raw), mark);
    Some(())
}

/// Rule 5: a string or a name with an unpaired surrogate escape.
fn unpaired(draft: &mut Draft, random: &mut Random) -> Option<()> {
    let wrong = [
        r"\uD800",
        r"\uDC00",
        r"\uDBFFx",
        r"\udfff\ud800",
        r"\uD83D\u0041",
        r"\uD83D\n",
        r"\uD800\uD800\uDC00",
        r"\uDC00\uDC00",
        r"\uD83D🏠",
        r"\uD83D\\uDE00",
    ];
    let before = *random.pick(&["", "a", "é", r"\n", r"\uD83D\uDE00", r"\\"]);
    let raw = format!("\"{before}{}\"", random.pick(&wrong));
    let mark = 1 + before.len();
    if random.chance(50) {
        let (value, _) = draft.pick(random, &|_| true)?;
        value.replace(Body::Raw(raw), mark);
    } else {
        let entries = pick_entries(draft, random)?;
        let chosen = random.below(entries.len());
        entries[chosen].name.replace(Body::Raw(raw), mark);
    }
    Some(())
}

/// The members of an object that has some.
fn pick_entries<'a>(draft: &'a mut Draft, random: &mut Random) -> Option<&'a mut Vec<Entry>> {
    let filled =
        |value: &Draft| matches!(&value.body, Body::Object(entries) if !entries.is_empty());
    draft.pick(random, &filled)?.0.entries()
}

/// Rule 6: a name of an earlier member once more.
fn repeated_name(draft: &mut Draft, random: &mut Random) -> Option<()> {
    let entries = pick_entries(draft, random)?;
    let earlier = random.below(entries.len());
    let mut name = entries[earlier].name.clone();
    name.mark = Some(0);
    let value = if random.chance(50) {
        entries[earlier].value.clone()
    } else {
        anything(1, random)
    };
    let place = random.between(earlier + 1, entries.len());
    entries.insert(place, Entry { name, value });
    Some(())
}

/// The JSON kind that rule 7 wants of a role, as its first byte: `0` for a number.
fn wanted_kind(role: Role) -> Option<char> {
    use Role::*;
    match role {
        Root | Transform | Objects | Object | Attributes | Geometry | Semantics | Surface => {
            Some('{')
        }
        RootType | Version | ObjectType | GeometryType | SurfaceType | Lod | Link => Some('"'),
        TransformNumber => Some('0'),
        TransformArray | Vertices | Geometries | LinkList | Boundary | Surfaces | Values => {
            Some('[')
        }
        Plain | Vertex | Coordinate | BoundaryPart | Index(_) | ValuesPart | Value(_) => None,
    }
}

/// Rule 7: a value of another kind than the one wanted.
fn wrong_kind(draft: &mut Draft, random: &mut Random) -> Option<()> {
    let (value, _) = draft.pick(random, &|value| wanted_kind(value.role).is_some())?;
    let wanted = wanted_kind(value.role)?;
    let kinds = ["null", "true", "false", "0", "\"2.0\"", "[]", "{}"];
    let others: Vec<&str> = kinds
        .into_iter()
        .filter(|kind| !kind.starts_with(wanted))
        .collect();
    let raw = random.pick(&others).to_string();
    value.replace(Body::Raw(raw), 0);
    Some(())
}

/// The members that rule 8 wants of a role.
fn required_names(role: Role) -> &'static [&'static str] {
    match role {
        Role::Root => &["type", "version", "transform", "CityObjects", "vertices"],
        Role::Transform => &["scale", "translate"],
        Role::Object | Role::Surface => &["type"],
        Role::Geometry => &["type", "boundaries", "lod"],
        Role::Semantics => &["surfaces", "values"],
        _ => &[],
    }
}

/// Rule 8: an object without a required member.
fn absent_member(draft: &mut Draft, random: &mut Random) -> Option<()> {
    let (value, _) = draft.pick(random, &|value| !required_names(value.role).is_empty())?;
    let name = *random.pick(required_names(value.role));
    value.mark = Some(0);
    value.entries()?.retain(|entry| !entry.is_named(name));
    Some(())
}

/// Rule 9: objects added until there are more than 1,024.
fn too_many_objects(draft: &mut Draft, random: &mut Random) -> Option<()> {
    let count = 1_025 + random.below(4);
    let objects = draft.member("CityObjects")?.entries()?;
    for number in objects.len()..count {
        let word = Draft::text(Role::ObjectType, "Road");
        let object = Draft::new(Role::Object, Body::Object(vec![Entry::new("type", word)]));
        objects.push(Entry::new(&format!("added {number}"), object));
    }
    objects[1_024].name.mark = Some(0);
    Some(())
}

/// Rule 10: a word that is not in its list.
fn wrong_word(draft: &mut Draft, random: &mut Random) -> Option<()> {
    let has_word = |value: &Draft| !wrong_words(value.role).is_empty();
    let (value, _) = draft.pick(random, &has_word)?;
    let word = *random.pick(wrong_words(value.role));
    value.replace(Body::Text(word.to_string()), 0);
    Some(())
}

fn wrong_words(role: Role) -> &'static [&'static str] {
    match role {
        Role::RootType => &[
            "",
            "cityjson",
            "CityJSON ",
            "CityJSONFeature",
            "CityJSO",
            "+CityJSON",
        ],
        Role::Version => &["", "2", "2.0.1", "1.1", "2.0 ", "2,0", "2.00"],
        Role::ObjectType => &[
            "",
            "building",
            "Buildings",
            "Buildin",
            "GeometryInstance",
            "Solid",
            " +x",
            "CityObject",
            "Building\u{0}",
            "WallSurface",
            "Waterway+",
        ],
        Role::GeometryType => &[
            "",
            "+",
            "+Solid",
            "solid",
            "Solids",
            "MultiPoints",
            "GeometryInstances",
            "Building",
            "Multi",
            "Geometryinstance",
        ],
        Role::SurfaceType => &[
            "",
            "+",
            "Roof",
            "wallSurface",
            "WallSurface ",
            "Solid",
            "x+",
            "-x",
        ],
        Role::Lod => &[
            "",
            "2.",
            ".2",
            "12",
            "2.10",
            "2,1",
            "x",
            "-1",
            "2.x",
            "+2",
            "\u{ff12}",
            "\u{ff12}.1",
            "2.\u{663}",
            "1 ",
        ],
        _ => &[],
    }
}

/// Rule 11: a type that is not carried.
fn not_carried(draft: &mut Draft, random: &mut Random) -> Option<()> {
    let role = *random.pick(&[Role::ObjectType, Role::Geometry]);
    let (value, _) = draft.pick(random, &|value| value.role == role)?;
    if role == Role::ObjectType {
        let word = *random.pick(&["+", "+NoiseCityFurniture", "+é", "+Building"]);
        value.replace(Body::Text(word.to_string()), 0);
        return Some(());
    }
    let instance = Body::Text(words::INSTANCE.to_string());
    value.member("type")?.replace(instance, 0);
    if random.chance(70) {
        value.entries()?.retain(|entry| !entry.is_named("lod"));
    }
    Some(())
}

/// Rule 12: one of the shapes wrong.
fn wrong_shape(draft: &mut Draft, random: &mut Random) -> Option<()> {
    match random.below(8) {
        0 => wrong_count(draft, random, &|value| value.role == Role::TransformArray),
        1 => wrong_vertex(draft, random),
        2 => {
            let others = ["0", "null", "\"0\"", "{}", "1.5"];
            swap_raw(
                draft,
                random,
                &|value| value.role == Role::BoundaryPart,
                &others,
            )
        }
        3 => {
            let others = [
                "null", "0.0", "0e0", "0E0", "\"0\"", "[]", "[0]", "{}", "true", "-0.0",
            ];
            swap_raw(
                draft,
                random,
                &|value| matches!(value.role, Role::Index(_)),
                &others,
            )
        }
        4 => wrong_count(draft, random, &|value| {
            matches!(value.role, Role::Values | Role::ValuesPart)
        }),
        5 => {
            let others = ["0", "null", "\"0\"", "{}"];
            swap_raw(
                draft,
                random,
                &|value| value.role == Role::ValuesPart,
                &others,
            )
        }
        6 => {
            let others = ["0.0", "0e0", "1E0", "\"0\"", "[]", "[null]", "{}", "false"];
            swap_raw(
                draft,
                random,
                &|value| matches!(value.role, Role::Value(_)),
                &others,
            )
        }
        _ => wrong_element(draft, random),
    }
}

/// Puts one of the given values in the place of a value, and marks it.
fn swap_raw(
    draft: &mut Draft,
    random: &mut Random,
    wanted: &dyn Fn(&Draft) -> bool,
    others: &[&str],
) -> Option<()> {
    let (value, _) = draft.pick(random, wanted)?;
    value.replace(Body::Raw(random.pick(others).to_string()), 0);
    Some(())
}

/// Takes an element from an array or adds one, and marks the array.
fn wrong_count(
    draft: &mut Draft,
    random: &mut Random,
    wanted: &dyn Fn(&Draft) -> bool,
) -> Option<()> {
    let (value, _) = draft.pick(random, wanted)?;
    let number = value.role == Role::TransformArray;
    value.mark = Some(0);
    let items = value.items()?;
    if !items.is_empty() && random.chance(50) {
        items.pop();
    } else if number || random.chance(50) {
        items.push(Draft::raw(Role::Plain, "0"));
    } else {
        items.push(Draft::raw(Role::Plain, *random.pick(&["null", "[]"])));
    }
    Some(())
}

fn wrong_vertex(draft: &mut Draft, random: &mut Random) -> Option<()> {
    let others = [
        "null",
        "0",
        "{}",
        "[]",
        "[0,0]",
        "[0,0,0,0]",
        "[0,0,0.0]",
        "[0,1e0,0]",
        "[null,0,0]",
        "[0,\"0\",0]",
        "[0,0,[0]]",
        "\"000\"",
        "[0,0,-0.0]",
        "[99999999999,0,0.5]",
    ];
    swap_raw(draft, random, &|value| value.role == Role::Vertex, &others)
}

/// Adds an element that is wrong at every level of a boundary.
fn wrong_element(draft: &mut Draft, random: &mut Random) -> Option<()> {
    let wanted = |value: &Draft| matches!(value.role, Role::Boundary | Role::BoundaryPart);
    let (value, _) = draft.pick(random, &wanted)?;
    let items = value.items()?;
    let mut element = Draft::raw(Role::Plain, *random.pick(&["{}", "null", "true", "\"\""]));
    element.mark = Some(0);
    items.insert(random.below(items.len() + 1), element);
    Some(())
}

/// Rule 13: a number beyond its limits.
fn out_of_range(draft: &mut Draft, random: &mut Random) -> Option<()> {
    let kind = random.below(4);
    let wanted = |value: &Draft| match value.role {
        Role::TransformNumber => kind == 0,
        Role::Coordinate => kind == 1,
        Role::Index(_) => kind == 2,
        Role::Value(_) => kind == 3,
        _ => false,
    };
    let (value, _) = draft.pick(random, &wanted)?;
    let numeral = match value.role {
        Role::Index(limit) | Role::Value(limit) => beyond_limit(limit, random),
        Role::Coordinate => {
            let wide = [
                "2147483648",
                "-2147483649",
                "4294967296",
                "18446744073709551616",
            ];
            random.pick(&wide).to_string()
        }
        _ => no_pair(random),
    };
    value.replace(Body::Raw(numeral), 0);
    Some(())
}

/// An integer below 0 or at least `limit`, some of them 0 in a narrow word.
fn beyond_limit(limit: usize, random: &mut Random) -> String {
    match random.below(4) {
        0 => limit.to_string(),
        1 => format!("-{}", random.between(1, 3)),
        2 => (limit + random.below(1_000)).to_string(),
        _ => {
            let wide = [
                "4294967295",
                "4294967296",
                "-4294967296",
                "18446744073709551615",
                "18446744073709551616",
                "340282366920938463463374607431768211456",
            ];
            random.pick(&wide).to_string()
        }
    }
}

/// A numeral that is no pair in range.
fn no_pair(random: &mut Random) -> String {
    let numerals = [
        "1e23",
        "1e-23",
        "-1E+23",
        "0.1e-22",
        "10e22",
        "1000000000000001",
        "-123456789012345.6",
        "0.1000000000000001",
        "1e400",
        "1e-400",
        "1e99999999999999999999",
        "-1e-99999999999999999999",
        "1e18446744073709551616",
        "1e-4294967296",
        "9999999999999999",
        "0.00000000000000000000001",
        "100000000000000000000000",
        "1e65536",
    ];
    let numeral = random.pick(&numerals).to_string();
    if random.chance(20) {
        return format!("1{}", "0".repeat(random.between(23, 300)));
    }
    numeral
}

/// Where the damage of a model is to be marked in its draft.
enum Target {
    GeometryType {
        object: usize,
        geometry: usize,
    },
    Link {
        object: usize,
        list: &'static str,
        index: usize,
    },
    Object(usize),
}

impl Target {
    fn mark(&self, draft: &mut Draft) {
        self.find(draft).expect("the damaged part").mark = Some(0);
    }

    fn find<'a>(&self, draft: &'a mut Draft) -> Option<&'a mut Draft> {
        let (Target::GeometryType { object, .. }
        | Target::Link { object, .. }
        | Target::Object(object)) = self;
        let objects = draft.member("CityObjects")?.entries()?;
        let object = &mut objects.get_mut(*object)?.value;
        match self {
            Target::Object(_) => Some(object),
            Target::Link { list, index, .. } => object.member(list)?.items()?.get_mut(*index),
            Target::GeometryType { geometry, .. } => {
                let geometries = object.member("geometry")?.items()?;
                geometries.get_mut(*geometry)?.member("type")
            }
        }
    }
}

/// Breaks a rule from 14 to 17 in a model; none if the model has no part for it.
fn damage_model(rule: u8, model: &mut Model, random: &mut Random) -> Option<Target> {
    match rule {
        14 => not_permitted(model, random),
        15 => wrong_link(model, random),
        16 => no_parent(model, random),
        _ => one_sided(model, random),
    }
}

/// Rule 14: a geometry of a type that the object's type may not have.
fn not_permitted(model: &mut Model, random: &mut Random) -> Option<Target> {
    let count = model.vertices.len();
    let narrow = |object: &Object| words::permitted(&object.word).len() < 7;
    let chosen: Vec<usize> = (0..model.objects.len())
        .filter(|index| narrow(&model.objects[*index]))
        .collect();
    if chosen.is_empty() {
        return None;
    }
    let index = *random.pick(&chosen);
    let object = &mut model.objects[index];
    let permitted = words::permitted(&object.word);
    let codes: Vec<u16> = (1..=7).filter(|code| !permitted.contains(code)).collect();
    let place = random.below(object.geometries.len() + 1);
    let new = geometry(*random.pick(&codes), count, random);
    object.geometries.insert(place, new);
    Some(Target::GeometryType {
        object: index,
        geometry: place,
    })
}

/// Rule 15: an ID that no object has, or an entry once more in its list.
fn wrong_link(model: &mut Model, random: &mut Random) -> Option<Target> {
    if model.objects.is_empty() {
        return None;
    }
    let index = random.below(model.objects.len());
    let absent = fresh_id(&model.objects, random);
    let object = &mut model.objects[index];
    let (list, ids) = if random.chance(50) {
        ("children", &mut object.children)
    } else {
        ("parents", &mut object.parents)
    };
    let place = if ids.is_empty() || random.chance(50) {
        let place = random.below(ids.len() + 1);
        ids.insert(place, absent);
        place
    } else {
        let earlier = random.below(ids.len());
        let place = random.between(earlier + 1, ids.len());
        ids.insert(place, ids[earlier].clone());
        place
    };
    Some(Target::Link {
        object: index,
        list,
        index: place,
    })
}

/// Rule 16: an object of the second level that lists no parent.
fn no_parent(model: &mut Model, random: &mut Random) -> Option<Target> {
    let second: Vec<usize> = (0..model.objects.len())
        .filter(|index| words::is_second_level(&model.objects[*index].word))
        .collect();
    if !second.is_empty() && random.chance(50) {
        let index = *random.pick(&second);
        model.objects[index].parents.clear();
        return Some(Target::Object(index));
    }
    let index = random.below(model.objects.len() + 1);
    let new = Object {
        id: fresh_id(&model.objects, random),
        word: random.pick(&words::SECOND_LEVEL).to_string(),
        children: Vec::new(),
        parents: Vec::new(),
        geometries: Vec::new(),
    };
    model.objects.insert(index, new);
    Some(Target::Object(index))
}

/// Rule 17: a link that the other object does not return.
fn one_sided(model: &mut Model, random: &mut Random) -> Option<Target> {
    if model.objects.is_empty() {
        return None;
    }
    let index = random.below(model.objects.len());
    let other = random.below(model.objects.len());
    let id = model.objects[index].id.clone();
    let other_id = model.objects[other].id.clone();
    let children = random.chance(50);
    let returned = if children {
        &model.objects[other].parents
    } else {
        &model.objects[other].children
    };
    if returned.contains(&id) || (children && model.objects[index].word == words::GROUP) {
        return None;
    }
    let object = &mut model.objects[index];
    let (list, ids) = if children {
        ("children", &mut object.children)
    } else {
        ("parents", &mut object.parents)
    };
    if ids.contains(&other_id) {
        return None;
    }
    let place = random.below(ids.len() + 1);
    ids.insert(place, other_id);
    Some(Target::Link {
        object: index,
        list,
        index: place,
    })
}
