//! The texts of `examples/`. The lengths are added up from the records of docs/SHEET.md.

use std::fs;
use std::path::{Path, PathBuf};

use kebrawish_tests::compare::{self, LARGE_ROOM};
use kebrawish_tests::{read, sheet, Verdict};

/// The length of a record with a payload of so many bytes.
const fn record(payload: usize) -> usize {
    4 + 2 + payload
}

/// Kinds 1 and 2 for so many vertices.
const fn start(vertices: usize) -> usize {
    record(6 * (8 + 2)) + record(3 * 4 * vertices)
}

/// Kinds 3, 4 and 5: the code and the ID, the children, the parents.
const fn object(id: &str, children: usize, parents: usize) -> usize {
    record(2 + id.len()) + record(4 * children) + record(4 * parents)
}

/// Kind 6: the code, the lod, and the words of the boundary.
const fn geometry(words: usize) -> usize {
    record(2 + 2 + 4 * words)
}

/// Kind 7 for so many listed surface types, and kind 8.
const fn semantics(surfaces: usize, values: usize) -> usize {
    surfaces * record(2) + record(4 * values)
}

/// The words of surfaces with one ring each: the count of rings, the count of the ring's
/// vertices, and the vertices.
const fn surfaces(count: usize, vertices: usize) -> usize {
    count * (1 + 1 + vertices)
}

const KIOSK: usize = start(1) + object("kiosk", 0, 0) + geometry(1 + 1) + record(0);

/// A box of six faces in one shell: the counts of shells and of faces, and the faces.
const BOX: usize = geometry(1 + 1 + surfaces(6, 4)) + semantics(3, 6);

/// The house: five faces with four corners and two gables with five; three listed surface
/// types and one added.
const HOUSE: usize = geometry(1 + 1 + surfaces(5, 4) + surfaces(2, 5))
    + semantics(3, 7)
    + record(2 + "+ThermalSurface".len());

const MARKET: usize = start(39)
    + object("market-quarter", 6, 0)
    + object("town-hall", 2, 0)
    + object("town-hall-tower", 0, 1)
    + BOX
    + object("town-hall-wing", 0, 1)
    + BOX
    + object("house-7", 0, 1)
    + HOUSE
    + object("market-street", 0, 0)
    + geometry(1 + surfaces(3, 4))
    + semantics(2, 3)
    + object("canal", 0, 0)
    + geometry(1 + surfaces(1, 4))
    + semantics(1, 1)
    + object("linden", 0, 0)
    + geometry(1 + 1)
    + object("kiosk", 0, 0)
    + geometry(1 + 1)
    + record(0);

fn folder() -> PathBuf {
    Path::new(env!("CARGO_MANIFEST_DIR")).join("../examples")
}

fn text(name: &str) -> Vec<u8> {
    fs::read(folder().join(name)).expect("an example")
}

/// Checks an accepted example, and that its sheet gives its model back.
fn check_laid(name: &str, length: usize, objects: usize) {
    let text = text(name);
    compare::all(&text, name);
    let (verdict, bytes) = compare::lay(&text, LARGE_ROOM, 0xA5, name);
    assert_eq!(verdict, Verdict::Accepted { length, objects }, "{name}");
    let model = read(&text).expect("an accepted text");
    let decoded = sheet::decode(&bytes[..length]).expect("a sheet");
    assert_eq!(decoded, model, "{name}");
    assert_eq!(sheet::encode(&decoded), bytes[..length], "{name}");
}

#[test]
fn accepted_examples() {
    assert_eq!((start(0) + record(0), KIOSK, MARKET), (78, 133, 1_777));
    check_laid("minimal.city.json", 78, 0);
    check_laid("kiosk.city.json", 133, 1);
    check_laid("quarter.city.json", 1_777, 9);
}

/// The shed lists the house as its parent, and the house does not list it.
#[test]
fn the_refused_example() {
    let text = text("refused.city.json");
    let verdict = compare::all(&text, "the refused example").judge;
    let text = String::from_utf8(text).expect("UTF-8");
    let place = text.find("\"house\"]").expect("the link");
    let end = place + "\"house\"".len();
    assert_eq!((place, end), (251, 258));
    assert_eq!(
        verdict,
        Verdict::Refused {
            rule: 17,
            place,
            end
        }
    );
}

#[test]
fn no_other_examples() {
    let files = fs::read_dir(folder()).expect("the examples");
    let mut names: Vec<String> = files
        .map(|file| file.expect("a file").file_name().into_string().unwrap())
        .collect();
    names.sort();
    let known = ["kiosk", "minimal", "quarter", "refused"];
    assert_eq!(names, known.map(|name| format!("{name}.city.json")));
}
