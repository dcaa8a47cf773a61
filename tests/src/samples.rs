//! The sample readings: texts whose answers the rules' own text states.

use crate::{Refusal, Verdict};

/// The minimal CityJSON object of source document 003, as it is printed there.
pub const PRINTED_MINIMAL: &str = r#"{
  "type": "CityJSON",
  "version": "2.0",
  "transform": {
    "scale": [1.0, 1.0, 1.0],
    "translate": [0.0, 0.0, 0.0]
  },
  "CityObjects": {},
  "vertices": []
}"#;

/// The same with no white space.
pub const MINIMAL: &str = concat!(
    r#"{"type":"CityJSON","version":"2.0","#,
    r#""transform":{"scale":[1.0,1.0,1.0],"translate":[0.0,0.0,0.0]},"#,
    r#""CityObjects":{},"vertices":[]}"#
);

/// A text with the given members of `CityObjects` and the given vertices.
pub fn document(objects: &str, vertices: &str) -> String {
    let start = MINIMAL.split("{},").next().expect("the minimal object");
    format!(r#"{start}{{{objects}}},"vertices":[{vertices}]}}"#)
}

/// One CityFurniture named `kiosk` with a MultiPoint over one vertex.
pub fn kiosk() -> String {
    let geometry = r#"{"type":"MultiPoint","lod":"1","boundaries":[0]}"#;
    let object = format!(r#""kiosk":{{"type":"CityFurniture","geometry":[{geometry}]}}"#);
    document(&object, "[7,-1,256]")
}

/// The texts and the answers of lay in a room of 65,536 bytes.
pub fn readings() -> Vec<(Vec<u8>, Verdict)> {
    let refused = |text: &str, rule: u8, place: usize, end: usize| {
        let verdict = Verdict::Refused { rule, place, end };
        (text.as_bytes().to_vec(), verdict)
    };
    let laid = |text: &str, length: usize, objects: usize| {
        let verdict = Verdict::Accepted { length, objects };
        (text.as_bytes().to_vec(), verdict)
    };
    vec![
        refused("", 3, 0, 0),
        refused("tru", 3, 3, 3),
        refused("01", 3, 1, 1),
        (vec![0xFF], Refusal::at(2, 0).into()),
        refused(&"[".repeat(32), 3, 32, 32),
        refused(&"[".repeat(33), 4, 32, 32),
        refused(r#""\uD800""#, 5, 1, 1),
        refused(r#"{"type":1,"type":1}"#, 6, 10, 16),
        refused(r#"{"\u0061":1,"a":2}"#, 6, 12, 15),
        refused(r#"{"type":1}"#, 7, 8, 9),
        refused("[]", 7, 0, 2),
        refused(" {}", 8, 1, 3),
        refused("{}", 8, 0, 2),
        refused(r#"{"a":1,"a":2}"#, 6, 7, 10),
        refused(&("[".repeat(32) + &"]".repeat(32)), 7, 0, 64),
        laid(PRINTED_MINIMAL, 78, 0),
        laid(MINIMAL, 78, 0),
        laid(&kiosk(), 133, 1),
    ]
}
