//! What the accepted texts of a run had: how often each type stood there, and each way to
//! link, to name and to spell.

use std::collections::BTreeMap;

use crate::model::{Geometry, Model, Object};
use crate::words;

/// Counts by a heading and a name under it.
#[derive(Default)]
pub struct Coverage {
    counts: BTreeMap<&'static str, BTreeMap<String, u64>>,
}

impl Coverage {
    /// Counts an accepted text and its model.
    pub fn add(&mut self, text: &[u8], model: &Model) {
        for object in &model.objects {
            self.count("object types", &object.word);
            self.add_id(&object.id);
            for geometry in &object.geometries {
                self.add_geometry(object, geometry);
            }
        }
        let links = (1..=3).rev().find(|links| has_chain(model, *links));
        self.count_if("links", links == Some(3), "three generations and more");
        self.count_if("links", links == Some(2), "two generations");
        self.count_if("links", links == Some(1), "one generation");
        self.count_if("links", has_group_in_group(model), "a group in a group");
        let shared = model.objects.iter().any(|object| object.parents.len() > 1);
        self.count_if("links", shared, "several parents");
        self.add_spelling(text);
    }

    fn count(&mut self, heading: &'static str, name: &str) {
        let counts = self.counts.entry(heading).or_default();
        *counts.entry(name.to_string()).or_default() += 1;
    }

    fn count_if(&mut self, heading: &'static str, holds: bool, name: &str) {
        if holds {
            self.count(heading, name);
        }
    }

    fn add_id(&mut self, id: &str) {
        let escaped = |c: char| c < ' ' || c == '"' || c == '\\';
        self.count_if("IDs", id.contains(escaped), "with what JSON escapes");
        self.count_if("IDs", !id.is_ascii(), "in other scripts");
        self.count_if("IDs", id.chars().any(|c| c > '\u{ffff}'), "with pairs");
        self.count_if("IDs", id.is_empty(), "empty");
    }

    fn add_geometry(&mut self, object: &Object, geometry: &Geometry) {
        self.count("geometry types", &geometry.word);
        let both = format!("{} {}", object.word, geometry.word);
        self.count("object and geometry types", &both);
        let Some(semantics) = &geometry.semantics else {
            self.count("semantics", "absent");
            return;
        };
        self.count("semantics", "present");
        for surface in &semantics.surfaces {
            let code = words::surface_code(surface).expect("a surface type");
            self.count("surface types", words::surface_word(code).unwrap_or("+"));
        }
        let values = semantics.values.leaves();
        self.count_if("semantics", values.contains(&None), "with null");
        let known = values.iter().any(Option::is_some);
        self.count_if("semantics", known, "with values");
    }

    fn add_spelling(&mut self, text: &[u8]) {
        let has = |part: &[u8]| text.windows(part.len()).any(|found| found == part);
        self.count_if("spellings", has(b"\\u"), "escapes");
        let space = text.iter().any(|byte| b" \n\r\t".contains(byte));
        self.count_if("spellings", space, "white space");
        self.count_if("spellings", has(b"-0"), "a minus before a zero");
        let exponent = (b'0'..=b'9').any(|digit| has(&[digit, b'e']) || has(&[digit, b'E']));
        self.count_if("spellings", exponent, "exponents");
        let first = text.iter().position(|byte| *byte == b'"').unwrap_or(0);
        let usual = text[first..].starts_with(b"\"type\"");
        self.count_if("spellings", !usual, "another member first");
    }

    /// How many names stand under a heading, and the least count of one.
    pub fn least(&self, heading: &str) -> (usize, u64) {
        let Some(counts) = self.counts.get(heading) else {
            return (0, 0);
        };
        (counts.len(), counts.values().copied().min().unwrap_or(0))
    }

    /// One line a heading: the names with their counts, if they are few.
    pub fn lines(&self) -> Vec<String> {
        let line = |(heading, counts): (&&str, &BTreeMap<String, u64>)| {
            let (names, least) = self.least(heading);
            if names > 7 {
                format!("{heading}: {names}, each at least {least} times")
            } else {
                format!("{heading}: {counts:?}")
            }
        };
        self.counts.iter().map(line).collect()
    }
}

/// Whether some object has children over this many links, on which no object stands twice.
fn has_chain(model: &Model, links: usize) -> bool {
    fn walk(model: &Model, path: &mut Vec<usize>, links: usize) -> bool {
        if links == 0 {
            return true;
        }
        let last = *path.last().expect("a path has an object");
        let children = model.objects[last].children.iter();
        let numbers: Vec<usize> = children.filter_map(|id| number_of(model, id)).collect();
        for child in numbers {
            if path.contains(&child) {
                continue;
            }
            path.push(child);
            let found = walk(model, path, links - 1);
            path.pop();
            if found {
                return true;
            }
        }
        false
    }
    (0..model.objects.len()).any(|object| walk(model, &mut vec![object], links))
}

fn number_of(model: &Model, id: &str) -> Option<usize> {
    model.objects.iter().position(|object| object.id == id)
}

fn has_group_in_group(model: &Model) -> bool {
    let is_group = |id: &String| {
        number_of(model, id).is_some_and(|number| model.objects[number].word == words::GROUP)
    };
    let mut groups = model.objects.iter().filter(|o| o.word == words::GROUP);
    groups.any(|group| group.children.iter().any(is_group))
}
