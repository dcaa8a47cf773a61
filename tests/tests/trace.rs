//! The names in `docs/TRACE.md`: each definition, function, test and edit that it names exists,
//! and a function or a test in one place.
//! The code of lay may be missing without the feature `lay`.

use kebrawish_tests::pages::{crates, defines, edits, folder, is_name, page, quoted, root};
use std::fs;

/// The functions of a source: the methods of a type, or those that are none.
fn functions<'a>(source: &'a str, owner: Option<&str>) -> Vec<&'a str> {
    let mut found = Vec::new();
    // The type whose `impl` the line stands in.
    let mut within = None;
    for line in source.lines() {
        if let Some(head) = line.strip_prefix("impl") {
            let last = head.trim_end_matches(" {").rsplit(' ').next().expect("a type");
            within = last.split('<').next();
        } else if line == "}" {
            within = None;
        } else if let Some((_, start)) = line.split_once("fn ").filter(|_| within == owner) {
            found.extend(start.split(['(', '<']).next());
        }
    }
    found
}

/// Whether `crate/File: a, b` names definitions or theorems of that file, which stands in `specs/`
/// or `proofs/` or in both, `crate::function` one function of the crate's sources, `crate::Type::method`
/// one method of a type there, and `file::test` one test. None for what is no such name.
fn exists(quoted: &str) -> Option<bool> {
    if let Some((file, names)) = quoted.split_once(": ") {
        let (name, file) = file.split_once('/')?;
        let parts = ["specs", "proofs"];
        let files = parts.map(|part| root().join(format!("crates/{name}/{part}/{file}.antt")));
        let text = files.map(|file| fs::read_to_string(file).unwrap_or_default()).concat();
        return Some(names.split(", ").all(|name| defines(&text, name)));
    }
    let (place, name) = quoted.split_once("::")?;
    let (owner, name) = name.split_once("::").map_or((None, name), |(owner, name)| (Some(owner), name));
    if !is_name(place) || !is_name(name) {
        return None;
    }
    let test = root().join(format!("tests/tests/{place}.rs"));
    let text = match fs::read_to_string(test) {
        Ok(text) => text,
        Err(_) => folder(&root().join(format!("crates/{place}/src"))),
    };
    Some(functions(&text, owner).iter().filter(|found| **found == name).count() == 1)
}

#[test]
fn every_name_exists() {
    let trace = page("TRACE.md");
    let mut counts = [0, 0];
    let mut wrong = Vec::new();
    for line in trace.lines() {
        for quoted in quoted(line) {
            if let Some(exists) = exists(quoted) {
                counts[0] += 1;
                if !exists {
                    wrong.push(quoted.to_string());
                }
            }
        }
    }
    let labels: Vec<String> = crates().iter().flat_map(|name| edits(name)).collect();
    let (_, builds) = trace.split_once("Edits that are refused").expect("a table");
    let (builds, _) = builds.split_once("\n\n").expect("its end");
    for line in builds.lines() {
        let cell = line.split('|').nth(3).unwrap_or("");
        for edit in quoted(cell) {
            counts[1] += 1;
            if !labels.iter().any(|label| label == edit) {
                wrong.push(edit.to_string());
            }
        }
    }
    println!("{} names and {} edits", counts[0], counts[1]);
    assert!(wrong.is_empty(), "not found, or not in one place: {wrong:?}");
    assert!(counts[0] > 200 && counts[1] > 5);
}
