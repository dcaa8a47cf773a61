//! `docs/PROMISES.md` beside the sources: it has each public function of a library once and
//! no other, says of each whether it asks something of its caller, names every must-fail
//! edit and no other, and cites only definitions and theorems that are there.
//! What a contract asks is not read here, only whether it asks.

use kebrawish_tests::pages::{crates, edits, folder, is_name, items, page, quoted, root, section, specifies};
use std::collections::{BTreeMap, BTreeSet};

/// The words of a line of code.
fn words(line: &str) -> impl Iterator<Item = &str> {
    line.split(|c: char| !c.is_alphanumeric() && c != '_').filter(|word| !word.is_empty())
}

/// The name of the public function whose head begins with this line.
fn public_name(line: &str) -> Option<&str> {
    let (before, after) = line.split_once("fn ")?;
    before.trim_start().starts_with("pub ").then(|| words(after).next().expect("a name"))
}

/// Whether a public function whose head begins the lines asks something. It has to promise something.
fn asks(name: &str, lines: &[&str]) -> bool {
    let end = lines.iter().position(|line| line.trim() == "{" || line.ends_with(" {"));
    let head = &lines[..=end.expect("a body")];
    let has = |word| head.iter().any(|line| line.trim_start().starts_with(word));
    assert!(has("ensures"), "{name} promises nothing");
    assert!(!head[1..].iter().any(|line| line.contains("fn ")), "{name}: its contract has no end");
    has("requires")
}

/// What is before ` for ` in the head of an `impl`, if it is one of a trait, and the type's name.
fn implements(head: &str) -> (Option<&str>, &str) {
    let head = head.strip_prefix("impl").expect("an impl");
    // Its own parameters come first, and a space after them.
    let (_, head) = head.split_once(' ').expect("a type");
    match head.split_once(" for ") {
        Some((what, name)) => (Some(what), words(name).next().expect("a type")),
        None => (None, words(head).next().expect("a type")),
    }
}

/// The methods of an `impl`, and whether each asks something. The promise of a trait's method stands in the `impl`, as what it gives.
fn methods(lines: &[&str]) -> Vec<(String, bool)> {
    let (of_trait, owner) = implements(lines[0]);
    let has = |start: String| lines.iter().any(|line| line.trim_start().starts_with(&start));
    let mut found = Vec::new();
    for (k, line) in lines.iter().enumerate() {
        if let Some(name) = public_name(line) {
            found.push((format!("{owner}::{name}"), asks(name, &lines[k..])));
        } else if let (Some(what), Some(start)) = (of_trait, line.strip_prefix("    fn ")) {
            let name = words(start).next().expect("a name");
            assert!(has(format!("ghost {name}_gives = ")), "{what} for {owner}: {name} promises nothing");
            found.push((format!("{owner}::{name}"), has(format!("ghost can_{name} = "))));
        }
    }
    found
}

/// The types that a library declares for itself alone.
fn hidden<'a>(lines: &[&'a str]) -> BTreeSet<&'a str> {
    let types = lines.iter().filter_map(|line| line.strip_prefix("struct ").or(line.strip_prefix("enum ")));
    types.filter_map(|line| words(line).next()).collect()
}

/// Each public function of a library, and whether its contract has a `requires`; a method is `crate::Type::method`.
/// Each contract has an `ensures`: no function is public with a silent promise.
fn public() -> BTreeMap<String, bool> {
    let mut found = BTreeMap::new();
    for name in crates() {
        let place = root().join(format!("crates/{name}/src"));
        if !place.join("lib.rt").exists() {
            continue;
        }
        let source = folder(&place);
        let lines: Vec<&str> = source.lines().collect();
        assert!(!lines.iter().any(|line| line.starts_with("pub trait ")), "{name}: a trait's methods are not read here");
        let hidden = hidden(&lines);
        let mut here = Vec::new();
        let mut k = 0;
        while k < lines.len() {
            if lines[k].starts_with("impl") {
                let end = lines[k..].iter().position(|line| *line == "}").expect("its end");
                if !words(lines[k]).any(|word| hidden.contains(word)) {
                    here.extend(methods(&lines[k..k + end]));
                }
                k += end;
            } else if let Some(function) = public_name(lines[k]) {
                here.push((function.to_string(), asks(function, &lines[k..])));
            }
            k += 1;
        }
        for (function, asks) in here {
            let function = format!("{name}::{function}");
            assert!(found.insert(function.clone(), asks).is_none(), "{function} is there twice");
        }
    }
    found
}

/// `crate::function`, or `crate::Type::method`, as a list names them: after the first, the crate may be left out.
fn functions(list: &str) -> Vec<String> {
    let mut place = String::new();
    let mut found = Vec::new();
    for word in quoted(list) {
        let word = word.split('(').next().expect("a name");
        let name = match word.split_once("::") {
            Some((start, name)) if start.starts_with(char::is_lowercase) => {
                place = start.to_string();
                name
            }
            _ => word,
        };
        found.push(format!("{place}::{name}"));
    }
    found
}

#[test]
fn every_public_function_is_there_once() {
    let page = page("PROMISES.md");
    let mut named = BTreeSet::new();
    for item in items(&page, "## Functions") {
        let (names, _) = item.text.split_once("`: ").expect("a promise");
        for function in functions(&format!("{names}`")) {
            assert!(named.insert(function.clone()), "{function} is there twice");
        }
        assert!(item.part("rules out").split(". ").count() >= 2, "{names}: two wrong programs");
    }
    let public: BTreeSet<String> = public().into_keys().collect();
    let missing: Vec<_> = public.difference(&named).collect();
    let other: Vec<_> = named.difference(&public).collect();
    assert!(missing.is_empty() && other.is_empty(), "missing: {missing:?}; not public: {other:?}");
    println!("{} functions", named.len());
    assert!(named.len() > 110);
}

#[test]
fn what_callers_owe_is_said_once() {
    let page = page("PROMISES.md");
    let mut said = BTreeMap::new();
    for item in items(&page, "## What callers owe") {
        let asks = item.text != "nothing";
        for function in functions(item.part("functions")) {
            assert!(said.insert(function.clone(), asks).is_none(), "{function} is there twice");
        }
    }
    assert_eq!(said, public());
}

#[test]
fn every_edit_is_named() {
    let page = page("PROMISES.md");
    let lists = [items(&page, "## Functions"), items(&page, "## Promises about the definitions")];
    let named = lists.iter().flatten().flat_map(|item| quoted(item.part("edits")));
    let named: BTreeSet<String> = named.map(str::to_string).collect();
    let mut labels = BTreeSet::new();
    for label in crates().iter().flat_map(|name| edits(name)) {
        assert!(labels.insert(label.clone()), "two crates have an edit {label}");
    }
    let missing: Vec<_> = labels.difference(&named).collect();
    let other: Vec<_> = named.difference(&labels).collect();
    assert!(missing.is_empty() && other.is_empty(), "missing: {missing:?}; no edits: {other:?}");
    println!("{} edits", named.len());
    assert!(named.len() > 90);
}

#[test]
fn what_is_cited_exists() {
    let page = page("PROMISES.md");
    let crates = crates();
    let public = public();
    let mut count = 0;
    // A public function; a file, in the repository or in the crate of the functions; a crate; a
    // parameter of one of them; else a definition of some crate.
    let mut cited = |word: &str, functions: &str| {
        let place = functions.trim_start_matches('`').split("::").next().expect("a crate");
        let mut parameters = functions.split(['(', ')', ',', '`']).map(str::trim);
        let mut names = public.keys().map(|name| name.split_once("::").expect("a crate").1);
        count += 1;
        if word.contains("::") {
            return public.contains_key(word.split('(').next().expect("a name"));
        }
        if word.contains('/') {
            return root().join(word).exists() || root().join(format!("crates/{place}/{word}")).exists();
        }
        !is_name(word)
            || crates.iter().any(|name| name == word || specifies(name, word))
            || parameters.any(|parameter| parameter == word)
            || names.any(|name| name == word)
    };
    let mut wrong = Vec::new();
    for item in items(&page, "## Functions") {
        let (names, promise) = item.text.split_once("`: ").expect("a promise");
        wrong.extend(quoted(promise).filter(|word| !cited(word, names)).map(str::to_string));
    }
    let free = section(&page, "## What is left free");
    wrong.extend(quoted(free).filter(|word| !cited(word, "")).map(str::to_string));
    for item in items(&page, "## What callers owe") {
        wrong.extend(quoted(&item.text).filter(|word| !cited(word, "")).map(str::to_string));
    }
    // The crate that a theorem stands in is the first one in brackets.
    for item in items(&page, "## Promises about the definitions") {
        let (names, text) = item.text.split_once("): ").expect("what it says");
        let (theorems, place) = names.split_once('(').expect("a crate");
        let place = quoted(place).next().expect("a crate");
        wrong.extend(quoted(theorems).filter(|name| !specifies(place, name)).map(str::to_string));
        wrong.extend(quoted(text).filter(|word| !cited(word, "")).map(str::to_string));
    }
    assert!(wrong.is_empty(), "not found: {wrong:?}");
    println!("{count} names");
    assert!(count > 60);
}
