//! The pages of `docs/` beside the sources: what a page quotes, and whether the crates have it.

use std::fs;
use std::path::{Path, PathBuf};

/// The repository's folder.
pub fn root() -> PathBuf {
    Path::new(env!("CARGO_MANIFEST_DIR")).join("..")
}

/// A page of `docs/`.
pub fn page(name: &str) -> String {
    fs::read_to_string(root().join("docs").join(name)).expect(name)
}

/// What stands under a heading, up to the next one of any level.
pub fn section<'a>(page: &'a str, heading: &str) -> &'a str {
    let (_, section) = page.split_once(heading).expect(heading);
    section.split_once("\n#").map_or(section, |(here, _)| here)
}

/// The rows of the tables under a heading, each as its cells.
pub fn rows<'a>(page: &'a str, heading: &str) -> Vec<Vec<&'a str>> {
    let lines = section(page, heading).lines().filter(|line| line.starts_with("| "));
    lines.skip(1).map(|line| line.trim_matches('|').split(" | ").collect()).collect()
}

/// An item of a list: what it says, and the items below it, each as `name: what`.
pub struct Item {
    pub text: String,
    pub parts: Vec<(String, String)>,
}

impl Item {
    /// What the item of this name below says.
    pub fn part(&self, name: &str) -> &str {
        let part = self.parts.iter().find(|(found, _)| found == name);
        &part.unwrap_or_else(|| panic!("no {name} in {}", self.text)).1
    }
}

/// The items of the lists under a heading of the second level, and under those within it.
pub fn items(page: &str, heading: &str) -> Vec<Item> {
    let (_, chapter) = page.split_once(heading).expect(heading);
    let chapter = chapter.split("\n## ").next().expect("a chapter");
    let mut items: Vec<Item> = Vec::new();
    for line in chapter.lines() {
        if let Some(text) = line.strip_prefix("- ") {
            items.push(Item { text: text.to_string(), parts: Vec::new() });
        } else if let Some(part) = line.strip_prefix("  - ") {
            let (name, text) = part.split_once(": ").expect("a name");
            let item = items.last_mut().expect("an item");
            item.parts.push((name.to_string(), text.to_string()));
        } else if let (Some(more), Some(item)) = (line.strip_prefix("  "), items.last_mut()) {
            let text = item.parts.last_mut().map_or(&mut item.text, |(_, text)| text);
            *text += " ";
            *text += more.trim_start();
        }
    }
    items
}

/// The words between backquotes.
pub fn quoted(line: &str) -> impl Iterator<Item = &str> {
    line.split('`').skip(1).step_by(2)
}

/// Whether a text could be the name of a definition, a function or an edit.
pub fn is_name(text: &str) -> bool {
    let letter = |c: char| c.is_ascii_alphanumeric() || "_-".contains(c);
    text.starts_with(|c: char| c.is_ascii_alphabetic()) && text.chars().all(letter)
}

/// The names of the crates.
pub fn crates() -> Vec<String> {
    let list = fs::read_to_string(root().join("crates.txt")).expect("the crates");
    let lines = list.lines().filter(|line| !line.starts_with('#'));
    // A static library's line has a word after the name.
    lines.filter_map(|line| Some(line.split_once([' ', ':'])?.0.to_string())).collect()
}

/// The text of a folder's files, or nothing where it is missing.
pub fn folder(path: &Path) -> String {
    let Ok(files) = fs::read_dir(path) else {
        return String::new();
    };
    let texts = files.map(|file| fs::read_to_string(file.expect("a file").path()));
    texts.map(|text| text.unwrap_or_default()).collect()
}

/// Whether a specification defines a name: as a line's first word, after the words before it.
pub fn defines(specification: &str, name: &str) -> bool {
    let before = ["pub", "data", "record", "unfoldable", "abbrev"];
    specification.lines().any(|line| {
        let mut words = line.split_whitespace();
        words.find(|word| !before.contains(word)) == Some(name)
    })
}

/// Whether the specifications of a crate define a name, or its theorems about them, which stand
/// in `proofs/`.
pub fn specifies(place: &str, name: &str) -> bool {
    let parts = ["specs", "proofs"];
    parts.iter().any(|part| defines(&folder(&root().join(format!("crates/{place}/{part}"))), name))
}

/// The labels of the must-fail edits of a crate.
pub fn edits(place: &str) -> Vec<String> {
    let Ok(files) = fs::read_dir(root().join(format!("crates/{place}/must-fail"))) else {
        return Vec::new();
    };
    let paths = files.map(|file| file.expect("a file").path());
    paths.map(|path| path.file_stem().expect("a name").to_string_lossy().to_string()).collect()
}
