//! `README.md` beside the files: what has to be believed is what the exports' contracts rest on,
//! the layers are the crates, and every file that a page links to is there.

use std::collections::BTreeSet;
use std::fs;

use kebrawish_tests::pages::{crates, root, rows, section};

fn readme() -> String {
    fs::read_to_string(root().join("README.md")).expect("the README")
}

fn source(file: &str) -> String {
    fs::read_to_string(root().join(file)).expect(file)
}

/// The file of specifications of a crate here that a line `use Rattle.NAME.specs.FILE..` names.
/// What the code declares is in none, and what the library defines is the toolchain's.
fn used(line: &str) -> Option<String> {
    let (_, path) = line.split_once("use Rattle.")?;
    let mut parts = path.split(['.', ' ']);
    let name = parts.next()?;
    let (_, file) = (parts.next()?, parts.next()?);
    let is_ours = root().join("crates").join(name).is_dir();
    (is_ours && file != "declared").then(|| format!("crates/{name}/specs/{file}.antt"))
}

/// The files that a file uses.
fn uses(file: &str) -> Vec<String> {
    source(file).lines().filter_map(used).collect()
}

/// The files that define what the contracts of the exports name, and all that those use.
fn believed() -> BTreeSet<String> {
    let exports = source("crates/kebrawish/src/lib.rt");
    let (imports, _) = exports.split_once("\nuse ").expect("the imports");
    let (_, exported) = exports.split_once("#[unsafe(no_mangle)]").expect("the exports");
    let contracts: String = exported.lines().filter(|line| line.contains("ensures")).collect();
    let apart = |c: char| !c.is_alphanumeric() && c != '_';
    let words: BTreeSet<&str> = contracts.split(apart).collect();
    let mut open: Vec<String> = Vec::new();
    for line in imports.lines() {
        let names = line.split_once('{').map_or("", |(_, names)| names);
        let mut names = names.split(apart);
        if names.any(|name| !name.is_empty() && words.contains(name)) {
            open.extend(used(line));
        }
    }
    let mut found = BTreeSet::new();
    while let Some(file) = open.pop() {
        if found.insert(file.clone()) {
            open.extend(uses(&file));
        }
    }
    found
}

#[test]
fn what_has_to_be_believed() {
    let readme = readme();
    let mut rows = rows(&readme, "## What has to be believed");
    let total = rows.pop().expect("a last row");
    let mut listed = BTreeSet::new();
    let mut sum = 0;
    for row in &rows {
        let [file, lines, _] = row[..] else {
            panic!("{row:?}");
        };
        let (file, lines) = (file.trim(), lines.trim());
        assert_eq!(lines, source(file).lines().count().to_string(), "{file}");
        sum += source(file).lines().count();
        for used in uses(file) {
            assert!(listed.contains(&used), "{file} uses {used}, which is not before it");
        }
        assert!(listed.insert(file.to_string()), "{file} is there twice");
    }
    assert_eq!(listed, believed());
    assert_eq!(total[0].trim(), format!("{} files", rows.len()));
    assert_eq!(total[1].trim().replace(',', ""), sum.to_string());
}

#[test]
fn the_layers_are_the_crates() {
    let readme = readme();
    let layers = section(&readme, "## Layers").lines().filter_map(|line| line.strip_prefix("    "));
    let layers: Vec<&str> = layers.filter_map(|line| line.split_whitespace().next()).collect();
    let mut sorted: Vec<String> = layers.iter().map(|name| name.to_string()).collect();
    // The lister's line has its samples too.
    sorted.push("lister_samples".to_string());
    sorted.sort();
    let mut crates = crates();
    crates.sort();
    assert_eq!(sorted, crates);
    let list = source("crates.txt");
    for line in list.lines().filter(|line| !line.starts_with('#')) {
        let (name, below) = line.split_once([' ', ':']).expect("a crate");
        let Some(at) = layers.iter().position(|layer| *layer == name) else {
            continue;
        };
        for used in below.split_whitespace() {
            let place = layers.iter().position(|layer| *layer == used);
            assert!(place.is_none_or(|place| place > at), "{used} is not below {name}");
        }
    }
}

/// The links of a page: what stands in brackets after a bracketed word.
fn links(page: &str) -> impl Iterator<Item = &str> {
    page.split("](").skip(1).filter_map(|rest| rest.split(')').next())
}

/// The anchor that a heading has: its words in lowercase with hyphens between them.
fn anchor(heading: &str) -> String {
    let words = heading.trim_start_matches('#').trim().to_lowercase();
    let kept = words.chars().filter(|c| c.is_alphanumeric() || " -_".contains(*c));
    kept.map(|c| if c == ' ' { '-' } else { c }).collect()
}

#[test]
fn links_lead_somewhere() {
    let mut pages = vec![root().join("README.md")];
    let files = fs::read_dir(root().join("docs")).expect("the pages");
    pages.extend(files.map(|file| file.expect("a file").path()));
    let mut count = 0;
    for path in pages {
        let page = fs::read_to_string(&path).expect("a page");
        for link in links(&page) {
            let (file, heading) = link.split_once('#').unwrap_or((link, ""));
            let target = if file.is_empty() {
                path.clone()
            } else {
                path.parent().expect("a folder").join(file)
            };
            assert!(target.exists(), "{}: {link}", path.display());
            if !heading.is_empty() {
                let text = fs::read_to_string(&target).expect("a page");
                let mut headings = text.lines().filter(|line| line.starts_with('#'));
                assert!(headings.any(|line| anchor(line) == heading), "{}: {link}", path.display());
            }
            count += 1;
        }
    }
    println!("{count} links");
    assert!(count > 20);
}

/// The answers that the page shows below a command of `./kebrawish` are those that it prints.
#[test]
#[cfg(feature = "lay")]
fn the_desk_answers_as_shown() {
    let readme = readme();
    let (_, rest) = readme.split_once("\n    $ ").expect("a command");
    let (command, rest) = rest.split_once('\n').expect("its answers");
    let shown: Vec<&str> = rest.lines().map_while(|line| line.strip_prefix("    ")).collect();
    assert!(command.starts_with("./kebrawish judge") && shown.len() > 4);
    let shell = std::process::Command::new("sh")
        .args(["-c", command])
        .current_dir(root())
        .output()
        .expect("a shell");
    let said = String::from_utf8_lossy(&shell.stderr);
    assert_eq!(shell.status.code(), Some(1), "{said}");
    let printed = String::from_utf8(shell.stdout).expect("UTF-8");
    assert_eq!(printed.lines().collect::<Vec<_>>(), shown);
}
