//! Writes texts for the fuzzer to begin with into a folder: the sample readings, the
//! examples, and generated texts that are accepted or break one rule each.

use std::fs;
use std::path::Path;

use kebrawish_tests::generate::{accepted, refused, Random};
use kebrawish_tests::samples;

/// The greatest length of a text, so that the fuzzer goes fast.
const LIMIT: usize = 4_096;

/// How many generated texts are accepted, and how many break each rule.
const EACH: usize = 12;

fn main() {
    let folder = std::env::args().nth(1).expect("usage: seeds FOLDER");
    let mut texts: Vec<Vec<u8>> = samples::readings().into_iter().map(|row| row.0).collect();
    let examples = Path::new(env!("CARGO_MANIFEST_DIR")).join("../examples");
    for file in fs::read_dir(examples).expect("the examples") {
        texts.push(fs::read(file.expect("a file").path()).expect("an example"));
    }
    let mut random = Random::new(1);
    for _ in 0..EACH {
        texts.push(accepted(&mut random).text);
        for rule in (2..=17).filter(|rule| *rule != 9) {
            texts.push(refused(rule, &mut random).text);
        }
    }
    texts.retain(|text| text.len() <= LIMIT);
    fs::create_dir_all(&folder).expect("the folder");
    for (number, text) in texts.iter().enumerate() {
        let file = Path::new(&folder).join(format!("{number:03}"));
        fs::write(file, text).expect("a seed");
    }
    println!("{} texts to begin with", texts.len());
}
