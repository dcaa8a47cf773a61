//! A seeded generator of texts: city quarters in many spellings, the same with damages,
//! and pairs of texts with the same model or with models that differ in one detail.

mod coverage;
mod damage;
mod draft;
mod large;
mod city_model;
mod random;
mod spelling;

pub use coverage::Coverage;
pub use damage::targets;
pub use draft::Role;
pub use large::{large_texts, Large};
pub use random::Random;

use crate::model::Model;
use crate::{read, Refusal, TEXT_LIMIT};
use spelling::Style;

/// What the generator knows of a text's answer.
#[derive(Clone, Debug)]
pub enum Expected {
    Model(Model),
    Refusal(Refusal),
    Open,
}

/// A generated text. `damaged` is what a targeted damage broke.
#[derive(Clone, Debug)]
pub struct Case {
    pub text: Vec<u8>,
    pub expected: Expected,
    pub damaged: Option<Role>,
}

/// The text of a seed.
pub fn case(seed: u64) -> Case {
    let mut random = Random::new(seed);
    let random = &mut random;
    match random.below(100) {
        0..=29 => accepted(random),
        30 => at_the_limit(random),
        31..=74 => {
            // Rules 1 and 9 take long texts, so they are chosen less often.
            let rule = random.between(1, 17) as u8;
            let rule = match rule {
                1 | 9 if random.chance(60) => 7,
                _ => rule,
            };
            refused(rule, random)
        }
        75..=87 => open(damage::damaged_often(random)),
        _ => {
            let (_, mut text) = model_text(random);
            damage::damage_bytes(&mut text, random);
            open(text)
        }
    }
}

/// A text that breaks the given rule, from 1 to 17, and none lower.
pub fn refused(rule: u8, random: &mut Random) -> Case {
    let (text, refusal, damaged) = damage::damaged(rule, random);
    Case {
        text,
        expected: Expected::Refusal(refusal),
        damaged,
    }
}

/// An accepted text and its model.
pub fn accepted(random: &mut Random) -> Case {
    let (model, text) = model_text(random);
    Case {
        text,
        expected: Expected::Model(model),
        damaged: None,
    }
}

/// An accepted text of exactly the greatest length.
fn at_the_limit(random: &mut Random) -> Case {
    let (model, mut text) = model_text(random);
    text.resize(TEXT_LIMIT, b' ');
    Case {
        text,
        expected: Expected::Model(model),
        damaged: None,
    }
}

fn open(text: Vec<u8>) -> Case {
    Case {
        text,
        expected: Expected::Open,
        damaged: None,
    }
}

fn model_text(random: &mut Random) -> (Model, Vec<u8>) {
    loop {
        let most = *random.pick(&[1, 3, 6, 6, 12]);
        let model = city_model::city_model(random, most);
        let text = write(&model, random);
        if text.len() <= TEXT_LIMIT {
            return (model, text);
        }
    }
}

/// A model that keeps rules 9 to 17.
pub fn model(random: &mut Random) -> Model {
    model_text(random).0
}

/// A text of the model, in a random spelling. Two texts of one model are alike up to empty
/// lists that one has and the other leaves out, so they read as the same model.
pub fn write(model: &Model, random: &mut Random) -> Vec<u8> {
    let extras = *random.pick(&[0, 5, 20]);
    let draft = draft::draft(model, extras, random);
    spelling::spell(&draft, Style::random(random), random).0
}

/// A text of the model with no white space, no extra members and no needless escapes.
pub fn write_plain(model: &Model, random: &mut Random) -> Vec<u8> {
    let draft = draft::draft(model, 0, random);
    spelling::spell(&draft, Style::PLAIN, random).0
}

/// A model that differs from the given one in one detail and keeps rules 9 to 17.
pub fn changed(model: &Model, random: &mut Random) -> Model {
    for _ in 0..10_000 {
        let changed = city_model::change(model, random);
        if changed != *model && read(&write_plain(&changed, random)).is_ok() {
            return changed;
        }
    }
    panic!("no change of one detail is accepted: {model:?}");
}

/// Every text of up to `length` bytes over an alphabet, shorter ones first.
pub fn short_texts(alphabet: &[u8], length: usize) -> Vec<Vec<u8>> {
    let mut texts = vec![Vec::new()];
    let mut longest = texts.clone();
    for _ in 0..length {
        longest = longest
            .iter()
            .flat_map(|text| extended(text, alphabet))
            .collect();
        texts.extend_from_slice(&longest);
    }
    texts
}

/// A text with each byte of an alphabet after it.
fn extended<'a>(text: &'a [u8], alphabet: &'a [u8]) -> impl Iterator<Item = Vec<u8>> + 'a {
    alphabet.iter().map(move |byte| [text, &[*byte]].concat())
}
