//! An independent reader of CityJSON 2.0 texts, written from the rules alone, the generator
//! of texts for the differential tests, and the comparisons with the library.
//!
//! The reader builds a JSON tree on the heap, collects every fault of every rule, and
//! answers the least one; it shares no code and no method with the library.

#[cfg(feature = "library")]
pub mod c;
pub mod compare;
pub mod decimal;
pub mod dump;
pub mod generate;
pub mod json;
#[cfg(feature = "library")]
pub mod library;
pub mod model;
pub mod pages;
pub mod published;
pub mod rules;
pub mod samples;
pub mod sheet;
pub mod words;

use std::ops::Range;

use model::Model;

/// The greatest length of a text, in bytes (rule 1).
pub const TEXT_LIMIT: usize = 65_535;

/// A broken rule, the place where it is broken, and the end of the value or name there;
/// ordered by rule, then by place.
#[derive(Clone, Copy, Debug, PartialEq, Eq, PartialOrd, Ord, Hash)]
pub struct Refusal {
    pub rule: u8,
    pub place: usize,
    pub end: usize,
}

impl Refusal {
    /// The refusal of a value or a name, which has these bytes (rules 6 to 17).
    pub fn of(rule: u8, bytes: Range<usize>) -> Refusal {
        Refusal {
            rule,
            place: bytes.start,
            end: bytes.end,
        }
    }

    /// The refusal at a place that is its own end (rules 1 to 5, and 18).
    pub fn at(rule: u8, place: usize) -> Refusal {
        Refusal::of(rule, place..place)
    }
}

/// The answer for a text. `length` is the sheet's length, and 0 from `judge`.
#[derive(Clone, Copy, Debug, PartialEq, Eq)]
pub enum Verdict {
    Accepted { length: usize, objects: usize },
    Refused { rule: u8, place: usize, end: usize },
}

impl From<Refusal> for Verdict {
    fn from(refusal: Refusal) -> Verdict {
        let Refusal { rule, place, end } = refusal;
        Verdict::Refused { rule, place, end }
    }
}

impl Verdict {
    /// The rule's number, 0 for acceptance.
    pub fn rule(self) -> u8 {
        match self {
            Verdict::Accepted { .. } => 0,
            Verdict::Refused { rule, .. } => rule,
        }
    }
}

/// Reads a text into its model by rules 1 to 17.
pub fn read(text: &[u8]) -> Result<Model, Refusal> {
    if text.len() > TEXT_LIMIT {
        // Rule 1.
        return Err(Refusal::at(1, TEXT_LIMIT));
    }
    let document = json::read(text)?;
    match rules::least(&document) {
        Some(refusal) => Err(refusal),
        None => Ok(Model::from_root(&document.root)),
    }
}

/// Judges a text.
pub fn judge(text: &[u8]) -> Verdict {
    match read(text) {
        Ok(model) => Verdict::Accepted {
            length: 0,
            objects: model.objects.len(),
        },
        Err(refusal) => refusal.into(),
    }
}

/// Lays a text in a room of `room` bytes: the answer and the room's bytes afterwards.
pub fn lay(text: &[u8], room: usize) -> (Verdict, Vec<u8>) {
    let model = match read(text) {
        Ok(model) => model,
        Err(refusal) => return (refusal.into(), vec![0; room]),
    };
    let mut bytes = sheet::encode(&model);
    let length = bytes.len();
    if length > room {
        // Rule 18.
        return (Refusal::at(18, 0).into(), vec![0; room]);
    }
    bytes.resize(room, 0);
    let objects = model.objects.len();
    (Verdict::Accepted { length, objects }, bytes)
}
