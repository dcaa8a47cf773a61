//! The library's answers, through its crate for Rust, in the reader's form.

#[cfg(feature = "lay")]
use kebrawish::Laid;
use kebrawish::{Accepted, Refusal};

use crate::Verdict;

/// Bytes before and after the lent room that the library must leave alone.
#[cfg(feature = "lay")]
const GUARD: usize = 32;

/// The answer of judge.
pub fn judge(text: &[u8]) -> Verdict {
    judged(text, kebrawish::judge(text))
}

/// The answer of lay, and the room's bytes afterwards. The room is full of `filling`
/// beforehand, and the bytes around it are checked.
#[cfg(feature = "lay")]
pub fn lay(text: &[u8], room: usize, filling: u8) -> (Verdict, Vec<u8>) {
    let mut memory = vec![filling; room + 2 * GUARD];
    let answer = kebrawish::lay(text, &mut memory[GUARD..GUARD + room]);
    let (before, rest) = memory.split_at(GUARD);
    let (sheet, after) = rest.split_at(room);
    let mut around = before.iter().chain(after);
    assert!(
        around.all(|byte| *byte == filling),
        "bytes outside the room are written"
    );
    (laid(text, answer), sheet.to_vec())
}

/// An answer of judge for the text.
pub fn judged(text: &[u8], answer: Result<Accepted, Refusal>) -> Verdict {
    match answer {
        Ok(Accepted { objects }) => Verdict::Accepted { length: 0, objects },
        Err(refusal) => refused(text, refusal),
    }
}

/// An answer of lay for the text.
#[cfg(feature = "lay")]
pub fn laid(text: &[u8], answer: Result<Laid, Refusal>) -> Verdict {
    match answer {
        Ok(Laid { length, objects }) => Verdict::Accepted { length, objects },
        Err(refusal) => refused(text, refusal),
    }
}

/// A refusal of the text, whose bytes are within it.
fn refused(text: &[u8], refusal: Refusal) -> Verdict {
    let Refusal { rule, place, end } = refusal;
    let within = text.get(refusal.range()).is_some();
    assert!(
        within,
        "{refusal}, outside of a text of {} bytes",
        text.len()
    );
    let rule = u8::try_from(rule.number()).expect("a small number");
    Verdict::Refused { rule, place, end }
}
