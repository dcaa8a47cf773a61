//! Kebrawish judges one CityJSON 2.0 text by exact rules and lays it out as a flat byte sheet
//! of objects, links, nested boundaries and surface meanings.
//!
//! This crate is a safe interface to the static library `libkebrawish.a`, and has no other
//! dependency than `std`. The library is proved to keep its promises; this crate is not, and
//! does no more than to call it and to read its answers.
//!
//! # What is promised
//!
//! For every text and every size of lent sheet:
//!
//! 1. Each call ends, with nothing undefined. A refusal carries a [`Rule`], a place and an end,
//!    and every byte of the lent sheet is then zero.
//! 2. A text is accepted exactly when it breaks no rule and its sheet fits. Otherwise the answer
//!    is the lowest broken rule at its earliest place, with its end. An accepted text gives the
//!    defined sheet, its true length and object count, and zeros after it.
//! 3. Two different city models never share a sheet, and neither sheet begins the other. Texts
//!    that are alike have the same model and sheet.
//!
//! So nothing has to be checked before a call: any bytes are a text, and any length a room. The
//! pages `docs/RULES.md` and `docs/SHEET.md` of the repository have each rule, and each byte of
//! a sheet.
//!
//! # What a call needs
//!
//! It takes at most 1,440 KiB of stack, or at most 165 KiB for a text of at most 4,096 bytes, as
//! measured: the 2 MiB that `std` gives a thread suffice. It allocates nothing and keeps nothing
//! between calls, so that threads may call at once.
//!
//! # Linking
//!
//! `tools/archive.sh` at the repository's root proves the library and writes the archive to
//! `target/staticlib`, where this crate finds it; the environment variable `KEBRAWISH_STATICLIB`
//! names another folder, by an absolute path. It is for x86-64 Linux. Archive and crate are of one version: a call
//! panics if the library answers a rule that the crate does not know.

#![warn(missing_docs)]

mod rule;

use std::error::Error;
use std::fmt;
use std::ops::Range;

pub use rule::Rule;

/// How many bytes of room suffice for any text: a longer one than 65,535 bytes is refused by
/// rule 1.
pub const ROOM_FOR_ANY: usize = room(65_535);

/// How many bytes of room suffice for the sheet of a text of so many bytes, whatever the text:
/// [`lay`] never answers [`Rule::NoRoom`] in such a room. A sheet has at most half as many.
pub const fn room(text_length: usize) -> usize {
    text_length.saturating_mul(4)
}

/// What [`judge`] answers for a text that breaks no rule.
#[derive(Clone, Copy, Debug, PartialEq, Eq, Hash)]
pub struct Accepted {
    /// The number of city objects.
    pub objects: usize,
}

/// What [`lay`] answers for a text that breaks no rule and whose sheet fits.
#[derive(Clone, Copy, Debug, PartialEq, Eq, Hash)]
pub struct Laid {
    /// The length of the sheet, which the lent room begins with.
    pub length: usize,
    /// The number of city objects.
    pub objects: usize,
}

/// The lowest rule that a text breaks, at its earliest place.
///
/// ```
/// let text = br#"{"a":1,"a":2}"#;
/// let refusal = kebrawish::judge(text).unwrap_err();
/// assert_eq!(refusal.to_string(), "refused 6 at 7 to 10: repeated name");
///
/// let range = refusal.range();
/// assert_eq!(&text[range.clone()], br#""a""#);
/// let marked = [&text[..range.start], b">>", &text[range.clone()], b"<<", &text[range.end..]];
/// assert_eq!(marked.concat(), br#"{"a":1,>>"a"<<:2}"#);
/// ```
#[derive(Clone, Copy, Debug, PartialEq, Eq, Hash)]
pub struct Refusal {
    /// The broken rule.
    pub rule: Rule,
    /// Where it is broken: an offset in the text.
    pub place: usize,
    /// One past the last byte of the value or name at that place, or the place itself under
    /// the rules 1 to 5 and 18.
    pub end: usize,
}

impl Refusal {
    /// The bytes from the place to the end, for highlighting. They are never outside of the
    /// text that was refused.
    pub fn range(&self) -> Range<usize> {
        self.place..self.end
    }
}

/// Prints `refused 17 at 251 to 258: one-sided link`.
impl fmt::Display for Refusal {
    fn fmt(&self, formatter: &mut fmt::Formatter) -> fmt::Result {
        let Refusal { rule, place, end } = self;
        let number = rule.number();
        write!(formatter, "refused {number} at {place} to {end}: {rule}")
    }
}

impl Error for Refusal {}

/// Judges a text by the rules 1 to 17.
///
/// ```
/// let text = br#"{
///   "type": "CityJSON",
///   "version": "2.0",
///   "transform": {"scale": [1.0, 1.0, 1.0], "translate": [0.0, 0.0, 0.0]},
///   "CityObjects": {"kiosk": {"type": "CityFurniture"}},
///   "vertices": []
/// }"#;
/// assert_eq!(kebrawish::judge(text).unwrap().objects, 1);
///
/// let refusal = kebrawish::judge(b"{}").unwrap_err();
/// assert_eq!(refusal.to_string(), "refused 8 at 0 to 2: required member absent");
/// ```
pub fn judge(text: &[u8]) -> Result<Accepted, Refusal> {
    // Safety: the pointer and the length are those of a slice, which lives through the call;
    // its pointer is not null, also if it is empty.
    let answer = unsafe { kebrawish_judge(text.as_ptr(), text.len()) };
    let Laid { length, objects } = answer.read()?;
    debug_assert_eq!(length, 0, "judge lays nothing");
    Ok(Accepted { objects })
}

/// Judges a text in the same way and, if it is accepted and its sheet is not longer than the
/// lent room `sheet`, writes the sheet there.
///
/// Every byte of the room is then settled: the sheet and zeros after it if the text is
/// accepted, zeros throughout if it is refused. [`room`] and [`ROOM_FOR_ANY`] tell how much
/// suffices.
///
/// ```
/// use kebrawish::{Laid, Rule};
///
/// let text = br#"{
///   "type": "CityJSON",
///   "version": "2.0",
///   "transform": {"scale": [1.0, 1.0, 1.0], "translate": [0.0, 0.0, 0.0]},
///   "CityObjects": {},
///   "vertices": []
/// }"#;
/// let mut room = vec![0xA5; kebrawish::room(text.len())];
/// let laid = kebrawish::lay(text, &mut room).unwrap();
/// assert_eq!(laid, Laid { length: 78, objects: 0 });
/// let (sheet, rest) = room.split_at(laid.length);
/// // The last record: a payload of no bytes, kind 9.
/// assert_eq!(sheet[72..], [0, 0, 0, 0, 9, 0]);
/// assert!(rest.iter().all(|byte| *byte == 0));
///
/// let mut short = [0xA5; 77];
/// let refusal = kebrawish::lay(text, &mut short).unwrap_err();
/// assert_eq!(refusal.rule, Rule::NoRoom);
/// assert_eq!(short, [0; 77]);
/// ```
pub fn lay(text: &[u8], sheet: &mut [u8]) -> Result<Laid, Refusal> {
    // Safety: the pointers and the lengths are those of two slices, which live through the
    // call and do not overlap, since one of them is borrowed for writing; neither pointer is
    // null, also if a slice is empty.
    let answer =
        unsafe { kebrawish_lay(text.as_ptr(), text.len(), sheet.as_mut_ptr(), sheet.len()) };
    answer.read()
}

extern "C" {
    fn kebrawish_judge(text: *const u8, text_length: usize) -> Answer;
    fn kebrawish_lay(
        text: *const u8,
        text_length: usize,
        sheet: *mut u8,
        sheet_length: usize,
    ) -> Answer;
}

/// The answer of both functions, `kebrawish_answer` in the C header. Fields that do not apply
/// are 0.
#[repr(C)]
struct Answer {
    rule: u32,
    place: u32,
    end: u32,
    length: u32,
    objects: u32,
}

impl Answer {
    /// What the answer says.
    ///
    /// # Panics
    ///
    /// If there is no such rule: the archive is then of another version than the crate.
    fn read(self) -> Result<Laid, Refusal> {
        let fields = [self.place, self.end, self.length, self.objects];
        let [place, end, length, objects] = fields.map(|field| field as usize);
        if self.rule == 0 {
            debug_assert_eq!((place, end), (0, 0), "an accepted text has no place");
            return Ok(Laid { length, objects });
        }
        debug_assert_eq!((length, objects), (0, 0), "a refused text has no sheet");
        let Some(rule) = Rule::from_number(self.rule) else {
            panic!(
                "libkebrawish.a is of another version than the crate: it refuses by rule {}",
                self.rule
            );
        };
        Err(Refusal { rule, place, end })
    }
}

#[cfg(test)]
mod tests {
    use super::*;

    /// The answer of a rule from byte 251 to 258.
    fn refused(rule: u32) -> Answer {
        Answer {
            rule,
            place: 251,
            end: 258,
            length: 0,
            objects: 0,
        }
    }

    #[test]
    fn each_field_of_an_answer_is_read() {
        let accepted = Answer {
            rule: 0,
            place: 0,
            end: 0,
            length: 1_777,
            objects: 9,
        };
        let laid = Laid {
            length: 1_777,
            objects: 9,
        };
        assert_eq!(accepted.read(), Ok(laid));
        for rule in Rule::ALL {
            let (place, end) = (251, 258);
            let refusal = Refusal { rule, place, end };
            assert_eq!(refused(rule.number()).read(), Err(refusal));
        }
        let line = refused(17).read().unwrap_err().to_string();
        assert_eq!(line, "refused 17 at 251 to 258: one-sided link");
    }

    #[test]
    #[should_panic(expected = "of another version than the crate: it refuses by rule 19")]
    fn an_unknown_rule() {
        let _ = refused(19).read();
    }

    #[test]
    fn rooms() {
        assert_eq!(ROOM_FOR_ANY, 262_140);
        assert_eq!(room(0), 0);
        assert_eq!(room(169), 676);
        assert_eq!(room(usize::MAX), usize::MAX);
    }
}
