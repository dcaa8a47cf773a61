//! Comparisons. Each gives the reader's answer; with the feature `library` the library has
//! then given the same answer of judge, and with the feature `lay` the same of lay, with the
//! same bytes. A disagreement prints what the text is (with its seed, if it has one), both
//! answers and the text, and ends the test.

use crate::Verdict;

/// More bytes than any sheet has: the header's `KEBRAWISH_ROOM_FOR_ANY`.
pub const LARGE_ROOM: usize = 262_140;

/// The answer of judge, and in how many rooms lay refused the text for its length.
#[derive(Clone, Copy, Debug)]
pub struct Answers {
    pub judge: Verdict,
    pub short_rooms: u64,
}

/// Compares judge.
#[track_caller]
pub fn judge(text: &[u8], what: &str) -> Verdict {
    let expected = crate::judge(text);
    #[cfg(feature = "library")]
    compare_answers(text, crate::library::judge(text), expected, what);
    #[cfg(not(feature = "library"))]
    let _ = what;
    expected
}

/// Compares lay in a room that is full of `filling` beforehand.
#[track_caller]
pub fn lay(text: &[u8], room: usize, filling: u8, what: &str) -> (Verdict, Vec<u8>) {
    let expected = crate::lay(text, room);
    #[cfg(feature = "lay")]
    compare_sheets(text, room, filling, &expected, what);
    #[cfg(not(feature = "lay"))]
    let _ = (filling, what);
    expected
}

/// Compares judge, and lay in rooms of every kind: of no bytes, of half the sheet, one byte
/// short, exact, and larger.
#[track_caller]
pub fn all(text: &[u8], what: &str) -> Answers {
    let judge = judge(text, what);
    let rooms = if !cfg!(feature = "lay") {
        Vec::new()
    } else if judge.rule() == 0 {
        let length = sheet_length(text);
        vec![0, length / 2, length - 1, length, length + 77]
    } else {
        vec![0, 200]
    };
    let fillings = [0xA5, 0x01, 0xFF, 0x5A, 0x80];
    let laid = rooms.iter().zip(fillings);
    let laid = laid.map(|(room, filling)| lay(text, *room, filling, what).0);
    Answers {
        judge,
        short_rooms: laid.filter(|verdict| verdict.rule() == 18).count() as u64,
    }
}

/// The length of an accepted text's sheet, by the reader.
fn sheet_length(text: &[u8]) -> usize {
    match crate::lay(text, LARGE_ROOM).0 {
        Verdict::Accepted { length, .. } => length,
        Verdict::Refused { .. } => panic!("the reader's judge accepts and its lay refuses"),
    }
}

#[track_caller]
#[cfg(feature = "lay")]
fn compare_sheets(
    text: &[u8],
    room: usize,
    filling: u8,
    expected: &(Verdict, Vec<u8>),
    what: &str,
) {
    let (found, bytes) = crate::library::lay(text, room, filling);
    let what = format!("{what}, in a room of {room} bytes");
    compare_answers(text, found, expected.0, &what);
    let mut pairs = bytes.iter().zip(&expected.1);
    if let Some(place) = pairs.position(|(one, other)| one != other) {
        let (one, other) = (bytes[place], expected.1[place]);
        disagree(
            text,
            &format!("{what}\nthe sheets differ at {place}"),
            [format!("{one:02x}"), format!("{other:02x}")],
        );
    }
}

#[track_caller]
#[cfg(feature = "library")]
fn compare_answers(text: &[u8], found: Verdict, expected: Verdict, what: &str) {
    if found != expected {
        disagree(text, what, [readable(found), readable(expected)]);
    }
}

/// An answer in readable form.
#[cfg(feature = "library")]
fn readable(verdict: Verdict) -> String {
    match verdict {
        Verdict::Accepted { length, objects } => {
            format!("accepted, length {length}, objects {objects}")
        }
        Verdict::Refused { rule, place, end } => format!("refused {rule} at {place} to {end}"),
    }
}

/// Ends a test. The message goes to standard error at once: a library that is built to abort
/// on a panic would end the process before the captured output is printed.
#[track_caller]
#[cfg(feature = "library")]
fn disagree(text: &[u8], what: &str, [library, reader]: [String; 2]) -> ! {
    use std::io::Write;
    let text = shown(text);
    let _ = writeln!(
        std::io::stderr(),
        "{what}\nlibrary: {library}\nreader:  {reader}\n{text}"
    );
    panic!("the library and the reader disagree: {what}");
}

/// A text in full: as it stands if it can be read so, else as a byte string of Rust.
pub fn shown(text: &[u8]) -> String {
    let readable = |character: char| character == '\n' || !character.is_control();
    match std::str::from_utf8(text) {
        Ok(string) if string.chars().all(readable) => {
            format!("text of {} bytes:\n{string}", text.len())
        }
        _ => format!(
            "text of {} bytes:\nb\"{}\"",
            text.len(),
            text.escape_ascii()
        ),
    }
}
