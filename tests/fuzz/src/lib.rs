//! The independent reader behind the same signatures as the library's exports.

use std::slice;

use kebrawish_tests::Verdict;

/// An answer, as the C header declares it.
#[derive(Default)]
#[repr(C)]
pub struct Answer {
    rule: u32,
    place: u32,
    end: u32,
    length: u32,
    objects: u32,
}

impl From<Verdict> for Answer {
    fn from(verdict: Verdict) -> Answer {
        let field = |number: usize| u32::try_from(number).expect("a short text");
        match verdict {
            Verdict::Accepted { length, objects } => Answer {
                length: field(length),
                objects: field(objects),
                ..Answer::default()
            },
            Verdict::Refused { rule, place, end } => Answer {
                rule: rule.into(),
                place: field(place),
                end: field(end),
                ..Answer::default()
            },
        }
    }
}

/// Judges a text.
///
/// # Safety
/// The pointer and the length are those of bytes that live through the call.
#[no_mangle]
pub unsafe extern "C" fn reader_judge(text: *const u8, text_length: usize) -> Answer {
    let text = slice::from_raw_parts(text, text_length);
    kebrawish_tests::judge(text).into()
}

/// Lays a text.
///
/// # Safety
/// The pointers and lengths are those of bytes that live through the call and don't overlap.
#[no_mangle]
pub unsafe extern "C" fn reader_lay(
    text: *const u8,
    text_length: usize,
    sheet: *mut u8,
    sheet_length: usize,
) -> Answer {
    let text = slice::from_raw_parts(text, text_length);
    let sheet = slice::from_raw_parts_mut(sheet, sheet_length);
    let (verdict, bytes) = kebrawish_tests::lay(text, sheet_length);
    sheet.copy_from_slice(&bytes);
    verdict.into()
}
