//! Reads the texts that a call names.

use std::ffi::OsStr;
use std::fs::File;
use std::io::{self, Read};

use crate::visible;

/// The bytes that are read of a text. One of more than 65,535 bytes is refused by rule 1 at
/// 65,535, whatever follows; the others are there to be shown after that place.
const MOST: u64 = 65_536 + 1_024;

/// Whether a name is that of standard input.
pub fn is_standard(file: &OsStr) -> bool {
    file == "-"
}

/// The beginning of a text, which is the whole text if that is not too long.
pub fn read(file: &OsStr) -> io::Result<Vec<u8>> {
    let mut text = Vec::new();
    if is_standard(file) {
        io::stdin().lock().take(MOST).read_to_end(&mut text)?;
    } else {
        File::open(file)?.take(MOST).read_to_end(&mut text)?;
    }
    Ok(text)
}

/// A text's name as it is shown.
pub fn name(file: &OsStr) -> String {
    if is_standard(file) {
        "<stdin>".to_string()
    } else {
        visible::name(file)
    }
}
