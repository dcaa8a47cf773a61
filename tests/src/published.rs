//! The published test files: the JSON test suite and Kuhn's UTF-8 test. Neither is a part of
//! the repository. They lie beside it in `../shared`, and `tests/fetch-json-suite` puts the
//! JSON test suite into `target/` where it does not.

use std::fs;
use std::io::{self, Write};
use std::path::PathBuf;

use crate::pages::root;

/// How many files the JSON test suite has: those that are JSON, those that are not, and
/// those on which parsers may differ.
pub const SUITE: [(&str, usize); 3] = [("y_", 95), ("n_", 188), ("i_", 35)];

/// The rule and the place of the files on which parsers may differ. Numbers of any size are
/// JSON, and the root is an array, to the file's end; an unpaired surrogate escape is rule 5,
/// bytes that are no UTF-8 are rule 2, and a byte order mark begins no JSON text.
pub const OPEN_FILES: [(&str, u8, usize); 35] = [
    ("i_number_double_huge_neg_exp", 7, 0),
    ("i_number_huge_exp", 7, 0),
    ("i_number_neg_int_huge_exp", 7, 0),
    ("i_number_pos_double_huge_exp", 7, 0),
    ("i_number_real_neg_overflow", 7, 0),
    ("i_number_real_pos_overflow", 7, 0),
    ("i_number_real_underflow", 7, 0),
    ("i_number_too_big_neg_int", 7, 0),
    ("i_number_too_big_pos_int", 7, 0),
    ("i_number_very_big_negative_int", 7, 0),
    ("i_object_key_lone_2nd_surrogate", 5, 2),
    ("i_string_1st_surrogate_but_2nd_missing", 5, 2),
    ("i_string_1st_valid_surrogate_2nd_invalid", 5, 2),
    ("i_string_UTF-16LE_with_BOM", 2, 0),
    ("i_string_UTF-8_invalid_sequence", 2, 7),
    ("i_string_UTF8_surrogate_U+D800", 2, 2),
    ("i_string_incomplete_surrogate_and_escape_valid", 5, 2),
    ("i_string_incomplete_surrogate_pair", 5, 2),
    ("i_string_incomplete_surrogates_escape_valid", 5, 2),
    ("i_string_invalid_lonely_surrogate", 5, 2),
    ("i_string_invalid_surrogate", 5, 2),
    ("i_string_invalid_utf-8", 2, 2),
    ("i_string_inverted_surrogates_U+1D11E", 5, 2),
    ("i_string_iso_latin_1", 2, 2),
    ("i_string_lone_second_surrogate", 5, 2),
    ("i_string_lone_utf8_continuation_byte", 2, 2),
    ("i_string_not_in_unicode_range", 2, 2),
    ("i_string_overlong_sequence_2_bytes", 2, 2),
    ("i_string_overlong_sequence_6_bytes", 2, 2),
    ("i_string_overlong_sequence_6_bytes_null", 2, 2),
    ("i_string_truncated-utf-8", 2, 2),
    ("i_string_utf16BE_no_BOM", 2, 5),
    ("i_string_utf16LE_no_BOM", 2, 4),
    ("i_structure_500_nested_arrays", 4, 32),
    ("i_structure_UTF-8_BOM_empty_object", 3, 0),
];

/// A published file: its name and its bytes.
pub struct File {
    pub name: String,
    pub bytes: Vec<u8>,
}

/// The first of the paths, from the repository's root, that is there.
fn found(paths: &[&str]) -> Option<PathBuf> {
    let mut paths = paths.iter().map(|path| root().join(path));
    paths.find(|path| path.exists())
}

/// Says on standard error, past the capture of a test's output, what was not tried.
fn not_tried(what: &str, wanted: &str) {
    let _ = writeln!(io::stderr(), "not tried: {what} ({wanted})");
}

/// The JSON test suite's files in order of name. Where the suite is missing, none, and the
/// run says that it was not tried.
pub fn json_suite() -> Option<Vec<File>> {
    let Some(folder) = found(&["../shared/json-test-suite", "target/json-test-suite"]) else {
        let [(_, y), (_, n), (_, i)] = SUITE;
        let count = y + n + i;
        not_tried(
            &format!("all {count} files of the JSON test suite: {y} y_, {n} n_ and {i} i_"),
            "neither ../shared/json-test-suite nor target/json-test-suite is there",
        );
        return None;
    };
    let mut files: Vec<File> = fs::read_dir(&folder)
        .expect("the suite's folder")
        .map(|entry| entry.expect("a file of the suite").path())
        .filter(|path| path.extension().is_some_and(|kind| kind == "json"))
        .map(|path| File {
            name: path
                .file_name()
                .expect("a name")
                .to_string_lossy()
                .into_owned(),
            bytes: fs::read(&path).expect("a file of the suite"),
        })
        .collect();
    files.sort_by(|a, b| a.name.cmp(&b.name));
    for (start, count) in SUITE {
        let named = files.iter().filter(|file| file.name.starts_with(start));
        assert_eq!(named.count(), count, "files {start} of the JSON test suite");
    }
    Some(files)
}

/// The lines of Kuhn's UTF-8 test, without their line feeds. Where the file is missing, none,
/// and the run says that it was not tried.
pub fn utf8_lines() -> Option<Vec<Vec<u8>>> {
    let Some(file) = found(&["../shared/utf8-test/UTF-8-test.txt"]) else {
        not_tried(
            "the 301 lines of Kuhn's UTF-8 test",
            "../shared/utf8-test/UTF-8-test.txt is missing",
        );
        return None;
    };
    let bytes = fs::read(file).expect("the UTF-8 test");
    let lines: Vec<Vec<u8>> = bytes
        .split(|byte| *byte == b'\n')
        .map(<[u8]>::to_vec)
        .collect();
    assert_eq!(lines.len(), 301, "lines of the UTF-8 test");
    Some(lines)
}
