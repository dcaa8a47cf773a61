//! How a character is shown on a terminal, and how many columns it takes there. Nothing in a
//! text or in a file's name may steer the terminal, and no character may hide.

use std::ffi::OsStr;

/// The first and the last character of a range.
type Characters = (char, char);

/// What shows nothing of its own, steers a terminal, or turns the direction of what follows: the
/// controls of C1, soft hyphen, spaces and joiners of no width, marks, overrides and isolates of
/// direction, separators of lines, byte order mark, tags.
const HIDDEN: [Characters; 10] = [
    ('\u{80}', '\u{9F}'),
    ('\u{AD}', '\u{AD}'),
    ('\u{61C}', '\u{61C}'),
    ('\u{180E}', '\u{180E}'),
    ('\u{200B}', '\u{200F}'),
    ('\u{2028}', '\u{202E}'),
    ('\u{2060}', '\u{206F}'),
    ('\u{FEFF}', '\u{FEFF}'),
    ('\u{FFF9}', '\u{FFFB}'),
    ('\u{E0000}', '\u{E007F}'),
];

/// What is written over the character before it: marks of Latin, Greek and Cyrillic, Hebrew,
/// Arabic, Devanagari, Thai, Hangul and Ethiopic letters, of symbols and of kana, and what
/// selects a variant.
const COMBINING: [Characters; 24] = [
    ('\u{300}', '\u{36F}'),
    ('\u{483}', '\u{489}'),
    ('\u{591}', '\u{5BD}'),
    ('\u{5BF}', '\u{5BF}'),
    ('\u{5C1}', '\u{5C2}'),
    ('\u{5C4}', '\u{5C5}'),
    ('\u{610}', '\u{61A}'),
    ('\u{64B}', '\u{65F}'),
    ('\u{670}', '\u{670}'),
    ('\u{6D6}', '\u{6DC}'),
    ('\u{93C}', '\u{93C}'),
    ('\u{941}', '\u{948}'),
    ('\u{94D}', '\u{94D}'),
    ('\u{E31}', '\u{E31}'),
    ('\u{E34}', '\u{E3A}'),
    ('\u{E47}', '\u{E4E}'),
    ('\u{1160}', '\u{11FF}'),
    ('\u{135D}', '\u{135F}'),
    ('\u{1AB0}', '\u{1AFF}'),
    ('\u{1DC0}', '\u{1DFF}'),
    ('\u{20D0}', '\u{20F0}'),
    ('\u{3099}', '\u{309A}'),
    ('\u{FE00}', '\u{FE0F}'),
    ('\u{E0100}', '\u{E01EF}'),
];

/// What takes two columns: Hangul, CJK, kana and fullwidth characters, and emoji.
const WIDE: [Characters; 20] = [
    ('\u{1100}', '\u{115F}'),
    ('\u{231A}', '\u{231B}'),
    ('\u{2705}', '\u{2705}'),
    ('\u{274C}', '\u{274C}'),
    ('\u{2B50}', '\u{2B50}'),
    ('\u{2E80}', '\u{303E}'),
    ('\u{3041}', '\u{3247}'),
    ('\u{3250}', '\u{4DBF}'),
    ('\u{4E00}', '\u{A4CF}'),
    ('\u{A960}', '\u{A97F}'),
    ('\u{AC00}', '\u{D7A3}'),
    ('\u{F900}', '\u{FAFF}'),
    ('\u{FE30}', '\u{FE6F}'),
    ('\u{FF01}', '\u{FF60}'),
    ('\u{FFE0}', '\u{FFE6}'),
    ('\u{1F300}', '\u{1F64F}'),
    ('\u{1F680}', '\u{1F6FF}'),
    ('\u{1F900}', '\u{1F9FF}'),
    ('\u{1FA70}', '\u{1FAFF}'),
    ('\u{20000}', '\u{3FFFD}'),
];

fn is_among(character: char, ranges: &[Characters]) -> bool {
    ranges
        .iter()
        .any(|(first, last)| (*first..=*last).contains(&character))
}

/// A character as it is shown: a tab as a space, another control character as its picture,
/// what would hide or steer as U+FFFD, all else as itself.
pub fn shown(character: char) -> char {
    match character {
        '\t' => ' ',
        '\0'..='\x1F' => char::from_u32(0x2400 + u32::from(character)).unwrap_or('\u{FFFD}'),
        '\x7F' => '\u{2421}',
        _ if is_among(character, &HIDDEN) => '\u{FFFD}',
        _ => character,
    }
}

/// The columns that a character takes, as it is shown.
pub fn width(shown: char) -> usize {
    if shown.is_ascii() {
        1
    } else if is_among(shown, &COMBINING) {
        0
    } else if is_among(shown, &WIDE) {
        2
    } else {
        1
    }
}

/// The characters of bytes as they are shown, each with the number of its bytes. What is not
/// UTF-8 is one U+FFFD for each sequence that `String::from_utf8_lossy` replaces by one.
pub fn characters(bytes: &[u8]) -> impl Iterator<Item = (char, usize)> + '_ {
    bytes.utf8_chunks().flat_map(|chunk| {
        let whole = chunk.valid().chars();
        let bad = Some(chunk.invalid().len()).filter(|length| *length > 0);
        whole
            .map(|character| (shown(character), character.len_utf8()))
            .chain(bad.map(|length| ('\u{FFFD}', length)))
    })
}

/// A file's name, or another argument, as it is shown.
pub fn name(argument: &OsStr) -> String {
    if argument.is_empty() {
        return "''".to_string();
    }
    characters(argument.as_encoded_bytes())
        .map(|(character, _)| character)
        .collect()
}

#[cfg(test)]
mod tests {
    use super::*;

    #[test]
    fn controls_are_pictures() {
        assert_eq!(shown('\t'), ' ');
        assert_eq!(shown('\0'), '␀');
        assert_eq!(shown('\x1B'), '␛');
        assert_eq!(shown('\x1F'), '␟');
        assert_eq!(shown('\x7F'), '␡');
        for hidden in [
            '\u{80}', '\u{9B}', '\u{202E}', '\u{2066}', '\u{2028}', '\u{FEFF}',
        ] {
            assert_eq!(shown(hidden), '\u{FFFD}');
        }
        for itself in [' ', '~', 'é', 'ሀ', '家', '\u{A0}', '\u{301}'] {
            assert_eq!(shown(itself), itself);
        }
    }

    /// No character that is shown is a control character.
    #[test]
    fn nothing_steers() {
        assert!(('\0'..=char::MAX)
            .map(shown)
            .all(|character| !character.is_control()));
    }

    #[test]
    fn widths() {
        for wide in ['家', 'あ', 'カ', '한', 'Ａ', '😀', '🏠', '\u{20000}'] {
            assert_eq!(width(wide), 2, "{wide}");
        }
        for one in [
            'a', 'é', 'ß', 'ሀ', 'я', 'א', '␀', '\u{FFFD}', '€', '\u{FF61}',
        ] {
            assert_eq!(width(one), 1, "{one}");
        }
        for none in ['\u{300}', '\u{36F}', '\u{64B}', '\u{3099}', '\u{FE0F}'] {
            assert_eq!(width(none), 0, "{none:?}");
        }
    }

    /// The tables are in order, so that a range is not there twice.
    #[test]
    fn tables_are_in_order() {
        for table in [&HIDDEN[..], &COMBINING, &WIDE] {
            assert!(table.iter().all(|(first, last)| first <= last));
            assert!(table.windows(2).all(|pair| pair[0].1 < pair[1].0));
        }
    }

    #[test]
    fn bad_bytes_are_one_character_each() {
        let bytes = b"a\xFF\xE2\x82b\xF0\x9F\x98\x80\xC3";
        let found: Vec<(char, usize)> = characters(bytes).collect();
        let bad = '\u{FFFD}';
        assert_eq!(
            found,
            [('a', 1), (bad, 1), (bad, 2), ('b', 1), ('😀', 4), (bad, 1)]
        );
        assert_eq!(name(OsStr::new("a\x1B[31m\nb")), "a␛[31m␊b");
    }
}
