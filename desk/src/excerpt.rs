//! The line of a text in which a fault stands, as it is shown, and the carets under the fault.

use std::ops::Range;

use crate::visible;

/// The most columns of a line that are shown, dots among them.
const COLUMNS: usize = 100;

/// What stands where a longer line is cut.
const DOTS: &str = "...";

/// The columns of a longer line that are shown between dots.
const WINDOW: usize = COLUMNS - 2 * DOTS.len();

/// The columns that are shown before a fault that is wider than the window.
const BEFORE: usize = 20;

/// Where a fault stands in a text, and how it is shown.
#[derive(Debug, PartialEq, Eq)]
pub struct Excerpt {
    /// The number of the line, from 1.
    pub line: usize,
    /// The number of the fault's first character in its line, from 1.
    pub column: usize,
    /// The line without its end, or the part of it around the fault.
    pub shown: String,
    /// The columns of `shown` before the first caret.
    pub indent: usize,
    /// The columns under which carets stand, at least one.
    pub carets: usize,
}

/// The excerpt for a fault, a range of bytes. An empty range is shown by one caret at its
/// place, which may be the end of the text, and one that goes on in a later line by carets to
/// the end of its first.
pub fn excerpt(text: &[u8], fault: Range<usize>) -> Excerpt {
    let place = fault.start.min(text.len());
    let line = line_around(text, place);
    let cells = cells(&text[line.clone()]);
    let first = cells.partition_point(|cell| line.start + cell.end <= place);
    let last = match fault.is_empty() {
        true => first,
        false => cells.partition_point(|cell| line.start + cell.end < fault.end) + 1,
    };
    let marked = first..last.clamp(first, cells.len());
    let window = window(&cells, &marked);
    let (shown, dots) = cut(&cells, &window);
    Excerpt {
        line: 1 + text[..line.start]
            .iter()
            .filter(|byte| **byte == b'\n')
            .count(),
        column: 1 + first,
        shown,
        indent: dots + columns(&cells[window.start..first]),
        carets: columns(&cells[first..marked.end.min(window.end)]).max(1),
    }
}

/// The bytes of the line that holds a place, without LF or CR LF at its end.
fn line_around(text: &[u8], place: usize) -> Range<usize> {
    let (before, after) = text.split_at(place);
    let start = before
        .iter()
        .rposition(|byte| *byte == b'\n')
        .map_or(0, |at| at + 1);
    let Some(length) = after.iter().position(|byte| *byte == b'\n') else {
        return start..text.len();
    };
    let end = place + length;
    match text[start..end].last() {
        Some(b'\r') => start..end - 1,
        _ => start..end,
    }
}

/// A character of a line as it is shown.
struct Cell {
    character: char,
    width: usize,
    /// The bytes of the line up to its end.
    end: usize,
}

fn cells(line: &[u8]) -> Vec<Cell> {
    let mut end = 0;
    let characters = visible::characters(line);
    let cell = |(character, length)| {
        end += length;
        Cell {
            character,
            width: visible::width(character),
            end,
        }
    };
    characters.map(cell).collect()
}

fn columns(cells: &[Cell]) -> usize {
    cells.iter().map(|cell| cell.width).sum()
}

/// The cells that are shown: all, or those around the marked ones, of which the first is among
/// them, and the last if there is room. Here every cell takes room, also a combining mark.
fn window(cells: &[Cell], marked: &Range<usize>) -> Range<usize> {
    let mut room = vec![0];
    for cell in cells {
        room.push(room[room.len() - 1] + cell.width.max(1));
    }
    let all = room[cells.len()];
    if all <= COLUMNS {
        return 0..cells.len();
    }
    let wide = room[marked.end] - room[marked.start];
    let before = match WINDOW.checked_sub(wide) {
        Some(rest) => rest / 2,
        None => BEFORE,
    };
    let left = room[marked.start].saturating_sub(before).min(all - WINDOW);
    let mut first = room.partition_point(|at| *at < left);
    // A mark whose letter is cut off would be written over the dots.
    while first < marked.start && cells[first].width == 0 {
        first += 1;
    }
    first..room.partition_point(|at| *at <= left + WINDOW) - 1
}

/// The cells of the window with dots where others are cut off, and the columns of the dots
/// before them.
fn cut(cells: &[Cell], window: &Range<usize>) -> (String, usize) {
    let dots = |is_cut: bool| if is_cut { DOTS } else { "" };
    let before = dots(window.start > 0);
    let mut shown = String::from(before);
    shown.extend(cells[window.clone()].iter().map(|cell| cell.character));
    shown += dots(window.end < cells.len());
    (shown, before.len())
}

#[cfg(test)]
mod tests {
    use super::*;

    /// The line and the column, the line as it is shown, and the carets below it.
    fn drawn(text: &[u8], fault: Range<usize>) -> (usize, usize, String, String) {
        let Excerpt {
            line,
            column,
            shown,
            indent,
            carets,
        } = excerpt(text, fault);
        (
            line,
            column,
            shown,
            " ".repeat(indent) + &"^".repeat(carets),
        )
    }

    /// Checks the line, the column, and what is drawn.
    fn check(text: &str, fault: Range<usize>, at: (usize, usize), shown: &str, carets: &str) {
        let expected = (at.0, at.1, shown.to_string(), carets.to_string());
        assert_eq!(drawn(text.as_bytes(), fault), expected);
    }

    #[test]
    fn within_a_line() {
        check("abc", 0..1, (1, 1), "abc", "^");
        check("abc", 1..3, (1, 2), "abc", " ^^");
        check("abc", 3..3, (1, 4), "abc", "   ^");
        check("abc\ndef\nghi", 4..7, (2, 1), "def", "^^^");
        check("abc\ndef\nghi", 6..6, (2, 3), "def", "  ^");
        check("abc\ndef\nghi", 10..11, (3, 3), "ghi", "  ^");
    }

    #[test]
    fn at_the_ends_of_lines_and_texts() {
        check("", 0..0, (1, 1), "", "^");
        check("\n", 0..0, (1, 1), "", "^");
        check("\n", 1..1, (2, 1), "", "^");
        check("ab\ncd", 2..2, (1, 3), "ab", "  ^");
        check("ab\ncd\n", 6..6, (3, 1), "", "^");
        check("ab\r\ncd", 2..2, (1, 3), "ab", "  ^");
        check("ab\r\ncd", 3..3, (1, 3), "ab", "  ^");
        check("ab\r\ncd", 4..6, (2, 1), "cd", "^^");
        check("a\rb\r", 0..1, (1, 1), "a␍b␍", "^");
    }

    #[test]
    fn past_the_text() {
        check("ab", 5..9, (1, 3), "ab", "  ^");
        check("ab", 1..9, (1, 2), "ab", " ^");
    }

    #[test]
    fn over_several_lines() {
        check("ab{\nc\n}", 2..7, (1, 3), "ab{", "  ^");
        check("ab{ c\r\n}", 2..8, (1, 3), "ab{ c", "  ^^^");
    }

    #[test]
    fn characters_of_several_bytes() {
        check("éab", 2..3, (1, 2), "éab", " ^");
        check("家ab", 3..4, (1, 2), "家ab", "  ^");
        check("a家b", 1..4, (1, 2), "a家b", " ^^");
        check("a家b", 1..1, (1, 2), "a家b", " ^");
        check("e\u{301}x", 3..4, (1, 3), "e\u{301}x", " ^");
        check("e\u{301}x", 0..3, (1, 1), "e\u{301}x", "^");
        check("e\u{301}x", 1..3, (1, 2), "e\u{301}x", " ^");
        // A range that begins or ends within a character takes it whole.
        check("a家b", 2..3, (1, 2), "a家b", " ^^");
    }

    #[test]
    fn controls_and_bad_bytes() {
        check("\ta\x1Bb", 3..4, (1, 4), " a␛b", "   ^");
        check("\u{FEFF}{}", 0..0, (1, 1), "\u{FFFD}{}", "^");
        let shown = "a\u{FFFD}\u{FFFD}b".to_string();
        assert_eq!(
            drawn(b"a\xE2\x82\xFFb", 1..1),
            (1, 2, shown.clone(), " ^".to_string())
        );
        assert_eq!(
            drawn(b"a\xE2\x82\xFFb", 4..5),
            (1, 4, shown, "   ^".to_string())
        );
    }

    /// A hundred columns are shown whole; of more, 94 between dots.
    #[test]
    fn long_lines() {
        let spaces = |count: usize| " ".repeat(count);
        let digits = |count: usize| "0123456789".repeat(count / 10);
        let line = digits(100);
        check(&line, 99..100, (1, 100), &line, &(spaces(99) + "^"));
        check(&line, 100..100, (1, 101), &line, &(spaces(100) + "^"));

        let line = digits(1_000);
        let start = format!("{}0123...", digits(90));
        check(&line, 0..2, (1, 1), &start, "^^");
        let end = format!("...6789{}", digits(90));
        check(&line, 998..1_000, (1, 999), &end, &(spaces(95) + "^^"));
        check(&line, 1_000..1_000, (1, 1_001), &end, &(spaces(97) + "^"));
        // 46 columns before two, and 46 after them.
        let middle = format!("...456789{}01234567...", digits(80));
        check(&line, 500..502, (1, 501), &middle, &(spaces(49) + "^^"));
        // As wide as the window, and wider.
        let fault = format!("...{}0123...", digits(90));
        check(
            &line,
            500..594,
            (1, 501),
            &fault,
            &(spaces(3) + &"^".repeat(94)),
        );
        check(
            &line,
            500..595,
            (1, 501),
            &fault,
            &(spaces(23) + &"^".repeat(74)),
        );
        check(
            &line,
            10..1_000,
            (1, 11),
            &start,
            &(spaces(10) + &"^".repeat(84)),
        );
        check(&line, 0..1_000, (1, 1), &start, &"^".repeat(94));
    }

    #[test]
    fn long_lines_of_other_widths() {
        // Wide ones: 46 columns before the marked one, and 46 after it.
        let line = "家".repeat(1_000);
        let shown = format!("...{}...", "家".repeat(47));
        check(
            &line,
            1_500..1_503,
            (1, 501),
            &shown,
            &(" ".repeat(49) + "^^"),
        );
        // No window begins with a mark, and many marks do not make it long.
        let line = "e\u{301}".repeat(500);
        let shown = format!("...{}e...", "e\u{301}".repeat(46));
        check(&line, 601..603, (1, 402), &shown, &(" ".repeat(26) + "^"));
        let line = "\u{301}".repeat(1_000);
        assert!(excerpt(line.as_bytes(), 1_000..1_001).shown.chars().count() <= COLUMNS);
    }

    /// Whatever the text and the range, what is drawn fits, and the carets are below it or
    /// right after it.
    #[test]
    fn any_range_of_any_text() {
        let line = "a\té家\u{301}\r\u{1B}\u{FEFF}".repeat(12).into_bytes();
        let text = [
            &line[..],
            b"\r\n\xE2\x82",
            &line,
            b"\n",
            &line[..40],
            b"\xF0",
        ]
        .concat();
        for start in 0..=text.len() + 1 {
            for end in (start..=text.len() + 1).step_by(7) {
                let found = excerpt(&text, start..end);
                let wide: usize = found.shown.chars().map(visible::width).sum();
                assert!(wide <= COLUMNS && found.carets >= 1);
                assert!(found.indent + found.carets <= wide + 1, "{start} to {end}");
                assert!(start < end || found.carets == 1);
            }
        }
    }
}
