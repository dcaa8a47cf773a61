//! Spellings: numerals for a value, and the bytes of a draft with random white space and
//! escapes.

use std::ops::Range;

use super::draft::{Body, Draft};
use super::random::Random;
use crate::decimal::Pair;

/// A numeral with no fraction and no exponent part.
pub fn integer(value: i64, random: &mut Random) -> String {
    if value == 0 && random.chance(20) {
        return "-0".to_string();
    }
    value.to_string()
}

/// A numeral for a pair, with the point and the exponent anywhere.
pub fn pair(pair: Pair, random: &mut Random) -> String {
    if pair.m == 0 {
        let zeros = [
            "0",
            "-0",
            "0.0",
            "0e5",
            "-0.000E-99999999999999999999",
            "0E+00",
        ];
        return random.pick(&zeros).to_string();
    }
    // Zeros after the digits lower the exponent; digits after the point raise it.
    let zeros = random.below(4) * random.below(2);
    let digits = format!("{}{}", pair.m.unsigned_abs(), "0".repeat(zeros));
    let fraction = random.below(digits.len() + 4) * random.below(2);
    let exponent = i64::from(pair.e) - zeros as i64 + fraction as i64;
    let sign = if pair.m < 0 { "-" } else { "" };
    let significand = with_point(&digits, fraction);
    if exponent == 0 && random.chance(80) {
        return format!("{sign}{significand}");
    }
    format!("{sign}{significand}{}", exponent_part(exponent, random))
}

/// The digits with a point before the last `fraction` of them.
fn with_point(digits: &str, fraction: usize) -> String {
    if fraction == 0 {
        return digits.to_string();
    }
    let padded = format!("{digits:0>width$}", width = fraction + 1);
    let (whole, part) = padded.split_at(padded.len() - fraction);
    format!("{whole}.{part}")
}

fn exponent_part(exponent: i64, random: &mut Random) -> String {
    let letter = random.pick(&["e", "E"]);
    let sign = match exponent {
        0 => *random.pick(&["", "+", "-"]),
        1.. => *random.pick(&["", "+"]),
        _ => "-",
    };
    let zeros = "0".repeat(random.below(3) * random.below(2));
    format!("{letter}{sign}{zeros}{}", exponent.unsigned_abs())
}

/// How likely, of a hundred, white space and escapes are.
#[derive(Clone, Copy, Debug)]
pub struct Style {
    pub space: usize,
    pub escape: usize,
}

impl Style {
    pub const PLAIN: Style = Style {
        space: 0,
        escape: 0,
    };

    pub fn random(random: &mut Random) -> Style {
        Style {
            space: *random.pick(&[0, 0, 10, 40]),
            escape: *random.pick(&[0, 2, 10, 60]),
        }
    }
}

/// The bytes of a draft, and those of them from its mark to the end of the marked value.
pub fn spell(draft: &Draft, style: Style, random: &mut Random) -> (Vec<u8>, Option<Range<usize>>) {
    let mut writer = Writer {
        text: String::new(),
        mark: None,
        style,
        random,
    };
    writer.space();
    writer.value(draft);
    writer.space();
    (writer.text.into_bytes(), writer.mark)
}

struct Writer<'a> {
    text: String,
    mark: Option<Range<usize>>,
    style: Style,
    random: &'a mut Random,
}

impl Writer<'_> {
    fn space(&mut self) {
        while self.random.chance(self.style.space) {
            let space = *self.random.pick(&[" ", "\n", "\t", "\r", "  "]);
            self.text += space;
        }
    }

    /// A structural character with white space around it.
    fn structural(&mut self, character: char) {
        self.space();
        self.text.push(character);
        self.space();
    }

    fn value(&mut self, draft: &Draft) {
        let start = self.text.len();
        self.body(&draft.body);
        if let Some(offset) = draft.mark {
            self.mark = Some(start + offset..self.text.len());
        }
    }

    fn body(&mut self, body: &Body) {
        match body {
            Body::Raw(raw) => self.text += raw,
            Body::Text(text) => self.string(text),
            Body::Array(items) => {
                self.text.push('[');
                self.space();
                for (index, item) in items.iter().enumerate() {
                    if index > 0 {
                        self.structural(',');
                    }
                    self.value(item);
                }
                self.space();
                self.text.push(']');
            }
            Body::Object(entries) => {
                self.text.push('{');
                self.space();
                for (index, entry) in entries.iter().enumerate() {
                    if index > 0 {
                        self.structural(',');
                    }
                    self.value(&entry.name);
                    self.structural(':');
                    self.value(&entry.value);
                }
                self.space();
                self.text.push('}');
            }
        }
    }

    fn string(&mut self, text: &str) {
        self.text.push('"');
        for character in text.chars() {
            let must = character < ' ' || character == '"' || character == '\\';
            if must || self.random.chance(self.style.escape) {
                self.escape(character);
            } else {
                self.text.push(character);
            }
        }
        self.text.push('"');
    }

    fn escape(&mut self, character: char) {
        let short = match character {
            '"' | '\\' | '/' => Some(character),
            '\u{8}' => Some('b'),
            '\u{c}' => Some('f'),
            '\n' => Some('n'),
            '\r' => Some('r'),
            '\t' => Some('t'),
            _ => None,
        };
        match short {
            Some(letter) if self.random.chance(50) => {
                self.text.push('\\');
                self.text.push(letter);
            }
            _ => self.hex_escapes(character),
        }
    }

    fn hex_escapes(&mut self, character: char) {
        for unit in character.encode_utf16(&mut [0; 2]) {
            let hex = if self.random.chance(50) {
                format!("\\u{unit:04x}")
            } else {
                format!("\\u{unit:04X}")
            };
            self.text += &hex;
        }
    }
}
