//! A recursive descent reader of JSON (RFC 8259) that keeps the place and the end of every
//! value and name. It reports rules 2, 3 and 4; unpaired surrogate escapes (rule 5) are collected.
//!
//! The descent consumes a character only if the text up to and including it begins some
//! JSON text. It stops at the first character for which this fails, so the place where it
//! stops is the length of the longest such prefix.

use std::ops::Range;

use crate::Refusal;

/// The greatest number of open levels (rule 4).
pub const LEVELS: usize = 32;

/// A JSON value, the offset of its first byte, and the offset past its last byte.
#[derive(Clone, Debug, PartialEq)]
pub struct Node {
    pub place: usize,
    pub end: usize,
    pub value: Value,
}

/// A JSON value. A number is kept as it is written.
#[derive(Clone, Debug, PartialEq)]
pub enum Value {
    Null,
    Bool(bool),
    Number(String),
    String(String),
    Array(Vec<Node>),
    Object(Vec<Member>),
}

/// A member of an object, with the place and the end of its name.
#[derive(Clone, Debug, PartialEq)]
pub struct Member {
    pub name: String,
    pub place: usize,
    pub end: usize,
    pub value: Node,
}

/// A JSON text as a tree, and the backslash of every unpaired surrogate escape in it.
#[derive(Clone, Debug)]
pub struct Document {
    pub root: Node,
    pub unpaired: Vec<usize>,
}

impl Member {
    /// The bytes of the name, with its quotes.
    pub fn name_bytes(&self) -> Range<usize> {
        self.place..self.end
    }
}

impl Node {
    /// The bytes of the value, without the white space around it.
    pub fn bytes(&self) -> Range<usize> {
        self.place..self.end
    }

    /// The value of the member of this name, if this is an object that has one.
    pub fn member(&self, name: &str) -> Option<&Node> {
        self.members()
            .iter()
            .find(|member| member.name == name)
            .map(|member| &member.value)
    }

    /// The members of an object; none for any other kind.
    pub fn members(&self) -> &[Member] {
        match &self.value {
            Value::Object(members) => members,
            _ => &[],
        }
    }

    /// The elements of an array; none for any other kind.
    pub fn items(&self) -> &[Node] {
        match &self.value {
            Value::Array(items) => items,
            _ => &[],
        }
    }

    /// The decoded string, if this is a string.
    pub fn string(&self) -> Option<&str> {
        match &self.value {
            Value::String(string) => Some(string),
            _ => None,
        }
    }

    /// The numeral as written, if this is a number.
    pub fn numeral(&self) -> Option<&str> {
        match &self.value {
            Value::Number(numeral) => Some(numeral),
            _ => None,
        }
    }

    pub fn is_array(&self) -> bool {
        matches!(self.value, Value::Array(_))
    }

    pub fn is_object(&self) -> bool {
        matches!(self.value, Value::Object(_))
    }

    pub fn is_null(&self) -> bool {
        matches!(self.value, Value::Null)
    }
}

/// Reads a text, or refuses it by rule 2, 3 or 4.
pub fn read(text: &[u8]) -> Result<Document, Refusal> {
    read_levels(text, LEVELS)
}

/// Reads a text of at most `levels` levels.
pub fn read_levels(text: &[u8], levels: usize) -> Result<Document, Refusal> {
    // Rule 2: RFC 3629 is what the standard library checks.
    let text = std::str::from_utf8(text).map_err(|error| Refusal::at(2, error.valid_up_to()))?;
    let mut cursor = Cursor {
        text,
        place: 0,
        levels,
        unpaired: Vec::new(),
    };
    let root = cursor.whole_text()?;
    Ok(Document {
        root,
        unpaired: cursor.unpaired,
    })
}

/// A position in the text, with the count of levels that may still be opened there.
struct Cursor<'a> {
    text: &'a str,
    place: usize,
    levels: usize,
    unpaired: Vec<usize>,
}

impl Cursor<'_> {
    /// The next character, if there is one.
    fn peek(&self) -> Option<char> {
        self.text[self.place..].chars().next()
    }

    /// Consumes a character that was peeked.
    fn step(&mut self, character: char) {
        self.place += character.len_utf8();
    }

    /// The refusal of the next character, or of the end (rule 3).
    fn stop<T>(&self) -> Result<T, Refusal> {
        Err(Refusal::at(3, self.place))
    }

    /// Consumes the given character or refuses.
    fn expect(&mut self, wanted: char) -> Result<(), Refusal> {
        match self.peek() {
            Some(found) if found == wanted => {
                self.step(found);
                Ok(())
            }
            _ => self.stop(),
        }
    }

    /// Consumes the given character if it is next.
    fn accept(&mut self, wanted: char) -> bool {
        self.expect(wanted).is_ok()
    }

    /// Consumes white space (RFC 8259, section 2).
    fn skip_space(&mut self) {
        while let Some(space @ (' ' | '\t' | '\n' | '\r')) = self.peek() {
            self.step(space);
        }
    }

    /// JSON-text = ws value ws
    fn whole_text(&mut self) -> Result<Node, Refusal> {
        self.skip_space();
        let root = self.node()?;
        self.skip_space();
        if self.peek().is_some() {
            return self.stop();
        }
        Ok(root)
    }

    fn node(&mut self) -> Result<Node, Refusal> {
        let place = self.place;
        let value = match self.peek() {
            Some('{') => Value::Object(self.object()?),
            Some('[') => Value::Array(self.array()?),
            Some('"') => Value::String(self.string()?),
            Some('-' | '0'..='9') => Value::Number(self.number()?),
            Some('t') => self.literal("true", Value::Bool(true))?,
            Some('f') => self.literal("false", Value::Bool(false))?,
            Some('n') => self.literal("null", Value::Null)?,
            _ => return self.stop(),
        };
        let end = self.place;
        Ok(Node { place, end, value })
    }

    fn literal(&mut self, word: &str, value: Value) -> Result<Value, Refusal> {
        for letter in word.chars() {
            self.expect(letter)?;
        }
        Ok(value)
    }

    /// Opens a level with the given bracket, or refuses it as too deep (rule 4).
    fn open_level(&mut self, bracket: char) -> Result<(), Refusal> {
        if self.levels == 0 {
            return Err(Refusal::at(4, self.place));
        }
        self.expect(bracket)?;
        self.levels -= 1;
        self.skip_space();
        Ok(())
    }

    fn array(&mut self) -> Result<Vec<Node>, Refusal> {
        self.open_level('[')?;
        let mut items = Vec::new();
        if self.peek() != Some(']') {
            items.push(self.node()?);
            self.skip_space();
            while self.accept(',') {
                self.skip_space();
                items.push(self.node()?);
                self.skip_space();
            }
        }
        self.expect(']')?;
        self.levels += 1;
        Ok(items)
    }

    fn object(&mut self) -> Result<Vec<Member>, Refusal> {
        self.open_level('{')?;
        let mut members = Vec::new();
        if self.peek() != Some('}') {
            members.push(self.member()?);
            while self.accept(',') {
                self.skip_space();
                members.push(self.member()?);
            }
        }
        self.expect('}')?;
        self.levels += 1;
        Ok(members)
    }

    /// A name, a colon and a value, with the white space after the value.
    fn member(&mut self) -> Result<Member, Refusal> {
        let place = self.place;
        let name = self.string()?;
        let end = self.place;
        self.skip_space();
        self.expect(':')?;
        self.skip_space();
        let value = self.node()?;
        self.skip_space();
        Ok(Member {
            name,
            place,
            end,
            value,
        })
    }

    /// number = [ minus ] int [ frac ] [ exp ]
    fn number(&mut self) -> Result<String, Refusal> {
        let start = self.place;
        self.accept('-');
        if !self.accept('0') {
            self.digits()?;
        }
        if self.accept('.') {
            self.digits()?;
        }
        if self.accept('e') || self.accept('E') {
            if !self.accept('+') {
                self.accept('-');
            }
            self.digits()?;
        }
        Ok(self.text[start..self.place].to_string())
    }

    /// One or more digits.
    fn digits(&mut self) -> Result<(), Refusal> {
        let start = self.place;
        while let Some(digit @ '0'..='9') = self.peek() {
            self.step(digit);
        }
        if self.place == start {
            return self.stop();
        }
        Ok(())
    }

    /// A string, decoded. Unpaired surrogates are collected and replaced.
    fn string(&mut self) -> Result<String, Refusal> {
        self.expect('"')?;
        let mut units = Units::default();
        loop {
            let place = self.place;
            match self.peek() {
                Some('"') => break,
                Some('\\') => units.push(self.escape()?, place),
                Some(character) if character >= ' ' => {
                    units.push_char(character, place);
                    self.step(character);
                }
                _ => return self.stop(),
            }
        }
        self.expect('"')?;
        Ok(units.decode(&mut self.unpaired))
    }

    /// An escape, as one UTF-16 unit (RFC 8259, section 7).
    fn escape(&mut self) -> Result<u16, Refusal> {
        self.expect('\\')?;
        let Some(letter) = self.peek() else {
            return self.stop();
        };
        let unit = match letter {
            '"' | '\\' | '/' => letter as u16,
            'b' => 0x08,
            'f' => 0x0C,
            'n' => 0x0A,
            'r' => 0x0D,
            't' => 0x09,
            'u' => {
                self.step(letter);
                return self.four_hex_digits();
            }
            _ => return self.stop(),
        };
        self.step(letter);
        Ok(unit)
    }

    fn four_hex_digits(&mut self) -> Result<u16, Refusal> {
        let start = self.place;
        for _ in 0..4 {
            match self.peek() {
                Some(digit) if digit.is_ascii_hexdigit() => self.step(digit),
                _ => return self.stop(),
            }
        }
        let digits = &self.text[start..self.place];
        Ok(u16::from_str_radix(digits, 16).expect("four hexadecimal digits"))
    }
}

/// The UTF-16 units of a string, each with the place of the character or escape it is from.
#[derive(Default)]
struct Units {
    units: Vec<u16>,
    places: Vec<usize>,
}

impl Units {
    fn push(&mut self, unit: u16, place: usize) {
        self.units.push(unit);
        self.places.push(place);
    }

    fn push_char(&mut self, character: char, place: usize) {
        for unit in character.encode_utf16(&mut [0; 2]) {
            self.push(*unit, place);
        }
    }

    /// The string, and the places of the unpaired surrogates (rule 5). A character that is
    /// not escaped gives a whole pair or no surrogate, so only escapes can be unpaired.
    fn decode(&self, unpaired: &mut Vec<usize>) -> String {
        let mut string = String::new();
        let mut index = 0;
        for decoded in char::decode_utf16(self.units.iter().copied()) {
            match decoded {
                Ok(character) => {
                    string.push(character);
                    index += character.len_utf16();
                }
                Err(_) => {
                    unpaired.push(self.places[index]);
                    string.push(char::REPLACEMENT_CHARACTER);
                    index += 1;
                }
            }
        }
        string
    }
}
