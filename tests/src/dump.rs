//! A sheet as a hex dump, a line for each field: its offset, its bytes and what they say.

use crate::words;

/// The dump of a sheet as `sheet::encode` makes it.
pub fn dump(sheet: &[u8]) -> String {
    let mut dump = Dump { bytes: sheet, at: 0, lines: String::new() };
    while dump.at < sheet.len() {
        let end = dump.number(4, |size| format!("length of the payload: {size}")) as usize;
        let kind = dump.number(2, |kind| format!("kind {kind}: {}", name(kind)));
        let end = dump.at + end;
        dump.payload(kind, end);
    }
    dump.lines
}

/// What a record of a kind has.
fn name(kind: u64) -> &'static str {
    match kind {
        1 => "transform",
        2 => "vertices",
        3 => "a city object",
        4 => "its children",
        5 => "its parents",
        6 => "a geometry",
        7 => "a surface",
        8 => "values",
        9 => "the end",
        _ => panic!("no such kind: {kind}"),
    }
}

/// The bytes, how many of them the lines have, and the lines.
struct Dump<'a> {
    bytes: &'a [u8],
    at: usize,
    lines: String,
}

impl Dump<'_> {
    /// A field of so many bytes; more than eight take several lines.
    fn field(&mut self, count: usize, note: &str) {
        let field = &self.bytes[self.at..self.at + count];
        for (k, part) in field.chunks(8).enumerate() {
            let hex: Vec<String> = part.iter().map(|byte| format!("{byte:02x}")).collect();
            let note = if k == 0 { note } else { "" };
            let line = format!("{:04x}  {:<23}  {note}", self.at + 8 * k, hex.join(" "));
            self.lines += line.trim_end();
            self.lines += "\n";
        }
        self.at += count;
    }

    /// A number without a sign in so many bytes, with what is to be said of it.
    fn number(&mut self, count: usize, note: impl Fn(u64) -> String) -> u64 {
        let mut bytes = [0; 8];
        bytes[..count].copy_from_slice(&self.bytes[self.at..self.at + count]);
        let number = u64::from_le_bytes(bytes);
        self.field(count, &note(number));
        number
    }

    /// A number with a sign.
    fn signed(&mut self, count: usize, name: &str) {
        let unused = 64 - 8 * count as u32;
        let mut bytes = [0; 8];
        bytes[..count].copy_from_slice(&self.bytes[self.at..self.at + count]);
        let number = i64::from_le_bytes(bytes) << unused >> unused;
        self.field(count, &format!("{name} {number}"));
    }

    /// The payload of a record, which ends there.
    fn payload(&mut self, kind: u64, end: usize) {
        match kind {
            1 => self.transform(),
            2 => self.vertices(end),
            3 => self.object(end),
            4 | 5 => self.numbers(end, "object number"),
            6 => self.geometry(),
            7 => self.surface(end),
            8 => self.numbers(end, "surface"),
            _ => {}
        }
        assert_eq!(self.at, end, "the payload of kind {kind}");
    }

    fn transform(&mut self) {
        for part in ["scale", "translate"] {
            for axis in ["x", "y", "z"] {
                self.signed(8, &format!("{part} {axis}: m ="));
                self.signed(2, &format!("{part} {axis}: e ="));
            }
        }
    }

    fn vertices(&mut self, end: usize) {
        for vertex in 0..(end - self.at) / 12 {
            for axis in ["x", "y", "z"] {
                self.signed(4, &format!("vertex {vertex}: {axis} ="));
            }
        }
    }

    fn object(&mut self, end: usize) {
        let word = |code: u64| words::object_word(code as u16).expect("an object type");
        self.number(2, |code| format!("type {code}: {}", word(code)));
        let id = String::from_utf8_lossy(&self.bytes[self.at..end]).to_string();
        self.field(end - self.at, &format!("ID: {id}"));
    }

    fn geometry(&mut self) {
        let word = |code: u64| words::geometry_word(code as u16).expect("a geometry type");
        let code = self.number(2, |code| format!("type {code}: {}", word(code)));
        self.number(2, |lod| match (lod / 16, lod % 16) {
            (major, 15) => format!("lod {major}: {major} * 16 + 15"),
            (major, minor) => format!("lod {major}.{minor}: {major} * 16 + {minor}"),
        });
        let (depth, _) = words::depths(word(code)).expect("a geometry type");
        self.boundary(depth);
    }

    fn boundary(&mut self, depth: usize) {
        if depth == 0 {
            self.number(4, |index| format!("vertex {index}"));
            return;
        }
        let count = self.number(4, |count| format!("array of {count}"));
        for _ in 0..count {
            self.boundary(depth - 1);
        }
    }

    fn surface(&mut self, end: usize) {
        self.number(2, |code| match words::surface_word(code as u16) {
            Some(word) => format!("type {code}: {word}"),
            None => format!("type {code}: an added one"),
        });
        let name = String::from_utf8_lossy(&self.bytes[self.at..end]).to_string();
        self.field(end - self.at, &format!("name: {name}"));
    }

    fn numbers(&mut self, end: usize, name: &str) {
        while self.at < end {
            self.number(4, |number| match number {
                0xFFFF_FFFF => "null".to_string(),
                number => format!("{name} {number}"),
            });
        }
    }
}
