//! The texts that are timed. Each is made as long as a limit of bytes allows.

/// A kind of text.
pub struct Kind {
    pub name: &'static str,
    /// The rule that refuses it, 0 for none.
    pub rule: u8,
    pub make: fn(usize) -> String,
}

pub const DENSE: Kind = kind("dense quarter", 0, dense);
pub const MANY: Kind = kind("1,024 small objects", 0, many);
pub const PRETTY: Kind = kind("the same, pretty-printed", 0, |limit| {
    largest(limit, 1024, |n| pretty(&objects(n)))
});

/// The texts that might be slow.
pub const WORST: [Kind; 23] = [
    kind("one object of many names", 0, |limit| {
        largest(limit, usize::MAX, |n| names(n, short))
    }),
    kind("names with one start", 0, |limit| {
        largest(limit, usize::MAX, |n| {
            names(n, |k| format!("{:a<5}{}", "", short(k)))
        })
    }),
    kind("objects listing others", 0, |limit| {
        listing(limit, "CityObjectGroup")
    }),
    kind("objects listing others, unreturned", 17, |limit| {
        listing(limit, "Road")
    }),
    kind("a parent of 1,023", 0, |limit| {
        largest(limit, 1023, |n| family(n, "", short))
    }),
    kind("one link thousands of times", 15, again),
    kind("links to an object of many names", 0, |limit| {
        largest(limit, usize::MAX, |n| {
            let extra: String = (0..3 * n)
                .map(|k| format!("\"childre-{}\":0,", short(k)))
                .collect();
            family(n, &extra, short)
        })
    }),
    kind("IDs that share long prefixes", 0, |limit| {
        largest(limit, 1023, |n| {
            family(n, "", |k| format!("{:a<20}{}", "", short(k)))
        })
    }),
    kind("IDs of one chain, contrived", 0, |limit| {
        largest(limit, 1023, |n| family(n, "", alike))
    }),
    kind("short IDs of one chain, contrived", 0, |limit| {
        let ids = short_alike();
        largest(limit, 1023, |n| family(n, "", |k| ids[k].clone()))
    }),
    kind("names of one chain, contrived", 0, |limit| {
        largest(limit, 4096, |n| names(n, alike))
    }),
    kind("short names of one chain, contrived", 0, |limit| {
        let all = short_alike();
        largest(limit, all.len(), |n| names(n, |k| all[k].clone()))
    }),
    kind("a string of escapes", 0, |limit| {
        largest(limit, usize::MAX, |n| {
            metadata(&format!("\"{}\"", r"\u00e9".repeat(n)))
        })
    }),
    kind("names of escapes", 0, |limit| {
        largest(limit, usize::MAX, |n| names(n, escapes))
    }),
    kind("deep nesting, closed at once", 0, |limit| {
        let nest = format!("{}{}", "[".repeat(30), "]".repeat(30));
        largest(limit, usize::MAX, |n| {
            metadata(&format!("[{}]", vec![&nest[..]; n].join(",")))
        })
    }),
    kind("one long numeral", 0, |limit| {
        largest(limit, usize::MAX, |n| {
            city("", "").replacen("0.001", &format!("0.{}1e{n}", "0".repeat(n)), 1)
        })
    }),
    kind("one long string, an ID", 0, |limit| {
        largest(limit, usize::MAX, |n| {
            city(&format!(r#""{}":{{"type":"Road"}}"#, "i".repeat(n)), "")
        })
    }),
    kind("characters of two bytes", 0, |limit| characters(limit, "é")),
    kind("characters of three bytes", 0, |limit| {
        characters(limit, "\u{800}\u{20AC}\u{D7FF}\u{FFFD}")
    }),
    kind("characters of four bytes", 0, |limit| {
        characters(limit, "\u{1F3E0}\u{40000}\u{10FFFF}")
    }),
    kind("one character of two bytes in 40 bytes", 0, |limit| {
        characters(limit, "Kaiserstra\u{df}e 12, Haus am Markt, Hof 3; ")
    }),
    kind("white space", 3, |limit| " ".repeat(limit)),
    kind("dense quarter, refused at its last number", 13, refused_last),
];

const fn kind(name: &'static str, rule: u8, make: fn(usize) -> String) -> Kind {
    Kind { name, rule, make }
}

/// The longest of the texts of 0, 1, .. most things that has at most `limit` bytes.
fn largest(limit: usize, most: usize, make: impl Fn(usize) -> String) -> String {
    let fits = |n: usize| make(n).len() <= limit;
    let (mut low, mut high) = (0, most.min(limit) + 1);
    while high - low > 1 {
        let middle = (low + high) / 2;
        if fits(middle) {
            low = middle;
        } else {
            high = middle;
        }
    }
    make(low)
}

fn city(objects: &str, vertices: &str) -> String {
    let scale = r#"{"scale":[0.001,0.001,0.001],"translate":[84710.1,446846.25,-3.5]}"#;
    format!(
        r#"{{"type":"CityJSON","version":"2.0","transform":{scale},"CityObjects":{{{objects}}},"vertices":[{vertices}]}}"#
    )
}

fn metadata(value: &str) -> String {
    city("", "").replacen('{', &format!(r#"{{"metadata":{value},"#), 1)
}

/// A string of these characters again and again. Those of three and of four bytes are one for each row of RFC 3629, section 4.
fn characters(limit: usize, some: &str) -> String {
    largest(limit, usize::MAX, |n| {
        metadata(&format!("\"{}\"", some.repeat(n)))
    })
}

/// The n-th of the shortest names.
fn short(n: usize) -> String {
    let letters: Vec<char> = ('!'..='~').filter(|c| *c != '"' && *c != '\\').collect();
    let mut name = String::new();
    let mut left = n + 1;
    while left > 0 {
        name.push(letters[(left - 1) % letters.len()]);
        left = (left - 1) / letters.len();
    }
    name
}

/// The n-th of 4,096 names that go to one chain: `Az` and `B?` have one number, 65 * 59 + 122 and 66 * 59 + 63.
fn alike(n: usize) -> String {
    (0..12).map(|place| ["Az", "B?"][n >> place & 1]).collect()
}

/// All names of four letters that go to the first of the 4,096 chains.
fn short_alike() -> Vec<String> {
    let letters: Vec<u8> = (b'!'..=b'~')
        .filter(|c| *c != b'"' && *c != b'\\')
        .collect();
    let number = |name: &[u8]| name.iter().fold(0, |h, b| (h * 59 + u32::from(*b)) % 4096);
    let mut found = Vec::new();
    for a in &letters {
        for b in &letters {
            for c in &letters {
                let start = [*a, *b, *c];
                let last = (4096 - number(&start) * 59 % 4096) % 4096;
                if let Some(d) = letters.iter().find(|d| u32::from(**d) == last) {
                    found.push(String::from_utf8(vec![*a, *b, *c, *d]).expect("letters"));
                }
            }
        }
    }
    found
}

/// A name of escapes only: four alike, and four that tell n.
fn escapes(n: usize) -> String {
    let digits =
        (0..4).map(|place| ["b", "f", "n", "r", "t", "/", "\\", "\""][n >> (3 * place) & 7]);
    let escapes: Vec<&str> = ["t"; 4].into_iter().chain(digits).collect();
    format!("\\{}", escapes.join("\\"))
}

fn names(count: usize, name: impl Fn(usize) -> String) -> String {
    let members: Vec<String> = (0..count).map(|n| format!("\"{}\":0", name(n))).collect();
    metadata(&format!("{{{}}}", members.join(",")))
}

/// Buildings with many walls, `corners` in all: a prism of 24 corners each, the last with what is left.
fn buildings(corners: usize) -> String {
    let mut objects = Vec::new();
    let mut vertices = Vec::new();
    let mut left = corners;
    while left >= 3 {
        let n = left.min(24);
        left -= n;
        let (id, base) = (objects.len(), vertices.len());
        let ring = |from: usize| {
            (from..from + n)
                .map(|k| k.to_string())
                .collect::<Vec<_>>()
                .join(",")
        };
        let wall = |k: usize| {
            let next = (k + 1) % n;
            format!(
                ",[[{},{},{},{}]]",
                base + k,
                base + next,
                base + n + next,
                base + n + k
            )
        };
        let walls: String = (0..n).map(wall).collect();
        let values = ",2".repeat(n);
        objects.push(format!(
            r#""b{id:03}":{{"type":"Building","attributes":{{"storeys":{},"roof":"flat"}},"geometry":[{{"type":"Solid","lod":"2.2","boundaries":[[[[{}]],[[{}]]{walls}]],"semantics":{{"surfaces":[{{"type":"GroundSurface"}},{{"type":"RoofSurface"}},{{"type":"WallSurface"}}],"values":[[0,1{values}]]}}}}]}}"#,
            1 + id % 7,
            ring(base),
            ring(base + n),
        ));
        for height in [0, 3000 + 2750 * (id % 7)] {
            for k in 0..n {
                let turn = k as f64 * std::f64::consts::TAU / n as f64;
                let x = 41_000.0 * (id % 6) as f64 - 90_000.0 + 15_250.0 * turn.cos();
                let y = 37_500.0 * (id / 6) as f64 + 12_400.0 * turn.sin();
                vertices.push(format!("[{},{},{height}]", x as i64, y as i64));
            }
        }
    }
    city(&objects.join(","), &vertices.join(","))
}

/// A dense quarter of exactly `limit` bytes: what is left over is line feeds.
pub fn dense(limit: usize) -> String {
    let mut text = largest(limit, usize::MAX, buildings);
    text.push_str(&"\n".repeat(limit - text.len()));
    text
}

/// A dense quarter whose last number is too large, so that its end is looked up past all others.
fn refused_last(limit: usize) -> String {
    let large = "2147483648";
    let text = dense(limit - large.len());
    let end = text.rfind("]]").expect("the last vertex");
    let start = text[..end].rfind(',').expect("its last number") + 1;
    format!("{}{large}{}", &text[..start], &text[end..])
}

/// Buildings with a part and an installation each, and street lamps.
fn objects(count: usize) -> String {
    let object = |n: usize| {
        let k = n / 4;
        match n % 4 {
            0 => format!(r#""b{k}":{{"type":"Building","children":["p{k}","i{k}"]}}"#),
            1 => format!(r#""p{k}":{{"type":"BuildingPart","parents":["b{k}"]}}"#),
            2 => format!(r#""i{k}":{{"type":"BuildingInstallation","parents":["b{k}"]}}"#),
            _ => format!(
                r#""f{k}":{{"type":"CityFurniture","geometry":[{{"type":"MultiPoint","lod":"1","boundaries":[{}]}}]}}"#,
                k % 16
            ),
        }
    };
    let listed: Vec<String> = (0..count / 4 * 4).map(object).collect();
    let vertices: Vec<String> = (0..16)
        .map(|k| format!("[{},{},0]", 9170 * k, 4410 * k))
        .collect();
    city(&listed.join(","), &vertices.join(","))
}

fn many(limit: usize) -> String {
    largest(limit, 1024, objects)
}

/// At most 1,024 objects that list as many of the last ones as fit in 64 bytes each.
fn listing(limit: usize, word: &str) -> String {
    let count = ((limit - 200) / 63).min(1024);
    let share = 63;
    let object = |n: usize| {
        let mut text = format!(r#""{}":{{"type":"{word}","children":["#, short(n));
        let start = text.len();
        for other in (0..count).rev().filter(|other| *other != n) {
            let entry = format!("\"{}\"", short(other));
            if text.len() + entry.len() + 4 > share {
                break;
            }
            text.push_str(if text.len() > start { "," } else { "" });
            text.push_str(&entry);
        }
        text + "]}"
    };
    let listed: Vec<String> = (0..count).map(object).collect();
    city(&listed.join(","), "")
}

/// Roads that are the children of the last one, which has other members before its children.
fn family(count: usize, extra: &str, id: impl Fn(usize) -> String) -> String {
    let ids: Vec<String> = (0..count).map(|n| format!("\"{}\"", id(n))).collect();
    let child = |id: &String| format!(r#"{id}:{{"type":"Road","parents":["parent"]}},"#);
    let children: String = ids.iter().map(child).collect();
    city(
        &format!(
            r#"{children}"parent":{{{extra}"type":"Road","children":[{}]}}"#,
            ids.join(",")
        ),
        "",
    )
}

/// Objects of which the first lists all, and then the last one again and again.
fn again(limit: usize) -> String {
    let count = (limit / 48).clamp(2, 1024);
    let ids: Vec<String> = (0..count).map(|n| format!("\"{}\"", short(n))).collect();
    let others: Vec<String> = ids[1..]
        .iter()
        .map(|id| format!(r#"{id}:{{"type":"Road"}}"#))
        .collect();
    largest(limit, usize::MAX, |n| {
        let repeats = format!(",{}", ids[count - 1]).repeat(n);
        let links = format!("{}{repeats}", ids[1..].join(","));
        city(
            &format!(
                r#"{}:{{"type":"Road","children":[{links}]}},{}"#,
                ids[0],
                others.join(",")
            ),
            "",
        )
    })
}

/// A text with each element and member on a line of its own, indented by two.
fn pretty(text: &str) -> String {
    let mut out = String::new();
    let (mut depth, mut quoted, mut escaped) = (0, false, false);
    let line = |depth: usize| format!("\n{}", "  ".repeat(depth));
    for c in text.chars() {
        if quoted {
            out.push(c);
            quoted = escaped || c != '"';
            escaped = !escaped && c == '\\';
            continue;
        }
        match c {
            '[' | '{' => {
                depth += 1;
                out.push(c);
                out += &line(depth);
            }
            ']' | '}' => {
                depth -= 1;
                out += &line(depth);
                out.push(c);
            }
            ',' => {
                out.push(c);
                out += &line(depth);
            }
            ':' => out += ": ",
            _ => {
                quoted = c == '"';
                out.push(c);
            }
        }
    }
    out
}
