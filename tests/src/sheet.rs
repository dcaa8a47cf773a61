//! The sheet: a model as records of a four-byte payload length, a two-byte kind and the
//! payload, all little-endian.

use std::collections::HashMap;

use crate::decimal::Pair;
use crate::model::{Geometry, Model, Object, Semantics, Tree};
use crate::words;

/// The word that stands for a value of `null`.
const NULL: u32 = 0xFFFF_FFFF;

/// Lays out a model that keeps rules 9 to 17.
pub fn encode(model: &Model) -> Vec<u8> {
    let mut sheet = Vec::new();
    record(&mut sheet, 1, model.transform.iter().flat_map(pair_bytes));
    let coordinates = model.vertices.iter().flatten();
    record(&mut sheet, 2, coordinates.flat_map(|c| c.to_le_bytes()));
    let numbers: HashMap<&str, u32> = (0..)
        .zip(&model.objects)
        .map(|(number, object)| (object.id.as_str(), number))
        .collect();
    for object in &model.objects {
        encode_object(object, &numbers, &mut sheet);
    }
    record(&mut sheet, 9, []);
    sheet
}

fn record(sheet: &mut Vec<u8>, kind: u16, payload: impl IntoIterator<Item = u8>) {
    let payload: Vec<u8> = payload.into_iter().collect();
    let length = u32::try_from(payload.len()).expect("a payload's length in four bytes");
    sheet.extend(length.to_le_bytes());
    sheet.extend(kind.to_le_bytes());
    sheet.extend(payload);
}

fn pair_bytes(pair: &Pair) -> Vec<u8> {
    [&pair.m.to_le_bytes()[..], &pair.e.to_le_bytes()[..]].concat()
}

fn word_bytes(words: Vec<u32>) -> Vec<u8> {
    words.into_iter().flat_map(u32::to_le_bytes).collect()
}

/// Kinds 3, 4 and 5, then the geometries.
fn encode_object(object: &Object, numbers: &HashMap<&str, u32>, sheet: &mut Vec<u8>) {
    let code = words::object_code(&object.word).expect("an object type");
    record(
        sheet,
        3,
        code.to_le_bytes().into_iter().chain(object.id.bytes()),
    );
    let linked = |ids: &[String]| ids.iter().map(|id| numbers[id.as_str()]).collect();
    record(sheet, 4, word_bytes(linked(&object.children)));
    record(sheet, 5, word_bytes(linked(&object.parents)));
    for geometry in &object.geometries {
        encode_geometry(geometry, sheet);
    }
}

/// Kind 6, and with semantics the kinds 7 and 8.
fn encode_geometry(geometry: &Geometry, sheet: &mut Vec<u8>) {
    let code = words::geometry_code(&geometry.word).expect("a geometry type");
    let mut payload = Vec::new();
    payload.extend(code.to_le_bytes());
    payload.extend(lod_code(&geometry.lod).to_le_bytes());
    payload.extend(word_bytes(boundary_words(&geometry.boundary)));
    record(sheet, 6, payload);
    let Some(semantics) = &geometry.semantics else {
        return;
    };
    for surface in &semantics.surfaces {
        let code = words::surface_code(surface).expect("a surface type");
        let name = if code == words::OTHER_SURFACE {
            surface
        } else {
            ""
        };
        record(sheet, 7, code.to_le_bytes().into_iter().chain(name.bytes()));
    }
    let values = semantics.values.leaves().into_iter();
    let words = values.map(|value| value.unwrap_or(NULL)).collect();
    record(sheet, 8, word_bytes(words));
}

/// `2.1` is 2 * 16 + 1, and `2` is 2 * 16 + 15.
fn lod_code(lod: &str) -> u16 {
    let digit = |text: &str| text.parse::<u16>().expect("a digit of a lod");
    match lod.split_once('.') {
        Some((whole, part)) => digit(whole) * 16 + digit(part),
        None => digit(lod) * 16 + 15,
    }
}

/// Each array as its count followed by its elements.
fn boundary_words(boundary: &Tree<u32>) -> Vec<u32> {
    match boundary {
        Tree::Leaf(index) => vec![*index],
        Tree::Array(items) => {
            let count = u32::try_from(items.len()).expect("a count in four bytes");
            let elements = items.iter().flat_map(boundary_words);
            std::iter::once(count).chain(elements).collect()
        }
    }
}

/// Reads a sheet back into its model. Bytes after the record of kind 9 are an error.
pub fn decode(bytes: &[u8]) -> Result<Model, String> {
    let mut records = records(bytes)?;
    let transform = decode_transform(&records.take(1)?)?;
    let vertices = decode_vertices(&records.take(2)?)?;
    let mut drafts = Vec::new();
    while records.next_is(3) {
        drafts.push(decode_object(&mut records)?);
    }
    if !records.take(9)?.is_empty() {
        return Err("the record of kind 9 has a payload".to_string());
    }
    if !records.list.is_empty() {
        return Err("records follow the record of kind 9".to_string());
    }
    let objects = resolve_links(drafts)?;
    Ok(Model {
        transform,
        vertices,
        objects,
    })
}

/// A cursor over the records of a sheet; the next one is the last of `list`.
struct Records {
    list: Vec<(u16, Vec<u8>)>,
}

fn records(mut bytes: &[u8]) -> Result<Records, String> {
    let mut list = Vec::new();
    while !bytes.is_empty() {
        let (length, rest) = split(bytes, 4)?;
        let (kind, rest) = split(rest, 2)?;
        let (payload, rest) = split(rest, little_u32(length) as usize)?;
        list.push((little_u16(kind), payload.to_vec()));
        bytes = rest;
    }
    list.reverse();
    Ok(Records { list })
}

/// The payloads of the records of a kind, in order.
pub fn payloads(bytes: &[u8], kind: u16) -> Result<Vec<Vec<u8>>, String> {
    let records = records(bytes)?.list.into_iter().rev();
    Ok(records.filter(|(found, _)| *found == kind).map(|(_, payload)| payload).collect())
}

fn split(bytes: &[u8], count: usize) -> Result<(&[u8], &[u8]), String> {
    if count > bytes.len() {
        return Err(format!("{count} bytes wanted, {} left", bytes.len()));
    }
    Ok(bytes.split_at(count))
}

fn little_u16(bytes: &[u8]) -> u16 {
    u16::from_le_bytes(bytes.try_into().expect("two bytes"))
}

fn little_u32(bytes: &[u8]) -> u32 {
    u32::from_le_bytes(bytes.try_into().expect("four bytes"))
}

impl Records {
    fn next_is(&self, kind: u16) -> bool {
        self.list.last().is_some_and(|(found, _)| *found == kind)
    }

    /// The payload of the next record, which must be of this kind.
    fn take(&mut self, kind: u16) -> Result<Vec<u8>, String> {
        match self.list.pop() {
            Some((found, payload)) if found == kind => Ok(payload),
            Some((found, _)) => Err(format!("kind {kind} wanted, {found} found")),
            None => Err(format!("kind {kind} wanted at the end")),
        }
    }
}

fn decode_transform(payload: &[u8]) -> Result<[Pair; 6], String> {
    let pairs = payload.chunks(10).map(|bytes| {
        let (m, e) = split(bytes, 8)?;
        let (e, _) = split(e, 2)?;
        Ok(Pair {
            m: i64::from_le_bytes(m.try_into().expect("eight bytes")),
            e: little_u16(e) as i16,
        })
    });
    let pairs: Vec<Pair> = pairs.collect::<Result<_, String>>()?;
    pairs
        .try_into()
        .map_err(|pairs: Vec<Pair>| format!("{} pairs in kind 1", pairs.len()))
}

/// The four-byte words of a payload.
fn payload_words(payload: &[u8]) -> Result<Vec<u32>, String> {
    if !payload.len().is_multiple_of(4) {
        return Err("a payload is not made of four-byte words".to_string());
    }
    Ok(payload.chunks(4).map(little_u32).collect())
}

fn decode_vertices(payload: &[u8]) -> Result<Vec<[i32; 3]>, String> {
    if !payload.len().is_multiple_of(12) {
        return Err("a vertex is cut in kind 2".to_string());
    }
    let words = payload_words(payload)?;
    let vertices = words.chunks(3);
    Ok(vertices
        .map(|v| [v[0] as i32, v[1] as i32, v[2] as i32])
        .collect())
}

/// An object with its links as numbers: children, then parents.
struct Draft {
    object: Object,
    links: [Vec<u32>; 2],
}

fn decode_object(records: &mut Records) -> Result<Draft, String> {
    let payload = records.take(3)?;
    let (code, id) = split(&payload, 2)?;
    let word = words::object_word(little_u16(code)).ok_or("no such object code")?;
    let children = payload_words(&records.take(4)?)?;
    let parents = payload_words(&records.take(5)?)?;
    let mut geometries = Vec::new();
    while records.next_is(6) {
        geometries.push(decode_geometry(records)?);
    }
    let object = Object {
        id: String::from_utf8(id.to_vec()).map_err(|error| error.to_string())?,
        word: word.to_string(),
        children: Vec::new(),
        parents: Vec::new(),
        geometries,
    };
    let links = [children, parents];
    Ok(Draft { object, links })
}

/// Puts the IDs of the linked objects in place of their numbers.
fn resolve_links(drafts: Vec<Draft>) -> Result<Vec<Object>, String> {
    let ids: Vec<String> = drafts.iter().map(|draft| draft.object.id.clone()).collect();
    let resolve = |numbers: &[u32]| -> Result<Vec<String>, String> {
        let found = numbers
            .iter()
            .map(|number| ids.get(*number as usize).cloned());
        found
            .collect::<Option<_>>()
            .ok_or("no object of that number".to_string())
    };
    drafts
        .into_iter()
        .map(|draft| {
            let [children, parents] = &draft.links;
            Ok(Object {
                children: resolve(children)?,
                parents: resolve(parents)?,
                ..draft.object
            })
        })
        .collect()
}

fn decode_geometry(records: &mut Records) -> Result<Geometry, String> {
    let payload = records.take(6)?;
    let (code, rest) = split(&payload, 2)?;
    let (lod, rest) = split(rest, 2)?;
    let word = words::geometry_word(little_u16(code)).ok_or("no such geometry code")?;
    let (boundary_depth, values_depth) = words::depths(word).expect("a geometry type");
    let mut words = payload_words(rest)?.into_iter();
    let boundary = decode_boundary(&mut words, boundary_depth)?;
    if words.next().is_some() {
        return Err("words follow a boundary".to_string());
    }
    let semantics = if records.next_is(7) || records.next_is(8) {
        Some(decode_semantics(records, &boundary, values_depth)?)
    } else {
        None
    };
    Ok(Geometry {
        word: word.to_string(),
        lod: decode_lod(little_u16(lod))?,
        boundary,
        semantics,
    })
}

fn decode_lod(code: u16) -> Result<String, String> {
    match (code / 16, code % 16) {
        (whole @ 0..=9, 15) => Ok(format!("{whole}")),
        (whole @ 0..=9, part @ 0..=9) => Ok(format!("{whole}.{part}")),
        _ => Err(format!("no such lod: {code}")),
    }
}

fn decode_boundary(
    words: &mut impl Iterator<Item = u32>,
    depth: usize,
) -> Result<Tree<u32>, String> {
    let word = words.next().ok_or("a boundary is cut")?;
    if depth == 0 {
        return Ok(Tree::Leaf(word));
    }
    let items = (0..word).map(|_| decode_boundary(words, depth - 1));
    Ok(Tree::Array(items.collect::<Result<_, _>>()?))
}

/// Kinds 7 and 8. The nesting of the values is that of the boundary.
fn decode_semantics(
    records: &mut Records,
    boundary: &Tree<u32>,
    depth: usize,
) -> Result<Semantics, String> {
    let mut surfaces = Vec::new();
    while records.next_is(7) {
        surfaces.push(decode_surface(&records.take(7)?)?);
    }
    let mut words = payload_words(&records.take(8)?)?.into_iter();
    let values = decode_values(&mut words, boundary, depth)?;
    if words.next().is_some() {
        return Err("words follow the values".to_string());
    }
    Ok(Semantics { surfaces, values })
}

fn decode_surface(payload: &[u8]) -> Result<String, String> {
    let (code, name) = split(payload, 2)?;
    let code = little_u16(code);
    if code == words::OTHER_SURFACE {
        return String::from_utf8(name.to_vec()).map_err(|error| error.to_string());
    }
    if !name.is_empty() {
        return Err("a listed surface type has a name".to_string());
    }
    let word = words::surface_word(code).ok_or("no such surface code")?;
    Ok(word.to_string())
}

fn decode_values(
    words: &mut impl Iterator<Item = u32>,
    boundary: &Tree<u32>,
    depth: usize,
) -> Result<Tree<Option<u32>>, String> {
    if depth == 0 {
        let word = words.next().ok_or("the values are cut")?;
        return Ok(Tree::Leaf((word != NULL).then_some(word)));
    }
    let items = boundary.items().iter();
    let items = items.map(|part| decode_values(words, part, depth - 1));
    Ok(Tree::Array(items.collect::<Result<_, _>>()?))
}
