//! Drafts: JSON values before they are spelled, with the role of each value in the text
//! and a mark on the byte that a refusal is expected to name.

use super::random::Random;
use crate::model::{Geometry, Model, Object, Semantics, Tree};

use super::spelling;

/// What a value is in the text. `Index` and `Value` carry the limit that rule 13 sets.
#[derive(Clone, Copy, Debug, PartialEq)]
pub enum Role {
    Plain,
    Root,
    RootType,
    Version,
    Transform,
    TransformArray,
    TransformNumber,
    Vertices,
    Vertex,
    Coordinate,
    Objects,
    Object,
    ObjectType,
    Attributes,
    LinkList,
    Link,
    Geometries,
    Geometry,
    GeometryType,
    Lod,
    Boundary,
    BoundaryPart,
    Index(usize),
    Semantics,
    Surfaces,
    Surface,
    SurfaceType,
    Values,
    ValuesPart,
    Value(usize),
}

impl Role {
    /// Every role; the limits are 0.
    pub const ALL: [Role; 30] = [
        Role::Plain,
        Role::Root,
        Role::RootType,
        Role::Version,
        Role::Transform,
        Role::TransformArray,
        Role::TransformNumber,
        Role::Vertices,
        Role::Vertex,
        Role::Coordinate,
        Role::Objects,
        Role::Object,
        Role::ObjectType,
        Role::Attributes,
        Role::LinkList,
        Role::Link,
        Role::Geometries,
        Role::Geometry,
        Role::GeometryType,
        Role::Lod,
        Role::Boundary,
        Role::BoundaryPart,
        Role::Index(0),
        Role::Semantics,
        Role::Surfaces,
        Role::Surface,
        Role::SurfaceType,
        Role::Values,
        Role::ValuesPart,
        Role::Value(0),
    ];

    /// The role without its limit.
    pub fn kind(self) -> Role {
        match self {
            Role::Index(_) => Role::Index(0),
            Role::Value(_) => Role::Value(0),
            other => other,
        }
    }
}

/// A value to be spelled. The mark is an offset from the value's first byte.
#[derive(Clone, Debug)]
pub struct Draft {
    pub role: Role,
    pub body: Body,
    pub mark: Option<usize>,
}

/// `Raw` is spelled as it stands, `Text` as a string in any spelling.
#[derive(Clone, Debug)]
pub enum Body {
    Raw(String),
    Text(String),
    Array(Vec<Draft>),
    Object(Vec<Entry>),
}

#[derive(Clone, Debug)]
pub struct Entry {
    pub name: Draft,
    pub value: Draft,
}

impl Draft {
    pub fn new(role: Role, body: Body) -> Draft {
        Draft {
            role,
            body,
            mark: None,
        }
    }

    pub fn raw(role: Role, raw: impl Into<String>) -> Draft {
        Draft::new(role, Body::Raw(raw.into()))
    }

    pub fn text(role: Role, text: impl Into<String>) -> Draft {
        Draft::new(role, Body::Text(text.into()))
    }

    fn array(role: Role, items: impl IntoIterator<Item = Draft>) -> Draft {
        Draft::new(role, Body::Array(items.into_iter().collect()))
    }

    /// Replaces the body and marks the value.
    pub fn replace(&mut self, body: Body, mark: usize) {
        self.body = body;
        self.mark = Some(mark);
    }

    pub fn entries(&mut self) -> Option<&mut Vec<Entry>> {
        match &mut self.body {
            Body::Object(entries) => Some(entries),
            _ => None,
        }
    }

    pub fn items(&mut self) -> Option<&mut Vec<Draft>> {
        match &mut self.body {
            Body::Array(items) => Some(items),
            _ => None,
        }
    }

    /// The value of the member of this name.
    pub fn member(&mut self, name: &str) -> Option<&mut Draft> {
        let entries = self.entries()?.iter_mut();
        let mut named = entries.filter(|entry| entry.is_named(name));
        named.next().map(|entry| &mut entry.value)
    }

    /// The role of the marked value or name, this one or one within.
    pub fn marked(&self) -> Option<Role> {
        if self.mark.is_some() {
            return Some(self.role);
        }
        match &self.body {
            Body::Raw(_) | Body::Text(_) => None,
            Body::Array(items) => items.iter().find_map(Draft::marked),
            Body::Object(entries) => {
                let mut entries = entries.iter();
                entries.find_map(|entry| entry.name.marked().or_else(|| entry.value.marked()))
            }
        }
    }

    /// The count of values for which `wanted` holds, this one and those within.
    fn count(&self, wanted: &dyn Fn(&Draft) -> bool) -> usize {
        let inner: usize = match &self.body {
            Body::Raw(_) | Body::Text(_) => 0,
            Body::Array(items) => items.iter().map(|item| item.count(wanted)).sum(),
            Body::Object(entries) => entries.iter().map(|entry| entry.value.count(wanted)).sum(),
        };
        inner + usize::from(wanted(self))
    }

    /// The value for which `wanted` holds after `left` such values, and the count of
    /// levels open around it.
    fn nth(
        &mut self,
        wanted: &dyn Fn(&Draft) -> bool,
        left: &mut usize,
        open: usize,
    ) -> Option<(&mut Draft, usize)> {
        if wanted(self) {
            if *left == 0 {
                return Some((self, open));
            }
            *left -= 1;
        }
        match &mut self.body {
            Body::Raw(_) | Body::Text(_) => None,
            Body::Array(items) => items
                .iter_mut()
                .find_map(|item| item.nth(wanted, left, open + 1)),
            Body::Object(entries) => entries
                .iter_mut()
                .find_map(|entry| entry.value.nth(wanted, left, open + 1)),
        }
    }

    /// A value chosen at random among those for which `wanted` holds, and the count of
    /// levels open around it.
    pub fn pick(
        &mut self,
        random: &mut Random,
        wanted: &dyn Fn(&Draft) -> bool,
    ) -> Option<(&mut Draft, usize)> {
        let count = self.count(wanted);
        if count == 0 {
            return None;
        }
        self.nth(wanted, &mut random.below(count), 0)
    }
}

impl Entry {
    pub fn new(name: &str, value: Draft) -> Entry {
        Entry {
            name: Draft::text(Role::Plain, name),
            value,
        }
    }

    pub fn is_named(&self, name: &str) -> bool {
        matches!(&self.name.body, Body::Text(text) if text == name)
    }
}

/// Drafts a model. Member orders, numerals and the unexamined members are random;
/// `extras` is how likely, of a hundred, an unexamined member is added.
pub fn draft(model: &Model, extras: usize, random: &mut Random) -> Draft {
    let mut root = vec![
        Entry::new("type", Draft::text(Role::RootType, "CityJSON")),
        Entry::new("version", Draft::text(Role::Version, "2.0")),
        Entry::new("transform", transform(model, extras, random)),
        Entry::new("CityObjects", objects(model, extras, random)),
        Entry::new("vertices", vertices(model, random)),
    ];
    let names = [
        "metadata",
        "appearance",
        "extensions",
        "geometry-templates",
        "lod",
        "Type",
    ];
    add_extras(&mut root, &names, extras, random);
    object(Role::Root, root, random)
}

/// An object with its members in random order.
fn object(role: Role, mut entries: Vec<Entry>, random: &mut Random) -> Draft {
    random.shuffle(&mut entries);
    Draft::new(role, Body::Object(entries))
}

/// Adds some of the named members, with random values.
fn add_extras(entries: &mut Vec<Entry>, names: &[&str], extras: usize, random: &mut Random) {
    for name in names {
        if random.chance(extras) {
            entries.push(Entry::new(name, anything(3, random)));
        }
    }
}

/// A value of any kind, with at most `levels` levels.
pub fn anything(levels: usize, random: &mut Random) -> Draft {
    let simple = [
        "null",
        "true",
        "false",
        "0",
        "-0",
        "1e400",
        "0.5",
        "-12.50E+07",
        "123456789012345678901",
    ];
    let texts = [
        "",
        "Delft",
        "1970-01-01",
        "type",
        "+",
        "\u{1F3E0}\n",
        "\"\\/",
        "GeometryInstance",
    ];
    let names = ["type", "lod", "children", "values", "a", "b", "", "naïve"];
    match random.below(if levels == 0 { 4 } else { 8 }) {
        0 | 1 => Draft::raw(Role::Plain, *random.pick(&simple)),
        2 | 3 => Draft::text(Role::Plain, *random.pick(&texts)),
        4 | 5 => {
            let count = random.below(4);
            Draft::array(
                Role::Plain,
                (0..count).map(|_| anything(levels - 1, random)),
            )
        }
        _ => {
            let mut entries = Vec::new();
            for name in names {
                if random.chance(25) {
                    entries.push(Entry::new(name, anything(levels - 1, random)));
                }
            }
            object(Role::Plain, entries, random)
        }
    }
}

fn transform(model: &Model, extras: usize, random: &mut Random) -> Draft {
    let mut array = |range: std::ops::Range<usize>| {
        let numbers = model.transform[range].iter();
        let numerals = numbers.map(|pair| spelling::pair(*pair, random));
        let drafts = numerals.map(|numeral| Draft::raw(Role::TransformNumber, numeral));
        Draft::array(Role::TransformArray, drafts)
    };
    let mut entries = vec![
        Entry::new("scale", array(0..3)),
        Entry::new("translate", array(3..6)),
    ];
    add_extras(&mut entries, &["rotate", "type"], extras, random);
    object(Role::Transform, entries, random)
}

fn vertices(model: &Model, random: &mut Random) -> Draft {
    let vertices = model.vertices.iter().map(|vertex| {
        let numerals = vertex.map(|c| spelling::integer(i64::from(c), random));
        let drafts = numerals.map(|numeral| Draft::raw(Role::Coordinate, numeral));
        Draft::array(Role::Vertex, drafts)
    });
    Draft::array(Role::Vertices, vertices)
}

/// The city objects stay in the order of the model.
fn objects(model: &Model, extras: usize, random: &mut Random) -> Draft {
    let count = model.vertices.len();
    let objects = model.objects.iter();
    let entry = |object: &Object| {
        let value = city_object(object, count, extras, random);
        Entry::new(&object.id, value)
    };
    Draft::new(Role::Objects, Body::Object(objects.map(entry).collect()))
}

fn city_object(city_object: &Object, count: usize, extras: usize, random: &mut Random) -> Draft {
    let mut entries = vec![Entry::new(
        "type",
        Draft::text(Role::ObjectType, city_object.word.as_str()),
    )];
    for (name, ids) in [
        ("children", &city_object.children),
        ("parents", &city_object.parents),
    ] {
        if !ids.is_empty() || random.chance(30) {
            let links = ids.iter().map(|id| Draft::text(Role::Link, id.as_str()));
            entries.push(Entry::new(name, Draft::array(Role::LinkList, links)));
        }
    }
    let geometries = &city_object.geometries;
    if !geometries.is_empty() || random.chance(30) {
        let drafts = geometries
            .iter()
            .map(|shape| geometry(shape, count, extras, random));
        let array = Draft::array(Role::Geometries, drafts);
        entries.push(Entry::new("geometry", array));
    }
    if random.chance(extras) {
        entries.push(Entry::new("attributes", attributes(random)));
    }
    let names = [
        "geographicalExtent",
        "address",
        "lod",
        "children_roles",
        "boundaries",
    ];
    add_extras(&mut entries, &names, extras, random);
    object(Role::Object, entries, random)
}

fn attributes(random: &mut Random) -> Draft {
    let mut entries = Vec::new();
    let names = [
        "type",
        "yearOfConstruction",
        "geometry",
        "höhe",
        "semantics",
    ];
    add_extras(&mut entries, &names, 40, random);
    object(Role::Attributes, entries, random)
}

fn geometry(geometry: &Geometry, count: usize, extras: usize, random: &mut Random) -> Draft {
    let boundary = tree(
        &geometry.boundary,
        [Role::Boundary, Role::BoundaryPart],
        &mut |index| {
            let numeral = spelling::integer(i64::from(index), random);
            Draft::raw(Role::Index(count), numeral)
        },
    );
    let mut entries = vec![
        Entry::new(
            "type",
            Draft::text(Role::GeometryType, geometry.word.as_str()),
        ),
        Entry::new("lod", Draft::text(Role::Lod, geometry.lod.as_str())),
        Entry::new("boundaries", boundary),
    ];
    if let Some(meaning) = &geometry.semantics {
        let draft = semantics(meaning, extras, random);
        entries.push(Entry::new("semantics", draft));
    }
    let names = ["material", "texture", "template", "values", "children"];
    add_extras(&mut entries, &names, extras, random);
    object(Role::Geometry, entries, random)
}

fn semantics(semantics: &Semantics, extras: usize, random: &mut Random) -> Draft {
    let count = semantics.surfaces.len();
    let names = ["children", "parent", "slope", "parents", "lod"];
    let mut surfaces = Vec::new();
    for word in &semantics.surfaces {
        let word = Draft::text(Role::SurfaceType, word.as_str());
        let mut entries = vec![Entry::new("type", word)];
        add_extras(&mut entries, &names, extras, random);
        surfaces.push(object(Role::Surface, entries, random));
    }
    let values = tree(
        &semantics.values,
        [Role::Values, Role::ValuesPart],
        &mut |value| match value {
            Some(value) => {
                let numeral = spelling::integer(i64::from(value), random);
                Draft::raw(Role::Value(count), numeral)
            }
            None => Draft::raw(Role::Value(count), "null"),
        },
    );
    let mut entries = vec![
        Entry::new("surfaces", Draft::array(Role::Surfaces, surfaces)),
        Entry::new("values", values),
    ];
    add_extras(&mut entries, &["type", "boundaries"], extras, random);
    object(Role::Semantics, entries, random)
}

/// Nested arrays, with the role of the outermost and the role of those within.
fn tree<T: Copy>(tree_: &Tree<T>, roles: [Role; 2], leaf: &mut dyn FnMut(T) -> Draft) -> Draft {
    match tree_ {
        Tree::Leaf(value) => leaf(*value),
        Tree::Array(items) => {
            let inner = [roles[1], roles[1]];
            let drafts: Vec<Draft> = items.iter().map(|item| tree(item, inner, leaf)).collect();
            Draft::array(roles[0], drafts)
        }
    }
}
