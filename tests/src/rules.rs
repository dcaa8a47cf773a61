//! Rules 5 to 17 over a JSON tree. Every fault is collected with the bytes of the value or
//! name that it is about; the least one by rule and then by place is the answer.
//!
//! A rule passes over a part that a lower rule refuses: the lower rule's fault is less.

use std::collections::{HashMap, HashSet};
use std::ops::Range;

use crate::decimal;
use crate::json::{Document, Member, Node, Value};
use crate::words;
use crate::Refusal;

/// The greatest count of city objects (rule 9).
pub const OBJECT_LIMIT: usize = 1_024;

/// The least fault of a text, if it has one.
pub fn least(document: &Document) -> Option<Refusal> {
    faults(document).into_iter().min()
}

/// Every fault of rules 5 to 17.
pub fn faults(document: &Document) -> Vec<Refusal> {
    let parts = Parts::of(&document.root);
    let mut faults = Faults::default();
    for place in &document.unpaired {
        faults.add(5, *place..*place);
    }
    repeated_names(&document.root, &mut faults);
    kinds(&parts, &mut faults);
    required_members(&parts, &mut faults);
    object_count(&parts, &mut faults);
    words_known(&parts, &mut faults);
    types_carried(&parts, &mut faults);
    shapes(&parts, &mut faults);
    ranges(&parts, &mut faults);
    permissions(&parts, &mut faults);
    links(&parts, &mut faults);
    faults.list
}

#[derive(Default)]
struct Faults {
    list: Vec<Refusal>,
}

impl Faults {
    fn add(&mut self, rule: u8, bytes: Range<usize>) {
        self.list.push(Refusal::of(rule, bytes));
    }

    fn check(&mut self, rule: u8, bytes: Range<usize>, kept: bool) {
        if !kept {
            self.add(rule, bytes);
        }
    }
}

/// The parts of a text that the rules name, each found wherever its container has the
/// right kind.
struct Parts<'a> {
    root: &'a Node,
    transform: Option<&'a Node>,
    objects: &'a [Member],
    geometries: Vec<Geometry<'a>>,
}

/// A geometry with the city object that has it.
struct Geometry<'a> {
    object: &'a Node,
    node: &'a Node,
}

impl<'a> Parts<'a> {
    fn of(root: &'a Node) -> Parts<'a> {
        let objects = root.member("CityObjects").map_or(&[][..], Node::members);
        let geometries = objects
            .iter()
            .flat_map(|member| {
                let object = &member.value;
                let nodes = elements(object, "geometry").iter();
                nodes.map(move |node| Geometry { object, node })
            })
            .collect();
        Parts {
            root,
            transform: root.member("transform"),
            objects,
            geometries,
        }
    }

    /// The arrays `scale` and `translate`, where present.
    fn transform_arrays(&self) -> Vec<&'a Node> {
        present(self.transform, &["scale", "translate"])
    }

    /// The count of vertices.
    fn vertex_count(&self) -> usize {
        elements(self.root, "vertices").len()
    }

    /// The semantics of every geometry that has them.
    fn semantics(&self) -> impl Iterator<Item = &'a Node> + '_ {
        self.geometries
            .iter()
            .filter_map(|geometry| geometry.node.member("semantics"))
    }

    /// The surfaces of every geometry's semantics.
    fn surfaces(&self) -> impl Iterator<Item = &'a Node> + '_ {
        self.semantics()
            .flat_map(|semantics| elements(semantics, "surfaces"))
    }
}

impl<'a> Geometry<'a> {
    fn word(&self) -> &'a str {
        word(self.node)
    }

    /// The surfaces' count and the values, if the semantics have values.
    fn values(&self) -> Option<(usize, &'a Node)> {
        let semantics = self.node.member("semantics")?;
        let count = elements(semantics, "surfaces").len();
        Some((count, semantics.member("values")?))
    }
}

/// The elements of an object's member of this name; none if it is absent or no array.
fn elements<'a>(node: &'a Node, name: &str) -> &'a [Node] {
    node.member(name).map_or(&[], Node::items)
}

/// The values of those of the named members that are present.
fn present<'a>(node: Option<&'a Node>, names: &[&str]) -> Vec<&'a Node> {
    names.iter().filter_map(|name| node?.member(name)).collect()
}

/// The `type` of an object, or the empty string, which is no type.
fn word(node: &Node) -> &str {
    node.member("type").and_then(Node::string).unwrap_or("")
}

/// Rule 6, in every object of the text.
fn repeated_names(node: &Node, faults: &mut Faults) {
    let mut earlier = HashSet::new();
    for member in node.members() {
        faults.check(6, member.name_bytes(), earlier.insert(&member.name));
        repeated_names(&member.value, faults);
    }
    for item in node.items() {
        repeated_names(item, faults);
    }
}

#[derive(Clone, Copy)]
enum Kind {
    Object,
    Array,
    String,
    Number,
}

impl Kind {
    fn holds(self, node: &Node) -> bool {
        matches!(
            (self, &node.value),
            (Kind::Object, Value::Object(_))
                | (Kind::Array, Value::Array(_))
                | (Kind::String, Value::String(_))
                | (Kind::Number, Value::Number(_))
        )
    }
}

/// Rule 7.
fn kinds(parts: &Parts, faults: &mut Faults) {
    kind(parts.root, Kind::Object, faults);
    member_kinds(
        parts.root,
        &["transform", "CityObjects"],
        Kind::Object,
        faults,
    );
    member_kinds(parts.root, &["type", "version"], Kind::String, faults);
    member_kinds(parts.root, &["vertices"], Kind::Array, faults);
    if let Some(transform) = parts.transform {
        member_kinds(transform, &["scale", "translate"], Kind::Array, faults);
    }
    for array in parts.transform_arrays() {
        element_kinds(array, Kind::Number, faults);
    }
    for member in parts.objects {
        object_kinds(&member.value, faults);
    }
    for geometry in &parts.geometries {
        kind(geometry.node, Kind::Object, faults);
        member_kinds(geometry.node, &["type", "lod"], Kind::String, faults);
        member_kinds(geometry.node, &["boundaries"], Kind::Array, faults);
        member_kinds(geometry.node, &["semantics"], Kind::Object, faults);
    }
    for semantics in parts.semantics() {
        member_kinds(semantics, &["surfaces", "values"], Kind::Array, faults);
    }
    for surface in parts.surfaces() {
        kind(surface, Kind::Object, faults);
        member_kinds(surface, &["type"], Kind::String, faults);
    }
}

/// Rule 7 for a city object, without its geometries.
fn object_kinds(object: &Node, faults: &mut Faults) {
    kind(object, Kind::Object, faults);
    member_kinds(object, &["type"], Kind::String, faults);
    member_kinds(object, &["attributes"], Kind::Object, faults);
    member_kinds(
        object,
        &["geometry", "children", "parents"],
        Kind::Array,
        faults,
    );
    for list in present(Some(object), &["children", "parents"]) {
        element_kinds(list, Kind::String, faults);
    }
}

fn kind(node: &Node, wanted: Kind, faults: &mut Faults) {
    faults.check(7, node.bytes(), wanted.holds(node));
}

fn member_kinds(node: &Node, names: &[&str], wanted: Kind, faults: &mut Faults) {
    for value in present(Some(node), names) {
        kind(value, wanted, faults);
    }
}

fn element_kinds(array: &Node, wanted: Kind, faults: &mut Faults) {
    for item in array.items() {
        kind(item, wanted, faults);
    }
}

/// Rule 8.
fn required_members(parts: &Parts, faults: &mut Faults) {
    let root_names = ["type", "version", "transform", "CityObjects", "vertices"];
    required(parts.root, &root_names, faults);
    if let Some(transform) = parts.transform {
        required(transform, &["scale", "translate"], faults);
    }
    for member in parts.objects {
        required(&member.value, &["type"], faults);
    }
    for geometry in &parts.geometries {
        required(geometry.node, &["type", "boundaries"], faults);
        if geometry.word() != words::INSTANCE {
            required(geometry.node, &["lod"], faults);
        }
    }
    for semantics in parts.semantics() {
        required(semantics, &["surfaces", "values"], faults);
    }
    for surface in parts.surfaces() {
        required(surface, &["type"], faults);
    }
}

fn required(node: &Node, names: &[&str], faults: &mut Faults) {
    for name in names {
        faults.check(8, node.bytes(), node.member(name).is_some());
    }
}

/// Rule 9.
fn object_count(parts: &Parts, faults: &mut Faults) {
    if let Some(member) = parts.objects.get(OBJECT_LIMIT) {
        faults.add(9, member.name_bytes());
    }
}

/// Rule 10.
fn words_known(parts: &Parts, faults: &mut Faults) {
    known(parts.root, "type", |word| word == "CityJSON", faults);
    known(parts.root, "version", |word| word == "2.0", faults);
    for member in parts.objects {
        known(&member.value, "type", is_object_word, faults);
    }
    for geometry in &parts.geometries {
        known(geometry.node, "type", is_geometry_word, faults);
        known(geometry.node, "lod", words::is_lod, faults);
    }
    for surface in parts.surfaces() {
        known(
            surface,
            "type",
            |word| words::surface_code(word).is_some(),
            faults,
        );
    }
}

fn is_object_word(word: &str) -> bool {
    words::object_code(word).is_some() || word.starts_with('+')
}

fn is_geometry_word(word: &str) -> bool {
    words::geometry_code(word).is_some() || word == words::INSTANCE
}

/// Rule 10 for one member, where it is present.
fn known(node: &Node, name: &str, holds: impl Fn(&str) -> bool, faults: &mut Faults) {
    if let Some(value) = node.member(name) {
        faults.check(10, value.bytes(), value.string().is_some_and(holds));
    }
}

/// Rule 11.
fn types_carried(parts: &Parts, faults: &mut Faults) {
    for member in parts.objects {
        if let Some(value) = member.value.member("type") {
            faults.check(11, value.bytes(), !word(&member.value).starts_with('+'));
        }
    }
    for geometry in &parts.geometries {
        if let Some(value) = geometry.node.member("type") {
            faults.check(11, value.bytes(), geometry.word() != words::INSTANCE);
        }
    }
}

/// Rule 12.
fn shapes(parts: &Parts, faults: &mut Faults) {
    for array in parts.transform_arrays() {
        faults.check(12, array.bytes(), array.items().len() == 3);
    }
    for vertex in elements(parts.root, "vertices") {
        faults.check(12, vertex.bytes(), is_vertex(vertex));
    }
    for geometry in &parts.geometries {
        geometry_shape(geometry, faults);
    }
}

fn is_integer(node: &Node) -> bool {
    node.numeral().is_some_and(decimal::is_integer)
}

fn is_vertex(node: &Node) -> bool {
    node.items().len() == 3 && node.items().iter().all(is_integer)
}

/// Rule 12 for a boundary and, if that is well shaped, for the values.
fn geometry_shape(geometry: &Geometry, faults: &mut Faults) {
    let Some((boundary_depth, values_depth)) = words::depths(geometry.word()) else {
        return;
    };
    let Some(boundary) = geometry.node.member("boundaries") else {
        return;
    };
    let mut wrong = Vec::new();
    wrong_elements(boundary, boundary_depth, is_integer, &mut wrong);
    if wrong.is_empty() {
        if let Some((_, values)) = geometry.values() {
            wrong_elements(values, values_depth, is_value, &mut wrong);
            wrong_counts(values, boundary, values_depth, &mut wrong);
        }
    }
    for node in wrong {
        faults.add(12, node.bytes());
    }
}

fn is_value(node: &Node) -> bool {
    node.is_null() || is_integer(node)
}

/// The elements of an array of the given depth that are no array above the last level, or
/// that do not pass `leaf` at the last level.
fn wrong_elements<'a>(
    array: &'a Node,
    depth: usize,
    leaf: fn(&Node) -> bool,
    wrong: &mut Vec<&'a Node>,
) {
    for item in array.items() {
        let kept = if depth == 1 {
            leaf(item)
        } else {
            item.is_array()
        };
        if !kept {
            wrong.push(item);
        } else if depth > 1 {
            wrong_elements(item, depth - 1, leaf, wrong);
        }
    }
}

/// The arrays of the values whose count is not that of the boundary's array there.
fn wrong_counts<'a>(values: &'a Node, boundary: &Node, depth: usize, wrong: &mut Vec<&'a Node>) {
    if !values.is_array() {
        return;
    }
    if values.items().len() != boundary.items().len() {
        wrong.push(values);
    }
    if depth > 1 {
        for (value, part) in values.items().iter().zip(boundary.items()) {
            wrong_counts(value, part, depth - 1, wrong);
        }
    }
}

/// Rule 13.
fn ranges(parts: &Parts, faults: &mut Faults) {
    for array in parts.transform_arrays() {
        for number in array.items() {
            let pair = number.numeral().and_then(decimal::pair);
            faults.check(13, number.bytes(), pair.is_some());
        }
    }
    let coordinates = i128::from(i32::MIN)..i128::from(i32::MAX) + 1;
    for vertex in elements(parts.root, "vertices") {
        leaf_ranges(vertex, &coordinates, faults);
    }
    let vertices = 0..parts.vertex_count() as i128;
    for geometry in &parts.geometries {
        if let Some(boundary) = geometry.node.member("boundaries") {
            leaf_ranges(boundary, &vertices, faults);
        }
        if let Some((count, values)) = geometry.values() {
            leaf_ranges(values, &(0..count as i128), faults);
        }
    }
}

/// Rule 13 for every number in nested arrays.
fn leaf_ranges(node: &Node, range: &std::ops::Range<i128>, faults: &mut Faults) {
    if let Some(numeral) = node.numeral() {
        let value = decimal::integer(numeral);
        faults.check(
            13,
            node.bytes(),
            value.is_some_and(|value| range.contains(&value)),
        );
    }
    for item in node.items() {
        leaf_ranges(item, range, faults);
    }
}

/// Rule 14.
fn permissions(parts: &Parts, faults: &mut Faults) {
    for geometry in &parts.geometries {
        let Some(value) = geometry.node.member("type") else {
            continue;
        };
        let Some(code) = words::geometry_code(geometry.word()) else {
            continue;
        };
        let permitted = words::permitted(word(geometry.object));
        faults.check(14, value.bytes(), permitted.contains(&code));
    }
}

/// Rules 15, 16 and 17.
fn links(parts: &Parts, faults: &mut Faults) {
    let objects: HashMap<&str, &Node> = parts
        .objects
        .iter()
        .map(|member| (member.name.as_str(), &member.value))
        .collect();
    for member in parts.objects {
        let object = &member.value;
        for name in ["children", "parents"] {
            link_list(elements(object, name), &objects, faults);
        }
        let parentless = elements(object, "parents").is_empty();
        let second = words::is_second_level(word(object));
        faults.check(16, object.bytes(), !(second && parentless));
        one_sided(member, "parents", "children", &objects, faults);
        if word(object) != words::GROUP {
            one_sided(member, "children", "parents", &objects, faults);
        }
    }
}

/// Rule 15 for one list.
fn link_list(list: &[Node], objects: &HashMap<&str, &Node>, faults: &mut Faults) {
    let mut earlier = HashSet::new();
    for entry in list {
        if let Some(id) = entry.string() {
            faults.check(15, entry.bytes(), objects.contains_key(id));
            faults.check(15, entry.bytes(), earlier.insert(id));
        }
    }
}

/// Rule 17 for one list of an object: each object named in it lists this one in return.
fn one_sided(
    member: &Member,
    list: &str,
    other_list: &str,
    objects: &HashMap<&str, &Node>,
    faults: &mut Faults,
) {
    for entry in elements(&member.value, list) {
        let Some(other) = entry.string().and_then(|id| objects.get(id)) else {
            continue;
        };
        let mut listed = elements(other, other_list).iter();
        let returned = listed.any(|back| back.string() == Some(member.name.as_str()));
        faults.check(17, entry.bytes(), returned);
    }
}
