//! The model of an accepted text: what its JSON values say, without places or spellings.

use crate::decimal::{self, Pair};
use crate::json::Node;

/// A whole text. The transform is scale, then translate.
#[derive(Clone, Debug, PartialEq)]
pub struct Model {
    pub transform: [Pair; 6],
    pub vertices: Vec<[i32; 3]>,
    pub objects: Vec<Object>,
}

/// A city object. Absent lists are empty.
#[derive(Clone, Debug, PartialEq)]
pub struct Object {
    pub id: String,
    pub word: String,
    pub children: Vec<String>,
    pub parents: Vec<String>,
    pub geometries: Vec<Geometry>,
}

#[derive(Clone, Debug, PartialEq)]
pub struct Geometry {
    pub word: String,
    pub lod: String,
    pub boundary: Tree<u32>,
    pub semantics: Option<Semantics>,
}

/// The surfaces' types and the values; a value is a surface's number or none.
#[derive(Clone, Debug, PartialEq)]
pub struct Semantics {
    pub surfaces: Vec<String>,
    pub values: Tree<Option<u32>>,
}

/// Nested arrays.
#[derive(Clone, Debug, PartialEq)]
pub enum Tree<T> {
    Leaf(T),
    Array(Vec<Tree<T>>),
}

impl<T: Copy> Tree<T> {
    /// The elements of an array; none for a leaf.
    pub fn items(&self) -> &[Tree<T>] {
        match self {
            Tree::Leaf(_) => &[],
            Tree::Array(items) => items,
        }
    }

    /// The leaves in order.
    pub fn leaves(&self) -> Vec<T> {
        match self {
            Tree::Leaf(leaf) => vec![*leaf],
            Tree::Array(items) => items.iter().flat_map(Tree::leaves).collect(),
        }
    }

    /// Nested arrays of JSON, with each element that is no array read by `leaf`.
    fn from_node(node: &Node, leaf: fn(&Node) -> T) -> Tree<T> {
        if node.is_array() {
            let items = node.items().iter();
            Tree::Array(items.map(|item| Tree::from_node(item, leaf)).collect())
        } else {
            Tree::Leaf(leaf(node))
        }
    }
}

impl Model {
    /// The model of a root that keeps rules 5 to 17.
    pub fn from_root(root: &Node) -> Model {
        let members = required(root, "CityObjects").members();
        Model {
            transform: transform(required(root, "transform")),
            vertices: required(root, "vertices")
                .items()
                .iter()
                .map(vertex)
                .collect(),
            objects: members
                .iter()
                .map(|member| Object::from_node(&member.name, &member.value))
                .collect(),
        }
    }
}

impl Object {
    fn from_node(id: &str, node: &Node) -> Object {
        let geometries = node.member("geometry").map_or(&[][..], Node::items);
        Object {
            id: id.to_string(),
            word: string(required(node, "type")),
            children: strings(node.member("children")),
            parents: strings(node.member("parents")),
            geometries: geometries.iter().map(Geometry::from_node).collect(),
        }
    }
}

impl Geometry {
    fn from_node(node: &Node) -> Geometry {
        Geometry {
            word: string(required(node, "type")),
            lod: string(required(node, "lod")),
            boundary: Tree::from_node(required(node, "boundaries"), index),
            semantics: node.member("semantics").map(Semantics::from_node),
        }
    }
}

impl Semantics {
    fn from_node(node: &Node) -> Semantics {
        let surfaces = required(node, "surfaces").items().iter();
        Semantics {
            surfaces: surfaces
                .map(|surface| string(required(surface, "type")))
                .collect(),
            values: Tree::from_node(required(node, "values"), value),
        }
    }
}

fn required<'a>(node: &'a Node, name: &str) -> &'a Node {
    node.member(name).expect("a required member (rule 8)")
}

fn string(node: &Node) -> String {
    node.string().expect("a string (rule 7)").to_string()
}

fn strings(list: Option<&Node>) -> Vec<String> {
    list.map_or(&[][..], Node::items)
        .iter()
        .map(string)
        .collect()
}

fn integer(node: &Node) -> i128 {
    let numeral = node.numeral().expect("a number (rule 12)");
    decimal::integer(numeral).expect("an integer in range (rules 12 and 13)")
}

fn index(node: &Node) -> u32 {
    u32::try_from(integer(node)).expect("an index in range (rule 13)")
}

fn value(node: &Node) -> Option<u32> {
    (!node.is_null()).then(|| index(node))
}

fn vertex(node: &Node) -> [i32; 3] {
    let coordinate = |item| i32::try_from(integer(item)).expect("a coordinate (rule 13)");
    let items: Vec<i32> = node.items().iter().map(coordinate).collect();
    items.try_into().expect("three coordinates (rule 12)")
}

fn transform(node: &Node) -> [Pair; 6] {
    let arrays = [required(node, "scale"), required(node, "translate")];
    let numbers = arrays.into_iter().flat_map(Node::items);
    let pairs: Vec<Pair> = numbers.map(pair).collect();
    pairs.try_into().expect("six numbers (rule 12)")
}

fn pair(node: &Node) -> Pair {
    let numeral = node.numeral().expect("a number (rule 7)");
    decimal::pair(numeral).expect("a number in range (rule 13)")
}
