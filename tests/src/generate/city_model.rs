//! Models of city quarters that keep rules 9 to 17, and changes of one detail.

use super::random::Random;
use crate::decimal::Pair;
use crate::model::{Geometry, Model, Object, Semantics, Tree};
use crate::words;

/// Parts of IDs: plain words, other scripts, and characters that are escaped in JSON.
const ID_PARTS: [&str; 24] = [
    "house",
    "id-",
    "GUID_7f3a",
    "NL.IMBAG.",
    "0503100000",
    "kiosk",
    "type",
    "children",
    "é",
    "Straße",
    "дом",
    "建物",
    "بيت",
    "🏠",
    "𝄞",
    "\"",
    "\\",
    "/",
    "\n",
    "\u{0}",
    "\u{1f}",
    "\u{7f}",
    "\u{2028}",
    "\u{ffff}",
];

/// Names of surface types beyond the list.
const OTHER_SURFACES: [&str; 6] = [
    "+PatioDoor",
    "+ThermalSurface",
    "+x",
    "++",
    "+dépôt",
    "+\"🏠\\",
];

/// A model of up to `most` objects.
pub fn city_model(random: &mut Random, most: usize) -> Model {
    let vertices = vertices(random);
    let count = random.between(0, most);
    let mut objects: Vec<Object> = Vec::new();
    while objects.len() < count {
        let id = fresh_id(&objects, random);
        objects.push(object(id, vertices.len(), random));
    }
    link_second_level(&mut objects, random);
    link_more(&mut objects, random);
    for object in &mut objects {
        random.shuffle(&mut object.children);
        random.shuffle(&mut object.parents);
    }
    Model {
        transform: std::array::from_fn(|_| pair(random)),
        vertices,
        objects,
    }
}

/// An ID that no object has yet.
pub fn fresh_id(objects: &[Object], random: &mut Random) -> String {
    loop {
        let parts = random.between(0, 3);
        let mut id: String = (0..parts).map(|_| *random.pick(&ID_PARTS)).collect();
        if random.chance(60) {
            id += &random.below(1_000).to_string();
        }
        if objects.iter().all(|object| object.id != id) {
            return id;
        }
    }
}

/// A pair in range: often a usual one, sometimes at a limit.
pub fn pair(random: &mut Random) -> Pair {
    let usual = [
        (1, 0),
        (1, -3),
        (0, 0),
        (1, -2),
        (84_616_468, -3),
        (4_424_987, -1),
    ];
    if random.chance(50) {
        let (m, e) = *random.pick(&usual);
        return Pair { m, e };
    }
    let digits = random.between(1, 15);
    let limit = 10_u64.pow(digits as u32);
    let m = match random.below(4) {
        0 => limit - 1,
        _ => random.next_u64() % limit,
    };
    let e = match random.below(4) {
        0 => -22,
        1 => 22,
        _ => random.between(0, 44) as i16 - 22,
    };
    if m % 10 == 0 {
        return Pair { m: 0, e: 0 };
    }
    let m = m as i64;
    let m = if random.chance(30) { -m } else { m };
    Pair { m, e }
}

fn vertices(random: &mut Random) -> Vec<[i32; 3]> {
    let count = if random.chance(10) {
        0
    } else {
        random.between(1, 24)
    };
    let vertex = |_| std::array::from_fn(|_| coordinate(random));
    (0..count).map(vertex).collect()
}

fn coordinate(random: &mut Random) -> i32 {
    match random.below(10) {
        0 => i32::MIN,
        1 => i32::MAX,
        2 => 0,
        3 => -1,
        4 => random.next_u64() as i32,
        _ => random.below(20_000) as i32 - 5_000,
    }
}

fn object(id: String, vertex_count: usize, random: &mut Random) -> Object {
    let word = if random.chance(60) {
        *random.pick(&words::FIRST_LEVEL)
    } else {
        *random.pick(&words::SECOND_LEVEL)
    };
    let count = *random.pick(&[0, 1, 1, 1, 2, 3]);
    Object {
        id,
        word: word.to_string(),
        children: Vec::new(),
        parents: Vec::new(),
        geometries: (0..count)
            .map(|_| {
                let code = *random.pick(words::permitted(word));
                geometry(code, vertex_count, random)
            })
            .collect(),
    }
}

/// A geometry of the given code.
pub fn geometry(code: u16, vertex_count: usize, random: &mut Random) -> Geometry {
    let word = words::geometry_word(code).expect("a geometry code");
    let (boundary_depth, values_depth) = words::depths(word).expect("a geometry type");
    let boundary = boundary(boundary_depth, vertex_count, random);
    let semantics = random
        .chance(50)
        .then(|| semantics(&boundary, values_depth, random));
    Geometry {
        word: word.to_string(),
        lod: lod(random),
        boundary,
        semantics,
    }
}

fn lod(random: &mut Random) -> String {
    let whole = random.below(10);
    if random.chance(50) {
        format!("{whole}")
    } else {
        format!("{whole}.{}", random.below(10))
    }
}

fn boundary(depth: usize, vertex_count: usize, random: &mut Random) -> Tree<u32> {
    if depth == 0 {
        return Tree::Leaf(random.below(vertex_count) as u32);
    }
    let count = match (depth, vertex_count) {
        (1, 0) => 0,
        (1, _) => *random.pick(&[0, 1, 2, 3, 4, 4, 4, 5]),
        _ => *random.pick(&[0, 1, 1, 2, 2, 3]),
    };
    let element = |_| boundary(depth - 1, vertex_count, random);
    Tree::Array((0..count).map(element).collect())
}

fn semantics(boundary: &Tree<u32>, depth: usize, random: &mut Random) -> Semantics {
    let count = random.between(0, 4);
    let surfaces: Vec<String> = (0..count).map(|_| surface(random)).collect();
    let values = values(boundary, depth, count, random);
    Semantics { surfaces, values }
}

fn surface(random: &mut Random) -> String {
    let list: &[&str] = if random.chance(25) {
        &OTHER_SURFACES
    } else {
        &words::SURFACES
    };
    random.pick(list).to_string()
}

/// Values nested as the boundary is, down to `depth` levels.
fn values(
    boundary: &Tree<u32>,
    depth: usize,
    surface_count: usize,
    random: &mut Random,
) -> Tree<Option<u32>> {
    if depth == 0 {
        let known = surface_count > 0 && random.chance(75);
        return Tree::Leaf(known.then(|| random.below(surface_count) as u32));
    }
    let parts = boundary.items().iter();
    let element = |part| values(part, depth - 1, surface_count, random);
    Tree::Array(parts.map(element).collect())
}

/// Lists `child` in `parent` and the other way round, unless that is so already.
fn link(objects: &mut [Object], parent: usize, child: usize) {
    let parent_id = objects[parent].id.clone();
    let child_id = objects[child].id.clone();
    if !objects[parent].children.contains(&child_id) {
        objects[parent].children.push(child_id);
    }
    if !objects[child].parents.contains(&parent_id) {
        objects[child].parents.push(parent_id);
    }
}

/// Gives every object of the second level a parent, of its own family if there is one.
fn link_second_level(objects: &mut [Object], random: &mut Random) {
    for child in 0..objects.len() {
        let word = objects[child].word.clone();
        if !words::is_second_level(&word) {
            continue;
        }
        let family: Vec<usize> = (0..objects.len())
            .filter(|&other| other != child && same_family(&objects[other].word, &word))
            .collect();
        let parent = if family.is_empty() || random.chance(10) {
            random.below(objects.len())
        } else {
            *random.pick(&family)
        };
        link(objects, parent, child);
    }
}

fn same_family(parent: &str, child: &str) -> bool {
    ["Bridge", "Building", "Tunnel"]
        .iter()
        .any(|family| parent.starts_with(family) && child.starts_with(family))
}

/// Further links on both sides, and children of groups listed on one side only.
fn link_more(objects: &mut [Object], random: &mut Random) {
    for parent in 0..objects.len() {
        let group = objects[parent].word == words::GROUP;
        let count = if group {
            random.below(4)
        } else {
            random.below(5) / 3
        };
        for _ in 0..count {
            let child = random.below(objects.len());
            if group && random.chance(60) {
                let id = objects[child].id.clone();
                if !objects[parent].children.contains(&id) {
                    objects[parent].children.push(id);
                }
            } else {
                link(objects, parent, child);
            }
        }
    }
}

/// A copy of the model with one detail changed at random. It may be equal to the model,
/// or break a rule; the caller tries again then.
pub fn change(model: &Model, random: &mut Random) -> Model {
    let mut changed = model.clone();
    match random.below(4) {
        0 => changed.transform[random.below(6)] = pair(random),
        1 => change_vertices(&mut changed, random),
        _ => change_objects(&mut changed, random),
    }
    changed
}

fn change_vertices(model: &mut Model, random: &mut Random) {
    if model.vertices.is_empty() || random.chance(30) {
        let vertex = std::array::from_fn(|_| coordinate(random));
        let place = random.below(model.vertices.len() + 1);
        model.vertices.insert(place, vertex);
        return;
    }
    let index = random.below(model.vertices.len());
    if random.chance(20) {
        model.vertices.remove(index);
    } else {
        model.vertices[index][random.below(3)] = coordinate(random);
    }
}

fn change_objects(model: &mut Model, random: &mut Random) {
    if model.objects.is_empty() || random.chance(15) {
        let id = fresh_id(&model.objects, random);
        let new = object(id, model.vertices.len(), random);
        let place = random.below(model.objects.len() + 1);
        model.objects.insert(place, new);
        return;
    }
    let index = random.below(model.objects.len());
    let other = random.below(model.objects.len());
    match random.below(6) {
        0 => model.objects.swap(index, other),
        1 => rename(model, index, random),
        2 => change_links(model, index, other, random),
        3 => model.objects[index].word = other_word(random),
        _ => change_geometries(model, index, random),
    }
}

fn other_word(random: &mut Random) -> String {
    let code = random.between(1, 33) as u16;
    words::object_word(code)
        .expect("an object code")
        .to_string()
}

/// Gives an object another ID, in the links too.
fn rename(model: &mut Model, index: usize, random: &mut Random) {
    let new = fresh_id(&model.objects, random);
    let old = std::mem::replace(&mut model.objects[index].id, new.clone());
    for object in &mut model.objects {
        for id in object.children.iter_mut().chain(&mut object.parents) {
            if *id == old {
                *id = new.clone();
            }
        }
    }
}

fn change_links(model: &mut Model, index: usize, other: usize, random: &mut Random) {
    match random.below(4) {
        0 => link(&mut model.objects, index, other),
        1 => random.shuffle(&mut model.objects[index].children),
        2 => random.shuffle(&mut model.objects[index].parents),
        _ => drop(model.objects[index].children.pop()),
    }
}

fn change_geometries(model: &mut Model, index: usize, random: &mut Random) {
    let vertex_count = model.vertices.len();
    let object = &mut model.objects[index];
    if object.geometries.is_empty() || random.chance(15) {
        let code = *random.pick(words::permitted(&object.word));
        object.geometries.push(geometry(code, vertex_count, random));
        return;
    }
    let chosen = random.below(object.geometries.len());
    let geometry = &mut object.geometries[chosen];
    match random.below(6) {
        0 => geometry.lod = lod(random),
        1 => {
            let code = random.between(1, 7) as u16;
            geometry.word = words::geometry_word(code).expect("a code").to_string();
        }
        2 => change_tree(&mut geometry.boundary, vertex_count, random),
        3 => geometry.semantics = None,
        _ => change_semantics(geometry, random),
    }
}

/// Changes a leaf, moves an element from one array to the next, or adds an empty array.
fn change_tree(tree: &mut Tree<u32>, vertex_count: usize, random: &mut Random) {
    match tree {
        Tree::Leaf(index) => *index = random.below(vertex_count.max(1)) as u32,
        Tree::Array(items) if items.is_empty() || random.chance(15) => {
            items.push(Tree::Array(Vec::new()));
        }
        Tree::Array(items) if items.len() > 1 && random.chance(40) => {
            let from = random.below(items.len() - 1);
            let (left, right) = items.split_at_mut(from + 1);
            if let (Tree::Array(left), Tree::Array(right)) = (&mut left[from], &mut right[0]) {
                right.splice(0..0, left.pop());
            }
        }
        Tree::Array(items) => {
            let chosen = random.below(items.len());
            change_tree(&mut items[chosen], vertex_count, random);
        }
    }
}

fn change_semantics(geometry: &mut Geometry, random: &mut Random) {
    let (_, depth) = words::depths(&geometry.word).expect("a geometry type");
    let boundary = &geometry.boundary;
    match &mut geometry.semantics {
        None => geometry.semantics = Some(semantics(boundary, depth, random)),
        Some(semantics) => match random.below(3) {
            0 => semantics.surfaces.push(surface(random)),
            1 if !semantics.surfaces.is_empty() => {
                let chosen = random.below(semantics.surfaces.len());
                semantics.surfaces[chosen] = surface(random);
            }
            _ => {
                let count = semantics.surfaces.len();
                semantics.values = values(boundary, depth, count, random);
            }
        },
    }
}
