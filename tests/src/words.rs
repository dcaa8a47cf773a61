//! The words of types, with their codes, depths and permissions.

/// City object types of the first level, codes 1 to 16.
pub const FIRST_LEVEL: [&str; 16] = [
    "Bridge",
    "Building",
    "CityFurniture",
    "CityObjectGroup",
    "GenericCityObject",
    "LandUse",
    "OtherConstruction",
    "PlantCover",
    "Railway",
    "Road",
    "SolitaryVegetationObject",
    "TINRelief",
    "TransportSquare",
    "Tunnel",
    "WaterBody",
    "Waterway",
];

/// City object types of the second level, codes 17 to 33.
pub const SECOND_LEVEL: [&str; 17] = [
    "BridgePart",
    "BridgeInstallation",
    "BridgeConstructiveElement",
    "BridgeRoom",
    "BridgeFurniture",
    "BuildingPart",
    "BuildingInstallation",
    "BuildingConstructiveElement",
    "BuildingFurniture",
    "BuildingStorey",
    "BuildingRoom",
    "BuildingUnit",
    "TunnelPart",
    "TunnelInstallation",
    "TunnelConstructiveElement",
    "TunnelHollowSpace",
    "TunnelFurniture",
];

/// Geometry types, codes 1 to 7.
pub const GEOMETRIES: [&str; 7] = [
    "MultiPoint",
    "MultiLineString",
    "MultiSurface",
    "CompositeSurface",
    "Solid",
    "MultiSolid",
    "CompositeSolid",
];

/// Surface types, codes 1 to 18.
pub const SURFACES: [&str; 18] = [
    "RoofSurface",
    "GroundSurface",
    "WallSurface",
    "ClosureSurface",
    "OuterCeilingSurface",
    "OuterFloorSurface",
    "Window",
    "Door",
    "InteriorWallSurface",
    "CeilingSurface",
    "FloorSurface",
    "WaterSurface",
    "WaterGroundSurface",
    "WaterClosureSurface",
    "TrafficArea",
    "AuxiliaryTrafficArea",
    "TransportationMarking",
    "TransportationHole",
];

/// The code of a surface type that begins with `+`.
pub const OTHER_SURFACE: u16 = 19;

/// The geometry type that is not carried (rule 11).
pub const INSTANCE: &str = "GeometryInstance";

/// The object type that may list children that do not list it (rule 17).
pub const GROUP: &str = "CityObjectGroup";

/// The position of a word in a list, counted from 1.
fn position(words: &[&str], word: &str) -> Option<u16> {
    let index = words.iter().position(|listed| *listed == word)?;
    Some(index as u16 + 1)
}

/// The code of a city object type.
pub fn object_code(word: &str) -> Option<u16> {
    position(&FIRST_LEVEL, word)
        .or_else(|| position(&SECOND_LEVEL, word).map(|code| code + FIRST_LEVEL.len() as u16))
}

/// The city object type of a code.
pub fn object_word(code: u16) -> Option<&'static str> {
    let index = usize::from(code).checked_sub(1)?;
    FIRST_LEVEL.iter().chain(&SECOND_LEVEL).nth(index).copied()
}

/// Whether a city object type is of the second level.
pub fn is_second_level(word: &str) -> bool {
    SECOND_LEVEL.contains(&word)
}

/// The code of a geometry type.
pub fn geometry_code(word: &str) -> Option<u16> {
    position(&GEOMETRIES, word)
}

/// The geometry type of a code.
pub fn geometry_word(code: u16) -> Option<&'static str> {
    let index = usize::from(code).checked_sub(1)?;
    GEOMETRIES.get(index).copied()
}

/// The depth of the boundary and the depth of the semantic values of a geometry type.
pub fn depths(geometry: &str) -> Option<(usize, usize)> {
    match geometry {
        "MultiPoint" => Some((1, 1)),
        "MultiLineString" => Some((2, 1)),
        "MultiSurface" | "CompositeSurface" => Some((3, 1)),
        "Solid" => Some((4, 2)),
        "MultiSolid" | "CompositeSolid" => Some((5, 3)),
        _ => None,
    }
}

/// The code of a surface type: a listed word, or `+` and at least one more byte.
pub fn surface_code(word: &str) -> Option<u16> {
    if word.starts_with('+') && word.len() > 1 {
        return Some(OTHER_SURFACE);
    }
    position(&SURFACES, word)
}

/// The surface type of a code from 1 to 18.
pub fn surface_word(code: u16) -> Option<&'static str> {
    let index = usize::from(code).checked_sub(1)?;
    SURFACES.get(index).copied()
}

/// The codes of the geometry types that a city object type may have (rule 14).
pub fn permitted(object: &str) -> &'static [u16] {
    match object {
        "Bridge" | "BridgePart" | "Tunnel" | "TunnelPart" | "Building" | "BuildingPart"
        | "BuildingStorey" | "BuildingRoom" | "BuildingUnit" => &[3, 4, 5, 7],
        "GenericCityObject" => &[1, 2, 3, 4, 5, 7],
        "LandUse" => &[3, 4],
        "PlantCover" => &[3, 4, 5, 6, 7],
        "TINRelief" => &[4],
        "WaterBody" => &[2, 3, 4, 5, 7],
        _ => &[1, 2, 3, 4, 5, 6, 7],
    }
}

/// Whether a word is a level of detail: a digit, or digit, point, digit (rule 10).
pub fn is_lod(word: &str) -> bool {
    let characters: Vec<char> = word.chars().collect();
    match characters[..] {
        [whole] => whole.is_ascii_digit(),
        [whole, '.', part] => whole.is_ascii_digit() && part.is_ascii_digit(),
        _ => false,
    }
}
