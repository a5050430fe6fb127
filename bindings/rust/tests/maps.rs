//! The texts and bytes of tests/model/maps.py, in the file that S2UNION_MAPS names, with their answers.
use std::{env, fs};

use s2union::{cover_geodesic_geojson, cover_geodesic_wkb, cover_geojson, cover_geojson_up_to, cover_wkb};
use s2union::{cover_wkb_up_to, CellUnion, Error};

#[test]
fn maps() {
    let path = match env::var("S2UNION_MAPS") {
        Ok(path) => path,
        Err(_) => return eprintln!("S2UNION_MAPS is not set"),
    };
    let lines = fs::read_to_string(path).unwrap();
    for line in lines.lines() {
        let fields: Vec<&str> = line.split('\t').collect();
        let (bytes, level, most) = (bytes(fields[1]), fields[2].parse().unwrap(), fields[3].parse::<u64>().unwrap());
        let found = match fields[0] {
            "map_wkb" => cover_wkb(&bytes, level, most),
            "map_geojson" => cover_geojson(&bytes, level, most),
            "map_wkb_up_to" => cover_wkb_up_to(&bytes, level, most as usize),
            "map_geojson_up_to" => cover_geojson_up_to(&bytes, level, most as usize),
            "geodesic_wkb" => cover_geodesic_wkb(&bytes, level, most as usize),
            _ => cover_geodesic_geojson(&bytes, level, most as usize),
        };
        assert_eq!(answer(found), fields[4..].join("\t"), "{line:.200}");
    }
    assert!(lines.lines().count() > 500);
}

fn answer(found: Result<(CellUnion, CellUnion), Error>) -> String {
    match found {
        Ok((outer, inner)) => format!("{}\t{}", shown(&outer), shown(&inner)),
        Err(error @ Error::NoShape { fault, byte, part, ring, position }) => {
            let place = format!(": byte {byte}, part {part}, ring {ring}, position {position}");
            assert_eq!(error.to_string(), fault.to_string() + &place);
            format!("!{} {byte} {part} {ring} {position}", snake(&format!("{fault:?}")))
        }
        Err(other) => format!("!{other:?}").to_lowercase(),
    }
}

fn snake(name: &str) -> String {
    let words = name.char_indices().map(|(at, c)| if at > 0 && c.is_uppercase() { format!("_{c}") } else { c.into() });
    words.collect::<String>().to_lowercase()
}

fn shown(union: &CellUnion) -> String {
    union.cells().iter().map(|cell| format!("{:x}", cell.id())).collect::<Vec<_>>().join(" ")
}

fn bytes(hex: &str) -> Vec<u8> {
    (0..hex.len() / 2).map(|at| u8::from_str_radix(&hex[2 * at..2 * at + 2], 16).unwrap()).collect()
}
