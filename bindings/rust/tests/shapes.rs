//! The questions of tests/model/shapes.py, in the file that S2UNION_SHAPES names, with their answers; and what these
//! don't ask.

use std::collections::BTreeSet;
use std::{env, fs};

use s2union::{CellId, CellUnion, Edges, Error, Pair, Position, RegionCoverer, Shape, ShapeFault, Zones};

#[test]
fn shapes() {
    let path = match env::var("S2UNION_SHAPES") {
        Ok(path) => path,
        Err(_) => return eprintln!("S2UNION_SHAPES is not set"),
    };
    let lines = fs::read_to_string(path).unwrap();
    let mut asked = BTreeSet::new();
    for line in lines.lines() {
        let fields: Vec<&str> = line.split('\t').collect();
        let of_one = ["leaf", "middle", "outline", "boundary", "edge_neighbors", "bounds", "area"];
        let given = if of_one.contains(&fields[0]) { 2 } else { 3 };
        let given = if fields[0] == "zones" { 5 } else { given };
        assert_eq!(answer(&fields), fields[given..].join("\t"), "{line:.200}");
        asked.insert(fields[0]);
    }
    assert_eq!(asked.len(), 16);
}

fn answer(fields: &[&str]) -> String {
    let call = fields[0];
    match call {
        "leaf" => {
            let position = positions(fields[1])[0];
            assert_eq!(CellId::from_positions(&[position]), [CellId::from_position(position).ok()]);
            CellId::from_position(position).map_or("!number".to_string(), |leaf| format!("{:x}", leaf.id()))
        }
        "middle" => in_words(&[first_cell(fields).position()]),
        "outline" => {
            let polygons = union(fields[1]).outline().unwrap();
            let rings = polygons.iter().enumerate().flat_map(|(k, rings)| rings.iter().map(move |ring| (k, ring)));
            rings.map(|(k, ring)| format!("{k}:{}", in_words(ring))).collect::<Vec<_>>().join(" ")
        }
        "boundary" => {
            let lines = union(fields[1]).boundary().unwrap();
            lines.iter().map(|line| format!("-:{}", in_words(line))).collect::<Vec<_>>().join(" ")
        }
        "neighbors" => made(first_cell(fields).neighbors(fields[2].parse().unwrap())),
        "edge_neighbors" => listed(&first_cell(fields).edge_neighbors()),
        "vertex_neighbors" => {
            let found = first_cell(fields).vertex_neighbors(fields[2].parse().unwrap());
            found.map_or_else(named, |cells| listed(&cells))
        }
        "expanded" => made(union(fields[1]).expanded(fields[2].parse().unwrap())),
        "area" => format!("{:016x}", union(fields[1]).area().to_bits()),
        "bounds" => union(fields[1]).bounds().unwrap().map_or("none".to_string(), |sides| {
            in_words(&[[sides[0], sides[1]], [sides[2], sides[3]]])
        }),
        "zones" => joined(fields),
        "holds" => {
            let rings = Rings::of(fields[1]);
            let (outer, inner) = coverer(fields[2]).unwrap().coverings(&rings.shape()).unwrap();
            assert!(has_each(&outer, fields[3], true), "a place is missing");
            assert!(has_each(&inner, fields[4], false), "a place outside is in the interior");
            fields[3..].join("\t")
        }
        _ => match coverer(fields[2]) {
            None => "!option".to_string(),
            Some(coverer) if call == "rings" => covered(&coverer, &Rings::of(fields[1]).shape()),
            Some(coverer) if call == "wkb" => covered(&coverer, &Shape::wkb(&bytes(fields[1]))),
            Some(coverer) => {
                let n = numbers(fields[1]);
                let circle = || Shape::circle([n[0], n[1]], n[2]);
                let rectangle = || Shape::rectangle(n[0], n[1], n[2], n[3]);
                covered(&coverer, &if call == "circle" { circle() } else { rectangle() })
            }
        },
    }
}

/// The pairs of zones and places, twice the same.
fn joined(fields: &[&str]) -> String {
    let mut zones = Zones::default();
    for (k, text) in fields[1].split('|').enumerate() {
        let added = match text.split_once(':') {
            Some(("wkb", hex)) => zones.add(&Shape::wkb(&bytes(hex))),
            Some(("box", hex)) => {
                let n = numbers(hex);
                zones.add(&Shape::rectangle(n[0], n[1], n[2], n[3]))
            }
            _ => zones.add(&Rings::of(text).shape()),
        };
        match added {
            Ok(number) => assert_eq!(number, k),
            Err(error) => return named(error),
        }
    }
    let mut ask = || zones.pairs(&numbers(fields[3]), &numbers(fields[4]), fields[2] == "1");
    let (found, again) = (ask(), ask());
    assert_eq!(found, again);
    match found {
        Ok(pairs) => pairs.iter().map(|pair| format!("{}:{}", pair.place, pair.zone)).collect::<Vec<_>>().join(" "),
        Err(Error::Shape { fault: ShapeFault::Number, ring: 0, position }) => format!("!number {position}"),
        Err(error) => named(error),
    }
}

/// Both coverings, if each alone is the same.
fn covered(coverer: &RegionCoverer, shape: &Shape<'_>) -> String {
    let (outer, inner) = (coverer.covering(shape), coverer.interior_covering(shape));
    match coverer.coverings(shape) {
        Ok(both) => {
            assert_eq!((Ok(&both.0), Ok(&both.1)), (outer.as_ref(), inner.as_ref()));
            format!("{}\t{}", shown(&both.0), shown(&both.1))
        }
        Err(error) => {
            assert_eq!((outer, inner), (Err(error), Err(error)));
            named(error)
        }
    }
}

/// The name of an error, with its place if its text has one.
fn named(error: Error) -> String {
    match error {
        Error::Shape { fault, ring, position } => {
            let (name, text) = (format!("{fault:?}").to_lowercase(), error.to_string());
            if text.ends_with(&format!(": at byte {position}")) {
                format!("!{name} {position}")
            } else if text.ends_with(&format!(": ring {ring}, position {position}")) {
                format!("!{name} {ring} {position}")
            } else {
                format!("!{name}")
            }
        }
        other => format!("!{other:?}").to_lowercase(),
    }
}

fn shown(union: &CellUnion) -> String {
    listed(union.cells())
}

fn listed(cells: &[CellId]) -> String {
    cells.iter().map(|cell| format!("{:x}", cell.id())).collect::<Vec<_>>().join(" ")
}

fn made(union: Result<CellUnion, Error>) -> String {
    union.map_or_else(named, |union| shown(&union))
}

fn first_cell(fields: &[&str]) -> CellId {
    union(fields[1]).cells()[0]
}

fn union(text: &str) -> CellUnion {
    CellUnion::from_ids(text.split_whitespace().map(|word| u64::from_str_radix(word, 16).unwrap()).collect::<Vec<_>>())
        .unwrap()
}

fn bytes(text: &str) -> Vec<u8> {
    (0..text.len()).step_by(2).map(|at| u8::from_str_radix(&text[at..at + 2], 16).unwrap()).collect()
}

fn numbers(text: &str) -> Vec<f64> {
    bytes(text).chunks_exact(8).map(|bytes| f64::from_be_bytes(bytes.try_into().unwrap())).collect()
}

fn positions(text: &str) -> Vec<Position> {
    numbers(text).chunks_exact(2).map(|pair| [pair[0], pair[1]]).collect()
}

fn in_words(positions: &[Position]) -> String {
    positions.iter().flatten().map(|number| format!("{:016x}", number.to_bits())).collect()
}

fn has_each(union: &CellUnion, places: &str, wanted: bool) -> bool {
    let leaves: Option<Vec<CellId>> = CellId::from_positions(&positions(places)).into_iter().collect();
    let leaves = leaves.unwrap();
    !leaves.is_empty() && union.contains_cells(&leaves).into_iter().all(|has| has == wanted)
}

/// Options; none of edges that Rust has not.
fn coverer(text: &str) -> Option<RegionCoverer> {
    let words: Vec<&str> = text.split(' ').collect();
    let edges = *[Edges::Map, Edges::Geodesic, Edges::Left].get(words[3].parse::<usize>().unwrap())?;
    let within = numbers(words[5])[0];
    Some(RegionCoverer {
        max_cells: Some(words[0].parse().unwrap()),
        min_level: words[1].parse().unwrap(),
        max_level: words[2].parse().unwrap(),
        within: if within == 0.0 { None } else { Some(within) },
        margin: numbers(words[4])[0],
        edges,
    })
}

/// Polygons and lines of a question.
#[derive(Default)]
struct Rings {
    polygons: Vec<Vec<Vec<Position>>>,
    lines: Vec<Vec<Position>>,
}

impl Rings {
    fn of(text: &str) -> Rings {
        let mut made = Rings::default();
        for word in text.split_whitespace() {
            let (polygon, ring) = word.split_once(':').unwrap();
            match polygon.parse::<usize>() {
                Err(_) => made.lines.push(positions(ring)),
                Ok(number) if number == made.polygons.len() => made.polygons.push(vec![positions(ring)]),
                Ok(number) => made.polygons[number].push(positions(ring)),
            }
        }
        made
    }

    fn shape(&self) -> Shape<'_> {
        match (&self.polygons[..], &self.lines[..]) {
            ([], lines) if lines.iter().all(|line| line.len() == 1) => Shape::points(&lines.concat()),
            ([], lines) => Shape::lines(lines),
            ([rings], []) => Shape::polygon(rings),
            (polygons, []) => Shape::polygons(polygons),
            (polygons, lines) => Shape::collection(polygons, lines),
        }
    }
}

// ---- what the questions don't ask

const SQUARE: [Position; 5] = [[2.0, 48.0], [3.0, 48.0], [3.0, 49.0], [2.0, 49.0], [2.0, 48.0]];

#[test]
fn usual_options() {
    let (usual, square) = (RegionCoverer::default(), Shape::polygon(&[SQUARE]));
    let named = RegionCoverer { max_cells: Some(200), max_level: 30, ..usual };
    assert_eq!(usual.covering(&square), named.covering(&square));
    let within = RegionCoverer { within: Some(500.0), ..usual };
    let many = within.covering(&square).unwrap();
    assert_eq!(RegionCoverer { max_cells: Some(1_000_000), ..within }.covering(&square), Ok(many.clone()));
    assert!(many.len() > 200);
}

#[test]
fn options_out_of_range() {
    let usual = RegionCoverer::default();
    let wrong = [
        RegionCoverer { max_cells: Some(usize::MAX), ..usual },
        RegionCoverer { max_cells: Some(1_000_001), ..usual },
        RegionCoverer { min_level: 31, ..usual },
        RegionCoverer { max_level: u32::MAX, ..usual },
        RegionCoverer { min_level: 3, max_level: 2, ..usual },
        RegionCoverer { within: Some(0.0), ..usual },
        RegionCoverer { within: Some(f64::NAN), ..usual },
        RegionCoverer { margin: f64::INFINITY, ..usual },
    ];
    let error = Err(Error::Shape { fault: ShapeFault::Option, ring: 0, position: 0 });
    for coverer in wrong {
        for shape in [Shape::polygon(&[SQUARE]), Shape::rectangle(2.0, 48.0, 3.0, 49.0), Shape::circle([0.0; 2], 1.0)] {
            assert_eq!(coverer.coverings(&shape), error, "{coverer:?}");
        }
    }
    let text = "a number of cells, a level, a number of meters or a kind of edges is out of range";
    assert_eq!(error.unwrap_err().to_string(), text);
    assert_eq!(RegionCoverer { min_level: 30, ..usual }.covering(&Shape::polygon(&[SQUARE])), Err(Error::Many));
}

#[test]
fn zones() {
    let mut zones = Zones::default();
    assert_eq!(zones.pairs(&[1.0], &[2.0], true), Ok(vec![]));
    assert_eq!(zones.pairs(&[1.0], &[], true), Err(Error::Argument));
    assert_eq!(zones.add(&Shape::circle([0.0; 2], 1.0)), Err(Error::Argument));
    let all: Vec<usize> = (0..100).map(|_| zones.add(&Shape::polygon(&[SQUARE])).unwrap()).collect();
    assert_eq!(all, (0..100).collect::<Vec<_>>());
    let zones = std::sync::Mutex::new(zones);
    std::thread::scope(|threads| {
        for _ in 0..8 {
            threads.spawn(|| {
                let pairs = zones.lock().unwrap().pairs(&[0.0, 2.5], &[0.0, 48.5], false).unwrap();
                assert_eq!(pairs, (0..100).map(|zone| Pair { place: 1, zone }).collect::<Vec<_>>());
            });
        }
    });
}

#[test]
fn a_million_positions() {
    let turn = |k: usize| 2e-6 * std::f64::consts::PI * (k % 1_000_000) as f64;
    let mut ring: Vec<Position> = (0..=1_000_000).map(|k| [10.0 * turn(k).cos(), 10.0 * turn(k).sin()]).collect();
    let coverer = RegionCoverer { max_cells: Some(50), ..Default::default() };
    let outer = coverer.covering(&Shape::polygon(&[&ring])).unwrap();
    assert!(outer.len() <= 50 && outer.contains_cell(CellId::from_position(ring[7]).unwrap()));
    assert!(CellId::from_positions(&ring).iter().all(Option::is_some));
    ring[1_000_000] = [0.0, 0.0];
    let open = Error::Shape { fault: ShapeFault::Open, ring: 0, position: 1_000_000 };
    assert_eq!(coverer.covering(&Shape::polygon(&[&ring])), Err(open));
}
