//! The questions of tests/model/vectors.py and edges.py, in the file that S2UNION_VECTORS names, with their answers.

use std::collections::BTreeSet;
use std::{env, fs};

use s2union::{CellId, CellUnion, Error, FacePoint, Rect, UnionFile};

const MOST: usize = 100_000; // cells of a list

#[test]
fn vectors() {
    let path = match env::var("S2UNION_VECTORS") {
        Ok(path) => path,
        Err(_) => return eprintln!("S2UNION_VECTORS is not set"),
    };
    let lines = fs::read_to_string(path).unwrap();
    let mut asked = BTreeSet::new();
    for line in lines.lines() {
        let fields: Vec<&str> = line.split('\t').collect();
        let (call, given, want) = (fields[0], Given(&fields[1..fields.len() - 1]), fields[fields.len() - 1]);
        asked.insert(call);
        assert_eq!(given.refused_cells(call).unwrap_or_else(|| given.answer(call)), want, "{line}");
    }
    assert_eq!(asked, METHODS.iter().chain(OTHERS).map(|way| way.0).collect());
}

/// The arguments of a question.
struct Given<'a>(&'a [&'a str]);

impl Given<'_> {
    fn id(&self, place: usize) -> u64 {
        u64::from_str_radix(self.0[place], 16).unwrap()
    }

    fn cell(&self, place: usize) -> CellId {
        CellId::from_id(self.id(place)).unwrap()
    }

    fn ids(&self, place: usize) -> Vec<u64> {
        self.0[place].split_whitespace().map(|text| u64::from_str_radix(text, 16).unwrap()).collect()
    }

    fn cells(&self, place: usize) -> Vec<CellId> {
        self.ids(place).into_iter().map(|id| CellId::try_from(id).unwrap()).collect()
    }

    fn union(&self, place: usize) -> CellUnion {
        CellUnion::from_normalized(self.cells(place)).unwrap()
    }

    fn numbers(&self, place: usize) -> Vec<u32> {
        self.0[place].split_whitespace().map(|text| text.parse().unwrap()).collect()
    }

    fn number(&self, place: usize) -> u32 {
        self.numbers(place)[0]
    }

    fn rect(&self, place: usize) -> Rect {
        let corners = self.numbers(place);
        Rect { face: corners[0], i0: corners[1], i1: corners[2], j0: corners[3], j1: corners[4] }
    }

    /// The file of a union; its bytes are never given back.
    fn file(&self, place: usize) -> UnionFile<'static> {
        UnionFile::new(self.union(place).encode().unwrap().leak()).unwrap()
    }

    fn bytes(&self, place: usize) -> Vec<u8> {
        let digits = self.0[place];
        (0..digits.len()).step_by(2).map(|at| u8::from_str_radix(&digits[at..at + 2], 16).unwrap()).collect()
    }

    fn text(&self, place: usize) -> String {
        String::from_utf8(self.bytes(place)).unwrap()
    }

    /// What is said of numbers that are no cells, where the call's own type takes cells alone.
    fn refused_cells(&self, call: &str) -> Option<String> {
        let places: &[usize] = match call {
            "level" | "face" | "range_min" | "range_max" | "size" | "next" | "previous" | "children" | "token"
            | "debug" | "square" | "parent" => &[0],
            "contains" | "intersects" | "common_ancestor" | "range" => &[0, 1],
            "contains_cell" | "intersects_cell" | "cells_at" | "intersection_with_cell" => &[1],
            "levels" | "range_mins" | "range_maxes" | "token_fields" | "parents" => {
                return CellUnion::from_ids(self.ids(0)).err().map(|error| Err::<bool, _>(error).shown())
            }
            "contains_cells" | "intersects_cells" => {
                return CellUnion::from_ids(self.ids(1)).err().map(|error| Err::<bool, _>(error).shown())
            }
            "leaves" if CellId::from_id(self.id(0)).is_none() => return Some(self.leaves_from_the_end()),
            _ => return None,
        };
        places.iter().find_map(|&place| CellId::try_from(self.id(place)).err()).map(|error| alone(Err(error)))
    }

    /// What S2 says of a range that begins after the last leaf: where it begins there is no `CellId`.
    fn leaves_from_the_end(&self) -> String {
        assert_eq!(CellId::try_from(self.id(0)), Err(Error::NoCell { place: 0 }));
        if self.id(0) == self.id(1) { "" } else { "!argument" }.to_string()
    }

    /// What all ways to answer a question say, which have to agree.
    fn answer(&self, call: &str) -> String {
        let ways = METHODS.iter().chain(OTHERS).filter(|way| way.0 == call);
        let answers: BTreeSet<String> = ways.map(|way| way.1(self)).collect();
        assert!(!answers.is_empty(), "there is no call {call}");
        Vec::from_iter(answers).join(", and ")
    }
}

type Way = (&'static str, fn(&Given<'_>) -> String);

const METHODS: &[Way] = &[
    // questions: all but cells_at, child, denormalised_len, file_cell, file_count, from_debug, from_points, from_token,
    //            levels, parents, square_of, token_fields
];

/// What is asked otherwise, and further ways to answer what is asked above.
const OTHERS: &[Way] = &[
    ("version", |_| s2union::version()),
    ("text_of", |g| {
        let text = refusal(g.0[0]).to_string();
        text.strip_suffix(" at place 7").unwrap_or(&text).to_string()
    }),
    ("is_cell", |g| same(CellId::from_id(g.id(0)).is_some(), CellId::try_from(g.id(0) as i64).is_ok())),
    ("level", |g| {
        let level = g.cell(0).level();
        assert_eq!((g.cell(0).is_face(), g.cell(0).is_leaf()), (level == 0, level == 30));
        level.to_string()
    }),
    ("face", |g| CellId::from_face(g.cell(0).face()).unwrap().face().to_string()),
    ("children", |g| (0..4).map(|number| g.cell(0).child(number)).collect::<Option<Vec<CellId>>>().shown()),
    ("token", |g| g.cell(0).to_string()),
    ("debug", |g| format!("{:?}", g.cell(0))),
    ("from_token", |g| alone(CellId::from_token(&g.text(0)))),
    ("from_debug", |g| alone(CellId::from_debug(&g.text(0)))),
    ("square", |g| {
        let square = g.cell(0).square();
        format!("{} {} {} {}", square.face, square.i, square.j, square.size)
    }),
    ("levels", |g| CellId::levels(&g.cells(0)).iter().map(u8::to_string).collect::<Vec<String>>().join(" ")),
    ("parents", |g| all(CellId::parents(&g.cells(0), g.number(1)))),
    ("token_fields", |g| CellId::token_fields(&g.cells(0)).concat().shown()),
    ("from_points", |g| {
        let numbers = g.numbers(0);
        let points = numbers.chunks(3).map(|part| FacePoint { face: part[0], i: part[1], j: part[2] });
        all(CellId::from_points(&points.collect::<Vec<_>>()))
    }),
    ("normalise", |g| CellUnion::from_ids(g.ids(0)).shown()),
    ("is_union", |g| {
        let cells: Option<Vec<CellId>> = g.ids(0).into_iter().map(CellId::from_id).collect();
        cells.map_or(false, |cells| CellUnion::from_normalized(cells).is_ok()).shown()
    }),
    ("file_check", |g| match UnionFile::new(&g.bytes(0)) {
        Err(Error::NotNormalized) => false.shown(),
        Err(error) => Err::<bool, Error>(error).shown(),
        Ok(file) => {
            let cells = (0..=file.len()).map_while(|place| file.cell(place));
            (cells.collect::<Vec<CellId>>() == file.to_union().unwrap().cells()).shown()
        }
    }),
    ("tokens", |g| g.union(0).to_string().into_bytes().shown()),
    ("from_tokens", |g| g.text(0).parse::<CellUnion>().shown()),
    ("compare", |g| (g.union(0).cmp(&g.union(1)) as i8).to_string()),
    ("union", |g| (g.union(0) | g.union(1)).shown()),
    ("union", |g| [g.union(0), CellUnion::new(), g.union(1)].iter().collect::<CellUnion>().shown()),
    ("intersection", |g| (g.union(0) & g.union(1)).shown()),
    ("difference", |g| (g.union(0) - g.union(1)).shown()),
    ("symmetric_difference", |g| {
        let mut changed = g.union(0);
        changed ^= &g.union(1);
        same(changed, g.union(0) ^ &g.union(1))
    }),
    ("complement", |g| (!g.union(0)).shown()),
    ("intersection_with_cell", |g| g.union(0).intersection_with_cell(g.cell(1)).shown()),
    ("union_intersects", |g| (!g.union(0).is_disjoint(&g.union(1))).shown()),
    ("cells_at", |g| g.union(0).cells_at(g.cell(1)).to_vec().shown()),
    ("leaves", |g| CellUnion::from_begin_end(g.cell(0), CellId::from_id(g.id(1))).shown()),
];

/// The answers to many questions, or the place of the first that has none.
fn all(answers: Vec<Option<CellId>>) -> String {
    match answers.iter().position(Option::is_none) {
        Some(place) => format!("!argument {place}"),
        None => answers.into_iter().flatten().collect::<Vec<CellId>>().shown(),
    }
}

/// A refusal by its name.
fn refusal(name: &str) -> Error {
    match name {
        "memory" => Error::Memory,
        "no_cell" => Error::NoCell { place: 7 },
        "no_union" => Error::NotNormalized,
        "argument" => Error::Argument,
        "many" => Error::Many,
        "file_short" => Error::FileShort,
        "file_version" => Error::FileVersion,
        "file_trailing" => Error::FileTrailing,
        "file_cell" => Error::FileCell,
        _ => panic!("there is no refusal {name}"),
    }
}

/// A value as vectors.py shows it.
trait Shown {
    fn shown(&self) -> String;
}

fn same<T: Shown>(one: T, other: T) -> String {
    let (one, other) = (one.shown(), other.shown());
    if one == other {
        one
    } else {
        format!("{one}, and {other}")
    }
}

/// An answer about one text, which has no place.
fn alone(answer: Result<CellId, Error>) -> String {
    assert!(!matches!(answer, Err(Error::NoCell { place: 1.. })));
    answer.shown().replace(" 0", "")
}

impl Shown for bool {
    fn shown(&self) -> String {
        if *self { "yes" } else { "no" }.to_string()
    }
}

impl Shown for u32 {
    fn shown(&self) -> String {
        self.to_string()
    }
}

impl Shown for u64 {
    fn shown(&self) -> String {
        self.to_string()
    }
}

impl Shown for String {
    fn shown(&self) -> String {
        self.clone()
    }
}

impl Shown for CellId {
    fn shown(&self) -> String {
        format!("{:x}", self.id())
    }
}

impl Shown for CellUnion {
    fn shown(&self) -> String {
        let ids: &[u64] = self.as_ref();
        assert_eq!(ids.len(), self.iter().len());
        self.cells().to_vec().shown()
    }
}

impl Shown for u8 {
    fn shown(&self) -> String {
        format!("{self:02x}")
    }
}

trait Separated: Shown {
    const BETWEEN: &'static str = " ";
}
impl Separated for CellId {}
impl Separated for bool {}
impl Separated for u8 {
    const BETWEEN: &'static str = "";
}

impl<T: Separated> Shown for Vec<T> {
    fn shown(&self) -> String {
        self.iter().map(Shown::shown).collect::<Vec<String>>().join(T::BETWEEN)
    }
}

impl<T: Shown> Shown for Option<T> {
    fn shown(&self) -> String {
        self.as_ref().map_or("none".to_string(), Shown::shown)
    }
}

impl<T: Shown> Shown for Result<T, Error> {
    fn shown(&self) -> String {
        match self {
            Ok(value) => value.shown(),
            Err(Error::NoCell { place }) => format!("!no_cell {place}"),
            Err(Error::Argument) => "!argument".to_string(),
            Err(Error::Many) => "!many".to_string(),
            Err(Error::FileShort) => "!file_short".to_string(),
            Err(Error::FileVersion) => "!file_version".to_string(),
            Err(Error::FileTrailing) => "!file_trailing".to_string(),
            Err(Error::FileCell) => "!file_cell".to_string(),
            Err(error) => error.to_string(),
        }
    }
}
