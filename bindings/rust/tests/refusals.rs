//! What is refused, and how unions behave as collections.

use std::collections::{BTreeMap, HashSet};
use std::thread;

use s2union::{CellId, CellUnion, Error, FacePoint, Rect, UnionFile, MOST_COVERING};

const FACE: u64 = 0x1000000000000000;

fn cell(text: &str) -> CellId {
    text.parse().unwrap()
}

fn union(text: &str) -> CellUnion {
    text.parse().unwrap()
}

#[test]
fn numbers_that_are_no_cells() {
    for id in [0, 2, 12 * FACE, u64::MAX] {
        assert_eq!((CellId::from_id(id), CellId::try_from(id)), (None, Err(Error::NoCell { place: 0 })));
        assert_eq!(CellUnion::from_ids(vec![FACE, id]), Err(Error::NoCell { place: 1 }));
    }
    assert_eq!(CellId::try_from(-1i64), Err(Error::NoCell { place: 0 }));
    let west = cell("89c25");
    assert_eq!((west.signed(), CellId::try_from(west.signed())), (-8520159584101335040, Ok(west)));
    assert_eq!((u64::from(west), west.is_leaf(), cell("3").is_face()), (0x89c25 << 44, false, true));
    for text in ["", "x", "2", "6/", "0/4", "0c ", "0c;"] {
        assert_eq!(text.parse::<CellId>(), Err(Error::NoCell { place: 0 }));
    }
    assert_eq!((cell("0C00"), cell("0/1")), (cell("0c"), cell("0c")));
    assert_eq!("04, x".parse::<CellUnion>(), Err(Error::NoCell { place: 4 }));
    assert_eq!(CellUnion::from_normalized(vec![cell("0c"), cell("04")]), Err(Error::NotNormalized));
}

#[test]
fn numbers_out_of_range() {
    let face = union("1");
    assert_eq!((CellId::from_face(6), cell("1").parent(1), cell("1").child(4)), (Err(Error::Argument), None, None));
    assert_eq!((face.denormalized(31, 1, 9), face.denormalized(0, 4, 9)), (Err(Error::Argument), Err(Error::Argument)));
    assert_eq!((face.denormalized(1, 1, 3), face.denormalized(1, 1, 4).unwrap().len()), (Err(Error::Many), 4));
    assert_eq!(face.denormalized(30, 1, usize::MAX), Err(Error::Memory));
    assert_eq!((face.outer(31, 9), face.inner(1, 0)), (Err(Error::Argument), Err(Error::Many)));
    assert_eq!(face.inner(1, 1), Ok(union("1")));
    let row = Rect { face: 0, i0: 0, i1: (1 << 30) - 1, j0: 0, j1: 0 };
    assert_eq!((row.outer(30, usize::MAX), row.outer(3, MOST_COVERING).unwrap().len()), (Err(Error::Many), 8));
    assert_eq!(Rect { face: 6, ..row }.inner(3, 9), Err(Error::Argument));
    assert_eq!((face.outer_in(&row, 31, 9), face.outer_in(&row, 3, 7)), (Err(Error::Argument), Err(Error::Many)));
    assert_eq!(face.inner_in(&Rect { j0: 1, ..row }, 3, 9), Err(Error::Argument));
    assert_eq!(face.outer_in(&row, 3, 8).unwrap().len(), 8);
}

#[test]
fn many_cells_some_of_which_have_no_answer() {
    let cells = [cell("04"), cell("1")];
    assert_eq!((CellId::parents(&cells, 1), CellId::parents(&cells, 31)), (vec![Some(cells[0]), None], vec![None; 2]));
    let points = [(6, 0), (0, 0), (0, 1 << 30)].map(|(face, i)| FacePoint { face, i, j: 0 });
    assert_eq!(CellId::from_points(&points), [None, Some(cell("0000000000000001")), None]);
    assert_eq!((CellId::levels(&[]), CellId::token_fields(&[]).len()), (vec![], 0));
}

#[test]
fn ranges() {
    let (first, last) = (cell("0000000000000001"), cell("bfffffffffffffff"));
    assert_eq!(CellUnion::from_begin_end(first, None).unwrap(), CellUnion::whole_sphere());
    assert_eq!(CellUnion::whole_sphere().to_string(), "1 3 5 7 9 b");
    assert_eq!(CellUnion::from_begin_end(first, Some(first)), Ok(CellUnion::new()));
    assert_eq!(CellUnion::from_begin_end(last, None).unwrap(), CellUnion::from(last));
    let face = cell("1");
    for (begin, end) in [(face, last), (first, cell("3")), (last, first), (face, face)] {
        assert_eq!(CellUnion::from_begin_end(begin, Some(end)), Err(Error::Argument));
    }
    assert_eq!(CellUnion::from_begin_end(face, None), Err(Error::Argument));
    assert_eq!(CellUnion::from_range(cell("3"), face), Err(Error::Argument));
}

#[test]
fn files() {
    let bytes = union("04 0c").encode().unwrap();
    let file = UnionFile::new(&bytes).unwrap();
    assert_eq!((file.cell(2), file.cell(usize::MAX), file.is_empty()), (None, None, false));
    assert!(!UnionFile::new(&union("1").encode().unwrap()).unwrap().is_empty());
    assert_eq!(file.cell(1 << 32), None);
    let mut exchanged = bytes.clone();
    exchanged[9..].rotate_left(8);
    assert_eq!(UnionFile::new(&exchanged).unwrap_err(), Error::NotNormalized);
    assert_eq!(format!("{file:?}"), "{0/0, 0/1}");
    assert_eq!(CellUnion::decode(&exchanged), Ok(union("04 0c")));
    assert_eq!(CellUnion::decode(&[]), Err(Error::FileShort));
}

#[test]
fn as_collections() {
    let (park, none) = (union("04 0c 1c"), CellUnion::new());
    assert_eq!((park.len(), none.is_empty(), park.iter().next_back()), (3, true, Some(cell("1c"))));
    assert_eq!((&park).into_iter().collect::<CellUnion>(), park.clone().into_iter().collect());
    assert_eq!([park.clone(), union("14")].into_iter().collect::<CellUnion>(), union("1"));
    assert_eq!(AsRef::<[u64]>::as_ref(&park), [0x04 << 56, 0x0c << 56, 0x1c << 56]);
    assert_eq!((format!("{park:?}"), format!("[{none}]")), ("{0/0, 0/1, 0/3}".into(), "[]".into()));
    assert_eq!(format!("{:>5}|{:<3}|", union("04"), cell("1")), "   04|1  |");
    assert_eq!(HashSet::from([park.clone(), union("04 0c 1c"), none.clone()]).len(), 2);
    let names = BTreeMap::from([(park.clone(), "park"), (none.clone(), "nothing")]);
    assert_eq!(names.into_values().collect::<Vec<_>>(), ["nothing", "park"]);
    assert!(none.is_subset(&park) && park.is_superset(&none) && !park.is_subset(&union("04")));
    assert_eq!(park.into_cells(), [cell("04"), cell("0c"), cell("1c")]);
}

/// A union of some cells on two faces, which a number picks; the empty union for each fifth one.
fn scattered(number: u32) -> CellUnion {
    let cells = (0..number % 5 * 3).map(|k| {
        let place = (16 * number + k).wrapping_mul(0x9e37_79b9) >> 2;
        let leaf = CellId::from_face_ij(place % 2, place, place.wrapping_mul(13) >> 2).unwrap();
        leaf.parent(3 + place % 4).unwrap()
    });
    cells.collect()
}

#[test]
fn the_union_of_many() {
    let (mut unions, mut in_pairs) = (Vec::new(), CellUnion::new());
    for count in 0..=40 {
        assert_eq!(CellUnion::union_of(&unions).as_ref(), Ok(&in_pairs), "{count}");
        assert_eq!(unions.iter().collect::<CellUnion>(), in_pairs);
        assert_eq!(unions.iter().cloned().collect::<CellUnion>(), in_pairs);
        let next = scattered(count + 1);
        in_pairs = in_pairs.union(&next).unwrap();
        unions.push(next);
    }
    assert!(in_pairs.len() > 50);
    assert_eq!(CellUnion::union_of(vec![CellUnion::new(); 40]), Ok(CellUnion::new()));
}

#[test]
fn unions_have_memory_of_their_size() {
    const COUNT: usize = 1 << 12;
    let face = cell("1");
    for one in [
        CellUnion::from_cells(vec![face; COUNT]),
        CellUnion::from_ids(vec![FACE; COUNT]).unwrap(),
        vec![face; COUNT].into_iter().collect(),
        union(&"1 ".repeat(COUNT)),
    ] {
        assert_eq!(one.len(), 1);
        assert_eq!(one.into_cells().capacity(), 1);
    }
    let ids: Vec<u64> = (0..COUNT as u64).map(|place| place / 3 * 8 + 1).collect(); // each thrice
    let tokens: String = ids.iter().map(|id| format!("{id:016x} ")).collect();
    for third in [CellUnion::from_ids(ids).unwrap(), union(&tokens)] {
        let cells = third.into_cells();
        assert_eq!(cells.len(), COUNT / 3 + 1);
        assert!(cells.capacity() <= cells.len() + cells.len() / 2, "{}", cells.capacity());
    }
    let mut cells = CellUnion::from(face).denormalized(6, 1, COUNT).unwrap();
    cells.retain(|cell| cell.parent(5).unwrap().child(3) != Some(*cell));
    let at = cells.as_ptr();
    let many = CellUnion::from_cells(cells);
    assert_eq!((many.cells().as_ptr(), many.len()), (at, 3 << 10)); // the caller's own memory
}

#[test]
fn shared_by_threads() {
    let park = union("04 0c 1c");
    thread::scope(|scope| {
        for _ in 0..8 {
            scope.spawn(|| {
                for _ in 0..200 {
                    assert_eq!((&CellUnion::whole_sphere() - &park).leaf_count(), (6 << 60) - (3 << 58));
                }
            });
        }
    });
}

#[test]
fn errors_have_texts() {
    let error: Box<dyn std::error::Error> = "x".parse::<CellUnion>().unwrap_err().into();
    assert_eq!(error.to_string(), "not a cell at place 0");
    for (error, text) in [
        (Error::Memory, "out of memory"),
        (Error::NotNormalized, "not a normalized list of cells"),
        (Error::Argument, "argument out of range"),
        (Error::Many, "too many cells"),
        (Error::FileShort, "union file: bytes are missing"),
        (Error::FileVersion, "union file: unknown version"),
        (Error::FileTrailing, "union file: bytes after the last cell"),
        (Error::FileCell, "union file: a number that is not a cell"),
        (Error::Other(-99), "unknown refusal -99"),
    ] {
        assert_eq!(error.to_string(), text);
    }
}

#[test]
fn the_version_is_that_of_the_library() {
    assert_eq!(s2union::version(), env!("CARGO_PKG_VERSION"));
}
