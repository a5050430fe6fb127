//! The operators, in each form of what they take, what a union is extended by, and the texts of a cell.

use s2union::{CellId, CellUnion};

fn cell(text: &str) -> CellId {
    text.parse().unwrap()
}

fn union(text: &str) -> CellUnion {
    text.parse().unwrap()
}

/// An operator and its method, of unions of which none contains the other.
macro_rules! same {
    ($operator:tt, $assigning:tt, $method:ident) => {
        let (x, y) = (union("04 0c 14"), union("0c 1c 24"));
        let wanted = x.$method(&y).unwrap();
        let found = [&x $operator &y, x.clone() $operator y.clone(), x.clone() $operator &y, &x $operator y.clone()];
        assert!(found.iter().all(|one| *one == wanted), "{found:?}");
        let (mut one, mut other) = (x.clone(), x);
        one $assigning &y;
        other $assigning y;
        assert_eq!([one, other], [wanted.clone(), wanted]);
    };
}

#[test]
fn each_form_of_an_operator() {
    same!(|, |=, union);
    same!(&, &=, intersection);
    same!(-, -=, difference);
    same!(^, ^=, symmetric_difference);
    assert_eq!(union("04 0c 14").difference(&union("0c 1c 24")), Ok(union("04 14")));
    assert_eq!([!union("1"), !&union("1")], [union("3 5 7 9 b"), union("3 5 7 9 b")]);
}

#[test]
fn what_a_union_is_extended_by() {
    let mut park = union("04");
    park.extend([cell("14"), cell("0c")]);
    assert_eq!(park, union("04 0c 14"));
    park.extend([&union("1c 24"), &union("3")]);
    assert_eq!(park, union("1 3"));
    park.extend(vec![union("64 6c"), union("9"), union("74 7c")]);
    park.extend(Vec::<CellUnion>::new());
    assert_eq!(park, union("1 3 7 9"));
}

#[test]
fn texts_and_numbers_of_a_cell() {
    let (low, high) = (cell("0c"), cell("9"));
    assert_eq!(format!("{low:x} {low:016x} {high:#x}"), "c00000000000000 0c00000000000000 0x9000000000000000");
    assert_eq!(format!("{low:>5}|{low:<5?}|{:>5}|", union("0c")), "   0c|0/1  |   0c|");
    assert_eq!((i64::from(low), i64::from(high), u64::from(high)), (3 << 58, -7 << 60, 9 << 60));
}

#[test]
fn unions_that_calls_make_have_memory_of_their_size() {
    let many: CellUnion = (0..1 << 10).map(|k| CellId::from_face_ij(0, 0, 2 * k).unwrap()).collect();
    let most = |one: CellUnion| one.len() + one.len() / 2 >= one.into_cells().capacity();
    assert!(most(&many | &CellUnion::whole_sphere()) && most(&many - &many) && most(&many & &union("3")));
    assert!(most(CellUnion::union_of([&many, &many, &many]).unwrap()) && most(many));
}
