//! The time of operations of the crate for Rust on 2 cells and many: calls [ROUNDS]. A row has the nanoseconds of a
//! call, the least of the rounds; each repeats until it takes 20 ms. A row counts only if its answer is that of plain
//! code.
use std::time::Instant;

use s2union::{CellId, CellUnion};

/// The least time of a call, in nanoseconds.
fn best(rounds: usize, call: &dyn Fn() -> CellUnion) -> f64 {
    let (mut least, mut turns, mut round) = (f64::INFINITY, 1u32, 0);
    while round < rounds {
        let begun = Instant::now();
        for _ in 0..turns {
            std::hint::black_box(call());
        }
        let taken = begun.elapsed().as_nanos() as f64;
        if taken < 20e6 {
            turns *= 2;
            continue;
        }
        round += 1;
        least = least.min(taken / f64::from(turns));
    }
    least
}

/// Cells of levels from one to another, anywhere.
fn cells(count: usize, mut seed: u64, least: u32, most: u32) -> Vec<CellId> {
    let mut next = || {
        seed ^= seed << 13;
        seed ^= seed >> 7;
        seed ^= seed << 17;
        (seed >> 34) as u32
    };
    let drawn = |_| {
        let leaf = CellId::from_face_ij(next() % 6, next(), next()).unwrap();
        leaf.parent(least + next() % (most - least + 1)).unwrap()
    };
    (0..count).map(drawn).collect()
}

/// The cells of one without a leaf: three beside each cell from the leaf up.
fn without(id: CellId, leaf: CellId) -> Vec<CellId> {
    let above = |level| leaf.parent(level).unwrap();
    let child = |level, number| above(level - 1).child(number).unwrap();
    let beside = |level| (0..4).map(move |number| child(level, number)).filter(move |&cell| cell != above(level));
    let mut found: Vec<CellId> = (id.level() + 1..=30).flat_map(beside).collect();
    found.sort();
    found
}

/// A list with a cell more.
fn with(ids: &[CellId], id: CellId) -> Vec<CellId> {
    let place = ids.partition_point(|&other| other < id);
    [&ids[..place], &[id], &ids[place..]].concat()
}

fn main() {
    let rounds = std::env::args().nth(1).map_or(5, |word| word.parse().unwrap());
    let mut wrong = 0;
    for count in [1_000, 100_000, 1_000_000] {
        let large = CellUnion::from_cells(cells(count, 4, 14, 20));
        let apart = cells(100, 6, 24, 24).into_iter().find(|&id| !large.intersects_cell(id)).unwrap();
        let ids = large.cells();
        let holder = ids.len() / 2;
        let inside = ids[holder].range_min();
        let small = CellUnion::from_cells(vec![inside, apart]);
        let rest = [&ids[..holder], &without(ids[holder], inside), &ids[holder + 1..]].concat();
        let rows: [(&str, &dyn Fn() -> CellUnion, Vec<CellId>); 6] = [
            ("small_intersection", &|| &small & &large, vec![inside]),
            ("large_intersection", &|| &large & &small, vec![inside]),
            ("small_difference", &|| &small - &large, vec![apart]),
            ("large_difference", &|| &large - &small, rest.clone()),
            ("small_union", &|| &small | &large, with(ids, apart)),
            ("small_symmetric_difference", &|| &small ^ &large, with(&rest, apart)),
        ];
        for (name, call, wanted) in rows {
            let is_same = call().cells() == wanted;
            wrong += i32::from(!is_same);
            let said = if is_same { "" } else { "  THE ANSWERS DIFFER" };
            println!("{:36} {:12.1} ns{said}", format!("{name}_{count}"), best(rounds, call));
        }
    }
    std::process::exit(i32::from(wrong > 0));
}
