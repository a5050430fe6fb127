//! Lists that calls make or work in, in memory that they are given here.

use std::mem::MaybeUninit;

use crate::calls::{self, rooms, MOST_DEBUG, MOST_TOKEN};
use crate::error::Error;
use crate::{Direction, Point, Rect};

/// Calls that make a list, in some room: `listed` gives more if it doesn't suffice.
macro_rules! made {
    ($($name:ident($($argument:ident: $kind:ty),*) -> [$made:ty] in $room:expr;)*) => {
        $(pub fn $name($($argument: $kind),*) -> Result<Vec<$made>, Error> {
            listed($room, |out, len| calls::$name($($argument,)* out, len))
        })*
    };
}
calls::makers!(made);
made! {
    token(id: u64) -> [u8] in MOST_TOKEN;
    debug(id: u64) -> [u8] in MOST_DEBUG;
}

/// The cells that are cut, of which there are as many as `denormalised_len` answers: that is the room.
pub fn denormalised(ids: &[u64], min: u32, modulus: u32, room: usize) -> Result<Vec<u64>, Error> {
    listed(room, |out, len| calls::denormalised(ids, min, modulus, out, len))
}

/// The union of lists that lie one after another, each of which ends at the next of `ends`.
pub fn union_of_many(ids: &[u64], ends: &[usize]) -> Result<Vec<u64>, Error> {
    let mut work = roomy(2 * ids.len())?;
    let mut made = roomy(ids.len())?;
    let mut len = 0;
    let status = calls::union_of_many(ids, ends, work.spare_capacity_mut(), made.spare_capacity_mut(), &mut len);
    Error::of(status, len)?;
    // SAFETY: the call succeeded, so it has written this many.
    unsafe { made.set_len(len) };
    trim(&mut made);
    Ok(made)
}

/// The list that a call makes in this room, or in what it needs.
pub fn listed<T: Copy>(
    room: usize,
    mut call: impl FnMut(&mut [MaybeUninit<T>], &mut usize) -> i32,
) -> Result<Vec<T>, Error> {
    let (mut made, mut len) = (roomy(room)?, 0);
    let mut status = call(made.spare_capacity_mut(), &mut len);
    if status == calls::ROOM {
        made = roomy(len)?;
        status = call(made.spare_capacity_mut(), &mut len);
    }
    Error::of(status, len)?;
    // SAFETY: the call succeeded, so it has written this many, and there was room for them.
    unsafe { made.set_len(len) };
    trim(&mut made);
    Ok(made)
}

/// Leaves a list memory of its own size, and at most half as much again; if there is none for a copy, what it has.
pub fn trim<T: Copy>(list: &mut Vec<T>) {
    if list.capacity() > list.len() + list.len() / 2 {
        if let Ok(mut copy) = roomy(list.len()) {
            copy.extend_from_slice(list);
            *list = copy;
        }
    }
}

/// An empty list with room for this number.
pub fn roomy<T>(room: usize) -> Result<Vec<T>, Error> {
    let mut made = Vec::new();
    made.try_reserve_exact(room).map_err(|_| Error::Memory)?;
    Ok(made)
}

/// Puts elements at the end of a list.
pub fn append<T: Copy>(list: &mut Vec<T>, more: &[T]) -> Result<(), Error> {
    list.try_reserve(more.len()).map_err(|_| Error::Memory)?;
    list.extend_from_slice(more);
    Ok(())
}

/// Normalizes a list in place.
pub fn normalise(ids: &mut Vec<u64>) -> Result<(), Error> {
    let mut len = 0;
    Error::of(calls::normalise(ids, &mut len), len)?;
    ids.truncate(len);
    trim(ids);
    Ok(())
}

/// Calls that answer something for each element of a list, in a number of parts each.
macro_rules! of_each {
    ($($name:ident($list:ident: &[$element:ty] $(, $argument:ident: $kind:ty)*) -> [$made:ty; $width:expr];)*) => {
        $(pub fn $name($list: &[$element] $(, $argument: $kind)*) -> Vec<$made> {
            each($width * $list.len(), |out, bad| calls::$name($list, $($argument,)* out, bad))
        })*
    };
}
of_each! {
    parents(ids: &[u64], level: u32) -> [u64; 1];
    range_mins(ids: &[u64]) -> [u64; 1];
    range_maxes(ids: &[u64]) -> [u64; 1];
    levels(ids: &[u64]) -> [u8; 1];
    token_fields(ids: &[u64]) -> [u8; MOST_TOKEN];
    from_points(points: &[Point]) -> [u64; 1];
}

pub fn contains_cells(ids: &[u64], cells: &[u64]) -> Vec<bool> {
    bools(each(cells.len(), |out, bad| calls::contains_cells(ids, cells, out, bad)))
}

pub fn file_contains_cells(bytes: &[u8], cells: &[u64]) -> Vec<bool> {
    bools(each(cells.len(), |out, bad| calls::file_contains_cells(bytes, cells, out, bad)))
}

pub fn intersects_cells(ids: &[u64], cells: &[u64]) -> Vec<bool> {
    bools(each(cells.len(), |out, bad| calls::intersects_cells(ids, cells, out, bad)))
}

fn bools(answers: Vec<u8>) -> Vec<bool> {
    answers.into_iter().map(|answer| answer == 1).collect()
}

fn each<T>(count: usize, call: impl FnOnce(&mut [MaybeUninit<T>], &mut usize) -> i32) -> Vec<T> {
    let (mut made, mut bad) = (Vec::with_capacity(count), 0);
    let status = call(&mut made.spare_capacity_mut()[..count], &mut bad);
    assert_eq!(status, calls::OK, "cells are cells");
    // SAFETY: the call succeeded, so it has written them all.
    unsafe { made.set_len(count) };
    made
}
