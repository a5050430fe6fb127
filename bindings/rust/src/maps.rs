//! Coverings of GeoJSON and WKB as they are written, with edges that are straight on the map, or geodesics.
use std::mem::MaybeUninit;

use crate::calls::{self, rooms, FaultName};
use crate::error::Error;
use crate::lists::{listed, roomy, trim};
use crate::union::CellUnion;

/// Work that [`cover_geojson`] and [`cover_wkb`] may take if you have no better bound: a second for a shape of a
/// country, and some seconds for any text. Of texts of strangers 2^24 is enough for a country at level 10. Since 1.5.
pub const MAP_WORK: u64 = calls::MAP_WORK;

/// Why a shape has no coverings, as the library says it.
#[derive(Default)]
#[repr(C)] // s2u_shape_fault
pub struct ShapeFault {
    pub name: usize,
    pub byte: usize,
    pub part: usize,
    pub ring: usize,
    pub position: usize,
}

/// A position of a shape that was read.
#[repr(C)] // s2u_place
pub struct Place {
    pub longitude: f64,
    pub latitude: f64,
}

/// A ring, a line or a point of a shape.
#[derive(Clone, Copy, Debug, PartialEq)]
#[repr(C)] // s2u_ring
pub struct Ring {
    pub end: u64,
    pub polygon: u64,
}

impl ShapeFault {
    /// Its error, if there is a fault: no other error than that of a shape touches it.
    fn error(&self) -> Option<Error> {
        let ShapeFault { name, byte, part, ring, position } = *self;
        (name > 0).then(|| Error::NoShape { fault: FaultName::of(name), byte, part, ring, position })
    }
}

// comment: map_geojson
pub fn cover_geojson(text: impl AsRef<[u8]>, level: u32, work: u64) -> Result<(CellUnion, CellUnion), Error> {
    let text = text.as_ref();
    both(rooms::map_geojson(), |out, len, outer, fault| calls::map_geojson(text, level, work, out, len, outer, fault))
}

// comment: map_wkb
pub fn cover_wkb(wkb: &[u8], level: u32, work: u64) -> Result<(CellUnion, CellUnion), Error> {
    both(rooms::map_wkb(), |out, len, outer, fault| calls::map_wkb(wkb, level, work, out, len, outer, fault))
}

/// The most cells that count of a covering by [`cover_geojson_up_to`] or [`cover_wkb_up_to`]. Since 1.5.
pub const MOST_FEW: usize = calls::MOST_FEW;

// comment: map_geojson_up_to
pub fn cover_geojson_up_to(
    text: impl AsRef<[u8]>,
    deepest: u32,
    most: usize,
) -> Result<(CellUnion, CellUnion), Error> {
    let text = text.as_ref();
    both(rooms::map_geojson_up_to(), |out, len, outer, fault| {
        calls::map_geojson_up_to(text, deepest, most, out, len, outer, fault)
    })
}

// comment: map_wkb_up_to
pub fn cover_wkb_up_to(wkb: &[u8], deepest: u32, most: usize) -> Result<(CellUnion, CellUnion), Error> {
    both(rooms::map_wkb_up_to(), |out, len, outer, fault| {
        calls::map_wkb_up_to(wkb, deepest, most, out, len, outer, fault)
    })
}

// comment: geodesic_geojson
pub fn cover_geodesic_geojson(
    text: impl AsRef<[u8]>,
    level: u32,
    most: usize,
) -> Result<(CellUnion, CellUnion), Error> {
    let text = text.as_ref();
    both(rooms::geodesic_geojson(), |out, len, outer, fault| {
        calls::geodesic_geojson(text, level, most, out, len, outer, fault)
    })
}

// comment: geodesic_wkb
pub fn cover_geodesic_wkb(wkb: &[u8], level: u32, most: usize) -> Result<(CellUnion, CellUnion), Error> {
    both(rooms::geodesic_wkb(), |out, len, outer, fault| calls::geodesic_wkb(wkb, level, most, out, len, outer, fault))
}

/// The two unions that a call makes, one after the other.
fn both<F>(room: usize, mut call: F) -> Result<(CellUnion, CellUnion), Error>
where
    F: FnMut(&mut [MaybeUninit<u64>], &mut usize, &mut usize, &mut ShapeFault) -> i32,
{
    let (mut outer, mut fault) = (0, ShapeFault::default());
    let made = listed(room, |out, len| call(out, len, &mut outer, &mut fault));
    let mut cells = made.map_err(|error| fault.error().unwrap_or(error))?;
    let mut inner = roomy(cells.len() - outer)?;
    inner.extend_from_slice(&cells[outer..]);
    cells.truncate(outer);
    trim(&mut cells);
    Ok((CellUnion::made(Ok(cells))?, CellUnion::made(Ok(inner))?))
}
