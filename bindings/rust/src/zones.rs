//! Which zones have which places: by s2union_join.h, which src/geo.c compiles.

use std::os::raw::{c_int, c_void};
use std::ptr::{self, NonNull};

use crate::calls;
use crate::error::{Error, ShapeFault};
use crate::geo::{parts, refused, Fault, Kind, Rings, Shape};
use crate::lists::roomy;

/// Polygons that are asked which of them have which places, exactly, also beside their borders.
///
/// They take a copy of each shape. Edges are straight on the map. Who asks them has them alone: threads that share
/// zones put them into a [`Mutex`](std::sync::Mutex).
///
/// ```
/// use s2union::{Pair, Shape, Zones};
///
/// let mut zones = Zones::default();
/// zones.add(&Shape::polygon(&[[[2.0, 48.0], [3.0, 48.0], [3.0, 49.0], [2.0, 49.0], [2.0, 48.0]]]))?;
/// zones.add(&Shape::rectangle(2.5, 48.0, 4.0, 50.0))?;
/// let pairs = zones.pairs(&[2.7, 0.0, 2.2], &[48.5, 0.0, 48.2], true)?;
/// assert_eq!(pairs, [Pair { place: 0, zone: 0 }, Pair { place: 0, zone: 1 }, Pair { place: 2, zone: 0 }]);
/// # Ok::<(), s2union::Error>(())
/// ```
#[derive(Debug, Default)]
pub struct Zones(Option<NonNull<c_void>>);

// SAFETY: the memory is malloc's, and only who has the zones alone reads or changes it.
unsafe impl Send for Zones {}
unsafe impl Sync for Zones {}

/// A place and a zone that has it, by their numbers.
#[derive(Clone, Copy, Debug, PartialEq, Eq, PartialOrd, Ord, Hash)]
pub struct Pair {
    /// The number of the place among those that are asked, from 0 on.
    pub place: usize,
    /// The number of the zone, which [`Zones::add`] answered.
    pub zone: usize,
}

impl Zones {
    /// Adds a zone, and answers its number, which is 0 for the first. After an error the zones are as they were. Since
    /// 1.5.
    ///
    /// # Errors
    ///
    /// - [`Error::Shape`]: the shape is wrong: where and how
    /// - [`Error::Argument`]: it is a circle, or a box that ends south of where it begins
    /// - [`Error::Memory`]: there is no memory
    ///
    /// # Examples
    ///
    /// ```
    /// # use s2union::*;
    /// let mut zones = Zones::default();
    /// assert_eq!(zones.add(&Shape::rectangle(177.0, -19.0, -179.0, -16.0)), Ok(0));
    /// assert_eq!(zones.add(&Shape::circle([2.35, 48.86], 1000.0)), Err(Error::Argument));
    /// assert_eq!(zones.add(&Shape::lines(&[[[1.0, 1.0], [2.0, 2.0]]])), Ok(1));
    /// ```
    pub fn add(&mut self, shape: &Shape<'_>) -> Result<usize, Error> {
        let zones = self.made()?;
        let mut fault = Fault::default();
        // SAFETY: the zones are there, each pointer goes with the length of what it points to, and each ring ends
        // within the positions.
        let (number, status) = unsafe {
            let number = s2union_rust_count_zones(zones);
            let status = match &shape.0 {
                Kind::Wkb(bytes) => s2union_rust_add_wkb(zones, bytes.as_ptr(), bytes.len(), &mut fault),
                Kind::GeoJson(text) => s2union_rust_add_geojson(zones, text.as_ptr(), text.len(), &mut fault),
                Kind::Rings(positions, rings) => {
                    let shape =
                        Rings { positions: positions.as_ptr().cast(), rings: rings.as_ptr(), count: rings.len() };
                    s2union_rust_add(zones, &shape, &mut fault)
                }
                Kind::Circle(..) => calls::ARGUMENT,
                Kind::Rectangle([west, south, east, north]) => {
                    s2union_rust_add_box(zones, *west, *south, *east, *north, &mut fault)
                }
            };
            (number, status)
        };
        refused(status, &fault).map(|()| number)
    }

    /// Each place and each zone that has it, in the order of places, and of zones for each: an exact join. With
    /// `borders` a place on a border is in the zone; without, it is in none of the polygons that have that border, and
    /// lines have no place. A place takes a step for each zone in whose box it lies, and for each edge there at its
    /// longitude. Since 1.5.
    ///
    /// # Errors
    ///
    /// - [`Error::Argument`]: there are more longitudes than latitudes, or fewer
    /// - [`Error::Shape`]: a place is out of range, or not a number; `position` is its number
    /// - [`Error::Memory`]: there is no memory
    ///
    /// # Examples
    ///
    /// ```
    /// # use s2union::*;
    /// let mut zones = Zones::default();
    /// zones.add(&Shape::rectangle(2.0, 48.0, 3.0, 49.0))?;
    /// assert_eq!(zones.pairs(&[2.0], &[48.5], true)?, [Pair { place: 0, zone: 0 }]); // on its border
    /// assert_eq!(zones.pairs(&[2.0], &[48.5], false)?, []);
    /// # Ok::<(), Error>(())
    /// ```
    pub fn pairs(&mut self, longitudes: &[f64], latitudes: &[f64], borders: bool) -> Result<Vec<Pair>, Error> {
        if longitudes.len() != latitudes.len() {
            return Err(Error::Argument);
        }
        let (zones, mut found, mut count) = (self.made()?, Found(ptr::null_mut()), 0);
        let (x, y, places) = (longitudes.as_ptr(), latitudes.as_ptr(), longitudes.len());
        // SAFETY: the zones are there, and both lists have this length.
        let status = unsafe { s2union_rust_pairs(zones, x, y, places, borders as c_int, &mut found.0, &mut count) };
        if status == calls::ARGUMENT {
            return Err(Error::Shape { fault: ShapeFault::Number, ring: 0, position: count });
        }
        Error::of(status, 0)?;
        // SAFETY: the call has written this many pairs.
        let all: &[[u64; 2]] = unsafe { parts(found.0, count) };
        let mut pairs = roomy(count)?;
        pairs.extend(all.iter().map(|&[place, zone]| Pair { place: place as usize, zone: zone as usize }));
        Ok(pairs)
    }

    /// The zones in memory of C.
    fn made(&mut self) -> Result<*mut c_void, Error> {
        if self.0.is_none() {
            // SAFETY: it takes nothing.
            self.0 = NonNull::new(unsafe { s2union_rust_zones() });
        }
        self.0.map(NonNull::as_ptr).ok_or(Error::Memory)
    }
}

impl Drop for Zones {
    fn drop(&mut self) {
        if let Some(zones) = self.0 {
            // SAFETY: they are there, and nobody asks them from now on.
            unsafe { s2union_rust_free_zones(zones.as_ptr()) }
        }
    }
}

/// Pairs in memory of C.
struct Found(*mut [u64; 2]);

impl Drop for Found {
    fn drop(&mut self) {
        // SAFETY: the call has made them, or there are none.
        unsafe { s2union_rust_free_pairs(self.0) }
    }
}

extern "C" {
    fn s2union_rust_zones() -> *mut c_void;
    fn s2union_rust_free_zones(zones: *mut c_void);
    fn s2union_rust_count_zones(zones: *const c_void) -> usize;
    fn s2union_rust_add(zones: *mut c_void, shape: *const Rings, fault: *mut Fault) -> i32;
    fn s2union_rust_add_wkb(zones: *mut c_void, bytes: *const u8, size: usize, fault: *mut Fault) -> i32;
    fn s2union_rust_add_geojson(zones: *mut c_void, text: *const u8, size: usize, fault: *mut Fault) -> i32;
    fn s2union_rust_add_box(zones: *mut c_void, west: f64, south: f64, east: f64, north: f64, fault: *mut Fault)
        -> i32;
    fn s2union_rust_pairs(
        zones: *mut c_void,
        longitudes: *const f64,
        latitudes: *const f64,
        places: usize,
        borders: c_int,
        pairs: *mut *mut [u64; 2],
        count: *mut usize,
    ) -> i32;
    fn s2union_rust_free_pairs(pairs: *mut [u64; 2]);
}
