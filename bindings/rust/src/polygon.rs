use crate::cell::CellId;
use crate::error::Error;
use crate::lists;
use crate::union::{cells_of, CellUnion};

/// A direction from the center of the sphere, to a point of the sphere: each number is less than 2^31 in size, and not
/// all are 0.
///
/// ```
/// use s2union::Direction;
///
/// let (latitude, longitude) = (48.8566f64.to_radians(), 2.3522f64.to_radians());
/// let unit = [latitude.cos() * longitude.cos(), latitude.cos() * longitude.sin(), latitude.sin()];
/// let [x, y, z] = unit.map(|part| (part * 2147483647.0).round() as i64);
/// assert_eq!(Direction { x, y, z }.z, 1617195271);
/// ```
#[derive(Clone, Copy, Debug, PartialEq, Eq, Hash)]
#[repr(C)] // s2u_direction
pub struct Direction {
    /// Along the axis through latitude 0 and longitude 0.
    pub x: i64,
    /// Along the axis through latitude 0 and longitude 90.
    pub y: i64,
    /// Along the axis through latitude 90.
    pub z: i64,
}

/// A polygon of rings of corners, with a leaf that is known to lie outside. Rings may cross, touch, nest and repeat
/// each other: what is crossed an odd number of times on the way from the leaf outside lies inside. Nothing is rounded.
///
/// ```
/// use s2union::{CellId, Direction, Polygon};
///
/// let corners = [(10, 1, 1), (10, 9, 1), (10, 1, 9)].map(|(x, y, z)| Direction { x, y, z });
/// let outside = CellId::from_face_ij(3, 0, 0)?;
/// let triangle = Polygon { corners: &corners, ends: &[3], outside, margin: 0 };
/// assert_eq!(triangle.outer(3, 100)?.to_string(), "11 13 144 17");
/// # Ok::<(), s2union::Error>(())
/// ```
#[derive(Clone, Copy, Debug, PartialEq, Eq, Hash)]
pub struct Polygon<'a> {
    /// The corners, ring after ring: the first of a ring follows its last.
    pub corners: &'a [Direction],
    /// How many corners there are up to the end of each ring.
    pub ends: &'a [usize],
    /// A leaf that lies outside.
    pub outside: CellId,
    /// How near an edge has to come to a leaf to touch it: 0 to 2^60, of which a face has 6 * 2^60 a side.
    pub margin: u64,
}

impl Polygon<'_> {
    /// The cells of a level that have an outer leaf: one inside, or one that an edge touches. S2's `GetCovering` with
    /// one level. Since 1.4.
    ///
    /// # Errors
    ///
    /// - [`Error::Memory`]: there is no memory
    /// - [`Error::Argument`]: the level is above 30, the margin above 2^60, or `outside` is not a leaf
    /// - [`Error::Corner`]: a corner is no direction, or lies opposite the next corner of its ring
    /// - [`Error::Ring`]: a ring ends in a wrong place or has fewer than three corners, or there is none
    /// - [`Error::Many`]: there would be more than `most` cells, or than [`MOST_COVERING`](crate::MOST_COVERING);
    ///   or edges touch more than 4,000,000 cells of the level, and the margin is wider than a cell
    ///
    /// # Examples
    ///
    /// ```
    /// # use s2union::*;
    /// let corners = [(10, 1, 1), (10, 9, 1), (10, 1, 9)].map(|(x, y, z)| Direction { x, y, z });
    /// let polygon = Polygon { corners: &corners, ends: &[3], outside: CellId::from_face_ij(3, 0, 0)?, margin: 0 };
    /// assert_eq!(polygon.outer(1, 10)?.to_string(), "14");
    /// assert_eq!(Polygon { ends: &[2], ..polygon }.outer(1, 10), Err(Error::Ring { place: 0 }));
    /// # Ok::<(), Error>(())
    /// ```
    pub fn outer(&self, level: u32, most: usize) -> Result<CellUnion, Error> {
        let outside = self.outside.id();
        CellUnion::made(lists::polygon_outer(self.corners, self.ends, outside, self.margin, level, most))
    }

    /// The cells of a level that have inner leaves alone: leaves inside that no edge touches. S2's
    /// `GetInteriorCovering` with one level. Since 1.4.
    ///
    /// # Errors
    ///
    /// - [`Error::Memory`]: there is no memory
    /// - [`Error::Argument`]: the level is above 30, the margin above 2^60, or `outside` is not a leaf
    /// - [`Error::Corner`]: a corner is no direction, or lies opposite the next corner of its ring
    /// - [`Error::Ring`]: a ring ends in a wrong place or has fewer than three corners, or there is none
    /// - [`Error::Many`]: there would be more than `most` cells, or than [`MOST_COVERING`](crate::MOST_COVERING);
    ///   or edges touch more than 4,000,000 cells of the level
    ///
    /// # Examples
    ///
    /// ```
    /// # use s2union::*;
    /// let corners = [(10, 1, 1), (10, 9, 1), (10, 1, 9)].map(|(x, y, z)| Direction { x, y, z });
    /// let polygon = Polygon { corners: &corners, ends: &[3], outside: CellId::from_face_ij(3, 0, 0)?, margin: 0 };
    /// assert_eq!(polygon.inner(3, 10)?.to_string(), "114");
    /// # Ok::<(), Error>(())
    /// ```
    pub fn inner(&self, level: u32, most: usize) -> Result<CellUnion, Error> {
        let outside = self.outside.id();
        CellUnion::made(lists::polygon_inner(self.corners, self.ends, outside, self.margin, level, most))
    }

    /// At most `cells` cells, or 6 if that is more, that have all outer leaves, each with one, none deeper than
    /// `deepest`; those larger than cells of level `least` are then cut to that level, so that there may be more. They
    /// ascend, and are normalized if `least` is 0. S2's `GetCovering` with `max_cells` and `max_level`. Since 1.4.
    ///
    /// # Errors
    ///
    /// - [`Error::Memory`]: there is no memory
    /// - [`Error::Argument`]: a level is above 30, `least` above `deepest`, the margin above 2^60, or `outside` no leaf
    /// - [`Error::Corner`]: a corner is no direction, or lies opposite the next corner of its ring
    /// - [`Error::Ring`]: a ring ends in a wrong place or has fewer than three corners, or there is none
    /// - [`Error::Many`]: there would be more than [`MOST_COVERING`](crate::MOST_COVERING) cells after some were cut
    ///
    /// # Examples
    ///
    /// ```
    /// # use s2union::*;
    /// let corners = [(10, 1, 1), (10, 9, 1), (10, 1, 9)].map(|(x, y, z)| Direction { x, y, z });
    /// let polygon = Polygon { corners: &corners, ends: &[3], outside: CellId::from_face_ij(3, 0, 0)?, margin: 0 };
    /// assert_eq!(polygon.outer_up_to(0, 30, 4)?.len(), 4);
    /// # Ok::<(), Error>(())
    /// ```
    pub fn outer_up_to(&self, least: u32, deepest: u32, cells: usize) -> Result<Vec<CellId>, Error> {
        let (outside, margin) = (self.outside.id(), self.margin);
        let made = lists::polygon_outer_up_to(self.corners, self.ends, outside, margin, least, deepest, cells);
        Ok(cells_of(made?))
    }

    /// At most `cells` cells that have inner leaves alone, none deeper than `deepest`; otherwise as `outer_up_to`. S2's
    /// `GetInteriorCovering` with `max_cells` and `max_level`. Since 1.4.
    ///
    /// # Errors
    ///
    /// - [`Error::Memory`]: there is no memory
    /// - [`Error::Argument`]: a level is above 30, `least` above `deepest`, the margin above 2^60, or `outside` no leaf
    /// - [`Error::Corner`]: a corner is no direction, or lies opposite the next corner of its ring
    /// - [`Error::Ring`]: a ring ends in a wrong place or has fewer than three corners, or there is none
    /// - [`Error::Many`]: there would be more than [`MOST_COVERING`](crate::MOST_COVERING) cells after some were cut
    ///
    /// # Examples
    ///
    /// ```
    /// # use s2union::*;
    /// let corners = [(10, 1, 1), (10, 9, 1), (10, 1, 9)].map(|(x, y, z)| Direction { x, y, z });
    /// let polygon = Polygon { corners: &corners, ends: &[3], outside: CellId::from_face_ij(3, 0, 0)?, margin: 0 };
    /// assert_eq!(polygon.inner_up_to(0, 4, 4)?.len(), 4);
    /// # Ok::<(), Error>(())
    /// ```
    pub fn inner_up_to(&self, least: u32, deepest: u32, cells: usize) -> Result<Vec<CellId>, Error> {
        let (outside, margin) = (self.outside.id(), self.margin);
        let made = lists::polygon_inner_up_to(self.corners, self.ends, outside, margin, least, deepest, cells);
        Ok(cells_of(made?))
    }
}
