//! Degrees: by the headers of the library, which src/geo.c compiles.

use std::ffi::CStr;
use std::os::raw::c_char;
use std::{ptr, slice};

use crate::calls::{self, FaultName};
use crate::cell::CellId;
use crate::error::{Error, ShapeFault};
use crate::lists::roomy;
use crate::maps::Ring;
use crate::union::CellUnion;

/// A longitude, from -540 to 540 degrees, and a latitude, from -90 to 90: the longitude comes first.
pub type Position = [f64; 2];

/// What leads from a position to the next one.
#[derive(Clone, Copy, Debug, Default, PartialEq, Eq, Hash)]
pub enum Edges {
    /// Straight in longitude and latitude, as in GeoJSON.
    #[default]
    Map,
    /// The shortest ways on the sphere, and of each ring the smaller side is inside.
    Geodesic,
    /// The shortest ways on the sphere, and what the rings have on their left is inside.
    Left,
}

/// Polygons, lines, points, a circle or a box in degrees, for a [`RegionCoverer`] or [`Zones`](crate::Zones).
///
/// Whether the numbers are in range, and the rings closed, is looked at when it is covered or added.
#[derive(Clone, Debug, PartialEq)]
pub struct Shape<'a>(pub(crate) Kind<'a>);

#[derive(Clone, Debug, PartialEq)]
pub(crate) enum Kind<'a> {
    Wkb(&'a [u8]),
    GeoJson(&'a [u8]),
    Rings(Vec<Position>, Vec<Ring>),
    Circle(Position, f64),
    Rectangle([f64; 4]),
}

/// Makes coverings of shapes in degrees. The names are those of S2's `S2RegionCoverer`.
///
/// ```
/// use s2union::{CellId, RegionCoverer, Shape};
///
/// let park = Shape::polygon(&[[[2.23, 48.85], [2.28, 48.85], [2.28, 48.88], [2.23, 48.88], [2.23, 48.85]]]);
/// let coverer = RegionCoverer { max_cells: Some(100), ..RegionCoverer::default() };
/// let (outer, inner) = coverer.coverings(&park)?;
/// let leaf = CellId::from_position([2.25, 48.86])?;
/// assert!(inner.contains_cell(leaf)); // surely inside
/// assert!(!outer.contains_cell(CellId::from_position([2.35, 48.86])?)); // surely outside
/// # Ok::<(), s2union::Error>(())
/// ```
#[derive(Clone, Copy, Debug, PartialEq)]
pub struct RegionCoverer {
    /// The most cells, 0 to 1,000,000. `None` stands for 200, or for 1,000,000 with `within`.
    pub max_cells: Option<usize>,
    /// Cells at the border are at least as deep, even if there are more than `max_cells` then.
    pub min_level: u32,
    /// No cell is deeper: 0 to 30.
    pub max_level: u32,
    /// Meters, more than 0: no place of a covering is farther from the shape and its margin, and each place that is
    /// farther from the border lies in the inner one, if `max_cells` allows it.
    pub within: Option<f64>,
    /// Meters by which a covering goes beyond the shape, and an inner one stays inside: 0 to 300,000. Of lines and
    /// points it makes corridors, and an inner covering lies in these.
    pub margin: f64,
    /// Of all shapes but circles.
    pub edges: Edges,
}

/// At most 200 cells, none deeper than level 30, with edges that are straight on the map.
impl Default for RegionCoverer {
    fn default() -> RegionCoverer {
        let edges = Edges::default();
        RegionCoverer { max_cells: None, min_level: 0, max_level: 30, within: None, margin: 0.0, edges }
    }
}

impl<'a> Shape<'a> {
    /// The shape in bytes of WKB: points, lines, polygons and collections of them, in either order of bytes. Z and M
    /// are passed over, and an SRID is 0 or 4326. Since 1.4.
    ///
    /// # Examples
    ///
    /// ```
    /// # use s2union::*;
    /// let nothing = Shape::wkb(b"\x01\x07\0\0\0\0\0\0\0");
    /// assert!(RegionCoverer::default().covering(&nothing)?.is_empty());
    /// # Ok::<(), Error>(())
    /// ```
    pub fn wkb(bytes: &'a [u8]) -> Shape<'a> {
        Shape(Kind::Wkb(bytes))
    }

    /// The shape in a text of GeoJSON, in UTF-8: a geometry, a feature, or a collection of either. Further coordinates
    /// are passed over, and so are members that say nothing of the shape. Since 1.5.
    ///
    /// # Examples
    ///
    /// ```
    /// # use s2union::*;
    /// let way = Shape::from_geojson(r#"{"type": "LineString", "coordinates": [[1, 1], [2, 2]]}"#.as_bytes());
    /// let coverer = RegionCoverer::default();
    /// assert_eq!(coverer.covering(&way), coverer.covering(&Shape::lines(&[[[1.0, 1.0], [2.0, 2.0]]])));
    /// ```
    pub fn from_geojson(text: &'a [u8]) -> Shape<'a> {
        Shape(Kind::GeoJson(text))
    }

    /// A polygon of rings, each of which ends with its first position. A place is inside if a way to it from outside
    /// crosses the rings an odd number of times: a hole is a ring too, and rings may cross. One goes on beyond 180
    /// degrees where it crosses the date line. Since 1.4.
    ///
    /// # Examples
    ///
    /// ```
    /// # use s2union::*;
    /// let triangle = Shape::polygon(&[[[2.0, 48.0], [3.0, 48.0], [3.0, 49.0], [2.0, 48.0]]]);
    /// let coverer = RegionCoverer { max_cells: Some(4), ..Default::default() };
    /// assert_eq!(coverer.covering(&triangle)?.to_string(), "47e5 47e604 47e8c 47ef");
    /// # Ok::<(), Error>(())
    /// ```
    pub fn polygon<R: AsRef<[Position]>>(rings: &[R]) -> Shape<'a> {
        Shape::polygons(&[rings])
    }

    /// Several polygons, which may overlap on the map. Since 1.4.
    ///
    /// # Examples
    ///
    /// ```
    /// # use s2union::*;
    /// let union: CellUnion = "04 24".parse()?;
    /// let again = RegionCoverer::default().covering(&Shape::polygons(&union.outline()?))?;
    /// assert!(again.contains(&union));
    /// # Ok::<(), Error>(())
    /// ```
    pub fn polygons<P: AsRef<[R]>, R: AsRef<[Position]>>(polygons: &[P]) -> Shape<'a> {
        Shape::collection::<P, R, &[Position]>(polygons, &[])
    }

    /// Lines, each from position to position. A line of one position is a point. Since 1.4.
    ///
    /// # Examples
    ///
    /// ```
    /// # use s2union::*;
    /// let way = Shape::lines(&[[[1.0, 1.0], [2.0, 2.0]]]);
    /// let corridor = RegionCoverer { margin: 1000.0, ..Default::default() }.covering(&way)?;
    /// assert!(corridor.contains_cell(CellId::from_position([1.501, 1.5])?));
    /// # Ok::<(), Error>(())
    /// ```
    pub fn lines<R: AsRef<[Position]>>(lines: &[R]) -> Shape<'a> {
        Shape::collection::<&[R], R, R>(&[], lines)
    }

    /// Polygons and lines together. Since 1.4.1.
    ///
    /// # Examples
    ///
    /// ```
    /// # use s2union::*;
    /// let square = [[2.0, 48.0], [3.0, 48.0], [3.0, 49.0], [2.0, 49.0], [2.0, 48.0]];
    /// let both = Shape::collection(&[[square]], &[[[3.0, 49.0], [4.0, 50.0]]]);
    /// let outer = RegionCoverer::default().covering(&both)?;
    /// assert!(outer.contains_cell(CellId::from_position([2.5, 48.5])?));
    /// assert!(outer.contains_cell(CellId::from_position([4.0, 50.0])?));
    /// # Ok::<(), Error>(())
    /// ```
    pub fn collection<P, R, L>(polygons: &[P], lines: &[L]) -> Shape<'a>
    where
        P: AsRef<[R]>,
        R: AsRef<[Position]>,
        L: AsRef<[Position]>,
    {
        let of_polygons = polygons.iter().enumerate();
        let rings = of_polygons.flat_map(|(k, rings)| rings.as_ref().iter().map(move |ring| (ring.as_ref(), k as u64)));
        Shape::of(rings.chain(lines.iter().map(|line| (line.as_ref(), LINE))))
    }

    /// Points. Since 1.4.
    ///
    /// # Examples
    ///
    /// ```
    /// # use s2union::*;
    /// let coverer = RegionCoverer { max_level: 2, ..Default::default() };
    /// assert_eq!(coverer.covering(&Shape::points(&[[2.35, 48.86]]))?.to_string(), "47");
    /// # Ok::<(), Error>(())
    /// ```
    pub fn points(positions: &[Position]) -> Shape<'a> {
        Shape::of(positions.iter().map(|position| (slice::from_ref(position), LINE)))
    }

    /// The places within a radius of a position, 0 to 20,000,000 meters, on a sphere with the earth's mean radius: S2's
    /// `S2Cap`. Since 1.4.
    ///
    /// # Examples
    ///
    /// ```
    /// # use s2union::*;
    /// let coverer = RegionCoverer { max_cells: Some(4), ..Default::default() };
    /// let circle = coverer.covering(&Shape::circle([2.35, 48.86], 1000.0))?;
    /// assert_eq!(circle.to_string(), "47e66e1 47e66e3 47e671dc 47e671f");
    /// # Ok::<(), Error>(())
    /// ```
    pub fn circle(center: Position, radius: f64) -> Shape<'a> {
        Shape(Kind::Circle(center, radius))
    }

    /// The places between two meridians and two parallels: S2's `S2LatLngRect`. One that ends west of where it begins
    /// crosses the date line; one that ends south of where it begins has no covering: [`Error::Argument`]. Since 1.4.
    ///
    /// # Examples
    ///
    /// ```
    /// # use s2union::*;
    /// let taveuni = CellId::from_position([180.0, -16.9])?;
    /// let fiji = RegionCoverer::default().covering(&Shape::rectangle(177.0, -19.0, -179.0, -16.0))?;
    /// assert!(fiji.contains_cell(taveuni));
    /// # Ok::<(), Error>(())
    /// ```
    pub fn rectangle(west: f64, south: f64, east: f64, north: f64) -> Shape<'a> {
        Shape(Kind::Rectangle([west, south, east, north]))
    }

    /// The shape of rings and lines, each with the number of its polygon.
    fn of<'r>(lines: impl Iterator<Item = (&'r [Position], u64)>) -> Shape<'a> {
        let (mut positions, mut rings) = (Vec::new(), Vec::new());
        for (line, polygon) in lines {
            positions.extend_from_slice(line);
            rings.push(Ring { end: positions.len() as u64, polygon });
        }
        Shape(Kind::Rings(positions, rings))
    }
}

impl RegionCoverer {
    /// A union that contains all of a shape: S2's `GetCovering`. Since 1.4.
    ///
    /// # Errors
    ///
    /// - [`Error::Shape`]: an option is out of range, or the shape is wrong: where and how
    /// - [`Error::Many`]: the least level asks for more than 1,000,000 cells at the border
    /// - [`Error::Memory`]: there is no memory
    ///
    /// # Examples
    ///
    /// ```
    /// # use s2union::*;
    /// let open = Shape::polygon(&[[[2.0, 48.0], [3.0, 48.0], [3.0, 49.0], [2.0, 49.0]]]);
    /// let error = RegionCoverer::default().covering(&open).unwrap_err();
    /// assert_eq!(error, Error::Shape { fault: ShapeFault::Open, ring: 0, position: 3 });
    /// assert_eq!(error.to_string(), "a ring is open: its last position is not its first: ring 0, position 3");
    /// ```
    pub fn covering(&self, shape: &Shape<'_>) -> Result<CellUnion, Error> {
        let mut outer = Cells::default();
        self.cover(shape, Some(&mut outer), None)?;
        outer.union()
    }

    /// A union of cells that lie in the polygons, the circle or the box: S2's `GetInteriorCovering`. Lines and points
    /// have nothing inside. Since 1.4.
    ///
    /// # Errors
    ///
    /// - [`Error::Shape`]: an option is out of range, or the shape is wrong: where and how
    /// - [`Error::Many`]: the least level asks for more than 1,000,000 cells at the border
    /// - [`Error::Memory`]: there is no memory
    ///
    /// # Examples
    ///
    /// ```
    /// # use s2union::*;
    /// let coverer = RegionCoverer { max_cells: Some(4), ..Default::default() };
    /// let inner = coverer.interior_covering(&Shape::rectangle(2.0, 48.0, 3.0, 49.0))?;
    /// assert_eq!(inner.to_string(), "47e5c 47e604 47e60c 47e674");
    /// # Ok::<(), Error>(())
    /// ```
    pub fn interior_covering(&self, shape: &Shape<'_>) -> Result<CellUnion, Error> {
        let mut inner = Cells::default();
        self.cover(shape, None, Some(&mut inner))?;
        inner.union()
    }

    /// Both in one call: `covering` and `interior_covering`. Since 1.4.
    ///
    /// # Errors
    ///
    /// - [`Error::Shape`]: an option is out of range, or the shape is wrong: where and how
    /// - [`Error::Many`]: the least level asks for more than 1,000,000 cells at the border
    /// - [`Error::Memory`]: there is no memory
    ///
    /// # Examples
    ///
    /// ```
    /// # use s2union::*;
    /// let (outer, inner) = RegionCoverer::default().coverings(&Shape::circle([2.35, 48.86], 1000.0))?;
    /// assert!(inner.is_subset(&outer));
    /// # Ok::<(), Error>(())
    /// ```
    pub fn coverings(&self, shape: &Shape<'_>) -> Result<(CellUnion, CellUnion), Error> {
        let (mut outer, mut inner) = (Cells::default(), Cells::default());
        self.cover(shape, Some(&mut outer), Some(&mut inner))?;
        Ok((outer.union()?, inner.union()?))
    }

    fn cover(&self, shape: &Shape<'_>, outer: Option<&mut Cells>, inner: Option<&mut Cells>) -> Result<(), Error> {
        let options = self.options()?;
        let (outer, inner) = (pointer(outer), pointer(inner));
        let mut fault = Fault::default();
        // SAFETY: each pointer goes with the length of what it points to, or is null where C asks for no covering, and
        // each ring ends within the positions.
        let status = unsafe {
            match &shape.0 {
                Kind::Wkb(bytes) => {
                    s2union_rust_cover_wkb(bytes.as_ptr(), bytes.len(), &options, outer, inner, &mut fault)
                }
                Kind::GeoJson(text) => {
                    s2union_rust_cover_geojson(text.as_ptr(), text.len(), &options, outer, inner, &mut fault)
                }
                Kind::Rings(positions, rings) => {
                    let shape =
                        Rings { positions: positions.as_ptr().cast(), rings: rings.as_ptr(), count: rings.len() };
                    s2union_rust_cover(&shape, &options, outer, inner, &mut fault)
                }
                Kind::Circle([x, y], radius) => {
                    s2union_rust_cover_circle(*x, *y, *radius, &options, outer, inner, &mut fault)
                }
                Kind::Rectangle([west, south, east, north]) => {
                    s2union_rust_cover_box(*west, *south, *east, *north, &options, outer, inner, &mut fault)
                }
            }
        };
        refused(status, &fault)
    }

    fn options(&self) -> Result<Options, Error> {
        let usual = if self.within.is_some() { calls::MOST_COVERING } else { 200 };
        let mut options = Options {
            max_cells: self.max_cells.unwrap_or(usual) as u64,
            min_level: self.min_level,
            max_level: self.max_level,
            edges: self.edges as u32,
            margin: self.margin,
        };
        if let Some(meters) = self.within {
            // SAFETY: the options are there.
            refused(unsafe { s2union_rust_keep_within(&mut options, meters) }, &Fault::default())?;
        }
        Ok(options)
    }
}

/// Places in degrees.
impl CellId {
    /// The leaf at a position: S2's `S2CellId(S2LatLng)`, which takes the latitude first. Since 1.4.
    ///
    /// # Errors
    ///
    /// - [`Error::Shape`]: a number is out of range, or not a number
    ///
    /// # Examples
    ///
    /// ```
    /// # use s2union::*;
    /// assert_eq!(CellId::from_position([2.3522, 48.8566])?.token(), "47e66e1d8f8be23b");
    /// assert!(CellId::from_position([48.8566, 102.3522]).is_err());
    /// # Ok::<(), Error>(())
    /// ```
    pub fn from_position(position: Position) -> Result<CellId, Error> {
        leaf_at(position).ok_or(Error::Shape { fault: ShapeFault::Number, ring: 0, position: 0 })
    }

    /// The leaf at each position; none if it is out of range. Since 1.4.
    ///
    /// # Examples
    ///
    /// ```
    /// # use s2union::*;
    /// let leaves = CellId::from_positions(&[[0.0, 90.0], [0.0, 91.0]]);
    /// assert_eq!(leaves, [Some(CellId::from_token("5000000000000001")?), None]);
    /// # Ok::<(), Error>(())
    /// ```
    pub fn from_positions(positions: &[Position]) -> Vec<Option<CellId>> {
        positions.iter().map(|&position| leaf_at(position)).collect()
    }

    /// The middle of the cell, with a longitude from -180 to 180: S2's `ToLatLng`. Since 1.4.
    ///
    /// # Examples
    ///
    /// ```
    /// # use s2union::*;
    /// assert_eq!(CellId::from_token("3")?.position(), [90.0, 0.0]);
    /// # Ok::<(), Error>(())
    /// ```
    pub fn position(self) -> Position {
        let mut place = [0.0; 2];
        // SAFETY: there is room for two numbers, and a cell is a cell.
        unsafe { s2union_rust_middle(self.id(), place.as_mut_ptr()) };
        place
    }
}

/// Back to a map.
impl CellUnion {
    /// The rings of polygons that are the union on a map: for each part that hangs together a ring around it,
    /// counterclockwise, and then its holes, clockwise. The date line cuts polygons in two, and one with a pole goes
    /// along the map's edge. Since 1.4.
    ///
    /// # Errors
    ///
    /// - [`Error::Memory`]: there is no memory
    ///
    /// # Examples
    ///
    /// ```
    /// # use s2union::*;
    /// let union: CellUnion = "04 24".parse()?;
    /// let polygons = union.outline()?;
    /// assert_eq!((polygons.len(), polygons[0].len()), (2, 1));
    /// # Ok::<(), Error>(())
    /// ```
    pub fn outline(&self) -> Result<Vec<Vec<Vec<Position>>>, Error> {
        let (lines, ends) = self.drawn(s2union_rust_outline)?;
        let (mut lines, mut polygons, mut begin) = (lines.into_iter(), roomy(ends.len())?, 0);
        for end in ends {
            let mut rings = roomy(end - begin)?;
            rings.extend(lines.by_ref().take(end - begin));
            polygons.push(rings);
            begin = end;
        }
        Ok(polygons)
    }

    /// Closed lines through corners of cells, with the union on their left: S2's `InitToCellUnionBorder`. A line goes
    /// on beyond 180 or -180 degrees. Since 1.4.
    ///
    /// # Errors
    ///
    /// - [`Error::Memory`]: there is no memory
    ///
    /// # Examples
    ///
    /// ```
    /// # use s2union::*;
    /// let face: CellUnion = "1".parse()?;
    /// assert_eq!(face.boundary()?[0].len(), 5);
    /// # Ok::<(), Error>(())
    /// ```
    pub fn boundary(&self) -> Result<Vec<Vec<Position>>, Error> {
        Ok(self.drawn(s2union_rust_boundary)?.0)
    }

    /// The lines that a call draws, and how many there are up to the end of each polygon.
    fn drawn(&self, draw: Draw) -> Result<(Vec<Vec<Position>>, Vec<usize>), Error> {
        let (ids, mut drawn) = (self.as_ref(), Drawn::default());
        // SAFETY: the list goes with its length.
        refused(unsafe { draw(ids.as_ptr(), ids.len(), &mut drawn) }, &Fault::default())?;
        // SAFETY: the call has written as many ends, and positions up to the last of them.
        let ends = unsafe { parts(drawn.ring_ends, drawn.rings) };
        let positions: &[Position] = unsafe { parts(drawn.positions.cast(), ends.last().copied().unwrap_or(0)) };
        let polygons = unsafe { parts(drawn.polygon_ends, drawn.polygons) };
        let mut lines = roomy(ends.len())?;
        let mut begin = 0;
        for &end in ends {
            lines.push(copied(&positions[begin..end])?);
            begin = end;
        }
        Ok((lines, copied(polygons)?))
    }
}

/// What C says of a fault of a shape.
pub(crate) fn text(fault: ShapeFault) -> &'static str {
    // SAFETY: the text is a constant of C.
    unsafe { CStr::from_ptr(s2union_rust_text(fault.status())) }.to_str().unwrap_or("")
}

fn leaf_at([longitude, latitude]: Position) -> Option<CellId> {
    // SAFETY: it takes any numbers.
    CellId::made(unsafe { s2union_rust_leaf(longitude, latitude) })
}

/// The error of a status: of a shape with its place, if it has one.
pub(crate) fn refused(status: i32, at: &Fault) -> Result<(), Error> {
    let [part, ring, position] = [at.part, at.ring, at.position].map(|count| count as usize);
    match ShapeFault::of(status) {
        Some(fault) => Err(Error::Shape { fault, ring, position }),
        None if status == NO_GEOJSON => {
            Err(Error::NoShape { fault: FaultName::of(at.name as usize), byte: 0, part, ring, position })
        }
        None => Error::of(status, 0),
    }
}

const NO_GEOJSON: i32 = -112; // S2U_COVER_GEOJSON

fn copied<T: Copy>(list: &[T]) -> Result<Vec<T>, Error> {
    let mut made = roomy(list.len())?;
    made.extend_from_slice(list);
    Ok(made)
}

/// What C has written, which may be nothing, at no place.
pub(crate) unsafe fn parts<'a, T>(at: *const T, count: usize) -> &'a [T] {
    if count == 0 {
        &[]
    } else {
        slice::from_raw_parts(at, count)
    }
}

fn pointer<T>(to: Option<&mut T>) -> *mut T {
    to.map_or(ptr::null_mut(), |it| it)
}

const LINE: u64 = u64::MAX; // in the place of a polygon's number

#[repr(C)] // s2u_cover_shape
pub(crate) struct Rings {
    pub(crate) positions: *const f64,
    pub(crate) rings: *const Ring,
    pub(crate) count: usize,
}

#[repr(C)] // s2u_cover_options
struct Options {
    max_cells: u64,
    min_level: u32,
    max_level: u32,
    edges: u32,
    margin: f64,
}

#[derive(Default)]
#[repr(C)] // s2u_cover_fault
pub(crate) struct Fault {
    ring: u64,
    position: u64,
    name: u64,
    part: u64,
}

#[repr(C)] // s2u_cover_cells
pub(crate) struct Cells {
    ids: *mut u64,
    count: usize,
}

impl Default for Cells {
    fn default() -> Cells {
        Cells { ids: ptr::null_mut(), count: 0 }
    }
}

impl Cells {
    /// The union that a call makes, or the error of its status.
    pub(crate) fn union_by(call: impl FnOnce(&mut Cells) -> i32) -> Result<CellUnion, Error> {
        let mut cells = Cells::default();
        Error::of(call(&mut cells), 0)?;
        cells.union()
    }

    fn union(&self) -> Result<CellUnion, Error> {
        // SAFETY: C has written as many cells.
        CellUnion::made(copied(unsafe { parts(self.ids, self.count) }))
    }
}

impl Drop for Cells {
    fn drop(&mut self) {
        // SAFETY: it is memory of C, or null.
        unsafe { s2union_rust_free(self) }
    }
}

#[repr(C)] // s2u_geo_rings
struct Drawn {
    positions: *mut f64,
    ring_ends: *mut usize,
    polygon_ends: *mut usize,
    rings: usize,
    polygons: usize,
}

impl Default for Drawn {
    fn default() -> Drawn {
        let none = ptr::null_mut();
        Drawn { positions: ptr::null_mut(), ring_ends: none, polygon_ends: none, rings: 0, polygons: 0 }
    }
}

impl Drop for Drawn {
    fn drop(&mut self) {
        // SAFETY: it is memory of C, or null.
        unsafe { s2union_rust_free_rings(self) }
    }
}

type Draw = unsafe extern "C" fn(*const u64, usize, *mut Drawn) -> i32;

extern "C" {
    fn s2union_rust_leaf(longitude: f64, latitude: f64) -> u64;
    fn s2union_rust_middle(cell: u64, place: *mut f64) -> i32;
    fn s2union_rust_text(status: i32) -> *const c_char;
    fn s2union_rust_keep_within(options: *mut Options, meters: f64) -> i32;
    fn s2union_rust_cover(
        shape: *const Rings,
        options: *const Options,
        outer: *mut Cells,
        inner: *mut Cells,
        fault: *mut Fault,
    ) -> i32;
    fn s2union_rust_cover_wkb(
        bytes: *const u8,
        size: usize,
        options: *const Options,
        outer: *mut Cells,
        inner: *mut Cells,
        fault: *mut Fault,
    ) -> i32;
    fn s2union_rust_cover_geojson(
        text: *const u8,
        size: usize,
        options: *const Options,
        outer: *mut Cells,
        inner: *mut Cells,
        fault: *mut Fault,
    ) -> i32;
    fn s2union_rust_cover_circle(
        longitude: f64,
        latitude: f64,
        radius: f64,
        options: *const Options,
        outer: *mut Cells,
        inner: *mut Cells,
        fault: *mut Fault,
    ) -> i32;
    fn s2union_rust_cover_box(
        west: f64,
        south: f64,
        east: f64,
        north: f64,
        options: *const Options,
        outer: *mut Cells,
        inner: *mut Cells,
        fault: *mut Fault,
    ) -> i32;
    fn s2union_rust_free(cells: *mut Cells);
    fn s2union_rust_outline(ids: *const u64, n: usize, rings: *mut Drawn) -> i32;
    fn s2union_rust_boundary(ids: *const u64, n: usize, rings: *mut Drawn) -> i32;
    fn s2union_rust_free_rings(rings: *mut Drawn);
}
