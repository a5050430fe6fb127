//! The cells around a cell and around a union, and the box of degrees around a union: by the headers of the library,
//! which src/geo.c compiles.

use crate::cell::CellId;
use crate::error::Error;
use crate::geo::Cells;
use crate::union::CellUnion;

/// The cells around it.
impl CellId {
    /// The cells of a level that touch the cell, at an edge or a corner, each once: of its own level eight, seven at a
    /// corner of the cube, and four of a face. S2's `AppendAllNeighbors`. Since 1.4.1.
    ///
    /// # Errors
    ///
    /// - [`Error::Argument`]: the level is above that of the cell, or beyond 30
    /// - [`Error::Many`]: there are more than 1,000,000: the level is 18 deeper than the cell or more
    /// - [`Error::Memory`]: there is no memory
    ///
    /// # Examples
    ///
    /// ```
    /// # use s2union::*;
    /// let around = CellId::from_token("89c25")?.neighbors(8)?;
    /// assert_eq!(around.to_string(), "89c21 89c23 89c27 89c29 89c2f 89c31 89c3b 89c3d");
    /// # Ok::<(), Error>(())
    /// ```
    pub fn neighbors(self, level: u32) -> Result<CellUnion, Error> {
        // SAFETY: the cells are written to what is there for them.
        Cells::union_by(|cells| unsafe { s2union_rust_neighbors(self.id(), level, cells) })
    }

    /// The four cells of its level that share an edge with it: the one below it on its face, and then counterclockwise.
    /// S2's `GetEdgeNeighbors`. Since 1.4.1.
    ///
    /// # Examples
    ///
    /// ```
    /// # use s2union::*;
    /// assert_eq!(CellId::from_token("1")?.edge_neighbors().map(CellId::token), ["b", "3", "5", "9"]);
    /// # Ok::<(), Error>(())
    /// ```
    pub fn edge_neighbors(self) -> [CellId; 4] {
        let mut four = [self; 4];
        // SAFETY: there is room for four cells, which have the layout of their numbers, and C writes no other number.
        unsafe { s2union_rust_edge_neighbors(self.id(), four.as_mut_ptr()) };
        four
    }

    /// The cells of a level around the corner that is nearest to the cell, of those of its ancestor there: four, or
    /// three at a corner of the cube. The first has the cell. S2's `AppendVertexNeighbors`. Since 1.4.1.
    ///
    /// # Errors
    ///
    /// - [`Error::Argument`]: the level is not above that of the cell
    ///
    /// # Examples
    ///
    /// ```
    /// # use s2union::*;
    /// let corner = CellId::from_token("89c25")?.vertex_neighbors(3)?;
    /// assert_eq!(corner.into_iter().map(CellId::token).collect::<Vec<_>>(), ["89c", "4cc", "884", "4d4"]);
    /// # Ok::<(), Error>(())
    /// ```
    pub fn vertex_neighbors(self, level: u32) -> Result<Vec<CellId>, Error> {
        let (mut four, mut count) = ([self; 4], 0);
        // SAFETY: as above.
        Error::of(unsafe { s2union_rust_vertex_neighbors(self.id(), level, four.as_mut_ptr(), &mut count) }, 0)?;
        Ok(four[..count].to_vec())
    }
}

/// What is around it.
impl CellUnion {
    /// The union with each cell of a level that touches one of its cells. Of its cells that are deeper than the level,
    /// those of the level that have them are taken. S2's `Expand`. Since 1.4.1.
    ///
    /// # Errors
    ///
    /// - [`Error::Argument`]: the level is beyond 30
    /// - [`Error::Many`]: there are more than 4,000,000 cells around it, and nine for each of its own
    /// - [`Error::Memory`]: there is no memory
    ///
    /// # Examples
    ///
    /// ```
    /// # use s2union::*;
    /// let union: CellUnion = "89c25".parse()?;
    /// assert_eq!(union.expanded(8)?, &union | &CellId::from_token("89c25")?.neighbors(8)?);
    /// # Ok::<(), Error>(())
    /// ```
    pub fn expanded(&self, level: u32) -> Result<CellUnion, Error> {
        let ids: &[u64] = self.as_ref();
        // SAFETY: the list goes with its length.
        Cells::union_by(|cells| unsafe { s2union_rust_expanded(ids.as_ptr(), ids.len(), level, cells) })
    }

    /// The area of the union in square kilometers, on a sphere with the earth's mean radius: S2's `ExactArea`, which is
    /// on a sphere of radius 1. The earth is flattened, so an area there differs by less than 1 percent. Since 1.5.
    ///
    /// # Examples
    ///
    /// ```
    /// # use s2union::*;
    /// let face: CellUnion = "1".parse()?;
    /// assert_eq!((face.area().round(), CellUnion::default().area()), (85_011_012.0, 0.0));
    /// # Ok::<(), Error>(())
    /// ```
    pub fn area(&self) -> f64 {
        let ids: &[u64] = self.as_ref();
        // SAFETY: the list goes with its length.
        unsafe { s2union_rust_area(ids.as_ptr(), ids.len()) }
    }

    /// A box of degrees in which the union lies, at most 1e-13 degrees wider on each side than the narrowest one: west,
    /// south, east and north. It goes over the date line if the east is less than the west. With a pole, or where there
    /// is no gap, it has all longitudes, from -180 to 180. None of no cell. S2's `GetRectBound`. Since 1.4.1.
    ///
    /// # Errors
    ///
    /// - [`Error::Memory`]: there is no memory
    ///
    /// # Examples
    ///
    /// ```
    /// # use s2union::*;
    /// let behind: CellUnion = "7".parse()?;
    /// assert_eq!(behind.bounds()?.map(|box_| box_.map(f64::round)), Some([135.0, -45.0, -135.0, 45.0]));
    /// assert_eq!(CellUnion::default().bounds()?, None);
    /// # Ok::<(), Error>(())
    /// ```
    pub fn bounds(&self) -> Result<Option<[f64; 4]>, Error> {
        let (ids, mut sides): (&[u64], _) = (self.as_ref(), [0.0; 4]);
        // SAFETY: the list goes with its length, and there is room for four numbers.
        Error::of(unsafe { s2union_rust_bounds(ids.as_ptr(), ids.len(), sides.as_mut_ptr()) }, 0)?;
        Ok(Some(sides).filter(|[_, south, _, north]| south <= north))
    }
}

extern "C" {
    fn s2union_rust_neighbors(cell: u64, level: u32, cells: &mut Cells) -> i32;
    fn s2union_rust_edge_neighbors(cell: u64, four: *mut CellId) -> i32;
    fn s2union_rust_vertex_neighbors(cell: u64, level: u32, four: *mut CellId, count: &mut usize) -> i32;
    fn s2union_rust_expanded(ids: *const u64, n: usize, level: u32, cells: &mut Cells) -> i32;
    fn s2union_rust_area(ids: *const u64, n: usize) -> f64;
    fn s2union_rust_bounds(ids: *const u64, n: usize, sides: *mut f64) -> i32;
}
