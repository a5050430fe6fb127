use std::borrow::Borrow;
use std::fmt;
use std::str::FromStr;

use crate::calls;
use crate::cell::{text, CellId};
use crate::covering::Rect;
use crate::error::Error;
use crate::lists;

/// A set of leaves, as the one normalized list of cells that covers it: S2's `S2CellUnion`. It never changes.
///
/// As a set it has the operators `|`, `&`, `-` and `^`; as a list, iterators in ascending order. Equal sets are equal
/// lists, and have equal hashes and files. The order of unions is that of their lists, for maps and for sorting.
///
/// ```
/// use s2union::{CellId, CellUnion};
/// use std::collections::HashMap;
///
/// let (lawn, pond): (CellUnion, CellUnion) = ("04 0c 1c".parse()?, "14".parse()?);
/// assert_eq!(&lawn | &pond, CellUnion::from(CellId::from_face(0)?));
/// assert_eq!((&lawn & &pond).is_empty(), lawn.is_disjoint(&pond));
///
/// let levels: Vec<u32> = lawn.iter().map(CellId::level).collect();
/// assert_eq!(levels, [1, 1, 1]);
/// let park: CellUnion = lawn.iter().chain(&pond).collect(); // of cells, in any order; or of unions
/// let names = HashMap::from([(park, "park")]);
/// assert_eq!(names[&[lawn, pond].iter().collect::<CellUnion>()], "park");
/// # Ok::<(), s2union::Error>(())
/// ```
#[derive(Clone, Default, PartialEq, Eq, PartialOrd, Ord, Hash)]
pub struct CellUnion {
    cells: Vec<CellId>, // normalized
}

impl CellUnion {
    /// The empty union. Since 0.2.
    ///
    /// # Examples
    ///
    /// ```
    /// # use s2union::*;
    /// assert!(CellUnion::new().is_empty());
    /// ```
    pub fn new() -> CellUnion {
        CellUnion::default()
    }

    /// The union of cells in any order, repeated, or inside one another. It takes no memory, and gives back what is
    /// more than half as much again as the union needs. Since 0.2.
    ///
    /// # Examples
    ///
    /// ```
    /// # use s2union::*;
    /// let cells = CellId::from_tokens("0c 04 0c 14 1c")?;
    /// assert_eq!(CellUnion::from_cells(cells).to_string(), "1");
    /// # Ok::<(), Error>(())
    /// ```
    pub fn from_cells(cells: Vec<CellId>) -> CellUnion {
        CellUnion::from_ids(numbers_of(cells)).expect("cells are cells")
    }

    /// The same of numbers, which may be none of cells. Since 0.2.
    ///
    /// # Errors
    ///
    /// - [`Error::NoCell`]: a number is not the identifier of a cell; `place` is that of the first
    ///
    /// # Examples
    ///
    /// ```
    /// use s2union::{CellUnion, Error};
    ///
    /// let half = CellUnion::from_ids([0x0c00000000000000, 0x0400000000000000, 0x0c00000000000000])?;
    /// assert_eq!(half.to_string(), "04 0c");
    /// assert_eq!(CellUnion::from_ids([0x0400000000000000, 2]), Err(Error::NoCell { place: 1 }));
    /// # Ok::<(), s2union::Error>(())
    /// ```
    pub fn from_ids(ids: impl Into<Vec<u64>>) -> Result<CellUnion, Error> {
        let mut ids = ids.into();
        lists::normalise(&mut ids)?;
        Ok(CellUnion { cells: cells_of(ids) })
    }

    /// The union whose cells these are. It takes as many steps as there are cells. Since 0.2.
    ///
    /// # Errors
    ///
    /// - [`Error::NotNormalized`]: the cells are not normalized: [`CellUnion::from_cells`] takes them
    ///
    /// # Examples
    ///
    /// ```
    /// # use s2union::*;
    /// let mut cells = CellId::from_tokens("04 0c")?;
    /// assert_eq!(CellUnion::from_normalized(cells.clone())?.len(), 2);
    /// cells.reverse();
    /// assert_eq!(CellUnion::from_normalized(cells), Err(Error::NotNormalized));
    /// # Ok::<(), Error>(())
    /// ```
    pub fn from_normalized(cells: Vec<CellId>) -> Result<CellUnion, Error> {
        if is_normalized(&cells) {
            Ok(CellUnion { cells })
        } else {
            Err(Error::NotNormalized)
        }
    }

    /// The leaves from `begin` up to `end`, which is not one of them; all from `begin` if there is no `end`. Since 0.2.
    ///
    /// # Errors
    ///
    /// - [`Error::Argument`]: one is no leaf, or `end` comes first
    /// - [`Error::Memory`]: there is no memory
    ///
    /// # Examples
    ///
    /// ```
    /// # use s2union::*;
    /// let begin = CellId::from_token("04")?.range_min();
    /// let end = CellId::from_token("14")?.range_min();
    /// assert_eq!(CellUnion::from_begin_end(begin, Some(end))?.to_string(), "04 0c");
    /// assert_eq!(CellUnion::from_begin_end(end, Some(begin)), Err(Error::Argument));
    /// # Ok::<(), Error>(())
    /// ```
    pub fn from_begin_end(begin: CellId, end: Option<CellId>) -> Result<CellUnion, Error> {
        let last = match end {
            Some(end) if end == begin && end.is_leaf() => return Ok(CellUnion::new()),
            Some(end) if end.is_leaf() => end.prev().ok_or(Error::Argument)?,
            Some(_) => return Err(Error::Argument),
            None => CellId::from_face(5)?.range_max(),
        };
        if begin.is_leaf() {
            CellUnion::from_range(begin, last)
        } else {
            Err(Error::Argument)
        }
    }

    /// All leaves. Since 0.2.
    ///
    /// # Examples
    ///
    /// ```
    /// # use s2union::*;
    /// assert_eq!(CellUnion::whole_sphere().to_string(), "1 3 5 7 9 b");
    /// ```
    pub fn whole_sphere() -> CellUnion {
        (0..6).map(|face| CellId::from_face(face).expect("there are six faces")).collect()
    }

    /// How many cells the union has. Since 0.2.
    ///
    /// # Examples
    ///
    /// ```
    /// # use s2union::*;
    /// let half: CellUnion = "04 0c".parse()?;
    /// assert_eq!(half.len(), 2);
    /// # Ok::<(), Error>(())
    /// ```
    pub fn len(&self) -> usize {
        self.cells.len()
    }

    /// Whether the union has no leaf. Since 0.2.
    ///
    /// # Examples
    ///
    /// ```
    /// # use s2union::*;
    /// let half: CellUnion = "04 0c".parse()?;
    /// assert!(!half.is_empty() && (&half - &half).is_empty());
    /// # Ok::<(), Error>(())
    /// ```
    pub fn is_empty(&self) -> bool {
        self.cells.is_empty()
    }

    /// The cells, in ascending order. Since 0.2.
    ///
    /// # Examples
    ///
    /// ```
    /// # use s2union::*;
    /// let half: CellUnion = "04 0c".parse()?;
    /// assert_eq!(half.cells(), CellId::from_tokens("04 0c")?);
    /// # Ok::<(), Error>(())
    /// ```
    pub fn cells(&self) -> &[CellId] {
        &self.cells
    }

    /// The cells themselves. Since 0.2.
    ///
    /// # Examples
    ///
    /// ```
    /// # use s2union::*;
    /// let half: CellUnion = "04 0c".parse()?;
    /// assert_eq!(half.into_cells(), CellId::from_tokens("04 0c")?);
    /// # Ok::<(), Error>(())
    /// ```
    pub fn into_cells(self) -> Vec<CellId> {
        self.cells
    }

    /// An iterator over the cells, in ascending order. Since 0.2.
    ///
    /// # Examples
    ///
    /// ```
    /// # use s2union::*;
    /// let half: CellUnion = "04 0c".parse()?;
    /// assert_eq!(half.iter().map(CellId::leaf_count).sum::<u64>(), half.leaf_count());
    /// # Ok::<(), Error>(())
    /// ```
    pub fn iter(&self) -> std::iter::Copied<std::slice::Iter<'_, CellId>> {
        self.cells.iter().copied()
    }

    // comment: cells_at
    pub fn cells_at(&self, cell: CellId) -> &[CellId] {
        let (mut first, mut count) = (0, 0);
        calls::cells_at(self.as_ref(), cell.id(), &mut first, &mut count);
        &self.cells[first..first + count]
    }

    /// `contains`, by the name that sets have for it. Since 0.2.
    ///
    /// # Examples
    ///
    /// ```
    /// # use s2union::*;
    /// let (park, pond): (CellUnion, CellUnion) = ("1".parse()?, "14".parse()?);
    /// assert!(park.is_superset(&pond) && !pond.is_superset(&park));
    /// # Ok::<(), Error>(())
    /// ```
    pub fn is_superset(&self, other: &CellUnion) -> bool {
        self.contains(other)
    }

    /// Whether another union has all leaves of this one. Since 0.2.
    ///
    /// # Examples
    ///
    /// ```
    /// # use s2union::*;
    /// let (park, pond): (CellUnion, CellUnion) = ("1".parse()?, "14".parse()?);
    /// assert!(pond.is_subset(&park) && !park.is_subset(&pond));
    /// # Ok::<(), Error>(())
    /// ```
    pub fn is_subset(&self, other: &CellUnion) -> bool {
        other.contains(self)
    }

    /// Whether two unions share no leaf. Since 0.2.
    ///
    /// # Examples
    ///
    /// ```
    /// # use s2union::*;
    /// let (park, pond): (CellUnion, CellUnion) = ("1".parse()?, "14".parse()?);
    /// assert!(pond.is_disjoint(&(&park - &pond)) && !pond.is_disjoint(&park));
    /// # Ok::<(), Error>(())
    /// ```
    pub fn is_disjoint(&self, other: &CellUnion) -> bool {
        !self.intersects(other)
    }

    /// The leaves of any of many unions, in one call, which merges them in pairs. It takes memory for about four times
    /// their cells. Since 1.0.
    ///
    /// # Errors
    ///
    /// - [`Error::Memory`]: there is no memory, where `collect` panics
    ///
    /// # Examples
    ///
    /// ```
    /// use s2union::CellUnion;
    ///
    /// let quarters: Vec<CellUnion> = ["04", "0c", "14", "1c"].map(|token| token.parse().unwrap()).into();
    /// assert_eq!(CellUnion::union_of(&quarters)?.to_string(), "1");
    /// assert_eq!(CellUnion::union_of(&quarters[1..])?.to_string(), "0c 14 1c");
    /// # Ok::<(), s2union::Error>(())
    /// ```
    pub fn union_of<I>(unions: I) -> Result<CellUnion, Error>
    where
        I: IntoIterator,
        I::Item: Borrow<CellUnion>,
    {
        let (mut ids, mut ends) = (Vec::new(), Vec::new());
        for union in unions {
            lists::append(&mut ids, union.borrow().as_ref())?;
            lists::append(&mut ends, &[ids.len()])?;
        }
        CellUnion::made(lists::union_of_many(&ids, &ends))
    }

    /// The leaves of a cell that the union has. Since 0.2.
    ///
    /// # Errors
    ///
    /// - [`Error::Memory`]: there is no memory
    ///
    /// # Examples
    ///
    /// ```
    /// # use s2union::*;
    /// let half: CellUnion = "04 0c".parse()?;
    /// assert_eq!(half.intersection_with_cell("1".parse()?)?, half);
    /// assert_eq!(half.intersection_with_cell("0401".parse()?)?.to_string(), "0401");
    /// # Ok::<(), Error>(())
    /// ```
    pub fn intersection_with_cell(&self, cell: CellId) -> Result<CellUnion, Error> {
        let found = if self.contains_cell(cell) { std::slice::from_ref(&cell) } else { self.cells_at(cell) };
        let mut cells = lists::roomy(found.len())?;
        cells.extend_from_slice(found);
        Ok(CellUnion { cells })
    }

    // comment: denormalised
    pub fn denormalized(&self, min_level: u32, modulus: u32, most: usize) -> Result<Vec<CellId>, Error> {
        let len = self.denormalized_len(min_level, modulus)?;
        if len > most as u64 {
            return Err(Error::Many);
        }
        lists::denormalised(self.as_ref(), min_level, modulus, len as usize).map(cells_of)
    }

    // methods: all others

    /// The union whose normalized list a call has made.
    pub(crate) fn made(ids: Result<Vec<u64>, Error>) -> Result<CellUnion, Error> {
        Ok(CellUnion { cells: cells_of(ids?) })
    }
}

/// Whether these are the cells of a union. It takes as many steps as there are cells.
fn is_normalized(cells: &[CellId]) -> bool {
    calls::is_union(numbers(cells)) == 1
}

pub(crate) fn numbers(cells: &[CellId]) -> &[u64] {
    // SAFETY: a cell has the layout of its number.
    unsafe { std::slice::from_raw_parts(cells.as_ptr().cast(), cells.len()) }
}

/// The cells of numbers that a call has made, which are cells.
pub(crate) fn cells_of(ids: Vec<u64>) -> Vec<CellId> {
    let mut ids = std::mem::ManuallyDrop::new(ids);
    // SAFETY: a cell has the layout of its number, which is not 0.
    unsafe { Vec::from_raw_parts(ids.as_mut_ptr().cast(), ids.len(), ids.capacity()) }
}

fn numbers_of(cells: Vec<CellId>) -> Vec<u64> {
    let mut cells = std::mem::ManuallyDrop::new(cells);
    // SAFETY: as above.
    unsafe { Vec::from_raw_parts(cells.as_mut_ptr().cast(), cells.len(), cells.capacity()) }
}

impl AsRef<[u64]> for CellUnion {
    fn as_ref(&self) -> &[u64] {
        numbers(&self.cells)
    }
}

/// The union of the cells that a text names, as [`CellId::from_tokens`].
impl FromStr for CellUnion {
    type Err = Error;
    fn from_str(text: &str) -> Result<CellUnion, Error> {
        CellUnion::from_ids(lists::from_tokens(text.as_bytes())?)
    }
}

/// The tokens, with blanks between them.
impl fmt::Display for CellUnion {
    fn fmt(&self, f: &mut fmt::Formatter<'_>) -> fmt::Result {
        f.pad(&text(lists::tokens(self.as_ref())))
    }
}

/// The debug texts of the cells.
impl fmt::Debug for CellUnion {
    fn fmt(&self, f: &mut fmt::Formatter<'_>) -> fmt::Result {
        f.debug_set().entries(self).finish()
    }
}
