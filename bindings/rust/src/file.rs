use std::fmt;

use crate::calls;
use crate::cell::CellId;
use crate::error::Error;
use crate::lists;
use crate::union::{cells_of, numbers, CellUnion};

/// The bytes of a union file, which answer questions in place, as in a mapped file or a row of a table: nothing is
/// copied.
///
/// ```
/// use s2union::{CellUnion, UnionFile};
///
/// let bytes = "04 0c".parse::<CellUnion>()?.encode()?;
/// let file = UnionFile::new(&bytes)?;
/// assert!(file.len() == 2 && file.contains_cell("0401".parse()?));
/// # Ok::<(), s2union::Error>(())
/// ```
#[derive(Clone, Copy)]
pub struct UnionFile<'a> {
    bytes: &'a [u8], // the file that `encode` makes of some union
}

impl<'a> UnionFile<'a> {
    /// Checks the bytes once: they must be those that [`CellUnion::encode`] makes of some union. Since 0.2.
    ///
    /// # Errors
    ///
    /// - [`Error::FileShort`]: bytes are missing
    /// - [`Error::FileVersion`]: the first byte is not 1
    /// - [`Error::FileTrailing`]: bytes follow the last cell
    /// - [`Error::FileCell`]: a number in the file is not the identifier of a cell
    /// - [`Error::NotNormalized`]: the cells of the file are not normalized: [`CellUnion::decode`] takes it
    ///
    /// # Examples
    ///
    /// ```
    /// # use s2union::*;
    /// let bytes = "04 0c".parse::<CellUnion>()?.encode()?;
    /// assert_eq!(UnionFile::new(&bytes)?.len(), 2);
    /// assert_eq!(UnionFile::new(&bytes[..24]).err(), Some(Error::FileShort));
    /// # Ok::<(), Error>(())
    /// ```
    pub fn new(bytes: &'a [u8]) -> Result<UnionFile<'a>, Error> {
        match calls::file_check(bytes) {
            0 => Err(Error::NotNormalized),
            status => Error::of(status, 0).map(|()| UnionFile { bytes }),
        }
    }

    // comment: file_count
    pub fn len(&self) -> usize {
        let mut count = 0;
        calls::file_count(self.bytes, &mut count);
        count as usize
    }

    /// Whether the union has no leaf. Since 0.2.
    ///
    /// # Examples
    ///
    /// ```
    /// # use s2union::*;
    /// let bytes = CellUnion::new().encode()?;
    /// assert!(UnionFile::new(&bytes)?.is_empty());
    /// # Ok::<(), Error>(())
    /// ```
    pub fn is_empty(&self) -> bool {
        self.len() == 0
    }

    // comment: file_cell
    pub fn cell(&self, place: usize) -> Option<CellId> {
        let mut id = 0;
        calls::file_cell(self.bytes, place as u64, &mut id);
        CellId::made(id)
    }

    // methods: all others

    /// The union, copied. Since 0.2.
    ///
    /// # Errors
    ///
    /// - [`Error::Memory`]: there is no memory
    ///
    /// # Examples
    ///
    /// ```
    /// # use s2union::*;
    /// let bytes = "04 0c".parse::<CellUnion>()?.encode()?;
    /// assert_eq!(UnionFile::new(&bytes)?.to_union()?.to_string(), "04 0c");
    /// # Ok::<(), Error>(())
    /// ```
    pub fn to_union(&self) -> Result<CellUnion, Error> {
        CellUnion::decode(self.bytes)
    }
}

/// The debug texts of the cells.
impl fmt::Debug for UnionFile<'_> {
    fn fmt(&self, f: &mut fmt::Formatter<'_>) -> fmt::Result {
        f.debug_set().entries((0..self.len()).filter_map(|place| self.cell(place))).finish()
    }
}
