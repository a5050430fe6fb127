use std::fmt;
use std::num::NonZeroU64;
use std::str::FromStr;

use crate::calls;
use crate::error::Error;
use crate::lists;
use crate::union::{cells_of, numbers};

/// The identifier of a cell: S2's `S2CellId`, but never of none. Cells are in the order of the curve.
///
/// ```
/// use s2union::CellId;
///
/// let cell = CellId::from_token("89c25")?;
/// assert_eq!((cell.level(), cell.face(), cell.debug()), (8, 4, "4/10320102".to_string()));
/// assert!(cell.parent(5).unwrap().contains(cell));
/// assert_eq!(CellId::try_from(cell.signed()), Ok(cell)); // as a BIGINT of a database
/// assert_eq!(CellId::from_id(2), None);
/// # Ok::<(), s2union::Error>(())
/// ```
#[derive(Clone, Copy, PartialEq, Eq, PartialOrd, Ord, Hash)]
#[repr(transparent)]
pub struct CellId(NonZeroU64);

/// The square of a cell on its face: its least coordinates and its side, in leaves.
#[derive(Clone, Copy, Debug, Default, PartialEq, Eq, Hash)]
#[repr(C)] // s2u_square
pub struct Square {
    /// 0 to 5.
    pub face: u32,
    /// The least first coordinate.
    pub i: u32,
    /// The least second coordinate.
    pub j: u32,
    /// The side, 1 to 2^30.
    pub size: u32,
}

/// A leaf's face and its coordinates there.
#[derive(Clone, Copy, Debug, PartialEq, Eq, Hash)]
#[repr(C)] // s2u_point
pub struct Point {
    /// 0 to 5.
    pub face: u32,
    /// The first coordinate, below 2^30.
    pub i: u32,
    /// The second coordinate, below 2^30.
    pub j: u32,
}

/// The name of [`Point`] in 1.0.
pub type FacePoint = Point;

impl CellId {
    /// The cell with this number, if it is that of one: S2's `is_valid`. Since 0.2.
    ///
    /// # Examples
    ///
    /// ```
    /// # use s2union::*;
    /// assert_eq!(CellId::from_id(0x1000000000000000).map(CellId::level), Some(0));
    /// assert_eq!(CellId::from_id(2), None);
    /// ```
    pub fn from_id(id: u64) -> Option<CellId> {
        if calls::is_cell(id) == 1 {
            CellId::made(id)
        } else {
            None
        }
    }

    /// The number of the cell. Since 0.2.
    ///
    /// # Examples
    ///
    /// ```
    /// # use s2union::*;
    /// assert_eq!(CellId::from_token("04")?.id(), 0x0400000000000000);
    /// # Ok::<(), Error>(())
    /// ```
    pub fn id(self) -> u64 {
        self.0.get()
    }

    /// The number of the same 64 bits with a sign, as databases have it. No cell can be read in two ways. Since 0.2.
    ///
    /// # Examples
    ///
    /// ```
    /// # use s2union::*;
    /// let last = CellId::from_face(5)?;
    /// assert_eq!(last.signed(), -0x5000000000000000);
    /// assert_eq!(CellId::try_from(last.signed()), Ok(last));
    /// # Ok::<(), Error>(())
    /// ```
    pub fn signed(self) -> i64 {
        self.id() as i64
    }

    /// The cell of a whole face, 0 to 5. Since 0.2.
    ///
    /// # Errors
    ///
    /// - [`Error::Argument`]: the face is above 5
    ///
    /// # Examples
    ///
    /// ```
    /// # use s2union::*;
    /// assert_eq!(CellId::from_face(0)?.token(), "1");
    /// assert_eq!(CellId::from_face(6), Err(Error::Argument));
    /// # Ok::<(), Error>(())
    /// ```
    pub fn from_face(face: u32) -> Result<CellId, Error> {
        CellId::from_face_ij(face, 0, 0)?.parent(0).ok_or(Error::Argument)
    }

    /// Whether the cell is at level 30. Since 0.2.
    ///
    /// # Examples
    ///
    /// ```
    /// # use s2union::*;
    /// let cell = CellId::from_token("04")?;
    /// assert!(cell.range_min().is_leaf() && !cell.is_leaf());
    /// # Ok::<(), Error>(())
    /// ```
    pub fn is_leaf(self) -> bool {
        self.level() == 30
    }

    /// Whether the cell is a whole face. Since 0.2.
    ///
    /// # Examples
    ///
    /// ```
    /// # use s2union::*;
    /// let cell = CellId::from_token("1")?;
    /// assert!(cell.is_face() && !cell.range_min().is_face());
    /// # Ok::<(), Error>(())
    /// ```
    pub fn is_face(self) -> bool {
        self.level() == 0
    }

    // comment: square_of
    pub fn square(self) -> Square {
        let mut found = Square::default();
        calls::square_of(self.id(), &mut found);
        found
    }

    // comment: parents
    pub fn parents(cells: &[CellId], level: u32) -> Vec<Option<CellId>> {
        lists::parents(numbers(cells), level).into_iter().map(CellId::made).collect()
    }

    // comment: token_fields
    pub fn token_fields(cells: &[CellId]) -> Vec<[u8; calls::MOST_TOKEN]> {
        let text = lists::token_fields(numbers(cells));
        let mut fields = vec![[0; calls::MOST_TOKEN]; cells.len()];
        for (field, bytes) in fields.iter_mut().zip(text.chunks_exact(calls::MOST_TOKEN)) {
            field.copy_from_slice(bytes);
        }
        fields
    }

    // comment: from_points
    pub fn from_points(points: &[Point]) -> Vec<Option<CellId>> {
        lists::from_points(points).into_iter().map(CellId::made).collect()
    }

    // methods: all others

    /// The cell that a call answers; none if that is 0.
    pub(crate) fn made(id: u64) -> Option<CellId> {
        NonZeroU64::new(id).map(CellId)
    }

    fn from_status(status: i32, id: u64) -> Result<CellId, Error> {
        Error::of(status, 0)?;
        CellId::made(id).ok_or(Error::NoCell { place: 0 })
    }
}

/// What a call has written, of which only the lack of memory can be refused.
pub(crate) fn text(written: Result<Vec<u8>, Error>) -> String {
    let bytes = written.unwrap_or_else(|error| panic!("{error}"));
    String::from_utf8(bytes).expect("the library writes ASCII")
}

/// The cell of a token or of a debug text.
impl FromStr for CellId {
    type Err = Error;
    fn from_str(text: &str) -> Result<CellId, Error> {
        CellId::from_token(text).or_else(|_| CellId::from_debug(text))
    }
}

impl TryFrom<u64> for CellId {
    type Error = Error;
    fn try_from(id: u64) -> Result<CellId, Error> {
        CellId::from_id(id).ok_or(Error::NoCell { place: 0 })
    }
}

/// The cell whose number has these 64 bits.
impl TryFrom<i64> for CellId {
    type Error = Error;
    fn try_from(id: i64) -> Result<CellId, Error> {
        CellId::try_from(id as u64)
    }
}

impl From<CellId> for u64 {
    fn from(cell: CellId) -> u64 {
        cell.id()
    }
}

/// The signed number of the same 64 bits, as databases have it.
impl From<CellId> for i64 {
    fn from(cell: CellId) -> i64 {
        cell.signed()
    }
}

/// The number in hexadecimal, with the zeros at its end: 16 digits with `{:016x}`.
impl fmt::LowerHex for CellId {
    fn fmt(&self, f: &mut fmt::Formatter<'_>) -> fmt::Result {
        fmt::LowerHex::fmt(&self.id(), f)
    }
}

/// The token.
impl fmt::Display for CellId {
    fn fmt(&self, f: &mut fmt::Formatter<'_>) -> fmt::Result {
        f.pad(&self.token())
    }
}

/// The debug text.
impl fmt::Debug for CellId {
    fn fmt(&self, f: &mut fmt::Formatter<'_>) -> fmt::Result {
        f.pad(&self.debug())
    }
}
