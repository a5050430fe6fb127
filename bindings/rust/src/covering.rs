use crate::calls;
use crate::error::Error;
use crate::lists;
use crate::union::CellUnion;

/// The most cells that a covering may have.
pub const MOST_COVERING: usize = calls::MOST_COVERING;

/// The leaves of a face with `i0 <= i <= i1` and `j0 <= j <= j1`, all below 2^30.
///
/// ```
/// use s2union::Rect;
///
/// let edge = Rect { face: 0, i0: 0, i1: (1 << 30) - 1, j0: 0, j1: 0 };
/// assert_eq!(edge.outer(1, 10)?.to_string(), "04 1c");
/// assert!(edge.inner(1, 10)?.is_empty());
/// # Ok::<(), s2union::Error>(())
/// ```
#[derive(Clone, Copy, Debug, PartialEq, Eq, Hash)]
#[repr(C)] // s2u_rect
pub struct Rect {
    /// 0 to 5.
    pub face: u32,
    /// The least first coordinate.
    pub i0: u32,
    /// The greatest first coordinate.
    pub i1: u32,
    /// The least second coordinate.
    pub j0: u32,
    /// The greatest second coordinate.
    pub j1: u32,
}

impl Rect {
    // methods: all others
}
