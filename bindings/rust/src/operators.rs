//! A union as a collection of cells, and as a set with operators.

use std::ops::{BitAnd, BitAndAssign, BitOr, BitOrAssign, BitXor, BitXorAssign, Not, Sub, SubAssign};

use crate::cell::CellId;
use crate::error::Error;
use crate::union::CellUnion;

macro_rules! operator {
    ($trait:ident, $name:ident, $assigning:ident, $assign:ident, $method:ident) => {
        /// Panics if there is no memory, where the method answers [`Error::Memory`].
        impl $trait for &CellUnion {
            type Output = CellUnion;
            fn $name(self, other: &CellUnion) -> CellUnion {
                always(self.$method(other))
            }
        }
        impl $trait for CellUnion {
            type Output = CellUnion;
            fn $name(self, other: CellUnion) -> CellUnion {
                (&self).$name(&other)
            }
        }
        impl $trait<&CellUnion> for CellUnion {
            type Output = CellUnion;
            fn $name(self, other: &CellUnion) -> CellUnion {
                (&self).$name(other)
            }
        }
        impl $trait<CellUnion> for &CellUnion {
            type Output = CellUnion;
            fn $name(self, other: CellUnion) -> CellUnion {
                self.$name(&other)
            }
        }
        impl $assigning<&CellUnion> for CellUnion {
            fn $assign(&mut self, other: &CellUnion) {
                *self = (&*self).$name(other);
            }
        }
        impl $assigning for CellUnion {
            fn $assign(&mut self, other: CellUnion) {
                self.$assign(&other);
            }
        }
    };
}
operator!(BitOr, bitor, BitOrAssign, bitor_assign, union);
operator!(BitAnd, bitand, BitAndAssign, bitand_assign, intersection);
operator!(Sub, sub, SubAssign, sub_assign, difference);
operator!(BitXor, bitxor, BitXorAssign, bitxor_assign, symmetric_difference);

/// The complement. Panics if there is no memory, where [`CellUnion::complement`] answers [`Error::Memory`].
impl Not for &CellUnion {
    type Output = CellUnion;
    fn not(self) -> CellUnion {
        always(self.complement())
    }
}

impl Not for CellUnion {
    type Output = CellUnion;
    fn not(self) -> CellUnion {
        !&self
    }
}

/// What a call made that is refused only if there is no memory.
fn always(made: Result<CellUnion, Error>) -> CellUnion {
    made.unwrap_or_else(|error| panic!("{error}"))
}

/// Takes memory as [`Vec`] does.
impl FromIterator<CellId> for CellUnion {
    fn from_iter<I: IntoIterator<Item = CellId>>(cells: I) -> CellUnion {
        CellUnion::from_cells(cells.into_iter().collect())
    }
}

/// The union of unions, made at once. Panics if there is no memory, where [`CellUnion::union_of`] answers
/// [`Error::Memory`].
impl<'a> FromIterator<&'a CellUnion> for CellUnion {
    fn from_iter<I: IntoIterator<Item = &'a CellUnion>>(unions: I) -> CellUnion {
        always(CellUnion::union_of(unions))
    }
}

/// The union of unions, made at once. Panics if there is no memory, where [`CellUnion::union_of`] answers
/// [`Error::Memory`].
impl FromIterator<CellUnion> for CellUnion {
    fn from_iter<I: IntoIterator<Item = CellUnion>>(unions: I) -> CellUnion {
        always(CellUnion::union_of(unions))
    }
}

impl IntoIterator for CellUnion {
    type Item = CellId;
    type IntoIter = std::vec::IntoIter<CellId>;
    fn into_iter(self) -> Self::IntoIter {
        self.into_cells().into_iter()
    }
}

impl<'a> IntoIterator for &'a CellUnion {
    type Item = CellId;
    type IntoIter = std::iter::Copied<std::slice::Iter<'a, CellId>>;
    fn into_iter(self) -> Self::IntoIter {
        self.iter()
    }
}

/// The union of the leaves of one cell.
impl From<CellId> for CellUnion {
    fn from(cell: CellId) -> CellUnion {
        CellUnion::from_cells(vec![cell])
    }
}

/// The union of cells, as [`CellUnion::from_cells`].
impl From<Vec<CellId>> for CellUnion {
    fn from(cells: Vec<CellId>) -> CellUnion {
        CellUnion::from_cells(cells)
    }
}

/// The union of cells, as [`CellUnion::from_cells`].
impl<const N: usize> From<[CellId; N]> for CellUnion {
    fn from(cells: [CellId; N]) -> CellUnion {
        CellUnion::from_cells(cells.into())
    }
}

/// Adds the leaves of cells, all at once. Panics if there is no memory.
impl Extend<CellId> for CellUnion {
    fn extend<I: IntoIterator<Item = CellId>>(&mut self, cells: I) {
        *self |= cells.into_iter().collect::<CellUnion>();
    }
}

/// Adds the leaves of unions, all at once. Panics if there is no memory.
impl<'a> Extend<&'a CellUnion> for CellUnion {
    fn extend<I: IntoIterator<Item = &'a CellUnion>>(&mut self, unions: I) {
        *self |= unions.into_iter().collect::<CellUnion>();
    }
}

/// Adds the leaves of unions, all at once. Panics if there is no memory.
impl Extend<CellUnion> for CellUnion {
    fn extend<I: IntoIterator<Item = CellUnion>>(&mut self, unions: I) {
        *self |= unions.into_iter().collect::<CellUnion>();
    }
}
