use std::fmt;

use crate::calls::{self, FaultName};
use crate::geo;

/// A refusal.
#[derive(Clone, Copy, Debug, PartialEq, Eq, Hash)]
#[non_exhaustive]
pub enum Error {
    /// There is no memory.
    Memory,
    /// A number is not the identifier of a cell, or a text names none.
    NoCell {
        /// The place of the first such number in a list, or the place in a text where the first such word begins.
        place: usize,
    },
    /// A list is not normalized; [`CellUnion::from_cells`](crate::CellUnion::from_cells) takes it.
    NotNormalized,
    /// A level, coordinate, modulus or order is out of range.
    Argument,
    /// The result would have more cells than are allowed.
    Many,
    /// Bytes of a file are missing.
    FileShort,
    /// The first byte of a file is not 1.
    FileVersion,
    /// Bytes follow the last identifier of a file.
    FileTrailing,
    /// An identifier in a file is that of no cell.
    FileCell,
    /// A corner of a polygon is no direction, or lies opposite the next corner of its ring.
    Corner {
        /// Which corner, from 0 on.
        place: usize,
    },
    /// A ring of a polygon ends in a wrong place or has fewer than three corners, or there is none.
    Ring {
        /// Which ring, from 0 on.
        place: usize,
    },
    /// A shape in degrees, or an option of its covering, is wrong.
    Shape {
        /// In which way.
        fault: ShapeFault,
        /// At which ring or line, from 0 on; 0 if no place is wrong.
        ring: usize,
        /// At which position of the ring, or at which byte of WKB; 0 if no place is wrong.
        position: usize,
    },
    /// A text of GeoJSON, or bytes of WKB, are no shape of polygons on the map. Since 1.5.
    NoShape {
        /// Why.
        fault: FaultName,
        /// How many bytes of WKB come before the fault; 0 of a text.
        byte: usize,
        /// How many points, lines and polygons come before it.
        part: usize,
        /// How many rings and lines have ended before it, of all parts.
        ring: usize,
        /// How many positions of its ring or line come before it.
        position: usize,
    },
    /// Another status below 0, of a later version of the library.
    Other(i32),
}

/// In which way a shape in degrees is wrong.
#[derive(Clone, Copy, Debug, PartialEq, Eq, Hash)]
#[non_exhaustive]
pub enum ShapeFault {
    /// A longitude or a latitude is out of range, or not a number.
    Number = -101,
    /// A ring has fewer than four positions, or a line none.
    Few = -102,
    /// The last position of a ring is not its first.
    Open = -103,
    /// The edges are too long for the number of positions.
    Pieces = -104,
    /// No place was found that is outside of the shape.
    Outside = -105,
    /// Two positions that follow each other lie opposite each other on the sphere.
    Opposite = -106,
    /// A number of cells, a level or a number of meters is out of range.
    Option = -107,
    /// The bytes are no WKB.
    Wkb = -108,
    /// The WKB has a type of geometry that has no covering.
    Type = -109,
    /// The coordinates of the WKB are no degrees: its SRID is neither 0 nor 4326.
    Srid = -110,
    /// The WKB has collections in more than 32 collections.
    Deep = -111,
}

impl ShapeFault {
    /// The fault of a status, if it is one.
    pub(crate) fn of(status: i32) -> Option<ShapeFault> {
        use ShapeFault::*;
        let all = [Number, Few, Open, Pieces, Outside, Opposite, Option, Wkb, Type, Srid, Deep];
        all.into_iter().find(|fault| fault.status() == status)
    }

    pub(crate) fn status(self) -> i32 {
        self as i32
    }
}

impl Error {
    /// The refusal of a status; `place` is what the call said of the place, if it says anything.
    pub(crate) fn of(status: i32, place: usize) -> Result<(), Error> {
        match status {
            0.. => Ok(()),
            calls::MEMORY => Err(Error::Memory),
            calls::NO_CELL => Err(Error::NoCell { place }),
            calls::ARGUMENT => Err(Error::Argument),
            calls::MANY => Err(Error::Many),
            calls::FILE_SHORT => Err(Error::FileShort),
            calls::FILE_VERSION => Err(Error::FileVersion),
            calls::FILE_TRAILING => Err(Error::FileTrailing),
            calls::FILE_CELL => Err(Error::FileCell),
            calls::CORNER => Err(Error::Corner { place }),
            calls::RING => Err(Error::Ring { place }),
            calls::NO_UNION => Err(Error::NotNormalized),
            _ => Err(Error::Other(status)),
        }
    }

    fn status(self) -> i32 {
        match self {
            Error::Memory => calls::MEMORY,
            Error::NoCell { .. } => calls::NO_CELL,
            Error::NotNormalized => calls::NO_UNION,
            Error::Argument => calls::ARGUMENT,
            Error::Many => calls::MANY,
            Error::FileShort => calls::FILE_SHORT,
            Error::FileVersion => calls::FILE_VERSION,
            Error::FileTrailing => calls::FILE_TRAILING,
            Error::FileCell => calls::FILE_CELL,
            Error::Corner { .. } => calls::CORNER,
            Error::Ring { .. } => calls::RING,
            Error::Shape { fault, .. } => fault.status(),
            Error::NoShape { .. } => calls::SHAPE,
            Error::Other(status) => status,
        }
    }
}

impl fmt::Display for Error {
    fn fmt(&self, f: &mut fmt::Formatter<'_>) -> fmt::Result {
        match self {
            Error::NoCell { place } | Error::Corner { place } | Error::Ring { place } => {
                write!(f, "{} at place {place}", calls::text(self.status()))
            }
            Error::Shape { fault, ring, position } => {
                use ShapeFault::*;
                f.write_str(geo::text(*fault))?;
                match fault {
                    Number | Few | Open | Opposite => write!(f, ": ring {ring}, position {position}"),
                    Pieces | Outside | Option => Ok(()),
                    Wkb | Type | Srid | Deep => write!(f, ": at byte {position}"),
                }
            }
            Error::NoShape { fault, byte, part, ring, position } => {
                write!(f, "{fault}: byte {byte}, part {part}, ring {ring}, position {position}")
            }
            Error::Other(status) => write!(f, "{} {status}", calls::text(*status)),
            known => f.write_str(calls::text(known.status())),
        }
    }
}

impl std::error::Error for Error {}
