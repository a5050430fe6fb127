//! The cells and the unions of [`s2union`], as serde writes and reads them: by `#[serde(with = "s2union_serde")]`.
//! It is a crate of its own so that `s2union` needs no other.
//!
//! ```
//! use s2union::{CellId, CellUnion};
//! use serde::{Deserialize, Serialize};
//!
//! #[derive(Serialize, Deserialize)]
//! struct Park {
//!     #[serde(with = "s2union_serde")]
//!     region: CellUnion,
//!     #[serde(with = "s2union_serde")]
//!     gate: CellId,
//! }
//!
//! let park: Park = serde_json::from_str(r#"{"region": "04 0c 14 1c", "gate": "0401"}"#)?;
//! assert!(park.region.contains_cell(park.gate));
//! assert_eq!(serde_json::to_string(&park)?, r#"{"region":"1","gate":"0401"}"#);
//! # Ok::<(), serde_json::Error>(())
//! ```
//!
//! In formats for people, such as JSON, a cell is its token, and a union the tokens of its cells with blanks between
//! them; debug texts are read too. In others a cell is its number, and a union the bytes of its file, which are those
//! of S2's own `Encode`. What is read is refused as `s2union` refuses it.
#![warn(missing_docs)]

use std::fmt;
use std::marker::PhantomData;

use s2union::{CellId, CellUnion, Error};
use serde::de::{self, Deserializer, Visitor};
use serde::ser::{self, Serializer};

mod sealed {
    pub trait Sealed {}
    impl Sealed for s2union::CellId {}
    impl Sealed for s2union::CellUnion {}
}

/// What is written and read: a [`CellId`] or a [`CellUnion`].
pub trait Stored: sealed::Sealed + Sized + fmt::Display + std::str::FromStr<Err = Error> {
    /// What a format that isn't for people has to have here.
    const EXPECTED: &'static str;
    /// Writes it for a format that isn't for people.
    fn write<S: Serializer>(&self, serializer: S) -> Result<S::Ok, S::Error>;
    /// Asks such a format for it.
    fn read<'de, D: Deserializer<'de>>(deserializer: D) -> Result<Self, D::Error>;
    /// What a number stands for, if it stands for something.
    fn of_number(number: u64) -> Option<Result<Self, Error>>;
    /// What bytes stand for, if they stand for something.
    fn of_bytes(bytes: &[u8]) -> Option<Result<Self, Error>>;
}

impl Stored for CellId {
    const EXPECTED: &'static str = "the token or the number of a cell";
    fn write<S: Serializer>(&self, serializer: S) -> Result<S::Ok, S::Error> {
        serializer.serialize_u64(self.id())
    }
    fn read<'de, D: Deserializer<'de>>(deserializer: D) -> Result<Self, D::Error> {
        deserializer.deserialize_u64(Reader(PhantomData))
    }
    fn of_number(number: u64) -> Option<Result<Self, Error>> {
        Some(CellId::try_from(number))
    }
    fn of_bytes(_: &[u8]) -> Option<Result<Self, Error>> {
        None
    }
}

impl Stored for CellUnion {
    const EXPECTED: &'static str = "the tokens or the file of a union";
    fn write<S: Serializer>(&self, serializer: S) -> Result<S::Ok, S::Error> {
        serializer.serialize_bytes(&self.encode().map_err(ser::Error::custom)?)
    }
    fn read<'de, D: Deserializer<'de>>(deserializer: D) -> Result<Self, D::Error> {
        deserializer.deserialize_bytes(Reader(PhantomData))
    }
    fn of_number(_: u64) -> Option<Result<Self, Error>> {
        None
    }
    fn of_bytes(bytes: &[u8]) -> Option<Result<Self, Error>> {
        Some(CellUnion::decode(bytes))
    }
}

/// Writes a cell or a union.
pub fn serialize<T: Stored, S: Serializer>(value: &T, serializer: S) -> Result<S::Ok, S::Error> {
    if serializer.is_human_readable() {
        serializer.collect_str(value)
    } else {
        value.write(serializer)
    }
}

/// Reads a cell or a union.
pub fn deserialize<'de, T: Stored, D: Deserializer<'de>>(deserializer: D) -> Result<T, D::Error> {
    if deserializer.is_human_readable() {
        deserializer.deserialize_str(Reader(PhantomData))
    } else {
        T::read(deserializer)
    }
}

struct Reader<T>(PhantomData<T>);

impl<T: Stored> Visitor<'_> for Reader<T> {
    type Value = T;

    fn expecting(&self, f: &mut fmt::Formatter<'_>) -> fmt::Result {
        f.write_str(T::EXPECTED)
    }

    fn visit_str<E: de::Error>(self, text: &str) -> Result<T, E> {
        text.parse().map_err(E::custom)
    }

    fn visit_u64<E: de::Error>(self, number: u64) -> Result<T, E> {
        let found = T::of_number(number).ok_or_else(|| E::invalid_type(de::Unexpected::Unsigned(number), &self))?;
        found.map_err(E::custom)
    }

    fn visit_bytes<E: de::Error>(self, bytes: &[u8]) -> Result<T, E> {
        let found = T::of_bytes(bytes).ok_or_else(|| E::invalid_type(de::Unexpected::Bytes(bytes), &self))?;
        found.map_err(E::custom)
    }
}
