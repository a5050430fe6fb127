//! The cell unions of S2, proved: a set of leaf cells of the sphere as the one normalized list of cells that covers it.
//! All work is done by the library libs2union, whose every call is proved; this crate turns its statuses into errors,
//! and does no arithmetic on cells.
//!
//! ```
//! use s2union::{CellUnion, CellId};
//!
//! let park: CellUnion = "04 0c 14 1c".parse()?; // four siblings are their parent
//! let pond: CellUnion = "14".parse()?;
//! let lawn = &park - &pond;
//! assert_eq!((park.to_string(), lawn.to_string()), ("1".into(), "04 0c 1c".into()));
//!
//! let tree: CellId = "0401".parse()?;
//! assert!(lawn.contains_cell(tree) && !pond.contains_cell(tree) && lawn.is_subset(&park));
//! # Ok::<(), s2union::Error>(())
//! ```
//!
//! A [`CellId`] is always a cell, and a [`CellUnion`] is always normalized and never changes, so only what comes from
//! outside can be refused: numbers, lists, texts, files, levels. If there is no memory, calls that answer a [`Result`],
//! as `union`, `union_of` and `intersection` do, answer [`Error::Memory`]; the operators `|`, `&`, `-`, `^` and `!`,
//! `collect` of unions, and texts that are made, panic; `collect` of cells, calls for many cells that answer a [`Vec`],
//! and a list that becomes one, end the program, as [`Vec`] does.
//!
//! A [`RegionCoverer`] covers polygons, lines, circles and boxes in degrees by proved calls; how degrees become whole
//! numbers is plain C, tested beside S2 and not proved.
#![warn(missing_docs)]

include!(concat!(env!("OUT_DIR"), "/crate.rs"));
