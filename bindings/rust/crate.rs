mod around;
mod calls;
mod cell;
mod covering;
mod error;
mod file;
mod geo;
mod lists;
mod maps;
mod operators;
mod polygon;
mod union;
mod zones;

pub use calls::FaultName;
pub use cell::{CellId, FacePoint, Point, Square};
pub use covering::{Rect, MOST_COVERING};
pub use error::{Error, ShapeFault};
pub use file::UnionFile;
pub use geo::{Edges, Position, RegionCoverer, Shape};
pub use maps::{cover_geodesic_geojson, cover_geodesic_wkb, cover_geojson, cover_geojson_up_to, cover_wkb};
pub use maps::{cover_wkb_up_to, MAP_WORK, MOST_FEW};
pub use polygon::{Direction, Polygon};
pub use union::CellUnion;
pub use zones::{Pair, Zones};

/// The version of the library, as "1.0.0". Since 0.2.
///
/// # Examples
///
/// ```
/// # use s2union::*;
/// assert_eq!(version().split('.').count(), 3);
/// ```
pub fn version() -> String {
    let version = calls::version();
    format!("{}.{}.{}", version / 10_000, version / 100 % 100, version % 100)
}
