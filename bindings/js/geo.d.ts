import {Cell, CellUnion} from "./s2union.js";

/** A longitude and then a latitude, in degrees: from -540 to 540 and from -90 to 90. */
export type Position = [longitude: number, latitude: number] | number[];

/**
 * Polygons, lines and points: GeoJSON, as an object or as a text, whose lists may be typed arrays; or the bytes of WKB,
 * with or without an SRID.
 */
export type Shape = object | string | Uint8Array | ArrayBuffer;

/** Options of a covering, with the names of S2RegionCoverer where that has them. */
export interface CoveringOptions {
  /** The most cells, 0 to 1,000,000: 200, and 1,000,000 with `within`. A shape on more faces has these. */
  maxCells?: number;
  /** 0 to `maxLevel`: cells at the border are as deep, even if there are more than `maxCells` then. 0 if not given. */
  minLevel?: number;
  /** 0 to 30: no cell is deeper. 30 if not given. */
  maxLevel?: number;
  /** Meters: no place of a covering is farther from the shape and its margin, if `maxCells` allows it. */
  within?: number;
  /**
   * Meters by which a covering goes beyond the shape and an interior stays inside, 0 to 300,000; of lines and points a
   * corridor, and what lies in it. 0 if not given.
   */
  margin?: number;
  /**
   * "map", which is usual: straight in longitude and latitude. "geodesic": shortest ways on the sphere, and of each
   * ring the smaller side is inside. "left": the same, and what rings have on their left is inside.
   */
  edges?: "map" | "geodesic" | "left";
}

/** The two coverings of a shape: `outer` has each place of it, and each place of `inner` lies in it. */
export interface Coverings {
  readonly outer: CellUnion;
  readonly inner: CellUnion;
}

/** What is wrong with a shape. */
export class ShapeError extends RangeError {
  /**
   * NUMBER: a position is out of range. FEW: a ring has fewer than four positions. OPEN: its last position is not its
   * first. PIECES: edges are too long for so few positions. OUTSIDE: no place is outside. OPPOSITE: two positions that
   * follow each other lie opposite each other. WKB, TYPE, SRID, DEEP: the bytes aren't WKB, have another type of
   * geometry or another SRID than 4326, or collections in more than 32 collections. GEOJSON: the text isn't GeoJSON.
   */
  readonly kind: "NUMBER" | "FEW" | "OPEN" | "PIECES" | "OUTSIDE" | "OPPOSITE" | "OPTION" | "WKB" | "TYPE" | "SRID" |
    "DEEP" | "GEOJSON";
  /** Of a text or of bytes that can't be read the name of the first fault, such as TWICE, or else "". Since 1.5. */
  readonly fault: string;
  /** The number of the ring or line among all of the shape. */
  readonly ring: number;
  /** The number of the position in it, or of the byte in WKB. */
  readonly position: number;
}

/**
 * The leaf at a place: S2CellId(S2LatLng::FromDegrees(latitude, longitude)). `load` of s2union comes first.
 * @throws RangeError, TypeError
 */
export function fromLngLat(longitude: number, latitude: number): Cell;
/** The leaves of many places, as longitudes and latitudes. @throws RangeError, TypeError */
export function fromLngLats(positions: Iterable<Position>): BigUint64Array;
/** The longitude, from -180 to 180, and the latitude of the middle of a cell. @throws Refusal -3 */
export function toLngLat(cell: Cell): [number, number];

/**
 * A covering: a union that contains all of a shape. S2: S2RegionCoverer::GetCovering. It takes time and memory by the
 * positions and the cells.
 * @throws ShapeError, RangeError, TypeError, Error for an object that is no GeoJSON, Refusal -2, -6
 */
export function covering(shape: Shape, options?: CoveringOptions): CellUnion;
/**
 * An inner covering: a union of cells that lie in the polygons. Lines and points have none. S2:
 * S2RegionCoverer::GetInteriorCovering.
 * @throws as `covering`
 */
export function interior(shape: Shape, options?: CoveringOptions): CellUnion;
/** Both, of a shape that is read once. @throws as `covering` */
export function coverings(shape: Shape, options?: CoveringOptions): Coverings;
/**
 * Both coverings of the places within a radius in meters, 0 to 20,000,000, on a sphere with the earth's mean radius.
 * S2: S2Cap. A covering of a line with a `margin` is a corridor.
 * @throws RangeError, TypeError, Refusal -2
 */
export function circle(longitude: number, latitude: number, radius: number,
                       options?: Omit<CoveringOptions, "edges">): Coverings;
/**
 * Both coverings of the places between two meridians and two parallels. A box that ends west of where it begins crosses
 * the date line; one that ends south of where it begins is refused. S2: S2LatLngRect. Since 1.4.1.
 * @throws RangeError, TypeError, Refusal -2, -5, -6
 */
export function box(west: number, south: number, east: number, north: number, options?: CoveringOptions): Coverings;

/**
 * The outline of a union as a MultiPolygon of GeoJSON that a map can fill, without the borders between cells: rings
 * around its parts, counterclockwise, and holes, clockwise. The date line cuts polygons in two. @throws Refusal -2
 */
export function outline(union: CellUnion): {type: "MultiPolygon"; coordinates: [number, number][][][]};
/**
 * The boundary of a union as a MultiLineString of GeoJSON: closed lines through corners of cells, with the union on
 * their left, which go on beyond 180 or -180 degrees. S2: S2Polygon::InitToCellUnionBorder. Since 1.4.1.
 * @throws Refusal -2
 */
export function boundary(union: CellUnion): {type: "MultiLineString"; coordinates: [number, number][][]};
/**
 * The cells of a union as a FeatureCollection of polygons, with these properties and `cell`, their token. Faces are
 * cut, since two of them have a pole inside. With `dissolve` it has one feature, the outline.
 * @throws RangeError for more than 200,000 cells
 */
export function toGeoJSON(union: CellUnion, properties?: object,
                          options?: {dissolve?: boolean}): {type: string; features: object[]};
/**
 * A union that contains what GeoJSON has, as an object or as a text: the leaf of each point, and of the rest a covering
 * of at most `atBorder` cells (10,000), or 50 for each polygon and line. Edges are straight on the map. Rings may be
 * open; `covering` has more options.
 * @throws ShapeError, RangeError, SyntaxError, Error for what is no GeoJSON
 */
export function fromGeoJSON(geojson: object | string, atBorder?: number): CellUnion;

/**
 * The cells of a level that touch a cell, at an edge or a corner: of its own level, which is usual, eight, seven at a
 * corner of the cube, and four of a face. S2: S2CellId::AppendAllNeighbors. Since 1.4.1.
 * @throws Refusal -3, -5 for a level above that of the cell or beyond 30, -6 for more than 1,000,000 cells, -2
 */
export function neighbors(cell: Cell, level?: number): CellUnion;
/**
 * The four cells of a cell's level that share an edge with it: the one below it on its face, and then counterclockwise.
 * S2: S2CellId::GetEdgeNeighbors. Since 1.4.1. @throws Refusal -3
 */
export function edgeNeighbors(cell: Cell): BigUint64Array;
/**
 * The cells of a level around the corner that is nearest to a cell, of those of its ancestor there: four, or three at a
 * corner of the cube. The first has the cell. S2: S2CellId::AppendVertexNeighbors. Since 1.4.1.
 * @throws Refusal -3, -5 for a level that is not above that of the cell
 */
export function vertexNeighbors(cell: Cell, level: number): BigUint64Array;
/**
 * A union with each cell of a level that touches one of its cells. Of its cells that are deeper, those of the level
 * that have them are taken. S2: S2CellUnion::Expand. Since 1.4.1.
 * @throws Refusal -5 for a level out of range, -6 for more than 4,000,000 cells around it and nine for each of its, -2
 */
export function expanded(union: CellUnion, level: number): CellUnion;
/**
 * The box of degrees in which a union lies, as `bbox` of GeoJSON has it: west, south, east, north. It goes over the
 * date line if the east is less than the west; with a pole, or where there is no gap, it has all longitudes, from -180
 * to 180. Null of the union without cells. S2: S2CellUnion::GetRectBound. Since 1.4.1. @throws Refusal -2
 */
export function bounds(union: CellUnion): [west: number, south: number, east: number, north: number] | null;
/**
 * The area of a union in square kilometers, on a sphere with the earth's mean radius. The earth is flattened, so an
 * area there differs by less than 1 percent. S2: S2CellUnion::ExactArea, on a sphere of radius 1. Since 1.5.
 */
export function area(union: CellUnion): number;

/** Places, and for each a zone that has it, by their numbers. Since 1.5. */
export interface Pairs {
  readonly places: Uint32Array;
  readonly zones: Uint32Array;
}

/**
 * Polygons that are asked which of them have which places, exactly, also beside their borders. They have a copy of each
 * shape, in a memory of their own of up to 4 GB. Edges are straight on the map. Since 1.5.
 */
export class Zones {
  /** @throws as `add` */
  constructor(shapes?: Iterable<Shape>);
  /**
   * Adds a zone. After an error the zones are as they were.
   * @returns its number, which is 0 for the first
   * @throws ShapeError, Error for an object that is no GeoJSON, Refusal -2
   */
  add(shape: Shape): number;
  /**
   * Each place and each zone that has it, in the order of places, and of zones for each: an exact join. With `borders`
   * a place on a border is in the zone; without, it is in none of the polygons that have that border, and lines have no
   * place. A place takes a step for each zone in whose box it lies, and for each edge there at its longitude.
   * @throws ShapeError if a place is out of range, whose number is `position`, RangeError if there are more longitudes
   *   than latitudes, or fewer, Refusal -2
   */
  pairs(longitudes: ArrayLike<number>, latitudes: ArrayLike<number>, options?: {borders?: boolean}): Pairs;
}
