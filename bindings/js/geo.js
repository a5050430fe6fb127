// Points and shapes in degrees for s2union.js, by shapes.js, which the page has too and which stands below. The
// longitude comes first.
import {CellUnion, Refusal, internals, level as levelOf, square} from "./s2union.js";

const {bothOf, calls, cellOf, cellsIn, unionOf} = internals;

// ---- numbers

function numberIn(value, least, most, what) {
  if (typeof value !== "number") throw new TypeError(`a ${what} is a number`);
  if (!(value >= least && value <= most)) throw new RangeError(`a ${what} is from ${least} to ${most}: ${value}`);
  return value;
}

function wholeIn(value, least, most, what) {
  numberIn(value, least, most, what);
  if (!Number.isInteger(value)) throw new RangeError(`a ${what} is a whole number: ${value}`);
  return value;
}

const longitudeOf = (value) => numberIn(value, -540, 540, "longitude");
const latitudeOf = (value) => numberIn(value, -90, 90, "latitude");
const placeOf = ([longitude, latitude]) => [longitudeOf(longitude), latitudeOf(latitude)];

/** What the module takes of the options of a covering. */
function optionsOf({maxCells, minLevel = 0, maxLevel = 30, within, margin = 0, edges = "map"} = {}) {
  const usual = within === undefined ? USUAL_CELLS : MOST_CELLS_COVERED;
  const cells = maxCells === undefined ? usual : wholeIn(maxCells, 0, MOST_CELLS_COVERED, "maxCells");
  let deepest = wholeIn(maxLevel, 0, 30, "maxLevel");
  const least = wholeIn(minLevel, 0, deepest, "minLevel");
  if (!Object.hasOwn(EDGES, edges)) throw new RangeError(`edges are one of ${Object.keys(EDGES).join(", ")}: ${edges}`);
  if (within !== undefined) {
    const meters = numberIn(within, Number.MIN_VALUE, Infinity, "number of meters of within");
    deepest = Math.max(least, Math.min(deepest, calls().levelWithin(meters)));
  }
  return {cells, least, deepest, edges: EDGES[edges], margin: numberIn(margin, 0, 300_000, "margin")};
}

// ---- places

export const fromLngLat = (longitude, latitude) => calls().leafOf(longitudeOf(longitude), latitudeOf(latitude));

export function fromLngLats(positions) {
  const given = Array.from(positions), numbers = new Float64Array(2 * given.length);
  given.forEach(([longitude, latitude], k) => {
    numbers[2 * k] = longitudeOf(longitude), numbers[2 * k + 1] = latitudeOf(latitude);
  });
  return calls().leavesOf(numbers);
}

export function toLngLat(cell) {
  const {face, i, j, size} = square(cell);
  return Array.from(calls().degreesOf(Float64Array.of(face, i + size / 2, j + size / 2)));
}

// ---- coverings

/** GeoJSON, or the bytes of WKB: an object, a text, a view or a buffer. */
function given(shape) {
  if (typeof shape === "string") return new Text(shape);
  if (shape instanceof ArrayBuffer) return new Uint8Array(shape);
  return ArrayBuffer.isView(shape) ? new Uint8Array(shape.buffer, shape.byteOffset, shape.byteLength) : shapeOf(shape);
}

const covered = (shape, options, which) => bothOf(coveringsIn(calls(), given(shape), optionsOf(options), which));

export const covering = (shape, options) => covered(shape, options, OUTER).outer;
export const interior = (shape, options) => covered(shape, options, INNER).inner;
export const coverings = (shape, options) => covered(shape, options, BOTH);

const bothBy = (name, ...words) => bothOf(fine(calls(), calls().coveredBy(name, [], ...words, BOTH), null));

export function circle(longitude, latitude, radius, options) {
  const place = placeOf([longitude, latitude]);
  const meters = numberIn(radius, 0, 20_000_000, "radius");
  const {cells, least, deepest, margin} = optionsOf(options);
  return bothBy("s2js_circle", ...place, meters, BigInt(cells), least, deepest, margin);
}

export function box(west, south, east, north, options) {
  const corners = [...placeOf([west, south]), ...placeOf([east, north])];
  const {cells, least, deepest, edges, margin} = optionsOf(options);
  return bothBy("s2js_box", ...corners, BigInt(cells), least, deepest, edges, margin);
}

export function fromGeoJSON(geojson, atBorder = AT_BORDERS) {
  if (!(atBorder >= 1 && atBorder <= MOST_CELLS_COVERED)) {
    throw new RangeError(`the cells at the border are from 1 to ${MOST_CELLS_COVERED}`);
  }
  const shape = shapeOf(typeof geojson === "string" ? JSON.parse(geojson) : geojson, true);
  return unionOf(looselyCovered(calls(), shape, Math.floor(atBorder), OUTER).outer);
}

// ---- back to the map

export const outline = (union) => outlineOf(calls(), cellsIn(union));

export const boundary = (union) =>
  ({type: "MultiLineString", coordinates: ringsBy(calls(), "s2js_boundary", cellsIn(union))[0]});

export const toGeoJSON = (union, properties = {}, {dissolve = false} = {}) =>
  (dissolve ? dissolvedOf : cellsOf)(calls(), properties, cellsIn(union));

// ---- what is around

const around = (name, cell, level) => calls().around(name, BigUint64Array.of(cellOf(cell)), level);

export const neighbors = (cell, level = levelOf(cell)) => unionOf(around("s2js_neighbors", cell, level));
export const edgeNeighbors = (cell) => around("s2js_edge_neighbors", cell, 0);
export const vertexNeighbors = (cell, level) => around("s2js_vertex_neighbors", cell, level);
export const expanded = (union, level) => unionOf(calls().around("s2js_expanded", cellsIn(union), level));

export function bounds(union) {
  const sides = calls().boundsOf(cellsIn(union));
  return sides[1] <= sides[3] ? sides : null;
}

export const area = (union) => calls().areaOf(cellsIn(union));

// ---- which zones have which places

export class Zones {
  #core = calls().forZones();
  #count = 0;

  constructor(shapes = []) {
    for (const shape of shapes) this.add(shape);
  }

  add(shape) {
    const zone = given(shape);
    fine(this.#core, this.#core.addZone(...callOf("s2js_add", zone)), zone);
    return this.#count++;
  }

  pairs(longitudes, latitudes, {borders = false} = {}) {
    const [x, y] = [longitudes, latitudes].map((numbers) => Float64Array.from(numbers));
    if (x.length !== y.length) throw new RangeError(`${x.length} longitudes and ${y.length} latitudes are no places`);
    const {status, wrong, places, zones} = this.#core.pairsOf(x, y, borders ? 1 : 0);
    if (status >= 0) return {places, zones};
    throw new ShapeError("NUMBER", saidOf("NUMBER", calls().textOf(-101), "places", wrong), 0, wrong);
  }
}

export {ShapeError};
