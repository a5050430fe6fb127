"use strict";
// Shapes in degrees to unions and back, by the calls of the module: GeoJSON and WKB in, GeoJSON out. The cells are
// those that the proved calls make; how degrees become whole numbers is s2union_cover.h, tested beside S2, not proved.

/** The most positions of a shape, and parts that it may have without one. */
const MOST_POSITIONS = 4_000_000;
/** The most cells of a covering, how many if nothing is said, and how many of GeoJSON that is covered loosely. */
const MOST_CELLS_COVERED = 1_000_000;
const USUAL_CELLS = 200;
const AT_BORDERS = 10_000;
/** How many cells each polygon or line of a loose shape may have in any case. */
const LEAST_EACH = 50;
const DEEPEST = 30;
const EDGES = {map: 0, geodesic: 1, left: 2};
/** Which coverings are wanted. */
const OUTER = 1, INNER = 2, BOTH = 3;
/** In the place of a polygon's number: a line, or a point. */
const LINE = 2n ** 64n - 1n;
const PARTS = {FeatureCollection: "features", GeometryCollection: "geometries"};
/** The most cells that are written as polygons. */
const MOST_POLYGONS = 200_000;
/** The statuses of s2union_cover.h. */
const SHAPE_KINDS = {[-101]: "NUMBER", [-102]: "FEW", [-103]: "OPEN", [-104]: "PIECES", [-105]: "OUTSIDE",
  [-106]: "OPPOSITE", [-107]: "OPTION", [-108]: "WKB", [-109]: "TYPE", [-110]: "SRID", [-111]: "DEEP",
  [-112]: "GEOJSON"};
const OF_POSITION = new Set(["NUMBER", "OPPOSITE"]);
const OF_RING = new Set(["FEW", "OPEN"]);
const OF_BYTE = new Set(["WKB", "TYPE", "SRID", "DEEP"]);

/** What is wrong with a shape: its kind, the ring or line and the position, or the byte of WKB, and a fault's name. */
class ShapeError extends RangeError {
  constructor(kind, message, ring, position, fault = "") {
    super(message);
    Object.assign(this, {kind, ring, position, fault});
  }
}

/** A text of GeoJSON, which a proved call reads: its bytes. */
class Text {
  constructor(text) {
    this.bytes = new TextEncoder().encode(text);
  }
}

// ---- in

/** What has to be a list: JSON may have anything in its place. */
function listed(it, what) {
  if (!Array.isArray(it) && !(ArrayBuffer.isView(it) && "length" in it)) throw new Error(`it is no GeoJSON: ${what}`);
  return it;
}

const isPlace = (it) => Array.isArray(it) || ArrayBuffer.isView(it);

/**
 * The rings and lines of a shape: their positions, where each ends, its polygon, and what each is called. In one that
 * is loose, rings may be open or short, and points stand apart.
 */
class Shape {
  numbers = [];
  rings = [];
  names = [];
  points = [];
  polygons = 0;

  constructor(isLoose) {
    this.isLoose = isLoose;
  }

  add(line, polygon, name) {
    for (const position of line) this.addNumbers(this.numbers, position);
    this.rings.push(BigInt(this.numbers.length / 2), polygon);
    this.names.push(name);
  }

  /** Adds a longitude and a latitude; what is no number becomes NaN, which the call refuses at its place. */
  addNumbers(numbers, position) {
    const [longitude, latitude] = isPlace(position) ? [position[0], position[1]] : [];
    for (const value of [longitude, latitude]) numbers.push(typeof value === "number" ? value : NaN);
    if (numbers.length > 2 * MOST_POSITIONS) throw new Error(`there are more than ${MOST_POSITIONS} positions`);
  }

  addLine(line) {
    const name = `line ${this.names.length}`;
    const {length} = listed(line, `${name} has a list of positions`);
    if (length === 1 && this.isLoose) this.addNumbers(this.points, line[0]);
    else if (length) this.add(line, LINE, name);
  }

  addPolygon(rings) {
    const polygon = this.polygons++;
    listed(rings, `polygon ${polygon} has a list of rings`).forEach((ring, k) => {
      const name = `polygon ${polygon}, ring ${k}`;
      const {length} = listed(ring, `${name} has a list of positions`);
      if (length || !this.isLoose) this.add(this.isLoose ? closed(ring) : ring, BigInt(polygon), name);
    });
  }

  addPoint(position) {
    if (listed(position, "a point has a position").length) this.addLine([position]);
  }
}

/** A ring that ends where it begins, with four positions at least. */
function closed(ring) {
  const all = Array.from(ring);
  const [first, last] = [all[0], all[all.length - 1]];
  if (first?.[0] !== last?.[0] || first?.[1] !== last?.[1]) all.push(first);
  while (all.length < 4) all.push(first);
  return all;
}

/** The rings and lines of GeoJSON, in which collections may have collections. */
function shapeOf(geojson, isLoose = false) {
  const [shape, waiting] = [new Shape(isLoose), [geojson]];
  const parts = (it) => listed(it.coordinates, `a ${it.type} has a list of coordinates`);
  const adders = {
    Point: (it) => shape.addPoint(parts(it)), MultiPoint: (it) => parts(it).forEach((at) => shape.addPoint(at)),
    LineString: (it) => shape.addLine(parts(it)), MultiLineString: (it) => parts(it).forEach((at) => shape.addLine(at)),
    Polygon: (it) => shape.addPolygon(parts(it)),
    MultiPolygon: (it) => parts(it).forEach((rings) => shape.addPolygon(rings)),
  };
  for (let count = 0; waiting.length; count++) {
    if (count + waiting.length > MOST_POSITIONS) throw new Error(`there are more than ${MOST_POSITIONS} parts`);
    const it = waiting.pop();
    const type = typeof it?.type === "string" ? it.type : "";
    if (Object.hasOwn(PARTS, type)) {
      for (const part of [...listed(it[PARTS[type]], `a ${type} has ${PARTS[type]}`)].reverse()) waiting.push(part);
    } else if (type === "Feature") {
      if (it.geometry !== null && it.geometry !== undefined) waiting.push(it.geometry);
    } else if (Object.hasOwn(adders, type)) {
      adders[type](it);
    } else {
      throw new Error(`it is no GeoJSON: ${type ? `of type ${type.slice(0, 99)}` : "without a type"}`);
    }
  }
  return shape;
}

/** The call of the module that takes a shape, a text or the bytes of WKB, by how it begins, and what it takes. */
function callOf(name, shape) {
  if (shape instanceof Text) return [`${name}_geojson`, [shape.bytes]];
  if (shape instanceof Uint8Array) return [`${name}_wkb`, [shape]];
  return [name, [Float64Array.from(shape.numbers), BigUint64Array.from(shape.rings)]];
}

/** The coverings that are wanted of a shape, a text or the bytes of WKB; an error has its ring and position. */
function coveringsIn(core, shape, {cells, least, deepest, edges, margin}, which) {
  const words = [BigInt(cells), least, deepest, edges, margin, which];
  return fine(core, core.coveredBy(...callOf("s2js_cover", shape), ...words), shape);
}

/** What a call made, or the error that it has in its place. */
function fine(core, made, shape) {
  const {status, ring, position, fault, said} = made;
  if (status >= 0) return made;
  const kind = SHAPE_KINDS[status];
  if (!kind) throw new Refusal(status, 0);
  if (shape instanceof Text && fault) {
    throw new ShapeError(kind, `the text is no GeoJSON: ${said}`, ring, position, fault);
  }
  throw new ShapeError(kind, saidOf(kind, core.textOf(status), shape?.names?.[ring] ?? `ring ${ring}`, position), ring,
    position, fault);
}

/** What is said of a fault: where it is, and what. */
function saidOf(kind, text, name, position) {
  if (OF_BYTE.has(kind)) return `${text}: at byte ${position}`;
  if (OF_RING.has(kind)) return text.replace("a ring", name);
  if (!OF_POSITION.has(kind)) return text;
  return `${name}: position ${position} is ${kind === "NUMBER" ? `out of range: ${text}` : `wrong: ${text}`}`;
}

/**
 * The coverings of a loose shape: the leaf of each point, and of the rest at most some cells, or LEAST_EACH for each
 * polygon and line, if these are more.
 */
function looselyCovered(core, shape, cells, which) {
  const lines = shape.names.length - shape.rings.filter((_, k) => k % 2 && shape.rings[k] !== LINE).length;
  const most = Math.max(cells, Math.min(cells, LEAST_EACH) * (shape.polygons + lines));
  const options = {cells: Math.min(most, MOST_CELLS_COVERED), least: 0, deepest: DEEPEST, edges: EDGES.map, margin: 0};
  const made = coveringsIn(core, shape, options, which);
  if (!shape.points.length) return made;
  const leaves = core.leavesOf(Float64Array.from(shape.points));
  const wrong = leaves.indexOf(0n);
  if (wrong < 0) return {...made, outer: core.unionOf([leaves.sort(), made.outer])};
  throw new ShapeError("NUMBER", saidOf("NUMBER", core.textOf(-101), "points", wrong), shape.names.length, wrong);
}

// ---- out

/** The rings of squares: their corners, counterclockwise, on from the first across the date line. */
function ringsOf(core, squares) {
  const corners = squares.flatMap(({face, i, j, size}) =>
    [[0, 0], [1, 0], [1, 1], [0, 1]].flatMap(([right, up]) => [face, i + size * right, j + size * up]));
  const found = core.degreesOf(Float64Array.from(corners));
  return squares.map((_, k) => ringOf([0, 2, 4, 6].map((at) => [found[8 * k + at], found[8 * k + at + 1]])));
}

function ringOf(ring) {
  const pole = ring.findIndex(([, latitude]) => Math.abs(latitude) === 90);
  if (pole >= 0) { // it has every longitude: those of the corners before and after it
    const [before, latitude, after] = [ring[(pole + 3) % 4][0], ring[pole][1], ring[(pole + 1) % 4][0]];
    ring.splice(pole, 1, [before, latitude], [after, latitude]);
  }
  for (const corner of ring.slice(1)) corner[0] += 360 * Math.round((ring[0][0] - corner[0]) / 360);
  return [...ring, ring[0]];
}

const collectionOf = (features) => ({type: "FeatureCollection", features});

/** A union as a collection of its cells in GeoJSON. Faces are cut, since two of them have a pole inside. */
function cellsOf(core, properties, union) {
  if (core.denormalisedCount(union, 1, 1) > MOST_POLYGONS) throw new RangeError("too many cells for GeoJSON");
  const cells = Array.from(core.denormalised(union, 1, 1));
  return collectionOf(ringsOf(core, cells.map((id) => core.square(id))).map((ring, k) => ({
    type: "Feature", properties: {...properties, cell: core.token(cells[k])},
    geometry: {type: "Polygon", coordinates: [ring]},
  })));
}

const cut = (parts, ends) => ends.map((end, k) => parts.slice(ends[k - 1] ?? 0, end));

/** The rings that a call draws of a union, and where those of each polygon end. */
function ringsBy(core, name, union) {
  const {positions, ringEnds, polygonEnds} = core.drawn(name, union);
  const places = Array.from({length: positions.length / 2}, (_, k) => [positions[2 * k], positions[2 * k + 1]]);
  return [cut(places, ringEnds), polygonEnds];
}

/** The outline of a union: polygons that a map can fill, without the borders between cells. */
const outlineOf = (core, union) =>
  ({type: "MultiPolygon", coordinates: cut(...ringsBy(core, "s2js_outline", union))});

/** The same as a collection of one feature. */
const dissolvedOf = (core, properties, union) =>
  collectionOf([{type: "Feature", properties, geometry: outlineOf(core, union)}]);
