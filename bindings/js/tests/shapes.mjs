// Compares leaves, coverings and outlines of the package for JavaScript with those that tests/model/shapes.py has of
// the same shapes: shapes.mjs FOLDER SHAPES. Cells are the same, number by number, and positions to 1e-12 degrees, as
// JavaScript's sines aren't the C library's. The last line is 'N passed, M failed'.
import assert from "node:assert/strict";
import {createReadStream} from "node:fs";
import {join, resolve} from "node:path";
import {createInterface} from "node:readline";
import {pathToFileURL} from "node:url";

const [folder, shapes] = process.argv.slice(2).map((name) => resolve(name));
const imported = (name) => import(pathToFileURL(join(folder, name)));
const s2 = await imported("s2union.js");
const geo = await imported("geo.js");
await s2.load();

/** Kinds of edges, by their numbers. */
const EDGES = ["map", "geodesic", "left"];

const bytesOf = (hex) => Uint8Array.from(Buffer.from(hex, "hex"));

/** The numbers of doubles in hexadecimal. */
function doubles(hex) {
  const bytes = Buffer.from(hex, "hex");
  return Array.from({length: bytes.length / 8}, (_, k) => bytes.readDoubleBE(8 * k));
}

const placesOf = (hex) => doubles(hex).reduce((all, it, k) => (k % 2 ? all.at(-1).push(it) : all.push([it]), all), []);
const cellOf = (hex) => BigInt(`0x${hex}`);
const unionOf = (hex) => s2.CellUnion.fromNormalized(BigUint64Array.from(hex ? hex.split(" ") : [], cellOf));
const inWords = (cells) => Array.from(cells, (cell) => cell.toString(16)).join(" ");

/** A shape as a collection of GeoJSON. */
function shapeOf(text) {
  const geometries = [];
  let last = "-";
  for (const [number, hex] of text.split(" ").filter(Boolean).map((word) => word.split(":"))) {
    const ring = placesOf(hex);
    if (number === "-") geometries.push({type: "LineString", coordinates: ring});
    else if (number === last) geometries.at(-1).coordinates.push(ring);
    else geometries.push({type: "Polygon", coordinates: [ring]});
    last = number;
  }
  return {type: "GeometryCollection", geometries};
}

/** The options of a covering. */
function optionsOf(text) {
  const [maxCells, minLevel, maxLevel, edges] = text.split(" ").slice(0, 4).map(Number);
  const [margin, within] = text.split(" ").slice(4).map((hex) => doubles(hex)[0]);
  return {maxCells, minLevel, maxLevel, edges: EDGES[edges] ?? "none", margin, ...(within !== 0 ? {within} : {})};
}

/** What a covering is, or the name of its error, with its ring and position. */
function coveredBy(ask) {
  try {
    const {outer, inner} = ask();
    return [outer, inner].map(inWords);
  } catch (error) {
    if (error instanceof geo.ShapeError) return [error.kind.toLowerCase(), error.ring, error.position];
    if (["ARGUMENT", "MANY"].includes(error.kind)) return [error.kind.toLowerCase()];
    return [error instanceof RangeError ? "range" : `${error.stack}`];
  }
}

/**
 * Compares what is covered, or the error: its place is that of the library where the library says one. A number that
 * JavaScript takes by itself is a RangeError without one.
 */
function isCovered(ask, [outer, inner = ""]) {
  const found = coveredBy(ask);
  if (!outer.startsWith("!")) return assert.deepEqual(found, [outer, inner]);
  const [name, ...place] = outer.slice(1).split(" ");
  if (found[0] === "range") return assert.ok(["option", "number"].includes(name), name);
  assert.equal(found[0], name);
  if (place.length && found.length > 1) assert.deepEqual(found.slice(-place.length), place.map(Number));
}

/** Whether two lists in each other have the same numbers, nearly. */
function isNear(made, wanted) {
  if (typeof wanted === "number") return Math.abs(made - wanted) <= 1e-12;
  return made.length === wanted.length && wanted.every((it, k) => isNear(made[k], it));
}

/** Whether a call draws these rings of a union. */
function isDrawn(draw, cells, wanted) {
  const {coordinates} = draw(unionOf(cells));
  assert.ok(isNear(coordinates, shapeOf(wanted).geometries.map((each) => each.coordinates)));
}

/** The cells that a call finds, or the name of its error. */
function foundBy(ask) {
  try {
    return inWords(ask());
  } catch (error) {
    return `!${error.kind?.toLowerCase() ?? error.stack}`;
  }
}

/** A zone of the file as GeoJSON, or as WKB. */
function zoneOf(text) {
  if (text.startsWith("wkb:")) return bytesOf(text.slice(4));
  if (!text.startsWith("box:")) return shapeOf(text);
  const [west, south, end, north] = doubles(text.slice(4)), east = end < west ? end + 360 : end;
  const ring = [[west, south], [east, south], [east, north], [west, north], [west, south]];
  return {type: "Polygon", coordinates: [ring]};
}

/** The pairs of zones and places, twice the same, or the name of the error. */
function joined(zones, borders, longitudes, latitudes) {
  const words = () => {
    const found = made.pairs(doubles(longitudes), doubles(latitudes), {borders: borders === "1"});
    return Array.from(found.places, (place, k) => `${place}:${found.zones[k]}`).join(" ");
  };
  const made = new geo.Zones();
  try {
    zones.split("|").forEach((zone, k) => assert.equal(made.add(zoneOf(zone)), k));
  } catch (error) {
    const at = error.kind === "WKB" ? [error.position] : [error.ring, error.position];
    return `!${[error.kind?.toLowerCase() ?? error.stack, ...at].join(" ")}`;
  }
  try {
    const found = words();
    assert.equal(words(), found);
    return found;
  } catch (error) {
    return `!${error.kind?.toLowerCase() ?? error.stack} ${error.position}`;
  }
}

const TESTS = {
  zones: (zones, ...words) => {
    if (words.at(-1) === "!argument") return; // of a box, which GeoJSON doesn't have
    assert.equal(joined(zones, ...words), words.at(-1));
  },
  leaf: (place, wanted) => {
    if (wanted.startsWith("!")) assert.throws(() => geo.fromLngLat(...doubles(place)), RangeError);
    else assert.equal(geo.fromLngLat(...doubles(place)).toString(16), wanted);
  },
  middle: (cell, wanted) => assert.ok(isNear(geo.toLngLat(cellOf(cell)), doubles(wanted))),
  rings: (shape, options, ...wanted) => {
    const [given, how] = [shapeOf(shape), optionsOf(options)];
    isCovered(() => geo.coverings(given, how), wanted);
    if (wanted[0].startsWith("!")) return;
    const both = geo.coverings(given, how);
    assert.ok(geo.covering(given, how).equals(both.outer) && geo.interior(given, how).equals(both.inner));
  },
  wkb: (hex, options, ...wanted) => isCovered(() => geo.coverings(bytesOf(hex), optionsOf(options)), wanted),
  circle: (numbers, options, ...wanted) => isCovered(() => geo.circle(...doubles(numbers), optionsOf(options)), wanted),
  box: (numbers, options, ...wanted) => isCovered(() => geo.box(...doubles(numbers), optionsOf(options)), wanted),
  holds: (shape, options, inside, outside) => {
    const {outer, inner} = geo.coverings(shapeOf(shape), optionsOf(options));
    assert.ok(outer.hasEach(geo.fromLngLats(placesOf(inside))).every(Boolean), "a place is lost");
    assert.ok(!inner.hasEach(geo.fromLngLats(placesOf(outside))).some(Boolean), "a place is outside");
  },
  outline: (cells, wanted) => isDrawn(geo.outline, cells, wanted),
  boundary: (cells, wanted) => isDrawn(geo.boundary, cells, wanted),
  neighbors: (cell, level, wanted) => {
    assert.equal(foundBy(() => geo.neighbors(cellOf(cell), Number(level))), wanted);
    if (Number(level) === s2.level(cellOf(cell))) assert.equal(foundBy(() => geo.neighbors(cellOf(cell))), wanted);
  },
  edge_neighbors: (cell, wanted) => assert.equal(foundBy(() => geo.edgeNeighbors(cellOf(cell))), wanted),
  vertex_neighbors: (cell, level, wanted) =>
    assert.equal(foundBy(() => geo.vertexNeighbors(cellOf(cell), Number(level))), wanted),
  expanded: (cells, level, wanted) => assert.equal(foundBy(() => geo.expanded(unionOf(cells), Number(level))), wanted),
  bounds: (cells, wanted) => {
    const found = geo.bounds(unionOf(cells));
    assert.ok(wanted === "none" ? found === null : isNear(found, doubles(wanted)), found);
  },
  area: (cells, wanted) => assert.deepEqual([geo.area(unionOf(cells))], doubles(wanted)),
};
/** A line without positions is nothing in GeoJSON. */
const isLeftOut = (shape) => /(^| )-:( |$)/.test(shape);

let [passed, failed] = [0, 0];
for await (const line of createInterface({input: createReadStream(shapes)})) {
  const [call, ...words] = line.split("\t");
  if (isLeftOut(words[0])) continue;
  try {
    TESTS[call](...words);
    passed++;
  } catch (error) {
    failed++;
    console.log(`${call} ${words.map((word) => word.slice(0, 100)).join(" | ")}: ${error.message.slice(0, 400)}`);
  }
}
console.log(`${passed} passed, ${failed} failed`);
process.exitCode = failed ? 1 : 0;
