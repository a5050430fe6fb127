// Compares the coverings of texts and bytes by the package for JavaScript with those of tests/model/maps.py:
// maps.mjs MODULE TEXTS. The last line is 'N passed, M failed'.
import assert from "node:assert/strict";
import {readFileSync} from "node:fs";
import {pathToFileURL} from "node:url";

const [path, texts] = process.argv.slice(2);
const s2 = await import(pathToFileURL(path));
await s2.load();

const CALLS = {map_geojson: s2.coverGeoJson, map_wkb: s2.coverWkb, geodesic_geojson: s2.coverGeodesicGeoJson,
  geodesic_wkb: s2.coverGeodesicWkb, map_geojson_up_to: s2.coverGeoJsonUpTo, map_wkb_up_to: s2.coverWkbUpTo};
const inWords = (union) => Array.from(union, (cell) => cell.toString(16)).join(" ");

/** The text that these bytes are, or the bytes. */
function textOf(bytes) {
  try {
    return new TextDecoder("utf-8", {fatal: true, ignoreBOM: true}).decode(bytes);
  } catch {
    return bytes;
  }
}

/** The same bytes in each form that a call takes. */
function formsOf(call, bytes) {
  const room = Uint8Array.of(7, ...bytes, 7);
  const forms = [bytes, bytes.slice().buffer, room.subarray(1, 1 + bytes.length), new DataView(bytes.buffer)];
  return call.includes("geojson") ? [...forms, textOf(bytes)] : forms;
}

/** What a call answers, as the texts have it; the message of an error has its place. */
function answerOf(ask) {
  try {
    const {outer, inner} = ask();
    return [outer, inner].map(inWords);
  } catch (error) {
    if (!(error instanceof s2.Refusal)) return [`${error.stack}`];
    if (error.kind !== "SHAPE") return [`!${error.kind.toLowerCase()}${error.fault === null ? "" : " of a shape"}`];
    const {name, byte, part, ring, position} = error.fault;
    const place = `: byte ${byte}, part ${part}, ring ${ring}, position ${position}`;
    if (!error.message.endsWith(place) || error.status !== -16) return [error.message];
    return [`!${name.toLowerCase()} ${byte} ${part} ${ring} ${position}`];
  }
}

let [passed, failed] = [0, 0];
function is(found, wanted, what) {
  const isSo = found.join("\t") === wanted.join("\t");
  isSo ? passed++ : failed++;
  if (!isSo) console.log(`${what}: ${found}, not ${wanted}`.slice(0, 600));
}

for (const line of readFileSync(texts, "utf8").split("\n").filter(Boolean)) {
  const [call, hex, level, most, ...wanted] = line.split("\t");
  for (const bytes of formsOf(call, Uint8Array.from(Buffer.from(hex, "hex")))) {
    is(answerOf(() => CALLS[call](bytes, Number(level), Number(most))), wanted, line);
  }
}

const square = '{"type": "Polygon", "coordinates": [[[0,0], [20,0], [20,20], [0,20], [0,0]]]}';
const empty = Uint8Array.of(0, 0, 0, 0, 6, 0, 0, 0, 0);
is(answerOf(() => s2.coverGeoJson(square, 6)), answerOf(() => s2.coverGeoJson(square, 6, 2 ** 28)), "the usual work");
for (const wrong of [undefined, null, 1, 1n, {}, [square]]) {
  for (const call of Object.values(CALLS)) is([`${assert.throws(() => call(wrong, 6), TypeError)}`], ["undefined"]);
}
assert.throws(() => s2.coverWkb("00", 6), TypeError);
for (const wrong of [-1, 1.5, 31, 2 ** 32, NaN, "6", 6n, undefined]) {
  for (const call of Object.values(CALLS)) {
    is(answerOf(() => call(empty, wrong, 9)), ["!argument"], `the level ${wrong}`);
  }
}
for (const wrong of [-1, 1.5, 2 ** 53, NaN, "6", 6n, null]) {
  for (const call of Object.values(CALLS)) {
    is(answerOf(() => call(empty, 6, wrong)), ["!argument"], `the work or the cells ${wrong}`);
  }
}
console.log(`${passed} passed, ${failed} failed`);
process.exitCode = failed ? 1 : 0;
