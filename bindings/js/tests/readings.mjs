// Texts and bytes that tests/model/readings.py prints, in JavaScript: readings.mjs MODULE FILE. Each is covered, or its
// error has the name of its fault. The last line is 'N passed, M failed'.
import {readFileSync} from "node:fs";
import {dirname, join, resolve} from "node:path";
import {pathToFileURL} from "node:url";

const [module, file] = process.argv.slice(2).map((name) => resolve(name));
const imported = (name) => import(pathToFileURL(join(dirname(module), name)));
const {load} = await imported("s2union.js");
const geo = await imported("geo.js");
await load();
let [passed, failed] = [0, 0];

/** The name of the fault of a shape; or "" if it can be read, though not always covered. */
function faultOf(shape) {
  try {
    geo.covering(shape, {maxCells: 8});
  } catch (error) {
    if (!(error instanceof geo.ShapeError)) throw error;
    return error.fault;
  }
  return "";
}

for (const row of readFileSync(file, "utf8").trim().split("\n")) {
  const [form, hex, want = ""] = row.split("\t"), bytes = Buffer.from(hex, "hex");
  const shape = form === "wkb" ? Uint8Array.from(bytes) : bytes.toString("utf8");
  if (form !== "wkb" && !Buffer.from(shape, "utf8").equals(bytes)) continue; // no string has these bytes
  const wanted = want.startsWith("!") ? want.slice(1).split(" ")[0].toUpperCase() : "";
  if (faultOf(shape) === wanted) passed++;
  else failed++, console.log(`FAILED: ${row.slice(0, 200)}`);
}
console.log(`${passed} passed, ${failed} failed`);
