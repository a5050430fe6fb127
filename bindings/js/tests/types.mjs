// Compares what the package for JavaScript has with its types: types.mjs FOLDER. Each name stands on both sides, each
// call answers what its type says, and each path of package.json is there. The last line is 'N passed, M failed'.
import {existsSync, readFileSync} from "node:fs";
import {join, resolve} from "node:path";
import {pathToFileURL} from "node:url";
import {CALLS, Given, namesOf} from "./calls.mjs";

const folder = resolve(process.argv[2]);
const text = readFileSync(join(folder, "s2union.d.ts"), "utf8");
const packed = JSON.parse(readFileSync(join(folder, "package.json"), "utf8"));
const s2 = await import(pathToFileURL(join(folder, packed.main)));
await s2.load();
const given = new Given(s2, 5);

/** The members that the types give a class, with their types. */
function typed(name) {
  const body = text.match(new RegExp(`^export class ${name} .*\\{\\n((?:.*\\n)*?)\\}`, "m"))[1];
  return [...body.matchAll(/^ {2}(?:static |readonly )*(\w+)(?:\(.*\))?: (.*);/gm)].map(
    ([, member, type]) => [`${name}.${member}`, type]);
}

/** Whether a type, as the file of types has it, has a value. */
const has = (type) => (value) => type.split(" | ").some((part) => {
  if (part.endsWith("[]")) return Array.isArray(value) && value.every(has(part.slice(0, -2)));
  if (part.startsWith("{")) return Object.keys(value).join() === [...part.matchAll(/\w+(?=:)/g)].join();
  if (/^-?\d$/.test(part)) return value === Number(part);
  if (!(value instanceof Object)) return part.replace("Cell", "bigint") === (value === null ? "null" : typeof value);
  return value.constructor.name === part.replace(/<.*/, "");
});

const types = new Map([
  ...[...text.matchAll(/^export function (\w+)\(.*\): (.*);/gm)].map(([, name, type]) => [name, type]),
  ...["CellUnion", "UnionFile"].flatMap((name) => [[name, name], ...typed(name)]),
]);
const {main, types: own, exports: {".": {types: ofExports, default: made}}, files} = packed;
const checks = [
  ...namesOf(s2).filter((name) => !types.has(name)).map((name) => [`${name} has no type`, false]),
  ...[...types].map(([name, type]) =>
    [`${name} answers no ${type}`, name in CALLS && has(type)(CALLS[name].asks(given))]),
  ...[main, own, ofExports, made, ...files].map((path) => [`${path} is not there`, existsSync(join(folder, path))]),
  ["main and types are those of exports", main === made && own === ofExports],
];
const wrong = checks.filter(([, isSo]) => !isSo);
for (const [what] of wrong) console.log(what);
console.log(`${checks.length - wrong.length} passed, ${wrong.length} failed`);
process.exitCode = wrong.length ? 1 : 0;
