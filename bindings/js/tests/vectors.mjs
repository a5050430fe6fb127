// Asks the package for JavaScript the questions of tests/model/vectors.py: vectors.mjs MODULE VECTORS. What takes the
// heap is not in it, and is named here. The last line is 'N passed, M failed'.
import {readFileSync} from "node:fs";
import {pathToFileURL} from "node:url";

const [path, vectors] = process.argv.slice(2);
const s2 = await import(pathToFileURL(path));
await s2.load();
const {CellUnion, UnionFile, Refusal} = s2;

const LACKING = ["range", "leaves", "outer_of_rectangle", "inner_of_rectangle", "outer_in", "inner_in"];

// ---- what is given, and what is shown

const cell = (text) => BigInt(`0x${text}`);
const cells = (text) => text.split(" ").filter(Boolean).map(cell);
const union = (text) => CellUnion.fromNormalized(cells(text));
const file = (text) => new UnionFile(union(text).encode());
const bytes = (text) => Uint8Array.from(Buffer.from(text, "hex"));
const text = (given) => new TextDecoder().decode(bytes(given));
const numbers = (text) => text.split(" ").map(Number);

function shown(value) {
  if (value === null) return "none";
  if (typeof value === "boolean") return value ? "yes" : "no";
  if (typeof value === "bigint") return value.toString(16);
  if (value instanceof Uint8Array) return Buffer.from(value).toString("hex");
  if (typeof value === "object") return [...value].map(shown).join(" ");
  return `${value}`;
}

/** The answer of two ways that have to agree. */
function same(...answers) {
  const texts = answers.map(shown);
  return texts.every((text) => text === texts[0]) ? texts[0] : texts.join(" but ");
}

/** Yes or no for each byte, of which 1 is yes and 0 no. */
const marked = (answers) => Array.from(answers, (byte) => [false, true][byte]);

const hex = (text) => Buffer.from(text).toString("hex");

function fields(given) {
  return hex(s2.tokens(cells(given)).map((token) => token.padEnd(16, "\0")).join(""));
}

function cut(given, levels) {
  const [min, modulus] = numbers(levels);
  const list = union(given).denormalized(min, modulus, 100_000);
  return BigInt(list.length) === union(given).denormalizedSize(min, modulus) ? list : "another length";
}

const points = (text) => {
  const given = numbers(text);
  return Array.from({length: given.length / 3}, (_, k) => given.slice(3 * k, 3 * k + 3));
};

const squareOf = (given) => {
  const {face, i, j, size} = s2.square(cell(given));
  return `${face} ${i} ${j} ${size}`;
};

const QUESTIONS = {};

/** Adds a question, or another way to answer it: all ways have to agree. */
function ask(question, way) {
  const other = QUESTIONS[question];
  QUESTIONS[question] = other ? (given) => same(other(given), way(given)) : way;
}

// questions: all but version, child, square_of, token_fields, from_points, levels, tokens, normalise, denormalised,
//   denormalised_len, file_count, file_cell

ask("level", (g) => s2.levels([cell(g[0])])[0]);
ask("children", (g) => (s2.level(cell(g[0])) === 30 ? null : s2.children(cell(g[0]))));
ask("square", (g) => squareOf(g[0]));
for (const list of [Array, BigInt64Array]) ask("normalise", (g) => new CellUnion(list.from(cells(g[0]))));
ask("tokens", (g) => hex(union(g[0]).toString()));
ask("from_tokens", (g) => CellUnion.fromTokens(text(g[0])));
ask("levels", (g) => [...s2.levels(cells(g[0]))].join(" "));
ask("token_fields", (g) => fields(g[0]));
ask("from_points", (g) => s2.fromPoints(points(g[0])));
ask("union", (g) => CellUnion.unionOf([union(g[0]), union(g[1]), union(g[0])]));
ask("union_contains", (g) => union(g[1]).isSubsetOf(union(g[0])));
ask("union_intersects", (g) => !union(g[0]).isDisjointFrom(union(g[1])));
ask("intersection_with_cell", (g) => union(g[0]).intersectionWithCell(cell(g[1])));
ask("denormalised", (g) => cut(...g));

// ---- the questions

/** A refusal as the vectors have it: with its place, where a list or a text has one. */
function refused(error, wanted) {
  if (!(error instanceof Refusal)) throw error;
  return `!${error.kind.toLowerCase()}${wanted.includes(" ") ? ` ${error.place}` : ""}`;
}

function answer(question, given, wanted) {
  try {
    return shown(question(given));
  } catch (error) {
    return refused(error, wanted);
  }
}

let passed = 0;
let failed = 0;
const asked = new Set();
for (const line of readFileSync(vectors, "utf8").split("\n").filter(Boolean)) {
  const [call, ...given] = line.split("\t");
  if (LACKING.includes(call)) continue;
  const wanted = given.pop();
  asked.add(call);
  const found = answer(QUESTIONS[call], given, wanted);
  if (found === wanted) passed++;
  else if (failed++ < 20) console.log(`${call} ${given}: ${found}, not ${wanted}`.slice(0, 400));
}
const never = Object.keys(QUESTIONS).filter((call) => !asked.has(call));
if (never.length) console.log(`never asked: ${never}`);
failed += never.length;
console.log(`${passed} passed, ${failed} failed`);
process.exitCode = failed ? 1 : 0;
