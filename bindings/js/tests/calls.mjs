// Each call of the package for JavaScript: what it takes, a question over long lists, and its plain answer.

export const FACE = 0x1000000000000000n;
const SQUARE = '{"type": "Polygon", "coordinates": [[[0,0], [20,0], [20,20], [0,20], [0,0]]]}';
const EMPTY = Uint8Array.of(0, 0, 0, 0, 6, 0, 0, 0, 0);

/** The lists of questions to a module: the first `count` of every second leaf of a face, and the leaves between. */
export class Given {
  constructor(module, count) {
    this.module = module;
    this.count = BigInt(count);
    this.cells = BigUint64Array.from({length: count}, (_, k) => BigInt(4 * k + 1));
    this.between = this.cells.map((id) => id + 2n);
    this.cell = this.cells[count - 1];
    this.tokens = Array.from(this.cells, (id) => id.toString(16).padStart(16, "0"));
    this.text = this.tokens.join(" ");
    this.points = Array.from({length: count}, (_, k) => [k % 6, 17 * k, 31 * k]);
    this.bytes = new Uint8Array(9 + 8 * count);
    this.bytes[0] = 1;
    new DataView(this.bytes.buffer).setBigUint64(1, this.count, true);
    this.bytes.set(new Uint8Array(this.cells.buffer), 9);
  }

  get union() {
    return this.module.CellUnion.fromNormalized(this.cells);
  }

  get other() {
    return this.module.CellUnion.fromNormalized(this.between);
  }

  get file() {
    return new this.module.UnionFile(this.bytes);
  }

  /** The cells and all that contain them. */
  get ancestors() {
    if (this.found) return this.found;
    const above = (id, level) => {
      const size = 4n ** BigInt(30 - level);
      return id / (2n * size) * (2n * size) + size;
    };
    const levels = Array.from({length: 31}, (_, level) => new Set(Array.from(this.cells, (id) => above(id, level))));
    return (this.found = BigUint64Array.from(levels.flatMap((ids) => [...ids])).sort());
  }
}

const each = (answer) => (it) => Array.from(it.cells, () => answer);
const cells = (it) => it.cells;
const none = () => [];
/** A call that takes a cell, cells, a text or a level: `call` is given any of that kind, and asked of `it[kind]`. */
const of = (kind, call, wanted, more = {}) => ({[kind]: call, asks: (it) => call(it, it[kind]), wanted, ...more});
const named = (before, on, kind, answers) => Object.fromEntries(Object.entries(answers).map(
  ([name, wanted]) => [before + name, of(kind, (it, given) => on(it)[name](given), wanted)]));
const ofModule = (kind, answers) => named("", (it) => it.module, kind, answers);
const ofUnion = (kind, answers) => named("CellUnion.", (it) => it.union, kind, answers);
const ofFile = (kind, answers) => named("UnionFile.", (it) => it.file, kind, answers);

/**
 * By its name, each call: functions of a Given and of a `cell`, `cells`, a `text` or a `level` that it takes, with a
 * `second` cell; `asks` of a Given alone, and what that has to answer, `wanted`.
 */
export const CALLS = {
  load: {asks: (it) => it.module.load()},
  version: {asks: (it) => it.module.version()},
  isCell: {asks: (it) => it.module.isCell(it.cell), wanted: () => true},
  ...ofModule("cell", {
    level: () => 30, face: () => 0, size: () => 1n, rangeMin: (it) => it.cell, rangeMax: (it) => it.cell,
    children: none, next: (it) => it.cell + 2n, prev: (it) => it.cell - 2n, token: (it) => it.tokens.at(-1),
    debug: undefined, square: undefined,
  }),
  parent: of("cell", (it, cell) => it.module.parent(cell, 0), () => FACE,
    {level: (it, level) => it.module.parent(FACE, level)}),
  child: of("cell", (it, cell) => it.module.child(cell, 0), () => null,
    {level: (it, number) => it.module.child(FACE, number)}),
  commonAncestor: of("cell", (it, cell) => it.module.commonAncestor(cell, FACE), () => FACE,
    {second: (it, cell) => it.module.commonAncestor(FACE, cell)}),
  contains: of("cell", (it, cell) => it.module.contains(cell, FACE), () => false,
    {second: (it, cell) => it.module.contains(FACE, cell)}),
  intersects: of("cell", (it, cell) => it.module.intersects(cell, FACE), () => true,
    {second: (it, cell) => it.module.intersects(FACE, cell)}),
  fromToken: {text: (it, text) => it.module.fromToken(text), asks: (it) => it.module.fromToken(it.tokens.at(-1)),
    wanted: (it) => it.cell},
  fromDebug: {text: (it, text) => it.module.fromDebug(text), asks: (it) => it.module.fromDebug("0/"),
    wanted: () => FACE},
  fromFaceIJ: {level: (it, face) => it.module.fromFaceIJ(face, 0, 0), asks: (it) => it.module.fromFaceIJ(0, 0, 0),
    wanted: () => 1n},
  ...ofModule("cells", {levels: each(30), rangeMins: cells, rangeMaxes: cells, tokens: (it) => it.tokens}),
  parents: of("cells", (it, given) => it.module.parents(given, 0), each(FACE),
    {level: (it, level) => it.module.parents(it.cells, level)}),
  fromTokens: of("text", (it, text) => it.module.fromTokens(text), cells),
  fromPoints: {asks: (it) => it.module.fromPoints(it.points),
    wanted: (it) => it.points.map((point) => it.module.fromFaceIJ(...point))},
  isUnion: {asks: (it) => it.module.isUnion(it.cells), wanted: () => true},
  coverGeoJson: {level: (it, level) => it.module.coverGeoJson(SQUARE, level),
    asks: (it) => it.module.coverGeoJson(SQUARE, 3)},
  coverWkb: {level: (it, level) => it.module.coverWkb(EMPTY, level), asks: (it) => it.module.coverWkb(EMPTY, 3)},
  coverGeoJsonUpTo: {level: (it, level) => it.module.coverGeoJsonUpTo(SQUARE, level, 9),
    asks: (it) => it.module.coverGeoJsonUpTo(SQUARE, 3, 9)},
  coverWkbUpTo: {level: (it, level) => it.module.coverWkbUpTo(EMPTY, level, 9),
    asks: (it) => it.module.coverWkbUpTo(EMPTY, 3, 9)},
  coverGeodesicGeoJson: {level: (it, level) => it.module.coverGeodesicGeoJson(SQUARE, level, 99),
    asks: (it) => it.module.coverGeodesicGeoJson(SQUARE, 3, 99)},
  coverGeodesicWkb: {level: (it, level) => it.module.coverGeodesicWkb(EMPTY, level, 99),
    asks: (it) => it.module.coverGeodesicWkb(EMPTY, 3, 99)},

  CellUnion: of("cells", (it, given) => new it.module.CellUnion(given), cells),
  "CellUnion.fromNormalized": {asks: (it) => it.module.CellUnion.fromNormalized(it.cells), wanted: cells},
  "CellUnion.fromTokens": of("text", (it, text) => it.module.CellUnion.fromTokens(text), cells),
  "CellUnion.unionOf": {asks: (it) => it.module.CellUnion.unionOf([it.union, it.other]), wanted: (it) => 2n * it.count},
  "CellUnion.decode": {asks: (it) => it.module.CellUnion.decode(it.bytes), wanted: cells},
  "CellUnion.size": {asks: (it) => it.union.size, wanted: (it) => Number(it.count)},
  "CellUnion.cells": {asks: (it) => it.union.cells(), wanted: cells},
  "CellUnion.at": {asks: (it) => it.union.at(-1), wanted: (it) => it.cell},
  "CellUnion.leafCount": {asks: (it) => it.union.leafCount(), wanted: (it) => it.count},
  ...ofUnion("cell", {has: () => true, intersectsCell: () => true, cellsAt: (it) => [it.cell],
    intersectionWithCell: (it) => [it.cell]}),
  ...ofUnion("cells", {hasEach: each(1), intersectsEach: each(1)}),
  ...named("CellUnion.", (it) => it.union, "other", {
    isSupersetOf: () => false, isSubsetOf: () => false, isDisjointFrom: () => true, intersects: () => false,
    equals: () => false, compare: () => -1, intersection: none, difference: cells,
  }),
  "CellUnion.union": {asks: (it) => it.union.union(it.other), wanted: (it) => 2n * it.count},
  "CellUnion.symmetricDifference": {asks: (it) => it.union.symmetricDifference(it.other),
    wanted: (it) => 2n * it.count},
  "CellUnion.complement": {asks: (it) => it.union.complement(), wanted: (it) => 6n * 4n ** 30n - it.count},
  "CellUnion.outer": {level: (it, level) => it.union.outer(level), asks: (it) => it.union.outer(29),
    wanted: (it) => 2n * it.count},
  "CellUnion.inner": {level: (it, level) => it.union.inner(level), asks: (it) => it.union.inner(29), wanted: none},
  "CellUnion.ancestors": {asks: (it) => it.union.ancestors(), wanted: (it) => it.ancestors},
  "CellUnion.denormalized": {level: (it, level) => it.union.denormalized(level),
    asks: (it) => it.union.denormalized(3), wanted: cells},
  "CellUnion.denormalizedSize": {level: (it, level) => it.union.denormalizedSize(level),
    asks: (it) => it.union.denormalizedSize(3), wanted: (it) => it.count},
  "CellUnion.encode": {asks: (it) => it.union.encode(), wanted: (it) => it.bytes},
  "CellUnion.toString": {asks: (it) => it.union.toString(), wanted: (it) => it.text},
  "CellUnion.toJSON": {asks: (it) => it.union.toJSON(), wanted: (it) => it.text},

  UnionFile: {asks: (it) => it.file},
  "UnionFile.check": {asks: (it) => it.module.UnionFile.check(it.bytes), wanted: () => true},
  "UnionFile.size": {asks: (it) => it.file.size, wanted: (it) => Number(it.count)},
  "UnionFile.at": {asks: (it) => it.file.at(it.cells.length - 1), wanted: (it) => it.cell},
  "UnionFile.hasEach": of("cells", (it, given) => it.file.hasEach(given), each(1)),
  "UnionFile.leafCount": {asks: (it) => it.file.leafCount(), wanted: (it) => it.count},
  ...ofFile("cell", {has: () => true, intersectsCell: () => true}),
  ...ofFile("file", {isSupersetOf: () => true, intersects: () => true}),
  "UnionFile.ancestors": {asks: (it) => it.file.ancestors(), wanted: (it) => it.ancestors},
  "UnionFile.toUnion": {asks: (it) => it.file.toUnion(), wanted: cells},
};

/** The names of what a module exports, with the members of its classes, but for those of the language. */
export function namesOf(module) {
  const ofAll = ["constructor", "length", "name", "prototype"];
  const members = (made) => [made, made.prototype].flatMap(Object.getOwnPropertyNames)
    .filter((name) => !ofAll.includes(name)).map((name) => `${made.name}.${name}`);
  const exported = Object.keys(module).filter((name) => !["Refusal", "internals"].includes(name));
  return [...exported, ...[module.CellUnion, module.UnionFile].flatMap(members)];
}
