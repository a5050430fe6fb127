// Cells and unions as values, over core.js, which stands before this in the module. `load` puts the module with the
// calls, MODULE, to work; all else answers from it. A cell is a BigInt, S2CellId::id(); a signed one is taken too.

let core = null;

/** Loads the proved code, once. Nothing else of this file may be called before its promise is kept. */
export async function load() {
  core ??= await Core.from(unpacked(MODULE));
}

function calls() {
  if (!core) throw new Error("s2union: `await load()` first");
  return core;
}

const MOST_LISTED = 10_000_000;
const MOST_SIDE = 2 ** 30 - 1;

// ---- what comes in

/** Whether 64 bits have this number, with a sign or without one. */
function fits(value) {
  if (typeof value !== "bigint") throw new TypeError("a cell is a BigInt");
  return value === unsigned(value) || value === BigInt.asIntN(64, value);
}

/** A number of 64 bits; any other is refused. */
function numberOf(value) {
  if (!fits(value)) throw new Refusal(NO_CELL, 0);
  return value;
}

/** The number of a cell; any other is refused. */
function cellOf(value) {
  if (!calls().isCell(numberOf(value))) throw new Refusal(NO_CELL, 0);
  return unsigned(value);
}

/** The numbers of a list or of any iterable. */
function numbersOf(values) {
  if (values instanceof CellUnion) return cellsIn(values);
  if (values instanceof BigUint64Array || values instanceof BigInt64Array) {
    values.keys(); // a TypeError if its buffer is detached
    return new BigUint64Array(values.buffer, values.byteOffset, values.length);
  }
  const given = [...values];
  given.forEach((value, place) => {
    if (!fits(value)) throw new Refusal(NO_CELL, place);
  });
  return BigUint64Array.from(given);
}

/** A whole number of 64 bits, for a call. */
const longOf = (number) => BigInt(within(number, Number.MAX_SAFE_INTEGER));

/** The bytes that are given, or those of a text. */
const textGiven = (text) => (typeof text === "string" ? encoded(text) : bytesGiven(text));

/** A cell, or null where a call answers none. */
const orNull = (id) => id || null;

/** The entries of a call for many cells; a number that has none is refused at its place. */
function whole(ids, entries, none, each = 1) {
  for (let place = 0; place < ids.length; place++) {
    if (entries[place * each] === none) {
      throw new Refusal(calls().isCell(ids[place]) ? ARGUMENT : NO_CELL, place);
    }
  }
  return entries;
}

// ---- cells

/** The version of the library, as "1.0.0". */
export function version() {
  const number = calls().version();
  return `${Math.floor(number / 10_000)}.${Math.floor(number / 100) % 100}.${number % 100}`;
}

export const isCell = (value) => typeof value === "bigint" && fits(value) && calls().isCell(value);

export const children = (cell) => [0, 1, 2, 3].map((number) => child(cell, number)).filter((it) => it !== null);
export const square = (cell) => calls().square(cellOf(cell));

// methods: all others but is_cell, square_of

// ---- many cells

export function tokens(cells) {
  const ids = numbersOf(cells);
  const fields = new TextDecoder().decode(whole(ids, calls().tokenFields(ids), 0, MOST_TOKEN));
  return Array.from(ids, (_, k) => fields.slice(MOST_TOKEN * k, MOST_TOKEN * (k + 1)).replace(/\0+$/, ""));
}

/** The cells that the words of a text name, in their order. */
export const fromTokens = (text) => calls().named(text);

/** The leaves at points: [face, i, j] each. */
export function fromPoints(points) {
  const given = [...points];
  const numbers = given.map(([face, i, j], place) => {
    try {
      return [within(face, 5), within(i, MOST_SIDE), within(j, MOST_SIDE)];
    } catch {
      throw new Refusal(ARGUMENT, place);
    }
  });
  return calls().fromPoints(Uint32Array.from(numbers.flat()));
}

/** Whether a list is that of a union: ascending cells, no two that share a leaf, no four that make one. */
export const isUnion = (cells) => calls().isUnion(numbersOf(cells));

// ---- unions

/** The list of a union, which nobody else has. */
let cellsIn;
/** A union of a list that is normalized. */
let unionOf;
/** The unions of two coverings. */
const bothOf = ({outer, inner}) => ({outer: unionOf(outer), inner: unionOf(inner)});

/** A set of leaves as the one normalized list of cells that covers it. It never changes. */
export class CellUnion {
  #ids;

  static {
    cellsIn = (union) => {
      if (!(union instanceof CellUnion)) throw new TypeError("this is no CellUnion");
      return union.#ids;
    };
    unionOf = (ids) => {
      const made = new CellUnion();
      made.#ids = ids;
      return made;
    };
  }

  /** The union of cells, which may be in any order, repeated, or inside one another. */
  constructor(cells = []) {
    const ids = numbersOf(cells);
    this.#ids = cells instanceof CellUnion ? ids : ids.length ? calls().normalise(ids) : new BigUint64Array();
  }

  /** The union of a list that is normalized already; any other is refused. */
  static fromNormalized(cells) {
    const ids = numbersOf(cells).slice();
    if (!calls().isUnion(ids)) throw new Refusal(NO_UNION, 0);
    return unionOf(ids);
  }

  /** The union of the cells that the words of a text name: tokens and debug texts, with blanks or commas between. */
  static fromTokens(text) {
    return unionOf(calls().read(text));
  }

  /** The union of many unions, in one call. */
  static unionOf(unions) {
    return unionOf(calls().unionOf([...unions].map(cellsIn)));
  }

  /** The union in the bytes of a file of S2's own encoding. */
  static decode(bytes) {
    return unionOf(calls().decode(bytesGiven(bytes)));
  }

  // ---- its cells

  /** How many cells it has. */
  get size() {
    return this.#ids.length;
  }

  /** Its cells, ascending, in a list that the caller may change. */
  cells() {
    return this.#ids.slice();
  }

  /** The cell at a place; a negative one counts from the end. */
  at(place) {
    return this.#ids.at(place);
  }

  [Symbol.iterator]() {
    return this.#ids.values();
  }

  // ---- questions

  /** Its cells that share a leaf with the cell. */
  cellsAt(cell) {
    return calls().cellsAt(this.#ids, cellOf(cell));
  }

  isSubsetOf(other) {
    return calls().askBoth("s2u_contains", cellsIn(other), this.#ids);
  }

  isDisjointFrom(other) {
    return !this.intersects(other);
  }

  /** Whether both have the same leaves, and so the same list. */
  equals(other) {
    return this.compare(other) === 0;
  }

  /** -1, 0 or 1: the order of lists, cell by cell and then by length, as `sort` takes it. */
  compare(other) {
    return calls().compare(this.#ids, cellsIn(other));
  }

  // ---- other unions

  // methods: all others but tokens

  intersectionWithCell(cell) {
    return unionOf(calls().intersection(this.#ids, BigUint64Array.of(cellOf(cell))));
  }

  /** The cells of the level that share a leaf with it, normalized. */
  outer(level) {
    return unionOf(calls().outer(this.#ids, level));
  }

  /** The cells of the level that lie in it, normalized. */
  inner(level) {
    return unionOf(calls().inner(this.#ids, level));
  }

  // ---- lists, texts and files

  /** Its cells cut to the least level that is at least `min`, and `min` plus a multiple of the modulus. */
  denormalized(min, modulus = 1, most = MOST_LISTED) {
    if (this.denormalizedSize(min, modulus) > BigInt(within(most, Number.MAX_SAFE_INTEGER))) throw new Refusal(MANY, 0);
    return calls().denormalised(this.#ids, min, modulus);
  }

  denormalizedSize(min, modulus = 1) {
    return calls().denormalisedCount(this.#ids, min, modulus);
  }

  /** Its tokens, with a blank between. */
  toString() {
    return calls().tokens(this.#ids);
  }

  toJSON() {
    return this.toString();
  }

  [Symbol.for("nodejs.util.inspect.custom")]() {
    return `CellUnion(${this.size}) { ${this.size > 100 ? `${this.at(0)}n .. ${this.at(-1)}n` : this} }`;
  }
}

// ---- files

function bytesGiven(bytes) {
  if (ArrayBuffer.isView(bytes)) return new Uint8Array(bytes.buffer, bytes.byteOffset, bytes.byteLength);
  if (bytes instanceof ArrayBuffer) return new Uint8Array(bytes);
  throw new TypeError("bytes are an ArrayBuffer or a view of one");
}

/** The bytes of a union file, which answer as they are. */
export class UnionFile {
  #bytes;

  /** Copies the bytes and checks the copy: they must be the file that `encode` makes of some union. */
  constructor(bytes) {
    const copy = bytesGiven(bytes).slice();
    if (!calls().fileCheck(copy)) throw new Refusal(NO_UNION, 0);
    this.#bytes = copy;
  }

  /** Whether it is the file that `encode` makes. One that only `decode` takes answers false, and others are refused. */
  static check(bytes) {
    return calls().fileCheck(bytesGiven(bytes));
  }

  get size() {
    return calls().fileCount(this.#bytes);
  }

  at(place) {
    return calls().fileCell(this.#bytes, within(place, Number.MAX_SAFE_INTEGER));
  }

  // methods: all others but file_count

  toUnion() {
    return CellUnion.decode(this.#bytes);
  }
}

/** What geo.js asks. */
export const internals = {bothOf, calls, cellOf, cellsIn, unionOf};

export {Refusal};
