/**
 * The number of a cell, S2CellId::id(). Calls take it with a sign too, as databases have it, and answer it without.
 * @since 1.1
 */
export type Cell = bigint;
/**
 * A list of cells that a call takes: a list, a union, or anything that can be iterated.
 * @since 1.1
 */
export type Cells = Iterable<Cell> | BigUint64Array | BigInt64Array;

/**
 * Loads the proved code, once. Nothing else may be called before its promise is kept.
 * @returns a promise that is kept when all else can be called
 * @since 1.1
 * @example
 * await load() // undefined
 */
export function load(): Promise<void>;
// comment: version
export function version(): string;

/**
 * The kind of an error: MEMORY, there is none; NO_CELL, a number is no cell, or a text names none; NO_UNION, a list is
 * not normalized; ARGUMENT, a level, coordinate, modulus or place is out of range; MANY, there would be more cells than
 * are allowed; FILE_SHORT, FILE_VERSION, FILE_TRAILING, FILE_CELL, bytes are no union file, since they end too early,
 * begin with another version, go on after the last cell, or have a number that is no cell; SHAPE, a text or bytes are
 * no shape of polygons, since they have a fault. ROOM is not thrown, nor are CORNER and RING, which are of polygons.
 * OTHER is of a later version.
 * @since 1.2
 */
export type RefusalKind = "ROOM" | "MEMORY" | "NO_CELL" | "NO_UNION" | "ARGUMENT" | "MANY" | "FILE_SHORT"
  | "FILE_VERSION" | "FILE_TRAILING" | "FILE_CELL" | "CORNER" | "RING" | "SHAPE" | "OTHER";

/**
 * Calls throw it for a value that is wrong. For a value of a wrong type they throw a TypeError: a cell that isn't a
 * BigInt, a text that isn't a string, something else than a union, a list whose buffer went elsewhere.
 * @since 1.1
 * @example
 * (() => { try { level(2n); } catch (error) { return error.kind; } })() // NO_CELL
 */
export class Refusal extends Error {
  /**
   * The kinds, each by its name, for those who write no types.
   * @since 1.2
   * @example
   * Refusal.Kind.NO_CELL // NO_CELL
   */
  static readonly Kind: {readonly [kind in RefusalKind]: kind};
  /**
   * The kind of the error.
   * @since 1.2
   */
  readonly kind: RefusalKind;
  /**
   * The same as a number: -1 ROOM, -2 MEMORY, -3 NO_CELL, -4 NO_UNION, -5 ARGUMENT, -6 MANY, -10 FILE_SHORT,
   * -11 FILE_VERSION, -12 FILE_TRAILING, -13 FILE_CELL, -14 CORNER, -15 RING, -16 SHAPE.
   * @since 1.1
   */
  readonly status: number;
  /**
   * The index of the first wrong number of a list, or the byte at which the first wrong word of a text begins; else 0.
   * @since 1.1
   */
  readonly place: number;
  /**
   * Why a text of GeoJSON, or bytes of WKB, are no shape of polygons, and where; null of another kind than SHAPE.
   * @since 1.5
   */
  readonly fault: ShapeFault | null;
}

/**
 * The first fault of a shape in a text of GeoJSON, or in bytes of WKB.
 * @since 1.5
 */
export interface ShapeFault {
  /** Its name, as s2union.h has it after S2U_FAULT_, such as OPEN; OTHER of a later version. */
  readonly name: string;
  /** How many bytes of WKB come before it; 0 of a text, and of NO_INSIDE. */
  readonly byte: number;
  /** How many points, lines and polygons come before it. */
  readonly part: number;
  /** How many rings and lines have ended before it, of all parts. */
  readonly ring: number;
  /** How many positions of its ring or line come before it. */
  readonly position: number;
}

// comment: is_cell
export function isCell(value: unknown): boolean;
// methods: level, face, size, range_min, range_max, parent, child
/**
 * The four children of a cell along the curve.
 * S2: `S2CellId::child`.
 * @param cell - a cell
 * @returns four cells; none of a leaf
 * @throws {@link Refusal} `NO_CELL` if the number is no cell
 * @since 1.1
 * @example
 * children(fromToken("1")).map(token).join() // 04,0c,14,1c
 */
export function children(cell: Cell): Cell[];
// methods: next, prev, common_ancestor, cell_contains, cell_intersects
// comment: square_of
export function square(cell: Cell): {face: number; i: number; j: number; size: number};
// methods: from_face_ij, token, from_token, debug, from_debug
// methods: all others
// comment: token_fields
export function tokens(cells: Cells): string[];
// methods: from_tokens
// comment: from_points
export function fromPoints(points: Iterable<readonly [number, number, number]>): BigUint64Array;
// methods: is_union

/**
 * A set of leaves as the one normalized list of cells that covers it. It never changes.
 * @since 1.1
 */
export class CellUnion implements Iterable<Cell> {
  /**
   * The union of cells, which may be in any order, repeated, or inside one another.
   * S2: `S2CellUnion(std::vector<S2CellId>)`.
   * @param cells - cells
   * @throws {@link Refusal} `NO_CELL` if a number is no cell; the place is that of the first
   * @since 1.1
   * @example
   * String(new CellUnion([fromToken("0c"), fromToken("04")])) // 04 0c
   */
  constructor(cells?: Cells);
  /**
   * The union of a list that is normalized already.
   * S2: `S2CellUnion::FromNormalized`.
   * @param cells - cells
   * @returns the union
   * @throws {@link Refusal} `NO_UNION` if the list is not normalized
   * @since 1.1
   * @example
   * String(CellUnion.fromNormalized([fromToken("04")])) // 04
   */
  static fromNormalized(cells: Cells): CellUnion;
  /**
   * The union of the cells that the words of a text name.
   * S2: `S2CellId::FromToken`.
   * @param text - words with blanks, tabs, line ends or commas between them, each a token or a debug text
   * @returns the union
   * @throws {@link Refusal} `NO_CELL` if a word names no cell; the place is that of the byte at which the word begins
   * @since 1.1
   * @example
   * String(CellUnion.fromTokens("0c, 0/0")) // 04 0c
   */
  static fromTokens(text: string): CellUnion;
  /**
   * The leaves of any of many unions, in one call, which merges them in pairs.
   * S2: `S2CellUnion::Union`.
   * @param unions - any number of unions
   * @returns the union; the empty one of none
   * @since 1.1
   * @example
   * String(CellUnion.unionOf([CellUnion.fromTokens("04 0c"), CellUnion.fromTokens("14 1c")])) // 1
   */
  static unionOf(unions: Iterable<CellUnion>): CellUnion;
  // methods: decode

  /**
   * How many cells it has.
   * S2: `S2CellUnion::num_cells`.
   * @returns 0 or more
   * @since 1.1
   * @example
   * CellUnion.fromTokens("04 0c").size // 2
   */
  readonly size: number;
  /**
   * Its cells, ascending, in a list that the caller may change.
   * S2: `S2CellUnion::cell_ids`.
   * @returns a copy
   * @since 1.1
   * @example
   * tokens(CellUnion.fromTokens("0c 04").cells()).join() // 04,0c
   */
  cells(): BigUint64Array;
  /**
   * The cell at a place; a negative one counts from the end.
   * S2: `S2CellUnion::cell_id`.
   * @param place - the place; a negative one counts from the end
   * @returns the cell, or undefined if there is none
   * @since 1.1
   * @example
   * token(CellUnion.fromTokens("0c 04").at(-1)) // 0c
   */
  at(place: number): Cell | undefined;
  /**
   * Its cells, ascending.
   * S2: `S2CellUnion::begin`.
   * @returns an iterator of cells
   * @since 1.1
   * @example
   * tokens([...CellUnion.fromTokens("0c 04")]).join() // 04,0c
   */
  [Symbol.iterator](): IterableIterator<Cell>;
  // methods: leaf_count, contains_cell, intersects_cell, contains_cells, intersects_cells
  // comment: cells_at
  cellsAt(cell: Cell): BigUint64Array;
  // methods: contains
  /**
   * Whether all its leaves are in the other.
   * S2: `S2CellUnion::Contains`.
   * @param other - the other
   * @returns true if they are
   * @since 1.1
   * @example
   * CellUnion.fromTokens("04").isSubsetOf(CellUnion.fromTokens("1")) // true
   */
  isSubsetOf(other: CellUnion): boolean;
  /**
   * Whether they share no leaf.
   * S2: `S2CellUnion::Intersects`.
   * @param other - the other
   * @returns true if they don't
   * @since 1.1
   * @example
   * CellUnion.fromTokens("04").isDisjointFrom(CellUnion.fromTokens("1")) // false
   */
  isDisjointFrom(other: CellUnion): boolean;
  // methods: intersects
  /**
   * Whether both have the same leaves, and so the same list.
   * S2: `S2CellUnion::operator==`.
   * @param other - a union, or anything else
   * @returns true if they have
   * @since 1.1
   * @example
   * CellUnion.fromTokens("1").equals(CellUnion.fromTokens("04 0c 14 1c")) // true
   */
  equals(other: CellUnion): boolean;
  /**
   * The order of lists, cell by cell and then by length, as `sort` takes it.
   * @param other - the other
   * @returns -1, 0 or 1
   * @since 1.1
   * @example
   * CellUnion.fromTokens("04").compare(CellUnion.fromTokens("0c")) // -1
   */
  compare(other: CellUnion): -1 | 0 | 1;

  // methods: all others but compare, normalise
  /**
   * The leaves that it shares with a cell.
   * S2: `S2CellUnion::Intersection`.
   * @param cell - a cell
   * @returns a new union
   * @throws {@link Refusal} `NO_CELL` if the number is no cell
   * @since 1.1
   * @example
   * String(CellUnion.fromTokens("04 3").intersectionWithCell(fromToken("1"))) // 04
   */
  intersectionWithCell(cell: Cell): CellUnion;
  // methods: outer_of, inner_of, ancestors
  // comment: denormalised
  denormalized(min: number, modulus?: number, most?: number): BigUint64Array;
  // comment: denormalised_len
  denormalizedSize(min: number, modulus?: number): bigint;
  // methods: encode
  // comment: tokens
  toString(): string;
  /**
   * The same text as `toString`, for `JSON.stringify`.
   * @returns a text that `fromTokens` reads
   * @since 1.1
   * @example
   * JSON.stringify({park: CellUnion.fromTokens("04")}) // {"park":"04"}
   */
  toJSON(): string;
}

/**
 * The bytes of a union file, which answers questions without a list of its cells.
 * @since 1.1
 */
export class UnionFile {
  /**
   * Copies the bytes and checks the copy: they must be the file that `encode` makes of some union.
   * S2: `S2CellUnion::Decode`.
   * @param bytes - the bytes of a file
   * @throws {@link Refusal} `NO_UNION` if the cells of the file are not normalized: `decode` takes it, or
   *   `FILE_SHORT` if bytes are missing, or `FILE_VERSION` if the first byte is not 1, or `FILE_TRAILING` if bytes
   *   follow the last cell, or `FILE_CELL` if a number in it is no cell
   * @since 1.1
   * @example
   * new UnionFile(CellUnion.fromTokens("04").encode()).size // 1
   */
  constructor(bytes: ArrayBuffer | ArrayBufferView);
  // methods: file_check
  // comment: file_count
  readonly size: number;
  // methods: all others
  /**
   * The union of its cells, copied.
   * S2: `S2CellUnion::Decode`.
   * @returns the union
   * @since 1.1
   * @example
   * String(new UnionFile(CellUnion.fromTokens("04").encode()).toUnion()) // 04
   */
  toUnion(): CellUnion;
}

/** What the module `geo` asks. It isn't for others, and may change. */
export const internals: object;
