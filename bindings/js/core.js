"use strict";
// The calls of s2union.h that take no memory, and those that read shapes, in a module for WebAssembly. Its memory has
// 32-bit addresses, which calls take as BigInt, as they take lengths. A list is a BigUint64Array. The page has this
// file, and so has the package.

const LAST_LEVEL = 30;

// made by tools/calls
const ROOM = -1, MEMORY = -2, NO_CELL = -3, NO_UNION = -4, ARGUMENT = -5, MANY = -6, FILE_SHORT = -10,
  FILE_VERSION = -11, FILE_TRAILING = -12, FILE_CELL = -13, CORNER = -14, RING = -15, SHAPE = -16;
const MOST_TOKEN = 16, MOST_DEBUG = 32;
const FAULTS = {
  [-1]: "too little room",
  [-2]: "out of memory",
  [-3]: "not a cell",
  [-4]: "not a normalized list of cells",
  [-5]: "argument out of range",
  [-6]: "too many cells",
  [-10]: "union file: bytes are missing",
  [-11]: "union file: unknown version",
  [-12]: "union file: bytes after the last cell",
  [-13]: "union file: a number that is not a cell",
  [-14]: "a corner of a polygon is no direction, or lies opposite the next one",
  [-15]: "a ring of a polygon has a wrong end or fewer than three corners",
  [-16]: "a text or bytes are no shape of polygons",
};
const KINDS = {[-1]: "ROOM", [-2]: "MEMORY", [-3]: "NO_CELL", [-4]: "NO_UNION", [-5]: "ARGUMENT",
  [-6]: "MANY", [-10]: "FILE_SHORT", [-11]: "FILE_VERSION", [-12]: "FILE_TRAILING", [-13]: "FILE_CELL",
  [-14]: "CORNER", [-15]: "RING", [-16]: "SHAPE"};
const SHAPE_FAULTS = {
  TRUNCATED: "bytes are missing",
  TRAILING: "bytes after the geometry",
  ORDER: "a geometry begins with the byte 0 or 1",
  TYPE: "no type of geometry",
  UNCOVERED: "a geometry that is no point, line, polygon or collection of them",
  SRID: "an SRID that is not 4326",
  MEMBER: "a geometry of another type than the list that it is in",
  DEEP: "too many collections in each other",
  COUNT: "a count beyond the end of the bytes",
  FEW: "a ring has fewer than four positions",
  OPEN: "a ring is open: its last position is not its first",
  NOT_FINITE: "a coordinate is infinite or not a number",
  UTF8: "the text is not UTF-8",
  JSON: "the text is not JSON",
  TWICE: "an object has a member twice",
  NO_TYPE: "an object without a type",
  MISSING: "a list of coordinates, geometries or features is missing",
  POSITION: "a position is a longitude and a latitude",
  RANGE: "a longitude is from -540 to 540 and a latitude from -90 to 90 (the longitude first)",
  NO_INSIDE: "a point or a line has no inside",
  NO_MAP: "a position is no place, or a ring no ring",
  LONG_EDGE: "an edge is 128 degrees or longer",
  SPREAD: "no half of the sphere has all corners of a polygon",
};
const MAP_WORK = 268435456;
/** The room that what a call makes is first given. */
const ROOMS = {
  s2u_from_tokens: (n) => Math.floor(n / 2) + 1,
  s2u_tokens: (n) => 17 * n,
  s2u_union: (nx, ny) => nx + ny,
  s2u_intersection: (nx, ny) => 2 * Math.min(nx, ny),
  s2u_difference: (nx, ny) => nx + Math.min(nx, ny) + 90,
  s2u_symmetric_difference: (nx, ny) => nx + ny + 90,
  s2u_complement: (n) => 2 * n + 90,
  s2u_ancestors: (n) => 2 * n + 30,
  s2u_encode: (n) => 8 * n + 9,
  s2u_file_ancestors: (n) => Math.floor(n / 4) + 30,
  s2u_map_geojson: () => 4096,
  s2u_map_wkb: () => 4096,
  s2u_map_geojson_up_to: () => 1024,
  s2u_map_wkb_up_to: () => 1024,
  s2u_geodesic_geojson: () => 4096,
  s2u_geodesic_wkb: () => 4096,
};

const HEAD_SIZE = 9;
const PAGE_SIZE = 65536;
/** How many bytes of lists stay in the memory for the next questions. */
const MOST_KEPT = 2 ** 29;
/** A list that stays takes a multiple of this, which keeps their number low. */
const SPACE = 1024;
/** As many cells are asked one by one. */
const FEW = 12;

/** What the module imports: of C's library, what JavaScript has. */
const IMPORTS = {
  ...Object.fromEntries(["sin", "cos", "tan", "asin", "atan", "atan2"].map((name) => [name, Math[name]])),
  fmod: (x, y) => x % y,
};

/** A refusal of the library: its kind, its status, and the place that it reports; of a shape its fault. */
class Refusal extends Error {
  /** The kinds, each by its name. */
  static Kind = Object.freeze(Object.fromEntries([...Object.values(KINDS), "OTHER"].map((kind) => [kind, kind])));

  constructor(status, place, fault = null) {
    super(fault ? faultText(fault) : FAULTS[status] ?? `unknown refusal ${status}`);
    this.kind = KINDS[status] ?? "OTHER";
    this.status = status;
    this.place = place;
    this.fault = fault;
  }
}

/** The fault of a shape that has these numbers: its own from 1 on, and how many of each come before it. */
function faultOf([number, byte, part, ring, position]) {
  return {name: Object.keys(SHAPE_FAULTS)[number - 1] ?? "OTHER", byte, part, ring, position};
}

/** A status of s2union_cover.h, and its fault: the ring, the position, the name of what can't be read, and its text. */
function faultIn(status, [ring, position, number, part]) {
  const fault = number ? faultOf([number]).name : "";
  const said = `${SHAPE_FAULTS[fault]}: part ${part}, ring ${ring}, position ${position}`;
  return {status, ring, position, fault, said};
}

const faultText = ({name, byte, part, ring, position}) =>
  `${SHAPE_FAULTS[name] ?? "unknown fault"}: byte ${byte}, part ${part}, ring ${ring}, position ${position}`;

/** The answer to a question, yes or no; its refusal is thrown. */
function isYes(status) {
  if (status < 0) throw new Refusal(status, 0);
  return status === 1;
}

const even = (size) => Math.ceil(size / 16) * 16;
/** Bytes from base64. */
const unpacked = (text) => Uint8Array.from(atob(text), (letter) => letter.charCodeAt(0));
const unsigned = (number) => BigInt.asUintN(64, number);

/** A whole number that is at most this; any other is refused, since a call would take it modulo 2^32. */
function within(number, most) {
  if (!Number.isInteger(number) || number < 0 || number > most) throw new Refusal(ARGUMENT, 0);
  return number;
}

/** The bytes of a text in UTF-8. */
function encoded(text) {
  if (typeof text !== "string") throw new TypeError("a text is a string");
  return new TextEncoder().encode(text);
}

/** Where a list lies in the memory: its words, its start, 0 once it is gone, and the turn that last asked it. */
class Place {
  constructor(list, start, used) {
    this.at = BigInt(start);
    this.length = BigInt(list.length);
    this.size = Math.ceil(Math.max(list.byteLength, 1) / SPACE) * SPACE;
    this.start = start;
    this.used = used;
  }
}

class Core {
  constructor(module, instance) {
    this.module = module;
    this.calls = instance.exports;
    this.base = even(Number(this.calls.__heap_base.value));
    this.front = this.base;
    this.found = new WeakMap();
    this.laid = [];
    this.turn = 0;
  }

  static async from(bytes) {
    const {module, instance} = await WebAssembly.instantiate(bytes, {env: IMPORTS});
    return new Core(module, instance);
  }

  /** The module once more, with a memory of its own. */
  another() {
    return new Core(this.module, new WebAssembly.Instance(this.module, {env: IMPORTS}));
  }

  // ---- lists that lie at the front of the memory, where calls find them without a copy

  /** The place of a list that lies there. */
  placeOf(list) {
    const place = this.found.get(list);
    return place?.start ? place : undefined;
  }

  /**
   * Lays lists at the front of the memory, until this is called again. Others are forgotten. One that stays where it
   * was isn't copied again. If there is no memory for them, those that lay there stay.
   */
  keep(lists) {
    let front = this.base;
    const laid = lists.map((list) => {
      const place = new Place(list, front, Infinity);
      front += place.size;
      return place;
    });
    this.grow(front);
    lists.forEach((list, k) => {
      if (this.placeOf(list)?.start !== laid[k].start) this.copy(list, laid[k].start);
    });
    this.laid.forEach((place) => (place.start = 0));
    lists.forEach((list, k) => this.found.set(list, laid[k]));
    [this.laid, this.front] = [laid, front];
  }

  /** The place of a list that is asked, which nobody may change. It lies there until other lists need the place. */
  asked(list) {
    const place = this.placeOf(list) ?? this.lay(list);
    if (place.used < this.turn) place.used = this.turn;
    return place;
  }

  lay(list) {
    const {size} = new Place(list, 0, 0);
    if (this.front - this.base + size > MOST_KEPT) this.letGo(MOST_KEPT / 2);
    this.reach(size);
    const place = new Place(list, this.front, this.turn);
    this.copy(list, place.start);
    this.found.set(list, place);
    this.laid.push(place);
    this.front += size;
    return place;
  }

  /**
   * Lets lists go, those first that were asked least lately, until the others have at most this many bytes, and moves
   * these together. Those of this turn stay, and those that `keep` was given.
   */
  letGo(most) {
    let size = 0;
    for (const place of [...this.laid].sort((a, b) => b.used - a.used)) {
      size += place.size;
      if (size > most && place.used < this.turn) place.start = 0;
    }
    this.laid = this.laid.filter(({start}) => start);
    this.front = this.base;
    for (const place of this.laid) {
      if (place.start !== this.front) this.move(place, this.front);
      this.front += place.size;
    }
  }

  move(place, start) {
    new Uint8Array(this.calls.memory.buffer).copyWithin(start, place.start, place.start + place.size);
    [place.start, place.at] = [start, BigInt(start)];
  }

  copy(list, at) {
    this.bytes(at, list.byteLength).set(bytesOf(list));
  }

  /** Sees to it that this many bytes are free behind the lists. They go, if the memory can't grow. */
  reach(size) {
    try {
      this.grow(this.front + size);
    } catch {
      this.letGo(0);
      this.grow(this.front + size);
    }
  }

  grow(end) {
    const missing = end - this.calls.memory.buffer.byteLength;
    if (missing <= 0) return;
    try {
      this.calls.memory.grow(Math.ceil(missing / PAGE_SIZE));
    } catch {
      throw new Refusal(MEMORY, 0);
    }
  }

  bytes(at, size) {
    return new Uint8Array(this.calls.memory.buffer, at, size);
  }

  number(at) {
    return new BigUint64Array(this.calls.memory.buffer, at, 1)[0];
  }

  /** Addresses behind the laid lists for pieces of these sizes. */
  places(sizes) {
    this.reach(sizes.reduce((sum, size) => sum + even(size), 0));
    let at = this.front;
    return sizes.map((size) => (at += even(size)) - even(size));
  }

  /** The words that pass these lists, which are copied if they don't lie there, and places for pieces after them. */
  passed(lists, sizes) {
    this.turn++;
    const laid = lists.map((list) => this.placeOf(list) && this.asked(list));
    const places = this.places([...lists.map((list, k) => (laid[k] ? 0 : list.byteLength)), ...sizes]);
    const words = lists.flatMap((list, k) => {
      if (!laid[k]) this.copy(list, places[k]);
      return [laid[k]?.at ?? BigInt(places[k]), BigInt(list.length)];
    });
    return [words, places.slice(lists.length)];
  }

  /** Lays lists that are asked, and that nobody may change. */
  stay(...lists) {
    this.turn++;
    return lists.map((list) => this.asked(list));
  }

  /** What a call of lists answers. */
  ask(name, lists) {
    return this.calls[name](...this.passed(lists, [])[0]);
  }

  /** The same of a list that stays, and a cell: yes or no. */
  askOf(call, list, cell) {
    this.turn++;
    const {at, length} = this.asked(list);
    return isYes(call(at, length, cell));
  }

  /** What a call answers about two lists that stay: yes or no. */
  askBoth(name, xs, ys) {
    this.stay(xs, ys);
    return isYes(this.ask(name, [xs, ys]));
  }

  /** The list that a call makes of lists, in the room of the table for lists of these lengths. */
  make(name, lists, Kind) {
    return this.makeIn(ROOMS[name](...lists.map((list) => list.length)), name, lists, Kind);
  }

  /** The same of unions. One that is much longer than what may come out stays, since its copy would take longest. */
  makeOf(name, ...unions) {
    const room = ROOMS[name](...unions.map((list) => list.length));
    this.stay(...unions.filter((list) => list.length > 4 * room));
    return this.makeIn(room, name, unions, BigUint64Array);
  }

  /** The same in some room, of numbers too; it is called once more if that was too little. */
  makeIn(room, name, lists, Kind, ...more) {
    for (;;) {
      const [words, [out, len]] = this.passed(lists, [room * Kind.BYTES_PER_ELEMENT, 8]);
      const status = this.calls[name](...words, ...more, BigInt(out), BigInt(room), BigInt(len));
      const count = Number(this.number(len));
      if (status >= 0) return new Kind(this.calls.memory.buffer, out, count).slice();
      if (status !== ROOM) throw new Refusal(status, count);
      room = count;
    }
  }

  /** What a call answers, and the number that it writes. */
  answer(name, lists, ...more) {
    const [words, [at]] = this.passed(lists, [8]);
    const status = this.calls[name](...words, ...more, BigInt(at));
    if (status < 0) throw new Refusal(status, 0);
    return this.number(at);
  }

  /**
   * What a call answers that takes memory, which begins at an address behind all places; it may grow, so that views of
   * it are gone.
   */
  taking(end, name, ...words) {
    this.calls.s2js_begin(BigInt(end));
    return this.calls[name](...words);
  }

  /** Copies of what pairs of an address and a count at a place say, as lists of some kinds. */
  listsAt(at, ...kinds) {
    const pairs = new BigUint64Array(this.calls.memory.buffer, at, 2 * kinds.length);
    return kinds.map((Kind, k) => {
      const count = Number(pairs[2 * k + 1]);
      return count ? new Kind(this.calls.memory.buffer, Number(pairs[2 * k]), count).slice() : new Kind();
    });
  }

  // ---- degrees

  /** The leaf of one place, without an array on the way. */
  leafOf(longitude, latitude) {
    this.reach(24);
    const view = new DataView(this.calls.memory.buffer, this.front, 24);
    view.setFloat64(0, longitude, true);
    view.setFloat64(8, latitude, true);
    this.calls.s2js_leaves(BigInt(this.front), 2n, BigInt(this.front + 16));
    return view.getBigUint64(16, true);
  }

  /** The leaves of places, which are a Float64Array of longitude and latitude. */
  leavesOf(positions) {
    return this.computed("s2js_leaves", positions, BigUint64Array, positions.length / 2);
  }

  /** The longitudes and latitudes of points, which are a Float64Array of face, and of i and j in leaves. */
  degreesOf(points) {
    return this.computed("s2js_places", points, Float64Array, points.length / 3 * 2);
  }

  /** The list of some length that a call makes of numbers. */
  computed(name, numbers, Kind, length) {
    const [words, [out]] = this.passed([numbers], [8 * length]);
    this.calls[name](...words, BigInt(out));
    return new Kind(this.calls.memory.buffer, out, length).slice();
  }

  /**
   * The coverings that a call makes of lists and numbers: the outer one if `which` has the bit 1, and the inner one if
   * it has the bit 2. Or the status of its fault, and where that is.
   */
  coveredBy(name, lists, ...numbers) {
    const [words, [made, end]] = this.passed(lists, [64, 0]);
    const status = this.taking(end, name, ...words, ...numbers, BigInt(made));
    if (status < 0) return faultIn(status, [32, 40, 48, 56].map((at) => Number(this.number(made + at))));
    const [outer, inner] = this.listsAt(made, BigUint64Array, BigUint64Array);
    return {status, outer, inner};
  }

  /** Where a call of a list and numbers that takes memory has put what it made, which is as many bytes. */
  madeAt(size, name, list, ...more) {
    const [words, [made, end]] = this.passed([list], [size, 0]);
    const status = this.taking(end, name, ...words, ...more, BigInt(made));
    if (status < 0) throw new Refusal(status, 0);
    return made;
  }

  /**
   * The coverings that a call of s2union.h makes of the bytes of a shape and of numbers; a fault of the shape is
   * thrown. A call that had too little room is made once more.
   */
  coveringsOf(name, list, ...numbers) {
    for (let room = ROOMS[name](); ;) {
      const [words, [out, found, end]] = this.passed([list], [8 * room, 56, 0]);
      const places = [out, room, found, found + 8, found + 16].map(BigInt);
      const status = this.taking(end, name, ...words, ...numbers, ...places);
      const [count, first, ...fault] = Array.from(new BigUint64Array(this.calls.memory.buffer, found, 7), Number);
      const cells = new BigUint64Array(this.calls.memory.buffer, out, status < 0 ? 0 : count);
      if (status >= 0) return {outer: cells.slice(0, first), inner: cells.slice(first)};
      if (status !== ROOM) throw new Refusal(status, 0, status === SHAPE ? faultOf(fault) : null);
      room = count;
    }
  }

  /** The rings that a call draws of a union: positions, and where each ring and each polygon ends. */
  drawn(name, ids) {
    const made = this.madeAt(40, name, ids);
    const [rings, polygons] = [24, 32].map((at) => Number(this.number(made + at)));
    const [of, ofRings, ofPolygons] = [0, 8, 16].map((at) => Number(this.number(made + at)));
    const ends = (at, count) => Array.from(new BigUint64Array(this.calls.memory.buffer, at, count), Number);
    const ringEnds = ends(ofRings, rings);
    const positions = new Float64Array(this.calls.memory.buffer, of, 2 * (ringEnds.at(-1) ?? 0)).slice();
    return {positions, ringEnds, polygonEnds: ends(ofPolygons, polygons)};
  }

  /** The cells of a level that a call finds around others. */
  around(name, ids, level) {
    return this.listsAt(this.madeAt(16, name, ids, within(level, LAST_LEVEL)), BigUint64Array)[0];
  }

  /** The west, south, east and north of a union; of no cell the south is more than the north. */
  boundsOf(ids) {
    return Array.from(new Float64Array(this.calls.memory.buffer, this.madeAt(32, "s2js_bounds", ids), 4));
  }

  areaOf(ids) {
    return new Float64Array(this.calls.memory.buffer, this.madeAt(8, "s2js_area", ids), 1)[0];
  }

  // ---- zones, in an instance of their own

  /** An instance that has zones, and does nothing else. */
  forZones() {
    const made = this.another();
    made.calls.s2js_zones(BigInt(made.base));
    return made;
  }

  /** What a call of lists and numbers answers, with four numbers that it writes. Lists lie in the heap meanwhile. */
  askZones(name, lists, ...words) {
    const taken = [];
    const take = (size) => {
      const at = this.calls.s2js_take(BigInt(size)) >>> 0;
      if (!at) throw new Refusal(MEMORY, 0);
      taken.push(at);
      return at;
    };
    try {
      const found = take(32);
      const given = lists.flatMap((list) => [take(list.byteLength), list.length].map(BigInt));
      lists.forEach((list, k) => this.copy(list, Number(given[2 * k])));
      const status = this.calls[name](...given, ...words, BigInt(found));
      return [status, ...[0, 8, 16, 24].map((at) => Number(this.number(found + at)))];
    } finally {
      for (const at of taken) this.calls.s2js_give_back(BigInt(at));
    }
  }

  /** Adds a zone by a call, of positions and rings or of bytes: its status, and where its fault is. */
  addZone(name, lists) {
    const [status, ...fault] = this.askZones(name, lists);
    return faultIn(status, fault);
  }

  /** The pairs of places and zones; or the status of a fault, and its place. */
  pairsOf(longitudes, latitudes, borders) {
    const [status, at, count, wrong] = this.askZones("s2js_pairs", [longitudes, latitudes], borders);
    try {
      if (status === MEMORY) throw new Refusal(MEMORY, 0);
      const pairs = new Uint32Array(this.calls.memory.buffer, at, status < 0 ? 0 : 4 * count);
      const made = {status, wrong, places: new Uint32Array(count), zones: new Uint32Array(count)};
      for (let k = 0; 4 * k < pairs.length; k++) made.places[k] = pairs[4 * k], made.zones[k] = pairs[4 * k + 2];
      return made;
    } finally {
      this.calls.s2js_give_back(BigInt(at));
    }
  }

  /** The level of cells at the border that keep within some meters. */
  levelWithin(meters) {
    return this.calls.s2js_level_within(meters);
  }

  /** What is said of a status of these calls. */
  textOf(status) {
    const bytes = new Uint8Array(this.calls.memory.buffer, Number(this.calls.s2js_text(status)));
    return new TextDecoder().decode(bytes.slice(0, bytes.indexOf(0)));
  }

  // ---- cells

  version() {
    return this.calls.s2u_version();
  }

  isCell(id) {
    return this.calls.s2u_is_cell(id) === 1;
  }

  level(id) {
    return this.calls.s2u_level(id);
  }

  token(id) {
    return this.text("s2u_token", id);
  }

  debug(id) {
    return this.text("s2u_debug", id);
  }

  text(name, id) {
    return new TextDecoder().decode(this.makeIn(MOST_DEBUG, name, [], Uint8Array, id));
  }

  size(id) {
    return unsigned(this.calls.s2u_size(id));
  }

  parent(id, level) {
    return unsigned(this.calls.s2u_parent(id, level));
  }

  leafAt(face, i, j) {
    return unsigned(this.calls.s2u_from_face_ij(face, i, j));
  }

  square(id) {
    const [at] = this.places([16]);
    const status = this.calls.s2u_square_of(id, BigInt(at));
    if (status < 0) throw new Refusal(status, 0);
    const [face, i, j, size] = new Uint32Array(this.calls.memory.buffer, at, 4);
    return {face, i, j, size};
  }

  // ---- questions of a list

  isUnion(ids) {
    return this.ask("s2u_is_union", [ids]) === 1;
  }

  leafCount(ids) {
    return unsigned(this.ask("s2u_leaf_count", [ids]));
  }

  contains(ids, cell) {
    return this.askOf(this.calls.s2u_contains_cell, ids, cell);
  }

  intersects(ids, cell) {
    return this.askOf(this.calls.s2u_intersects_cell, ids, cell);
  }

  containsCells(ids, cells) {
    return this.marks("s2u_contains_cells", ids, cells);
  }

  /** 1 or 0 for each of the cells, of a list or the bytes of a file. */
  marks(name, of, cells) {
    if (cells.length <= FEW) return this.marksOfFew(this.calls[name.slice(0, -1)], of, cells);
    this.stay(of);
    const [words, [out, bad]] = this.passed([of, cells], [cells.length, 8]);
    const status = this.calls[name](...words, BigInt(out), BigInt(cells.length), BigInt(bad));
    if (status < 0) throw new Refusal(status, Number(this.number(bad)));
    return this.bytes(out, cells.length).slice();
  }

  /** The same of few cells by the call for one, since to pass lists takes as long as some of these calls. */
  marksOfFew(call, of, cells) {
    this.turn++;
    const {at, length} = this.asked(of);
    return Uint8Array.from(cells, (cell, place) => {
      const status = call(at, length, cell);
      if (status < 0) throw new Refusal(status, place);
      return status;
    });
  }

  compare(xs, ys) {
    this.stay(xs, ys);
    return this.ask("s2u_compare", [xs, ys]);
  }

  /** The cells of the list that share a leaf with the cell. */
  cellsAt(ids, cell) {
    this.stay(ids);
    const [words, [first, count]] = this.passed([ids], [8, 8]);
    const status = this.calls.s2u_cells_at(...words, cell, BigInt(first), BigInt(count));
    if (status < 0) throw new Refusal(status, 0);
    const start = Number(this.number(first));
    return ids.slice(start, start + Number(this.number(count)));
  }

  /** The cell of the list that has the leaf, or 0n. */
  holder(ids, leaf) {
    return this.cellsAt(ids, leaf)[0] ?? 0n;
  }

  // ---- many cells: an entry that there isn't is 0, or 255 for a level

  levels(ids) {
    return this.entries("s2u_levels", ids, Uint8Array, 1);
  }

  parents(ids, level) {
    return this.entries("s2u_parents", ids, BigUint64Array, 1, within(level, LAST_LEVEL));
  }

  rangeMins(ids) {
    return this.entries("s2u_range_mins", ids);
  }

  rangeMaxes(ids) {
    return this.entries("s2u_range_maxes", ids);
  }

  /** The bytes of tokens, each in MOST_TOKEN bytes. */
  tokenFields(ids) {
    return this.entries("s2u_token_fields", ids, Uint8Array, MOST_TOKEN);
  }

  /** The leaves at points, which are a Uint32Array of face, i and j. */
  fromPoints(points) {
    const [[at], [out, bad]] = this.passed([points], [points.length / 3 * 8, 8]);
    const count = BigInt(points.length / 3);
    this.calls.s2u_from_points(at, count, BigInt(out), count, BigInt(bad));
    return new BigUint64Array(this.calls.memory.buffer, out, points.length / 3).slice();
  }

  /** What a call for many cells answers for each of them: some elements of a kind. */
  entries(name, ids, Kind = BigUint64Array, each = 1, ...more) {
    const room = ids.length * each;
    const [words, [out, bad]] = this.passed([ids], [room * Kind.BYTES_PER_ELEMENT, 8]);
    this.calls[name](...words, ...more, BigInt(out), BigInt(room), BigInt(bad));
    return new Kind(this.calls.memory.buffer, out, room).slice();
  }

  // ---- making unions

  normalise(ids) {
    const [at, len] = this.places([ids.byteLength, 8]);
    this.bytes(at, ids.byteLength).set(bytesOf(ids));
    const status = this.calls.s2u_normalise(BigInt(at), BigInt(ids.length), BigInt(len));
    const count = Number(this.number(len));
    if (status < 0) throw new Refusal(status, count);
    return new BigUint64Array(this.calls.memory.buffer, at, count).slice();
  }

  /** The union of many lists: those that ascend are merged in pairs, and others are sorted first. */
  unionOf(lists) {
    const count = lists.reduce((sum, list) => sum + list.length, 0);
    const size = 8 * count;
    const [at, ends, work, out, len] = this.places([size, 8 * lists.length, 2 * size, size, 8]);
    let end = 0;
    lists.forEach((list, k) => {
      this.bytes(at + 8 * end, list.byteLength).set(bytesOf(list));
      end += list.length;
      new BigUint64Array(this.calls.memory.buffer, ends + 8 * k, 1)[0] = BigInt(end);
    });
    const words = [at, count, ends, lists.length, work, 2 * count, out, count, len].map(BigInt);
    const status = this.calls.s2u_union_of_many(...words);
    const made = Number(this.number(len));
    if (status < 0) throw new Refusal(status, made);
    return new BigUint64Array(this.calls.memory.buffer, out, made).slice();
  }

  union(xs, ys) {
    return this.makeOf("s2u_union", xs, ys);
  }

  intersection(xs, ys) {
    return this.makeOf("s2u_intersection", xs, ys);
  }

  difference(xs, ys) {
    return this.makeOf("s2u_difference", xs, ys);
  }

  symmetricDifference(xs, ys) {
    return this.makeOf("s2u_symmetric_difference", xs, ys);
  }

  complement(ids) {
    return this.makeOf("s2u_complement", ids);
  }

  denormalisedCount(ids, min, modulus) {
    return this.answer("s2u_denormalised_len", [ids], within(min, LAST_LEVEL), within(modulus, 3));
  }

  denormalised(ids, min, modulus) {
    const room = Number(this.denormalisedCount(ids, min, modulus));
    return this.makeIn(room, "s2u_denormalised", [ids], BigUint64Array, min, modulus);
  }

  /** The cells of the level that share a leaf with the union, normalized: deeper cells give way to their parents. */
  outer(ids, level) {
    const parents = this.parents(ids, level);
    return this.normalise(parents.map((parent, k) => parent || ids[k]));
  }

  /** The cells of the level that lie in the union, normalized: its cells that are not deeper. */
  inner(ids, level) {
    const parents = this.parents(ids, level);
    return this.normalise(ids.filter((id, k) => parents[k] === 0n || parents[k] === id));
  }

  // ---- files and texts

  /** The union in the bytes of a file; a file that is none is refused by its fault. */
  decode(bytes) {
    const [[at, length]] = this.passed([bytes], []); // of a copy: other threads may change shared bytes meanwhile
    const status = this.calls.s2u_file_check(at, length);
    if (status < 0) throw new Refusal(status, 0);
    const ids = new BigUint64Array(this.bytes(Number(at) + HEAD_SIZE, Number(length) - HEAD_SIZE).slice().buffer);
    return status === 1 ? ids : this.normalise(ids);
  }

  encode(ids) {
    return this.make("s2u_encode", [ids], Uint8Array);
  }

  // Questions of the bytes of a file, whose frame is checked by each.

  fileCount(bytes) {
    return Number(this.ofFile("s2u_file_count", bytes));
  }

  fileCell(bytes, place) {
    return this.ofFile("s2u_file_cell", bytes, BigInt(place));
  }

  /** A number of a file that stays. */
  ofFile(name, bytes, ...more) {
    this.stay(bytes);
    return this.answer(name, [bytes], ...more);
  }

  /** Whether the bytes are the file that `encode` makes; those that are no file are refused. */
  fileCheck(bytes) {
    return isYes(this.ask("s2u_file_check", [bytes]));
  }

  tokens(ids) {
    return new TextDecoder().decode(this.make("s2u_tokens", [ids], Uint8Array));
  }

  /** The cells that the words of a text name; a refusal has the byte at which the first begins that names none. */
  named(text) {
    const bytes = encoded(text);
    return this.make("s2u_from_tokens", [bytes], BigUint64Array);
  }

  /** The union of the cells that the words of a text name. */
  read(text) {
    return this.normalise(this.named(text));
  }
}

const bytesOf = (list) => new Uint8Array(list.buffer, list.byteOffset, list.byteLength);
