// The time of calls of the package for JavaScript, beside what a user would write: calls.mjs MODULE [WORD [ROUNDS]].
// The plain sides share nothing with the package: a binary search over the ends of the cells' ranges in Uint32Arrays,
// with no BigInt in its loop, and a merge of two lists. A row has the nanoseconds of a question, the least of the
// rounds, the sides in turn; each round repeats until it takes 20 ms. A row counts only if all answers are the same.
import {dirname, join, resolve} from "node:path";
import {pathToFileURL} from "node:url";

const [path, word = "", rounds = "5"] = process.argv.slice(2);
const [s2, geo] = await Promise.all([path, join(dirname(path), "geo.js")].map((file) =>
  import(pathToFileURL(resolve(file)))));
await s2.load();

const LEAST = 20e6;
const QUESTIONS = 1 << 14;

// ---- what is asked

/** Numbers below 2^32, of a seed. */
function* numbers(seed) {
  for (let x = seed; ;) {
    x = (x + 0x9e3779b9) | 0;
    let z = Math.imul(x ^ (x >>> 16), 0x85ebca6b);
    z = Math.imul(z ^ (z >>> 13), 0xc2b2ae35);
    yield (z ^ (z >>> 16)) >>> 0;
  }
}

/** This many cells of levels from one to another, anywhere. */
function cellsOf(count, seed, least, most) {
  const from = numbers(seed);
  const next = () => from.next().value;
  return BigUint64Array.from({length: count}, () => {
    const size = 1n << BigInt(2 * (30 - least - next() % (most - least + 1)));
    const leaf = (BigInt(next() % 6) << 60n) | (BigInt(next() >>> 2) << 30n) | BigInt(next() >>> 2);
    return leaf / size * size * 2n + size;
  });
}

// ---- the plain sides

const whole = new BigUint64Array(1);
const parts = new Uint32Array(whole.buffer);
const low = (id) => id & -id;
const halves = (ids) => {
  const words = new Uint32Array(ids.buffer);
  return [words.filter((_, k) => k % 2), words.filter((_, k) => k % 2 === 0)];
};

/** A union's cells as the ends of their ranges, two words each. */
class Plain {
  constructor(ids) {
    [this.firstHigh, this.firstLow] = halves(ids.map((id) => id - low(id) + 1n));
    [this.lastHigh, this.lastLow] = halves(ids.map((id) => id + low(id) - 1n));
  }

  /** The place after the last cell that begins at these words or before. */
  after(high, word) {
    let [from, to] = [0, this.firstHigh.length];
    while (from < to) {
      const middle = (from + to) >>> 1;
      const it = this.firstHigh[middle];
      if (it < high || (it === high && this.firstLow[middle] <= word)) from = middle + 1;
      else to = middle;
    }
    return from;
  }

  has(id) {
    whole[0] = id;
    const [word, high] = parts;
    const [size, above] = word ? [word & -word, 0] : [0, high & -high];
    const place = this.after(high - above, word - size + 1) - 1;
    if (place < 0) return false;
    const [lastHigh, last] = word ? [high, word + (size >>> 0) - 1] : [high + (above >>> 0) - 1, 0xffffffff];
    const end = this.lastHigh[place];
    return lastHigh < end || (lastHigh === end && last <= this.lastLow[place]);
  }

  /** Whether all cells of another are in it: each is looked for. */
  hasAll(other) {
    for (let k = 0; k < other.firstHigh.length; k++) {
      const place = this.after(other.firstHigh[k], other.firstLow[k]) - 1;
      if (place < 0 || this.lastHigh[place] < other.lastHigh[k]
        || (this.lastHigh[place] === other.lastHigh[k] && this.lastLow[place] < other.lastLow[k])) return false;
    }
    return true;
  }
}

/** What two lists share, by a walk over both. */
function plainIntersection(xs, ys) {
  const out = [];
  for (let i = 0, j = 0; i < xs.length && j < ys.length;) {
    const [x, y] = [xs[i], ys[j]];
    const [sizeX, sizeY] = [low(x), low(y)];
    if (x + sizeX <= y - sizeY) i++;
    else if (y + sizeY <= x - sizeX) j++;
    else if (sizeX <= sizeY) out.push(xs[i++]);
    else out.push(ys[j++]);
  }
  return BigUint64Array.from(out);
}

/** The place along the curve of a corner, for each of four turns, and how a quarter is turned. */
const PLACES = [[0, 1, 3, 2], [0, 3, 1, 2], [2, 3, 1, 0], [2, 1, 3, 0]];
const TURNS = [1, 0, 0, 3];

/** The leaf of a place on the sphere, by S2's own arithmetic. */
function plainLeaf(longitude, latitude) {
  const [theta, phi] = [longitude, latitude].map((degrees) => degrees * (Math.PI / 180));
  const at = [Math.cos(phi) * Math.cos(theta), Math.cos(phi) * Math.sin(theta), Math.sin(phi)];
  const axis = Math.abs(at[0]) > Math.abs(at[1]) ? (Math.abs(at[0]) > Math.abs(at[2]) ? 0 : 2)
    : Math.abs(at[1]) > Math.abs(at[2]) ? 1 : 2;
  const [x, y, z] = at;
  const face = axis + (at[axis] < 0 ? 3 : 0);
  const ends = [[y / x, z / x], [-x / y, z / y], [-x / z, -y / z], [z / x, y / x], [z / y, -x / y], [-y / z, -x / z]];
  const [i, j] = ends[face].map((u) => {
    const s = u >= 0 ? Math.sqrt(1 + 3 * u) / 2 : 1 - Math.sqrt(1 - 3 * u) / 2;
    return Math.max(0, Math.min(2 ** 30 - 1, Math.floor(s * 2 ** 30)));
  });
  let turn = face & 1;
  const places = [0, 0];
  for (let k = 29; k >= 0; k--) {
    const corner = PLACES[turn][(i >> k & 1) << 1 | j >> k & 1];
    places[k > 14 ? 0 : 1] = places[k > 14 ? 0 : 1] * 4 + corner;
    turn ^= TURNS[corner];
  }
  return (BigInt(face) << 61n) | (BigInt(places[0]) << 31n) | (BigInt(places[1]) << 1n) | 1n;
}

// ---- the rows

/** The nanoseconds of one call of each side, in turn, the least of the rounds. */
function times(sides) {
  const least = sides.map(() => Infinity);
  const repeats = sides.map(() => 1);
  for (let round = 0; round < Number(rounds); round++) {
    sides.forEach((side, k) => {
      for (;;) {
        const begun = process.hrtime.bigint();
        for (let turn = 0; turn < repeats[k]; turn++) side();
        least[k] = Math.min(least[k], Number(process.hrtime.bigint() - begun) / repeats[k]);
        if (least[k] * repeats[k] >= LEAST) break;
        repeats[k] *= 2;
      }
    });
  }
  return least;
}

const sum = (answers) => answers.reduce((total, answer, k) => (Math.imul(total, 31) + Number(answer) * (k + 1)) | 0, 7);
const each = (cells, ask) => {
  const answers = new Uint8Array(cells.length);
  for (let k = 0; k < cells.length; k++) answers[k] = ask(cells[k]) ? 1 : 0;
  return answers;
};
const listed = (list) => list.map((id) => (id ^ (id >> 32n)) & 0xffffffn);
let wrong = 0;

/** A line: its name, how many units a call has, and the sides, of which the first is the package's. */
function row(name, units, sides) {
  if (!name.includes(word)) return;
  const [own, ...others] = Object.entries(sides);
  const found = own[1]();
  const isSame = others.every(([, side]) => sum(side()) === sum(found));
  wrong += isSame ? 0 : 1;
  const taken = times(Object.values(sides)).map((time) => time / units);
  const said = Object.keys(sides).map((side, k) => `${side} ${taken[k].toPrecision(3).padStart(9)}`);
  const ratio = taken.length > 1 ? `  ours/plain ${(taken[0] / taken[1]).toPrecision(3)}` : "";
  console.log(`${name.padEnd(34)} ${said.join("  ")} ns${ratio}${isSame ? "" : "  THE ANSWERS DIFFER"}`);
}

/** The cells of one without a part of it: three beside each cell from the part up. */
function without(id, part) {
  const beside = [];
  for (let size = low(part), inside = part; inside !== id; size <<= 2n) {
    const above = BigInt.asUintN(64, inside & -(size << 2n)) | size << 2n;
    for (let k = -3n; k < 5n; k += 2n) if (above + k * size !== inside) beside.push(above + k * size);
    inside = above;
  }
  return BigUint64Array.from(beside).sort();
}

/** A list with others in place of some of its elements. */
function spliced(ids, place, removed, others) {
  const made = new BigUint64Array(ids.length - removed + others.length);
  made.set(ids.subarray(0, place));
  made.set(others, place);
  made.set(ids.subarray(place + removed), place + others.length);
  return made;
}

function placeOf(ids, id) {
  let [from, to] = [0, ids.length];
  while (from < to) {
    const middle = (from + to) >>> 1;
    if (ids[middle] < id) from = middle + 1;
    else to = middle;
  }
  return from;
}

/** A union of two cells, one inside a cell of a large one and one apart from it, with the large one. */
function smallWithLarge(count) {
  const drawn = new s2.CellUnion(cellsOf(count, 4, 14, 20));
  const ids = drawn.cells();
  const plain = new Plain(drawn.cells());
  const holder = ids.length >>> 1;
  const inside = s2.rangeMin(ids[holder]);
  const apart = cellsOf(100, 6, 24, 24).find((id) => !drawn.intersectsCell(id));
  const large = s2.CellUnion.fromNormalized(ids); // which nobody has asked
  const small = new s2.CellUnion([inside, apart]);
  const two = small.cells();
  const rest = () => spliced(ids, holder, 1, without(ids[holder], inside));
  const rows = {
    small_intersection: [() => small.intersection(large), () => two.filter((id) => plain.has(id))],
    large_intersection: [() => large.intersection(small), () => two.filter((id) => plain.has(id))],
    small_difference: [() => small.difference(large), () => two.filter((id) => !plain.has(id))],
    large_difference: [() => large.difference(small), rest],
    small_union: [() => small.union(large), () => spliced(ids, placeOf(ids, apart), 0, [apart])],
    small_symmetricDifference: [() => small.symmetricDifference(large), () => {
      const left = rest();
      return spliced(left, placeOf(left, apart), 0, [apart]);
    }],
  };
  for (const [name, [ours, other]] of Object.entries(rows)) {
    if (!`${name}_${count}`.includes(word)) continue;
    if (sum(listed(ours().cells())) !== sum(listed(other()))) wrong++;
    row(`${name}_${count}`, 1, {ours: () => [ours().size], plain: () => [other().length]});
  }
}

{
  const drawn = Array.from(cellsOf(2048, 3, 30, 30), (id) => geo.toLngLat(id));
  const leaves = (leafOf) => BigUint64Array.from(drawn, ([x, y]) => leafOf(x, y));
  const near = leaves(geo.fromLngLat), far = leaves(plainLeaf);
  // of few places the sines, which engines round in their own way, lead to another cell of level 24
  wrong += near.filter((id, k) => s2.parent(id, 24) !== s2.parent(far[k], 24)).length > 20 ? 1 : 0;
  const all = (leafOf) => () => [drawn.reduce((sum, [x, y]) => sum + Number(leafOf(x, y) & 1n), 0)];
  row("fromLngLat", drawn.length, {ours: all(geo.fromLngLat), plain: all(plainLeaf)});
  row("fromLngLats", drawn.length, {ours: () => [geo.fromLngLats(drawn).length],
    plain: () => [leaves(plainLeaf).length]});
}
for (const count of [1_000, 100_000, 1_000_000]) smallWithLarge(count);
for (const count of [100, 10_000, 100_000, 1_000_000]) {
  const union = new s2.CellUnion(cellsOf(count, 4, 14, 20));
  const cells = union.cells();
  const file = new s2.UnionFile(union.encode());
  const plain = new Plain(cells);
  const inside = cellsOf(QUESTIONS, 9, 20, 30);
  // every second question is about a cell inside
  const asked = inside.map((id, k) => (k % 2 ? id : s2.rangeMin(cells[Number(id % BigInt(cells.length))])));
  const ascending = asked.slice().sort();
  const larger = new s2.CellUnion(cellsOf(count, 5, 14, 20)).union(union);
  const plainLarger = new Plain(larger.cells());
  const of = `${count}`;
  row(`has_${of}`, QUESTIONS, {ours: () => each(asked, (id) => union.has(id)),
    plain: () => each(asked, (id) => plain.has(id))});
  row(`file_has_${of}`, QUESTIONS, {ours: () => each(asked, (id) => file.has(id)),
    plain: () => each(asked, (id) => plain.has(id))});
  row(`hasEach_${of}`, QUESTIONS, {ours: () => union.hasEach(asked), plain: () => each(asked, (id) => plain.has(id))});
  const few = asked.slice(0, 10);
  row(`hasEach_of_few_${of}`, few.length, {ours: () => union.hasEach(few),
    plain: () => each(few, (id) => plain.has(id))});
  row(`hasEach_ascending_${of}`, QUESTIONS, {ours: () => union.hasEach(ascending),
    plain: () => each(ascending, (id) => plain.has(id))});
  row(`isSupersetOf_${of}`, 1, {ours: () => [larger.isSupersetOf(union)],
    plain: () => [plainLarger.hasAll(plain)]});
  row(`intersection_${of}`, 1, {ours: () => listed(union.intersection(larger).cells()),
    plain: () => listed(plainIntersection(cells, larger.cells()))});
}
console.log(wrong ? `${wrong} rows differ` : "all answers are the same");
process.exitCode = wrong ? 1 : 0;
