// What the package for JavaScript refuses, what it answers of long lists, and what stays as it is: refusals.mjs MODULE
// VERSION COUNT, for lists of this many cells. The last line is 'N passed, M failed'.
import assert from "node:assert/strict";
import {readFileSync, rmSync, writeFileSync} from "node:fs";
import {inspect} from "node:util";
import {pathToFileURL} from "node:url";
import {CALLS, FACE, Given, namesOf} from "./calls.mjs";

const [path, version] = process.argv.slice(2);
const count = Number(process.argv[4]);
const s2 = await import(pathToFileURL(path));
const {CellUnion, UnionFile, Refusal} = s2;
const LEAF = 1n;
const NUMBERS = [0n, 2n, 2n ** 64n, 2n ** 64n + FACE, 2n ** 64n + 1n, -(2n ** 63n) - 1n, 2n ** 64n - 1n];
const few = new Given(s2, 5);
let loaded = 0;

/** The module once more, with a memory of its own. */
async function another() {
  const module = await import(`${pathToFileURL(path)}?${++loaded}`);
  await module.load();
  return module;
}

/** The module once more, in whose memory lists of this many bytes stay. */
async function keeping(bytes) {
  const limit = "const MOST_KEPT = 2 ** 29;";
  const text = readFileSync(path, "utf8");
  assert.ok(text.includes(limit));
  const copy = `${path}.${++loaded}.mjs`;
  writeFileSync(copy, text.replace(limit, `const MOST_KEPT = ${bytes};`));
  try {
    const module = await import(pathToFileURL(copy));
    await module.load();
    return module;
  } finally {
    rmSync(copy);
  }
}

/** How many bytes an action copies from one list to another. */
function copied(action) {
  const lists = Object.getPrototypeOf(Uint8Array.prototype);
  const {set} = lists;
  let bytes = 0;
  lists.set = function (list, ...place) {
    bytes += list.byteLength ?? list.length;
    return set.call(this, list, ...place);
  };
  try {
    action();
  } finally {
    lists.set = set;
  }
  return bytes;
}

/** The questions of a union or of a file, of which each is asked of another one or of a leaf. */
const QUESTIONS = {
  has: (it, other, leaf) => it.has(leaf),
  hasEach: (it, other, leaf) => it.hasEach([leaf])[0],
  intersectsCell: (it, other, leaf) => it.intersectsCell(leaf),
  isSupersetOf: (it, other) => it.isSupersetOf(other),
  intersects: (it, other) => it.intersects(other),
  leafCount: (it) => it.leafCount(),
};
const OF_UNIONS = {
  ...QUESTIONS,
  intersectsEach: (it, other, leaf) => it.intersectsEach([leaf])[0],
  cellsAt: (it, other, leaf) => it.cellsAt(leaf).length,
  isSubsetOf: (it, other) => other.isSupersetOf(it),
  isDisjointFrom: (it, other) => it.isDisjointFrom(other),
  equals: (it, other) => it.equals(other),
  compare: (it, other) => it.compare(other),
};
const OF_FILES = {...QUESTIONS, size: (it) => it.size, at: (it) => it.at(0)};

/** What each question has to answer, of sets of leaves. */
const PLAIN = {
  has: (xs, ys, leaf) => xs.has(leaf),
  isSupersetOf: (xs, ys) => [...ys].every((leaf) => xs.has(leaf)),
  intersects: (xs, ys) => [...ys].some((leaf) => xs.has(leaf)),
  leafCount: (xs) => BigInt(xs.size),
  size: (xs) => xs.size,
};

/** For each call that takes something of a kind: a function of that, and its name. */
function taking(...kinds) {
  return Object.entries(CALLS).flatMap(([name, call]) => kinds.filter((kind) => call[kind]).map(
    (kind) => [(given) => call[kind](few, given), `${name} of a ${kind}`]));
}

/** Whether an answer is that of a plain way: a list, or what of a union says all, its cells or how many leaves. */
function same(found, wanted, name) {
  const answer = !(found instanceof Object) || !("leafCount" in found) ? found
    : typeof wanted === "bigint" ? found.leafCount() : found.cells();
  if (!(answer instanceof Object)) return assert.equal(answer, wanted, name);
  assert.ok(answer.length === wanted.length && answer.every((it, k) => it === wanted[k]), name);
}

/** Does something while the memory grows no more, after this many times; answers how often it was to grow. */
function withoutMemory(place, action) {
  const {grow} = WebAssembly.Memory.prototype;
  let times = 0;
  WebAssembly.Memory.prototype.grow = function (pages) {
    if (times++ >= place) throw new RangeError("it may not grow");
    return grow.call(this, pages);
  };
  try {
    action();
  } finally {
    WebAssembly.Memory.prototype.grow = grow;
  }
  return times;
}

function refused(kind, place, words, action, name = `${action}`) {
  assert.throws(action, (error) => error instanceof Refusal && error instanceof Error && error.kind === kind &&
    error.kind === Refusal.Kind[kind] && error.place === place && error.message === words, name);
}
const noCell = (place, action, name) => refused("NO_CELL", place, "not a cell", action, name);
const outOfRange = (action, place = 0, name = undefined) =>
  refused("ARGUMENT", place, "argument out of range", action, name);

const TESTS = {
  "each call is asked": () => assert.deepEqual(namesOf(s2).sort(), Object.keys(CALLS).sort()),
  "nothing before load": async () => {
    const fresh = await import(`${pathToFileURL(path)}?again`);
    assert.throws(() => fresh.level(FACE), {name: "Error", message: /await load/});
    await Promise.all([fresh.load(), fresh.load()]);
    assert.equal(fresh.level(FACE), 0);
  },
  "numbers that are no cells": () => {
    for (const wrong of NUMBERS) {
      assert.equal(s2.isCell(wrong), false);
      for (const [ask, name] of taking("cell", "second")) noCell(0, () => ask(wrong), name);
      for (const [ask, name] of taking("cells")) noCell(1, () => ask([FACE, wrong]), name);
    }
  },
  "values of other types": () => {
    const wrongs = [1, "1", null, undefined, {}, 1.5, true, Symbol("1")];
    for (const wrong of wrongs) {
      assert.equal(s2.isCell(wrong), false);
      for (const [ask, name] of taking("cell", "second")) assert.throws(() => ask(wrong), TypeError, name);
      for (const [ask, name] of taking("cells")) assert.throws(() => ask([FACE, wrong]), TypeError, name);
      for (const [ask, name] of taking("other", "file")) assert.throws(() => ask(wrong), TypeError, name);
      for (const call of [CellUnion.decode, UnionFile.check]) assert.throws(() => call(wrong), TypeError);
    }
    for (const wrong of [1, 1n, null, undefined, {}, [], ["04"], new Uint8Array(2), true]) {
      for (const [ask, name] of taking("text")) assert.throws(() => ask(wrong), TypeError, name);
    }
    for (const [ask, name] of taking("other")) assert.throws(() => ask(few.file), TypeError, name);
    for (const [ask, name] of taking("file")) assert.throws(() => ask(few.union), TypeError, name);
  },
  "lists whose buffer went away": () => {
    for (const Kind of [BigUint64Array, BigInt64Array]) {
      const list = Kind.of(FACE);
      structuredClone(list, {transfer: [list.buffer]});
      for (const [ask, name] of taking("cells")) assert.throws(() => ask(list), TypeError, name);
      for (const call of [s2.isUnion, CellUnion.fromNormalized]) assert.throws(() => call(list), TypeError);
    }
    const buffer = new ArrayBuffer(16, {maxByteLength: 16});
    const list = new BigUint64Array(buffer, 8, 1);
    buffer.resize?.(8); // Node 20 and later
    for (const [ask, name] of taking("cells")) if (!list.length) assert.throws(() => ask(list), TypeError, name);
    const bytes = few.union.encode();
    structuredClone(bytes, {transfer: [bytes.buffer]});
    for (const call of [CellUnion.decode, UnionFile.check, (it) => new UnionFile(it)]) {
      assert.throws(() => call(bytes), TypeError);
    }
  },
  "levels and places out of range": () => {
    const union = new CellUnion([FACE]);
    for (const wrong of [31, -1, 1.5, 2 ** 32, NaN, Infinity, "1", null, undefined, 1n]) {
      for (const [ask, name] of taking("level")) outOfRange(() => ask(wrong), 0, name);
      if (wrong !== undefined) outOfRange(() => union.denormalized(2, wrong === 31 ? 4 : wrong));
    }
    for (const wrong of [-1, 1.5, NaN, Infinity, "1", null, 1n]) outOfRange(() => union.denormalized(2, 1, wrong));
    outOfRange(() => s2.child(FACE, 4));
    for (const wrong of [0, 4, 2 ** 32 + 1]) outOfRange(() => union.denormalized(3, wrong));
    for (const wrong of [[6, 0, 0], [0, 2 ** 30, 0], [0, 0, -1], [0, 0]]) {
      outOfRange(() => s2.fromPoints([[0, 0, 0], wrong]), 1);
    }
    outOfRange(() => s2.parents([LEAF, FACE], 3), 1);
    refused("MANY", 0, "too many cells", () => union.denormalized(30));
    refused("MANY", 0, "too many cells", () => union.denormalized(1, 1, 3));
  },
  "what is left out": () => {
    assert.deepEqual(s2.children(LEAF), []);
    assert.deepEqual(s2.tokens([FACE, LEAF]), ["1", "0000000000000001"]);
    const child = new CellUnion([s2.child(s2.child(FACE, 0), 0)]);
    assert.deepEqual([...child.denormalized(1)], [...child]);
    assert.equal(child.denormalizedSize(1), 1n);
    assert.equal(new CellUnion([FACE]).denormalized(1, 1, 4).length, 4);
  },
  "lists that are not normalized": () => {
    for (const wrong of [[LEAF, FACE], [FACE, FACE], s2.children(FACE), [2n]]) {
      assert.equal(s2.isUnion(wrong), false);
      refused("NO_UNION", 0, "not a normalized list of cells", () => CellUnion.fromNormalized(wrong));
    }
  },
  "files": () => {
    const good = new CellUnion([FACE]).encode();
    for (const [kind, words, wrong] of [
      ["FILE_SHORT", "union file: bytes are missing", good.slice(0, 12)],
      ["FILE_VERSION", "union file: unknown version", Uint8Array.of(2, ...good.slice(1))],
      ["FILE_TRAILING", "union file: bytes after the last cell", Uint8Array.of(...good, 0)],
    ]) {
      refused(kind, 0, words, () => CellUnion.decode(wrong));
      refused(kind, 0, words, () => new UnionFile(wrong));
      refused(kind, 0, words, () => UnionFile.check(wrong));
    }
    const damaged = Uint8Array.of(...good.slice(0, 9), 2, ...good.slice(10, 16), 0);
    refused("FILE_CELL", 0, "union file: a number that is not a cell", () => CellUnion.decode(damaged));
    refused("FILE_CELL", 0, "union file: a number that is not a cell", () => new UnionFile(damaged));
    const twice = Uint8Array.of(1, 2, ...good.slice(2), ...good.slice(9));
    assert.equal(CellUnion.decode(twice).size, 1);
    assert.equal(UnionFile.check(twice), false);
    refused("NO_UNION", 0, "not a normalized list of cells", () => new UnionFile(twice));
    for (const wrong of [1, -1, 0.5, 2 ** 64, NaN]) outOfRange(() => new UnionFile(good).at(wrong));
    assert.equal(new UnionFile(good.buffer).at(0), FACE);
    assert.equal(new UnionFile(Buffer.from(good)).toUnion().equals(new CellUnion([FACE])), true);
  },
  "a refusal of a kind to come": () => assert.equal(new Refusal(-99, 0).kind, Refusal.Kind.OTHER),
  "texts": () => {
    for (const wrong of ["", "x", "0", "0c ", "é", "1/4"]) noCell(0, () => s2.fromToken(wrong));
    for (const wrong of ["", "6/", "0/4", "0c"]) noCell(0, () => s2.fromDebug(wrong));
    noCell(3, () => CellUnion.fromTokens("04 x"));
  },
  "long lists": () => {
    const many = new Given(s2, count);
    for (const [name, {asks, wanted}] of Object.entries(CALLS)) if (wanted) same(asks(many), wanted(many), name);
  },
  "each growth of the memory refused in turn, and then all goes on": async () => {
    const it = new Given(s2, count);
    const refusing = new Set();
    for (const [name, {asks, wanted}] of Object.entries(CALLS).filter(([, call]) => call.wanted)) {
      for (let place = 0, times = 1; place < times; place++) {
        it.module = await another();
        times = withoutMemory(place, () => {
          try {
            asks(it);
          } catch (error) {
            const isSo = error instanceof it.module.Refusal && error.status === -2 && error.message === "out of memory";
            if (!isSo) throw new Error(name, {cause: error});
            refusing.add(name);
          }
        });
        same(asks(it), wanted(it), name);
      }
    }
    assert.ok(refusing.size > 10, `${[...refusing]}`);
  },
  "no question copies the union or the file that was asked before": () => {
    const many = new Given(s2, count);
    const [union, other, file] = [many.union, many.other, many.file];
    for (const [on, second, questions] of [[union, other, OF_UNIONS], [file, many.file, OF_FILES]]) {
      for (const [name, ask] of Object.entries(questions)) {
        const wanted = ask(on, second, many.cell);
        const bytes = copied(() => assert.equal(ask(on, second, many.cell), wanted));
        assert.ok(bytes < 100, `${name}: ${bytes}`);
      }
    }
  },
  "lists that go when others need their place": async () => {
    const module = await keeping(2 ** 15);
    let seed = 1;
    const below = (most) => (seed = (seed * 48271) % (2 ** 31 - 1)) % most;
    const sizes = Array.from({length: 40}, (_, k) => (k % 13 ? 1 + below(200) : 5000));
    const sets = sizes.map((size) => new Set(Array.from({length: size}, () => BigInt(4 * below(2 * size) + 1))));
    const unions = sets.map((leaves) => module.CellUnion.fromNormalized(BigUint64Array.from(leaves).sort()));
    const files = unions.map((union) => new module.UnionFile(union.encode()));
    for (let turn = 0; turn < 2000; turn++) {
      const [x, y] = [below(sets.length), below(turn % 3 ? 4 : sets.length)];
      const leaf = BigInt(4 * below(400) + 1);
      const [name, plain] = Object.entries(PLAIN)[turn % 5];
      const lists = below(2) ? files : unions;
      const wanted = plain(sets[x], sets[y], leaf);
      const both = new Set([...sets[x], ...sets[y]]).size;
      const asks = () => {
        assert.equal(OF_FILES[name](lists[x], lists[y], leaf), wanted, name);
        if (turn % 10 === 0) assert.equal(unions[x].union(unions[y]).leafCount(), BigInt(both));
      };
      withoutMemory(below(4), () => {
        try {
          asks();
        } catch (error) {
          if (error.status !== -2) throw error;
        }
      });
      asks();
    }
    withoutMemory(0, () => unions.forEach((it, k) => assert.equal(it.leafCount(), BigInt(sets[k].size))));
    const short = unions.filter(({size}) => size <= 200);
    const again = (it) => copied(() => it.has(LEAF));
    assert.deepEqual(short.map((it) => [it, short[0]].map(again)[1]), short.map(() => 0));
    assert.equal(again(short[1]), 8 * short[1].size);
  },
  "a list goes if the memory grows no more": async () => {
    const module = await another();
    const [first, second] = [0n, 2n].map((after) => module.CellUnion.fromNormalized(
      BigUint64Array.from({length: 50_000}, (_, k) => BigInt(4 * k + 1) + after)));
    assert.equal(first.has(LEAF), true);
    withoutMemory(0, () => assert.equal(second.has(LEAF), false));
  },
  "what was answered doesn't change afterwards": () => {
    const asked = Object.entries(CALLS).filter(([name, {asks}]) => asks && name !== "load");
    const answers = asked.map(([name, {asks}]) => {
      const it = asks(few);
      return {name, it, shown: inspect(it)};
    });
    assert.ok(answers.filter(({it}) => ArrayBuffer.isView(it)).length > 5);
    const others = new Given(s2, 7);
    others.cells = others.cells.map((id) => id + 2n ** 40n);
    others.points.reverse();
    for (const [, {asks}] of asked) {
      asks(others);
      for (const {name, it, shown} of answers) assert.equal(inspect(it), shown, name);
    }
  },
  "what was given changes afterwards": () => {
    const wanted = (it, name) => {
      assert.equal(it.has(FACE), true, name);
      assert.equal(it.intersectsCell(3n * FACE), false, name);
      assert.equal(it.leafCount(), 4n ** 30n, name);
    };
    const good = new CellUnion([FACE]).encode();
    const room = Uint8Array.of(...Array(7).fill(0), ...good, 0);
    const shared = new Uint8Array(new SharedArrayBuffer(good.length));
    shared.set(good);
    const resizable = new Uint8Array(new ArrayBuffer(good.length, {maxByteLength: 64}));
    resizable.set(good);
    const given = {bytes: good.slice(), part: room.subarray(7, 7 + good.length), shared, resizable,
      buffer: good.slice().buffer, view: new DataView(good.slice().buffer), node: Buffer.from(good)};
    for (const [name, bytes] of Object.entries(given)) {
      const [fresh, asked] = [new UnionFile(bytes), new UnionFile(bytes)];
      wanted(asked, name);
      (ArrayBuffer.isView(bytes) ? new Uint8Array(bytes.buffer) : new Uint8Array(bytes)).fill(255);
      for (const it of [fresh, asked, fresh.toUnion()]) wanted(it, name);
      const {buffer = bytes} = bytes;
      if (name === "resizable") buffer.resize?.(0);
      else if (name !== "shared") structuredClone(buffer, {transfer: [buffer]});
      for (const it of [fresh, asked, asked.toUnion()]) wanted(it, name);
    }
    const {set} = Object.getPrototypeOf(Uint8Array.prototype);
    shared.set(good);
    Object.getPrototypeOf(Uint8Array.prototype).set = function (...words) {
      set.apply(this, words);
      shared.fill(255); // as another thread may, at any time after the bytes were read
    };
    try {
      wanted(CellUnion.decode(shared), "shared, read by decode");
    } finally {
      Object.getPrototypeOf(Uint8Array.prototype).set = set;
    }
    const list = BigUint64Array.of(0n, FACE, 0n).subarray(1, 2);
    const unions = [new CellUnion(list), CellUnion.fromNormalized(list), CellUnion.unionOf([new CellUnion(list)])];
    unions.slice(1).forEach((it) => wanted(it));
    new BigUint64Array(list.buffer).fill(3n * FACE);
    for (const it of unions) wanted(it);
    structuredClone(list.buffer, {transfer: [list.buffer]});
    for (const it of unions) wanted(it);
    const answers = unions[0].hasEach([FACE]);
    answers[0] = 0;
    unions[0].cells().fill(0n);
    for (const it of unions) wanted(it);
  },
  "a number that is no cell, among few and among many": () => {
    const union = CellUnion.fromNormalized([FACE]), file = new UnionFile(union.encode());
    for (const length of [1, 12, 13, 100]) {
      const cells = BigUint64Array.from({length}, (_, place) => (place % 2 ? 3n * FACE : LEAF));
      const wanted = Array.from(cells, (_, place) => (place % 2 ? 0 : 1));
      for (const ask of [(it) => union.hasEach(it), (it) => union.intersectsEach(it), (it) => file.hasEach(it)]) {
        assert.deepEqual([...ask(cells)], wanted);
        for (const place of [0, length - 1]) {
          const wrong = cells.map((it, k) => (k === place ? 2n : it));
          assert.throws(() => ask(wrong), {name: "Error", kind: "NO_CELL", place});
        }
      }
    }
    assert.equal(union.hasEach([]).length, 0);
  },
  "a union never changes": () => {
    const given = BigUint64Array.of(FACE);
    const union = new CellUnion(given);
    const checked = CellUnion.fromNormalized(given);
    given[0] = 3n;
    union.cells()[0] = 3n;
    for (const it of [union, checked]) assert.deepEqual([...it], [FACE]);
    const buffer = new ArrayBuffer(0, {maxByteLength: 8});
    const empty = new CellUnion(new BigUint64Array(buffer));
    buffer.resize?.(8); // Node 20 and later
    assert.equal(empty.size, 0);
    assert.throws(() => Object.assign(union, {size: 7}), TypeError);
    assert.equal(union.at(-1), FACE);
    assert.equal(union.at(1), undefined);
  },
  "signed numbers": () => {
    const last = 0xb000000000000000n;
    const signed = BigInt.asIntN(64, last);
    assert.equal(s2.token(signed), "b");
    const part = BigInt64Array.of(0n, signed).subarray(1);
    for (const given of [[signed], BigInt64Array.of(signed), part, new Set([last]), new CellUnion([last])]) {
      assert.deepEqual([...new CellUnion(given)], [last]);
    }
  },
  "how it is shown": () => {
    const union = new CellUnion([FACE, LEAF + 2n * FACE]);
    assert.equal(`${union}`, "1 2000000000000001");
    assert.equal(JSON.stringify({union}), '{"union":"1 2000000000000001"}');
    assert.equal(inspect(union), "CellUnion(2) { 1 2000000000000001 }");
    assert.equal(`${new CellUnion()}`, "");
    const [hundred, more] = [100, 101].map((length) => new Given(s2, length).union);
    assert.equal(inspect(hundred), `CellUnion(100) { ${hundred} }`);
    assert.equal(inspect(more), "CellUnion(101) { 1n .. 401n }");
    assert.equal(s2.version(), version);
  },
  "unions of none and of many": () => {
    assert.equal(CellUnion.unionOf([]).size, 0);
    const faces = [0, 1, 2, 3, 4, 5].map((face) => new CellUnion([s2.parent(s2.fromFaceIJ(face, 0, 0), 0)]));
    assert.equal(CellUnion.unionOf(faces).leafCount(), 6n * 4n ** 30n);
    const one = new CellUnion(Array.from({length: count / 4}, (_, k) => s2.fromFaceIJ(k % 6, 17 * k, 31 * k)));
    assert.equal(one.symmetricDifference(one).size, 0);
    assert.equal(CellUnion.unionOf(Array(40).fill(one)).equals(one), true);
    assert.deepEqual([...faces, one].sort((a, b) => a.compare(b)).map(String), [...faces, one].sort((a, b) =>
      (a.at(0) < b.at(0) ? -1 : a.at(0) > b.at(0) ? 1 : a.size - b.size)).map(String));
  },
};

await s2.load();
let failed = 0;
for (const [name, test] of Object.entries(TESTS)) {
  try {
    await test();
  } catch (error) {
    failed++;
    console.log(`FAILED ${name}: ${error.stack}`);
  }
}
console.log(`${Object.keys(TESTS).length - failed} passed, ${failed} failed`);
process.exitCode = failed ? 1 : 0;
