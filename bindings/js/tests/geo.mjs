// Points in degrees and GeoJSON of the package for JavaScript: geo.mjs FOLDER PLACES BORDERS. Each line of PLACES has a
// longitude, a latitude and the token of the leaf that S2 has there; BORDERS is what model/borders.py writes. The last
// line is 'N passed, M failed'. With geo.mjs FOLDER PLACES - LEAVES the tokens go to this file, and nothing is tested.
import assert from "node:assert/strict";
import {readFileSync, writeFileSync} from "node:fs";
import {join, resolve} from "node:path";
import {pathToFileURL} from "node:url";

const [folder, places, borders, leaves] = process.argv.slice(2).map((name) => resolve(name));
const {exports} = JSON.parse(readFileSync(join(folder, "package.json"), "utf8"));
const imported = (name) => import(pathToFileURL(join(folder, exports[name].default)));
const {CellUnion, Refusal, internals, load, tokens, fromToken, face, level, parents, token} = await imported(".");
const geo = await imported("./geo");
const rows = readFileSync(places, "utf8").trim().split("\n").map((line) => line.trim().split(" "));
const positions = rows.map(([longitude, latitude]) => [Number(longitude), Number(latitude)]);
const square = [[0, 0], [10, 0], [10, 10], [0, 10], [0, 0]];
const polygon = {type: "Polygon", coordinates: [square]};

/** What was instantiated last. */
let [bytes, imports] = [];
const {instantiate} = WebAssembly;
WebAssembly.instantiate = (...given) => {
  [bytes, imports] = given;
  return instantiate(...given);
};

/** The calls over a memory of at most some pages: the module says so after the least that it needs. */
async function withPages(pages) {
  const number = (at) => (bytes[at] < 128 ? [bytes[at], at + 1] : [bytes[at] - 128 + 128 * number(at + 1)[0],
    number(at + 1)[1]]);
  let [at, size, from] = [8];
  for (; bytes[at] !== 5; at = from + size) [size, from] = number(at + 1);
  [size, from] = number(at + 1);
  assert.equal(bytes[from + 1], 0, "a memory without a limit");
  const section = [5, size + 2, 1, 1, ...bytes.slice(from + 2, from + size), 128 + pages % 128, pages >> 7];
  const limited = Uint8Array.from([...bytes.slice(0, at), ...section, ...bytes.slice(from + size)]);
  const {module, instance} = await instantiate(limited, imports);
  return new (internals.calls().constructor)(module, instance);
}

const tests = {
  "before load": () => assert.throws(() => geo.fromLngLat(0, 0), /await load/),
  "the leaves of places are S2's": async () => {
    await load();
    assert.deepEqual(tokens(geo.fromLngLats(positions)), rows.map((row) => row[2]));
    assert.deepEqual(positions.map((position) => token(geo.fromLngLat(...position))), rows.map((row) => row[2]));
    assert.deepEqual(geo.fromLngLats([]), new BigUint64Array());
  },
  "the middle of a leaf is near": () => {
    for (const [longitude, latitude] of positions) {
      const [x, y] = geo.toLngLat(geo.fromLngLat(longitude, latitude));
      assert.ok(Math.abs(y - latitude) < 1e-7);
      assert.ok(Math.abs(latitude) > 89 || Math.abs((x - longitude + 540) % 360 - 180) < 2e-7);
    }
  },
  "what is out of range, and what is no number": () => {
    for (const [longitude, latitude] of [[541, 0], [0, 91], [NaN, 0], [0, -Infinity]]) {
      assert.throws(() => geo.fromLngLat(longitude, latitude), RangeError);
    }
    assert.throws(() => geo.fromLngLat("1", 2), TypeError);
    assert.throws(() => geo.fromLngLats([[1, 2], [3]]), TypeError);
    assert.throws(() => geo.toLngLat(2n), Refusal);
    assert.throws(() => geo.fromGeoJSON({type: "Nothing"}), /no GeoJSON/);
    assert.throws(() => geo.fromGeoJSON("{"), SyntaxError);
    assert.throws(() => geo.fromGeoJSON({type: "Point", coordinates: [0, 91]}), /out of range/);
    for (const wrong of [null, 7, [], "7", {}, {type: 7}, {type: "toString"}, {type: "Feature"}, {type: "Polygon"},
      {type: "FeatureCollection"}, {type: "Polygon", coordinates: [7]}, {type: "LineString", coordinates: [1, 2]}]) {
      if (wrong?.type === "Feature") assert.equal(geo.covering(wrong).size, 0);
      else assert.throws(() => geo.covering(wrong), Error, JSON.stringify(wrong));
    }
    for (const position of [["0", "1"], [0, "1"], [true, 1], [null, 1], [[0], 1], [0], [0, NaN]]) {
      assert.throws(() => geo.fromGeoJSON({type: "Point", coordinates: position}), /out of range/, String(position));
      const coordinates = [position, ...square.slice(1, 4), position];
      assert.throws(() => geo.fromGeoJSON({type: "Polygon", coordinates: [coordinates]}), /out of range/);
    }
    for (const most of [0, -1, NaN, 1_000_001, 1e9, Infinity, "many"]) {
      assert.throws(() => geo.fromGeoJSON(polygon, most), RangeError, String(most));
    }
    assert.throws(() => geo.toGeoJSON(CellUnion.fromTokens("1").denormalized(1)), TypeError);
  },
  "what is wrong with a shape, by its kind, ring and position": () => {
    const [hole, bytes] = [[[2, 2], [3, 2], [3, 3], [2, 2]], (...all) => Uint8Array.from(all)];
    const of = (...coordinates) => ({type: "Polygon", coordinates});
    const wkb = (type, ...more) => bytes(1, type, 0, 0, 0, ...more);
    for (const [shape, kind, ring, position, said] of [
      [of(square, [...hole.slice(0, 2), [3, 91], [2, 2]]), "NUMBER", 1, 2, /^polygon 0, ring 1: position 2 is out of /],
      [of(square, [...hole.slice(0, 2), ["3", 9], [2, 2]]), "NUMBER", 1, 2, /^polygon 0, ring 1: position 2/],
      [of(square, [...hole.slice(0, 2), null, [2, 2]]), "NUMBER", 1, 2, /^polygon 0, ring 1: position 2/],
      [of(square, hole.slice(0, 3)), "FEW", 1, undefined, /^polygon 0, ring 1 has fewer than four positions/],
      [of(square, [...hole, [4, 4]]), "OPEN", 1, undefined, /^polygon 0, ring 1 is open/],
      [{type: "LineString", coordinates: [[0, 0], [541, 0]]}, "NUMBER", 0, 1, /^line 0: position 1 is out of range/],
      [wkb(3, 1, 0, 0, 0), "WKB", undefined, 5, /no WKB: at byte 5/],
      [wkb(3, 255, 255, 255, 255), "WKB", undefined, 5, /no WKB: at byte 5/],
      [wkb(9), "TYPE", undefined, 0, /at byte 0/],
      [bytes(1, 3, 0, 0, 32, 7, 0, 0, 0), "SRID", undefined, 0, /SRID/],
      [bytes(), "WKB", undefined, 0, /no WKB/], [bytes(...Array(40).fill([1, 7, 0, 0, 0, 1, 0, 0, 0]).flat()), "DEEP"],
    ]) {
      assert.throws(() => geo.coverings(shape), (error) => error instanceof geo.ShapeError && error.kind === kind &&
        (ring === undefined || error.ring === ring) && (position === undefined || error.position === position) &&
        (said ?? /./).test(error.message), kind);
    }
    const line = {type: "LineString", coordinates: [[0, 90], [0, -90]]};
    assert.throws(() => geo.covering(line, {edges: "geodesic"}), ({kind}) => kind === "OPPOSITE");
  },
  "options out of range, and of other types": () => {
    for (const [name, ...wrong] of [["maxCells", -1, 1_000_001, 1.5, NaN], ["minLevel", -1, 31], ["maxLevel", 31, 0.5],
      ["within", 0, -1, NaN], ["margin", -1, 300_001, NaN], ["edges", "straight", "toString"]]) {
      for (const value of wrong) assert.throws(() => geo.covering(polygon, {[name]: value}), RangeError, name);
      assert.throws(() => geo.covering(polygon, {[name]: name === "edges" ? "x" : "1"}), Error, name);
    }
    assert.throws(() => geo.covering(polygon, {minLevel: 9, maxLevel: 8}), RangeError);
    for (const wrong of [[541, 0, 1], [0, 91, 1], [0, 0, -1], [0, 0, 20_000_001], [0, 0, NaN]]) {
      assert.throws(() => geo.circle(...wrong), RangeError, String(wrong));
    }
    assert.throws(() => geo.circle(0, 0), TypeError);
    assert.throws(() => geo.box(0, 0, 1), TypeError);
    for (const wrong of [[541, 0, 1, 1], [0, -91, 1, 1], [0, 0, NaN, 1]]) {
      assert.throws(() => geo.box(...wrong), RangeError, String(wrong));
    }
    for (const [cell, level, kind] of [[2n, 3, "NO_CELL"], [2n ** 65n, 3, "NO_CELL"], [1n, 1.5, "ARGUMENT"],
      [1n, -1, "ARGUMENT"], [fromToken("1"), "1", "ARGUMENT"], [fromToken("1"), 18, "MANY"]]) {
      assert.throws(() => geo.neighbors(cell, level), (error) => error.kind === kind, `${cell} ${level}`);
    }
    assert.throws(() => geo.neighbors(5, 3), TypeError);
    assert.throws(() => geo.edgeNeighbors(0n), Refusal);
    assert.throws(() => geo.vertexNeighbors(1n, 30), Refusal);
    assert.throws(() => geo.expanded(new CellUnion([1n]), 31), Refusal);
    assert.equal(geo.covering(polygon, {maxCells: 0}).size, 1);
  },
  "what is usual": () => {
    const square = {type: "Polygon", coordinates: [[[2, 48], [3, 48], [3, 49], [2, 49], [2, 48]]]};
    const within = geo.covering(square, {within: 500});
    assert.ok(geo.covering(square).equals(geo.covering(square, {maxCells: 200, minLevel: 0, maxLevel: 30})));
    assert.ok(within.size > 200 && within.equals(geo.covering(square, {within: 500, maxCells: 1_000_000})));
    assert.ok(geo.fromGeoJSON(square).equals(geo.fromGeoJSON(square, 10_000)));
    assert.ok(!geo.fromGeoJSON(square).equals(geo.fromGeoJSON(square, 1000)));
  },
  "shapes that a few bytes make are covered soon": () => {
    const long = Array.from({length: 20_000}, (_, k) => [k % 2 ? 540 : -540, (k % 180) - 90]);
    const nested = `${'{"type":"GeometryCollection","geometries":['.repeat(5000)}${"]}".repeat(5000)}`;
    const begun = process.cpuUsage().user;
    assert.throws(() => geo.covering({type: "LineString", coordinates: long}), ({kind}) => kind === "PIECES");
    assert.ok(geo.covering({type: "LineString", coordinates: long.slice(0, 1000)}).size);
    assert.equal(geo.covering(JSON.parse(nested)).size, 0);
    assert.throws(() => geo.covering(nested), ({kind}) => kind === "GEOJSON"); // as too deep
    assert.throws(() => geo.covering({type: "Polygon", coordinates: [Array(5_000_000).fill([0, 0])]}), /positions/);
    const loop = {type: "GeometryCollection", geometries: []};
    for (let k = 0; k < 100; k++) loop.geometries.push(loop);
    assert.throws(() => geo.covering(loop), /more than 4000000 parts/);
    assert.ok(process.cpuUsage().user - begun < 60_000_000);
  },
  "with less and less memory: an error by its name, and all goes on": async () => {
    const own = {...internals.calls()};
    const teeth = Array.from({length: 3000}, (_, k) => [k % 2 ? 0.1 : 0, k / 1e4]);
    const asked = [() => geo.covering({type: "LineString", coordinates: teeth}, {maxCells: 2000}).size,
      () => geo.outline(geo.covering(polygon, {maxCells: 3000})).coordinates[0][0].length,
      () => geo.neighbors(fromToken("1"), 16).size];
    const wanted = asked.map((ask) => ask());
    /** What the first call with enough memory answers; those before it are refused. */
    const first = async (ask) => {
      for (let pages = 12; ; pages += 5) {
        Object.assign(internals.calls(), await withPages(pages));
        try {
          return [ask(), pages];
        } catch (error) {
          assert.ok(error instanceof Refusal && error.kind === "MEMORY", error.stack);
          assert.equal(geo.covering({type: "Point", coordinates: [0, 0]}, {maxCells: 1}).size, 1);
        }
      }
    };
    try {
      for (const [k, ask] of asked.entries()) {
        const [answer, pages] = await first(ask);
        assert.ok(answer === wanted[k] && pages > 20, `${answer} ${pages}`);
      }
    } finally {
      Object.assign(internals.calls(), own);
    }
  },
  "zones with more and more memory: an error by its name, and those that were added stay": async () => {
    const limited = await withPages(12);
    const teeth = Array.from({length: 100}, (_, k) => [k % 2 ? 9 : 5, k / 25]);
    const zone = {type: "Polygon", coordinates: [[[0, 0], ...teeth, [0, 4], [0, 0]]]};
    /** What a call answers, or nothing without memory. */
    const tried = (call) => {
      try {
        return call();
      } catch (error) {
        assert.ok(error instanceof Refusal && error.kind === "MEMORY", error.stack);
        return undefined;
      }
    };
    /** Whether all is had where this many blocks of the least size are left. */
    const isHad = (left) => {
      const core = limited.forZones();
      let blocks = 0;
      while (core.calls.s2js_take(1n)) blocks++;
      core.calls.s2js_zones(BigInt(core.base));
      for (let k = left; k < blocks; k++) core.calls.s2js_take(1n);
      internals.calls().forZones = () => core;
      const zones = new geo.Zones();
      delete internals.calls().forZones;
      const added = [1, 2].map(() => tried(() => zones.add(zone))).filter((number) => number !== undefined);
      const found = tried(() => zones.pairs([1, 20], [2, 2]));
      assert.deepEqual(added, [0, 1].slice(0, added.length));
      if (found) assert.deepEqual([...found.places, ...found.zones], [...added.map(() => 0), ...added]);
      return added.length === 2 && found !== undefined;
    };
    let left = 0;
    while (!isHad(left)) left += 4;
    assert.ok(left > 100, `${left}`);
  },
  "a covering has all points of a polygon, and few more with more cells": () => {
    const sizes = [[50, 0], [1000, 0], [1000, 360], [1000, -360]].map(([most, turn]) => {
      const geometry = {type: "Polygon", coordinates: [square.map(([x, y]) => [x + turn, y])]};
      const union = geo.fromGeoJSON(JSON.stringify({type: "Feature", geometry}), most);
      for (let x = -2; x <= 12; x += 0.37) {
        for (let y = -2; y <= 12; y += 0.41) {
          const isIn = x >= 0 && x <= 10 && y >= 0 && y <= 10;
          const isFar = x < -1 || x > 11 || y < -1 || y > 11;
          const has = union.has(geo.fromLngLat(x, y));
          assert.ok(isIn ? has : !(isFar && has && most === 1000), `${x} ${y}`);
        }
      }
      return union.leafCount();
    });
    assert.ok(sizes[1] < sizes[0]);
    assert.ok(geo.fromGeoJSON(polygon, 50_000).leafCount() < sizes[1]);
  },
  "each place of triangles with an edge along both axes": () => {
    for (const [ring, asked] of JSON.parse(readFileSync(borders, "utf8"))) {
      const inside = geo.fromLngLats(asked.filter(([, , lies]) => lies >= 0).map(([x, y]) => [x, y]));
      for (const most of [300, 3000]) {
        const found = geo.fromGeoJSON({type: "Polygon", coordinates: [ring]}, most).hasEach(inside);
        assert.ok(inside.length > 500 && found.every(Boolean), `${ring}: ${most}`);
      }
    }
  },
  "short texts near a pole, which take no more memory than others": () => {
    for (const south of [89, 89.9999, 90 - 1e-6]) {
      const edges = Array.from({length: 16}, (_, k) => [k % 2 ? 539 : -539, south + (90 - south) * (k / 1600)]);
      const ring = [...edges, [-540, edges[15][1]], [-540, south - (90 - south) / 100], edges[0]];
      assert.ok(geo.fromGeoJSON({type: "Polygon", coordinates: [ring]}).has(geo.fromLngLat(-539.5, edges[7][1])));
    }
  },
  "a strip along a parallel and one along a meridian have a narrow margin": () => {
    const strip = [[0, 60], [10, 60], [10, 60.001], [0, 60.001], [0, 60]];
    for (const ring of [strip, strip.map(([x, y]) => [y, x])]) {
      const union = geo.fromGeoJSON({type: "Polygon", coordinates: [ring]}, 10_000);
      assert.ok(union.leafCount() < 2n ** 44n, `${union.leafCount()}`);
      for (let k = 0; k <= 100; k++) {
        const at = (across) => ring[1][0] === 10 ? [k / 10, 60 + across] : [60 + across, k / 10];
        assert.ok(union.has(geo.fromLngLat(...at(0.0005))) && !union.has(geo.fromLngLat(...at(0.1))), `${k}`);
      }
    }
  },
  "a polygon whose positions are all one place": () => {
    const dot = (most) => geo.fromGeoJSON({type: "Polygon", coordinates: [Array(4).fill([1, 1])]}, most);
    assert.ok(dot(1).size === 1 && dot(1).has(geo.fromLngLat(1, 1)) && dot(1).isSupersetOf(dot(1000)));
    assert.ok(dot(1000).leafCount() < 5n && dot(1).leafCount() > 5n);
  },
  "long edges, and many as wide as their polygon, which take no more memory than short ones": () => {
    const around = Array.from({length: 100}, (_, k) => [k % 2 ? 180 : -180, k / 10]);
    const line = geo.fromGeoJSON({type: "LineString", coordinates: around}, 50);
    assert.ok(line.has(geo.fromLngLat(90, 4.95)) && !line.has(geo.fromLngLat(90, 40)));
    const teeth = Array.from({length: 20_000}, (_, k) => [k % 2 ? 0.25 : 0, k / 2000]);
    const comb = geo.fromGeoJSON({type: "Polygon", coordinates: [teeth]}, 50);
    assert.ok(comb.has(geo.fromLngLat(0.1, 5)) && !comb.has(geo.fromLngLat(2, 5)));
  },
  "corners just north of the middle of a face": () => {
    const north = [[100, 80], [0, 80], [-100, 80], [-100, -80], [0, -80], [100, -80]];
    assert.ok(geo.fromGeoJSON({type: "Polygon", coordinates: [north]}, 50).has(geo.fromLngLat(0, 0)));
  },
  "points are their leaves, and a ring may be open": () => {
    const [first, ...others] = positions.slice(0, 9);
    const points = {type: "GeometryCollection", geometries: [
      {type: "Point", coordinates: first}, {type: "MultiPoint", coordinates: others}]};
    assert.ok(geo.fromGeoJSON(points).equals(new CellUnion(geo.fromLngLats(positions.slice(0, 9)))));
    const [open, closed] = [square.slice(1), square].map(
      (ring) => geo.fromGeoJSON({type: "Polygon", coordinates: [ring]}, 500));
    assert.ok(open.equals(closed));
  },
  "to GeoJSON and back": () => {
    const union = CellUnion.fromTokens("47e7 47e1 64");
    const made = geo.toGeoJSON(union, {name: "three"});
    assert.deepEqual(made.features.map(({properties}) => properties),
      Array.from(union, (cell) => ({name: "three", cell: token(cell)})));
    for (const {geometry, properties: {cell}} of made.features) {
      const back = geo.fromGeoJSON(geometry, 500);
      assert.ok(back.isSupersetOf(new CellUnion([fromToken(cell)])) || level(fromToken(cell)) < 5);
    }
    assert.equal(geo.toGeoJSON(CellUnion.fromTokens("1 5")).features.length, 8);
    const cells = [...CellUnion.fromTokens("1 3 5 7 9 b").denormalized(1), ...parents(geo.fromLngLats(positions), 9)];
    for (const {geometry: {coordinates: [ring]}, properties} of cells.flatMap(
      (cell) => geo.toGeoJSON(new CellUnion([cell])).features)) {
      assert.deepEqual(ring.at(-1), ring[0]);
      const edges = ring.slice(1).map((to, k) => [ring[k], to]);
      assert.ok(edges.reduce((area, [[x, y], [toX, toY]]) => area + x * toY - toX * y, 0) > 0, properties.cell);
      const ofPole = edges.map((ends) => ends.filter(([, y]) => Math.abs(y) === 90).length);
      edges.forEach(([[x], [toX]], k) => assert.ok(Math.abs(toX - x) <= (ofPole[k] === 1 ? 0 : 180), properties.cell));
      const isAtPole = level(fromToken(properties.cell)) === 1 && [2, 5].includes(face(fromToken(properties.cell)));
      assert.equal(ring.length, isAtPole || ofPole.some(Boolean) ? 6 : 5, properties.cell);
    }
    assert.deepEqual(geo.toGeoJSON(new CellUnion()), {type: "FeatureCollection", features: []});
    const many = new CellUnion(BigUint64Array.from({length: 200_001}, (_, k) => BigInt(4 * k + 1)));
    assert.throws(() => geo.toGeoJSON(many), RangeError);
    const {features: [one, ...others]} = geo.toGeoJSON(union, {name: "three"}, {dissolve: true});
    assert.deepEqual([one.properties, one.geometry, others], [{name: "three"}, geo.outline(union), []]);
    assert.throws(() => geo.outline([...union]), TypeError);
  },
};

if (leaves) {
  await load();
  writeFileSync(leaves, `${tokens(geo.fromLngLats(positions)).join("\n")}\n`);
} else {
  let passed = 0;
  for (const [name, test] of Object.entries(tests)) {
    try {
      await test();
      passed++;
    } catch (error) {
      console.log(`${name}: ${error.stack}`);
    }
  }
  const failed = Object.keys(tests).length - passed;
  console.log(`${passed} passed, ${failed} failed`);
  process.exitCode = failed ? 1 : 0;
}
