// What the page does by itself, without a browser: page.mjs TOP, where TOP is the repository's folder. The page's
// scripts are run beside a document of no elements but those that are asked for. The last line is 'N passed, M failed'.
import assert from "node:assert/strict";
import {readFileSync} from "node:fs";
import {join} from "node:path";

const top = process.argv[2];
const SCRIPTS = ["bindings/js/core.js", "bindings/js/shapes.js", "page/words.js", "page/features.js",
  "page/worker.js", "page/sphere.js", "page/view.js", "page/page.js"];
const NAMES = "{Coverer, MOST_CELLS, Page, Refusal, SIDE, Stopped, View}";
const read = (name) => readFileSync(join(top, name), "utf8");
const elements = {};
const document = {
  getElementById: (id) => (elements[id] ??= {textContent: ""}), createElement: () => ({getContext: () => ({})}),
};
/** Workers that do nothing, and how many of them run. */
let running = 0;
class Idle {
  constructor() {
    running++;
  }

  postMessage() {}

  terminate() {
    running--;
  }
}
const begun = new Function("document", "window", "Worker", "MODULE", "SAMPLE",
  `${SCRIPTS.map(read).join("\n").replaceAll('"use strict";\n', "")}\nreturn ${NAMES};`);
const {Coverer, MOST_CELLS, Page, Refusal, SIDE, Stopped, View} = begun(document, {}, Idle, "", "");

/** What the page makes of a union whose denormalized form has this many cells. */
function denormalised(count) {
  const page = {
    chosen: () => ({name: "a", union: []}),
    core: {denormalisedCount: () => BigInt(count), denormalised: (union, ...cut) => cut},
    compute: (word, operation) => { page.made = operation(); },
  };
  Page.prototype.denormalise.call(page);
  return page.made[1];
}

const tests = {
  "a union of too many cells": () => {
    const page = {core: {isUnion: () => false}};
    const taken = (length) => Page.prototype.regionOf.call(page, "a", {length});
    assert.throws(() => taken(MOST_CELLS), ({status}) => status === -4);
    assert.throws(() => taken(MOST_CELLS + 1), /too many cells for the page/);
  },
  "denormalized to as many cells as the page takes": () => {
    Object.assign(elements, {level: {value: "4"}, modulus: {value: "2"}});
    assert.deepEqual(denormalised(MOST_CELLS), [4, 2]);
    assert.throws(() => denormalised(MOST_CELLS + 1), /cells are too many for the page/);
  },
  "fields take the numbers that the page takes": () => {
    for (const id of ["level", "modulus"]) {
      const ends = new RegExp(`id="${id}" type="number" min="(\\d+)" max="(\\d+)"`);
      const [, least, most] = ends.exec(read("page/page.html"));
      const given = (value) => {
        Object.assign(elements, {level: {value: "4"}, modulus: {value: "2"}, [id]: {value: String(value)}});
        return denormalised(1)[id === "level" ? 0 : 1];
      };
      for (const value of [least, most]) assert.equal(given(value), Number(value), id);
      for (const value of [Number(least) - 1, Number(most) + 1, ""]) assert.throws(() => given(value), Refusal, id);
    }
  },
  "a covering that is stopped goes on nowhere": async () => {
    const parts = [];
    const coverer = new Coverer((part) => parts.push(part));
    for (let k = 0; k < 2; k++) {
      const stopped = assert.rejects(coverer.cover("a text"), Stopped);
      assert.equal(running, 1);
      coverer.end();
      assert.equal(running, 0);
      await stopped;
    }
    assert.deepEqual(parts, [0, null, 0, null]);
  },
  "the leaf at a pixel on the upper border of a face": () => {
    const view = new View({getContext: () => ({}), width: 400, height: 300});
    assert.deepEqual(view.leafAt(200, 100), [3, 0, SIDE - 1]);
    assert.deepEqual(view.leafAt(250, 150), [3, SIDE / 2, SIDE / 2]);
  },
  "a line that passes the date line is not drawn across the map": () => {
    const drawn = [];
    const pen = (name) => (...place) => drawn.push([name, ...place]);
    const context = {beginPath: () => {}, stroke: () => {}, moveTo: pen("moveTo"), lineTo: pen("lineTo")};
    View.prototype.line.call({context, pixelAt: (x, y) => [x, y]}, [[160, 0], [170, 1], [-170, 2], [-160, 3]]);
    assert.deepEqual(drawn, [["moveTo", 160, 0], ["lineTo", 170, 1], ["moveTo", -170, 2], ["lineTo", -160, 3]]);
  },
};

let failed = 0;
for (const [name, test] of Object.entries(tests)) {
  try {
    await test();
  } catch (error) {
    failed++;
    console.log(`FAILED ${name}: ${error.stack}`);
  }
}
console.log(`${Object.keys(tests).length - failed} passed, ${failed} failed`);
process.exitCode = failed ? 1 : 0;
