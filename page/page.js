"use strict";
// The page: what stands in it, and what keys, pointers and files do. Names and texts of others are shown as text alone.

const COLORS = [[31, 119, 180], [214, 39, 40], [44, 160, 44], [148, 103, 189], [255, 127, 14], [23, 190, 207],
  [227, 119, 194], [140, 86, 75]];
const MOST_CELLS = 8_000_000;
const MOST_BYTES = HEAD_SIZE + 8 * MOST_CELLS;
const MOST_BRIEF = 40;
/** A union with more cells is framed by a covering, of at most 24,576 cells. */
const MOST_FRAMED = 20_000;
const LEVEL_OF_FRAMES = 6;
/** The level whose cells are 24 pixels wide where a place is gone to, unless the picture is closer. */
const LEVEL_OF_PLACES = 9;
/** How many of many refusals are said. */
const MOST_SAID = 5;
/** How many pixels of a row and a column are drawn alike while the picture moves. */
const LEAST_COARSE = 2;
const MOST_COARSE = 4;
const at = (id) => document.getElementById(id);

/** An element with a text and attributes. */
function element(kind, text = "", attributes = {}) {
  const made = document.createElement(kind);
  made.textContent = text;
  for (const [name, value] of Object.entries(attributes)) made.setAttribute(name, value);
  return made;
}

/** A name in that of a result. Whole, the names of results of results would grow without end. */
const brief = (name) => (name.length > MOST_BRIEF ? `${[...name].slice(0, MOST_BRIEF - 1).join("")}…` : name);

class Page {
  constructor(core) {
    this.core = core;
    this.view = new View(at("picture"));
    this.land = new Drawn(core, core.decode(unpacked(SAMPLE)));
    this.regions = [];
    this.past = [];
    this.future = [];
    this.coverer = new Coverer((part) => {
      at("work").hidden = part === null;
      if (part) at("part").value = part;
      else at("part").removeAttribute("value"); // it moves, until something is known
    });
    /** The unions that were chosen or computed with as A and B. */
    this.picked = {first: null, second: null};
    this.made = 0;
    this.coarse = LEAST_COARSE;
    this.resize();
    this.listen();
    this.showLand();
    this.show();
    this.say("Drop union files on the page, or add the sample.");
  }

  say(text) {
    at("status").textContent = text;
  }

  /** Does something that may be refused; a refusal is said by its name, and nothing is changed. */
  async attempt(what, action) {
    try {
      await action();
    } catch (error) {
      this.say(refusal(what, error));
    }
  }

  // ---- the unions and their history

  /**
   * What is shown of a list of cells under a name, and a note that is said of it. A list that is cut is no union;
   * operations take the union of it.
   */
  regionOf(name, ids, {isCut = false, note = ""} = {}) {
    if (ids.length > MOST_CELLS) throw new Error("too many cells for the page");
    const union = isCut ? this.core.normalise(ids) : ids;
    if (!this.core.isUnion(union)) throw new Refusal(-4, 0);
    return {
      name, ids, union, note, color: COLORS[this.made++ % COLORS.length], isShown: true,
      leaves: this.core.leafCount(union), drawn: new Drawn(this.core, ids),
    };
  }

  add(name, ids, more) {
    this.addAll([this.regionOf(name, ids, more)]);
  }

  /** Adds regions, in one step of the history. */
  addAll(regions) {
    if (!regions.length) return;
    this.change([...this.regions, ...regions]);
    this.say(regions.length === 1 ? `${regions[0].name}: ${describe(regions[0])}.` : `${regions.length} unions added.`);
  }

  change(regions) {
    const before = this.regions;
    this.become(regions);
    this.past.push(before);
    this.future = [];
    this.show();
  }

  /** Takes other unions, if there is memory for them. */
  become(regions) {
    this.core.keep([...new Set(regions.map((region) => region.union))]);
    this.regions = regions;
  }

  step(from, to, word) {
    if (!from.length) return this.say(`Nothing to ${word}.`);
    this.attempt(word, () => {
      const before = this.regions;
      this.become(from.at(-1));
      from.pop();
      to.push(before);
      this.show();
      this.say(`${word}: ${this.regions.length} unions.`);
    });
  }

  undo() {
    this.step(this.past, this.future, "undo");
  }

  redo() {
    this.step(this.future, this.past, "redo");
  }

  chosen(id) {
    const region = this.regions[at(id).selectedIndex];
    if (!region) throw new Error("no union is chosen");
    this.picked[id] = region;
    return region;
  }

  /** Adds the result of an operation on the chosen unions. */
  compute(word, operation) {
    this.attempt(word, () => {
      const begun = performance.now();
      const [name, ids, more] = operation();
      const took = performance.now() - begun;
      this.add(name, ids, more);
      this.say(`${at("status").textContent} Computed in ${took.toFixed(1)} ms.`);
    });
  }

  ofTwo(word, call) {
    this.compute(word, () => {
      const [a, b] = [this.chosen("first"), this.chosen("second")];
      return [`${brief(a.name)} ${word} ${brief(b.name)}`, this.core[call](a.union, b.union)];
    });
  }

  complement() {
    this.compute("complement", () => {
      const a = this.chosen("first");
      return [`all but ${brief(a.name)}`, this.core.complement(a.union)];
    });
  }

  ofLevel(word, call) {
    this.compute(word, () => {
      const [a, level] = [this.chosen("first"), numberIn("level", 0, 30)];
      return [`${word} ${level} of ${brief(a.name)}`, this.core[call](a.union, level)];
    });
  }

  denormalise() {
    this.compute("denormalized", () => {
      const [a, level, modulus] = [this.chosen("first"), numberIn("level", 0, 30), numberIn("modulus", 1, 3)];
      const count = this.core.denormalisedCount(a.union, level, modulus);
      if (count > BigInt(MOST_CELLS)) throw new Error(`${count} cells are too many for the page`);
      const name = `denormalized ${level}/${modulus} of ${brief(a.name)}`;
      return [name, this.core.denormalised(a.union, level, modulus), {isCut: true}];
    });
  }

  // ---- files

  /** Adds files, all at once when the last is read. What is refused, such as a folder, is said then. */
  async open(files) {
    const [added, refusals] = [[], []];
    for (const file of [...files]) { // a copy: the browser's own list is emptied when the next files are chosen
      try {
        const read = await this.readFrom(file);
        added.push(...read.map(([name, ...more]) => this.regionOf(name || file.name, ...more)));
      } catch (error) {
        if (error instanceof Stopped) return this.say(refusal(file.name, error));
        refusals.push(refusal(file.name, error));
      }
    }
    if (refusals.length > MOST_SAID) refusals.push(`and ${refusals.splice(MOST_SAID).length} more refused`);
    await this.attempt(`${added.length} files`, () => {
      this.addAll(added);
      if (refusals.length) this.say(refusals.join("; "));
    });
  }

  /** The unions of a file, as readText answers them: of a text with cells or GeoJSON, or else of a union file. */
  async readFrom(file) {
    const bytes = await bytesIn(file);
    return isText(bytes) ? this.readText(file.name, new TextDecoder().decode(bytes)) : [["", this.core.decode(bytes)]];
  }

  /**
   * The union of the cells that a text names, or the coverings of its GeoJSON: each with the name of its feature, or
   * without one, and what is said of it.
   */
  async readText(name, marked) {
    const text = marked.replace(/^\uFEFF/, ""); // a byte order mark, which Windows puts before texts
    const isNamed = /^\s*\{\s*"[^"]*"\s*(:|$)/.test(text); // a list of PostgreSQL begins with a brace and a quote too
    if (isNamed) this.say(`${name}: GeoJSON is being covered.`);
    const read = isNamed
      ? (await this.coverer.cover(text)).map(({name: own, ids, ...how}) => [own, ids, {note: noteOf(how)}])
      : [["", this.core.read(inTokens(text))]];
    const found = read.filter(([, ids]) => ids.length);
    if (!found.length) throw new Error("there is no cell");
    return found;
  }

  async addText(what, text) {
    const read = await this.readText(what, text);
    this.addAll(read.map(([name, ...more]) => this.regionOf(name || `cells ${this.made + 1}`, ...more)));
  }

  addTexts() {
    const text = at("texts").value;
    this.attempt("texts", async () => {
      await this.addText("texts", text);
      if (at("texts").value === text) at("texts").value = "";
    });
  }

  /** Adds what was dropped or pasted: files, or else a text. */
  take(what, transfer) {
    if (transfer.files.length) this.open(transfer.files);
    else this.attempt(what, () => this.addText(what, transfer.getData("text")));
  }

  save(region, bytes, ending) {
    const link = element("a", "", {download: region.name.replace(/[^\w.-]+/g, "_") + ending});
    link.href = URL.createObjectURL(new Blob([bytes]));
    link.click();
    URL.revokeObjectURL(link.href);
    this.say(`${region.name}: saved.`);
  }

  /** Saves the GeoJSON that is made of a union. */
  saveMap(region, collection) {
    this.save(region, JSON.stringify(collection(this.core, {name: region.name}, region.union)), ".geojson");
  }

  // ---- what stands in the page

  show() {
    at("legend").replaceChildren(...this.regions.map((region) => this.entry(region)));
    if (!this.regions.length) at("legend").append(element("li", "none yet"));
    for (const [id, last] of [["first", 2], ["second", 1]]) {
      at(id).replaceChildren(...this.regions.map((region) => element("option", region.name)));
      const picked = this.regions.indexOf(this.picked[id]);
      const count = this.regions.length;
      at(id).selectedIndex = picked >= 0 ? picked : Math.max(Math.min(0, count - 1), count - last);
    }
    at("undo").disabled = !this.past.length;
    at("redo").disabled = !this.future.length;
    this.view.layers = this.regions;
    this.draw();
  }

  /** The line of the legend of a union. */
  entry(region) {
    const line = element("li");
    const shown = element("input", "", {type: "checkbox", "aria-label": `show ${region.name}`});
    shown.checked = region.isShown;
    shown.onchange = () => {
      region.isShown = shown.checked;
      this.draw();
    };
    const swatch = element("span", "", {class: "swatch"});
    swatch.style.background = `rgb(${region.color})`;
    const button = (text, action) => {
      const made = element("button", text, {type: "button", "aria-label": `${text} ${region.name}`});
      made.onclick = () => this.attempt(`${text} ${region.name}`, action);
      return made;
    };
    line.append(shown, swatch, element("span", region.name, {class: "name"}), element("span", describe(region)),
      button("save", () => this.save(region, this.core.encode(region.ids), ".cells")),
      button("tokens", () => this.save(region, this.core.tokens(region.ids), ".txt")),
      button("GeoJSON", () => this.saveMap(region, cellsOf)),
      button("outline", () => this.saveMap(region, dissolvedOf)),
      button("go to", () => this.goTo(region)),
      button("remove", () => this.change(this.regions.filter((other) => other !== region))));
    return line;
  }

  draw(step = 1) {
    this.drawnStep = Math.min(this.drawnStep ?? step, step);
    this.frame ??= requestAnimationFrame(() => {
      const begun = performance.now();
      this.view.draw(this.drawnStep);
      if (this.drawnStep > 1) this.adapt(performance.now() - begun);
      this.frame = this.drawnStep = undefined;
    });
  }

  /** Draws coarsely at once, and finely when nothing has moved for a moment. */
  moved() {
    clearTimeout(this.resting);
    this.resting = setTimeout(() => this.draw(), 120);
    this.draw(this.coarse);
  }

  /** How coarse pictures in motion are, so that there are thirty of them a second. */
  adapt(took) {
    if (took > 30) this.coarse = Math.min(MOST_COARSE, this.coarse + 1);
    else if (took < 10) this.coarse = Math.max(LEAST_COARSE, this.coarse - 1);
  }

  resize() {
    const ratio = window.devicePixelRatio || 1;
    const isFirst = !this.view.isPlaced;
    this.view.canvas.width = Math.max(1, Math.round(this.view.canvas.clientWidth * ratio));
    this.view.canvas.height = Math.max(1, Math.round(this.view.canvas.clientHeight * ratio));
    if (isFirst) this.fitBoth();
    this.paint();
  }

  fitBoth() {
    for (const kind of ["map", "faces"]) {
      this.view.kind = kind;
      this.view.fit();
    }
    this.view.isPlaced = true;
  }

  /** Takes the colors of the theme. */
  paint() {
    const isDark = getComputedStyle(document.documentElement).getPropertyValue("--ground").trim() !== "#fff";
    this.view.colors = isDark
      ? {ground: [13, 17, 23], face: [38, 44, 54], land: [58, 62, 56], line: "#6e7681", text: "#e6edf3", mark: "#fff",
        goal: "#000"}
      : {ground: [255, 255, 255], face: [234, 238, 242], land: [214, 219, 205], line: "#8c959f", text: "#1f2328",
        mark: "#000", goal: "#fff"};
    this.draw();
  }

  showLand() {
    this.view.land = at("land").checked ? this.land : null;
    this.draw();
  }

  turnTheme() {
    const isDark = this.view.colors.mark === "#fff";
    document.documentElement.dataset.theme = isDark ? "light" : "dark";
    this.paint();
  }

  // ---- going to places

  /** Shows all of a union, as closely as it fits. */
  goTo({name, union}) {
    if (!union.length) throw new Error("it has no cell");
    const few = union.length > MOST_FRAMED ? this.core.outer(union, LEVEL_OF_FRAMES) : union;
    this.view.frame(Array.from(few, (id) => this.core.square(id)));
    this.moved();
    this.say(`${name}: shown.`);
  }

  /**
   * Shows and marks the place that is written in its field. Says which leaf is there, and its cell of the level that is
   * chosen by a word, else the one in the picture.
   */
  goToPlace() {
    this.attempt("place", () => {
      const place = placeIn(at("place").value);
      if (!place) throw new Error("it is no latitude and longitude, such as 48.86, 2.35");
      const [[leaf], word] = [this.core.leavesOf(Float64Array.from(place)), at("size").value];
      const {face, i, j} = this.core.square(leaf);
      const level = word ? Number(word) : LEVEL_OF_PLACES;
      const goal = [face, (i + 0.5) / SIDE, (j + 0.5) / SIDE];
      this.view.goal = goal;
      this.view.center(...goal, 24 * 2 ** level, !word);
      const facts = this.mark(word ? this.core.parent(leaf, level) : this.cellInMiddle());
      const which = word ? "of this size" : "that the picture shows";
      this.say(`leaf ${this.core.token(leaf)}. The cell of it ${which}: ${inWords(facts)}`);
      this.moved();
    });
  }

  cellInMiddle() {
    return this.cellAt(this.view.canvas.width / 2, this.view.canvas.height / 2);
  }

  /** Says what is known of the cell in the middle. */
  readMiddle() {
    this.say(inWords(this.mark(this.cellInMiddle())) || "There is no cell in the middle.");
  }

  // ---- the cell under the pointer

  /** The cell at a pixel: that of the topmost union that contains the leaf there, else one about 24 pixels wide. */
  cellAt(px, py) {
    const place = this.view.leafAt(px, py);
    if (!place) return 0n;
    const leaf = this.core.leafAt(...place);
    for (const region of this.regions.filter((it) => it.isShown).reverse()) {
      const found = this.core.holder(region.union, leaf);
      if (found) return found;
    }
    const level = Math.round(Math.log2(this.view.pixelsOf(0) / 24));
    return this.core.parent(leaf, Math.max(0, Math.min(30, level)));
  }

  /** What is known of a cell, in pairs of a word and a text. */
  facts(id) {
    const {face, i, j, size} = this.core.square(id);
    const [longitude, latitude] = this.core.degreesOf(Float64Array.of(face, i + size / 2, j + size / 2));
    const said = (region) => this.core.contains(region.union, id) ? "contains it"
      : this.core.intersects(region.union, id) ? "shares a part of it" : "has none of it";
    return [
      ["token", this.core.token(id)], ["debug text", this.core.debug(id)], ["level", `${this.core.level(id)}`],
      ["leaves", `${this.core.size(id)}`], ["square", `face ${face}, i ${i}, j ${j}, side ${size}`],
      ["middle", `${longitude.toFixed(7)}° east, ${latitude.toFixed(7)}° north`],
      ...this.regions.map((region) => [region.name, said(region)]),
    ];
  }

  point(px, py) {
    return this.mark(this.cellAt(px, py));
  }

  /** Marks a cell and lists what is known of it, which is the answer too; 0n marks none. */
  mark(id) {
    this.view.marked = id ? this.core.square(id) : null;
    const facts = id ? this.facts(id) : [];
    at("cell").replaceChildren(...facts.flatMap(([word, text]) => [element("dt", word), element("dd", text)]));
    return facts;
  }

  // ---- keys, pointers and buttons

  listen() {
    const buttons = {
      add: () => this.addTexts(), undo: () => this.undo(), redo: () => this.redo(),
      sample: () => this.attempt("sample", () => this.add("land", this.core.decode(unpacked(SAMPLE)))),
      union: () => this.ofTwo("or", "union"), intersection: () => this.ofTwo("and", "intersection"),
      difference: () => this.ofTwo("without", "difference"), complement: () => this.complement(),
      symmetric: () => this.ofTwo("xor", "symmetricDifference"), outer: () => this.ofLevel("outer", "outer"),
      inner: () => this.ofLevel("inner", "inner"), denormalise: () => this.denormalise(),
      in: () => this.zoomBy(2), out: () => this.zoomBy(0.5), fit: () => this.showAll(), theme: () => this.turnTheme(),
      go: () => this.goToPlace(), stop: () => this.coverer.end(),
    };
    for (const [id, action] of Object.entries(buttons)) at(id).onclick = action;
    for (const id of ["first", "second"]) at(id).onchange = () => this.chosen(id);
    at("land").onchange = () => this.showLand();
    at("files").onchange = () => {
      this.open(at("files").files);
      at("files").value = "";
    };
    for (const radio of document.getElementsByName("kind")) {
      radio.onchange = () => {
        this.view.kind = radio.value;
        this.draw();
      };
    }
    this.observer = new ResizeObserver(() => this.resize());
    this.observer.observe(at("picture"));
    matchMedia("(prefers-color-scheme: dark)").addEventListener("change", () => this.paint());
    document.addEventListener("keydown", (event) => this.shortcut(event));
    document.addEventListener("paste", (event) => {
      if (!event.target.matches?.("textarea, input")) this.take("what was pasted", event.clipboardData);
    });
    at("place").addEventListener("keydown", (event) => event.key === "Enter" && this.goToPlace());
    this.listenToDrops();
    this.listenToPointers();
    at("picture").addEventListener("keydown", (event) => this.key(event));
  }

  listenToDrops() {
    const body = document.body;
    const set = (event, isOver) => {
      event.preventDefault();
      body.classList.toggle("dropping", isOver);
    };
    body.addEventListener("dragover", (event) => set(event, true));
    body.addEventListener("dragleave", (event) => set(event, false));
    body.addEventListener("drop", (event) => {
      set(event, false);
      this.take("what was dropped", event.dataTransfer);
    });
  }

  listenToPointers() {
    const canvas = at("picture");
    const down = new Map();
    const place = (event) => {
      const ratio = canvas.width / canvas.clientWidth;
      return [event.offsetX * ratio, event.offsetY * ratio];
    };
    canvas.addEventListener("pointerdown", (event) => {
      canvas.setPointerCapture(event.pointerId);
      down.set(event.pointerId, place(event));
    });
    for (const end of ["pointerup", "pointercancel"]) {
      canvas.addEventListener(end, (event) => down.delete(event.pointerId));
    }
    canvas.addEventListener("pointermove", (event) => {
      const now = place(event);
      if (down.has(event.pointerId)) this.drag(down, event.pointerId, now);
      else {
        this.point(...now);
        this.frame ?? requestAnimationFrame(() => this.frame ?? this.view.put());
      }
    });
    canvas.addEventListener("wheel", (event) => {
      event.preventDefault();
      this.view.zoom(Math.exp(-event.deltaY / 400), ...place(event));
      this.moved();
    }, {passive: false});
  }

  /** Moves by one finger, or zooms by two. */
  drag(down, id, now) {
    const before = down.get(id);
    const other = [...down].find(([key]) => key !== id)?.[1];
    down.set(id, now);
    if (other) {
      const distance = ([x, y]) => Math.max(1, Math.hypot(x - other[0], y - other[1]));
      this.view.zoom(distance(now) / distance(before), ...other);
    } else {
      this.view.move(now[0] - before[0], now[1] - before[1]);
    }
    this.moved();
  }

  zoomBy(factor) {
    this.view.zoom(factor, this.view.canvas.width / 2, this.view.canvas.height / 2);
    this.moved();
  }

  showAll() {
    this.view.fit();
    this.moved();
  }

  shortcut(event) {
    if (!(event.ctrlKey || event.metaKey) || event.target.matches("textarea, input")) return;
    const key = event.key.toLowerCase();
    if (key === "z" && !event.shiftKey) this.undo();
    else if (key === "y" || (key === "z" && event.shiftKey)) this.redo();
    else return;
    event.preventDefault();
  }

  key(event) {
    const moves = {ArrowLeft: [60, 0], ArrowRight: [-60, 0], ArrowUp: [0, 60], ArrowDown: [0, -60]};
    if (event.ctrlKey || event.metaKey || event.altKey) return;
    if (event.key in moves) this.view.move(...moves[event.key]);
    else if (event.key === "+" || event.key === "=") this.zoomBy(2);
    else if (event.key === "-") this.zoomBy(0.5);
    else if (event.key === "0") this.showAll();
    else if (event.key === "Enter") this.readMiddle();
    else return;
    event.preventDefault();
    this.moved();
  }
}

const inWords = (facts) => facts.map((pair) => pair.join(" ")).join("; ");

function describe({ids, leaves, note}) {
  return `${ids.length} ${ids.length === 1 ? "cell" : "cells"}, ${leaves} leaves${note}`;
}

/** What is said of the covering of GeoJSON: the levels at borders, and how much larger it is than the polygons. */
function noteOf({levels, times}) {
  const range = [...new Set([levels[0], levels.at(-1)])].join(" to ");
  const border = levels.length ? `; cells at borders are of level ${range}` : "";
  const factor = times < 100 ? `at most ${times.toPrecision(3)} times as large as` : "perhaps much larger than";
  return border + (Number.isNaN(times) ? "" : `; ${factor} the polygons`);
}

/** Whether bytes are a text: no union file is one, since its first byte is 1. */
const isText = (bytes) => bytes.length > 0 && bytes.every((byte) => byte >= 32 || (byte >= 9 && byte <= 13));

/** The bytes of a file, which isn't read if it is too large. */
async function bytesIn(file) {
  if (file.size > MOST_BYTES) throw new Error("too many bytes for the page");
  return new Uint8Array(await file.arrayBuffer());
}

/** What is said of something that was refused or stopped. */
function refusal(what, error) {
  if (error instanceof Stopped) return `${what}: stopped; nothing was added`;
  const where = error.status === -3 ? ` at place ${error.place}` : "";
  return `${what}: refused: ${error.message}${where}`;
}

/** The whole number in a field; one out of range is refused. */
function numberIn(id, least, most) {
  const number = Number(at(id).value);
  if (!Number.isInteger(number) || at(id).value === "" || number < least || number > most) throw new Refusal(-5, 0);
  return number;
}

async function begin() {
  try {
    window.s2page = new Page(await Core.from(unpacked(MODULE)));
  } catch (error) {
    const need = "This browser can't run the page: it needs WebAssembly with 64-bit integers (BigInt).";
    at("status").textContent = `${need} ${error.message}`;
  }
}

begin();
