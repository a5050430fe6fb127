"use strict";
// The picture: each pixel shows the cells that share a leaf with the square of about a pixel below it. So a cell that
// is smaller than a pixel still shows, and the time depends on the pixels and hardly on the number of cells.

/** The column and row of each face of the unfolded cube, rows downward; and the faces by row and column. */
const PLACES_OF_FACES = [[0, 2], [1, 2], [1, 1], [2, 1], [2, 0], [3, 0]];
const FACE_AT = [[-1, -1, 4, 5], [-1, 2, 3, -1], [0, 1, -1, -1]];
const LEAST_EDGE = 7;
const MOST_BITS_OF_TABLE = 18;
const OPACITY = 0.72;
/** How much of the picture a union has that is shown as closely as it fits. */
const FRAME = 0.9;
/** How much of its color the edge of a cell has. */
const EDGE = 0.6;
/** The least scale for each pixel of the picture's width, and the greatest: a leaf is then 64 pixels wide. */
const SCALES = {faces: [1 / 16, 64 * SIDE], map: [1 / 1440, (64 * SIDE) / 90]};

/** What a list needs to be drawn: the first and the last leaf of each cell, in halves. */
class Drawn {
  constructor(core, ids) {
    this.count = ids.length;
    this.ids = new Uint32Array(ids.buffer, ids.byteOffset, 2 * ids.length);
    this.firsts = new Uint32Array(core.rangeMins(ids).buffer);
    this.lasts = new Uint32Array(core.rangeMaxes(ids).buffer);
    this.shift = 32 - Math.min(MOST_BITS_OF_TABLE, 32 - Math.clz32(this.count | 1));
    this.table = this.beginnings();
    this.row = new Int32Array(0);
    this.forget();
  }

  forget() {
    this.found = -1;
    this.fromUpper = 1; // an empty range
    this.fromLower = this.toUpper = this.toLower = 0;
  }

  /**
   * Where the cells begin whose last leaf has at least these upper bits: a search then takes few steps. There are at
   * most twice as many entries as cells, and two more.
   */
  beginnings() {
    const table = new Uint32Array(2 ** (32 - this.shift) + 1).fill(this.count);
    for (let k = this.count - 1; k >= 0; k--) table[this.lasts[2 * k + 1] >>> this.shift] = k;
    for (let k = table.length - 2; k >= 0; k--) table[k] = Math.min(table[k], table[k + 1]);
    return table;
  }

  /** The cell that shares a leaf with the range of leaves, or -1. Ranges come in an order that is near the last. */
  find(upper, lower, endUpper, endLower) {
    if (isAtLeast(upper, lower, this.fromUpper, this.fromLower)
        && isAtLeast(this.toUpper, this.toLower, endUpper, endLower)) return this.found;
    const k = this.firstEndingFrom(upper, lower);
    const firsts = this.firsts;
    const lasts = this.lasts;
    if (k < this.count && isAtLeast(endUpper, endLower, firsts[2 * k + 1], firsts[2 * k])) {
      this.fromUpper = firsts[2 * k + 1];
      this.fromLower = firsts[2 * k];
      this.toUpper = lasts[2 * k + 1];
      this.toLower = lasts[2 * k];
      return (this.found = k);
    }
    this.fromUpper = k > 0 ? lasts[2 * k - 1] : 0;
    this.fromLower = k > 0 ? lasts[2 * k - 2] + 1 : 0;
    this.toUpper = k < this.count ? firsts[2 * k + 1] : 2 ** 32;
    this.toLower = k < this.count ? firsts[2 * k] - 1 : 0;
    return (this.found = -1);
  }

  /** The first cell whose last leaf is not before a leaf. */
  firstEndingFrom(upper, lower) {
    const lasts = this.lasts;
    let low = this.table[upper >>> this.shift];
    let high = this.table[(upper >>> this.shift) + 1];
    while (low < high) {
      const middle = (low + high) >>> 1;
      if (isAtLeast(lasts[2 * middle + 1], lasts[2 * middle], upper, lower)) high = middle;
      else low = middle + 1;
    }
    return low;
  }

  levelOf(k) {
    const lower = this.ids[2 * k];
    const bit = lower ? 31 - Math.clz32(lower & -lower) : 63 - Math.clz32(this.ids[2 * k + 1] & -this.ids[2 * k + 1]);
    return 30 - (bit >> 1);
  }
}

const isAtLeast = (upper, lower, otherUpper, otherLower) =>
  upper > otherUpper || (upper === otherUpper && lower >= otherLower);

/** A pixel of a color. */
const wordOf = (red, green, blue) => ((255 << 24) | (blue << 16) | (green << 8) | red) >>> 0;

class View {
  constructor(canvas) {
    this.canvas = canvas;
    this.context = canvas.getContext("2d");
    this.hidden = document.createElement("canvas");
    this.kind = "faces";
    this.at = {faces: {x: 2, y: 1.5, scale: 100}, map: {x: 0, y: 0, scale: 2}};
    this.layers = [];
    /** What is drawn pale below all layers, or null. */
    this.land = null;
    this.colors = {ground: [255, 255, 255], face: [240, 242, 245], land: [222, 226, 214], line: "#888", text: "#333",
      mark: "#000"};
    this.marked = null;
    /** The face, s and t of the place that was gone to last, or null. */
    this.goal = null;
    this.step = 1;
  }

  get place() {
    return this.at[this.kind];
  }

  /** Shows all: the middle and the scale that fit. */
  fit() {
    const [width, height] = this.kind === "faces" ? [4.1, 3.2] : [364, 184];
    const scale = Math.min(this.canvas.width / width, this.canvas.height / height);
    Object.assign(this.place, this.kind === "faces" ? {x: 2, y: 1.5, scale} : {x: 0, y: 0, scale});
  }

  /** Moves by pixels, and zooms by a factor about a pixel. */
  move(dx, dy) {
    const sign = this.kind === "faces" ? 1 : -1;
    this.place.x -= dx / this.place.scale;
    this.place.y -= (sign * dy) / this.place.scale;
    this.hold();
  }

  zoom(factor, px, py) {
    const [x, y] = this.worldAt(px, py);
    this.place.scale = this.within(this.place.scale * factor);
    const [newX, newY] = this.worldAt(px, py);
    this.place.x += x - newX;
    this.place.y += y - newY;
    this.hold();
  }

  /** Shows squares, as closely as all of them fit, in both pictures. */
  frame(squares) {
    const parts = [0, 0.5, 1].flatMap((a) => [0, 0.5, 1].map((b) => [a, b]));
    this.inBoth(() => {
      const [x, y] = [[Infinity, -Infinity], [Infinity, -Infinity]];
      for (const {face, i, j, size} of squares) {
        for (const [a, b] of parts) {
          const place = this.planeAt(face, (i + a * size) / SIDE, (j + b * size) / SIDE);
          [x, y].forEach((range, k) => {
            range[0] = Math.min(range[0], place[k]);
            range[1] = Math.max(range[1], place[k]);
          });
        }
      }
      const scale = FRAME * Math.min(this.canvas.width / (x[1] - x[0]), this.canvas.height / (y[1] - y[0]));
      Object.assign(this.place, {x: (x[0] + x[1]) / 2, y: (y[0] + y[1]) / 2, scale: this.within(scale)});
    });
  }

  /** Shows a place of a face in the middle of both pictures, a face this many pixels wide, or at least. */
  center(face, s, t, pixels, isLeast = true) {
    this.inBoth(() => {
      const [x, y] = this.planeAt(face, s, t);
      const wanted = pixels / (this.kind === "faces" ? 1 : 90);
      Object.assign(this.place, {x, y, scale: this.within(isLeast ? Math.max(this.place.scale, wanted) : wanted)});
    });
  }

  /** Does something to each picture. */
  inBoth(action) {
    const shown = this.kind;
    for (this.kind of ["faces", "map"]) action();
    this.kind = shown;
  }

  /** The nearest scale that the picture may have. */
  within(scale) {
    const [least, most] = SCALES[this.kind];
    return Math.max(this.canvas.width * least, Math.min(most, scale));
  }

  hold() {
    const [x0, x1, y0, y1] = this.kind === "faces" ? [0, 4, 0, 3] : [-180, 180, -90, 90];
    this.place.x = Math.min(x1, Math.max(x0, this.place.x));
    this.place.y = Math.min(y1, Math.max(y0, this.place.y));
  }

  /** The place of a pixel: columns and rows of faces, or longitude and latitude. */
  worldAt(px, py) {
    const {x, y, scale} = this.place;
    const sign = this.kind === "faces" ? 1 : -1;
    return [x + (px - this.canvas.width / 2) / scale, y + (sign * (py - this.canvas.height / 2)) / scale];
  }

  /** The place of s and t on a face, as columns and rows of faces, or longitude and latitude. */
  planeAt(face, s, t) {
    if (this.kind === "map") return geographic(face, s, t);
    const [column, row] = PLACES_OF_FACES[face];
    return [column + s, row + 1 - t];
  }

  pixelAt(x, y) {
    const sign = this.kind === "faces" ? 1 : -1;
    return [
      (x - this.place.x) * this.place.scale + this.canvas.width / 2,
      sign * (y - this.place.y) * this.place.scale + this.canvas.height / 2,
    ];
  }

  /** The face and the coordinates of the leaf at a pixel, or null. */
  leafAt(px, py) {
    const [x, y] = this.worldAt(px, py);
    if (this.kind === "faces") {
      const face = FACE_AT[Math.floor(y)]?.[Math.floor(x)] ?? -1;
      return face < 0 ? null : [face, leafCoordinate(x - Math.floor(x)), leafCoordinate(Math.floor(y) + 1 - y)];
    }
    if (Math.abs(x) > 180 || Math.abs(y) > 90) return null;
    const found = [0, 0, 0];
    const [longitude, latitude] = [(x * Math.PI) / 180, (y * Math.PI) / 180];
    const across = Math.cos(latitude);
    faceOf(across * Math.cos(longitude), across * Math.sin(longitude), Math.sin(latitude), found);
    return [found[0], leafCoordinate(found[1]), leafCoordinate(found[2])];
  }

  /** How many pixels wide the side of a cell of a level is, about. */
  pixelsOf(level) {
    return (this.place.scale * (this.kind === "faces" ? 1 : 90)) / 2 ** level;
  }

  /** Draws all, each `step` pixels of a row and a column alike. */
  draw(step = 1) {
    const width = Math.ceil(this.canvas.width / step);
    const height = Math.ceil(this.canvas.height / step);
    if (this.hidden.width !== width || this.hidden.height !== height) {
      Object.assign(this.hidden, {width, height});
      this.image = this.hidden.getContext("2d").createImageData(width, height);
    }
    for (const layer of this.layers) {
      layer.drawn.row = new Int32Array(width).fill(-1);
      layer.drawn.forget();
    }
    this.land?.forget();
    this.begin(step);
    if (this.kind === "faces") this.paintFaces(step, width, height);
    else this.paintMap(step, width, height);
    this.hidden.getContext("2d").putImageData(this.image, 0, 0);
    this.step = step;
    this.put();
  }

  /** Puts the lines and the mark over the pixels that were painted last. */
  put() {
    this.context.imageSmoothingEnabled = false;
    this.context.drawImage(this.hidden, 0, 0, this.hidden.width * this.step, this.hidden.height * this.step);
    this.drawLines();
    this.drawMark();
    this.drawGoal();
  }

  begin(step) {
    this.pixels = new Uint32Array(this.image.data.buffer);
    this.layersShown = this.layers.filter((layer) => layer.isShown);
    this.edgeColors = this.layersShown.map(({color}) => color.map((part) => part * EDGE));
    this.edges = this.layersShown.map(({drawn}) =>
      Uint8Array.from({length: 31}, (_, level) => this.pixelsOf(level) / step >= LEAST_EDGE));
    const level = Math.max(0, Math.min(30, Math.floor(Math.log2(this.pixelsOf(0) / step))));
    this.lastBits = 61 - 2 * level;
    this.half = new Uint32Array(2);
  }

  paintFaces(step, width, height) {
    const columns = Array.from({length: width}, (_, px) => this.worldAt((px + 0.5) * step, 0)[0]);
    for (let py = 0; py < height; py++) {
      const y = this.worldAt(0, (py + 0.5) * step)[1];
      const faces = FACE_AT[Math.floor(y)];
      const j = leafCoordinate(Math.floor(y) + 1 - y);
      for (let px = 0; px < width; px++) {
        const column = Math.floor(columns[px]);
        const face = faces?.[column] ?? -1;
        this.paint(py * width + px, px, face, face < 0 ? 0 : leafCoordinate(columns[px] - column), j);
      }
    }
  }

  paintMap(step, width, height) {
    const longitudes = Array.from({length: width}, (_, px) => this.worldAt((px + 0.5) * step, 0)[0]);
    const cosines = longitudes.map((x) => Math.cos((x * Math.PI) / 180));
    const sines = longitudes.map((x) => Math.sin((x * Math.PI) / 180));
    const found = [0, 0, 0];
    const isWithin = longitudes.map((x) => Math.abs(x) <= 180);
    for (let py = 0; py < height; py++) {
      const latitude = this.worldAt(0, (py + 0.5) * step)[1];
      const across = Math.cos((latitude * Math.PI) / 180);
      const up = Math.sin((latitude * Math.PI) / 180);
      for (let px = 0; px < width; px++) {
        const isOutside = Math.abs(latitude) > 90 || !isWithin[px];
        if (!isOutside) faceOf(across * cosines[px], across * sines[px], up, found);
        this.paint(py * width + px, px, isOutside ? -1 : found[0], leafCoordinate(found[1]), leafCoordinate(found[2]));
      }
    }
  }

  /**
   * Paints one pixel, below which the leaf at a place of a face is; there is none on face -1. Over the ground come the
   * land, and all layers that have a cell there.
   */
  paint(at, px, face, i, j) {
    let [red, green, blue] = face < 0 ? this.colors.ground : this.colors.face;
    if (face >= 0) {
      leafHalves(face, i, j, this.half);
      const bits = this.lastBits;
      const upper = bits >= 32 ? (this.half[1] >>> (bits - 32) << (bits - 32)) >>> 0 : this.half[1];
      const lower = bits >= 32 ? 0 : (this.half[0] >>> bits << bits) >>> 0;
      const endUpper = bits >= 32 ? upper + 2 ** (bits - 32) - 1 : upper;
      const endLower = bits >= 32 ? 2 ** 32 - 1 : lower + 2 ** bits - 1;
      if (this.land && this.land.find(upper, lower, endUpper, endLower) >= 0) [red, green, blue] = this.colors.land;
      for (let k = 0; k < this.layersShown.length; k++) {
        const drawn = this.layersShown[k].drawn;
        const cell = drawn.find(upper, lower, endUpper, endLower);
        const isEdge = (drawn.row[px] !== cell || (px > 0 && drawn.row[px - 1] !== cell))
          && cell >= 0 && this.edges[k][drawn.levelOf(cell)];
        drawn.row[px] = cell;
        if (cell < 0) continue;
        const color = isEdge ? this.edgeColors[k] : this.layersShown[k].color;
        red += (color[0] - red) * OPACITY;
        green += (color[1] - green) * OPACITY;
        blue += (color[2] - blue) * OPACITY;
      }
    }
    this.pixels[at] = wordOf(red, green, blue);
  }

  drawLines() {
    const context = this.context;
    context.strokeStyle = this.colors.line;
    context.fillStyle = this.colors.text;
    context.lineWidth = 1;
    context.font = `${12 * (window.devicePixelRatio || 1)}px sans-serif`;
    if (this.kind === "faces") {
      PLACES_OF_FACES.forEach(([column, row], face) => {
        const [x, y] = this.pixelAt(column, row);
        context.strokeRect(Math.round(x) + 0.5, Math.round(y) + 0.5, this.place.scale, this.place.scale);
        context.fillText(`face ${face}`, x + 5, y + 16 * (window.devicePixelRatio || 1));
      });
      return;
    }
    for (let x = -180; x <= 180; x += 30) this.line([[x, -90], [x, 90]]);
    for (let y = -90; y <= 90; y += 30) this.line([[-180, y], [0, y], [180, y]]);
  }

  line(points) {
    this.context.beginPath();
    let last = null;
    for (const [x, y] of points) {
      const isJump = last !== null && Math.abs(x - last) > 180;
      this.context[last === null || isJump ? "moveTo" : "lineTo"](...this.pixelAt(x, y));
      last = x;
    }
    this.context.stroke();
  }

  /** Draws a ring around the place that was gone to, with a dot in it. */
  drawGoal() {
    if (!this.goal) return;
    const [x, y] = this.pixelAt(...this.planeAt(...this.goal));
    const ratio = window.devicePixelRatio || 1;
    this.context.lineWidth = 2 * ratio;
    for (const [radius, color] of [[9, this.colors.mark], [7, this.colors.goal], [1, this.colors.mark]]) {
      this.context.strokeStyle = color;
      this.context.beginPath();
      this.context.arc(x, y, radius * ratio, 0, 2 * Math.PI);
      this.context.stroke();
    }
  }

  /** Draws the outline of the marked square: its face, least coordinates and side, in leaves. */
  drawMark() {
    if (!this.marked) return;
    const {face, i, j, size} = this.marked;
    const corner = (a, b) => this.planeAt(face, (i + a * size) / SIDE, (j + b * size) / SIDE);
    const side = Array.from({length: 17}, (_, k) => k / 16);
    const points = [...side.map((a) => corner(a, 0)), ...side.map((b) => corner(1, b)),
      ...side.map((a) => corner(1 - a, 1)), ...side.map((b) => corner(0, 1 - b))];
    this.context.strokeStyle = this.colors.mark;
    this.context.lineWidth = 2;
    this.line(points);
  }
}
