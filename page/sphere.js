"use strict";
// S2's projection in plain floating point, and the curve through the leaves. None of it is proved: it is for pictures.

const SIDE = 2 ** 30;
const SWAP = 1;
const INVERT = 2;
/** For each orientation, which child of a square comes at each place of the curve, as 2 i + j. */
const CHILDREN = [[0, 1, 3, 2], [0, 2, 3, 1], [3, 2, 0, 1], [3, 1, 0, 2]];
const TURNS = [SWAP, 0, 0, SWAP | INVERT];
/** Four levels of the curve at once: from orientation, i and j to the place and the next orientation. */
const FOUR_LEVELS = fourLevels();

function fourLevels() {
  const table = new Uint16Array(4 << 8);
  for (let key = 0; key < table.length; key++) {
    let turn = key >> 8;
    let place = 0;
    for (let bit = 3; bit >= 0; bit--) {
      const child = CHILDREN[turn].indexOf((((key >> (4 + bit)) & 1) << 1) | ((key >> bit) & 1));
      place = (place << 2) | child;
      turn ^= TURNS[child];
    }
    table[key] = (place << 2) | turn;
  }
  return table;
}

/** The identifier of the leaf at a place on a face, as two halves in `out`: the lower, then the upper. */
function leafHalves(face, i, j, out) {
  let turn = face & SWAP;
  let upper = 0;
  let lower = 0;
  for (let shift = 28; shift >= 0; shift -= 4) {
    const found = FOUR_LEVELS[(turn << 8) | (((i >>> shift) & 15) << 4) | ((j >>> shift) & 15)];
    turn = found & 3;
    if (shift >= 16) upper = (upper << 8) | (found >> 2);
    else lower = (lower << 8) | (found >> 2);
  }
  out[1] = ((face << 29) | (upper << 1) | (lower >>> 31)) >>> 0;
  out[0] = ((lower << 1) | 1) >>> 0;
}

const toUv = (s) => (s >= 0.5 ? (4 * s * s - 1) / 3 : (1 - 4 * (1 - s) * (1 - s)) / 3);
const toSt = (u) => (u >= 0 ? 0.5 * Math.sqrt(1 + 3 * u) : 1 - 0.5 * Math.sqrt(1 - 3 * u));
const degrees = (radians) => (radians * 180) / Math.PI;

/** The point in the direction of s and t, 0 to 1, on a face. */
function pointAt(face, s, t) {
  const u = toUv(s);
  const v = toUv(t);
  switch (face) {
    case 0: return [1, u, v];
    case 1: return [-u, 1, v];
    case 2: return [-u, -v, 1];
    case 3: return [-1, -v, -u];
    case 4: return [v, -1, -u];
    default: return [v, u, -1];
  }
}

/** The longitude and the latitude of s and t on a face, in degrees. */
function geographic(face, s, t) {
  const [x, y, z] = pointAt(face, s, t);
  return [degrees(Math.atan2(y, x)), degrees(Math.atan2(z, Math.hypot(x, y)))];
}

/** The face of a direction, and s and t there, in `out`. */
function faceOf(x, y, z, out) {
  const a = Math.abs(x);
  const b = Math.abs(y);
  const c = Math.abs(z);
  if (a > b && a > c) place(x > 0 ? 0 : 3, x > 0 ? y / x : z / x, x > 0 ? z / x : y / x, out);
  else if (b > c) place(y > 0 ? 1 : 4, y > 0 ? -x / y : z / y, y > 0 ? z / y : -x / y, out);
  else place(z > 0 ? 2 : 5, z > 0 ? -x / z : -y / z, z > 0 ? -y / z : -x / z, out);
}

function place(face, u, v, out) {
  out[0] = face;
  out[1] = toSt(u);
  out[2] = toSt(v);
}

const leafCoordinate = (s) => Math.min(SIDE - 1, Math.max(0, Math.floor(s * SIDE)));
