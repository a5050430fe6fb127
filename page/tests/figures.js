// Times of a million cells, in milliseconds: the best of five. The last argument takes the lines.
const done = arguments[arguments.length - 1];

/** About a million cells: a random quarter of the cells of level 12 from the first on, and parents of four of them. */
function randomUnion(seed) {
  const ids = [];
  let state = seed;
  for (let id = 1n << 36n; ids.length < 1_050_000; id += 1n << 37n) {
    state = (Math.imul(state, 1664525) + 1013904223) >>> 0;
    if (state < 0x40000000) ids.push(id);
  }
  return s2page.core.normalise(BigUint64Array.from(ids));
}

function best(action) {
  let least = Infinity;
  for (let k = 0; k < 5; k++) {
    const begun = performance.now();
    action();
    least = Math.min(least, performance.now() - begun);
  }
  return `${least.toFixed(1)} ms`;
}

const [xs, ys] = [randomUnion(1), randomUnion(2)];
const lines = [`unions of ${xs.length} and ${ys.length} cells`];
s2page.add("xs", xs);
s2page.add("ys", ys);
const core = s2page.core;
for (const name of ["union", "intersection", "difference"]) {
  lines.push(`${name}: ${best(() => core[name](xs, ys))}`);
}
for (const name of ["union", "intersection"]) {
  const [found, wanted] = [inBigInt[name](xs, ys), core[name](xs, ys)];
  const isSame = found.length === wanted.length && found.every((id, k) => id === wanted[k]);
  lines.push(`${name} in BigInt: ${best(() => inBigInt[name](xs, ys))}${isSame ? "" : ", another result"}`);
}
lines.push(`outer covering at level 9: ${best(() => core.outer(xs, 9))}`);
lines.push(`file checked and read: ${best(() => core.decode(core.encode(xs)))}`);
const {view} = s2page;
for (const kind of ["faces", "map"]) {
  view.kind = kind;
  view.fit();
  for (const [name, scale] of [["all", 1], ["eight times closer", 8]]) {
    view.place.scale *= scale;
    for (const step of [2, 1]) {
      const size = `${view.canvas.width} by ${view.canvas.height}`;
      lines.push(`${kind}, ${name}, ${size}, ${step === 2 ? "in motion" : "at rest"}: ${best(() => view.draw(step))}`);
    }
  }
}
/** How many pictures a second there are while one is moved to and fro. */
async function moving() {
  const begun = performance.now();
  for (let k = 0; k < 90; k++) {
    view.move(k % 30 < 15 ? 8 : -8, 3 * ((k % 2) - 0.5));
    s2page.moved();
    await new Promise(requestAnimationFrame);
  }
  return (90_000 / (performance.now() - begun)).toFixed(0);
}

(async () => {
  for (const kind of ["faces", "map"]) {
    view.kind = kind;
    view.fit();
    lines.push(`${kind}: ${await moving()} pictures a second in motion`);
  }
  done(lines);
})();
