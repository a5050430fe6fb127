"use strict";
// The coverings of a text of GeoJSON: of each feature by its name, if each has one and they are few, or of all of it.

/** The most features that are covered one by one. */
const MOST_FEATURES = 500;

/** What GeoJSON is covered as: names, each with its features. */
function partsOf(geojson) {
  const parts = new Map();
  for (const it of geojson?.type === "FeatureCollection" ? listed(geojson.features, "features are a list") : []) {
    if (it?.type === "Feature" && !it.geometry) continue;
    const name = String(it?.properties?.name ?? it?.properties?.NAME ?? it?.id ?? "").trim();
    if (parts.get(name)?.push(it) === undefined) parts.set(name, [it]);
  }
  const isByName = parts.size > 1 && parts.size <= MOST_FEATURES && !parts.has("");
  return isByName ? [...parts] : [["", [geojson]]];
}

/** How long the lines of a shape are, in degrees, about. */
function lengthOf({numbers, rings}) {
  let length = 0;
  for (let k = 0, begin = 0; k < rings.length; begin = Number(rings[k]), k += 2) {
    for (let at = 2 * begin + 2; at < 2 * Number(rings[k]); at += 2) {
      const [x, y, toX, toY] = [numbers[at - 2], numbers[at - 1], numbers[at], numbers[at + 1]];
      length += Math.hypot((toX - x) * Math.cos((y + toY) * (Math.PI / 360)), toY - y) || 0;
    }
  }
  return length;
}

/**
 * The coverings of GeoJSON, each with the name of its features, which share AT_BORDERS by the lengths of borders. With
 * each come the levels of its cells at borders, and at most how many times as many leaves as its polygons it has, if it
 * has polygons. `tell` takes how much is done, up to 1.
 */
function coveringsOf(core, geojson, tell) {
  const parts = partsOf(geojson).map(
    ([name, geometries]) => ({name, shape: shapeOf({type: "GeometryCollection", geometries}, true)}));
  const lengths = parts.map(({shape}) => lengthOf(shape));
  const whole = lengths.reduce((sum, it) => sum + it, 0) || 1;
  let done = 0;
  return parts.map(({name, shape}, k) => {
    const most = Math.max(LEAST_EACH, Math.floor(AT_BORDERS * lengths[k] / whole));
    const made = {name, ...describedCovering(core, shape, most)};
    tell(done += lengths[k] / whole);
    return made;
  });
}

function describedCovering(core, shape, most) {
  const {outer, inner} = looselyCovered(core, shape, most, BOTH);
  const isInside = core.containsCells(inner, outer);
  const levels = new Set(Array.from(outer).filter((_, k) => !isInside[k]).map((id) => core.level(id)));
  const times = shape.polygons ? Number(core.leafCount(outer)) / Number(core.leafCount(inner)) : NaN;
  return {ids: outer, levels: [...levels].sort((a, b) => a - b), times};
}
