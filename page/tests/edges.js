// The page's answers to rows of tests/model/edges.py: the arguments are the rows without their answers, and the names
// of refusals by what is said of them.
const [rows, names] = arguments;
const {core} = s2page;
const cells = (text) => BigUint64Array.from(text.split(" ").filter(Boolean), (word) => BigInt(`0x${word}`));
const bytes = (text) => Uint8Array.from(text.match(/../g) ?? [], (pair) => parseInt(pair, 16));
const digits = (list) => [...list].map((byte) => byte.toString(16).padStart(2, "0")).join("");
const shown = (list) => [...list].map((id) => id.toString(16)).join(" ");
const cell = (text) => BigInt(`0x${text}`);
const holds = (answer) => (answer ? "yes" : "no");

/** The numbers of a text, as the page reads them from its fields. */
function fields(text, ...ids) {
  const ranges = {level: [0, 30], modulus: [1, 3]};
  text.split(" ").forEach((word, k) => { at(ids[k]).value = word; });
  return ids.map((id) => numberIn(id, ...ranges[id]));
}

const ask = {
  text_of: (name, status) => new Refusal(Number(status), 0).message,
  token: (id) => core.token(cell(id)),
  debug: (id) => core.debug(cell(id)),
  square: (id) => Object.values(core.square(cell(id))).join(" "),
  is_union: (list) => holds(core.isUnion(cells(list))),
  normalise: (list) => shown(core.normalise(cells(list))),
  from_tokens: (text) => {
    const read = TextEncoder.prototype.encode;
    TextEncoder.prototype.encode = () => bytes(text); // also what is no text
    try {
      return shown(core.read(""));
    } finally {
      TextEncoder.prototype.encode = read;
    }
  },
  tokens: (list) => digits(new TextEncoder().encode(core.tokens(cells(list)))),
  encode: (list) => digits(core.encode(cells(list))),
  decode: (data) => shown(core.decode(bytes(data))),
  denormalised: (list, cut) => {
    const [level, modulus] = fields(cut, "level", "modulus");
    if (core.denormalisedCount(cells(list), level, modulus) > BigInt(MOST_CELLS)) return "!many";
    return shown(core.denormalised(cells(list), level, modulus));
  },
  leaf_count: (list) => String(core.leafCount(cells(list))),
  contains_cell: (list, id) => holds(core.contains(cells(list), cell(id))),
  intersects_cell: (list, id) => holds(core.intersects(cells(list), cell(id))),
};
for (const name of ["outer", "inner"]) {
  ask[name] = (list, level) => shown(core[name](cells(list), ...fields(level, "level")));
}
for (const name of ["union", "intersection", "difference"]) {
  ask[name] = (xs, ys) => shown(core[name](cells(xs), cells(ys)));
}

return [Object.keys(ask), rows.filter(([call]) => call in ask).map(([call, ...given]) => {
  try {
    return ask[call](...given);
  } catch (error) {
    const hasPlace = error.status === -3 && ["normalise", "from_tokens"].includes(call);
    return `!${names[error.message] ?? error.message}${hasPlace ? ` ${error.place}` : ""}`;
  }
})];
