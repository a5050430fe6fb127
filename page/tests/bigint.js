// The same operations in JavaScript's BigInt, for the figures.
const inBigInt = (() => {
  const low = (id) => id & -id;
  const first = (id) => id - low(id) + 1n;
  const last = (id) => id + low(id) - 1n;

  function intersection(xs, ys) {
    const found = [];
    for (let i = 0, j = 0; i < xs.length && j < ys.length;) {
      const [x, y] = [xs[i], ys[j]];
      if (last(x) < first(y)) i++;
      else if (last(y) < first(x)) j++;
      else if (low(x) < low(y)) found.push(x), i++;
      else found.push(y), j++;
    }
    return BigUint64Array.from(found);
  }

  function append(found, id) {
    if (found.length && last(found[found.length - 1]) >= last(id)) return;
    while (found.length && first(found[found.length - 1]) >= first(id)) found.pop();
    for (;;) {
      const bit = low(id);
      const parent = (id & -(bit << 2n)) | (bit << 2n);
      const n = found.length;
      if (bit === 1n << 60n || n < 3 || id !== parent + 3n * bit) break;
      if (found[n - 3] !== parent - 3n * bit || found[n - 2] !== parent - bit || found[n - 1] !== parent + bit) break;
      found.length -= 3;
      id = parent;
    }
    found.push(id);
  }

  function union(xs, ys) {
    const found = [];
    for (let i = 0, j = 0; i < xs.length || j < ys.length;) {
      append(found, j >= ys.length || (i < xs.length && xs[i] < ys[j]) ? xs[i++] : ys[j++]);
    }
    return BigUint64Array.from(found);
  }

  return {intersection, union};
})();
