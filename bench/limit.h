// What hand-written C++ reaches on the same lists: the same results, and no proof. A list is the identifiers of a union
// unless a comment says another thing. Blocks of a list that need no change are found without branches, and copied
// whole.
#pragma once
#include <cstring>
#include <initializer_list>

#include "workload.h"

namespace limit {

const size_t BLOCK = 64;
const u64 FACES_END = 0xC000000000000000;
const u64 MARKERS = 0x1555555555555555;

inline u64 least(u64 id) { return id - lowest_bit(id) + 1; }
inline u64 most(u64 id) { return id + lowest_bit(id) - 1; }
inline int level_of(u64 id) { return 30 - __builtin_ctzll(id) / 2; }

inline bool is_family(u64 a, u64 b, u64 c, u64 d) {
  if ((a ^ b ^ c) != d) return false;
  u64 bit = lowest_bit(d), mask = ~(6 * bit), place = d & mask;
  return bit != u64{1} << 60 && (a & mask) == place && (b & mask) == place && (c & mask) == place;
}

// Whether each of `n` numbers is a cell.
inline bool are_cells(const u64* ids, size_t n) {
  u64 bad = 0;
  for (size_t k = 0; k < n; k++)
    bad |= static_cast<u64>(ids[k] >= FACES_END) | static_cast<u64>((lowest_bit(ids[k]) & MARKERS) == 0);
  return bad == 0;
}

// Whether the numbers of a block are cells that surely go on a union, the three before them included. False is no
// answer. The last child of a cell is the exclusive-or of the other three, and differs from the first in two bits.
inline bool go_on(const u64* ids) {
  u64 bad = 0;
  for (size_t k = 0; k < BLOCK; k++) {
    const u64* id = ids + k;
    u64 bit = lowest_bit(id[0]);
    bad |= static_cast<u64>(id[0] - bit < id[-1] + lowest_bit(id[-1])) | static_cast<u64>(id[0] >= FACES_END) |
           static_cast<u64>((bit & MARKERS) == 0) |
           (static_cast<u64>((id[-3] ^ id[-2] ^ id[-1]) == id[0]) & static_cast<u64>((id[-3] ^ id[0]) == 6 * bit));
  }
  return bad == 0;
}

// How many of the first numbers are a union: by blocks, and what isn't sure one by one.
inline size_t union_at_front(const u64* ids, size_t n) {
  u64 a = 0, b = 0, c = 0;
  for (size_t k = 0; k < n;) {
    if (k >= 3 && n - k >= BLOCK && go_on(ids + k)) {
      k += BLOCK;
      a = ids[k - 3], b = ids[k - 2], c = ids[k - 1];
      continue;
    }
    for (size_t end = std::min(n, k + BLOCK); k < end; k++) {
      u64 id = ids[k], bit = lowest_bit(id);
      if (id - bit < c + lowest_bit(c) || id >= FACES_END || (bit & MARKERS) == 0 || is_family(a, b, c, id)) return k;
      a = b, b = c, c = id;
    }
  }
  return n;
}

inline bool is_union(const u64* ids, size_t n) { return union_at_front(ids, n) == n; }

// Adds a cell after packed cells that begin before it.
inline u64* place(u64* base, u64* top, u64 id) {
  if (top > base && most(top[-1]) >= id) return top;
  u64 from = least(id);
  while (top > base && top[-1] >= from) top--;
  while (top - base >= 3 && is_family(top[-3], top[-2], top[-1], id)) {
    id = (id & ~(7 * lowest_bit(id))) | 4 * lowest_bit(id);
    top -= 3;
  }
  *top++ = id;
  return top;
}

// Normalizes cells in order, in place.
inline size_t normalise(u64* ids, size_t n) {
  size_t done = union_at_front(ids, n);
  u64* top = ids + done;
  for (size_t i = done, len; i < n; i += len) {
    len = std::min(i < 3 ? 1 : BLOCK, n - i);
    bool same = i >= 3 && top - ids >= 3 && memcmp(top - 3, ids + i - 3, 24) == 0;
    if (same && len == BLOCK && go_on(ids + i)) {
      if (top != ids + i) memmove(top, ids + i, 8 * len);
      top += len;
    } else {
      for (size_t k = i; k < i + len; k++) top = place(ids, top, ids[k]);
    }
  }
  return top - ids;
}

// Sorts by eleven bits at a time, from the lowest; digits that all have are left out.
inline void sort(u64* ids, size_t n, u64* spare) {
  static uint32_t counts[6][2048];
  memset(counts, 0, sizeof counts);
  for (size_t k = 0; k < n; k++)
    for (int digit = 0; digit < 6; digit++) counts[digit][ids[k] >> 11 * digit & 2047]++;
  u64 *from = ids, *to = spare;
  for (int digit = 0; digit < 6; digit++) {
    bool all = false;
    uint32_t at = 0;
    for (uint32_t& count : counts[digit]) {
      all = all || count == n;
      at += count;
      count = at - count;
    }
    if (all) continue;
    for (size_t k = 0; k < n; k++) to[counts[digit][from[k] >> 11 * digit & 2047]++] = from[k];
    std::swap(from, to);
  }
  if (from != ids) memcpy(ids, from, 8 * n);
}

// How many numbers of `xs` are among the first `k` of both lists in order.
inline size_t share_of(const u64* xs, size_t nx, const u64* ys, size_t ny, size_t k) {
  size_t low = k > ny ? k - ny : 0, high = std::min(k, nx);
  while (low < high) {
    size_t middle = (low + high) / 2;
    if (xs[middle] <= ys[k - middle - 1]) {
      low = middle + 1;
    } else {
      high = middle;
    }
  }
  return low;
}

struct Lane {
  const u64 *x, *y;
  u64* out;

  void step(size_t k) {
    u64 p = *x, q = *y;
    bool is_x = p <= q;
    out[k] = is_x ? p : q;
    x += is_x;
    y += !is_x;
  }
};

// Both lists in order: four parts at once, without branches, or whole runs.
inline void merge(const u64* x, size_t nx, const u64* y, size_t ny, u64* out) {
  const size_t PART = 512, RUN = 16;
  while (nx >= 4 * PART && ny >= 4 * PART) {
    size_t taken[5] = {0};
    if (x[PART - 1] < y[0]) {
      memcpy(out, x, 8 * PART);
      taken[4] = PART;
      x += PART, nx -= PART, out += PART;
      continue;
    }
    if (y[PART - 1] < x[0]) {
      memcpy(out, y, 8 * PART);
      y += PART, ny -= PART, out += PART;
      continue;
    }
    for (size_t k = 1; k <= 4; k++) taken[k] = share_of(x, 4 * PART, y, 4 * PART, k * PART);
    Lane lanes[4];
    for (size_t k = 0; k < 4; k++) lanes[k] = {x + taken[k], y + k * PART - taken[k], out + k * PART};
    for (size_t k = 0; k < PART; k++) {
      lanes[0].step(k);
      lanes[1].step(k);
      lanes[2].step(k);
      lanes[3].step(k);
    }
    x += taken[4], nx -= taken[4];
    y += 4 * PART - taken[4], ny -= 4 * PART - taken[4];
    out += 4 * PART;
  }
  while (nx > 0 && ny > 0) {
    if (nx >= RUN && x[RUN - 1] < y[0]) {
      memcpy(out, x, 8 * RUN);
      x += RUN, nx -= RUN, out += RUN;
    } else if (ny >= RUN && y[RUN - 1] < x[0]) {
      memcpy(out, y, 8 * RUN);
      y += RUN, ny -= RUN, out += RUN;
    } else {
      for (size_t k = 0; k < RUN && nx > 0 && ny > 0; k++) {
        bool is_x = *x <= *y;
        *out++ = is_x ? *x : *y;
        x += is_x, nx -= is_x;
        y += !is_x, ny -= !is_x;
      }
    }
  }
  memcpy(out, x, 8 * nx);
  memcpy(out + nx, y, 8 * ny);
}

inline size_t unite(const u64* xs, size_t nx, const u64* ys, size_t ny, u64* out) {
  merge(xs, nx, ys, ny, out);
  return normalise(out, nx + ny);
}

// The first place from `i` on whose cell ends after `from`.
inline size_t leap(const u64* ids, size_t i, size_t n, u64 from) {
  if (i >= n || most(ids[i]) >= from) return i;
  size_t step = 1;
  while (i + step < n && most(ids[i + step]) < from) {
    i += step;
    step *= 2;
  }
  size_t len = std::min(step, n - i);
  while (len > 1) {
    i += most(ids[i + len / 2]) < from ? len / 2 : 0;
    len -= len / 2;
  }
  return i + 1;
}

inline size_t intersect(const u64* xs, size_t nx, const u64* ys, size_t ny, u64* out) {
  const size_t RUN = 16;
  size_t i = 0, j = 0, n = 0;
  while (i < nx && j < ny) {
    if (nx - i > RUN && most(xs[i + RUN - 1]) < least(ys[j])) {
      i = leap(xs, i + RUN - 1, nx, least(ys[j]));
    } else if (ny - j > RUN && most(ys[j + RUN - 1]) < least(xs[i])) {
      j = leap(ys, j + RUN - 1, ny, least(xs[i]));
    } else {
      for (size_t k = 0; k < RUN && i < nx && j < ny; k++) {
        u64 x = xs[i], y = ys[j];
        out[n] = lowest_bit(x) <= lowest_bit(y) ? x : y;
        n += most(x) >= least(y) && most(y) >= least(x);
        i += most(x) <= most(y);
        j += most(y) <= most(x);
      }
    }
  }
  return n;
}

inline bool holds(const u64* ids, size_t n, size_t at, u64 cell) {
  return at < n && cell >= least(ids[at]) && cell <= most(ids[at]);
}

inline bool meets(const u64* xs, size_t nx, const u64* ys, size_t ny) {
  for (size_t i = 0, j = 0; i < nx && j < ny;) {
    if (most(xs[i]) < least(ys[j])) {
      i = leap(xs, i, nx, least(ys[j]));
    } else if (most(ys[j]) < least(xs[i])) {
      j = leap(ys, j, ny, least(xs[i]));
    } else {
      return true;
    }
  }
  return false;
}

inline bool has_all(const u64* xs, size_t nx, const u64* ys, size_t ny) {
  for (size_t i = 0, j = 0; j < ny; j = leap(ys, j, ny, most(xs[i]) + 1)) {
    i = leap(xs, i, nx, least(ys[j]));
    if (!holds(xs, nx, i, ys[j])) return false;
  }
  return true;
}

// The largest cells that fill the leaves from `low` to before `end`.
inline u64* fill(u64 low, u64 end, u64* out) {
  while (low < end) {
    int aligned = low ? __builtin_ctzll(low) & ~1 : 60, wide = (63 - __builtin_clzll(end - low)) & ~1;
    u64 size = u64{1} << std::min({aligned, wide, 60});
    *out++ = 2 * low + size;
    low += size;
  }
  return out;
}

inline size_t subtract(const u64* xs, size_t nx, const u64* ys, size_t ny, u64* out) {
  u64* end = out;
  size_t i = 0, j = 0;
  while (i < nx) {
    j = leap(ys, j, ny, least(xs[i]));
    size_t next = j < ny ? leap(xs, i, nx, least(ys[j])) : nx;
    memcpy(end, xs + i, 8 * (next - i));
    end += next - i;
    i = next;
    if (i == nx) break;
    u64 low = least(xs[i]) / 2, after = most(xs[i]) / 2 + 1;
    for (; j < ny && least(ys[j]) <= most(xs[i]); j++) {
      end = fill(low, least(ys[j]) / 2, end);
      low = std::max(low, most(ys[j]) / 2 + 1);
      if (low >= after) break;
    }
    end = fill(low, after, end);
    i++;
  }
  return end - out;
}

// The union of lists that lie one after another, each from one offset to the next: merged in pairs, between two lists.
inline size_t unite_all(u64* ids, std::vector<size_t> offsets, u64* spare) {
  size_t n = offsets.back();
  u64 *from = ids, *to = spare;
  while (offsets.size() > 2) {
    std::vector<size_t> next = {0};
    for (size_t k = 0; k + 1 < offsets.size(); k += 2) {
      size_t low = offsets[k], middle = offsets[k + 1], high = offsets[std::min(k + 2, offsets.size() - 1)];
      merge(from + low, middle - low, from + middle, high - middle, to + low);
      next.push_back(high);
    }
    offsets = next;
    std::swap(from, to);
  }
  if (from != ids) memcpy(ids, from, 8 * n);
  return normalise(ids, n);
}

// The file, of a list that is known to be a union.
inline size_t encode(const u64* ids, size_t n, uint8_t* out) {
  out[0] = 1;
  memcpy(out + 1, &n, 8);
  memcpy(out + 9, ids, 8 * n);
  return 9 + 8 * n;
}

inline size_t decode(const uint8_t* bytes, size_t size, u64* out) {
  u64 n;
  memcpy(&n, bytes + 1, 8);
  if (bytes[0] != 1 || n != (size - 9) / 8) return 0;
  memcpy(out, bytes + 9, 8 * n);
  if (is_union(out, n)) return n;
  if (!are_cells(out, n)) return 0;
  std::sort(out, out + n);
  return normalise(out, n);
}

inline int wanted_level(int level, int least_level, int step) {
  int from = std::max(level, least_level);
  return std::min(30, from + (step - (from - least_level) % step) % step);
}

inline size_t denormalise(const u64* ids, size_t n, int least_level, int step, u64* out) {
  int bits[31];
  for (int level = 0; level <= 30; level++) bits[level] = 2 * (wanted_level(level, least_level, step) - level);
  u64* end = out;
  for (size_t k = 0; k < n; k++) {
    u64 bit = lowest_bit(ids[k]), small = bit >> bits[level_of(ids[k])];
    for (u64 id = ids[k] - bit + small; id < ids[k] + bit; id += 2 * small) *end++ = id;
  }
  return end - out;
}

// The cells of a union, and the parents at the level of those below it.
inline size_t outer(const u64* ids, size_t n, int level, u64* out) {
  u64* top = out;
  for (size_t k = 0; k < n; k++) {
    u64 id = level_of(ids[k]) > level ? parent_of(ids[k], level) : ids[k];
    if (top == out || top[-1] != id) top = place(out, top, id);
  }
  return top - out;
}

// How many of the cells a union contains: one search each, without branches.
inline u64 count_held(const u64* ids, size_t n, const List& cells) {
  u64 held = 0;
  for (u64 cell : cells) {
    size_t at = 0, len = n;
    while (len > 1) {
      at += most(ids[at + len / 2 - 1]) < least(cell) ? len / 2 : 0;
      len -= len / 2;
    }
    if (n > 0) at += most(ids[at]) < least(cell);
    held += holds(ids, n, at, cell);
  }
  return held;
}

// The same for cells in order: each search begins where the one before ended.
inline u64 count_held_in_order(const u64* ids, size_t n, const List& cells) {
  u64 held = 0;
  size_t at = 0;
  for (u64 cell : cells) {
    at = leap(ids, at, n, least(cell));
    held += holds(ids, n, at, cell);
  }
  return held;
}

}  // namespace limit
