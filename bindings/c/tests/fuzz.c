/* Each call of the header with lists, texts, files and arguments that libFuzzer makes: real unions, unions with a
 * number spoiled, cells in any order, numbers that are no cells, lengths of 0 with no pointer. Whatever they are, what
 * the header promises has to hold: the statuses, the bounds on *len, what is not touched, and not a byte read or
 * written past a list: each ends at a page which may not be touched. bindings/c/tests/check.sh builds it. */
#include <math.h>
#include "calls.h"
#include "tests.h"

enum { MOST = 48, BYTES = 9 + 8 * MOST, TEXT = 17 * MOST };

/* Statuses and lengths that came up, which libFuzzer counts like code that was reached. */
__attribute__((section("__libfuzzer_extra_counters"))) static uint8_t counters[64 * 64];

static const uint8_t* input;
static size_t left;
static uint64_t *xs_end, *ys_end, *out_end;
static uint8_t *bytes_end, *answers_end;
static char* text_end;

static void must(int holds, const char* what) {
  if (holds) return;
  fprintf(stderr, "FAILED: %s\n", what);
  abort();
}
#define MUST(holds) must((holds), __FILE__ ": " #holds)

static uint8_t byte(void) { return left ? left--, *input++ : 0; }

static uint64_t number(void) {
  uint64_t all = 0;
  for (int k = 0; k < 8; k++) all = all << 8 | byte();
  return all;
}

/* A cell in place of a number: its level by the lowest bits. */
static uint64_t cell_of(uint64_t any) {
  uint64_t bit = (uint64_t)1 << (2 * (any % 31)), face = (any >> 61) % 6;
  return ((((any & 0x1fffffffffffffff) | face << 61) & ~(2 * bit - 1)) | bit);
}

/* One of the cells of levels 27 to 30 in a cell of level 26, so that families come up. */
static uint64_t near_cell(uint8_t any) {
  uint64_t bit = (uint64_t)1 << (2 * (any % 4)), place = (uint64_t)(any >> 2) << 3;
  return (0x2345678900000000 & ~(2 * bit - 1)) | (place & ~(2 * bit - 1)) | bit;
}

static int by_number(const void* a, const void* b) {
  uint64_t x = *(const uint64_t*)a, y = *(const uint64_t*)b;
  return (x > y) - (x < y);
}

/* A list before `end`; its length. */
static size_t list_before(uint64_t* end, size_t most) {
  uint8_t kind = byte();
  size_t n = byte() % (most + 1), len;
  uint64_t* ids = end - n;
  for (size_t k = 0; k < n; k++) {
    ids[k] = kind % 8 == 0 ? number() : kind % 8 < 4 ? near_cell(byte()) : cell_of(number());
  }
  if (kind % 8 == 1 || kind % 8 == 4) return n;
  qsort(ids, n, 8, by_number);
  if (kind % 8 == 0 || kind % 8 == 5) return n;
  MUST(s2u_normalise(ids, n, &len) == S2U_OK && len <= n && s2u_is_union(ids, len) == 1);
  memmove(end - len, ids, 8 * len);
  if (kind % 8 == 7 && len > 0) end[-1 - (byte() % (int)len)] = number();
  return len;
}

static uint64_t some_number(void) {
  uint8_t kind = byte();
  return kind % 3 == 0 ? number() : kind % 3 == 1 ? cell_of(number()) : near_cell(byte());
}

static void seen(int call, int32_t status, size_t len) {
  int bits = len ? 64 - __builtin_clzll(len) : 0;
  counters[call * 64 + (status < 0 ? (-status & 15) : 16 + status % 16)] = 1;
  counters[call * 64 + 32 + bits % 32] = 1;
}

static int is_answer(int32_t status) { return status == 0 || status == 1; }
static int is_frame(int32_t status) { return status <= S2U_FILE_SHORT && status >= S2U_FILE_TRAILING; }

static size_t room;
static const uint64_t OLD = 0x5a5a5a5a5a5a5a5a;

static uint64_t* fresh(void) {
  room = byte() % (MOST + 1);
  for (size_t k = 0; k < MOST; k++) out_end[-1 - (int)k] = OLD;
  return room == 0 && byte() % 2 ? NULL : out_end - room;
}

/* What a call left in `out`: all of it, from `len` on if it made a list, unless it was short of room. */
static void left_alone(int32_t status, size_t len) {
  const uint64_t* out = out_end - room;
  for (size_t k = status == S2U_OK ? len : 0; k < room; k++) MUST(out[k] == OLD);
  for (const uint64_t* at = out_end - MOST; at < out; at++) MUST(*at == OLD);
}

/* The rules for a call that makes a list and can't run out of memory. */
static void made(int call, int32_t status, size_t len, uint64_t most) {
  seen(call, status, len);
  if (status == S2U_OK) {
    MUST(len <= room && len <= most);
    left_alone(status, len);
  } else if (status == S2U_ROOM) {
    MUST(len > room && len <= most);
  } else {
    MUST(len == 0);
    left_alone(status, len);
  }
}

/* ---- groups of calls */

static void cells(void) {
  uint64_t a = some_number(), b = some_number(), id = 77;
  uint32_t small = byte() % 40, i = (uint32_t)number(), j = (uint32_t)number();
  int real = s2u_is_cell(a), both = real && s2u_is_cell(b);
  MUST(is_answer(real));
  MUST(real ? s2u_level(a) >= 0 && s2u_level(a) <= 30 : s2u_level(a) == S2U_NO_CELL);
  MUST(real ? s2u_face(a) >= 0 && s2u_face(a) <= 5 : s2u_face(a) == S2U_NO_CELL);
  uint64_t made_of[] = {s2u_parent(a, small),      s2u_child(a, small), s2u_range_min(a),
                        s2u_range_max(a),          s2u_next(a),         s2u_prev(a),
                        s2u_common_ancestor(a, b), s2u_from_face_ij(small, i, j)};
  for (size_t k = 0; k < sizeof made_of / sizeof *made_of; k++) {
    MUST(made_of[k] == 0 || s2u_is_cell(made_of[k]));
    MUST(real || k == 7 || made_of[k] == 0);
  }
  MUST(real ? s2u_size(a) >= 1 && s2u_size(a) <= (uint64_t)1 << 60 : s2u_size(a) == 0);
  MUST(both ? is_answer(s2u_cell_contains(a, b)) : s2u_cell_contains(a, b) == S2U_NO_CELL);
  MUST(both ? is_answer(s2u_cell_intersects(a, b)) : s2u_cell_intersects(a, b) == S2U_NO_CELL);
  s2u_square square = {9, 9, 9, 9};
  MUST(s2u_square_of(a, &square) == (real ? S2U_OK : S2U_NO_CELL) && (square.face == 9) == !real);
  for (size_t little = 0; little <= S2U_MOST_DEBUG; little++) {
    char* text = text_end - little;
    size_t len = 77;
    int32_t status = s2u_token(a, little ? text : NULL, little, &len);
    MUST(real ? status == (len > little ? S2U_ROOM : S2U_OK) && len <= S2U_MOST_TOKEN : status == S2U_NO_CELL && !len);
    if (status == S2U_OK) MUST(s2u_from_token(text, len, &id) == S2U_OK && id == a);
    status = s2u_debug(a, little ? text : NULL, little, &len);
    MUST(real ? status == (len > little ? S2U_ROOM : S2U_OK) && len <= S2U_MOST_DEBUG : status == S2U_NO_CELL && !len);
    if (status == S2U_OK) MUST(s2u_from_debug(text, len, &id) == S2U_OK && id == a);
  }
}

static void texts(void) {
  static const char usual[] = "0123456789abcdefXF /,\n\t";
  uint8_t kind = byte();
  size_t n = byte() % 200, len = 77;
  char* text = text_end - n;
  uint64_t id = 77;
  for (size_t k = 0; k < n; k++) text[k] = (char)(kind % 4 ? usual[byte() % (sizeof usual - 1)] : byte());
  int32_t status = s2u_from_token(n ? text : NULL, n, &id);
  MUST(status == S2U_OK ? s2u_is_cell(id) == 1 : status == S2U_NO_CELL && id == 0);
  status = s2u_from_debug(text, n, &id);
  MUST(status == S2U_OK ? s2u_is_cell(id) == 1 : status == S2U_NO_CELL && id == 0);
  status = s2u_from_tokens(text, n, fresh(), room, &len);
  seen(1, status, len);
  if (status == S2U_NO_CELL) MUST(len < n);
  else MUST(len <= S2U_MOST_NAMED(n) && status == (len > room ? S2U_ROOM : S2U_OK));
  left_alone(status, len);
  size_t count = list_before(xs_end, MOST), space = 17 * (size_t)(byte() % (MOST + 1));
  status = s2u_tokens(xs_end - count, count, text_end - space, space, &len);
  seen(2, status, len);
  MUST(status == S2U_NO_CELL ? len == 0 : status == (len > space ? S2U_ROOM : S2U_OK) && len <= S2U_MOST_TOKENS(count));
}

static void questions(void) {
  size_t nx = list_before(xs_end, MOST), ny = list_before(ys_end, MOST), first, count, bad = 77;
  const uint64_t *xs = nx ? xs_end - nx : NULL, *ys = ny ? ys_end - ny : NULL;
  uint64_t cell = some_number();
  int real = s2u_is_cell(cell);
  int32_t status = s2u_is_union(xs, nx);
  MUST(is_answer(status));
  seen(3, status, nx);
  MUST(s2u_leaf_count(xs, nx) <= 6 * ((uint64_t)1 << 60) || !status);
  MUST(real ? is_answer(s2u_contains_cell(xs, nx, cell)) : s2u_contains_cell(xs, nx, cell) == S2U_NO_CELL);
  MUST(real ? is_answer(s2u_intersects_cell(xs, nx, cell)) : s2u_intersects_cell(xs, nx, cell) == S2U_NO_CELL);
  MUST(s2u_cells_at(xs, nx, cell, &first, &count) == (real ? S2U_OK : S2U_NO_CELL));
  MUST(first <= nx && count <= nx - first && (real || first + count == 0));
  MUST(is_answer(s2u_contains(xs, nx, ys, ny)) && is_answer(s2u_intersects(xs, nx, ys, ny)));
  seen(4, s2u_contains(xs, nx, ys, ny), ny);
  seen(5, s2u_intersects(xs, nx, ys, ny), ny);
  MUST(s2u_compare(xs, nx, ys, ny) == -s2u_compare(ys, ny, xs, nx));
  size_t space = byte() % (MOST + 1);
  for (int call = 0; call < 2; call++) {
    memset(answers_end - MOST, 7, MOST);
    status = (call ? s2u_contains_cells : s2u_intersects_cells)(xs, nx, ys, ny, answers_end - space, space, &bad);
    seen(6 + call, status, bad);
    MUST(status == S2U_OK || status == S2U_ROOM ? bad == ny && (status == S2U_OK) == (ny <= space)
                                                : status == S2U_NO_CELL && bad < ny && !s2u_is_cell(ys[bad]));
    for (size_t k = 0; k < space; k++) {
      MUST(status == S2U_OK && k < ny ? answers_end[(ptrdiff_t)k - (ptrdiff_t)space] <= 1
                                      : answers_end[(ptrdiff_t)k - (ptrdiff_t)space] == 7);
    }
  }
}

static void sets(void) {
  typedef int32_t set_call(const uint64_t*, size_t, const uint64_t*, size_t, uint64_t*, size_t, size_t*);
  typedef int32_t own_call(const uint64_t*, size_t, uint64_t*, size_t, size_t*);
#define CALL(name, most) s2u_##name,
#define BOUND(name, most) most,
  static set_call* const of_two[] = {CALLS_OF_TWO_UNIONS(CALL)};
  static own_call* const of_one[] = {CALLS_OF_A_UNION(CALL)};
  size_t nx = list_before(xs_end, MOST), ny = list_before(ys_end, MOST), n = nx, len = 77;
  const uint64_t bounds_of_two[] = {CALLS_OF_TWO_UNIONS(BOUND)}, bounds_of_one[] = {CALLS_OF_A_UNION(BOUND)};
  const uint64_t *xs = nx ? xs_end - nx : NULL, *ys = ny ? ys_end - ny : NULL;
  int real = s2u_is_union(xs, nx) && s2u_is_union(ys, ny);
  for (size_t call = 0; call < sizeof of_two / sizeof *of_two; call++) {
    uint64_t* out = fresh();
    int32_t status = of_two[call](xs, nx, ys, ny, out, room, &len);
    MUST(status == S2U_OK || status == S2U_ROOM);
    made(32 + (int)call, status, len, bounds_of_two[call]);
    MUST(!real || status != S2U_OK || s2u_is_union(out, len) == 1);
  }
  for (size_t call = 0; call < sizeof of_one / sizeof *of_one; call++) {
    int32_t status = of_one[call](xs, nx, fresh(), room, &len);
    MUST(status == S2U_OK || status == S2U_ROOM);
    made(48 + (int)call, status, len, bounds_of_one[call]);
  }
  uint64_t first = some_number(), last = some_number();
  uint64_t* out = fresh();
  int32_t status = s2u_range(first, last, out, room, &len);
  MUST(status != S2U_NO_CELL || !s2u_is_cell(first) || !s2u_is_cell(last));
  made(11, status, len, S2U_MOST_RANGE);
  MUST(status != S2U_OK || s2u_is_union(out, len) == 1);
}

static void making(void) {
  size_t n = list_before(xs_end, MOST), len = 77;
  const uint64_t* xs = n ? xs_end - n : NULL;
  uint64_t many = 77, *copy = ys_end - n;
  memcpy(copy, xs_end - n, 8 * n);
  int32_t status = s2u_normalise(n ? copy : NULL, n, &len);
  seen(12, status, len);
  MUST(status == S2U_OK ? len <= n && s2u_is_union(copy, len) == 1
                        : status == S2U_NO_CELL && len < n && !s2u_is_cell(copy[len]));
  MUST(status == S2U_OK || memcmp(copy, xs_end - n, 8 * n) == 0);
  uint32_t least = byte() % 33, modulus = byte() % 5;
  int fit = least <= 30 && modulus >= 1 && modulus <= 3;
  MUST(s2u_denormalised_len(xs, n, least, modulus, &many) == (fit ? S2U_OK : S2U_ARGUMENT));
  status = s2u_denormalised(xs, n, least, modulus, fresh(), room, &len);
  MUST(fit ? status == S2U_OK || status == S2U_ROOM : status == S2U_ARGUMENT);
  made(13, status, len, UINT64_MAX);
  MUST(len == many);
}

/* Lists in one array that end at any places, with room to work that may be too short. */
static void many(void) {
  size_t n = list_before(xs_end, MOST), len = 77, ends[4], lists = byte() % 5, before = 0;
  const uint64_t* xs = n ? xs_end - n : NULL;
  static uint64_t work[2 * MOST];
  size_t work_room = byte() % 8 ? 2 * n : byte() % (2 * MOST);
  int fit = work_room / 2 >= n && (lists || n == 0);
  for (size_t k = 0; k < lists; k++) {
    ends[k] = k + 1 == lists && byte() % 8 ? n : byte() % 4 ? before + byte() % (n + 1) : (size_t)number();
    fit = fit && ends[k] >= before;
    before = ends[k];
  }
  fit = fit && before == n;
  uint64_t* out = fresh();
  int32_t status = s2u_union_of_many(xs, n, ends, lists, work, work_room, out, room, &len);
  if (status == S2U_NO_CELL) {
    MUST(fit && len < n && !s2u_is_cell(xs[len]));
  } else {
    MUST(fit ? status == S2U_OK || status == S2U_ROOM : status == S2U_ARGUMENT && len == 0);
    MUST(status != S2U_OK || (len <= room && s2u_is_union(out, len) == 1));
  }
}

/* The cells or the leaves that a call answers for each number of a list, beside those of the call for one. */
static void relatives(const uint64_t* xs, size_t n, uint32_t level) {
  for (int call = 0; call < 3; call++) {
    uint64_t* out = fresh();
    size_t bad = 77, first = 0;
    int32_t status = call == 0   ? s2u_parents(xs, n, level, out, room, &bad)
                     : call == 1 ? s2u_range_mins(xs, n, out, room, &bad)
                                 : s2u_range_maxes(xs, n, out, room, &bad);
    MUST(status == (n > room ? S2U_ROOM : S2U_OK));
    left_alone(status, n);
    seen(23 + call, status, bad);
    for (size_t k = n; status == S2U_OK && k-- > 0;) {
      uint64_t one = call == 0 ? s2u_parent(xs[k], level) : call == 1 ? s2u_range_min(xs[k]) : s2u_range_max(xs[k]);
      MUST(out[k] == one);
      first = one == 0 ? k + 1 : first;
    }
    MUST(bad == (first ? first - 1 : n));
  }
}

/* The levels, and the tokens in their fields. */
static void levels_and_fields(const uint64_t* xs, size_t n) {
  size_t space = byte() % (MOST + 1), bytes = (size_t)(number() % (TEXT + 1)), bad = 77, len, first = n;
  uint8_t* levels = answers_end - space;
  memset(answers_end - MOST, 254, MOST);
  int32_t status = s2u_levels(xs, n, space ? levels : NULL, space, &bad);
  MUST(status == (n > space ? S2U_ROOM : S2U_OK));
  seen(26, status, bad);
  for (size_t k = n; k-- > 0;) first = s2u_is_cell(xs[k]) ? first : k;
  MUST(bad == (status == S2U_OK ? first : n));
  for (size_t k = 0; k < space; k++) {
    int level = status == S2U_OK && k < n ? s2u_level(xs[k]) : 254;
    MUST(levels[k] == (level < 0 ? S2U_NO_LEVEL : level));
  }
  char* text = text_end - bytes;
  memset(text_end - TEXT, '?', TEXT);
  status = s2u_token_fields(xs, n, bytes ? text : NULL, bytes, &bad);
  MUST(status == (n > bytes / S2U_MOST_TOKEN ? S2U_ROOM : S2U_OK));
  seen(27, status, bad);
  MUST(bad == (status == S2U_OK ? first : n));
  for (size_t k = 0; k < bytes / S2U_MOST_TOKEN; k++) {
    char field[S2U_MOST_TOKEN] = {0};
    if (status != S2U_OK || k >= n) memset(field, '?', sizeof field);
    else if (s2u_token(xs[k], field, sizeof field, &len) != S2U_OK) memset(field, 0, sizeof field);
    MUST(memcmp(text + S2U_MOST_TOKEN * k, field, sizeof field) == 0);
  }
}

/* Calls for many cells or points. */
static void each(void) {
  size_t n = list_before(xs_end, MOST), bad = 77, first = 0;
  const uint64_t* xs = n ? xs_end - n : NULL;
  relatives(xs, n, byte() % 33);
  levels_and_fields(xs, n);
  n = byte() % (8 * MOST / sizeof(s2u_point) + 1);
  s2u_point* points = (s2u_point*)ys_end - n;
  uint32_t mask = byte() % 2 ? 0xffffffff : 0x3fffffff;
  for (size_t k = 0; k < n; k++) {
    points[k] = (s2u_point){byte() % 7, (uint32_t)number() & mask, (uint32_t)number() & mask};
  }
  uint64_t* out = fresh();
  int32_t status = s2u_from_points(n ? points : NULL, n, out, room, &bad);
  MUST(status == (n > room ? S2U_ROOM : S2U_OK));
  left_alone(status, n);
  seen(28, status, bad);
  for (size_t k = n; status == S2U_OK && k-- > 0;) {
    MUST(out[k] == s2u_from_face_ij(points[k].face, points[k].i, points[k].j));
    first = out[k] == 0 ? k + 1 : first;
  }
  MUST(bad == (first ? first - 1 : n));
}

static void coverings(void) {
  size_t n = list_before(xs_end, MOST), len = 77, most = byte() % 70;
  const uint64_t* xs = n ? xs_end - n : NULL;
  uint32_t level = byte() % 33;
  uint64_t* out;
  int real = s2u_is_union(xs, n);
  for (int call = 0; call < 2; call++) {
    out = fresh();
    int32_t status = (call ? s2u_outer_of : s2u_inner_of)(xs, n, level, most, out, room, &len);
    MUST(level > 30 ? status == S2U_ARGUMENT : status == S2U_OK || status == S2U_ROOM || status == S2U_MANY);
    if (real || status != S2U_MANY) made(15 + call, status, len, most);
    MUST(!real || status != S2U_OK || s2u_is_union(out, len) == 1);
  }
  uint32_t mask = byte() % 2 ? 0xffffffff : 0x3fffffff;
  s2u_rect rect = {byte() % 7, (uint32_t)number() & mask, (uint32_t)number() & mask, (uint32_t)number() & mask,
                   (uint32_t)number() & mask};
  int fit = level <= 30 && rect.face <= 5 && rect.i0 <= rect.i1 && rect.j0 <= rect.j1 && rect.i1 >> 30 == 0 &&
            rect.j1 >> 30 == 0;
  for (int call = 0; call < 2; call++) {
    out = fresh();
    int32_t status = (call ? s2u_outer : s2u_inner)(&rect, level, most, out, room, &len);
    MUST(fit ? status == S2U_OK || status == S2U_ROOM || status == S2U_MANY : status == S2U_ARGUMENT);
    made(17 + call, status, len, most);
    MUST(status != S2U_OK || s2u_is_union(out, len) == 1);
  }
  for (int call = 0; call < 2; call++) {
    out = fresh();
    int32_t status = (call ? s2u_outer_in : s2u_inner_in)(xs, n, &rect, level, most, out, room, &len);
    MUST(fit ? status == S2U_OK || status == S2U_ROOM || status == S2U_MANY : status == S2U_ARGUMENT);
    made(29 + call, status, len, most);
    if (status == S2U_ROOM) left_alone(status, len);
    MUST(status != S2U_OK || s2u_is_union(out, len) == 1);
  }
}

/* Whether a call for a covering of a polygon may answer so: by its answer, or by a fault with its place. */
static int is_of_polygon(int32_t status, size_t len, size_t n, size_t rings) {
  if (status == S2U_CORNER) return len < n;
  if (status == S2U_RING) return len < rings || len == 0;
  return status == S2U_OK || status == S2U_ROOM || (status == S2U_MANY && len == 0);
}

/* That a call for two coverings leaves what the calls for each leave, and has the first of their statuses that is a
 * refusal. */
static void both_coverings(const s2u_direction* corners, size_t n, const size_t* ends, size_t rings, uint64_t outside,
                           uint64_t margin, uint32_t least, uint32_t deepest, size_t most) {
  uint64_t *outer = fresh(), apart[2][MOST], inner[MOST];
  size_t lens[] = {77, 77}, outer_len = 77, inner_len = 77, inner_room = byte() % (MOST + 1);
  for (size_t k = 0; k < MOST; k++) apart[0][k] = apart[1][k] = inner[k] = OLD;
  int32_t first = s2u_polygon_outer_up_to(corners, n, ends, rings, outside, margin, least, deepest, most, apart[0],
                                          room, &lens[0]);
  int32_t second = s2u_polygon_inner_up_to(corners, n, ends, rings, outside, margin, least, deepest, most, apart[1],
                                           inner_room, &lens[1]);
  int32_t status = s2u_polygon_coverings_up_to(corners, n, ends, rings, outside, margin, least, deepest, most, outer,
                                               room, &outer_len, inner, inner_room, &inner_len);
  seen(40, status, outer_len);
  MUST(status == (first == S2U_OK ? second : first) && outer_len == lens[0] && inner_len == lens[1]);
  MUST(memcmp(out_end - room, apart[0], 8 * room) == 0 && memcmp(inner, apart[1], sizeof inner) == 0);
}

/* Coverings of a polygon of any corners and ends; the levels are such as few cells are looked into. */
static void polygons(void) {
  size_t n = byte() % (MOST / 3 + 1), rings = byte() % 4, len = 77, most = byte() % 70;
  s2u_direction* corners = (s2u_direction*)(void*)xs_end - n;
  size_t* ends = (size_t*)(void*)ys_end - rings;
  uint8_t kind = byte();
  for (size_t k = 0; k < n; k++) {
    int64_t* words[] = {&corners[k].x, &corners[k].y, &corners[k].z};
    for (size_t a = 0; a < 3; a++) *words[a] = kind % 4 ? (int8_t)byte() : (int64_t)number() >> byte() % 64;
  }
  for (size_t k = 0; k < rings; k++) ends[k] = kind % 8 ? n * (k + 1) / rings : byte();
  uint64_t outside = kind % 16 ? s2u_range_min(some_number()) : some_number();
  uint64_t margin = kind % 3 ? 0 : number() >> byte() % 64;
  uint32_t deepest = byte() % 8 ? byte() % 8 : 31, least = byte() % 8;
  int has_leaf = s2u_level(outside) == 30 && margin >> 60 <= (margin << 4 == 0);
  for (int call = 0; call < 4; call++) {
    uint64_t* out = fresh();
    const s2u_direction* at = n ? corners : NULL;
    const size_t* to = rings ? ends : NULL;
    int32_t status =
        call < 2 ? (call ? s2u_polygon_outer : s2u_polygon_inner)(at, n, to, rings, outside, margin, deepest, most, out,
                                                                  room, &len)
                 : (call == 2 ? s2u_polygon_outer_up_to : s2u_polygon_inner_up_to)(
                       at, n, to, rings, outside, margin, least, deepest, most, out, room, &len);
    int is_asked = has_leaf && deepest <= 30 && (call < 2 || least <= deepest);
    MUST(is_asked ? is_of_polygon(status, len, n, rings) : status == S2U_ARGUMENT && len == 0);
    seen(31 + call, status, len);
    left_alone(status, len);
    MUST(status != S2U_OK || (len <= room && (call >= 2 || (len <= most && s2u_is_union(out, len) == 1))));
    MUST(status != S2U_ROOM || len > room);
  }
  both_coverings(n ? corners : NULL, n, rings ? ends : NULL, rings, outside, margin, least, deepest, most);
}

/* The lists of a shape in a text or in bytes: its places lie on the map, and its rings end one after the other. */
static void read_lists(int is_text, const void* given, size_t n, size_t room) {
  static s2u_place places[BYTES];
  static s2u_ring rings[BYTES];
  size_t len = 77, ends = 77, most = is_text ? S2U_MOST_SHAPE_GEOJSON(n) : S2U_MOST_SHAPE_WKB(n), begin = 0;
  s2u_shape_fault fault = {99, 99, 99, 99, 99};
  room = room > BYTES ? BYTES : room;
  int32_t status = is_text ? s2u_shape_geojson(given, n, places, room, &len, rings, room, &ends, &fault)
                           : s2u_shape_wkb(given, n, places, room, &len, rings, room, &ends, &fault);
  MUST(status == S2U_OK || status == S2U_ROOM || status == S2U_SHAPE);
  MUST(len <= most && ends <= len && (status == S2U_ROOM) == (len > room) && (status == S2U_OK || room < len || !len));
  MUST((status == S2U_SHAPE) == (fault.name != 99) && (fault.name == 99 || fault.name <= S2U_FAULT_RANGE));
  seen(39 + is_text, status, status == S2U_SHAPE ? fault.name : len);
  if (status != S2U_OK) return;
  for (size_t k = 0; k < len; k++)
    MUST(places[k].longitude >= -540 && places[k].longitude <= 540 && places[k].latitude >= -90 &&
         places[k].latitude <= 90);
  for (size_t k = 0; k < ends; begin = rings[k++].end)
    MUST(rings[k].end > begin && rings[k].end <= len && (rings[k].polygon == UINT64_MAX || rings[k].polygon <= n));
  MUST(begin == len);
}

/* Coverings of the shape in any bytes; some begin as a ring does, and texts have few characters that GeoJSON lacks. */
static void shapes(void) {
  static const char ring[] = "{\"type\":\"Polygon\",\"coordinates\":[[";
  static const char some[] = "0123456789.,-[]{}\"e:";
  static const uint8_t head[] = {1, 3, 0, 0, 0, 1, 0, 0, 0};
  size_t n = left > BYTES ? BYTES : left, begun = 0;
  char* text = text_end - n;
  uint8_t *bytes = bytes_end - n, kind = byte();
  uint32_t level = byte() % 8 ? byte() % 8 : byte() % 40;
  uint64_t work = level > 7 ? byte() : UINT64_C(1) << byte() % 24;
  for (size_t k = 0; k < n; k++) {
    bytes[k] = byte();
    text[k] = kind % 4 ? some[bytes[k] % (sizeof some - 1)] : (char)bytes[k];
  }
  for (; kind % 2 && begun < n && begun < sizeof ring - 1; begun++) text[begun] = ring[begun];
  for (begun = 0; kind % 2 && begun < n && begun < sizeof head; begun++) bytes[begun] = head[begun];
  size_t few = work % 40;
  for (int call = 0; call < 6; call++) {
    size_t len = 77, outer = 77;
    s2u_shape_fault fault = {99, 99, 99, 99, 99};
    uint64_t* out = fresh();
    const void* given = !n ? NULL : call % 2 ? (const void*)bytes : text;
    int32_t status =
        call == 0   ? s2u_map_geojson(given, n, level, work, out, room, &len, &outer, &fault)
        : call == 1 ? s2u_map_wkb(given, n, level, work, out, room, &len, &outer, &fault)
        : call == 2 ? s2u_geodesic_geojson(given, n, level, work % 999, out, room, &len, &outer, &fault)
        : call == 3 ? s2u_geodesic_wkb(given, n, level, work % 999, out, room, &len, &outer, &fault)
        : call == 4 ? s2u_map_geojson_up_to(given, n, level, few, out, room, &len, &outer, &fault)
                    : s2u_map_wkb_up_to(given, n, level, few, out, room, &len, &outer, &fault);
    MUST(level > 30 ? status == S2U_ARGUMENT
                    : status == S2U_OK || status == S2U_ROOM || (status == S2U_MANY && call < 4) ||
                          status == S2U_SHAPE);
    MUST(call < 4 || status != S2U_OK || (outer <= (few < 6 ? 6 : few) && len - outer <= few));
    seen((call < 4 ? 35 : 37) + call, status, status == S2U_SHAPE ? fault.name : len);
    left_alone(status, len);
    MUST(outer <= len && (status != S2U_ROOM || len > room) && (status >= S2U_ROOM || len == 0));
    MUST(status != S2U_SHAPE ? fault.name == 99 && fault.position == 99
                             : fault.name - 1 < S2U_FAULT_SPREAD && fault.byte <= n && fault.part <= n &&
                                   fault.ring <= n && fault.position <= n && strlen(s2u_fault_text(fault.name)) > 9);
    if (status != S2U_OK) continue;
    MUST(len <= room && s2u_is_union(out, outer) == 1 && s2u_is_union(out + outer, len - outer) == 1);
    MUST(s2u_contains(out, outer, out + outer, len - outer) == 1);
  }
  read_lists(1, n ? text : NULL, n, room);
  read_lists(0, n ? bytes : NULL, n, room);
}

/* Any two doubles: their direction, if they are a place. */
static void degrees(void) {
  uint64_t bits[2] = {number(), number()};
  double place[2];
  s2u_direction found = {9, 9, 9};
  memcpy(place, bits, sizeof place);
  if (byte() % 2) place[0] = (double)(int16_t)bits[0] / 60, place[1] = (double)(int16_t)bits[1] / 360;
  int is_place = fabs(place[0]) <= 540 && fabs(place[1]) <= 90;
  MUST(s2u_direction_of(place[0], place[1], &found) == (is_place ? S2U_OK : S2U_ARGUMENT));
  int64_t size = llabs(found.x) + llabs(found.y) + llabs(found.z);
  MUST(is_place ? size >= 2147483646 && size <= INT64_C(3719550790) : found.x == 9 && found.y == 9 && found.z == 9);
}

/* A file before `end`: of a list, and perhaps with a byte changed; or any bytes. Its length. */
static size_t file_before(uint8_t* end, uint64_t* ids_end) {
  uint8_t kind = byte();
  size_t n = byte() % (BYTES + 1), len = 77;
  if (kind % 3 == 0) {
    for (size_t k = 0; k < n; k++) end[-1 - (ptrdiff_t)k] = byte();
    return n;
  }
  size_t count = list_before(ids_end, MOST);
  n = S2U_FILE_SIZE(count);
  MUST(s2u_encode(count ? ids_end - count : NULL, count, end - n, n - 1, &len) == S2U_ROOM && len == n);
  MUST(s2u_encode(count ? ids_end - count : NULL, count, end - n, n, &len) == S2U_OK && len == n);
  if (kind % 3 == 1) end[-1 - (ptrdiff_t)(number() % n)] = byte();
  return n;
}

static void files(void) {
  uint8_t* ys_bytes = answers_end;
  size_t nx = file_before(bytes_end, xs_end), ny = file_before(ys_bytes, ys_end), len = 77;
  const uint8_t *xs = bytes_end - nx, *ys = ys_bytes - ny;
  uint64_t count = 77, leaves, id, cell = some_number(), *out = fresh();
  int32_t checked = s2u_file_check(xs, nx), frame = s2u_file_count(xs, nx, &count);
  int real = s2u_is_cell(cell);
  seen(20, checked, nx);
  MUST(is_answer(checked) || checked == S2U_FILE_CELL || is_frame(checked));
  MUST(frame == S2U_OK ? S2U_FILE_SIZE(count) == nx : is_frame(frame) && checked == frame);
  int32_t status = s2u_decode(xs, nx, out, room, &len);
  seen(21, status, len);
  MUST(len <= S2U_MOST_IN_FILE(nx));
  MUST(status == S2U_OK     ? len <= room && checked >= 0 && s2u_is_union(out, len) == 1
       : status == S2U_ROOM ? len > room && checked >= 0
                            : len == 0 && status == checked);
  MUST(s2u_file_leaf_count(xs, nx, &leaves) == frame);
  status = s2u_file_cell(xs, nx, byte(), &id);
  MUST(status == S2U_OK || status == S2U_ARGUMENT || status == frame);
  status = s2u_file_contains_cell(xs, nx, cell);
  MUST(frame == S2U_OK ? (real ? is_answer(status) : status == S2U_NO_CELL) : status == frame || status == S2U_NO_CELL);
  status = s2u_file_intersects_cell(xs, nx, cell);
  MUST(frame == S2U_OK ? (real ? is_answer(status) : status == S2U_NO_CELL) : status == frame || status == S2U_NO_CELL);
  status = s2u_file_contains(xs, nx, ys, ny);
  MUST(is_answer(status) || is_frame(status));
  status = s2u_file_intersects(xs, nx, ys, ny);
  MUST(is_answer(status) || is_frame(status));
  status = s2u_file_ancestors(xs, nx, fresh(), room, &len);
  MUST(status == S2U_OK || status == S2U_ROOM || status == frame);
  made(22, status, len, S2U_MOST_ANCESTORS(frame == S2U_OK ? count : 0));
  size_t m = list_before(xs_end, MOST), bad = 77;
  memset(answers_end - MOST, 7, MOST);
  status = s2u_file_contains_cells(xs, nx, xs_end - m, m, answers_end - m, m, &bad);
  seen(23, status, bad);
  MUST(is_frame(checked)       ? status == checked && bad == 0
       : status == S2U_NO_CELL ? bad < m && !s2u_is_cell((xs_end - m)[bad])
                               : status == S2U_OK && bad == m);
  for (ptrdiff_t k = 1; k <= MOST; k++)
    MUST(status == S2U_OK && k <= (ptrdiff_t)m ? answers_end[-k] <= 1 : answers_end[-k] == 7);
}

static void start(void) {
  xs_end = (uint64_t*)at_the_edge(8 * MOST) + MOST;
  ys_end = (uint64_t*)at_the_edge(8 * MOST) + MOST;
  out_end = (uint64_t*)at_the_edge(8 * MOST) + MOST;
  bytes_end = (uint8_t*)at_the_edge(BYTES) + BYTES;
  answers_end = (uint8_t*)at_the_edge(BYTES) + BYTES;
  text_end = (char*)at_the_edge(TEXT) + TEXT;
}

int LLVMFuzzerTestOneInput(const uint8_t* data, size_t size) {
  static void (*const groups[])(void) = {cells, texts, questions, sets, making, many, each, coverings, polygons, files,
                                         shapes, degrees};
  if (!xs_end) start();
  input = data;
  left = size;
  groups[byte() % (sizeof groups / sizeof *groups)]();
  return 0;
}
