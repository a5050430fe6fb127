/* 200,000 lists and byte strings of garbage that end at a page which may not be touched: no crash, answers that are
 * answers, and not a byte past the room. Built with the address sanitizer. */
#include "calls.h"
#include "tests.h"

enum { MOST = 40 };
#define CALL(name, most) s2u_##name,
#define BOUND(name, most) most,
typedef int32_t two_call(const uint64_t*, size_t, const uint64_t*, size_t, uint64_t*, size_t, size_t*);
typedef int32_t one_call(const uint64_t*, size_t, uint64_t*, size_t, size_t*);
static two_call* const of_two[] = {CALLS_OF_TWO_UNIONS(CALL)};
static one_call* const of_one[] = {CALLS_OF_A_UNION(CALL)};

static uint64_t garbage(void) {
  switch (draw() % 4) {
    case 0: return draw();
    case 1: return draw() % 9;
    default: return random_cell(0, 30, 6);
  }
}

static int is_answer(int32_t status) { return status == 0 || status == 1; }

/* What the calls for many cells answer is what those for one do; `out` has room for `room` cells and no byte more. */
static void many_cells(const uint64_t* ids, size_t n, uint32_t level, uint64_t* out, size_t room) {
  typedef int32_t call(const uint64_t*, size_t, uint64_t*, size_t, size_t*);
  static uint64_t (*const one[])(uint64_t) = {s2u_range_min, s2u_range_max};
  static call* const many[] = {s2u_range_mins, s2u_range_maxes};
  size_t bad = 77, first = 0;
  uint64_t after = n < room ? out[n] : 0;
  CHECK(s2u_parents(ids, n, level, out, room, &bad) == (n > room ? S2U_ROOM : S2U_OK));
  for (size_t k = 0; k < n && n <= room; k++) CHECK(out[k] == s2u_parent(ids[k], level));
  while (n <= room && first < n && s2u_parent(ids[first], level)) first++;
  CHECK(bad == (n > room ? n : first));
  CHECK(n >= room || out[n] == after);
  for (first = 0; first < n && s2u_is_cell(ids[first]);) first++;
  for (size_t which = 0; which < 2; which++) {
    CHECK(many[which](ids, n, out, room, &bad) == (n > room ? S2U_ROOM : S2U_OK) && bad == (n > room ? n : first));
    for (size_t k = 0; k < n && n <= room; k++) CHECK(out[k] == one[which](ids[k]));
  }
  uint8_t* levels = (uint8_t*)(out + room) - room;
  CHECK(s2u_levels(ids, n, levels, room, &bad) == (n > room ? S2U_ROOM : S2U_OK) && bad == (n > room ? n : first));
  for (size_t k = 0; k < n && n <= room; k++)
    CHECK(levels[k] == (s2u_is_cell(ids[k]) ? s2u_level(ids[k]) : S2U_NO_LEVEL));
  char *fields = (char*)out, token[S2U_MOST_TOKEN];
  int fits = S2U_MOST_TOKEN * n <= 8 * room;
  CHECK(s2u_token_fields(ids, n, fields, 8 * room, &bad) == (fits ? S2U_OK : S2U_ROOM) && bad == (fits ? first : n));
  for (size_t k = 0, len = 0; k < n && fits; k++) {
    memset(token, 0, sizeof token);
    (void)s2u_token(ids[k], token, sizeof token, &len);
    CHECK(memcmp(fields + S2U_MOST_TOKEN * k, token, sizeof token) == 0);
  }
}

/* Leaves at points that are on a face or nearly. */
static void many_points(uint64_t* out, size_t room) {
  s2u_point points[MOST] = {{0, 0, 0}};
  size_t n = draw() % MOST, bad = 77, first = n;
  for (size_t k = 0; k < n; k++) {
    s2u_point point = {draw() % 9 ? (uint32_t)(draw() % 6) : (uint32_t)draw(), (uint32_t)(draw() % (1u << 30)),
                       draw() % 9 ? (uint32_t)(draw() % (1u << 30)) : (1u << 30) - (uint32_t)(draw() % 2)};
    points[k] = point;
  }
  for (size_t k = n; k-- > 0;) first = s2u_from_face_ij(points[k].face, points[k].i, points[k].j) ? first : k;
  CHECK(s2u_from_points(points, n, out, room, &bad) == (n > room ? S2U_ROOM : S2U_OK) && bad == (n > room ? n : first));
  for (size_t k = 0; k < n && n <= room; k++)
    CHECK(out[k] == s2u_from_face_ij(points[k].face, points[k].i, points[k].j));
}

/* Coverings of what a list and a rectangle share; some bounds are out of order or of range. */
static void clipped(const uint64_t* ids, size_t n, uint64_t* out, size_t room) {
  typedef int32_t call(const uint64_t*, size_t, const s2u_rect*, uint32_t, size_t, uint64_t*, size_t, size_t*);
  static call* const calls[] = {s2u_outer_in, s2u_inner_in};
  const uint32_t least = (uint32_t)(draw() % (1u << 30)), more = (uint32_t)(1u << draw() % 31);
  s2u_rect rect = {(uint32_t)(draw() % 7), least, least + more, (uint32_t)(draw() % (1u << 30)), 1u << 30};
  rect.j1 = draw() % 9 ? rect.j0 | more : rect.j1;
  uint32_t level = (uint32_t)(draw() % 33);
  size_t most = draw() % (2 * MOST), len = 77;
  int fit = level <= 30 && rect.face <= 5 && rect.i1 >> 30 == 0 && rect.j1 >> 30 == 0;
  for (size_t k = 0; k < room; k++) out[k] = 7;
  for (size_t which = 0; which < 2; which++) {
    int32_t status = calls[which](ids, n, &rect, level, most, out, room, &len);
    CHECK(fit ? status == (len > room ? S2U_ROOM : S2U_OK) || (status == S2U_MANY && len == 0)
              : status == S2U_ARGUMENT && len == 0);
    CHECK(len <= most && (status != S2U_OK || s2u_is_union(out, len)));
    for (size_t k = status == S2U_OK ? len : 0; k < room; k++) CHECK(out[k] == 7);
    for (size_t k = 0; k < room; k++) out[k] = 7;
  }
}

/* Coverings of a polygon whose corners may be any numbers, and whose ends may be wrong. */
static void polygons(uint64_t* out, size_t room) {
  s2u_direction corners[9];
  size_t n = draw() % 10, first = draw() % 10, len = 77;
  size_t ends[] = {first, draw() % 9 ? n : draw()};
  for (size_t k = 0; k < n; k++) {
    int64_t bound = draw() % 99 ? 20 : INT64_C(1) << 31;
    corners[k].x = (int64_t)(draw() % 41) - bound;
    corners[k].y = (int64_t)(draw() % 41) - 20;
    corners[k].z = draw() % 99 ? (int64_t)(draw() % 41) - 20 : (int64_t)garbage();
  }
  uint64_t outside = draw() % 9 ? s2u_from_face_ij((uint32_t)(draw() % 6), 7, 7) : garbage();
  uint64_t margin = draw() % 9 ? 0 : draw() >> draw() % 8;
  uint32_t level = (uint32_t)(draw() % 7), least = (uint32_t)(draw() % 4);
  int is_asked = s2u_level(outside) == 30 && margin <= UINT64_C(1) << 60;
  for (int call = 0; call < 4; call++) {
    for (size_t k = 0; k < room; k++) out[k] = 7;
    int32_t status =
        call < 2 ? (call ? s2u_polygon_outer : s2u_polygon_inner)(corners, n, ends, 2, outside, margin, level, MOST,
                                                                  out, room, &len)
                 : (call == 2 ? s2u_polygon_outer_up_to : s2u_polygon_inner_up_to)(
                       corners, n, ends, 2, outside, margin, least, level, 20, out, room, &len);
    int is_refused = call >= 2 && least > level ? 1 : !is_asked;
    CHECK((status == S2U_ARGUMENT) == is_refused);
    CHECK(status != S2U_CORNER || len < n);
    CHECK(status != S2U_RING || len < 2);
    CHECK(status != S2U_OK || (len <= room && (call >= 2 || s2u_is_union(out, len))));
    CHECK(status != S2U_ROOM || len > room);
    for (size_t k = status == S2U_OK ? len : 0; k < room; k++) CHECK(out[k] == 7);
  }
}

int main(void) {
  uint64_t *xs_end = (uint64_t*)at_the_edge(8 * MOST) + MOST, *ys_end = (uint64_t*)at_the_edge(8 * MOST) + MOST;
  uint64_t* out_end = (uint64_t*)at_the_edge(8 * MOST) + MOST;
  uint8_t* bytes_end = (uint8_t*)at_the_edge(9 + 8 * MOST) + 9 + 8 * MOST;
  char* text_end = (char*)at_the_edge(17 * MOST) + 17 * MOST;
  size_t unions = 0, files = 0, texts = 0;
  for (int round = 0; round < 200000; round++) {
    size_t nx = draw() % MOST, ny = draw() % MOST, room = draw() % MOST, len = 77, first, count;
    uint64_t *xs = xs_end - nx, *ys = ys_end - ny, *out = out_end - room, cell = garbage(), many;
    for (size_t k = 0; k < nx; k++) xs[k] = garbage();
    for (size_t k = 0; k < ny; k++) ys[k] = garbage();
    if (round % 4 == 0 && s2u_normalise(xs, nx, &len) == S2U_OK) xs = memmove(xs_end - len, xs, 8 * len), nx = len;
    if (round % 8 == 0 && s2u_normalise(ys, ny, &len) == S2U_OK) ys = memmove(ys_end - len, ys, 8 * len), ny = len;
    int32_t status = s2u_contains_cell(xs, nx, cell);
    CHECK(is_answer(status) || (status == S2U_NO_CELL && !s2u_is_cell(cell)));
    CHECK(status == s2u_contains_cell(xs, nx, cell) &&
          (is_answer(s2u_intersects_cell(xs, nx, cell)) || !s2u_is_cell(cell)));
    CHECK(s2u_cells_at(xs, nx, cell, &first, &count) == S2U_OK || !s2u_is_cell(cell));
    CHECK(first + count <= nx);
    CHECK(is_answer(s2u_contains(xs, nx, ys, ny)) && is_answer(s2u_intersects(xs, nx, ys, ny)));
    CHECK(s2u_compare(xs, nx, ys, ny) == -s2u_compare(ys, ny, xs, nx));
    (void)s2u_leaf_count(xs, nx);
    unions += (size_t)s2u_is_union(xs, nx);
    for (size_t k = 0; k < room; k++) out[k] = 7;
    int are_unions = s2u_is_union(xs, nx) && s2u_is_union(ys, ny);
    for (size_t k = 0; k < sizeof of_two / sizeof *of_two; k++) {
      const uint64_t bounds[] = {CALLS_OF_TWO_UNIONS(BOUND)};
      status = of_two[k](xs, nx, ys, ny, out, room, &len);
      CHECK(status == (len > room ? S2U_ROOM : S2U_OK) && len <= bounds[k]);
      for (size_t at = status == S2U_OK ? len : room; at < room; at++) CHECK(out[at] == 7);
      CHECK(!are_unions || status != S2U_OK || s2u_is_union(out, len));
      for (size_t at = 0; at < room; at++) out[at] = 7;
    }
    for (size_t k = 0, n = nx; k < sizeof of_one / sizeof *of_one; k++) {
      const uint64_t bounds[] = {CALLS_OF_A_UNION(BOUND)};
      status = of_one[k](xs, nx, out, room, &len);
      CHECK(status == (len > room ? S2U_ROOM : S2U_OK) && len <= bounds[k]);
      for (size_t at = status == S2U_OK ? len : room; at < room; at++) CHECK(out[at] == 7);
      for (size_t at = 0; at < room; at++) out[at] = 7;
    }
    uint64_t last = garbage();
    status = s2u_range(cell, last, out, room, &len);
    CHECK(status == S2U_OK     ? s2u_is_union(out, len) && len <= room
          : status == S2U_ROOM ? len > room
                               : len == 0 && (status == S2U_ARGUMENT || !s2u_is_cell(cell) || !s2u_is_cell(last)));
    CHECK(len <= S2U_MOST_RANGE);
    status = s2u_ancestors(xs, nx, out, room, &len);
    CHECK(len <= S2U_MOST_ANCESTORS(nx) && status == (len > room ? S2U_ROOM : S2U_OK));
    CHECK(!s2u_is_union(xs, nx) || len >= nx);
    uint32_t min = (uint32_t)(draw() % 40), modulus = (uint32_t)(draw() % 5);
    status = s2u_denormalised(xs, nx, min, modulus, out, room, &len);
    CHECK(status == (min > 30 || modulus < 1 || modulus > 3 ? S2U_ARGUMENT : len > room ? S2U_ROOM : S2U_OK));
    CHECK(s2u_denormalised_len(xs, nx, min, modulus, &many) == (status == S2U_ARGUMENT ? S2U_ARGUMENT : S2U_OK));
    CHECK(many == len && (status != S2U_ARGUMENT || len == 0));
    many_cells(xs, nx, (uint32_t)(draw() % 33), out, room);
    many_points(out, room);
    clipped(xs, nx, out, room);
    if (round % 8 == 0) polygons(out, room);
    status = s2u_encode(xs, nx, bytes_end - 9 - 8 * nx, 9 + 8 * nx, &len);
    CHECK(status == S2U_OK && len == S2U_FILE_SIZE(nx) && memcmp(bytes_end - 8 * nx, xs, 8 * nx) == 0);
    char* text = text_end - draw() % (17 * MOST);
    size_t at_most = (size_t)(text_end - text);
    status = s2u_tokens(xs, nx, text, at_most, &len);
    CHECK(status == S2U_OK     ? len <= at_most
          : status == S2U_ROOM ? len > at_most && len <= S2U_MOST_TOKENS(nx)
                               : len == 0);
    if (status == S2U_OK) {
      if (len && draw() % 2) text[draw() % len] = (char)draw();
      size_t place = len, got = 77;
      status = s2u_from_tokens(text, place, out, room, &got);
      CHECK(status == S2U_NO_CELL ? got < place
                                  : got <= S2U_MOST_NAMED(place) && status == (got > room ? S2U_ROOM : S2U_OK));
      texts += status == S2U_OK;
    }
    size_t size = draw() % (9 + 8 * MOST);
    uint8_t* bytes = bytes_end - size;
    for (size_t k = 0; k < size; k++) bytes[k] = (uint8_t)draw();
    if (size > 9 && draw() % 2) {
      memset(bytes, 0, 9);
      bytes[0] = draw() % 9 != 0;
      bytes[1] = (uint8_t)((size - 9) / 8);
      for (size_t k = 0; 9 + 8 * k + 8 <= size; k++) cell = random_cell(0, 30, 6), memcpy(bytes + 9 + 8 * k, &cell, 8);
    }
    status = s2u_file_check(bytes, size);
    files += status >= 0;
    CHECK(is_answer(status) || (status <= S2U_FILE_SHORT && status >= S2U_FILE_CELL));
    int32_t asked = s2u_file_contains_cell(bytes, size, random_cell(0, 30, 6));
    CHECK(is_answer(asked) || asked == status);
    CHECK((s2u_file_count(bytes, size, &many) == S2U_OK) == is_answer(asked));
    (void)s2u_file_cell(bytes, size, draw() % MOST, &many);
    (void)s2u_file_leaf_count(bytes, size, &many);
    (void)s2u_file_contains(bytes, size, bytes, size);
    uint8_t answer = 9;
    cell = random_cell(0, 30, 6);
    CHECK(s2u_file_contains_cells(bytes, size, &cell, 1, &answer, 1, &len) == (is_answer(asked) ? S2U_OK : status));
    CHECK(is_answer(asked) ? answer <= 1 && len == 1 : answer == 9 && len == 0);
    (void)s2u_file_intersects(bytes, size, bytes, size);
    status = s2u_file_ancestors(bytes, size, out, room, &len);
    CHECK(status == S2U_OK ? len <= room : status == S2U_ROOM ? len > room : len == 0);
    CHECK((status >= S2U_ROOM) == (s2u_file_count(bytes, size, &many) == S2U_OK));
    status = s2u_decode(bytes, size, out, room, &len);
    CHECK(status == S2U_OK ? s2u_is_union(out, len) : status == S2U_ROOM ? len > room : len == 0);
  }
  printf("%zu of the lists were unions, %zu of the bytes files, %zu of the texts lists\n", unions, files, texts);
  CHECK(unions > 10000 && files > 1000 && texts > 1000);
  return report();
}
