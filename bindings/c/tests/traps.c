/* Calls with senseless arguments: no crash, not a byte written past the room, the stated refusal. */
#include <math.h>
#include "calls.h"
#include "tests.h"

static const uint64_t face = 0x1000000000000000u;
static const uint64_t wrong[] = {0, 2, 8, 0xc000000000000000u, 0xffffffffffffffffu, 0x8000000000000000u};
static const uint64_t unordered[] = {0x0c00000000000000u, 0x0400000000000000u};
static const s2u_rect edge = {0, 0, (1u << 30) - 1, 0, 0};
static const uint64_t siblings[] = {0x0400000000000000u, 0x0c00000000000000u, 0x1400000000000000u, 0x1c00000000000000u};

static void numbers_that_are_no_cell(void) {
  for (size_t k = 0; k < sizeof wrong / sizeof *wrong; k++) {
    uint64_t id = wrong[k];
    char text[32];
    size_t len = 77, first = 77, count = 77;
    s2u_square square = {9, 9, 9, 9};
    CHECK(s2u_is_cell(id) == 0);
    CHECK(s2u_level(id) == S2U_NO_CELL && s2u_face(id) == S2U_NO_CELL);
    CHECK(s2u_parent(id, 0) == 0 && s2u_child(id, 0) == 0 && s2u_next(id) == 0 && s2u_prev(id) == 0);
    CHECK(s2u_range_min(id) == 0 && s2u_range_max(id) == 0 && s2u_size(id) == 0);
    CHECK(s2u_common_ancestor(id, face) == 0 && s2u_common_ancestor(face, id) == 0);
    CHECK(s2u_cell_contains(id, face) == S2U_NO_CELL && s2u_cell_contains(face, id) == S2U_NO_CELL);
    CHECK(s2u_cell_intersects(id, face) == S2U_NO_CELL && s2u_cell_intersects(face, id) == S2U_NO_CELL);
    CHECK(s2u_square_of(id, &square) == S2U_NO_CELL && square.face == 9 && square.size == 9);
    CHECK(s2u_token(id, text, sizeof text, &len) == S2U_NO_CELL && len == 0);
    len = 77;
    CHECK(s2u_debug(id, text, sizeof text, &len) == S2U_NO_CELL && len == 0);
    CHECK(s2u_contains_cell(&face, 1, id) == S2U_NO_CELL && s2u_intersects_cell(&face, 1, id) == S2U_NO_CELL);
    CHECK(s2u_cells_at(&face, 1, id, &first, &count) == S2U_NO_CELL && first == 0 && count == 0);
    CHECK(s2u_is_union(&id, 1) == 0);
    uint64_t list[2] = {face, id}, out[4];
    len = 77;
    CHECK(s2u_normalise(list, 2, &len) == S2U_NO_CELL && len == 1 && list[0] == face && list[1] == id);
    CHECK(s2u_range(id, face, out, 4, &len) == S2U_NO_CELL && len == 0);
    CHECK(s2u_range(face, id, out, 4, &len) == S2U_NO_CELL && len == 0);
  }
}

static void arguments_out_of_range(void) {
  uint64_t out[4], many = 77;
  size_t len = 77;
  CHECK(s2u_from_face_ij(6, 0, 0) == 0 && s2u_from_face_ij(0, 1u << 30, 0) == 0 &&
        s2u_from_face_ij(0, 0, 1u << 30) == 0);
  CHECK(s2u_from_face_ij(0xffffffffu, 0xffffffffu, 0xffffffffu) == 0);
  CHECK(s2u_parent(face, 1) == 0 && s2u_parent(face, 0xffffffffu) == 0 && s2u_parent(1, 256) == 0);
  CHECK(s2u_child(face, 4) == 0 && s2u_child(face, 256) == 0 && s2u_child(1, 0) == 0);
  CHECK(s2u_range(3, 1, out, 4, &len) == S2U_ARGUMENT && len == 0);
  CHECK(s2u_denormalised(&face, 1, 31, 1, out, 4, &len) == S2U_ARGUMENT && len == 0);
  CHECK(s2u_denormalised(&face, 1, 0, 0, out, 4, &len) == S2U_ARGUMENT);
  CHECK(s2u_denormalised(&face, 1, 0, 4, out, 4, &len) == S2U_ARGUMENT);
  CHECK(s2u_denormalised(&face, 1, 256, 257, out, 4, &len) == S2U_ARGUMENT);
  CHECK(s2u_denormalised_len(&face, 1, 31, 1, &many) == S2U_ARGUMENT && many == 0);
}

typedef int32_t set_call(const uint64_t*, size_t, const uint64_t*, size_t, uint64_t*, size_t, size_t*);
typedef int32_t own_call(const uint64_t*, size_t, uint64_t*, size_t, size_t*);

/* Lists that no call checks: the result means nothing, but it lies in the room, and its length within the bounds. */
static void lists_that_are_no_union(void) {
  const struct {
    const uint64_t* ids;
    size_t n;
  } lists[] = {{unordered, 2}, {siblings, 4}, {wrong, sizeof wrong / sizeof *wrong}};
#define CALL(name, most) s2u_##name,
  static set_call* const sets[] = {CALLS_OF_TWO_UNIONS(CALL)};
  static own_call* const own[] = {CALLS_OF_A_UNION(CALL)};
  CHECK(s2u_is_union(siblings, 3) == 1);
  for (size_t k = 0; k < sizeof lists / sizeof *lists; k++) {
    const uint64_t* ids = lists[k].ids;
    size_t n = lists[k].n, len = 77;
    uint64_t many = 77, same[6];
    uint8_t bytes[S2U_FILE_SIZE(6)];
    CHECK(s2u_is_union(ids, n) == 0);
    for (size_t room = 0; room <= 8; room++) {
      uint64_t* out = at_the_edge(8 * room);
      for (size_t call = 0; call < sizeof sets / sizeof *sets; call++) {
        int32_t status = sets[call](ids, n, &face, 1, out, room, &len);
        CHECK(status == (len > room ? S2U_ROOM : S2U_OK) && len <= 90 * (n + 1));
        status = sets[call](&face, 1, ids, n, out, room, &len);
        CHECK(status == (len > room ? S2U_ROOM : S2U_OK) && len <= 90 * (n + 1));
      }
      for (size_t call = 0; call < sizeof own / sizeof *own; call++) {
        CHECK(own[call](ids, n, out, room, &len) == (len > room ? S2U_ROOM : S2U_OK) && len <= 90 * (n + 1));
      }
      CHECK(s2u_denormalised(ids, n, 2, 1, out, room, &len) == (len > room ? S2U_ROOM : S2U_OK));
      CHECK(s2u_denormalised_len(ids, n, 2, 1, &many) == S2U_OK && many == len);
      CHECK(s2u_denormalised(ids, n, 31, 1, out, room, &len) == S2U_ARGUMENT && len == 0);
      CHECK(s2u_outer_of(ids, n, 9, 9999, out, room, &len) == (len > room ? S2U_ROOM : S2U_OK));
      CHECK(s2u_inner_of(ids, n, 9, 9999, out, room, &len) == (len > room ? S2U_ROOM : S2U_OK));
      CHECK(s2u_outer_of(ids, n, 31, 99, out, room, &len) == S2U_ARGUMENT && len == 0);
      CHECK(s2u_outer_in(ids, n, &edge, 9, 9999, out, room, &len) == (len > room ? S2U_ROOM : S2U_OK));
      CHECK(s2u_inner_in(ids, n, &edge, 9, 9999, out, room, &len) == (len > room ? S2U_ROOM : S2U_OK));
      CHECK(s2u_outer_in(ids, n, &edge, 31, 99, out, room, &len) == S2U_ARGUMENT && len == 0);
    }
    CHECK(s2u_encode(ids, n, bytes, sizeof bytes, &len) == S2U_OK && len == S2U_FILE_SIZE(n) && bytes[1] == n);
    memcpy(same, bytes + 9, 8 * n);
    CHECK(memcmp(same, ids, 8 * n) == 0);
  }
}

/* Files with a whole frame around numbers that are no union: decoded if they are cells, answered by questions and by
 * s2u_file_ancestors; and with a damaged frame: refused by all. */
static void damaged_files(void) {
  static const uint64_t zero = 0;
  const struct {
    const uint64_t* ids;
    int32_t decoded, checked;
  } damaged[] = {{unordered, S2U_OK, 0}, {siblings + 3, S2U_FILE_CELL, S2U_FILE_CELL}};
  for (size_t k = 0; k < 2; k++) {
    uint8_t file[25] = {1, 2};
    uint64_t out[62], found = 77;
    size_t len = 77;
    memcpy(file + 9, damaged[k].ids, 8), memcpy(file + 17, k ? &zero : damaged[k].ids + 1, 8);
    CHECK(s2u_file_check(file, 25) == damaged[k].checked);
    CHECK(s2u_decode(file, 25, out, 62, &len) == damaged[k].decoded && len == (k ? 0 : 2));
    CHECK(s2u_file_ancestors(file, 25, out, 62, &len) == S2U_OK && len <= S2U_MOST_ANCESTORS(2));
    CHECK(s2u_file_ancestors(file, 24, out, 62, &len) == S2U_FILE_SHORT && len == 0);
    CHECK(s2u_file_count(file, 25, &found) == S2U_OK && found == 2);
    CHECK(s2u_file_leaf_count(file, 25, &found) == S2U_OK && s2u_file_cell(file, 25, 1, &found) == S2U_OK);
    CHECK(found == (k ? 0 : unordered[1]));
    for (int cut = 0; cut < 2; cut++) {
      size_t n = (size_t)(25 - cut);
      int32_t least = cut ? S2U_FILE_SHORT : 0, most = cut ? S2U_FILE_SHORT : 1;
      int32_t answers[] = {s2u_file_contains_cell(file, n, face), s2u_file_intersects_cell(file, n, face),
                           s2u_file_contains(file, n, file, 25), s2u_file_intersects(file, 25, file, n)};
      for (size_t a = 0; a < 4; a++) CHECK(answers[a] >= least && answers[a] <= most);
      uint8_t bits[] = {9, 9};
      uint64_t asked[] = {face, face, 2};
      size_t wanted = cut ? 0 : 2;
      CHECK(s2u_file_contains_cells(file, n, asked, 3, bits, 2, &len) == (cut ? least : S2U_NO_CELL) && len == wanted);
      CHECK(s2u_file_contains_cells(file, n, asked, 2, bits, 1, &len) == (cut ? least : S2U_ROOM) && len == wanted);
      CHECK(bits[0] == 9 && s2u_file_contains_cells(file, n, asked, 2, bits, 2, &len) == least && len == wanted);
      CHECK(cut ? bits[0] == 9 : bits[0] <= 1 && bits[1] == bits[0]);
    }
  }
}

/* Questions of many cells at once. */
static void many_questions(void) {
  uint64_t asked[] = {siblings[0], face, siblings[1], 0, 2};
  for (size_t room = 0; room <= 4; room++) {
    uint8_t* answers = at_the_edge(room);
    size_t bad = 77;
    memset(answers, 9, room);
    int32_t status = s2u_contains_cells(siblings, 1, asked, 3, answers, room, &bad);
    CHECK(bad == 3 && status == (room < 3 ? S2U_ROOM : S2U_OK));
    CHECK(status != S2U_OK || (answers[0] == 1 && answers[1] == 0 && answers[2] == 0));
    for (size_t k = status == S2U_OK ? 3 : 0; k < room; k++) CHECK(answers[k] == 9);
    status = s2u_intersects_cells(siblings, 1, asked, 3, answers, room, &bad);
    CHECK(status != S2U_OK || (answers[0] == 1 && answers[1] == 1 && answers[2] == 0));
    memset(answers, 9, room);
    CHECK(s2u_contains_cells(siblings, 1, asked, 5, answers, room, &bad) == S2U_NO_CELL && bad == 3);
    CHECK(s2u_intersects_cells(siblings, 1, asked, 5, answers, room, &bad) == S2U_NO_CELL && bad == 3);
    for (size_t k = 0; k < room; k++) CHECK(answers[k] == 9);
  }
}

/* Three children of a face and the fourth twice, last first: decoded with every room, those too short for the numbers
 * of the file too. */
static void files_of_cells_in_any_order(void) {
  const uint64_t shuffled[] = {siblings[3], siblings[1], siblings[3], siblings[0], siblings[2]};
  uint8_t file[S2U_FILE_SIZE(5)];
  size_t len = 77;
  CHECK(s2u_encode(shuffled, 5, file, sizeof file, &len) == S2U_OK && s2u_file_check(file, len) == 0);
  for (size_t room = 0; room <= 7; room++) {
    uint64_t* out = at_the_edge(8 * room);
    for (size_t k = 0; k < room; k++) out[k] = 7;
    CHECK(s2u_decode(file, sizeof file, out, room, &len) == (room < 1 ? S2U_ROOM : S2U_OK) && len == 1);
    CHECK(room < 1 || out[0] == face);
    for (size_t k = 5; k < room; k++) CHECK(out[k] == 7);
  }
}

/* Every room from none to more than enough: the length that is needed is reported exactly, and nothing is written past
 * the room. */
static void rooms(void) {
  uint64_t leaf = 0x0123456789abcde1u, want[184];
  size_t len = 77, need = 0;
  for (size_t room = 0; room <= 20; room++) {
    char* text = at_the_edge(room);
    memset(text, 'x', room);
    int32_t status = s2u_token(leaf, text, room, &len);
    CHECK(len == 16 && status == (room < 16 ? S2U_ROOM : S2U_OK));
    for (size_t k = status == S2U_OK ? 16 : 0; k < room; k++) CHECK(text[k] == 'x');
    status = s2u_debug(leaf, text, room, &len);
    CHECK(len == 32 && status == S2U_ROOM);
  }
  CHECK(s2u_range(3, 6917529027641081853u * 2 - 1, want, 184, &need) == S2U_OK && need <= S2U_MOST_RANGE);
  CHECK(s2u_difference(&face, 1, siblings, 1, want, 184, &need) == S2U_OK && need == 3);
  for (size_t room = 0; room <= 5; room++) {
    uint64_t* out = at_the_edge(8 * room);
    for (size_t k = 0; k < room; k++) out[k] = 7;
    len = 77;
    int32_t status = s2u_difference(&face, 1, siblings, 1, out, room, &len);
    CHECK(len == 3 && status == (room < 3 ? S2U_ROOM : S2U_OK));
    CHECK(status != S2U_OK || memcmp(out, want, 24) == 0);
    for (size_t k = 3; k < room; k++) CHECK(out[k] == 7);
    len = 77;
    for (size_t k = 0; k < room; k++) out[k] = 7;
    status = s2u_ancestors(siblings, 3, out, room, &len);
    CHECK(len == 4 && status == (room < 4 ? S2U_ROOM : S2U_OK));
    CHECK(status != S2U_OK ||
          (out[0] == siblings[0] && out[1] == siblings[1] && out[2] == face && out[3] == siblings[2]));
    for (size_t k = 4; k < room; k++) CHECK(out[k] == 7);
    len = 77;
    status = s2u_denormalised(&face, 1, 1, 1, out, room, &len);
    CHECK(len == 4 && status == (room < 4 ? S2U_ROOM : S2U_OK));
  }
  CHECK(s2u_denormalised(&face, 1, 30, 1, want, 16, &len) == S2U_ROOM && len == (size_t)1 << 60);
}

/* Results as long as their bounds, or nearly so. */
static void longest_results(void) {
  uint64_t leaf = s2u_range_min(face), last = s2u_range_max(11 * face), out[S2U_MOST_RANGE];
  size_t len = 0;
  CHECK(s2u_range(s2u_next(leaf), s2u_prev(last), out, S2U_MOST_RANGE, &len) == S2U_OK && len == S2U_MOST_RANGE);
  CHECK(s2u_difference(&face, 1, &leaf, 1, out, S2U_MOST_RANGE, &len) == S2U_OK && len == 90);
  CHECK(len + 1 == S2U_MOST_DIFFERENCE(1, 1));
  CHECK(s2u_symmetric_difference(&leaf, 1, &face, 1, out, S2U_MOST_RANGE, &len) == S2U_OK && len == 90);
  CHECK(s2u_complement(&leaf, 1, out, S2U_MOST_RANGE, &len) == S2U_OK && len == 95);
  CHECK(len + 1 == S2U_MOST_COMPLEMENT(1));
  CHECK(s2u_ancestors(&last, 1, out, S2U_MOST_RANGE, &len) == S2U_OK && len == S2U_MOST_ANCESTORS(1));
  CHECK(s2u_tokens(&last, 1, (char*)out, sizeof out, &len) == S2U_OK && len + 1 == S2U_MOST_TOKENS(1));
  CHECK(s2u_encode(&last, 1, (uint8_t*)out, sizeof out, &len) == S2U_OK && len == S2U_FILE_SIZE(1));
}

/* Texts of lists: every room, the place of the first word that names no cell, and what separates words. */
static void lists_as_texts(void) {
  uint64_t cells[] = {siblings[1], face, 0x0123456789abcde1u}, bad[] = {face, 2};
  static const char want[] = "0c 1 0123456789abcde1", named[] = "\n 0C,,1\t0/1 \r0123456789abcde1";
  size_t len = 77, n = sizeof want - 1;
  for (size_t room = 0; room <= n + 2; room++) {
    char* text = at_the_edge(room);
    memset(text, 'x', room);
    int32_t status = s2u_tokens(cells, 3, text, room, &len);
    CHECK(len == n && status == (room < n ? S2U_ROOM : S2U_OK));
    CHECK(status != S2U_OK || memcmp(text, want, n) == 0);
    for (size_t k = status == S2U_OK ? n : 0; k < room; k++) CHECK(text[k] == 'x');
    CHECK(s2u_tokens(bad, 2, text, room, &len) == S2U_NO_CELL && len == 0);
  }
  for (size_t room = 0; room <= 5; room++) {
    uint64_t* out = at_the_edge(8 * room);
    for (size_t k = 0; k < room; k++) out[k] = 7;
    int32_t status = s2u_from_tokens(named, sizeof named - 1, out, room, &len);
    CHECK(len == 4 && status == (room < 4 ? S2U_ROOM : S2U_OK));
    CHECK(status != S2U_OK || (out[0] == cells[0] && out[1] == face && out[2] == cells[0] && out[3] == cells[2]));
    for (size_t k = status == S2U_OK ? 4 : 0; k < room; k++) CHECK(out[k] == 7);
  }
  static const struct {
    const char* text;
    size_t n, place;
  } refused[] = {{"x", 1, 0}, {"1 x", 3, 2}, {"1, 2", 4, 3}, {"0c 0c0 c 1", 10, 7}, {"1;3", 3, 0}, {"1\0", 2, 0},
                 {"1 0/4", 5, 2}, {"\t\n00000000000000001", 19, 2}};
  for (size_t k = 0; k < sizeof refused / sizeof *refused; k++) {
    uint64_t out[4] = {7, 7, 7, 7};
    CHECK(s2u_from_tokens(refused[k].text, refused[k].n, out, 4, &len) == S2U_NO_CELL && len == refused[k].place);
    CHECK(out[0] == 7 && s2u_from_tokens(refused[k].text, refused[k].n, NULL, 0, &len) == S2U_NO_CELL);
  }
  CHECK(s2u_from_tokens(" ,\t\r\n", 5, NULL, 0, &len) == S2U_OK && len == 0);
  CHECK(s2u_from_tokens(NULL, 0, NULL, 0, &len) == S2U_OK && len == 0 && s2u_tokens(NULL, 0, NULL, 0, &len) == S2U_OK);
}

/* If no cell of a union shares a leaf with a cell, its place is how many come before it. */
static void places_of_cells_that_a_union_lacks(void) {
  const uint64_t first_and_third[] = {0x0400000000000000u, 0x1400000000000000u};
  size_t first = 77, count = 77;
  CHECK(s2u_cells_at(first_and_third, 2, 0x0c00000000000000u, &first, &count) == S2U_OK && first == 1 && count == 0);
  CHECK(s2u_cells_at(first_and_third, 2, 0x1c00000000000000u, &first, &count) == S2U_OK && first == 2 && count == 0);
}

typedef int32_t polygon_call(const s2u_direction*, size_t, const size_t*, size_t, uint64_t, uint64_t, uint32_t, size_t,
                             uint64_t*, size_t, size_t*);
typedef int32_t few_call(const s2u_direction*, size_t, const size_t*, size_t, uint64_t, uint64_t, uint32_t, uint32_t,
                         size_t, uint64_t*, size_t, size_t*);

/* Corners, rings, leaves, margins and levels that make no polygon, each refused by its status and place; and rooms. */
static void polygons(void) {
  static polygon_call* const calls[] = {s2u_polygon_outer, s2u_polygon_inner};
  static few_call* const few[] = {s2u_polygon_outer_up_to, s2u_polygon_inner_up_to};
  const int64_t large = INT64_C(1) << 31, least = INT64_MIN, most = INT64_MAX;
  const s2u_direction triangle[] = {{10, 1, 1}, {10, 9, 1}, {10, 1, 9}, {-10, -1, -1}, {0, 0, 0}, {1, 1, large},
                                    {1, -large, 1}, {least, 1, 1}, {1, 1, most}};
  const struct {
    size_t corners[6], n, ends[2], rings;
    int32_t status;
    size_t place;
  } rows[] = {
      {{0, 1, 2}, 3, {3}, 1, S2U_OK, 0},       {{0, 1, 4}, 3, {3}, 1, S2U_CORNER, 2},
      {{5, 1, 2}, 3, {3}, 1, S2U_CORNER, 0},   {{0, 6, 2}, 3, {3}, 1, S2U_CORNER, 1},
      {{0, 7, 2}, 3, {3}, 1, S2U_CORNER, 1},   {{0, 8, 4}, 3, {3}, 1, S2U_CORNER, 1},
      {{0, 1, 3}, 3, {3}, 1, S2U_CORNER, 2},   {{1, 0, 3, 2}, 4, {4}, 1, S2U_CORNER, 1},
      {{0, 1, 2}, 3, {2}, 1, S2U_RING, 0},     {{0, 1, 2}, 3, {4}, 1, S2U_RING, 0},
      {{0, 1, 2}, 3, {0}, 0, S2U_RING, 0},     {{0, 1, 2, 0, 1, 2}, 6, {3}, 1, S2U_RING, 0},
      {{0, 1, 2, 0, 1, 2}, 6, {3, 6}, 2, S2U_OK, 0}, {{0, 1, 2, 0, 1, 2}, 6, {3, 5}, 2, S2U_RING, 1},
      {{0, 1, 2, 0, 1, 2}, 6, {3, 2}, 2, S2U_RING, 1}, {{0}, 0, {0}, 1, S2U_RING, 0}, {{0}, 0, {0}, 0, S2U_RING, 0}};
  for (size_t k = 0; k < sizeof rows / sizeof *rows; k++) {
    s2u_direction* corners = at_the_edge(sizeof *corners * rows[k].n);
    for (size_t c = 0; c < rows[k].n; c++) corners[c] = triangle[rows[k].corners[c]];
    for (size_t call = 0; call < 4; call++) {
      uint64_t out[40] = {7};
      size_t len = 77;
      size_t n = rows[k].n, rings = rows[k].rings;
      int32_t status = call < 2 ? calls[call](corners, n, rows[k].ends, rings, 1, 0, 3, 99, out, 40, &len)
                                : few[call - 2](corners, n, rows[k].ends, rings, 1, 0, 0, 9, 9, out, 40, &len);
      CHECK(status == rows[k].status);
      CHECK(status == S2U_OK || (len == rows[k].place && out[0] == 7));
    }
  }
  const uint64_t half = UINT64_C(1) << 60;
  const size_t ends[] = {3};
  for (size_t call = 0; call < 2; call++) {
    size_t len = 77, need = 0;
    uint64_t want[400];
    CHECK(calls[call](triangle, 3, ends, 1, 1, half + 1, 3, 99, NULL, 0, &len) == S2U_ARGUMENT && len == 0);
    CHECK(calls[call](triangle, 3, ends, 1, 1, half, 3, 99, NULL, 0, &len) >= S2U_ROOM);
    CHECK(calls[call](triangle, 3, ends, 1, face, 0, 3, 99, NULL, 0, &len) == S2U_ARGUMENT && len == 0);
    CHECK(calls[call](triangle, 3, ends, 1, 0, 0, 3, 99, NULL, 0, &len) == S2U_ARGUMENT && len == 0);
    CHECK(calls[call](triangle, 3, ends, 1, 1, 0, 31, 99, NULL, 0, &len) == S2U_ARGUMENT && len == 0);
    CHECK(calls[call](triangle, 3, ends, 1, 1, 0, 256, 99, NULL, 0, &len) == S2U_ARGUMENT && len == 0);
    CHECK(few[call](triangle, 3, ends, 1, 1, 0, 0, 31, 9, NULL, 0, &len) == S2U_ARGUMENT && len == 0);
    CHECK(few[call](triangle, 3, ends, 1, 1, 0, 4, 3, 9, NULL, 0, &len) == S2U_ARGUMENT && len == 0);
    CHECK(few[call](triangle, 3, ends, 1, 1, 0, 9, 12, 400, NULL, 0, &len) == S2U_ROOM && len > 20000);
    CHECK(few[call](triangle, 3, ends, 1, 1, 0, 30, 30, 400, NULL, 0, &len) == S2U_MANY && len == 0);
    CHECK(calls[call](triangle, 3, ends, 1, 1, 0, 5, 400, want, 400, &need) == S2U_OK && need > 10);
    CHECK(calls[call](triangle, 3, ends, 1, 1, 0, 5, need - 1, want, 400, &len) == S2U_MANY && len == 0);
    for (size_t room = need - 1; room <= need + 1; room++) {
      uint64_t* out = at_the_edge(8 * room);
      for (size_t k = 0; k < room; k++) out[k] = 7;
      CHECK(calls[call](triangle, 3, ends, 1, 1, 0, 5, 400, out, room, &len) == (need > room ? S2U_ROOM : S2U_OK));
      CHECK(len == need && (need > room ? out[0] == 7 : memcmp(out, want, 8 * need) == 0));
      CHECK(room <= need || out[need] == 7);
    }
  }
}

/* Places in degrees: the last that are, and the first that aren't. */
static void places_in_degrees(void) {
  const int64_t one = 2147483647, half = 1518500249; /* half of the root of 2 */
  const double most = 540, more = 0x1.0e00000000001p+9, pole = 90, beyond = 0x1.6800000000001p+6;
  const double none[][2] = {{NAN, 0}, {0, NAN}, {INFINITY, 0}, {0, -INFINITY}, {more, 0}, {-more, 0}, {0, beyond},
                            {0, -beyond}, {1e300, 0}, {0, -1e300}, {9223, 0}, {9224, 0}, {16384, 0}};
  const struct {
    double longitude, latitude;
    s2u_direction want;
  } right[] = {{most, 0, {-one, 0, 0}}, {-most, -0.0, {-one, 0, 0}}, {-450, 0, {0, -one, 0}}, {123, pole, {0, 0, one}},
               {0, -pole, {0, 0, -one}}, {5e-324, -5e-324, {one, 0, 0}}, {45, 0, {half, half, 0}},
               {-180, 45, {-half, 0, half}}, {2.2e-308, 1e-300, {one, 0, 0}}};
  for (size_t k = 0; k < sizeof none / sizeof *none; k++) {
    s2u_direction found = {9, 8, 7};
    CHECK(s2u_direction_of(none[k][0], none[k][1], &found) == S2U_ARGUMENT);
    CHECK(found.x == 9 && found.y == 8 && found.z == 7);
  }
  for (size_t k = 0; k < sizeof right / sizeof *right; k++) {
    s2u_direction found = {9, 8, 7};
    CHECK(s2u_direction_of(right[k].longitude, right[k].latitude, &found) == S2U_OK);
    CHECK(found.x == right[k].want.x && found.y == right[k].want.y && found.z == right[k].want.z);
  }
}

static void nothing_at_all(void) {
  size_t len = 77, first = 77, count = 77;
  uint64_t id = 77;
  CHECK(s2u_normalise(NULL, 0, &len) == S2U_OK && len == 0);
  CHECK(s2u_union_of_many(NULL, 0, NULL, 0, NULL, 0, NULL, 0, &len) == S2U_OK && len == 0);
  CHECK(s2u_union(NULL, 0, NULL, 0, NULL, 0, &len) == S2U_OK && len == 0);
  CHECK(s2u_union(&face, 1, NULL, 0, NULL, 0, &len) == S2U_ROOM && len == 1);
  CHECK(s2u_is_union(NULL, 0) == 1 && s2u_leaf_count(NULL, 0) == 0 && s2u_compare(NULL, 0, NULL, 0) == 0);
  CHECK(s2u_contains_cell(NULL, 0, face) == 0 && s2u_intersects_cell(NULL, 0, face) == 0);
  CHECK(s2u_cells_at(NULL, 0, face, &first, &count) == S2U_OK && first == 0 && count == 0);
  CHECK(s2u_contains(NULL, 0, NULL, 0) == 1 && s2u_contains(&face, 1, NULL, 0) == 1 &&
        s2u_contains(NULL, 0, &face, 1) == 0);
  CHECK(s2u_intersects(NULL, 0, &face, 1) == 0 && s2u_compare(NULL, 0, &face, 1) == -1);
  CHECK(s2u_ancestors(NULL, 0, NULL, 0, &len) == S2U_OK && len == 0);
  CHECK(s2u_complement(NULL, 0, NULL, 0, &len) == S2U_ROOM && len == 6);
  CHECK(s2u_symmetric_difference(NULL, 0, NULL, 0, NULL, 0, &len) == S2U_OK && len == 0);
  CHECK(s2u_file_ancestors(NULL, 0, NULL, 0, &len) == S2U_FILE_SHORT && len == 0);
  CHECK(s2u_from_token(NULL, 0, &id) == S2U_NO_CELL && id == 0);
  CHECK(s2u_from_debug(NULL, 0, &id) == S2U_NO_CELL && id == 0);
  CHECK(s2u_token(face, NULL, 0, &len) == S2U_ROOM && len == 1);
  CHECK(s2u_parents(NULL, 0, 31, NULL, 0, &len) == S2U_OK && len == 0);
  CHECK(s2u_levels(NULL, 0, NULL, 0, &len) == S2U_OK && len == 0);
  CHECK(s2u_token_fields(NULL, 0, NULL, 0, &len) == S2U_OK && len == 0);
  CHECK(s2u_from_points(NULL, 0, NULL, 0, &len) == S2U_OK && len == 0);
  CHECK(s2u_range_mins(&face, 1, NULL, 0, &len) == S2U_ROOM && len == 1);
}

int main(void) {
  CHECK(s2u_version() == S2U_VERSION);
  numbers_that_are_no_cell();
  arguments_out_of_range();
  lists_that_are_no_union();
  damaged_files();
  files_of_cells_in_any_order();
  many_questions();
  rooms();
  longest_results();
  lists_as_texts();
  places_of_cells_that_a_union_lacks();
  polygons();
  places_in_degrees();
  nothing_at_all();
  return report();
}
