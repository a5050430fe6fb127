/* How many cells a covering of a polygon looks into, by the blocks of memory that it takes: millions, so this is no
 * part of memory.c, which runs under the sanitizer. */
#include "../../../tests/refuse.h"
#include "tests.h"

enum { ROOM = 100000 };
static uint64_t out[ROOM];
static size_t len;

/* A covering of a polygon at one level takes as many blocks of memory as cells of edges are looked into: it is refused
 * soon after it has too many cells. Where it has few, or merges most, it looks into no more cells than edges may
 * touch. */
static void check_the_cells_that_are_looked_into(void) {
  static const s2u_direction line[] = {{10, 1, 1}, {1, 10, 1}, {11, 11, 2}};
  static const s2u_direction point[] = {{1, 0, 0}, {1, 0, 0}, {1, 0, 0}};
  static const uint64_t half = UINT64_C(1) << 60, face_3 = 0x7000000000000001u;
  static const struct {
    const s2u_direction* corners;
    int is_inner;
    uint64_t margin;
    uint32_t level;
    size_t most;
    int32_t status;
    long blocks;
  } rows[] = {
      {line, 0, 0, 20, 1000, S2U_MANY, 100000},
      {line, 0, 0, 30, 1000, S2U_MANY, 100000},
      {line, 0, half >> 28, 30, 1000, S2U_MANY, 100000}, /* 2^(62 - 30), as wide as a cell */
      {line, 1, 0, 20, 1000, S2U_OK, 20000000},
      {line, 1, 0, 23, 1000, S2U_MANY, 20000000},
      {line, 1, 0, 30, 1000, S2U_MANY, 20000000},
      {point, 0, half, 12, 100000, S2U_OK, 20000000},
      {point, 0, half, 13, 100000, S2U_MANY, 20000000},
      {point, 0, half, 30, 100000, S2U_MANY, 20000000},
  };
  for (size_t k = 0; k < sizeof rows / sizeof *rows; k++) {
    size_t ends[] = {3};
    len = 77;
    refuse_memory(0);
    CHECK((rows[k].is_inner ? s2u_polygon_inner : s2u_polygon_outer)(rows[k].corners, 3, ends, 1, face_3,
                                                                     rows[k].margin, rows[k].level, rows[k].most,
                                                                     out, ROOM, &len) == rows[k].status);
    long blocks = refuse_memory(0);
    printf("row %zu: %ld blocks of memory taken\n", k, blocks);
    CHECK(blocks < rows[k].blocks && (rows[k].status == S2U_OK || len == 0));
  }
  /* Where more cells than allowed lie inside, those that edges touch aren't counted to the end. */
  static const s2u_direction triangle[] = {{10, 1, 1}, {1, 10, 1}, {1, 1, 10}};
  size_t ends[] = {3};
  CHECK(s2u_polygon_inner(triangle, 3, ends, 1, face_3, 0, 30, 1000, out, ROOM, &len) == S2U_MANY && len == 0);
  CHECK(refuse_memory(0) < 100000);
}

/* Edges may touch 4,000,000 cells of a level, and no more. A line along the middle of a face touches two rows of cells:
 * one of 2,000,000 columns of level 21, and one that ends in the next column. */
static void check_as_many_as_edges_may_touch(void) {
  s2u_direction line[] = {{2147483647, -2039297308, 0}, {2147483647, 1993545788, 0}, {2147483647, 1993545788, 0}};
  const size_t ends[] = {3};
  len = 77;
  CHECK(s2u_polygon_inner(line, 3, ends, 1, UINT64_C(0x7000000000000001), 0, 21, 1000, out, ROOM, &len) == S2U_OK);
  CHECK(len == 0);
  line[1].y = line[2].y = 1993548445;
  CHECK(s2u_polygon_inner(line, 3, ends, 1, UINT64_C(0x7000000000000001), 0, 21, 1000, out, ROOM, &len) == S2U_MANY);
  CHECK(len == 0);
}

/* Edges that run to and fro meet each cell along them, so that a covering of few cells could look at all of them in
 * each of its cells at each level. It splits cells for 2^20 pairs of a cell and an edge that meets it, and 32 more for
 * each edge and each cell that it may have. A block is taken for each child, and again when its list of edges has
 * doubled. */
static void check_edges_that_run_to_and_fro(void) {
  enum { MOST = 10000, CELLS = 200 };
  static s2u_direction corners[MOST];
  static const struct {
    size_t n;
    int is_inner, has_area;
  } rows[] = {{4000, 0, 0}, {4000, 1, 0}, {4000, 0, 1}, {4000, 1, 1},
              {MOST, 0, 0}, {MOST, 1, 0}, {MOST, 0, 1}, {MOST, 1, 1}};
  for (size_t k = 0; k < sizeof rows / sizeof *rows; k++) {
    const size_t n = rows[k].n, ends[] = {n};
    for (size_t j = 0; j < n; j++) { /* from 11 to 21 degrees of longitude, and up to 10 of latitude */
      const int32_t shift = rows[k].has_area ? (int32_t)j * 100 : 0;
      corners[j] = j % 2 ? (s2u_direction){1974430000, 757900000 + shift, 372900000}
                         : (s2u_direction){2107880000, 409730000 + shift, 0};
    }
    len = 77;
    refuse_memory(0);
    CHECK((rows[k].is_inner ? s2u_polygon_inner_up_to : s2u_polygon_outer_up_to)(
              corners, n, ends, 1, UINT64_C(0x7000000000000001), 0, 0, 30, CELLS, out, ROOM, &len) == S2U_OK);
    const long blocks = refuse_memory(0);
    printf("to and fro %zu times, row %zu: %zu cells, %ld blocks\n", n, k, len, blocks);
    CHECK(len <= CELLS && (len > 0 || rows[k].is_inner));
    CHECK(blocks < 10000); /* 13,000 to 112,000 without a bound */
  }
}

/* They are counted to the end also where some cell lies inside, of a small triangle that comes before a line. */
static void check_what_edges_touch_beside_a_cell_inside(void) {
  static const s2u_direction rings[] = {{2000000000, -1800000000, -1800000000}, {2000000000, -1799980000, -1800000000},
                                        {2000000000, -1800000000, -1799980000}, {10, 1, 1}, {1, 10, 1}, {11, 11, 2}};
  const size_t ends[] = {3, 6};
  CHECK(s2u_polygon_inner(rings, 6, ends, 2, UINT64_C(0x7000000000000001), 0, 20, 1000, out, ROOM, &len) == S2U_OK);
  CHECK(len > 0);
  for (uint32_t level = 22; level <= 24; level++) {
    len = 77;
    CHECK(s2u_polygon_inner(rings, 6, ends, 2, UINT64_C(0x7000000000000001), 0, level, 1000, out, ROOM, &len) ==
          S2U_MANY);
    CHECK(len == 0);
  }
}

int main(void) {
  check_the_cells_that_are_looked_into();
  check_edges_that_run_to_and_fro();
  check_what_edges_touch_beside_a_cell_inside();
  check_as_many_as_edges_may_touch();
  return report();
}
