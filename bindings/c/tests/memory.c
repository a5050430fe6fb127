/* Each allocation refused in turn, in each call that takes memory: the status is S2U_MEMORY, or the right result by
 * another way; nothing stays allocated, nothing else has changed. The calls that are [pure] take none. */
#include "../../../tests/refuse.h"
#include "calls.h"
#include "tests.h"

enum { N = 3000, ROOM = 400000 };
static char text[17 * N];
static uint64_t xs[N], ys[N], list[N], work[2 * N], out[ROOM], want[ROOM];
static uint8_t file[9 + 8 * ROOM], bytes[9 + 8 * ROOM], mixed[9 + 8 * N];
static size_t nx, ny, nlist, nfile, len;
static const s2u_rect rect = {1, 126420997, 159450117, 401604613, 434633733};

#define OF_TWO(name, most) \
  static int32_t do_##name(void) { return s2u_##name(xs, nx, ys, ny, out, ROOM, &len); }
#define OF_ONE(name, most) \
  static int32_t do_##name(void) { return s2u_##name(xs, nx, out, ROOM, &len); }
#define ENTRY(name, most) {#name, do_##name, 1},
CALLS_OF_TWO_UNIONS(OF_TWO)
CALLS_OF_A_UNION(OF_ONE)
static int32_t many(void) {
  size_t ends[2] = {nx / 3, nx};
  return s2u_union_of_many(xs, nx, ends, 2, work, 2 * N, out, ROOM, &len);
}
static int32_t range(void) { return s2u_range(1, xs[nx - 1], out, ROOM, &len); }
static int32_t cut(void) { return s2u_denormalised(xs, 40, 12, 1, out, ROOM, &len); }
static int32_t cut_len(void) {
  uint64_t n = 0;
  int32_t status = s2u_denormalised_len(xs, nx, 12, 1, &n);
  len = (size_t)n;
  return status;
}
static int32_t of_file(void) { return s2u_file_ancestors(file, nfile, out, ROOM, &len); }
static int32_t outer(void) { return s2u_outer(&rect, 14, 1000000, out, ROOM, &len); }
static int32_t inner(void) { return s2u_inner(&rect, 14, 1000000, out, ROOM, &len); }
static int32_t outer_of(void) { return s2u_outer_of(xs, nx, 7, 1000000, out, ROOM, &len); }
static int32_t inner_of(void) { return s2u_inner_of(xs, nx, 10, 1000000, out, ROOM, &len); }
static int32_t outer_in(void) { return s2u_outer_in(xs, nx, &rect, 9, 1000000, out, ROOM, &len); }
static int32_t inner_in(void) { return s2u_inner_in(xs, nx, &rect, 10, 1000000, out, ROOM, &len); }
static const s2u_direction corners[] = {{10, 1, 1}, {10, 9, 1}, {10, 1, 9}, {10, 2, 2}, {10, 3, 2}, {10, 2, 3}};
static const size_t corner_ends[] = {3, 6};
static int32_t polygon_outer(void) {
  return s2u_polygon_outer(corners, 6, corner_ends, 2, 1, 0, 6, 1000000, out, ROOM, &len);
}
static int32_t polygon_inner(void) {
  return s2u_polygon_inner(corners, 6, corner_ends, 2, 1, 0, 6, 1000000, out, ROOM, &len);
}
static int32_t polygon_outer_up_to(void) {
  return s2u_polygon_outer_up_to(corners, 6, corner_ends, 2, 1, 0, 3, 12, 20, out, ROOM, &len);
}
static int32_t polygon_inner_up_to(void) {
  return s2u_polygon_inner_up_to(corners, 6, corner_ends, 2, 1, 0, 3, 12, 20, out, ROOM, &len);
}
static int32_t polygon_coverings_up_to(void) {
  size_t half = ROOM / 2, inner_len = 77;
  return s2u_polygon_coverings_up_to(corners, 6, corner_ends, 2, 1, 0, 3, 12, 20, out, half, &len, out + half, half,
                                     &inner_len);
}
static const char triangle[] = "{\"type\":\"Polygon\",\"coordinates\":[[[0,0],[9,0],[0,9],[0,0]],[]]}";
static s2u_shape_fault fault;
static int32_t map_geojson(void) {
  size_t outer;
  return s2u_map_geojson(triangle, sizeof triangle - 1, 7, S2U_MAP_WORK, out, ROOM, &len, &outer, &fault);
}
enum { TRIANGLE = 13 + 8 * 8 };
static void triangle_to(uint8_t* wkb) {
  static const uint8_t head[] = {1, 3, 0, 0, 0, 1, 0, 0, 0, 4, 0, 0, 0};
  static const double at[] = {0, 0, 9, 0, 0, 9, 0, 0};
  memcpy(wkb, head, sizeof head);
  memcpy(wkb + sizeof head, at, sizeof at);
}
static int32_t map_wkb(void) {
  uint8_t wkb[TRIANGLE];
  size_t outer;
  triangle_to(wkb);
  return s2u_map_wkb(wkb, sizeof wkb, 7, S2U_MAP_WORK, out, ROOM, &len, &outer, &fault);
}
static s2u_place places[8];
static s2u_ring rings[8];
static size_t rings_len;
static int32_t shape_geojson(void) {
  return s2u_shape_geojson(triangle, sizeof triangle - 1, places, 8, &len, rings, 8, &rings_len, &fault);
}
static int32_t shape_wkb(void) {
  uint8_t wkb[TRIANGLE];
  triangle_to(wkb);
  return s2u_shape_wkb(wkb, sizeof wkb, places, 8, &len, rings, 8, &rings_len, &fault);
}
static int32_t geodesic_geojson(void) {
  size_t outer;
  return s2u_geodesic_geojson(triangle, sizeof triangle - 1, 7, 1000, out, ROOM, &len, &outer, &fault);
}
static int32_t geodesic_wkb(void) {
  uint8_t wkb[TRIANGLE];
  size_t outer;
  triangle_to(wkb);
  return s2u_geodesic_wkb(wkb, sizeof wkb, 7, 1000, out, ROOM, &len, &outer, &fault);
}
static int32_t map_geojson_up_to(void) {
  size_t outer;
  return s2u_map_geojson_up_to(triangle, sizeof triangle - 1, 30, 20, out, ROOM, &len, &outer, &fault);
}
static int32_t map_wkb_up_to(void) {
  uint8_t wkb[TRIANGLE];
  size_t outer;
  triangle_to(wkb);
  return s2u_map_wkb_up_to(wkb, sizeof wkb, 30, 20, out, ROOM, &len, &outer, &fault);
}
static int32_t encode(void) { return s2u_encode(xs, nx, bytes, sizeof bytes, &len); }
static int32_t decode(void) { return s2u_decode(file, nfile, out, ROOM, &len); }
static int32_t decode_mixed(void) { return s2u_decode(mixed, sizeof mixed, out, N, &len); }
static int32_t decode_in_little_room(void) { return s2u_decode(mixed, sizeof mixed, out, nlist, &len); }

/* The calls that take memory, with as many cells as a union of this kind may have, and memory for them. */
static void check_the_most_cells(void) {
  enum { MOST = 1000000 };
  static uint64_t leaves[MOST], made[MOST];
  static uint8_t most[9 + 8 * MOST];
  static const s2u_rect row = {0, 0, MOST - 1, 0, 0};
  refuse_memory(0);
  CHECK(s2u_outer(&row, 30, MOST, leaves, MOST, &len) == S2U_OK && len == MOST && s2u_is_union(leaves, MOST) == 1);
  CHECK(s2u_inner(&row, 30, MOST, made, MOST, &len) == S2U_OK && len == MOST && memcmp(made, leaves, 8 * MOST) == 0);
  memset(made, 0, sizeof made);
  CHECK(s2u_outer_in(leaves, MOST, &row, 30, MOST, made, MOST, &len) == S2U_OK && len == MOST);
  CHECK(memcmp(made, leaves, 8 * MOST) == 0);
  memset(made, 0, sizeof made);
  CHECK(s2u_inner_in(leaves, MOST, &row, 30, MOST, made, MOST, &len) == S2U_OK && len == MOST);
  CHECK(memcmp(made, leaves, 8 * MOST) == 0);
  leaves[0] = leaves[MOST - 1]; /* it stands there twice, and there is room for one fewer */
  CHECK(s2u_encode(leaves, MOST, most, sizeof most, &len) == S2U_OK && len == sizeof most);
  CHECK(s2u_decode(most, sizeof most, made, MOST - 1, &len) == S2U_OK && len == MOST - 1);
  CHECK(memcmp(made, leaves + 1, 8 * (MOST - 1)) == 0);
}

/* A polygon of a million corners, in one ring and in many, and memory for it. It is the triangle whose corners it
 * repeats in turn, or whose ring it lists 333,333 times. */
static void check_the_most_corners(void) {
  enum { MOST = 999999, FEW = 1000 };
  static s2u_direction each[MOST], turned[MOST];
  static size_t rings[MOST / 3];
  static const size_t one[] = {3}, all[] = {MOST};
  static int32_t (*const levels[])(const s2u_direction*, size_t, const size_t*, size_t, uint64_t, uint64_t, uint32_t,
                                   size_t, uint64_t*, size_t, size_t*) = {s2u_polygon_outer, s2u_polygon_inner};
  uint64_t right[FEW], made[FEW];
  size_t n = 0;
  for (size_t k = 0; k < MOST; k++) each[k] = corners[k / (MOST / 3)], turned[k] = corners[k % 3];
  for (size_t k = 0; k < MOST / 3; k++) rings[k] = 3 * (k + 1);
  refuse_memory(0);
  for (size_t call = 0; call < 2; call++) {
    CHECK(levels[call](corners, 3, one, 1, 1, 0, 4, FEW, right, FEW, &n) == S2U_OK && n > 0);
    CHECK(levels[call](each, MOST, all, 1, 1, 0, 4, FEW, made, FEW, &len) == S2U_OK && len == n);
    CHECK(memcmp(made, right, 8 * n) == 0);
    CHECK(levels[call](turned, MOST, rings, MOST / 3, 1, 0, 4, FEW, made, FEW, &len) == S2U_OK && len == n);
    CHECK(memcmp(made, right, 8 * n) == 0);
  }
}

int main(void) {
  size_t right = 0;
  static const struct {
    const char* name;
    int32_t (*call)(void);
    int is_pure;
  } calls[] = {CALLS_OF_TWO_UNIONS(ENTRY) CALLS_OF_A_UNION(ENTRY)
               {"union_of_many", many, 1}, {"range", range, 0}, {"denormalised", cut, 1},
               {"denormalised_len", cut_len, 1}, {"file_ancestors", of_file, 1},
               {"outer", outer, 0}, {"inner", inner, 0}, {"outer_of", outer_of, 1}, {"inner_of", inner_of, 1},
               {"outer_in", outer_in, 0}, {"inner_in", inner_in, 0},
               {"polygon_outer", polygon_outer, 0}, {"polygon_inner", polygon_inner, 0},
               {"polygon_outer_up_to", polygon_outer_up_to, 0}, {"polygon_inner_up_to", polygon_inner_up_to, 0},
               {"polygon_coverings_up_to", polygon_coverings_up_to, 0},
               {"map_geojson", map_geojson, 0}, {"map_wkb", map_wkb, 0},
               {"shape_geojson", shape_geojson, 0}, {"shape_wkb", shape_wkb, 0},
               {"geodesic_geojson", geodesic_geojson, 0}, {"geodesic_wkb", geodesic_wkb, 0},
               {"map_geojson_up_to", map_geojson_up_to, 0}, {"map_wkb_up_to", map_wkb_up_to, 0},
               {"encode", encode, 1}, {"decode of a union", decode, 1}, {"decode in any order", decode_mixed, 1},
               {"decode in little room", decode_in_little_room, 0}};
  nx = random_union(xs, N, 6, 12);
  ny = random_union(ys, N, 6, 12);
  for (size_t k = 0; k < N; k++) list[k] = random_cell(6, 12, 6);
  refuse_memory(1); /* the calls that need no memory */
  CHECK(s2u_encode(list, N, mixed, sizeof mixed, &len) == S2U_OK && len == sizeof mixed);
  CHECK(s2u_normalise(list, N, &len) == S2U_OK && s2u_is_union(list, len) == 1);
  nlist = len;
  CHECK(s2u_tokens(list, len, text, sizeof text, &nfile) == S2U_OK);
  CHECK(s2u_from_tokens(text, nfile, out, ROOM, &right) == S2U_OK && right == len);
  CHECK(refuse_memory(0) == 0);
  CHECK(memcmp(out, list, 8 * len) == 0);
  CHECK(s2u_encode(xs, nx, file, sizeof file, &nfile) == S2U_OK && nfile == S2U_FILE_SIZE(nx));
  for (size_t k = 0; k < sizeof calls / sizeof *calls; k++) {
    memset(out, 0, sizeof out);
    long blocks = blocks_taken();
    refuse_memory(0);
    CHECK(calls[k].call() == S2U_OK && blocks_taken() == blocks);
    long allocations = refuse_memory(0);
    CHECK((allocations == 0) == calls[k].is_pure);
    right = len;
    memcpy(want, out, sizeof out);
    for (long turn = 1; turn <= allocations; turn++) {
      memset(out, 0, sizeof out);
      len = 77;
      refuse_memory(turn);
      int32_t status = calls[k].call();
      refuse_memory(0);
      if (status == S2U_OK) {
        CHECK(len == right && memcmp(out, want, sizeof out) == 0);
      } else {
        CHECK(status == S2U_MEMORY && len == 0 && out[0] == 0);
      }
      CHECK(blocks_taken() == blocks);
    }
    printf("%s: %ld allocations refused in turn\n", calls[k].name, allocations);
  }
  check_the_most_cells();
  check_the_most_corners();
  return report();
}
