/* Shapes of parts that touch, by s2union_cover.h: quadrangles of a bent grid, of which some are missing, are there
 * twice, overlap others a little, or lie a turn of the map away. A plain model in whole numbers says which places are
 * in a part: each of them is in the outer covering, and no other one is in the inner. Where no part overlaps another,
 * the coverings are those of the border of all. The last line is 'N passed, M failed'. */
#include <s2union_cover.h>
#include "tests.h"

enum { WIDE = 6, HIGH = 5, BENT = 3, MOST = 2 * WIDE * HIGH, CORNERS = 4 * BENT + 1 };
#define UNIT (1.0 / 1048576) /* of the whole numbers, in degrees: all are exact as doubles */
#define TURN (INT64_C(360) * 1048576)

typedef struct {
  int64_t x, y;
} place;

static int64_t among(int64_t count) { return (int64_t)(draw() % (uint64_t)count); }

/* ---- a bent grid: lines from corner to corner, each with some corners between */

static place to_the_east[HIGH + 1][WIDE][BENT + 1], to_the_north[WIDE + 1][HIGH][BENT + 1];

static void bend_line(place* line, place from, place to, int64_t most) {
  for (int k = 0; k <= BENT; k++) {
    line[k].x = from.x + (to.x - from.x) * k / BENT, line[k].y = from.y + (to.y - from.y) * k / BENT;
    if (k > 0 && k < BENT && most > 0) line[k].x += among(2 * most) - most, line[k].y += among(2 * most) - most;
  }
}

/* A grid of cells of some size; around a pole its west is its east, and its north the pole. */
static void bend_grid(int64_t west, int64_t south, int64_t wide, int64_t high, int is_cap) {
  place at[WIDE + 1][HIGH + 1];
  for (int i = 0; i <= WIDE; i++) {
    for (int j = 0; j <= HIGH; j++) {
      int64_t moved = is_cap && (i == 0 || i == WIDE || j == HIGH) ? 0 : 1;
      at[i][j].x = west + wide * i + moved * (among(wide / 2) - wide / 4);
      at[i][j].y = south + high * j + (is_cap && j == HIGH ? 0 : among(high / 2) - high / 4);
      if (is_cap && i == WIDE) at[i][j].y = at[0][j].y;
    }
  }
  int64_t most = (wide < high ? wide : high) / 16;
  for (int j = 0; j <= HIGH; j++)
    for (int i = 0; i < WIDE; i++)
      bend_line(to_the_east[j][i], at[i][j], at[i + 1][j], is_cap && j == HIGH ? 0 : most);
  for (int i = 0; i <= WIDE; i++)
    for (int j = 0; j < HIGH; j++) bend_line(to_the_north[i][j], at[i][j], at[i][j + 1], most);
  for (int j = 0; is_cap && j < HIGH; j++)
    for (int k = 0; k <= BENT; k++)
      to_the_north[WIDE][j][k].x = to_the_north[0][j][k].x + TURN, to_the_north[WIDE][j][k].y = to_the_north[0][j][k].y;
}

/* ---- parts, as rings */

static place rings[MOST][CORNERS];
static int count;

static void add_part(int i, int j) {
  place* ring = rings[count++];
  int n = 0;
  for (int k = 0; k < BENT; k++) ring[n++] = to_the_east[j][i][k];
  for (int k = 0; k < BENT; k++) ring[n++] = to_the_north[i + 1][j][k];
  for (int k = BENT; k > 0; k--) ring[n++] = to_the_east[j + 1][i][k];
  for (int k = BENT; k > 0; k--) ring[n++] = to_the_north[i][j][k];
  ring[n] = ring[0];
}

/* Turns a ring around, begins it at another corner, or moves it by a turn of the map. */
static void change_part(place* ring, int may_turn) {
  place old[CORNERS];
  int begin = (int)among(CORNERS - 1), is_back = (int)among(2);
  int64_t turn = may_turn ? (among(3) - 1) * TURN : 0;
  memcpy(old, ring, sizeof old);
  for (int k = 0; k < CORNERS; k++) {
    ring[k] = old[(begin + (is_back ? CORNERS - 1 - k : k)) % (CORNERS - 1)];
    ring[k].x += turn;
  }
}

/* ---- the plain model */

/* Whether a place is in a ring or on its border. */
static int is_in_ring(const place* ring, place at) {
  int is_odd = 0;
  for (int k = 1; k < CORNERS; k++) {
    place a = ring[k - 1], b = ring[k];
    int64_t turn = (b.x - a.x) * (at.y - a.y) - (b.y - a.y) * (at.x - a.x);
    int is_between = (at.x - a.x) * (at.x - b.x) <= 0 && (at.y - a.y) * (at.y - b.y) <= 0;
    if (turn == 0 && is_between) return 1;
    if ((a.x <= at.x) != (b.x <= at.x)) is_odd ^= (turn < 0) == (b.x > a.x);
  }
  return is_odd;
}

static int is_in_part(place at) {
  for (int n = 0; n < count; n++)
    for (int64_t turn = -3; turn <= 3; turn++)
      if (is_in_ring(rings[n], (place){at.x + turn * TURN, at.y})) return 1;
  return 0;
}

static int has(const s2u_cover_cells* cells, place at) {
  return s2u_contains_cell(cells->ids, cells->count, s2u_geo_leaf(remainder((double)at.x * UNIT, 360),
                                                                  (double)at.y * UNIT)) == 1;
}

static int lost, beyond;

static void ask_place(const s2u_cover_cells* outer, const s2u_cover_cells* inner, place at) {
  if (at.y > 90 / UNIT || at.y < -90 / UNIT) return;
  int is_inside = is_in_part(at);
  lost += is_inside && !has(outer, at);
  beyond += !is_inside && has(inner, at);
}

/* ---- coverings */

static double positions[MOST * CORNERS * 2];

static void cover(s2u_cover_options options, s2u_cover_cells* outer, s2u_cover_cells* inner) {
  s2u_cover_ring all[MOST];
  const s2u_cover_shape shape = {positions, all, (size_t)count};
  s2u_cover_fault fault;
  for (int n = 0; n < count; n++) {
    all[n].end = (uint64_t)(CORNERS * (n + 1)), all[n].polygon = (uint64_t)n;
    for (int k = 0; k < CORNERS; k++) {
      positions[2 * (n * CORNERS + k)] = (double)rings[n][k].x * UNIT;
      positions[2 * (n * CORNERS + k) + 1] = (double)rings[n][k].y * UNIT;
    }
  }
  CHECK(s2u_cover(&shape, &options, outer, inner, &fault) == S2U_OK);
}

/* Places anywhere in the grid, at corners, and at and beside the middles of edges. */
static void ask_places(const s2u_cover_cells* outer, const s2u_cover_cells* inner, int64_t west, int64_t south,
                       int64_t wide, int64_t high) {
  for (int k = 0; k < 300; k++) {
    place at = {west - wide + among((WIDE + 2) * wide), south - high + among((HIGH + 2) * high)};
    const place* ring = rings[among(count)];
    int n = 1 + (int)among(CORNERS - 1);
    place middle = {(ring[n - 1].x + ring[n].x) / 2, (ring[n - 1].y + ring[n].y) / 2};
    ask_place(outer, inner, at);
    ask_place(outer, inner, ring[n]);
    ask_place(outer, inner, middle);
    ask_place(outer, inner, (place){middle.x + among(9) - 4, middle.y + among(9) - 4});
  }
}

/* The border of a whole grid. */
static void cover_border(s2u_cover_options options, s2u_cover_cells* outer, s2u_cover_cells* inner) {
  const s2u_cover_ring ring = {2 * BENT * (WIDE + HIGH) + 1, 0};
  const s2u_cover_shape shape = {positions, &ring, 1};
  s2u_cover_fault fault;
  size_t n = 0;
  for (int side = 0; side < 4; side++) {
    int length = (side % 2 ? HIGH : WIDE) * BENT;
    for (int k = 0; k < length; k++) {
      int at = side < 2 ? k : length - k, cell = at / BENT - (at == length), rest = at - cell * BENT;
      place it = side == 0   ? to_the_east[0][cell][rest]
                 : side == 1 ? to_the_north[WIDE][cell][rest]
                 : side == 2 ? to_the_east[HIGH][cell][rest]
                             : to_the_north[0][cell][rest];
      positions[n++] = (double)it.x * UNIT, positions[n++] = (double)it.y * UNIT;
    }
  }
  memcpy(positions + n, positions, 2 * sizeof(double));
  CHECK(s2u_cover(&shape, &options, outer, inner, &fault) == S2U_OK);
}

static int is_same(const s2u_cover_cells* a, const s2u_cover_cells* b) {
  return a->count == b->count && memcmp(a->ids, b->ids, 8 * a->count) == 0;
}

static void drop(s2u_cover_cells* outer, s2u_cover_cells* inner) {
  s2u_cover_free(outer);
  s2u_cover_free(inner);
}

/* The changes that are made to the parts. */
enum { WHOLE, MISSING, CHESS, TWICE, OVER, KINDS };

static void choose_parts(int kind, int may_turn) {
  count = 0;
  for (int i = 0; i < WIDE; i++) {
    for (int j = 0; j < HIGH; j++) {
      if ((kind == CHESS && (i + j) % 2) || (kind != WHOLE && kind != CHESS && among(6) == 0)) continue;
      add_part(i, j);
      if (kind == TWICE && among(5) == 0) add_part(i, j);
    }
  }
  for (int n = 0; n < count; n++) {
    if (kind == OVER && among(4) == 0) rings[n][5].x += among(2) ? 2000 : -30000;
    change_part(rings[n], may_turn);
  }
}

static void ask_grid(int64_t west, int64_t south, int64_t wide, int64_t high, int is_cap) {
  for (int kind = 0; kind < KINDS; kind++) {
    s2u_cover_options options = {(uint64_t[]){8, 40, 300, 3000}[among(4)], 0, 30, S2U_COVER_MAP, 0};
    s2u_cover_cells outer, inner, all, all_inner;
    if (kind == WHOLE && among(3) == 0) options.min_level = options.max_level = 9;
    bend_grid(west, south, wide, high, is_cap);
    choose_parts(kind, west < 170 / UNIT && !is_cap);
    cover(options, &outer, &inner);
    CHECK(options.min_level > 0 || (outer.count <= options.max_cells && inner.count <= options.max_cells));
    CHECK(s2u_contains(outer.ids, outer.count, inner.ids, inner.count) == 1);
    ask_places(&outer, &inner, west, south, wide, high);
    if (kind == WHOLE && !is_cap) {
      cover_border(options, &all, &all_inner);
      CHECK(is_same(&outer, &all) && is_same(&inner, &all_inner));
      drop(&all, &all_inner);
    }
    if (kind == WHOLE && is_cap) CHECK(has(&inner, (place){0, (int64_t)(90 / UNIT)}) || options.max_cells == 8);
    drop(&outer, &inner);
  }
}

/* ---- holes, and parts in parts */

static void put_box(double* at, double west, double south, double east, double north) {
  const double corners[10] = {west, south, east, south, east, north, west, north, west, south};
  memcpy(at, corners, sizeof corners);
}

typedef struct {
  int rings, polygons[3], is_box; /* whether the coverings are those of the first ring alone */
  double boxes[3][4];
  double inside[2], outside[2];
} nest;

static void ask_nests(void) {
  static const nest nests[] = {
      {3, {0, 0, 1}, 1, {{0, 0, 9, 9}, {3, 3, 6, 6}, {3, 3, 6, 6}}, {4, 4}, {-1, 4}},  /* a hole, and what fills it */
      {3, {0, 0, 1}, 0, {{0, 0, 9, 9}, {3, 3, 6, 6}, {4, 4, 5, 5}}, {4.5, 4.5}, {3.5, 4}}, /* and an island in it */
      {3, {0, 0, 1}, 0, {{0, 0, 9, 9}, {3, 3, 6, 6}, {3, 3, 4, 4}}, {3.5, 3.5}, {5, 5}},   /* in a corner of it */
      {2, {0, 1}, 1, {{0, 0, 9, 9}, {3, 3, 6, 6}}, {4, 4}, {-1, 4}},                        /* a part in another */
      {2, {0, 1}, 1, {{0, 0, 9, 9}, {0, 0, 9, 9}}, {4, 4}, {-1, 4}},                        /* the same part twice */
      {2, {0, 1}, 1, {{0, 0, 9, 9}, {0, 0, 6, 9}}, {4, 4}, {-1, 4}},                        /* along an edge of both */
      {3, {0, 0, 1}, 0, {{0, 0, 3, 3}, {20, 0, 29, 9}, {23, 3, 26, 6}}, {24, 4}, {15, 4}},  /* in the second ring */
      {2, {0, 1}, 0, {{0, 0, 9, 9}, {9, 9, 18, 18}}, {8.9, 8.9}, {8.9, 9.1}},               /* by a corner alone */
      {2, {0, 1}, 0, {{0, 0, 9, 1e-9}, {0, 1e-9, 9, 2e-9}}, {4, 1e-9}, {4, 1}},             /* thinner than a leaf */
      {2, {0, 1}, 0, {{0, 0, 9, 9}, {9, 3, 18, 6}}, {9, 4}, {9.1, 2.9}}}; /* by a corner along an edge */
  for (size_t n = 0; n < sizeof nests / sizeof *nests; n++) {
    s2u_cover_ring all[3];
    s2u_cover_shape shape = {positions, all, (size_t)nests[n].rings};
    const s2u_cover_options options = {2000, 0, 30, S2U_COVER_MAP, 0};
    s2u_cover_cells outer, inner, one, one_inner;
    s2u_cover_fault fault;
    const double *yes = nests[n].inside, *no = nests[n].outside;
    for (int k = 0; k < nests[n].rings; k++) {
      const double* box = nests[n].boxes[k];
      put_box(positions + 10 * k, box[0], box[1], box[2], box[3]);
      all[k].end = 5 * (uint64_t)k + 5, all[k].polygon = (uint64_t)nests[n].polygons[k];
    }
    CHECK(s2u_cover(&shape, &options, &outer, &inner, &fault) == S2U_OK);
    CHECK(s2u_contains_cell(outer.ids, outer.count, s2u_geo_leaf(yes[0], yes[1])) == 1);
    CHECK(s2u_contains_cell(inner.ids, inner.count, s2u_geo_leaf(no[0], no[1])) == 0);
    if (nests[n].is_box == 0) CHECK(s2u_contains_cell(outer.ids, outer.count, s2u_geo_leaf(no[0], no[1])) == 0);
    shape.count = 1;
    CHECK(s2u_cover(&shape, &options, &one, &one_inner, &fault) == S2U_OK);
    if (n == 0) CHECK(is_same(&outer, &one) && is_same(&inner, &one_inner));
    if (nests[n].is_box)
      for (int k = 0; k < 500; k++) {
        uint64_t leaf = s2u_geo_leaf((double)among(9000000) * 1e-6, (double)among(9000000) * 1e-6);
        CHECK(s2u_contains_cell(outer.ids, outer.count, leaf) == 1);
      }
    drop(&outer, &inner);
    drop(&one, &one_inner);
  }
}

int main(void) {
  ask_nests();
  const int64_t degree = (int64_t)(1 / UNIT);
  for (int k = 0; k < 16; k++) {
    int64_t size = degree / (INT64_C(1) << among(10)) * 2;
    ask_grid(-170 * degree + among(300 * degree), -75 * degree + among(130 * degree), size, size, 0);
    ask_grid(175 * degree, -75 * degree + among(130 * degree), size, size, 0); /* over the date line */
    ask_grid(-180 * degree, 75 * degree, TURN / WIDE, 3 * degree, 1);
  }
  CHECK(lost == 0);
  CHECK(beyond == 0);
  return report();
}
