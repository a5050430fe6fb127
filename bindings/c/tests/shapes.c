/* Coverings of shapes in degrees by s2union_cover.h: no place of a shape is missing in the outer covering, and none
 * that is outside lies in the inner one; what is refused, and where. The last line is 'N passed, M failed'. */
#include <s2union_cover.h>
#include "../../../tests/refuse.h"
#include "tests.h"

static double unit(void) { return (double)(draw() >> 11) / 9007199254740992.0; }

static double between(double low, double high) { return low + (high - low) * unit(); }

/* ---- what is covered */

typedef struct {
  s2u_cover_cells outer, inner;
  s2u_cover_fault fault;
  int32_t status;
} answer;

static const s2u_cover_options USUAL = {200, 0, 30, S2U_COVER_MAP, 0};

static answer cover(const double* positions, const s2u_cover_ring* rings, size_t count, s2u_cover_options options) {
  s2u_cover_shape shape = {positions, rings, count};
  answer it;
  it.status = s2u_cover(&shape, &options, &it.outer, &it.inner, &it.fault);
  if (it.status == S2U_OK) {
    CHECK(s2u_is_union(it.outer.ids, it.outer.count) == 1 && s2u_is_union(it.inner.ids, it.inner.count) == 1);
    CHECK(s2u_contains(it.outer.ids, it.outer.count, it.inner.ids, it.inner.count) == 1);
    CHECK(options.min_level > 0 || it.outer.count <= (options.max_cells < 6 ? 6 : options.max_cells));
    CHECK(options.min_level > 0 || it.inner.count <= options.max_cells);
  }
  return it;
}

static answer cover_ring(const double* positions, uint64_t count, s2u_cover_options options) {
  s2u_cover_ring ring = {count, 0};
  return cover(positions, &ring, 1, options);
}

static s2u_cover_options at_most(uint64_t cells) {
  s2u_cover_options options = USUAL;
  options.max_cells = cells;
  return options;
}

static int has(const s2u_cover_cells* cells, double longitude, double latitude) {
  return s2u_contains_cell(cells->ids, cells->count, s2u_geo_leaf(longitude, latitude)) == 1;
}

static void drop(answer* it) {
  s2u_cover_free(&it->outer);
  s2u_cover_free(&it->inner);
}

/* Of places of a shape, and of places beside it. */
static void decides(const answer* it, double longitude, double latitude, int is_inside, int line) {
  int is_so = it->status == S2U_OK && has(&it->outer, longitude, latitude) == is_inside &&
              has(&it->inner, longitude, latitude) == is_inside;
  if (!is_so) printf("line %d\n", line);
  CHECK(is_so);
}
#define INSIDE(it, x, y) decides(&it, x, y, 1, __LINE__)
#define OUTSIDE(it, x, y) decides(&it, x, y, 0, __LINE__)

/* ---- triangles, and places along their borders */

typedef struct {
  double x[4], y[4];
} triangle;

static int lost, beyond; /* places of triangles that aren't covered, and such outside of one that are in an interior */

static void ask_along(const triangle* it, const answer* covered, int count) {
  double middle_x = (it->x[0] + it->x[1] + it->x[2]) / 3, middle_y = (it->y[0] + it->y[1] + it->y[2]) / 3;
  for (int k = 0; k < count; k++) {
    int edge = k % 3;
    double part = unit(), near = k % 2 ? 1e-9 : pow(10, between(-9, -1));
    double x = it->x[edge] + part * (it->x[edge + 1] - it->x[edge]);
    double y = it->y[edge] + part * (it->y[edge + 1] - it->y[edge]);
    double east = near * (middle_x - x), north = near * (middle_y - y);
    lost += !has(&covered->outer, x + east, y + north);
    beyond += fabs(y - north) <= 90 && has(&covered->inner, x - east, y - north);
  }
}

static void ask_triangle(double west, double south, double size, int kind, uint64_t cells) {
  if (south < -90) south = -90;
  double north = south + size > 90 ? 90 : south + size, side = north - south;
  triangle it = {{west, west + side, kind ? west : west + side, west}, {south, north, kind ? north : south, south}};
  double positions[8];
  for (int k = 0; k < 4; k++) positions[2 * k] = it.x[k], positions[2 * k + 1] = it.y[k];
  answer covered = cover_ring(positions, 4, at_most(cells));
  CHECK(covered.status == S2U_OK);
  ask_along(&it, &covered, 1000);
  drop(&covered);
}

static void triangles(void) {
  static const uint64_t cells[] = {8, 50, 200, 2000};
  lost = beyond = 0;
  for (int k = 0; k < 200; k++) {
    double south = k % 3 == 0 ? between(0, 89.5) : k % 3 == 1 ? between(88, 89.9) : between(45, 85);
    double size = 0.25 * pow(10, between(k % 5 ? -3 : -7, 0));
    ask_triangle(between(-180, 180), k % 4 > 1 ? -south - size : south, size, k % 2, cells[k % 4]);
  }
  for (int k = 0; k < 2; k++) ask_triangle(between(-180, 180), between(0, 89), 0.1, k % 2, 50000);
  for (int k = 0; k < 8; k++) ask_triangle(between(-180, 180), between(0, 89), 1e-6, k % 2, 20000); /* to leaves */
  CHECK(lost == 0);
  CHECK(beyond == 0);
}

/* A polygon with a deep place that was lost once, and one whose edges turn around a pole in few positions. */
static void near_poles(void) {
  double narrow[] = {10, 89.5, 10.25, 89.75, 10, 89.75, 10, 89.5};
  answer it = cover_ring(narrow, 4, USUAL);
  CHECK(has(&it.outer, 10.109485995873941, 89.61448718429608));
  drop(&it);
  double around[] = {45, 90, 85, 89.9999985, 205, 89.9999985, 345, 89.9999985, 45, 90};
  it = cover_ring(around, 5, USUAL);
  CHECK(it.status == S2U_OK && has(&it.outer, 205, 89.9999985));
  drop(&it);
  double spiral[4 * 2 * 46 + 8];
  size_t count = 0;
  for (int k = 0; k < 4 * 46; k++) {
    spiral[2 * count] = k % 2 ? 539 : -539, spiral[2 * count + 1] = 89.9999 + 1e-7 * k;
    count++;
  }
  double ends[] = {-540, spiral[2 * count - 1], -540, 89.9998, spiral[0], spiral[1]};
  memcpy(spiral + 2 * count, ends, sizeof ends);
  it = cover_ring(spiral, count + 3, USUAL);
  CHECK(it.status == S2U_OK && has(&it.outer, spiral[0], spiral[1]));
  drop(&it);
}

/* How far random lines go from the shortest ways between their ends: no farther than is said, and some nearly so. */
static void bends(void) {
  double closest = 0;
  int wrong = 0;
  for (int k = 0; k < 20000; k++) {
    double side = 11.25 * pow(10, between(-4, 0)), wide = between(-side, side), high = between(-side, side);
    double south = between(-90 + fmax(0, -high), 90 - fmax(0, high));
    const double from[] = {between(-180, 180), south}, to[] = {from[0] + wide, south + high};
    double bend = s2u_cover_bend(from, to, 0), farthest = 0;
    s2u_cover_vector ends[2], at;
    for (int n = 0; n <= 16; n++) {
      double x = s2u_cover_radians(from[0] + n * wide / 16), y = s2u_cover_radians(from[1] + n * high / 16);
      at = s2u_cover_unit(cos(x) * cos(y), sin(x) * cos(y), sin(y));
      if (n == 0) {
        double east = s2u_cover_radians(to[0]), north = s2u_cover_radians(to[1]);
        ends[0] = at;
        ends[1] = s2u_cover_unit(cos(east) * cos(north), sin(east) * cos(north), sin(north));
      }
      farthest = fmax(farthest, sqrt(s2u_cover_distance(&at, &ends[0], &ends[1])));
    }
    wrong += farthest > bend + 1e-15 / s2u_cover_radians(side); /* so exact is a short line's direction */
    if (side > 1) closest = fmax(closest, farthest / bend);
  }
  CHECK(wrong == 0);
  CHECK(closest > 0.9);
}

static void box_of(double west, double south, double east, double north, double* positions) {
  double corners[] = {west, south, east, south, east, north, west, north, west, south};
  memcpy(positions, corners, sizeof corners);
}

/* Edges are cut into no more pieces than the cells of the answer need. */
static void pieces(void) {
  double positions[10];
  const s2u_cover_ring ring = {5, 0};
  const s2u_cover_shape shape = {positions, &ring, 1};
  const size_t first = 0;
  const s2u_cover_part part = {&shape, &first, 1, NULL};
  box_of(0, 40, 20, 60, positions);
  for (int k = 0; k < 3; k++) { /* by few cells, by cells that aren't deep, and by many */
    const s2u_cover_options options = {k == 0 ? 8 : S2U_COVER_MOST_CELLS, 0, k == 1 ? 3 : 30, S2U_COVER_MAP, 0};
    const double length = s2u_cover_length(&part);
    const s2u_cover_wanted wanted = {&options, length, s2u_cover_size(length, &options), NULL, NULL};
    s2u_cover_build build;
    CHECK(s2u_cover_build_within(&build, &part, &wanted, length) == S2U_OK);
    CHECK(k < 2 ? build.corners.count < 50 : build.corners.count > 1000);
    s2u_cover_let_go(&build);
  }
}

/* ---- the date line and the poles */


static void date_line(void) {
  double positions[20];
  box_of(170, -5, 190, 5, positions);
  answer whole = cover_ring(positions, 5, at_most(5000));
  INSIDE(whole, 175, 0);
  INSIDE(whole, 180, 0);
  INSIDE(whole, -175, 0.1);
  OUTSIDE(whole, -169, 0);
  box_of(170, -5, 180, 5, positions);
  box_of(-180, -5, -170, 5, positions + 10);
  const s2u_cover_ring halves[] = {{5, 0}, {10, 1}};
  answer two = cover(positions, halves, 2, at_most(5000));
  INSIDE(two, 180, 0);
  INSIDE(two, -175, 0.1);
  OUTSIDE(two, -169, 0);
  drop(&two);
  drop(&whole);
  box_of(-180, -90, 180, -60, positions);
  answer south = cover_ring(positions, 5, at_most(2000));
  for (double x = -180; x <= 180; x += 20) {
    INSIDE(south, x, -61);
    INSIDE(south, x, -90);
    OUTSIDE(south, x, -59);
  }
  drop(&south);
  double coast[] = {-180, -90, -180, -80, -90, -60, 0, -70, 90, -65, 180, -80, 180, -90, 50, -90, -180, -90};
  south = cover_ring(coast, 9, at_most(2000));
  INSIDE(south, 180, -81);
  INSIDE(south, 30, -90);
  OUTSIDE(south, 0, -69);
  drop(&south);
  for (int is_beside = 0; is_beside < 2; is_beside++) { /* a part of the date line on its other side, or on the same */
    double stairs[] = {160, -10, 180, -10, 180, 10, 160, 10, 160, -10, -180, -5, -170, -5, -170, 5, -180, 5, -180, -5};
    for (int k = 10; k < 20; k += 2) stairs[k] += is_beside ? 360 : 0;
    answer it = cover(stairs, halves, 2, at_most(5000));
    CHECK(has(&it.outer, 180, 0) && has(&it.inner, 180, 0) == !is_beside);
    INSIDE(it, -179, 0);
    INSIDE(it, 179.9, 7);
    OUTSIDE(it, -179.9, 7);
    CHECK(has(&it.outer, 180, 7) && !has(&it.inner, 180, 7));
    drop(&it);
  }
}

/* Longitudes of boxes, and one inside and one outside of each; all are inside where both are the same. */
static void boxes(void) {
  const double some[][4] = {{170, -170, 175, 165},  {200, -170, 0, -165}, {540, 530, 0, 175}, {-540, 530, 0, 0},
                            {-360, 360, -135, -135}, {0, 400, 20, 20},     {-540, 540, 0, 0},  {539, -539, 180, 0}};
  for (size_t k = 0; k < sizeof some / sizeof *some; k++) {
    answer it;
    s2u_cover_options options = at_most(2000);
    it.status = s2u_cover_box(some[k][0], -5, some[k][1], 5, &options, &it.outer, &it.inner, &it.fault);
    INSIDE(it, some[k][2], 1);
    if (some[k][3] != some[k][2]) OUTSIDE(it, some[k][3], 1);
    OUTSIDE(it, some[k][2], 6);
    drop(&it);
    CHECK(s2u_cover_box(some[k][0], -5, 541, 5, &options, &it.outer, NULL, &it.fault) == S2U_COVER_NUMBER);
    CHECK(s2u_cover_box(some[k][0], 5, some[k][1], -5, &options, &it.outer, &it.inner, &it.fault) == S2U_ARGUMENT);
    CHECK(!it.outer.ids && !it.inner.ids && it.outer.count + it.inner.count == 0);
  }
}

static void whole_sphere(void) {
  double positions[20];
  for (int begin = -180; begin <= 0; begin += 180) {
    box_of(begin, -90, begin + 360, 90, positions);
    answer it = cover_ring(positions, 5, USUAL);
    CHECK(it.status == S2U_OK && it.outer.count == 6 && it.inner.count == 6);
    drop(&it);
  }
  box_of(20, 10, 30, 20, positions + 10);
  const s2u_cover_ring rings[] = {{5, 0}, {10, 0}};
  box_of(-180, -90, 180, 90, positions);
  answer it = cover(positions, rings, 2, at_most(2000));
  INSIDE(it, 0, 90);
  INSIDE(it, 180, 0);
  INSIDE(it, 31, 15);
  OUTSIDE(it, 25, 15);
  drop(&it);
  box_of(-180, -90, 180, 89.999, positions);
  it = cover_ring(positions, 5, USUAL);
  INSIDE(it, 0, 89);
  CHECK(!has(&it.inner, 0, 90));
  drop(&it);
  double hole[20] = {-180, -90, 180, -90, 180, 90, -180, 90, -180, -90, 5, 5, 5, 5, 6, 5, 6, 6, 5, 5};
  it = cover(hole, rings, 2, at_most(2000)); /* whose first edge has no length */
  INSIDE(it, 4, 5);
  OUTSIDE(it, 5.7, 5.3);
  drop(&it);
}

/* Shapes that have all places together, and of which no polygon has. */
static void together_everywhere(void) {
  double boxes[8 * 10 + 4];
  s2u_cover_ring rings[9];
  for (int k = 0; k < 8; k++) {
    box_of(k % 4 * 90 - 180, k / 4 * 90 - 90, k % 4 * 90 - 90, k / 4 * 90, boxes + 10 * k);
    rings[k].end = 5 * (uint64_t)k + 5, rings[k].polygon = (uint64_t)k;
  }
  answer it = cover(boxes, rings, 8, USUAL);
  CHECK(it.status == S2U_OK && it.outer.count == 6 && it.inner.count == 6); /* no edge is left */
  drop(&it);
  boxes[2] = boxes[4] = -89.9; /* and where two of them overlap, their edges stay */
  it = cover(boxes, rings, 8, USUAL);
  CHECK(it.status == S2U_OK && it.outer.count == 6 && has(&it.inner, 45, 45) && !has(&it.inner, -90, -45));
  drop(&it);
  double line[] = {-180, -90, 180, -90, 180, 90, -180, 90, -180, -90, 1, 2, 3, 4};
  const s2u_cover_ring both[] = {{5, 0}, {7, S2U_COVER_LINE}};
  it = cover(line, both, 2, USUAL);
  CHECK(it.status == S2U_OK && it.outer.count == 6 && it.inner.count == 6);
  drop(&it);
}

/* Parts of a polygon that lie on each other after a turn cancel; the edges on both sides of its ends don't. */
static void around_twice(void) {
  double positions[10];
  box_of(-360, -10, 360, 10, positions);
  answer it = cover_ring(positions, 5, at_most(2000));
  OUTSIDE(it, 90, 0);
  CHECK(has(&it.outer, 0, 0) && has(&it.outer, 90, 10) && it.inner.count == 0);
  drop(&it);
  box_of(-180, -10, 270, 10, positions);
  it = cover_ring(positions, 5, at_most(2000));
  OUTSIDE(it, -135, 0);
  INSIDE(it, 0, 0);
  drop(&it);
}

/* ---- rings that meet, and polygons that overlap */

static void crossings(void) {
  double bow[] = {0, 0, 10, 10, 10, 0, 0, 10, 0, 0};
  answer it = cover_ring(bow, 5, at_most(2000));
  INSIDE(it, 2, 5);
  INSIDE(it, 8, 5);
  OUTSIDE(it, 5, 2);
  drop(&it);
  double two[20];
  box_of(0, 0, 10, 10, two);
  box_of(5, 5, 15, 15, two + 10);
  const s2u_cover_ring polygons[] = {{5, 0}, {10, 1}}, rings[] = {{5, 0}, {10, 0}};
  it = cover(two, polygons, 2, at_most(4000));
  INSIDE(it, 7, 7);
  INSIDE(it, 3, 3);
  INSIDE(it, 12, 12);
  OUTSIDE(it, 12, 3);
  drop(&it);
  it = cover(two, rings, 2, at_most(4000));
  INSIDE(it, 3, 3);
  OUTSIDE(it, 7, 7);
  drop(&it);
  for (int within = 0; within < 3; within++) { /* one in the other: away from it, at its corner, the same */
    box_of(within ? 0 : 3, within ? 0 : 3, within == 2 ? 10 : 5, within == 2 ? 10 : 5, two + 10);
    it = cover(two, polygons, 2, at_most(2000));
    INSIDE(it, 4, 4);
    INSIDE(it, 8, 8);
    drop(&it);
  }
  box_of(-10, -10, 365, 10, two); /* wider than the earth */
  it = cover_ring(two, 5, at_most(2000));
  INSIDE(it, 100, 0);
  drop(&it);
}

/* Two bars, upright and level, that make a cross on any two turns of the map, of which neither has a corner of the
 * other: the places of either are inside. */
static void crosses(void) {
  double positions[20];
  const s2u_cover_ring rings[] = {{5, 0}, {10, 1}};
  for (int k = 0; k < 3 * 9; k++) {
    const double x = (const double[]){-170, 20, 181.5}[k / 9];
    const double up = x + 360 * (k % 3 - 1), flat = x + 360 * (k / 3 % 3 - 1);
    if (fabs(up) > 530 || fabs(flat) > 530) continue;
    box_of(up - 1, -5, up + 1, 5, positions);
    box_of(flat - 8, -1, flat + 8, 1, positions + 10);
    for (int turned = 0; turned < 2; turned++) {
      answer it = cover(positions, rings, 2, at_most(2000));
      INSIDE(it, x, 0);
      INSIDE(it, x + 0.9, 4.9);
      INSIDE(it, x - 0.9, -0.9);
      INSIDE(it, x - 7.9, 0.9);
      OUTSIDE(it, x + 1.1, 1.1);
      drop(&it);
      box_of(flat - 8, -1, flat + 8, 1, positions);
      box_of(up - 1, -5, up + 1, 5, positions + 10);
    }
  }
}

/* A small polygon that overlaps with a large one, over the middle of a face, doesn't make its covering a face. */
static void small_beside_large(void) {
  double positions[20];
  const s2u_cover_ring rings[] = {{5, 0}, {10, 1}};
  box_of(60, 45, 180, 77, positions);
  box_of(179, 70, 180.1, 71, positions + 10);
  for (uint64_t most = 20; most <= 200; most *= 10) {
    answer it = cover(positions, rings, 2, at_most(most));
    CHECK(has(&it.outer, 180.05, 70.5) && has(&it.outer, 60, 45) && !has(&it.outer, -90, 70));
    drop(&it);
  }
}

static void many_islands(void) {
  enum { ISLANDS = 40 };
  double positions[10 * (ISLANDS + 1)];
  s2u_cover_ring rings[ISLANDS + 1];
  for (int k = 0; k < ISLANDS; k++) {
    double west = between(-20, 20), south = between(-20, 20), size = between(0.5, 5);
    box_of(west, south, west + size, south + size, positions + 10 * k);
    rings[k].end = 5 * ((uint64_t)k + 1), rings[k].polygon = (uint64_t)k;
  }
  answer it = cover(positions, rings, ISLANDS, at_most(3000));
  int wrong = 0;
  for (int k = 0; k < 20000; k++) {
    double x = between(-22, 27), y = between(-22, 27);
    int is_inside = 0;
    for (int n = 0; n < ISLANDS; n++) {
      const double* box = positions + 10 * n;
      is_inside |= box[0] <= x && x <= box[2] && box[1] <= y && y <= box[5];
    }
    wrong += is_inside ? !has(&it.outer, x, y) : has(&it.inner, x, y);
  }
  CHECK(wrong == 0);
  drop(&it);
}

/* ---- lines, points, margins, circles */

static void lines(void) {
  const double positions[] = {0, 0, 10, 5, 20, 0, 50, 50, 100, -20};
  const s2u_cover_ring rings[] = {{3, S2U_COVER_LINE}, {4, S2U_COVER_LINE}, {5, S2U_COVER_LINE}};
  answer it = cover(positions, rings, 3, at_most(1000));
  CHECK(it.status == S2U_OK && it.inner.count == 0);
  for (double k = 0; k <= 1; k += 0.01) CHECK(has(&it.outer, 10 * k, 5 * k) && has(&it.outer, 10 + 10 * k, 5 - 5 * k));
  CHECK(has(&it.outer, 50, 50) && has(&it.outer, 100, -20) && !has(&it.outer, 10, 0));
  drop(&it);
  it = cover(positions, rings, 1, at_most(0));
  CHECK(it.status == S2U_OK && it.outer.count >= 1 && it.outer.count <= 6);
  drop(&it);
  const s2u_cover_ring one[] = {{1, S2U_COVER_LINE}};
  it = cover(positions, one, 1, USUAL);
  CHECK(it.outer.count >= 1 && has(&it.outer, 0, 0) && !has(&it.outer, 1e-5, 1e-5));
  drop(&it);
  s2u_cover_options wide = at_most(3000);
  it.status = s2u_cover_corridor(positions, 3, 20000, &wide, &it.outer, &it.fault);
  CHECK(it.status == S2U_OK && has(&it.outer, 5.03, 2.43) && has(&it.outer, 0, -0.089) && !has(&it.outer, 5, 2.3));
  s2u_cover_free(&it.outer);
  wide.margin = 50000; /* which is added to half of the width */
  it.status = s2u_cover_corridor(positions, 3, 20000, &wide, &it.outer, &it.fault);
  CHECK(it.status == S2U_OK && has(&it.outer, 0, -0.53) && !has(&it.outer, 0, -0.8));
  s2u_cover_free(&it.outer);
}

static double meters_between(double x, double y, double to_x, double to_y) {
  double a = sin(s2u_cover_radians(to_y - y) / 2), b = sin(s2u_cover_radians(to_x - x) / 2);
  return 2 * S2U_COVER_EARTH * asin(sqrt(a * a + cos(s2u_cover_radians(y)) * cos(s2u_cover_radians(to_y)) * b * b));
}

static void circles(void) {
  int wrong = 0;
  for (int k = 0; k < 60; k++) {
    double x = between(-180, 180), y = k % 3 ? between(-80, 80) : 90 - pow(10, between(-6, 1));
    double radius = pow(10, between(0, 6.5)), degrees = radius / S2U_COVER_EARTH * (180 / S2U_GEO_PI);
    s2u_cover_options options = at_most(k % 2 ? 20 : 1000);
    answer it;
    it.status = s2u_cover_circle(x, y, radius, &options, &it.outer, &it.inner, &it.fault);
    CHECK(it.status == S2U_OK && it.inner.count > 0 && has(&it.outer, x, y) && (k % 2 || has(&it.inner, x, y)));
    for (int n = 0; n < 1000; n++) {
      double north = y + between(-1.2, 1.2) * degrees;
      double east = x + between(-1.2, 1.2) * degrees / fmax(0.01, cos(s2u_cover_radians(y)));
      if (!(fabs(north) <= 90)) continue;
      double meters = meters_between(x, y, east, north);
      wrong += meters < radius * (1 - 1e-9) - 1e-6 ? !has(&it.outer, remainder(east, 360), north) : 0;
      wrong += meters > radius * (1 + 1e-9) + 1e-6 ? has(&it.inner, remainder(east, 360), north) : 0;
    }
    drop(&it);
  }
  CHECK(wrong == 0);
}

static void margins(void) {
  double box[10];
  box_of(0, 60, 1, 61, box);
  s2u_cover_options options = at_most(2000);
  options.margin = 5000;
  answer it = cover_ring(box, 5, options);
  double degrees = 5000 / S2U_COVER_EARTH * (180 / S2U_GEO_PI);
  CHECK(has(&it.outer, 0.5, 60 - 0.999 * degrees) && has(&it.outer, -1.99 * degrees, 60.5));
  CHECK(!has(&it.outer, 0.5, 60 - 2.5 * degrees) && !has(&it.inner, 0.5, 60 + 0.999 * degrees));
  CHECK(has(&it.inner, 0.5, 60.5));
  drop(&it);
  for (int k = 0; k < 4; k++) { /* from a face to the next: there a margin is widest on it, at their border */
    const double turn = 90 * k - 180, line[] = {turn, 0, turn + 80, 0, turn + 90, 0};
    options.edges = S2U_COVER_GEODESIC, options.margin = 300000;
    it.status = s2u_cover_corridor(line, 3, 0, &options, &it.outer, &it.fault);
    for (double x = 0; x < 90; x++)
      CHECK(has(&it.outer, turn + x, 59.9 * degrees) && has(&it.outer, turn + x, -59.9 * degrees));
    s2u_cover_free(&it.outer);
  }
  CHECK(s2u_cover_level_within(1e9) == 0 && s2u_cover_level_within(1) == 24 && s2u_cover_level_within(0) == 30);
}

/* A margin is a number of 64 bits, also if no number of 64 bits is as great, or if edges bend by what is no number. */
static void greatest_margins(void) {
  static const double bends[] = {1e9, 18.5, INFINITY, -INFINITY, -1, NAN};
  const s2u_cover_options options = {200, 0, 30, S2U_COVER_MAP, S2U_COVER_MOST_MARGIN};
  s2u_cover_build build;
  memset(&build, 0, sizeof build);
  const double radians = S2U_COVER_MOST_MARGIN / S2U_COVER_EARTH + S2U_COVER_ROUNDING;
  const double margin = (double)s2u_cover_margin(&build, &options) / (double)S2U_COVER_WHOLE;
  CHECK(margin >= radians && margin <= 3 * radians);
  for (size_t k = 0; k < sizeof bends / sizeof *bends; k++) {
    build.bend = bends[k];
    CHECK(s2u_cover_margin(&build, &options) == UINT64_MAX);
  }
}

/* Cells at the border are as deep as is asked for, however many they are. */
static void least_levels(void) {
  double box[10];
  box_of(0, 0, 10, 10, box);
  s2u_cover_options options = at_most(8);
  options.min_level = 8;
  answer it = cover_ring(box, 5, options), rough = cover_ring(box, 5, at_most(8));
  CHECK(it.outer.count > 100 && it.inner.count > 100 && !has(&it.outer, -1, 5) && has(&it.inner, 9, 9));
  CHECK(s2u_contains(rough.outer.ids, rough.outer.count, it.outer.ids, it.outer.count) == 1);
  CHECK(s2u_contains(it.inner.ids, it.inner.count, rough.inner.ids, rough.inner.count) == 1);
  drop(&rough);
  for (double k = 0; k <= 10; k += 0.25) CHECK(has(&it.outer, k, 0) && has(&it.outer, 10, k));
  drop(&it);
  options.min_level = 24;
  it = cover_ring(box, 5, options);
  CHECK(it.status == S2U_MANY);
  drop(&it);
  /* at once, also of an interior alone that has no cell, and of a wide margin */
  const double sliver[8] = {0, 40, 170, 40, 170, 40.0000001, 0, 40};
  const s2u_cover_ring ring = {4, 0};
  const s2u_cover_shape shape = {sliver, &ring, 1};
  options.min_level = 30;
  CHECK(s2u_cover(&shape, &options, NULL, &it.inner, &it.fault) == S2U_MANY && !it.inner.ids);
  options.min_level = 18, options.margin = S2U_COVER_MOST_MARGIN;
  CHECK(s2u_cover(&shape, &options, &it.outer, NULL, &it.fault) == S2U_MANY && !it.outer.ids);
}

static int is_same(const s2u_cover_cells* a, const s2u_cover_cells* b) {
  return a->count == b->count && memcmp(a->ids, b->ids, 8 * a->count) == 0;
}

/* Cells of one level are those of the library's call for a level. An outer covering of few cells that are no deeper has
 * all of them, and an inner one no more. */
static void one_level(void) {
  enum { CORNERS = 60 };
  for (uint32_t level = 1; level <= 12; level++) {
    double positions[2 * CORNERS + 2], x = between(-170, 170), y = between(-60, 60);
    for (int k = 0; k < CORNERS; k++) {
      const double turn = 2 * S2U_GEO_PI * k / CORNERS, far = 4 * between(0.5, 1);
      positions[2 * k] = x + far * cos(turn), positions[2 * k + 1] = y + far * sin(turn);
    }
    memcpy(positions + 2 * CORNERS, positions, 2 * sizeof(double));
    const s2u_cover_ring ring = {CORNERS + 1, 0};
    const s2u_cover_shape shape = {positions, &ring, 1};
    const size_t first = 0;
    const s2u_cover_part part = {&shape, &first, 1, NULL};
    s2u_cover_options options = {1 + level * 9, level, level, level % 3, 0}, few = options;
    few.min_level = 0;
    answer it = cover_ring(positions, CORNERS + 1, options), rough = cover_ring(positions, CORNERS + 1, few);
    const double length = s2u_cover_length(&part);
    const s2u_cover_wanted wanted = {&options, length, s2u_cover_size(length, &options), NULL, NULL};
    s2u_cover_build build;
    CHECK(s2u_cover_build_within(&build, &part, &wanted, length) == S2U_OK);
    for (int is_outer = 0; is_outer < 2; is_outer++) {
      static uint64_t ids[100000];
      s2u_cover_cells all = {ids, 0};
      CHECK((is_outer ? s2u_polygon_outer : s2u_polygon_inner)(
                (const s2u_direction*)build.corners.at, build.corners.count, (const size_t*)build.ends.at,
                build.ends.count, s2u_geo_leaf(x + 180, -y), s2u_cover_margin(&build, &options), level, 100000, ids,
                100000, &all.count) == S2U_OK);
      CHECK(is_same(is_outer ? &it.outer : &it.inner, &all));
    }
    CHECK(s2u_contains(rough.outer.ids, rough.outer.count, it.outer.ids, it.outer.count) == 1);
    CHECK(s2u_contains(it.inner.ids, it.inner.count, rough.inner.ids, rough.inner.count) == 1);
    s2u_cover_let_go(&build);
    drop(&it);
    drop(&rough);
  }
}

static void geodesic(void) {
  double box[10];
  box_of(0, 40, 10, 49, box);
  s2u_cover_options options = at_most(4000);
  answer it = cover_ring(box, 5, options);
  OUTSIDE(it, 5, 49.03); /* the shortest way between the northern corners lies 12 km to the north */
  drop(&it);
  options.edges = S2U_COVER_GEODESIC;
  it = cover_ring(box, 5, options);
  INSIDE(it, 5, 49.05);
  OUTSIDE(it, 5, 40.02);
  drop(&it);
  for (int k = 0; k < 4; k++) { /* the other way around: its outside, if asked */
    double back[10];
    for (int n = 0; n < 5; n++) memcpy(back + 2 * n, box + 2 * (k % 2 ? 4 - n : n), 16);
    options.edges = k / 2 ? S2U_COVER_LEFT : S2U_COVER_GEODESIC;
    it = cover_ring(back, 5, options);
    decides(&it, 5, 45, k != 3, __LINE__);
    decides(&it, -100, -45, k == 3, __LINE__);
    drop(&it);
  }
  const double isles[][3] = {{2, 48, 1}, {2, 48, 1e-4}, {0, 89, 0.01}, {180, 0, 1e-5}}; /* with all else on the left */
  for (int k = 0; k < 4; k++) {
    const double x = isles[k][0], y = isles[k][1], size = isles[k][2];
    double back[] = {x, y, x, y + size, x + size, y + size, x + size, y, x, y};
    options.edges = S2U_COVER_LEFT;
    it = cover_ring(back, 5, options);
    OUTSIDE(it, x + size / 2, y + size / 2);
    INSIDE(it, x, y - size / 2);
    INSIDE(it, x - 90, -y);
    drop(&it);
  }
  const double speck = 1e-7; /* beside whose edges no leaf is outside, so that of the next ring is */
  double holes[] = {100, 0, 100, speck, 100 + speck, speck, 100 + speck, 0, 100, 0, 2, 48, 2, 49, 3, 49, 3, 48, 2, 48};
  const s2u_cover_ring both[] = {{5, 0}, {10, 0}};
  options.edges = S2U_COVER_LEFT;
  it = cover(holes, both, 2, options);
  OUTSIDE(it, 2.5, 48.5);
  INSIDE(it, 60, 30);
  INSIDE(it, -90, -40);
  drop(&it);
  double far[] = {0, 0, 180, 0, 90, 10, 0, 0};
  it = cover_ring(far, 4, options);
  CHECK(it.status == S2U_COVER_OPPOSITE && it.fault.ring == 0 && it.fault.position == 0);
  options.edges = S2U_COVER_MAP;
  it = cover_ring(far, 4, options);
  INSIDE(it, 90, 5);
  drop(&it);
}

/* The eighth of the sphere between the axes: the area of the side that a place isn't on, from each of its corners. */
static void areas(void) {
  const s2u_direction eighth[] = {{9, 0, 0}, {0, 9, 0}, {0, 0, 9}, {9, 0, 0},
                                  {0, 9, 0}, {0, 0, 9}, {9, 0, 0}, {0, 9, 0}};
  const s2u_direction back[] = {{0, 0, 9}, {0, 9, 0}, {9, 0, 0}};
  const s2u_cover_vector inside = s2u_cover_unit(1, 2, 3), outside = s2u_cover_unit(-3, 1, -2);
  for (int k = 0; k < 3; k++) {
    CHECK(fabs(s2u_cover_area_beside(eighth + k, 3, &outside) - S2U_GEO_PI / 2) < 1e-9);
    CHECK(fabs(s2u_cover_area_beside(eighth + k, 3, &inside) + 3.5 * S2U_GEO_PI) < 1e-9);
    CHECK(fabs(s2u_cover_area_beside(eighth + k, 6, &outside) - S2U_GEO_PI) < 1e-9); /* twice around */
  }
  CHECK(fabs(s2u_cover_area_beside(back, 3, &outside) + S2U_GEO_PI / 2) < 1e-9);
}

/* Cells of which no six have all but the faces: these come, and not an error. */
static void few_for_all_faces(void) {
  const s2u_cover_options options = at_most(4);
  s2u_cover_cells cells = {NULL, 0};
  CHECK(s2u_cover_resize(&cells, 12));
  for (uint32_t k = 0; k < 12; k++) /* two on each face, in two cells of level 1 */
    cells.ids[cells.count++] = s2u_parent(s2u_from_face_ij(k / 2, k % 2 ? S2U_GEO_SIDE - 1 : 0, 0), 3);
  CHECK(s2u_cover_unite(&cells, &options, 1) == S2U_OK && cells.count == 6);
  for (size_t k = 0; k < cells.count; k++) CHECK(s2u_level(cells.ids[k]) == 0);
  s2u_cover_free(&cells);
}

/* Rings with the inside on the left that run out and back on themselves have no place inside: they are covered as
 * lines, by the same cells as with any place outside. */
static void out_and_back(void) {
  static const double rings[][12] = {
      {20, 10, 20, 10, 20, 40, 20, 40, 20, 10},           /* boxes of no width, of no height, and of neither */
      {20, 10, 50, 10, 50, 10, 20, 10, 20, 10},           {20, 10, 20, 10, 20, 10, 20, 10, 20, 10},
      {-180, -10, 180, -10, 180, 60, -180, 60, -180, -10}, /* of 360 degrees, and of more */
      {-100, 20, 260, 20, 260, 50, -100, 50, -100, 20},   {-360, 0, 360, 0, 360, 30, -360, 30, -360, 0},
      {-180, 70, 180, 70, 180, 90, -180, 90, -180, 70},   {10, -80, 370, -80, 370, 85, 10, 85, 10, -80},
      {0, 0, 30, 20, 60, 10, 30, 20, 0, 0, 0, 0},         /* lines */
      {0, 0, 20, 0, 50, 0, 40, 0, 10, 0, 0, 0},           {90, -40, 90, 50, 90, 20, 90, -10, 90, 0, 90, -40}};
  for (size_t k = 0; k < sizeof rings / sizeof *rings; k++) {
    s2u_cover_options options = at_most(500);
    const uint64_t count = k < 8 ? 5 : 6;
    options.edges = S2U_COVER_LEFT;
    answer left = cover_ring(rings[k], count, options);
    options.edges = S2U_COVER_GEODESIC;
    answer geodesic = cover_ring(rings[k], count, options);
    CHECK(left.status == S2U_OK && left.inner.count == 0 && left.outer.count > 0);
    CHECK(left.outer.count == geodesic.outer.count &&
          memcmp(left.outer.ids, geodesic.outer.ids, 8 * left.outer.count) == 0);
    for (uint64_t n = 0; n < count; n++) CHECK(has(&left.outer, rings[k][2 * n], rings[k][2 * n + 1]));
    CHECK(!has(&left.outer, 65, 5) && !has(&left.outer, -50, -45));
    drop(&left);
    drop(&geodesic);
  }
  double both[20] = {-180, 80,  180, 80,  180, 90,  -180, 90,  -180, 80,
                     -180, -90, 180, -90, 180, -80, -180, -80, -180, -90};
  const s2u_cover_ring caps[] = {{5, 0}, {10, 1}}, turned[] = {{5, 0}, {10, 0}};
  s2u_cover_options options = at_most(500);
  options.edges = S2U_COVER_LEFT;
  answer it = cover(both, caps, 2, options);
  CHECK(it.status == S2U_OK && has(&it.outer, 180, 85) && has(&it.outer, 180, -85) && !has(&it.outer, 0, 85));
  drop(&it);
  box_of(2, 48, 3, 49, both); /* a ring, and the same the other way around */
  for (int k = 0; k < 10; k++) both[10 + k] = both[8 - k / 2 * 2 + k % 2];
  it = cover(both, turned, 2, options);
  CHECK(it.status == S2U_OK && it.inner.count == 0 && has(&it.outer, 2.5, 48) && !has(&it.outer, 2.5, 48.5));
  drop(&it);
  const double small[] = {2, 48, 2, 48 + 1e-7, 2 + 1e-7, 48 + 1e-7, 2 + 1e-7, 48, 2, 48}; /* all but some leaves */
  it = cover_ring(small, 5, options);
  CHECK(it.status == S2U_COVER_OUTSIDE || has(&it.inner, 60, 30));
  drop(&it);
}

/* ---- what is refused, and where */

static void refused(void) {
  const double wrong[][2] = {{541, 0}, {-540.1, 0}, {0, 90.1},     {0, -91},
                             {NAN, 0}, {0, NAN},    {INFINITY, 0}, {0, -INFINITY}};
  double positions[20];
  const s2u_cover_ring rings[] = {{5, 0}, {10, 0}};
  for (size_t k = 0; k < sizeof wrong / sizeof *wrong; k++) {
    box_of(0, 0, 1, 1, positions);
    box_of(0, 0, 1, 1, positions + 10);
    memcpy(positions + 14, wrong[k], sizeof wrong[k]);
    answer it = cover(positions, rings, 2, USUAL);
    CHECK(it.status == S2U_COVER_NUMBER && it.fault.ring == 1 && it.fault.position == 2 && it.outer.ids == NULL);
  }
  box_of(0, 0, 1, 1, positions);
  CHECK(cover_ring(positions, 4, USUAL).status == S2U_COVER_OPEN);
  CHECK(cover_ring(positions, 3, USUAL).status == S2U_COVER_FEW);
  CHECK(cover_ring(positions, 0, USUAL).status == S2U_COVER_FEW);
  const s2u_cover_ring back[] = {{5, 0}, {4, 0}}, none[] = {{0, S2U_COVER_LINE}};
  answer it = cover(positions, back, 2, USUAL);
  CHECK(it.status == S2U_COVER_FEW && it.fault.ring == 1);
  CHECK(cover(positions, none, 1, USUAL).status == S2U_COVER_FEW);
  it = cover(NULL, NULL, 0, USUAL);
  CHECK(it.status == S2U_OK && it.outer.count == 0 && it.inner.count == 0);
  const s2u_cover_options options[] = {{1000001, 0, 30, 0, 0}, {1, 0, 31, 0, 0}, {1, 9, 8, 0, 0}, {1, 0, 30, 3, 0},
                                     {1, 0, 30, 0, -1},      {1, 0, 30, 0, NAN}, {1, 0, 30, 0, 1e9}};
  for (size_t k = 0; k < sizeof options / sizeof *options; k++)
    CHECK(cover_ring(positions, 5, options[k]).status == S2U_COVER_OPTION);
  s2u_cover_options too_deep = options[1];
  CHECK(s2u_cover_keep_within(&too_deep, 1000) == S2U_COVER_OPTION && too_deep.max_level == 31);
  enum { LONG = 4000 };
  double* comb = malloc(16 * LONG);
  for (int k = 0; comb && k < LONG; k++)
    comb[2 * k] = k % 2 ? 539 : -539, comb[2 * k + 1] = k % 2 ? 60 : -60 + 1e-3 * k;
  if (comb) memcpy(comb + 2 * (LONG - 1), comb, 16);
  if (comb) CHECK(cover_ring(comb, LONG, USUAL).status == S2U_COVER_PIECES);
  free(comb);
  for (int32_t status = S2U_COVER_GEOJSON; status <= S2U_COVER_NUMBER; status++)
    CHECK(strlen(s2u_cover_status_text(status)) > 9);
}

/* ---- WKB */

static uint8_t written[4096];
static size_t size;
static int is_little;

static void put(uint64_t number, size_t bytes) {
  for (size_t k = 0; k < bytes; k++) written[size + (is_little ? k : bytes - 1 - k)] = (uint8_t)(number >> 8 * k);
  size += bytes;
}

static void put_type(uint64_t type) {
  written[size++] = (uint8_t)is_little;
  put(type, 4);
  if (type & 0x20000000) put(4326, 4);
}

static void put_positions(const double* positions, size_t count, size_t numbers) {
  for (size_t k = 0; k < count; k++) {
    for (size_t n = 0; n < numbers; n++) {
      double number = n < 2 ? positions[2 * k + n] : NAN;
      uint64_t bits;
      memcpy(&bits, &number, 8);
      put(bits, 8);
    }
  }
}

static void put_polygon(uint64_t flags, const double* positions, size_t numbers) {
  put_type(3 + flags);
  put(2, 4);
  for (int k = 0; k < 2; k++) {
    put(5, 4);
    put_positions(positions + 10 * k, 5, numbers);
  }
}

static int32_t of_bytes(size_t length, s2u_cover_cells* outer, s2u_cover_fault* fault) {
  uint8_t* bytes = malloc(length + 1); /* so that a sanitizer sees what is read behind them */
  int32_t status = bytes ? S2U_OK : S2U_MEMORY;
  if (bytes) memcpy(bytes, written, length);
  if (bytes) status = s2u_cover_wkb(bytes, length, &USUAL, outer, NULL, fault);
  free(bytes);
  return status;
}

static void wkb(void) {
  static const uint64_t flags[] = {0, 1000, 2000, 3000, 0x80000000, 0x40000000, 0xc0000000, 0x20000000, 0xe0000000};
  static const size_t numbers[] = {2, 3, 3, 4, 3, 3, 4, 2, 4};
  double positions[20];
  const s2u_cover_ring rings[] = {{5, 0}, {10, 0}};
  s2u_cover_cells cells;
  s2u_cover_fault fault;
  box_of(0, 0, 10, 10, positions);
  box_of(2, 2, 4, 4, positions + 10);
  answer it = cover(positions, rings, 2, USUAL);
  for (is_little = 0; is_little < 2; is_little++) {
    for (size_t k = 0; k < sizeof numbers / sizeof *numbers; k++) {
      for (uint64_t depth = 0; depth < 4; depth++) {
        size = 0;
        if (depth == 3) put_type(7), put(1, 4);
        if (depth > 1) put_type(7 + flags[k]), put(2, 4), put_type(1), put_positions(positions + 5, 1, 2);
        if (depth > 0) put_type(6 + flags[k]), put(1, 4);
        put_polygon(flags[k], positions, numbers[k]);
        int32_t status = of_bytes(size, &cells, &fault);
        CHECK(status == S2U_OK && is_same(&cells, &it.outer));
        s2u_cover_free(&cells);
        for (size_t less = 0; less < size; less++) {
          CHECK(of_bytes(less, &cells, &fault) == S2U_COVER_WKB && cells.ids == NULL && fault.position <= less);
        }
        written[size] = 0;
        CHECK(of_bytes(size + 1, &cells, &fault) == S2U_COVER_WKB && fault.position == size);
      }
    }
  }
  drop(&it);
  is_little = 1;
  size = 0, put_type(1), put_positions((const double[]){NAN, NAN}, 1, 2);
  CHECK(of_bytes(size, &cells, &fault) == S2U_OK && cells.count == 0);
  s2u_cover_free(&cells);
  size = 0, put_type(5), put(1, 4), put_type(2), put(2, 4), put_positions(positions, 2, 2);
  CHECK(of_bytes(size, &cells, &fault) == S2U_OK && has(&cells, 5, 0) && !has(&cells, 5, 5));
  s2u_cover_free(&cells);
  size = 0, put_type(4), put(1, 4), put_type(1), put_positions(positions + 4, 1, 2);
  CHECK(of_bytes(size, &cells, &fault) == S2U_OK && has(&cells, 10, 10) && cells.count <= 6);
  s2u_cover_free(&cells);
}

static void wkb_refused(void) {
  s2u_cover_cells cells;
  s2u_cover_fault fault;
  is_little = 1;
  for (uint64_t type = 0; type < 18; type++) { /* curves and surfaces, and what is none */
    if (type >= 1 && type <= 7) continue;
    size = 0, put_type(type), put(0, 4);
    CHECK(of_bytes(size, &cells, &fault) == S2U_COVER_TYPE && fault.position == 0);
  }
  size = 0, put_type(4003), put(0, 4);
  CHECK(of_bytes(size, &cells, &fault) == S2U_COVER_TYPE);
  size = 0, put_type(0x20000003), size -= 4, put(3857, 4), put(0, 4);
  CHECK(of_bytes(size, &cells, &fault) == S2U_COVER_SRID);
  size = 0, put_type(3), put(0xffffffff, 4);
  CHECK(of_bytes(size, &cells, &fault) == S2U_COVER_WKB && fault.position == 5);
  size = 0, put_type(3), put(1, 4), put(0x10000000, 4);
  CHECK(of_bytes(size, &cells, &fault) == S2U_COVER_WKB && fault.position == 9);
  size = 0, put_type(6), put(1, 4), put_type(2), put(0, 4);
  CHECK(of_bytes(size, &cells, &fault) == S2U_COVER_WKB && fault.position == 9);
  for (int depth = 30; depth < 40; depth++) {
    size = 0;
    for (int k = 0; k < depth; k++) put_type(7), put(1, 4);
    put_type(7), put(0, 4);
    CHECK(of_bytes(size, &cells, &fault) == (depth > 32 ? S2U_COVER_DEEP : S2U_OK));
    s2u_cover_free(&cells);
  }
  written[0] = 2;
  CHECK(of_bytes(9, &cells, &fault) == S2U_COVER_WKB);
}

/* ---- memory */

/* Whichever allocation is refused on the way: nothing stays allocated. Rings over the date line, polygons that overlap
 * and one without edges, by WKB. */
static void without_memory(void) {
  double boxes[40];
  s2u_cover_cells outer, inner;
  s2u_cover_fault fault;
  s2u_cover_options options = at_most(8);
  const double sides[4][4] = {{170, -5, 180, 5}, {-180, -9, -170, 2}, {0, 0, 9, 9}, {5, 5, 15, 15}};
  is_little = 1, size = 0, put_type(6), put(4, 4);
  for (int k = 0; k < 4; k++) {
    box_of(sides[k][0], sides[k][1], sides[k][2], sides[k][3], boxes + 10 * k);
    put_type(3), put(1, 4), put(5, 4), put_positions(boxes + 10 * k, 5, 2);
  }
  for (options.min_level = 0; options.min_level < 3; options.min_level += 2) {
    long blocks = blocks_taken(), turns = 0;
    int32_t status = S2U_MEMORY;
    for (; status == S2U_MEMORY && turns < 100000; turns++) {
      refuse_memory(turns + 1);
      status = s2u_cover_wkb(written, size, &options, &outer, &inner, &fault);
      refuse_memory(0);
      s2u_cover_free(&outer);
      s2u_cover_free(&inner);
      if (blocks_taken() != blocks) break;
    }
    CHECK(status == S2U_OK && turns > 20 && blocks_taken() == blocks);
  }
}

int main(void) {
  triangles();
  bends();
  pieces();
  near_poles();
  date_line();
  boxes();
  whole_sphere();
  together_everywhere();
  around_twice();
  crossings();
  crosses();
  small_beside_large();
  many_islands();
  lines();
  circles();
  margins();
  greatest_margins();
  least_levels();
  one_level();
  geodesic();
  areas();
  few_for_all_faces();
  out_and_back();
  refused();
  wkb();
  wkb_refused();
  without_memory();
  return report();
}
