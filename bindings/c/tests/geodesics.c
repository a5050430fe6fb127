/* Coverings with geodesic edges by s2union_cover.h, beside the shortest ways between corners as they are written, by
 * long doubles. Places of a shape are in its outer covering however long its edges are, and places outside of it in no
 * interior; what a covering has too much, or an interior too little, is within a cell of the border. The last line is
 * 'N passed, M failed'. */
#include <s2union_cover.h>
#include "tests.h"

typedef struct {
  long double x, y, z;
} place;

static const long double PI = 3.14159265358979323846264338327950288L;
static const double LENGTHS[] = {1, 30, 60, 89.9, 90.1, 120, 150, 170, 179, 179.9, 179.99, 179.999, 179.9999};
enum { COUNT = sizeof LENGTHS / sizeof *LENGTHS };

static double between(double low, double high) { return low + (high - low) * ((double)(draw() >> 11) / 0x1p53); }

static place mix(place a, long double p, place b, long double q) {
  return (place){p * a.x + q * b.x, p * a.y + q * b.y, p * a.z + q * b.z};
}

static long double dot(place a, place b) { return a.x * b.x + a.y * b.y + a.z * b.z; }

static place unit(place a) { return mix(a, 1 / sqrtl(dot(a, a)), a, 0); }

static place cross(place a, place b) {
  return (place){a.y * b.z - a.z * b.y, a.z * b.x - a.x * b.z, a.x * b.y - a.y * b.x};
}

static long double angle(place a, place b) { return atan2l(sqrtl(dot(cross(a, b), cross(a, b))), dot(a, b)); }

static place place_of(const double* degrees) {
  long double turn = PI * degrees[0] / 180, height = PI * degrees[1] / 180;
  return (place){cosl(turn) * cosl(height), sinl(turn) * cosl(height), sinl(height)};
}

static void put_degrees(place at, double* degrees) {
  degrees[0] = (double)(atan2l(at.y, at.x) * 180 / PI);
  degrees[1] = (double)(atan2l(at.z, sqrtl(at.x * at.x + at.y * at.y)) * 180 / PI);
}

static place anywhere(void) {
  double degrees[2] = {between(-180, 180), asin(between(-1, 1)) * (180 / (double)PI)};
  return place_of(degrees);
}

/* The place at an angle from another one, on a shortest way with this normal; and one at an angle to the left of it. */
static place along(place from, place normal, long double radians) {
  return mix(from, cosl(radians), cross(normal, from), sinl(radians));
}

static place beside(place at, place normal, long double radians) {
  return mix(at, cosl(radians), normal, sinl(radians));
}

/* The level of the cell in which a place lies, or -1. */
static int level_at(const s2u_cover_cells* cells, place at) {
  double degrees[2];
  put_degrees(at, degrees);
  uint64_t leaf = s2u_geo_leaf(degrees[0], degrees[1]);
  for (uint32_t level = 0; level <= 30; level++)
    if (s2u_contains_cell(cells->ids, cells->count, s2u_parent(leaf, level)) == 1) return (int)level;
  return -1;
}

static int has(const s2u_cover_cells* cells, place at) { return level_at(cells, at) >= 0; }

/* Two places, as they are written, of an edge of some length. */
static void draw_edge(double degrees, double* positions) {
  place from = anywhere(), normal = unit(cross(from, anywhere()));
  put_degrees(from, positions);
  put_degrees(along(from, normal, PI * degrees / 180), positions + 2);
}

/* ---- triangles */

static int lost, beyond, loose; /* places that a covering lacks, that an interior has, and that are too far */

/* Adds the third corner, at some distance beside the middle of the edge between the others: to the left if it is more
 * than 0. */
static void add_corner(double* positions, long double away) {
  place a = place_of(positions), b = place_of(positions + 2), normal = unit(cross(a, b));
  put_degrees(beside(along(a, normal, angle(a, b) / 2), normal, away), positions + 4);
  memcpy(positions + 6, positions, 2 * sizeof(double));
}

/* Asks places along the first edge of a triangle, and on both sides of it. Cells at the border have one level; this
 * wide they are at most, in radians, with what a margin of few millimeters is on a face. */
static void ask_triangle(const double* positions, int is_left, s2u_cover_options options, int count) {
  place a = place_of(positions), b = place_of(positions + 2), normal = unit(cross(a, b));
  long double length = angle(a, b), cell = 2.4387L / (1 << options.max_level) + 2e-9L;
  int is_turned = options.edges == S2U_COVER_LEFT && !is_left; /* all but the triangle */
  s2u_cover_ring ring = {4, 0};
  s2u_cover_shape shape = {positions, &ring, 1};
  s2u_cover_cells outer, inner;
  s2u_cover_fault fault;
  CHECK(s2u_cover(&shape, &options, &outer, &inner, &fault) == S2U_OK);
  for (int k = 0; k < count; k++) {
    place on = along(a, normal, length * between(0.3, 0.7));
    long double away = k % 4 == 0 ? 0 : k % 4 == 1 ? cell * between(1, 2) : powl(10, between(-12, -3)) * length;
    long double inward = is_left != is_turned ? away : -away;
    place inside = beside(on, normal, inward), outside = beside(on, normal, -inward);
    lost += !has(&outer, inside);
    beyond += has(&inner, outside);
    if (away > cell) loose += has(&outer, outside) + !has(&inner, inside);
  }
  s2u_cover_free(&outer);
  s2u_cover_free(&inner);
}

static void ask_triangles(void) {
  for (int k = 0; k < 4 * COUNT; k++) {
    double positions[8];
    int is_left = k % 2;
    draw_edge(LENGTHS[k / 4], positions);
    add_corner(positions, (is_left ? 1 : -1) * fminl(0.2L, PI * LENGTHS[k / 4] / 720));
    s2u_cover_options options = {200, 12, 12, k / 2 % 2 ? S2U_COVER_LEFT : S2U_COVER_GEODESIC, 0};
    ask_triangle(positions, is_left, options, 2000);
  }
}

/* Triangles of some meters, by leaves: what rounding takes from their borders is a part of a leaf. */
static void ask_small_triangles(void) {
  for (int k = 0; k < 100; k++) {
    double positions[8], degrees = 1e-5 * between(1, 4);
    int is_left = k % 2;
    draw_edge(degrees, positions);
    add_corner(positions, (is_left ? 1 : -1) * PI * degrees / 360);
    s2u_cover_options options = {200, 30, 30, S2U_COVER_GEODESIC, 0};
    ask_triangle(positions, is_left, options, 400);
  }
}

/* An edge of 179.9999 degrees with a corner on either side of its middle, by cells that are less than 1,000 m wide:
 * places as far inside, and as far outside. */
static void ask_far_corners(void) {
  for (int is_left = 0; is_left < 2; is_left++) {
    double positions[8] = {39.26929595, 8.0421246331647325, -140.73074826115345, -8.042214558292315};
    add_corner(positions, is_left ? 0.2L : -0.2L);
    place a = place_of(positions), b = place_of(positions + 2), normal = unit(cross(a, b));
    place on = along(a, normal, angle(a, b) / 2);
    long double away = (is_left ? 1000 : -1000) / S2U_COVER_EARTH;
    s2u_cover_options options = {200, 14, 14, S2U_COVER_GEODESIC, 0};
    s2u_cover_ring ring = {4, 0};
    s2u_cover_shape shape = {positions, &ring, 1};
    s2u_cover_cells outer, inner;
    s2u_cover_fault fault;
    CHECK(s2u_cover(&shape, &options, &outer, &inner, &fault) == S2U_OK);
    CHECK(has(&outer, on) && has(&outer, beside(on, normal, away)) && !has(&outer, beside(on, normal, -away)));
    CHECK(!has(&inner, on) && has(&inner, beside(on, normal, away)) && !has(&inner, beside(on, normal, -away)));
    s2u_cover_free(&outer);
    s2u_cover_free(&inner);
  }
}

/* ---- corridors */

static void ask_corridors(void) {
  static const double widths[] = {0, 2, 20, 200, 2000};
  for (int k = 0; k < 5 * COUNT; k++) {
    double positions[4], width = widths[k % 5];
    draw_edge(LENGTHS[k / 5], positions);
    place a = place_of(positions), b = place_of(positions + 2), normal = unit(cross(a, b));
    long double length = angle(a, b);
    s2u_cover_options options = {4000, 0, 30, S2U_COVER_GEODESIC, k % 2 ? 0 : 1};
    s2u_cover_cells outer;
    s2u_cover_fault fault;
    CHECK(s2u_cover_corridor(positions, 2, width, &options, &outer, &fault) == S2U_OK);
    for (int n = 0; n < 500; n++) {
      long double away = (width / 2 + options.margin) / S2U_COVER_EARTH * (n % 3 - 1);
      place on = along(a, normal, length * between(0, 1));
      lost += !has(&outer, beside(on, normal, away));
      loose += has(&outer, beside(on, normal, 0.1L));
    }
    s2u_cover_free(&outer);
  }
}

/* ---- the margin */

static place corner_of(const s2u_direction* at) { return unit((place){at->x, at->y, at->z}); }

/* How far places of an edge lie from its rounded pieces, beside what the margin pays for: no farther, and some nearly
 * so. */
static void ask_margins(void) {
  long double closest = 0;
  int wrong = 0;
  for (int k = 0; k < 2000 * COUNT; k++) {
    double positions[4];
    draw_edge(LENGTHS[k / 2000], positions);
    place a = place_of(positions), b = place_of(positions + 2), normal = unit(cross(a, b));
    long double length = angle(a, b), farthest = 0;
    s2u_cover_build build = s2u_cover_build_of();
    s2u_direction first = s2u_cover_direction(positions[0], positions[1]);
    wrong += !s2u_cover_add_corner(&build.corners, 0, first) ||
             s2u_cover_add_edge(&build, &build.corners, 0, positions, positions + 2) != S2U_OK;
    const s2u_direction* corners = (const s2u_direction*)build.corners.at;
    for (int n = 0; n <= 16; n++) {
      place on = along(a, normal, length * n / 16);
      long double nearest = PI;
      for (size_t piece = 1; piece < build.corners.count; piece++) {
        place from = corner_of(&corners[piece - 1]), to = corner_of(&corners[piece]), its = unit(cross(from, to));
        int is_between = dot(cross(its, from), on) >= 0 && dot(cross(to, its), on) >= 0;
        long double ends = fminl(angle(on, from), angle(on, to));
        nearest = fminl(nearest, is_between ? fabsl(asinl(dot(its, on))) : ends);
      }
      farthest = fmaxl(farthest, nearest);
    }
    wrong += farthest > build.bend + S2U_COVER_ROUNDING;
    closest = fmaxl(closest, farthest / (build.bend + S2U_COVER_ROUNDING));
    wrong += build.bend + S2U_COVER_ROUNDING > 1.4143 * S2U_COVER_ROUNDING; /* as of edges of 90 degrees */
    s2u_cover_let_go(&build);
  }
  CHECK(wrong == 0);
  CHECK(closest > 0.75);
}

/* ---- corners that lie opposite each other */

/* However their directions are rounded, as by the first of these: none is the shortest of the ways between them. */
static void ask_opposite(void) {
  static const double some[][2] = {{-33.271621704101562, 76.138336181640625},
                                   {-28.490070343017578, -17.965614318847656},
                                   {56.908863067626953, 11.273129463195801},
                                   {99.636909484863281, -70.522918701171875},
                                   {-1.5657414197921753, 13.233500480651855},
                                   {10, 90}, {10, -90}, {0, 0}, {-180, 0}, {90, 0}, {540, 1}, {-360, 1}};
  for (size_t k = 0; k < sizeof some / sizeof *some; k++) {
    const double x = some[k][0], y = some[k][1], line[] = {x, y, x > 0 ? x - 180 : x + 180, -y};
    s2u_cover_options options = {200, 0, 30, S2U_COVER_GEODESIC, 0};
    s2u_cover_ring ring = {2, S2U_COVER_LINE};
    s2u_cover_shape shape = {line, &ring, 1};
    s2u_cover_cells outer;
    s2u_cover_fault fault;
    CHECK(s2u_cover(&shape, &options, &outer, NULL, &fault) == S2U_COVER_OPPOSITE && !outer.ids);
    CHECK(fault.ring == 0 && fault.position == 0);
  }
}

int main(void) {
  ask_triangles();
  printf("triangles: %d, %d, %d\n", lost, beyond, loose);
  CHECK(lost == 0 && beyond == 0 && loose == 0);
  lost = beyond = loose = 0;
  ask_small_triangles();
  printf("small triangles: %d, %d, %d\n", lost, beyond, loose);
  CHECK(lost == 0 && beyond == 0 && loose == 0);
  lost = loose = 0;
  ask_corridors();
  printf("corridors: %d, %d\n", lost, loose);
  CHECK(lost == 0 && loose == 0);
  ask_far_corners();
  ask_margins();
  ask_opposite();
  return report();
}
