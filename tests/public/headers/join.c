/* s2union_join.h, asked with any numbers, a shape of a polygon with a hole, a line and a point, and any bytes of WKB.
 * check.py has Frama-C look at each. */
#include "__fc_builtin.h"
#include "contracts.h"
#include "s2union_join.h"

enum { POSITIONS = 12 };
static double positions[2 * POSITIONS];
static const s2u_cover_ring rings[] = {{4, 0}, {8, 0}, {11, S2U_COVER_LINE}, {12, S2U_COVER_LINE}};
static const s2u_cover_shape shape = {positions, rings, 4};

static void any_positions(void) {
  for (int k = 0; k < 2 * POSITIONS; k++) positions[k] = any_number;
}

static s2u_geo_box any_tile(void) {
  return (s2u_geo_box){any_number, any_number, any_number, any_number};
}

static s2u_cover_bounds any_bounds(void) {
  return (s2u_cover_bounds){any_number, any_number, any_number, any_number};
}

void join_side(void) {
  const double a[2] = {any_number, any_number}, b[2] = {any_number, any_number};
  s2u_join_side(a, b, any_number, any_number);
}

void join_meets(void) {
  const double a[2] = {any_number, any_number}, b[2] = {any_number, any_number};
  int is_odd = 0;
  s2u_join_meets(a, b, any_number, any_number, &is_odd);
}

void join_has(void) {
  any_positions();
  const s2u_cover_bounds box = s2u_join_bounds(&shape);
  s2u_join_has(&shape, &box, any_number, any_number);
}

void join_beyond(void) {
  const s2u_geo_box tile = any_tile();
  const s2u_cover_bounds box = any_bounds();
  const s2u_join_boxes boxes = s2u_join_boxes_of(&tile, &box);
  const double at[2] = {any_number, any_number};
  s2u_join_beyond(&boxes, at);
}

void join_put_shape(void) {
  static uint8_t bytes[2 * sizeof positions];
  s2u_join_bytes counted = {NULL, 0}, written = {bytes, 0};
  any_positions();
  s2u_join_put_shape(&counted, &shape);
  s2u_join_put_shape(&written, &shape);
  //@ assert counted.size == written.size;
}

/*@ assigns \result \from *boxes, at[0 .. 1]; */
static uint32_t s2u_join_beyond(const s2u_join_boxes* boxes, const double* at);

void join_shorten(void) { /* with any sides that positions are beyond: join_beyond is about these */
  static double at[8];
  s2u_join_boxes boxes;
  memset(&boxes, 0, sizeof boxes);
  for (uint64_t count = 1; count <= 4; count++) {
    for (int k = 0; k < 8; k++) at[k] = any_number;
    s2u_join_shorten(&boxes, at, count, 0, at);
  }
  for (int k = 0; k < 8; k++) at[k] = any_number;
  s2u_join_shorten(&boxes, at, 4, 1, at);
}

/* ---- a zone, and places */

enum { EDGES = 9, SLABS = 3 };
static s2u_join_edge edges[EDGES];
static size_t begins[SLABS + 1];
volatile int any_turn;

/* A zone with that shape, in a box of any numbers, and its edges in slabs that end anywhere. */
static s2u_join_zone any_zone(void) {
  s2u_join_zone zone;
  memset(&zone, 0, sizeof zone);
  any_positions();
  zone.box = any_bounds();
  zone.positions = positions, zone.edges = edges, zone.begins = begins, zone.slabs = SLABS;
  for (int k = 0; k < EDGES; k++) {
    edges[k].from = (uint32_t)Frama_C_unsigned_int_interval(0, POSITIONS - 1);
    edges[k].to = (uint32_t)Frama_C_unsigned_int_interval(0, POSITIONS - 1);
    edges[k].part = any_level;
  }
  for (int k = 0; k <= SLABS; k++) begins[k] = Frama_C_unsigned_int_interval(0, EDGES);
  return zone;
}

void join_edges_of(void) {
  static s2u_join_edge found[EDGES]; /* one for each position but the first of a ring or a line, and one for a point */
  any_positions();
  s2u_join_edges_of(&shape, found);
}

/*@ assigns \result \from zone->slabs, zone->box, x; ensures 0 <= \result <= 2; */
static size_t s2u_join_slab(const s2u_join_zone* zone, double x);

void join_zone_has(void) { /* join_slab is about the slab of a place */
  const s2u_join_zone zone = any_zone();
  s2u_join_zone_has(&zone, any_number, any_number, any_turn > 0);
}

void join_slab(void) { /* of up to three */
  s2u_join_zone zone = any_zone();
  zone.slabs = Frama_C_unsigned_int_interval(1, SLABS);
  s2u_join_slab(&zone, any_number);
}

void join_sort(void) { /* each of some pairs once, of any zones in any order */
  static s2u_join_pair some[4];
  s2u_cover_list pairs = s2u_cover_list_of(sizeof(s2u_join_pair));
  pairs.at = (char*)some, pairs.room = 4;
  for (size_t count = 0; count <= 4; count++) {
    for (int k = 0; k < 4; k++) some[k].point = any_cell, some[k].zone = any_cell;
    pairs.count = count;
    s2u_join_sort(&pairs, count / 2);
  }
}

void join_arrange(void) { /* pairs of three points, of which one has none */
  s2u_cover_list pairs = s2u_cover_list_of(sizeof(s2u_join_pair));
  if (!s2u_cover_take(&pairs, 4)) return;
  s2u_join_pair* at = (s2u_join_pair*)(void*)pairs.at;
  for (pairs.count = 0; pairs.count < 4; pairs.count++)
    at[pairs.count].point = pairs.count % 2 * 2, at[pairs.count].zone = any_cell;
  s2u_join_arrange(&pairs, 3);
}
