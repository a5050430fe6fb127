/* Joins of s2union_join.h beside a plain loop over all edges of all zones, in whole numbers: places inside, outside, on
 * borders, at corners and on other turns of the map, with rings that cross themselves, touch, and have no area; and
 * what is refused, with each allocation refused in turn. bindings/c/tests/check.sh builds it. */
#include <s2union_join.h>
#include "../../../tests/refuse.h"
#include "tests.h"

enum { RINGS = 4, CORNERS = 9, ZONES = 12, PLACES = 400 };

/* A ring, a line or a point of whole numbers, in halves of a degree, and the polygon that a ring is of. */
typedef struct Ring {
  int x[CORNERS], y[CORNERS], corners, polygon; /* -1: it is a line, or a point if it has one corner */
} Ring;

typedef struct Zone {
  Ring rings[RINGS];
  int count;
} Zone;

static int drawn(int least, int most) { return least + (int)(draw() % (uint64_t)(most - least + 1)); }

static Zone some_zone(void) {
  static const int width[] = {4, 40, 360, 1080};
  Zone zone;
  int wide = width[drawn(0, 3)], polygon = 0;
  zone.count = drawn(0, RINGS);
  for (int k = 0; k < zone.count; k++) {
    Ring* ring = &zone.rings[k];
    int is_line = drawn(0, 4) == 0;
    ring->corners = is_line ? drawn(1, CORNERS) : drawn(4, CORNERS);
    polygon += is_line || drawn(0, 1);
    ring->polygon = is_line ? -1 : polygon;
    for (int n = 0; n < ring->corners; n++) ring->x[n] = drawn(-wide, wide), ring->y[n] = drawn(-4, 4);
    if (drawn(0, 5) == 0) for (int n = 0; n < ring->corners; n++) ring->x[n] = ring->x[0]; /* no area */
    if (!is_line) ring->x[ring->corners - 1] = ring->x[0], ring->y[ring->corners - 1] = ring->y[0];
  }
  return zone;
}

/* Whether a place is on an edge; and *crosses is turned if the way to the south from the place crosses it. */
static int is_on(int ax, int ay, int bx, int by, int x, int y, int* crosses) {
  if (ax > bx) return is_on(bx, by, ax, ay, x, y, crosses);
  if (x < ax || x > bx) return 0;
  int64_t side = (int64_t)(bx - ax) * (y - ay) - (int64_t)(by - ay) * (x - ax); /* more than 0 to the north */
  if (ax < x && side > 0) *crosses ^= 1;
  return side == 0 && y >= (ay < by ? ay : by) && y <= (ay < by ? by : ay);
}

static int plain(const Zone* zone, int x, int y, int borders) {
  for (int k = 0; k < zone->count;) {
    int polygon = zone->rings[k].polygon, crosses = 0, on = 0;
    do {
      const Ring* ring = &zone->rings[k++];
      for (int turn = -3; turn <= 3; turn++)
        for (int n = ring->corners > 1; n < ring->corners; n++) {
          int last = n > 0 ? n - 1 : 0;
          on |= is_on(ring->x[last], ring->y[last], ring->x[n], ring->y[n], x + 720 * turn, y, &crosses);
        }
    } while (k < zone->count && polygon >= 0 && zone->rings[k].polygon == polygon);
    if (on ? borders : polygon >= 0 && crosses) return 1;
  }
  return 0;
}

static s2u_cover_shape shape_of(const Zone* zone, double* positions, s2u_cover_ring* rings) {
  uint64_t end = 0;
  for (int k = 0; k < zone->count; k++) {
    for (int n = 0; n < zone->rings[k].corners; n++, end++)
      positions[2 * end] = zone->rings[k].x[n] / 2.0, positions[2 * end + 1] = zone->rings[k].y[n] / 2.0;
    rings[k].end = end;
    rings[k].polygon = zone->rings[k].polygon < 0 ? S2U_COVER_LINE : (uint64_t)zone->rings[k].polygon;
  }
  return (s2u_cover_shape){positions, rings, (size_t)zone->count};
}

static s2u_join_bytes wkb_of(const Zone* zone) {
  double positions[2 * RINGS * CORNERS];
  s2u_cover_ring rings[RINGS];
  const s2u_cover_shape shape = shape_of(zone, positions, rings);
  s2u_join_bytes bytes = {NULL, 0};
  s2u_join_put_shape(&bytes, &shape);
  bytes.at = malloc(bytes.size);
  s2u_join_put_shape(&bytes, &shape);
  return bytes;
}

/* Zones that are added one by one, as rings or as WKB that is written over afterwards. */
static int32_t added(const Zone* zones, const s2u_join_bytes* shapes, size_t count, s2u_join_zones* made,
                     s2u_cover_fault* fault) {
  double positions[2 * RINGS * CORNERS];
  uint8_t copy[16 * RINGS * (CORNERS + 2)];
  s2u_cover_ring rings[RINGS];
  int32_t status = S2U_OK;
  *made = s2u_join_none();
  for (size_t k = 0; status == S2U_OK && k < count; k++) {
    const s2u_cover_shape shape = shape_of(&zones[k], positions, rings);
    memcpy(copy, shapes[k].at, shapes[k].size);
    status = k % 2 ? s2u_join_add_shape(made, &shape, fault) : s2u_join_add_wkb(made, copy, shapes[k].size, fault);
    memset(positions, 0, sizeof positions);
    memset(copy, 0, sizeof copy);
    CHECK(made->zones.count == k + (status == S2U_OK));
  }
  return status;
}

/* The status of making zones, all at once or one by one, and asking them. Of S2U_OK all pairs are compared. */
static int32_t joined(const Zone* zones, const s2u_join_bytes* shapes, size_t count, const int (*places)[2],
                      size_t asked, int borders, int is_added) {
  double x[PLACES], y[PLACES];
  s2u_join_zones made;
  s2u_cover_fault fault;
  size_t wrong, next = 0;
  for (size_t k = 0; k < asked; k++) x[k] = places[k][0] / 2.0, y[k] = places[k][1] / 2.0;
  int32_t status = is_added ? added(zones, shapes, count, &made, &fault)
                            : s2u_join_zones_of(shapes, count, &made, &wrong, &fault);
  for (int turn = 0; status == S2U_OK && turn < 2; turn++) { /* the second time all edges are filed */
    s2u_cover_list pairs;
    status = s2u_join_pairs_of(&made, x, y, asked, borders, &pairs, &wrong);
    const s2u_join_pair* at = (const s2u_join_pair*)(void*)pairs.at;
    next = 0;
    for (size_t point = 0; status == S2U_OK && point < asked; point++)
      for (size_t zone = 0; zone < count; zone++)
        if (plain(&zones[zone], places[point][0], places[point][1], borders)) {
          CHECK(next < pairs.count && at[next].point == point && at[next].zone == zone);
          next++;
        }
    CHECK(status != S2U_OK || next == pairs.count);
    free(pairs.at);
  }
  s2u_join_free(&made);
  return status;
}

static void beside_a_plain_loop(void) {
  for (int round = 0; round < 300; round++) {
    Zone zones[ZONES];
    s2u_join_bytes shapes[ZONES];
    int places[PLACES][2];
    size_t count = (size_t)drawn(0, ZONES), asked = (size_t)drawn(0, PLACES);
    for (size_t k = 0; k < count; k++) zones[k] = some_zone(), shapes[k] = wkb_of(&zones[k]);
    for (size_t k = 0; k < asked; k++) {
      int wide = k % 3 ? 1080 : 5;
      places[k][0] = drawn(-wide, wide), places[k][1] = drawn(-5, 5);
      size_t zone = count ? (size_t)drawn(0, (int)count - 1) : 0;
      if (k % 2 && count && zones[zone].count) { /* a corner, on some turn, or beside it */
        int x = zones[zone].rings[0].x[0], turn = k % 4 == 1 ? 0 : x < 360 ? 720 : -720;
        places[k][0] = x + turn - drawn(0, 1) * (x > 0), places[k][1] = zones[zone].rings[0].y[0];
      }
    }
    for (int borders = 0; borders < 2; borders++)
      CHECK(joined(zones, shapes, count, (const int(*)[2])places, asked, borders, round % 2) == S2U_OK);
    for (size_t k = 0; k < count; k++) free(shapes[k].at);
  }
}

/* Whichever allocation is refused on the way: nothing stays allocated, and no pair is wrong. */
static void without_memory(int is_added) {
  Zone zones[ZONES];
  s2u_join_bytes shapes[ZONES];
  int places[PLACES][2];
  for (size_t k = 0; k < ZONES; k++) zones[k] = some_zone(), shapes[k] = wkb_of(&zones[k]);
  for (size_t k = 0; k < PLACES; k++) places[k][0] = drawn(-1080, 1080), places[k][1] = drawn(-5, 5);
  int32_t status = S2U_MEMORY;
  long turns = 0, taken = blocks_taken();
  for (; status == S2U_MEMORY; turns++) {
    refuse_memory(turns + 1);
    status = joined(zones, shapes, ZONES, (const int(*)[2])places, PLACES, 1, is_added);
    refuse_memory(0);
    CHECK(blocks_taken() == taken);
  }
  CHECK(status == S2U_OK && turns > 30);
  for (size_t k = 0; k < ZONES; k++) free(shapes[k].at);
}

/* How many pairs a place has. */
static size_t pairs_at(s2u_join_zones* zones, double x, double y) {
  s2u_cover_list pairs;
  size_t wrong;
  CHECK(s2u_join_pairs_of(zones, &x, &y, 1, 1, &pairs, &wrong) == S2U_OK);
  free(pairs.at);
  return pairs.count;
}

/* Zones that are added after others were asked, boxes, and shapes that add none. */
static void more_zones(void) {
  s2u_join_zones made = s2u_join_none();
  s2u_cover_fault fault;
  const double open[] = {0, 0, 4, 0, 4, 4, 0, 4};
  const s2u_cover_ring ring = {4, 0};
  const s2u_cover_shape shape = {open, &ring, 1}, nothing = {NULL, NULL, 0};
  CHECK(pairs_at(&made, 1, 1) == 0);
  CHECK(s2u_join_add_box(&made, 170, -5, -170, 5, &fault) == S2U_OK && pairs_at(&made, -175, 1) == 1);
  CHECK(s2u_join_add_shape(&made, &nothing, &fault) == S2U_OK && pairs_at(&made, -175, 1) == 1);
  CHECK(s2u_join_add_box(&made, -176, 1, -174, 2, &fault) == S2U_OK && pairs_at(&made, 185, 1) == 2);
  CHECK(s2u_join_add_box(&made, 0, 2, 1, 1, &fault) == S2U_ARGUMENT);
  CHECK(s2u_join_add_box(&made, 0, 2, 541, 3, &fault) == S2U_COVER_NUMBER);
  CHECK(s2u_join_add_box(&made, 0, 2, NAN, 3, &fault) == S2U_COVER_NUMBER && fault.position == 1);
  CHECK(s2u_join_add_shape(&made, &shape, &fault) == S2U_COVER_OPEN && fault.ring == 0 && fault.position == 3);
  CHECK(s2u_join_add_wkb(&made, NULL, 0, &fault) == S2U_COVER_WKB && made.zones.count == 3);
  CHECK(pairs_at(&made, -175, 1) == 2);
  s2u_join_free(&made);
  CHECK(pairs_at(&made, -175, 1) == 0);
}

static void what_is_refused(void) {
  const double x[] = {1, 541, 1}, y[] = {1, 1, NAN};
  Zone zone = {{{{0, 4, 4, 0}, {0, 0, 4, 0}, 4, 0}}, 1};
  s2u_join_bytes shapes[] = {wkb_of(&zone), wkb_of(&zone)};
  s2u_join_zones made;
  s2u_cover_fault fault;
  s2u_cover_list pairs;
  size_t wrong;
  shapes[1].size--;
  CHECK(s2u_join_zones_of(shapes, 2, &made, &wrong, &fault) == S2U_COVER_WKB && wrong == 1);
  s2u_join_free(&made);
  CHECK(s2u_join_zones_of(shapes, 1, &made, &wrong, &fault) == S2U_OK && wrong == 0);
  CHECK(s2u_join_pairs_of(&made, x, y, 2, 1, &pairs, &wrong) == S2U_ARGUMENT && wrong == 1 && pairs.count == 0);
  free(pairs.at);
  CHECK(s2u_join_pairs_of(&made, x + 2, y + 2, 1, 1, &pairs, &wrong) == S2U_ARGUMENT && wrong == 0);
  free(pairs.at);
  CHECK(s2u_join_pairs_of(&made, x, y, 1, 1, &pairs, &wrong) == S2U_OK && pairs.count == 1);
  free(pairs.at);
  s2u_join_free(&made);
  free(shapes[0].at);
  free(shapes[1].at);
}

int main(void) {
  beside_a_plain_loop();
  without_memory(0);
  without_memory(1);
  more_zones();
  what_is_refused();
  return report();
}
