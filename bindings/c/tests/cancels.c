/* Long calls that are cancelled at each look in turn, where the library takes memory and in the loops of the headers:
 * each ends with S2U_MEMORY after few more looks, nothing is lost, and then it answers as before. The last line is
 * 'N passed, M failed'. */
enum { EACH = 600, SAMPLES = 50 };
static long looks, cancelled, in_loops, of_loops[EACH]; /* the first looks of loops, by their numbers */

/* Asked again and again: true from the look `cancelled` on, if that isn't 0. */
static int is_cancelled(int is_loop) {
  looks++;
  if (is_loop && cancelled == 0 && in_loops < EACH) of_loops[in_loops++] = looks;
  return looks >= cancelled && cancelled > 0;
}

#include <stdlib.h>
#define S2U_IS_CANCELLED() is_cancelled(1)
#define S2U_HOST_TAKE(size) (is_cancelled(0) ? NULL : malloc(size))
#define S2U_HOST_GIVE_BACK(at) free(at)
#include <s2union_host.h>
#include <s2union_join.h>
#include <s2union_outline.h>
#include "../../../tests/refuse.h"
#include "tests.h"

enum { CORNERS = 400, BOXES = 40 };
static double ring[2 * CORNERS + 2], belt[2 * 6] = {-180, -80, 180, -80, 180, 80, 0, 70, -180, 80, -180, -80};
static double boxes[BOXES][10];
static uint64_t ids[2000];
static size_t count;

/* A sum of an answer; the number of looks that may follow a cancel is that of the longest sort in a call, or few. */
static uint64_t sum;
static void add(const void* bytes, size_t size) {
  for (size_t k = 0; k < size; k++) sum = 31 * sum + ((const uint8_t*)bytes)[k];
}

static int32_t cover(const double* positions, size_t n, size_t each, uint64_t most, uint32_t least, uint32_t edges) {
  s2u_cover_ring rings[BOXES];
  for (size_t k = 0; k < n; k++) rings[k].end = each * (k + 1), rings[k].polygon = k;
  s2u_cover_shape shape = {positions, rings, n};
  s2u_cover_options options = {most, least, 30, edges, 10};
  s2u_cover_cells outer, inner;
  s2u_cover_fault fault;
  int32_t status = s2u_cover(&shape, &options, &outer, &inner, &fault);
  if (status == S2U_OK) add(outer.ids, 8 * outer.count), add(inner.ids, 8 * inner.count);
  s2u_cover_free(&outer), s2u_cover_free(&inner);
  return status;
}

static int32_t few(void) { return cover(ring, 1, CORNERS + 1, 50, 0, S2U_COVER_MAP); }
static int32_t fine(void) { return cover(ring, 1, CORNERS + 1, 50, 8, S2U_COVER_MAP); }
static int32_t geodesic(void) { return cover(ring, 1, CORNERS + 1, 50, 0, S2U_COVER_GEODESIC); }
static int32_t left(void) { return cover(ring, 1, CORNERS + 1, 50, 0, S2U_COVER_LEFT); }
static int32_t around(void) { return cover(belt, 1, 6, 50, 0, S2U_COVER_MAP); }
static int32_t parts(void) { return cover(boxes[0], BOXES, 5, 60, 0, S2U_COVER_MAP); }

static int32_t expanded(void) {
  s2u_cover_cells found;
  int32_t status = s2u_cover_expanded(ids, count, 12, &found);
  if (status == S2U_OK) add(found.ids, 8 * found.count);
  s2u_cover_free(&found);
  return status;
}

static int32_t bounds(void) {
  s2u_cover_bounds box;
  int32_t status = s2u_cover_rect_bound(ids, count, &box);
  if (status == S2U_OK) add(&box, sizeof box);
  return status;
}

static int32_t rings_of(int32_t (*call)(const uint64_t*, size_t, s2u_geo_rings*)) {
  s2u_geo_rings rings;
  int32_t status = call(ids, count, &rings);
  if (status == S2U_OK) add(rings.positions, 2 * sizeof(double) * rings.ring_ends[rings.rings - 1]);
  s2u_geo_free(&rings);
  return status;
}
static int32_t outline(void) { return rings_of(s2u_geo_outline); }
static int32_t boundary(void) { return rings_of(s2u_geo_boundary); }

/* Boxes and a ring as zones, of which a place has many. */
static int32_t pairs(void) {
  double x[EACH], y[EACH];
  const s2u_cover_ring end = {CORNERS + 1, 0};
  const s2u_cover_shape shape = {ring, &end, 1};
  s2u_join_zones zones = s2u_join_none();
  s2u_cover_list found = s2u_cover_list_of(sizeof(s2u_join_pair));
  s2u_cover_fault fault;
  size_t wrong;
  int32_t status = s2u_join_add_shape(&zones, &shape, &fault);
  for (size_t k = 0; status == S2U_OK && k < BOXES; k++)
    status = s2u_join_add_box(&zones, boxes[k][0], boxes[k][1], boxes[k][2], boxes[k][5], &fault);
  for (size_t k = 0; k < EACH; k++) x[k] = 0.05 * (double)k, y[k] = 0.02 * (double)k;
  if (status == S2U_OK) status = s2u_join_pairs_of(&zones, x, y, EACH, 1, &found, &wrong);
  if (status == S2U_OK) add(found.at, found.count * sizeof(s2u_join_pair));
  free(found.at);
  s2u_join_free(&zones);
  return status;
}

static void check_cancel(const char* name, int32_t (*call)(void), long n, long most) {
  const long blocks = blocks_taken();
  looks = 0, cancelled = n;
  int32_t status = call();
  check(status == S2U_MEMORY && looks - n <= most && blocks_taken() == blocks, name);
  if (status != S2U_MEMORY || looks - n > most)
    printf("%s: cancelled at look %ld: %d after %ld looks\n", name, n, (int)status, looks - n);
}

/* A call, and how many looks may follow that in which it hears of a cancel: its longest sort has the most. */
static void check_cancels(const char* name, int32_t (*call)(void), long most) {
  looks = cancelled = in_loops = 0, sum = 0;
  int32_t status = call();
  const uint64_t wanted = sum;
  const long all = looks, blocks = blocks_taken(), loops = in_loops;
  check(status == S2U_OK && loops > 2, name);
  for (long k = 0; k < loops; k++) check_cancel(name, call, of_loops[k], most);
  for (long n = 1; n <= all; n += all / SAMPLES + 1) check_cancel(name, call, n, most);
  looks = cancelled = 0, sum = 0;
  check(call() == S2U_OK && sum == wanted && blocks_taken() == blocks, name);
}

int main(void) {
  for (int k = 0; k <= CORNERS; k++) {
    double turn = 2 * S2U_GEO_PI * (k % CORNERS) / CORNERS, far = 10 + 5 * (k * 7919 % 11 / 11.0) * (k % CORNERS > 0);
    ring[2 * k] = far * cos(turn), ring[2 * k + 1] = 20 + far * sin(turn);
  }
  for (int k = 0; k < BOXES; k++) {
    const double x = 0.7 * k, y = 0.3 * k, box[10] = {x, y, x + 1, y, x + 1, y + 1, x, y + 1, x, y};
    memcpy(boxes[k], box, sizeof box);
  }
  count = random_union(ids, sizeof ids / sizeof *ids, 6, 12);
  check_cancels("few cells", few, 8);
  check_cancels("cells of a level", fine, 8);
  check_cancels("geodesic edges", geodesic, 8);
  check_cancels("the inside on the left", left, 24);
  check_cancels("around the earth", around, 8);
  check_cancels("polygons that overlap", parts, 8 + BOXES);
  check_cancels("a union and around it", expanded, 8);
  check_cancels("the box of a union", bounds, 8);
  check_cancels("places with zones", pairs, 8);
  check_cancels("an outline", outline, 20 * 8 * (long)count);
  check_cancels("a boundary", boundary, 20 * 8 * (long)count);
  return report();
}
