/* Outlines and boundaries of unions by s2union_outline.h: how many polygons, rings and positions, each allocation
 * refused in turn, lists that are no unions, and that nothing stays allocated. */
#include <s2union_cover.h>
#include <s2union_outline.h>
#include "../../../tests/refuse.h"
#include "tests.h"

typedef int32_t Way(const uint64_t* ids, size_t n, s2u_geo_rings* rings);

/* A union has these numbers of polygons and rings, whichever allocation is refused on the way to them. */
static void check_rings(Way* way, const uint64_t* ids, size_t n, size_t polygons, size_t count) {
  s2u_geo_rings rings;
  int32_t status = S2U_MEMORY;
  long blocks = blocks_taken();
  for (long turn = 1; status == S2U_MEMORY && turn < 1000; turn++) {
    refuse_memory(turn);
    status = way(ids, n, &rings);
    refuse_memory(0);
    if (status == S2U_MEMORY) CHECK(!rings.positions && !rings.rings && blocks_taken() == blocks);
  }
  CHECK(status == S2U_OK && rings.polygons == polygons && rings.rings == count);
  if (polygons) CHECK(rings.polygon_ends[polygons - 1] == count);
  s2u_geo_free(&rings);
  CHECK(blocks_taken() == blocks && !rings.positions);
}

/* The cells around a cell: a ring around them, and then their hole, which is as wide as the cell. */
static void check_hole(double longitude, double latitude, uint32_t level) {
  uint64_t cell = s2u_parent(s2u_geo_leaf(longitude, latitude), level);
  s2u_cover_cells around;
  s2u_geo_rings rings;
  double south[2] = {90, 90};
  CHECK(s2u_cover_neighbors(cell, level, &around) == S2U_OK);
  CHECK(s2u_geo_outline(around.ids, around.count, &rings) == S2U_OK && rings.polygons == 1 && rings.rings == 2);
  for (size_t k = 0; rings.rings == 2 && k < rings.ring_ends[1]; k++)
    south[k >= rings.ring_ends[0]] = fmin(south[k >= rings.ring_ends[0]], rings.positions[2 * k + 1]);
  CHECK(south[0] < south[1]);
  s2u_cover_free(&around);
  s2u_geo_free(&rings);
}

int main(void) {
  enum { N = 4096 };
  static uint64_t ids[N];
  const uint64_t half = UINT64_C(1) << 60, sphere[6] = {half, 3 * half, 5 * half, 7 * half, 9 * half, 11 * half};
  const uint64_t nine[9] = {half, half, half, half, half, half, half, half, half}, none[] = {half, 2};
  s2u_geo_rings rings;
  check_rings(s2u_geo_outline, ids, 0, 0, 0);
  check_rings(s2u_geo_outline, sphere, 6, 1, 1);
  check_rings(s2u_geo_boundary, sphere, 6, 0, 0);
  CHECK(s2u_geo_boundary(sphere, 1, &rings) == S2U_OK && rings.rings == 1 && rings.ring_ends[0] == 5);
  s2u_geo_free(&rings); /* four sides: a face is cut on the map alone */
  check_rings(s2u_geo_outline, sphere + 2, 1, 1, 1); /* around a pole */
  check_rings(s2u_geo_outline, sphere + 3, 1, 2, 2); /* on the date line */
  check_rings(s2u_geo_outline, sphere + 1, 5, 1, 2);
  CHECK(s2u_geo_outline(none, 2, &rings) == S2U_NO_UNION && !rings.positions);
  CHECK(s2u_geo_outline(nine, 9, &rings) == S2U_NO_UNION && !rings.positions);
  for (size_t k = 0; k < N; k++) ids[k] = 3 * half + 1 + 16 * k; /* leaves that lie apart */
  check_rings(s2u_geo_outline, ids, N, N, N);
  check_rings(s2u_geo_boundary, ids, N, 0, N);
  for (uint32_t k = 0; k < 300; k++) check_hole(1.19 * k - 179, 0.28 * k - 42, 30 - k % 3);
  /* each second cell of level 5, and a leaf: sides aren't followed to the width of the leaf */
  for (uint64_t k = 0; k < 3072; k++) ids[k] = (4 * k + 1) << 50;
  ids[3072] = ids[3071] + (UINT64_C(1) << 50) + 1;
  CHECK(s2u_is_union(ids, 3073) && s2u_geo_outline(ids, 3073, &rings) == S2U_OK);
  CHECK(rings.ring_ends[rings.rings - 1] < 1000000);
  s2u_geo_free(&rings);
  return report();
}
