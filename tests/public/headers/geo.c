/* Each function of s2union_geo.h that a program calls, asked with any numbers. check.py has Frama-C look at each. */
#include "__fc_builtin.h"
#include "contracts.h"
#include "s2union_geo.h"

void geo_leaf(void) {
  s2u_geo_leaf(any_number, any_number);
}

void geo_leaf_beside(void) { /* of a cell's own face, and places up to a side beyond it: what its neighbors ask */
  uint32_t face = Frama_C_unsigned_int_interval(0, 5);
  int64_t i = Frama_C_long_interval(-S2U_GEO_SIDE, 2L * S2U_GEO_SIDE);
  int64_t j = Frama_C_long_interval(-S2U_GEO_SIDE, 2L * S2U_GEO_SIDE);
  s2u_geo_leaf_beside(face, i, j);
}

void geo_edge_neighbors(void) {
  uint64_t neighbors[4];
  s2u_geo_edge_neighbors(any_cell, neighbors);
}

void geo_vertex_neighbors(void) {
  uint64_t neighbors[4];
  size_t count;
  s2u_geo_vertex_neighbors(any_cell, any_level, neighbors, &count);
}

void geo_middle(void) {
  double longitude, latitude;
  s2u_geo_middle(any_cell, &longitude, &latitude);
}

void geo_box_of(void) {
  s2u_geo_box box;
  s2u_geo_box_of(any_cell, &box);
}

void geo_area(void) {
  uint64_t cells[2] = {any_cell, any_cell};
  s2u_geo_area(cells, 2);
}
