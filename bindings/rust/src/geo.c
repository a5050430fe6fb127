/* What src/geo.rs, src/around.rs and src/zones.rs call of the headers for degrees, whose functions are inline: build.rs
 * compiles it. */
#include <s2union_join.h>
#include <s2union_outline.h>

uint64_t s2union_rust_leaf(double longitude, double latitude) { return s2u_geo_leaf(longitude, latitude); }

int32_t s2union_rust_middle(uint64_t cell, double* place) { return s2u_geo_middle(cell, &place[0], &place[1]); }

const char* s2union_rust_text(int32_t status) { return s2u_cover_status_text(status); }

int32_t s2union_rust_keep_within(s2u_cover_options* options, double meters) {
  return s2u_cover_keep_within(options, meters);
}

int32_t s2union_rust_cover(const s2u_cover_shape* shape, const s2u_cover_options* options, s2u_cover_cells* outer,
                           s2u_cover_cells* inner, s2u_cover_fault* fault) {
  return s2u_cover(shape, options, outer, inner, fault);
}

int32_t s2union_rust_cover_wkb(const uint8_t* bytes, size_t size, const s2u_cover_options* options,
                               s2u_cover_cells* outer, s2u_cover_cells* inner, s2u_cover_fault* fault) {
  return s2u_cover_wkb(bytes, size, options, outer, inner, fault);
}

int32_t s2union_rust_cover_geojson(const uint8_t* text, size_t size, const s2u_cover_options* options,
                                   s2u_cover_cells* outer, s2u_cover_cells* inner, s2u_cover_fault* fault) {
  return s2u_cover_geojson((const char*)text, size, options, outer, inner, fault);
}

int32_t s2union_rust_cover_circle(double longitude, double latitude, double radius, const s2u_cover_options* options,
                                  s2u_cover_cells* outer, s2u_cover_cells* inner, s2u_cover_fault* fault) {
  return s2u_cover_circle(longitude, latitude, radius, options, outer, inner, fault);
}

int32_t s2union_rust_cover_box(double west, double south, double east, double north, const s2u_cover_options* options,
                               s2u_cover_cells* outer, s2u_cover_cells* inner, s2u_cover_fault* fault) {
  return s2u_cover_box(west, south, east, north, options, outer, inner, fault);
}

void s2union_rust_free(s2u_cover_cells* cells) { s2u_cover_free(cells); }

int32_t s2union_rust_outline(const uint64_t* ids, size_t n, s2u_geo_rings* rings) {
  return s2u_geo_outline(ids, n, rings);
}

int32_t s2union_rust_boundary(const uint64_t* ids, size_t n, s2u_geo_rings* rings) {
  return s2u_geo_boundary(ids, n, rings);
}

void s2union_rust_free_rings(s2u_geo_rings* rings) { s2u_geo_free(rings); }

/* ---- src/around.rs */

int32_t s2union_rust_neighbors(uint64_t cell, uint32_t level, s2u_cover_cells* cells) {
  return s2u_cover_neighbors(cell, level, cells);
}

int32_t s2union_rust_edge_neighbors(uint64_t cell, uint64_t* four) { return s2u_geo_edge_neighbors(cell, four); }

int32_t s2union_rust_vertex_neighbors(uint64_t cell, uint32_t level, uint64_t* four, size_t* count) {
  return s2u_geo_vertex_neighbors(cell, level, four, count);
}

int32_t s2union_rust_expanded(const uint64_t* ids, size_t n, uint32_t level, s2u_cover_cells* cells) {
  return s2u_cover_expanded(ids, n, level, cells);
}

double s2union_rust_area(const uint64_t* ids, size_t n) { return s2u_geo_area(ids, n); }

int32_t s2union_rust_bounds(const uint64_t* ids, size_t n, double* sides) {
  s2u_cover_bounds box;
  int32_t status = s2u_cover_rect_bound(ids, n, &box);
  sides[0] = box.west, sides[1] = box.south, sides[2] = box.east, sides[3] = box.north;
  return status;
}

/* ---- src/zones.rs */

s2u_join_zones* s2union_rust_zones(void) {
  s2u_join_zones* it = malloc(sizeof *it);
  if (it) *it = s2u_join_none();
  return it;
}

void s2union_rust_free_zones(s2u_join_zones* it) {
  s2u_join_free(it);
  free(it);
}

size_t s2union_rust_count_zones(const s2u_join_zones* it) { return it->zones.count; }

int32_t s2union_rust_add(s2u_join_zones* it, const s2u_cover_shape* shape, s2u_cover_fault* fault) {
  return s2u_join_add_shape(it, shape, fault);
}

int32_t s2union_rust_add_wkb(s2u_join_zones* it, const uint8_t* bytes, size_t size, s2u_cover_fault* fault) {
  return s2u_join_add_wkb(it, bytes, size, fault);
}

int32_t s2union_rust_add_geojson(s2u_join_zones* it, const uint8_t* text, size_t size, s2u_cover_fault* fault) {
  return s2u_join_add_geojson(it, (const char*)text, size, fault);
}

int32_t s2union_rust_add_box(s2u_join_zones* it, double west, double south, double east, double north,
                             s2u_cover_fault* fault) {
  return s2u_join_add_box(it, west, south, east, north, fault);
}

int32_t s2union_rust_pairs(s2u_join_zones* it, const double* longitudes, const double* latitudes, size_t places,
                           int borders, s2u_join_pair** pairs, size_t* count) {
  s2u_cover_list found;
  size_t wrong;
  int32_t status = s2u_join_pairs_of(it, longitudes, latitudes, places, borders, &found, &wrong);
  *pairs = (s2u_join_pair*)(void*)found.at;
  *count = status == S2U_OK ? found.count : wrong;
  return status;
}

void s2union_rust_free_pairs(s2u_join_pair* pairs) { free(pairs); }
