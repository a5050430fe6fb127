/* An example of each call of s2union.h, which the header's reference shows: a program whose last line is 'N passed, M
 * failed'. */
#include <s2union.h>
#include <stdio.h>
#include <string.h>

static int passed, failed;

#define check(is_so) \
  do { \
    if (is_so) passed++; \
    else failed++, printf("line %d: %s\n", __LINE__, #is_so); \
  } while (0)

/* The file of the cells 04 and 14. */
static const uint8_t file[] = {1, 2, 0, 0, 0, 0, 0, 0, 0, 0, 0, 0, 0, 0, 0, 0, 4, 0, 0, 0, 0, 0, 0, 0, 0x14};

int main(void) {
  {
    /* [s2u_version] */
    check(s2u_version() / 10000 == S2U_VERSION_MAJOR);
    /* [s2u_version] */
  }
  {
    /* [s2u_is_cell] */
    check(s2u_is_cell(UINT64_C(0x1000000000000000)) == 1 && s2u_is_cell(2) == 0);
    /* [s2u_is_cell] */
  }
  {
    /* [s2u_level] */
    check(s2u_level(UINT64_C(0x0400000000000000)) == 1 && s2u_level(2) == S2U_NO_CELL);
    /* [s2u_level] */
  }
  {
    /* [s2u_face] */
    check(s2u_face(UINT64_C(0x0400000000000000)) == 0);
    /* [s2u_face] */
  }
  {
    /* [s2u_parent] */
    check(s2u_parent(UINT64_C(0x0400000000000000), 0) == UINT64_C(0x1000000000000000) &&
          s2u_parent(UINT64_C(0x0400000000000000), 2) == 0);
    /* [s2u_parent] */
  }
  {
    /* [s2u_child] */
    check(s2u_child(UINT64_C(0x1000000000000000), 2) == UINT64_C(0x1400000000000000) && s2u_child(1, 0) == 0);
    /* [s2u_child] */
  }
  {
    /* [s2u_range_min] */
    check(s2u_range_min(UINT64_C(0x0400000000000000)) == 1);
    /* [s2u_range_min] */
  }
  {
    /* [s2u_range_max] */
    check(s2u_range_max(UINT64_C(0x0400000000000000)) == UINT64_C(0x07ffffffffffffff));
    /* [s2u_range_max] */
  }
  {
    /* [s2u_size] */
    check(s2u_size(UINT64_C(0x0400000000000000)) == UINT64_C(1) << 58);
    /* [s2u_size] */
  }
  {
    /* [s2u_next] */
    check(s2u_next(UINT64_C(0x0400000000000000)) == UINT64_C(0x0c00000000000000));
    /* [s2u_next] */
  }
  {
    /* [s2u_prev] */
    check(s2u_prev(UINT64_C(0x0400000000000000)) == 0);
    /* [s2u_prev] */
  }
  {
    /* [s2u_common_ancestor] */
    check(s2u_common_ancestor(UINT64_C(0x0400000000000000),
          UINT64_C(0x1400000000000000)) == UINT64_C(0x1000000000000000));
    /* [s2u_common_ancestor] */
  }
  {
    /* [s2u_cell_contains] */
    check(s2u_cell_contains(UINT64_C(0x1000000000000000), UINT64_C(0x0400000000000000)) == 1);
    /* [s2u_cell_contains] */
  }
  {
    /* [s2u_cell_intersects] */
    check(s2u_cell_intersects(UINT64_C(0x0400000000000000), UINT64_C(0x1400000000000000)) == 0);
    /* [s2u_cell_intersects] */
  }
  {
    /* [s2u_from_face_ij] */
    check(s2u_from_face_ij(0, 0, 0) == 1 && s2u_from_face_ij(6, 0, 0) == 0);
    /* [s2u_from_face_ij] */
  }
  {
    /* [s2u_square_of] */
    s2u_square square;
    check(s2u_square_of(UINT64_C(0x1400000000000000), &square) == S2U_OK && square.i == 1 << 29 &&
          square.size == 1 << 29);
    /* [s2u_square_of] */
  }
  {
    /* [s2u_token] */
    char text[S2U_MOST_TOKEN];
    size_t len;
    check(s2u_token(UINT64_C(0x0400000000000000), text, sizeof text, &len) == S2U_OK && len == 2 &&
          memcmp(text, "04", 2) == 0);
    /* [s2u_token] */
  }
  {
    /* [s2u_from_token] */
    uint64_t id;
    check(s2u_from_token("04", 2, &id) == S2U_OK && id == UINT64_C(0x0400000000000000));
    check(s2u_from_token("xyz", 3, &id) == S2U_NO_CELL && id == 0);
    /* [s2u_from_token] */
  }
  {
    /* [s2u_debug] */
    char text[S2U_MOST_DEBUG];
    size_t len;
    check(s2u_debug(UINT64_C(0x0400000000000000), text, sizeof text, &len) == S2U_OK && len == 3 &&
          memcmp(text, "0/0", 3) == 0);
    /* [s2u_debug] */
  }
  {
    /* [s2u_from_debug] */
    uint64_t id;
    check(s2u_from_debug("0/0", 3, &id) == S2U_OK && id == UINT64_C(0x0400000000000000));
    /* [s2u_from_debug] */
  }
  {
    /* [s2u_tokens] */
    uint64_t ids[] = {UINT64_C(0x0400000000000000), UINT64_C(0x1400000000000000)};
    char text[S2U_MOST_TOKENS(2)];
    size_t len;
    check(s2u_tokens(ids, 2, text, sizeof text, &len) == S2U_OK && len == 5 && memcmp(text, "04 14", 5) == 0);
    /* [s2u_tokens] */
  }
  {
    /* [s2u_from_tokens] */
    uint64_t ids[S2U_MOST_NAMED(8)];
    size_t len;
    check(s2u_from_tokens("04, 0/2", 7, ids, 4, &len) == S2U_OK && len == 2 &&
          ids[1] == UINT64_C(0x1400000000000000));
    check(s2u_from_tokens("04, x", 5, ids, 4, &len) == S2U_NO_CELL && len == 4);
    /* [s2u_from_tokens] */
  }
  {
    /* [s2u_parents] */
    uint64_t ids[] = {UINT64_C(0x0400000000000000), 2}, above[2];
    size_t bad;
    check(s2u_parents(ids, 2, 0, above, 2, &bad) == S2U_OK && above[0] == UINT64_C(0x1000000000000000) && bad == 1);
    /* [s2u_parents] */
  }
  {
    /* [s2u_range_mins] */
    uint64_t ids[] = {UINT64_C(0x0400000000000000), UINT64_C(0x1400000000000000)}, leaves[2];
    size_t bad;
    check(s2u_range_mins(ids, 2, leaves, 2, &bad) == S2U_OK && leaves[0] == 1 && bad == 2);
    /* [s2u_range_mins] */
  }
  {
    /* [s2u_range_maxes] */
    uint64_t ids[] = {UINT64_C(0x0400000000000000), UINT64_C(0x1400000000000000)}, leaves[2];
    size_t bad;
    check(s2u_range_maxes(ids, 2, leaves, 2, &bad) == S2U_OK && leaves[0] == UINT64_C(0x07ffffffffffffff) &&
          bad == 2);
    /* [s2u_range_maxes] */
  }
  {
    /* [s2u_levels] */
    uint64_t ids[] = {UINT64_C(0x0400000000000000), 2};
    uint8_t levels[2];
    size_t bad;
    check(s2u_levels(ids, 2, levels, 2, &bad) == S2U_OK && levels[0] == 1 && levels[1] == S2U_NO_LEVEL && bad == 1);
    /* [s2u_levels] */
  }
  {
    /* [s2u_token_fields] */
    uint64_t ids[] = {UINT64_C(0x0400000000000000), UINT64_C(0x1400000000000000)};
    char text[2 * S2U_MOST_TOKEN];
    size_t bad;
    check(s2u_token_fields(ids, 2, text, sizeof text, &bad) == S2U_OK && strcmp(text + S2U_MOST_TOKEN, "14") == 0);
    /* [s2u_token_fields] */
  }
  {
    /* [s2u_from_points] */
    s2u_point points[] = {{0, 0, 0}, {6, 0, 0}};
    uint64_t leaves[2];
    size_t bad;
    check(s2u_from_points(points, 2, leaves, 2, &bad) == S2U_OK && leaves[0] == 1 && bad == 1);
    /* [s2u_from_points] */
  }
  {
    /* [s2u_is_union] */
    uint64_t ids[] = {UINT64_C(0x0400000000000000), UINT64_C(0x1400000000000000)};
    check(s2u_is_union(ids, 2) == 1);
    /* [s2u_is_union] */
  }
  {
    /* [s2u_leaf_count] */
    uint64_t ids[] = {UINT64_C(0x0400000000000000), UINT64_C(0x1400000000000000)};
    check(s2u_leaf_count(ids, 2) == UINT64_C(1) << 59);
    /* [s2u_leaf_count] */
  }
  {
    /* [s2u_contains_cell] */
    uint64_t ids[] = {UINT64_C(0x0400000000000000), UINT64_C(0x1400000000000000)};
    check(s2u_contains_cell(ids, 2, 1) == 1 && s2u_contains_cell(ids, 2, UINT64_C(0x1000000000000000)) == 0);
    /* [s2u_contains_cell] */
  }
  {
    /* [s2u_intersects_cell] */
    uint64_t ids[] = {UINT64_C(0x0400000000000000), UINT64_C(0x1400000000000000)};
    check(s2u_intersects_cell(ids, 2, UINT64_C(0x1000000000000000)) == 1);
    /* [s2u_intersects_cell] */
  }
  {
    /* [s2u_cells_at] */
    uint64_t ids[] = {UINT64_C(0x0400000000000000), UINT64_C(0x1400000000000000)};
    size_t first, count;
    check(s2u_cells_at(ids, 2, UINT64_C(0x1000000000000000), &first, &count) == S2U_OK && first == 0 && count == 2);
    /* [s2u_cells_at] */
  }
  {
    /* [s2u_contains_cells] */
    uint64_t ids[] = {UINT64_C(0x0400000000000000), UINT64_C(0x1400000000000000)}, cells[] = {1,
          UINT64_C(0x1000000000000000)};
    uint8_t answers[2];
    size_t bad;
    check(s2u_contains_cells(ids, 2, cells, 2, answers, 2, &bad) == S2U_OK && answers[0] == 1 && answers[1] == 0);
    /* [s2u_contains_cells] */
  }
  {
    /* [s2u_intersects_cells] */
    uint64_t ids[] = {UINT64_C(0x0400000000000000), UINT64_C(0x1400000000000000)}, cells[] = {1,
          UINT64_C(0x1000000000000000)};
    uint8_t answers[2];
    size_t bad;
    check(s2u_intersects_cells(ids, 2, cells, 2, answers, 2, &bad) == S2U_OK && answers[0] == 1 && answers[1] == 1);
    /* [s2u_intersects_cells] */
  }
  {
    /* [s2u_normalise] */
    uint64_t ids[] = {UINT64_C(0x1400000000000000), UINT64_C(0x0400000000000000), UINT64_C(0x1400000000000000)};
    size_t len;
    check(s2u_normalise(ids, 3, &len) == S2U_OK && len == 2 && ids[0] == UINT64_C(0x0400000000000000));
    /* [s2u_normalise] */
  }
  {
    /* [s2u_union_of_many] */
    uint64_t ids[] = {UINT64_C(0x0400000000000000), UINT64_C(0x1400000000000000), UINT64_C(0x0400000000000000)},
          work[6], out[3];
    size_t ends[] = {1, 2, 3}, len;
    check(s2u_union_of_many(ids, 3, ends, 3, work, 6, out, 3, &len) == S2U_OK && len == 2);
    /* [s2u_union_of_many] */
  }
  {
    /* [s2u_range] */
    uint64_t out[S2U_MOST_RANGE];
    size_t len;
    check(s2u_range(UINT64_C(0x0400000000000000), UINT64_C(0x1400000000000000), out, S2U_MOST_RANGE,
          &len) == S2U_OK && len == 3);
    check(s2u_range(UINT64_C(0x1400000000000000), UINT64_C(0x0400000000000000), out, S2U_MOST_RANGE,
          &len) == S2U_ARGUMENT);
    /* [s2u_range] */
  }
  {
    /* [s2u_denormalised_len] */
    uint64_t ids[] = {UINT64_C(0x1000000000000000)}, len;
    check(s2u_denormalised_len(ids, 1, 1, 1, &len) == S2U_OK && len == 4);
    /* [s2u_denormalised_len] */
  }
  {
    /* [s2u_denormalised] */
    uint64_t ids[] = {UINT64_C(0x1000000000000000)}, out[4];
    size_t len;
    check(s2u_denormalised(ids, 1, 1, 1, out, 4, &len) == S2U_OK && len == 4 &&
          out[2] == UINT64_C(0x1400000000000000));
    /* [s2u_denormalised] */
  }
  {
    /* [s2u_outer] */
    s2u_rect edge = {0, 0, (1 << 30) - 1, 0, 0};
    uint64_t out[4];
    size_t len;
    check(s2u_outer(&edge, 1, 10, out, 4, &len) == S2U_OK && len == 2 && out[0] == UINT64_C(0x0400000000000000));
    /* [s2u_outer] */
  }
  {
    /* [s2u_inner] */
    s2u_rect edge = {0, 0, (1 << 30) - 1, 0, 0};
    uint64_t out[4];
    size_t len;
    check(s2u_inner(&edge, 1, 10, out, 4, &len) == S2U_OK && len == 0);
    /* [s2u_inner] */
  }
  {
    /* [s2u_outer_of] */
    uint64_t ids[] = {1}, out[1];
    size_t len;
    check(s2u_outer_of(ids, 1, 1, 10, out, 1, &len) == S2U_OK && len == 1 && out[0] == UINT64_C(0x0400000000000000));
    /* [s2u_outer_of] */
  }
  {
    /* [s2u_inner_of] */
    uint64_t ids[] = {1, UINT64_C(0x1400000000000000)}, out[2];
    size_t len;
    check(s2u_inner_of(ids, 2, 1, 10, out, 2, &len) == S2U_OK && len == 1 && out[0] == UINT64_C(0x1400000000000000));
    /* [s2u_inner_of] */
  }
  {
    /* [s2u_outer_in] */
    s2u_rect edge = {0, 0, (1 << 30) - 1, 0, 0};
    uint64_t ids[] = {UINT64_C(0x1000000000000000)}, out[4];
    size_t len;
    check(s2u_outer_in(ids, 1, &edge, 1, 10, out, 4, &len) == S2U_OK && len == 2);
    /* [s2u_outer_in] */
  }
  {
    /* [s2u_inner_in] */
    s2u_rect edge = {0, 0, (1 << 30) - 1, 0, 0};
    uint64_t ids[] = {UINT64_C(0x1000000000000000)}, out[4];
    size_t len;
    check(s2u_inner_in(ids, 1, &edge, 1, 10, out, 4, &len) == S2U_OK && len == 0);
    /* [s2u_inner_in] */
  }
  {
    /* [s2u_direction_of] */
    s2u_direction place;
    check(s2u_direction_of(-90, 0, &place) == S2U_OK && place.x == 0 && place.y == -2147483647 && place.z == 0);
    check(s2u_direction_of(0, 91, &place) == S2U_ARGUMENT);
    /* [s2u_direction_of] */
  }
  {
    /* [s2u_polygon_outer] */
    s2u_direction corners[] = {{10, 1, 1}, {10, 9, 1}, {10, 1, 9}}; /* a triangle on face 0 */
    size_t ends[] = {3}, len;
    uint64_t outside = s2u_from_face_ij(3, 0, 0), out[4];
    check(s2u_polygon_outer(corners, 3, ends, 1, outside, 0, 1, 10, out, 4, &len) == S2U_OK && len == 1 &&
          out[0] == UINT64_C(0x1400000000000000));
    /* [s2u_polygon_outer] */
  }
  {
    /* [s2u_polygon_inner] */
    s2u_direction corners[] = {{10, 1, 1}, {10, 9, 1}, {10, 1, 9}};
    size_t ends[] = {3}, len;
    uint64_t outside = s2u_from_face_ij(3, 0, 0), out[8];
    check(s2u_polygon_inner(corners, 3, ends, 1, outside, 0, 3, 10, out, 8, &len) == S2U_OK && len == 1 &&
          out[0] == UINT64_C(0x1140000000000000));
    /* [s2u_polygon_inner] */
  }
  {
    /* [s2u_polygon_outer_up_to] */
    s2u_direction corners[] = {{10, 1, 1}, {10, 9, 1}, {10, 1, 9}, {0, 0, 0}};
    size_t ends[] = {3, 4}, len;
    uint64_t outside = s2u_from_face_ij(3, 0, 0), out[8];
    check(s2u_polygon_outer_up_to(corners, 3, ends, 1, outside, 0, 0, 30, 8, out, 8, &len) == S2U_OK && len <= 8);
    check(s2u_polygon_outer_up_to(corners, 4, ends, 2, outside, 0, 0, 30, 8, out, 8, &len) == S2U_CORNER && len == 3);
    /* [s2u_polygon_outer_up_to] */
  }
  {
    /* [s2u_polygon_inner_up_to] */
    s2u_direction corners[] = {{10, 1, 1}, {10, 9, 1}, {10, 1, 9}};
    size_t ends[] = {3}, none[] = {2}, len;
    uint64_t outside = s2u_from_face_ij(3, 0, 0), out[8];
    check(s2u_polygon_inner_up_to(corners, 3, ends, 1, outside, 0, 0, 30, 8, out, 8, &len) == S2U_OK && len <= 8);
    check(s2u_polygon_inner_up_to(corners, 3, none, 1, outside, 0, 0, 30, 8, out, 8, &len) == S2U_RING && len == 0);
    /* [s2u_polygon_inner_up_to] */
  }
  {
    /* [s2u_polygon_coverings_up_to] */
    s2u_direction corners[] = {{10, 1, 1}, {10, 9, 1}, {10, 1, 9}};
    size_t ends[] = {3}, outer_len, inner_len;
    uint64_t outside = s2u_from_face_ij(3, 0, 0), outer[8], inner[8];
    check(s2u_polygon_coverings_up_to(corners, 3, ends, 1, outside, 0, 0, 30, 8, outer, 8, &outer_len, inner, 8,
                                      &inner_len) == S2U_OK && outer_len <= 8 && inner_len <= 8);
    check(s2u_contains(outer, outer_len, inner, inner_len) == 1);
    /* [s2u_polygon_coverings_up_to] */
  }
  {
    /* [s2u_map_wkb] */
    const uint8_t point[] = {1, 1, 0, 0, 0, 0, 0, 0, 0, 0, 0, 0x24, 0x40, 0, 0, 0, 0, 0, 0, 0x24, 0x40}; /* 10 10 */
    uint64_t out[8];
    size_t len, outer;
    s2u_shape_fault fault;
    check(s2u_map_wkb(point, 20, 5, S2U_MAP_WORK, out, 8, &len, &outer, &fault) == S2U_SHAPE && len == 0 &&
          fault.name == S2U_FAULT_TRUNCATED && fault.byte == 5);
    check(s2u_map_wkb(point, 21, 5, S2U_MAP_WORK, out, 8, &len, &outer, &fault) == S2U_SHAPE &&
          fault.name == S2U_FAULT_NO_INSIDE && fault.part == 0);
    /* [s2u_map_wkb] */
  }
  {
    /* [s2u_map_geojson] */
    const char square[] = "{\"type\":\"Polygon\",\"coordinates\":[[[0,0],[20,0],[20,20],[0,20],[0,0]]]}";
    uint64_t out[64];
    size_t len, outer;
    s2u_shape_fault fault;
    check(s2u_map_geojson(square, sizeof square - 1, 4, S2U_MAP_WORK, out, 64, &len, &outer, &fault) == S2U_OK);
    uint64_t leaf = UINT64_C(0x103f6a1c3e5d9d8b); /* at 10 degrees east and 10 degrees north */
    check(s2u_contains_cell(out, outer, leaf) == 1 && s2u_contains_cell(out + outer, len - outer, leaf) == 1);
    /* [s2u_map_geojson] */
  }
  {
    /* [s2u_map_wkb_up_to] */
    const uint8_t no_polygons[] = {0, 0, 0, 0, 6, 0, 0, 0, 0};
    uint64_t out[1];
    size_t len, outer;
    s2u_shape_fault fault;
    check(s2u_map_wkb_up_to(no_polygons, 9, 30, 8, out, 1, &len, &outer, &fault) == S2U_OK && len == 0 && outer == 0);
    check(s2u_map_wkb_up_to(no_polygons, 7, 30, 8, out, 1, &len, &outer, &fault) == S2U_SHAPE &&
          fault.name == S2U_FAULT_TRUNCATED && fault.byte == 5);
    /* [s2u_map_wkb_up_to] */
  }
  {
    /* [s2u_map_geojson_up_to] */
    const char square[] = "{\"type\":\"Polygon\",\"coordinates\":[[[0,0],[20,0],[20,20],[0,20],[0,0]]]}";
    uint64_t out[16];
    size_t len, outer;
    s2u_shape_fault fault;
    check(s2u_map_geojson_up_to(square, sizeof square - 1, 30, 8, out, 16, &len, &outer, &fault) == S2U_OK);
    check(outer <= 8 && len - outer <= 8 && s2u_contains(out, outer, out + outer, len - outer) == 1);
    /* [s2u_map_geojson_up_to] */
  }
  {
    /* [s2u_shape_wkb] */
    uint8_t point[21] = {1, 1, 0, 0, 0}; /* the point at 0 degrees east and 0 degrees north */
    s2u_place places[S2U_MOST_SHAPE_WKB(sizeof point)];
    s2u_ring rings[S2U_MOST_SHAPE_WKB(sizeof point)];
    size_t len, rings_len;
    s2u_shape_fault fault;
    check(s2u_shape_wkb(point, 21, places, 1, &len, rings, 1, &rings_len, &fault) == S2U_OK && len == 1);
    check(places[0].longitude == 0 && places[0].latitude == 0 && rings[0].end == 1 && rings[0].polygon == UINT64_MAX);
    /* [s2u_shape_wkb] */
  }
  {
    /* [s2u_shape_geojson] */
    const char text[] = "{\"type\":\"Polygon\",\"coordinates\":[[[0,0],[20,0],[20,20],[0,20],[0,0]]]}";
    const char twice[] = "{\"type\":\"Point\",\"type\":\"Point\",\"coordinates\":[0,0]}";
    s2u_place places[S2U_MOST_SHAPE_GEOJSON(sizeof text)];
    s2u_ring rings[S2U_MOST_SHAPE_GEOJSON(sizeof text)];
    size_t len, rings_len;
    s2u_shape_fault fault;
    check(s2u_shape_geojson(text, sizeof text - 1, places, 5, &len, rings, 1, &rings_len, &fault) == S2U_OK);
    check(len == 5 && places[2].longitude == 20 && rings_len == 1 && rings[0].end == 5 && rings[0].polygon == 0);
    check(s2u_shape_geojson(twice, sizeof twice - 1, places, 5, &len, rings, 1, &rings_len, &fault) == S2U_SHAPE &&
          fault.name == S2U_FAULT_TWICE);
    /* [s2u_shape_geojson] */
  }
  {
    /* [s2u_geodesic_wkb] */
    const uint8_t none[] = {0, 0, 0, 0, 6, 0, 0, 0, 0}; /* a multipolygon of no polygon */
    uint64_t out[8];
    size_t len, outer;
    s2u_shape_fault fault;
    check(s2u_geodesic_wkb(none, 9, 5, 100, out, 8, &len, &outer, &fault) == S2U_OK && len == 0 && outer == 0);
    check(s2u_geodesic_wkb(none, 8, 5, 100, out, 8, &len, &outer, &fault) == S2U_SHAPE &&
          fault.name == S2U_FAULT_TRUNCATED && fault.byte == 5);
    /* [s2u_geodesic_wkb] */
  }
  {
    /* [s2u_geodesic_geojson] */
    const char square[] = "{\"type\":\"Polygon\",\"coordinates\":[[[0,0],[20,0],[20,20],[0,20],[0,0]]]}";
    const char wide[] = "{\"type\":\"Polygon\",\"coordinates\":[[[0,0],[120,0],[240,0],[0,0]]]}";
    uint64_t out[256];
    size_t len, outer;
    s2u_shape_fault fault;
    check(s2u_geodesic_geojson(square, sizeof square - 1, 5, 128, out, 256, &len, &outer, &fault) == S2U_OK);
    uint64_t leaf = UINT64_C(0x103f6a1c3e5d9d8b); /* at 10 degrees east and 10 degrees north */
    check(s2u_contains_cell(out, outer, leaf) == 1 && s2u_contains_cell(out + outer, len - outer, leaf) == 1);
    check(s2u_geodesic_geojson(wide, sizeof wide - 1, 5, 128, out, 256, &len, &outer, &fault) == S2U_SHAPE &&
          fault.name == S2U_FAULT_SPREAD && fault.part == 0);
    /* [s2u_geodesic_geojson] */
  }
  {
    /* [s2u_fault_text] */
    check(strcmp(s2u_fault_text(S2U_FAULT_OPEN), "a ring is open: its last position is not its first") == 0);
    /* [s2u_fault_text] */
  }
  {
    /* [s2u_encode] */
    uint64_t ids[] = {UINT64_C(0x0400000000000000)};
    uint8_t bytes[S2U_FILE_SIZE(1)];
    size_t len;
    check(s2u_encode(ids, 1, bytes, sizeof bytes, &len) == S2U_OK && len == 17 && bytes[0] == 1 && bytes[16] == 4);
    /* [s2u_encode] */
  }
  {
    /* [s2u_decode] */
    uint64_t ids[S2U_MOST_IN_FILE(sizeof file)];
    size_t len;
    check(s2u_decode(file, sizeof file, ids, 2, &len) == S2U_OK && len == 2 &&
          ids[0] == UINT64_C(0x0400000000000000));
    check(s2u_decode(file, 8, ids, 2, &len) == S2U_FILE_SHORT);
    /* [s2u_decode] */
  }
  {
    /* [s2u_file_check] */
    check(s2u_file_check(file, sizeof file) == 1 && s2u_file_check(file, 24) == S2U_FILE_SHORT);
    /* [s2u_file_check] */
  }
  {
    /* [s2u_file_count] */
    uint64_t count;
    check(s2u_file_count(file, sizeof file, &count) == S2U_OK && count == 2);
    /* [s2u_file_count] */
  }
  {
    /* [s2u_file_leaf_count] */
    uint64_t leaves;
    check(s2u_file_leaf_count(file, sizeof file, &leaves) == S2U_OK && leaves == UINT64_C(1) << 59);
    /* [s2u_file_leaf_count] */
  }
  {
    /* [s2u_file_cell] */
    uint64_t id;
    check(s2u_file_cell(file, sizeof file, 1, &id) == S2U_OK && id == UINT64_C(0x1400000000000000));
    check(s2u_file_cell(file, sizeof file, 2, &id) == S2U_ARGUMENT);
    /* [s2u_file_cell] */
  }
  {
    /* [s2u_file_contains_cell] */
    check(s2u_file_contains_cell(file, sizeof file, 1) == 1);
    /* [s2u_file_contains_cell] */
  }
  {
    /* [s2u_file_contains_cells] */
    uint64_t cells[] = {1, UINT64_C(0x1000000000000000)};
    uint8_t answers[2];
    size_t bad;
    check(s2u_file_contains_cells(file, sizeof file, cells, 2, answers, 2, &bad) == S2U_OK);
    check(answers[0] == 1 && answers[1] == 0);
    /* [s2u_file_contains_cells] */
  }
  {
    /* [s2u_file_intersects_cell] */
    check(s2u_file_intersects_cell(file, sizeof file, UINT64_C(0x1000000000000000)) == 1);
    /* [s2u_file_intersects_cell] */
  }
  {
    /* [s2u_file_contains] */
    check(s2u_file_contains(file, sizeof file, file, sizeof file) == 1);
    /* [s2u_file_contains] */
  }
  {
    /* [s2u_file_intersects] */
    check(s2u_file_intersects(file, sizeof file, file, sizeof file) == 1);
    /* [s2u_file_intersects] */
  }
  {
    /* [s2u_file_ancestors] */
    uint64_t out[S2U_MOST_ANCESTORS(2)];
    size_t len;
    check(s2u_file_ancestors(file, sizeof file, out, S2U_MOST_ANCESTORS(2), &len) == S2U_OK && len == 3);
    /* [s2u_file_ancestors] */
  }
  {
    /* [s2u_status_text] */
    check(strcmp(s2u_status_text(S2U_NO_CELL), "not a cell") == 0);
    /* [s2u_status_text] */
  }
  // examples: all others
  printf("%d passed, %d failed\n", passed, failed);
  return failed > 0;
}
