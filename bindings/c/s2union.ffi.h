/* made by tools/calls */
enum { S2U_OK = 0, S2U_ROOM = -1, S2U_MEMORY = -2, S2U_NO_CELL = -3, S2U_NO_UNION = -4, S2U_ARGUMENT = -5, S2U_MANY =
-6, S2U_FILE_SHORT = -10, S2U_FILE_VERSION = -11, S2U_FILE_TRAILING = -12, S2U_FILE_CELL = -13, S2U_CORNER = -14,
S2U_RING = -15, S2U_SHAPE = -16 };
enum { S2U_FAULT_TRUNCATED = 1, S2U_FAULT_TRAILING = 2, S2U_FAULT_ORDER = 3, S2U_FAULT_TYPE = 4, S2U_FAULT_UNCOVERED =
5, S2U_FAULT_SRID = 6, S2U_FAULT_MEMBER = 7, S2U_FAULT_DEEP = 8, S2U_FAULT_COUNT = 9, S2U_FAULT_FEW = 10, S2U_FAULT_OPEN
= 11, S2U_FAULT_NOT_FINITE = 12, S2U_FAULT_UTF8 = 13, S2U_FAULT_JSON = 14, S2U_FAULT_TWICE = 15, S2U_FAULT_NO_TYPE = 16,
S2U_FAULT_MISSING = 17, S2U_FAULT_POSITION = 18, S2U_FAULT_RANGE = 19, S2U_FAULT_NO_INSIDE = 20, S2U_FAULT_NO_MAP = 21,
S2U_FAULT_LONG_EDGE = 22, S2U_FAULT_SPREAD = 23 };
typedef struct { uint32_t face; uint32_t i; uint32_t j; uint32_t size; } s2u_square;
typedef struct { uint32_t face; uint32_t i0; uint32_t i1; uint32_t j0; uint32_t j1; } s2u_rect;
typedef struct { uint32_t face; uint32_t i; uint32_t j; } s2u_point;
typedef struct { int64_t x; int64_t y; int64_t z; } s2u_direction;
typedef struct { double longitude; double latitude; } s2u_place;
typedef struct { uint64_t end; uint64_t polygon; } s2u_ring;
typedef struct { size_t name; size_t byte; size_t part; size_t ring; size_t position; } s2u_shape_fault;
int32_t s2u_ancestors(const uint64_t* ids, size_t n, uint64_t* out, size_t room, size_t* len);
int32_t s2u_cell_contains(uint64_t whole, uint64_t part);
int32_t s2u_cell_intersects(uint64_t a, uint64_t b);
int32_t s2u_cells_at(const uint64_t* ids, size_t n, uint64_t cell, size_t* first, size_t* count);
uint64_t s2u_child(uint64_t id, uint32_t child);
uint64_t s2u_common_ancestor(uint64_t a, uint64_t b);
int32_t s2u_compare(const uint64_t* xs, size_t nx, const uint64_t* ys, size_t ny);
int32_t s2u_complement(const uint64_t* ids, size_t n, uint64_t* out, size_t room, size_t* len);
int32_t s2u_contains(const uint64_t* xs, size_t nx, const uint64_t* ys, size_t ny);
int32_t s2u_contains_cell(const uint64_t* ids, size_t n, uint64_t cell);
int32_t s2u_contains_cells(const uint64_t* ids, size_t n, const uint64_t* cells, size_t m, uint8_t* answers, size_t
  room, size_t* bad);
int32_t s2u_debug(uint64_t id, char* text, size_t room, size_t* len);
int32_t s2u_decode(const uint8_t* bytes, size_t n, uint64_t* out, size_t room, size_t* len);
int32_t s2u_denormalised(const uint64_t* ids, size_t n, uint32_t min, uint32_t modulus, uint64_t* out, size_t room,
  size_t* len);
int32_t s2u_denormalised_len(const uint64_t* ids, size_t n, uint32_t min, uint32_t modulus, uint64_t* len);
int32_t s2u_difference(const uint64_t* xs, size_t nx, const uint64_t* ys, size_t ny, uint64_t* out, size_t room, size_t*
  len);
int32_t s2u_direction_of(double longitude, double latitude, s2u_direction* direction);
int32_t s2u_encode(const uint64_t* ids, size_t n, uint8_t* out, size_t room, size_t* len);
int32_t s2u_face(uint64_t id);
int32_t s2u_file_ancestors(const uint8_t* bytes, size_t n, uint64_t* out, size_t room, size_t* len);
int32_t s2u_file_cell(const uint8_t* bytes, size_t n, uint64_t k, uint64_t* id);
int32_t s2u_file_check(const uint8_t* bytes, size_t n);
int32_t s2u_file_contains(const uint8_t* xs, size_t nx, const uint8_t* ys, size_t ny);
int32_t s2u_file_contains_cell(const uint8_t* bytes, size_t n, uint64_t cell);
int32_t s2u_file_contains_cells(const uint8_t* bytes, size_t n, const uint64_t* cells, size_t m, uint8_t* answers,
  size_t room, size_t* bad);
int32_t s2u_file_count(const uint8_t* bytes, size_t n, uint64_t* count);
int32_t s2u_file_intersects(const uint8_t* xs, size_t nx, const uint8_t* ys, size_t ny);
int32_t s2u_file_intersects_cell(const uint8_t* bytes, size_t n, uint64_t cell);
int32_t s2u_file_leaf_count(const uint8_t* bytes, size_t n, uint64_t* leaves);
int32_t s2u_from_debug(const char* text, size_t n, uint64_t* id);
uint64_t s2u_from_face_ij(uint32_t face, uint32_t i, uint32_t j);
int32_t s2u_from_points(const s2u_point* points, size_t n, uint64_t* out, size_t room, size_t* bad);
int32_t s2u_from_token(const char* text, size_t n, uint64_t* id);
int32_t s2u_from_tokens(const char* text, size_t n, uint64_t* out, size_t room, size_t* len);
int32_t s2u_geodesic_geojson(const char* text, size_t n, uint32_t level, size_t most, uint64_t* out, size_t room,
  size_t* len, size_t* outer, s2u_shape_fault* fault);
int32_t s2u_geodesic_wkb(const uint8_t* wkb, size_t n, uint32_t level, size_t most, uint64_t* out, size_t room, size_t*
  len, size_t* outer, s2u_shape_fault* fault);
int32_t s2u_inner(const s2u_rect* bounds, uint32_t level, size_t most, uint64_t* out, size_t room, size_t* len);
int32_t s2u_inner_in(const uint64_t* ids, size_t n, const s2u_rect* bounds, uint32_t level, size_t most, uint64_t* out,
  size_t room, size_t* len);
int32_t s2u_inner_of(const uint64_t* ids, size_t n, uint32_t level, size_t most, uint64_t* out, size_t room, size_t*
  len);
int32_t s2u_intersection(const uint64_t* xs, size_t nx, const uint64_t* ys, size_t ny, uint64_t* out, size_t room,
  size_t* len);
int32_t s2u_intersects(const uint64_t* xs, size_t nx, const uint64_t* ys, size_t ny);
int32_t s2u_intersects_cell(const uint64_t* ids, size_t n, uint64_t cell);
int32_t s2u_intersects_cells(const uint64_t* ids, size_t n, const uint64_t* cells, size_t m, uint8_t* answers, size_t
  room, size_t* bad);
int32_t s2u_is_cell(uint64_t id);
int32_t s2u_is_union(const uint64_t* ids, size_t n);
uint64_t s2u_leaf_count(const uint64_t* ids, size_t n);
int32_t s2u_level(uint64_t id);
int32_t s2u_levels(const uint64_t* ids, size_t n, uint8_t* out, size_t room, size_t* bad);
int32_t s2u_map_geojson(const char* text, size_t n, uint32_t level, uint64_t work, uint64_t* out, size_t room, size_t*
  len, size_t* outer, s2u_shape_fault* fault);
int32_t s2u_map_geojson_up_to(const char* text, size_t n, uint32_t deepest, size_t most, uint64_t* out, size_t room,
  size_t* len, size_t* outer, s2u_shape_fault* fault);
int32_t s2u_map_wkb(const uint8_t* wkb, size_t n, uint32_t level, uint64_t work, uint64_t* out, size_t room, size_t*
  len, size_t* outer, s2u_shape_fault* fault);
int32_t s2u_map_wkb_up_to(const uint8_t* wkb, size_t n, uint32_t deepest, size_t most, uint64_t* out, size_t room,
  size_t* len, size_t* outer, s2u_shape_fault* fault);
uint64_t s2u_next(uint64_t id);
int32_t s2u_normalise(uint64_t* ids, size_t n, size_t* len);
int32_t s2u_outer(const s2u_rect* bounds, uint32_t level, size_t most, uint64_t* out, size_t room, size_t* len);
int32_t s2u_outer_in(const uint64_t* ids, size_t n, const s2u_rect* bounds, uint32_t level, size_t most, uint64_t* out,
  size_t room, size_t* len);
int32_t s2u_outer_of(const uint64_t* ids, size_t n, uint32_t level, size_t most, uint64_t* out, size_t room, size_t*
  len);
uint64_t s2u_parent(uint64_t id, uint32_t level);
int32_t s2u_parents(const uint64_t* ids, size_t n, uint32_t level, uint64_t* out, size_t room, size_t* bad);
int32_t s2u_polygon_coverings_up_to(const s2u_direction* corners, size_t n, const size_t* ends, size_t lists, uint64_t
  outside, uint64_t margin, uint32_t least, uint32_t deepest, size_t cells, uint64_t* outer, size_t outer_room, size_t*
  outer_len, uint64_t* inner, size_t inner_room, size_t* inner_len);
int32_t s2u_polygon_inner(const s2u_direction* corners, size_t n, const size_t* ends, size_t lists, uint64_t outside,
  uint64_t margin, uint32_t level, size_t most, uint64_t* out, size_t room, size_t* len);
int32_t s2u_polygon_inner_up_to(const s2u_direction* corners, size_t n, const size_t* ends, size_t lists, uint64_t
  outside, uint64_t margin, uint32_t least, uint32_t deepest, size_t cells, uint64_t* out, size_t room, size_t* len);
int32_t s2u_polygon_outer(const s2u_direction* corners, size_t n, const size_t* ends, size_t lists, uint64_t outside,
  uint64_t margin, uint32_t level, size_t most, uint64_t* out, size_t room, size_t* len);
int32_t s2u_polygon_outer_up_to(const s2u_direction* corners, size_t n, const size_t* ends, size_t lists, uint64_t
  outside, uint64_t margin, uint32_t least, uint32_t deepest, size_t cells, uint64_t* out, size_t room, size_t* len);
uint64_t s2u_prev(uint64_t id);
int32_t s2u_range(uint64_t first, uint64_t last, uint64_t* out, size_t room, size_t* len);
uint64_t s2u_range_max(uint64_t id);
int32_t s2u_range_maxes(const uint64_t* ids, size_t n, uint64_t* out, size_t room, size_t* bad);
uint64_t s2u_range_min(uint64_t id);
int32_t s2u_range_mins(const uint64_t* ids, size_t n, uint64_t* out, size_t room, size_t* bad);
int32_t s2u_shape_geojson(const char* text, size_t n, s2u_place* places, size_t room, size_t* len, s2u_ring* rings,
  size_t rings_room, size_t* rings_len, s2u_shape_fault* fault);
int32_t s2u_shape_wkb(const uint8_t* wkb, size_t n, s2u_place* places, size_t room, size_t* len, s2u_ring* rings, size_t
  rings_room, size_t* rings_len, s2u_shape_fault* fault);
uint64_t s2u_size(uint64_t id);
int32_t s2u_square_of(uint64_t id, s2u_square* square);
int32_t s2u_symmetric_difference(const uint64_t* xs, size_t nx, const uint64_t* ys, size_t ny, uint64_t* out, size_t
  room, size_t* len);
int32_t s2u_token(uint64_t id, char* text, size_t room, size_t* len);
int32_t s2u_token_fields(const uint64_t* ids, size_t n, char* text, size_t room, size_t* bad);
int32_t s2u_tokens(const uint64_t* ids, size_t n, char* text, size_t room, size_t* len);
int32_t s2u_union(const uint64_t* xs, size_t nx, const uint64_t* ys, size_t ny, uint64_t* out, size_t room, size_t*
  len);
int32_t s2u_union_of_many(const uint64_t* ids, size_t n, const size_t* ends, size_t lists, uint64_t* work, size_t
  work_room, uint64_t* out, size_t room, size_t* len);
uint32_t s2u_version(void);
