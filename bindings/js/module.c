/* What the module for WebAssembly has beside the proved calls: coverings, outlines and exact joins by s2union_cover.h,
 * s2union_outline.h and s2union_join.h, as the package for JavaScript calls them, and a heap. It is tested, not proved.
 *
 * JavaScript lays out the memory. A call that takes some of it gets what lies behind all that JavaScript has there, and
 * what it made is gone when the next one begins; but zones stay, which have an instance of the module of their own. */
#include "s2union_join.h"
#include "s2union_outline.h"

/* ---- the heap: blocks of a power of two, with their exponent in front */

enum { S2JS_LEAST = 5, S2JS_HEAD = 16, S2JS_PAGE = 65536 };
#define S2JS_MOST ((uint64_t)1 << 32) /* of the memory, in bytes */

static void* s2js_freed[33]; /* by the exponent: blocks, each with the address of the next one */
static uint64_t s2js_front;  /* where nothing was taken yet */

/* Begins a heap at some address; all blocks of the one before are gone. */
void s2js_begin(uint64_t at) {
  memset(s2js_freed, 0, sizeof s2js_freed);
  s2js_front = (at + 15) / 16 * 16;
}

/* Whether the memory has the bytes before some address, or could be given them. */
static int s2js_reach(uint64_t end) {
  uint64_t pages = __builtin_wasm_memory_size(0), wanted = (end + S2JS_PAGE - 1) / S2JS_PAGE;
  if (end > S2JS_MOST) return 0;
  return wanted <= pages || (uint32_t)__builtin_wasm_memory_grow(0, wanted - pages) != UINT32_MAX;
}

__attribute__((noinline)) void* malloc(size_t size) {
  if (size > S2JS_MOST / 2) return NULL;
  uint32_t exponent = size <= 1 << S2JS_LEAST ? S2JS_LEAST : 64 - (uint32_t)__builtin_clzll(size - 1);
  void** block = (void**)s2js_freed[exponent];
  if (block) {
    s2js_freed[exponent] = *block;
    return block;
  }
  uint64_t at = s2js_front + S2JS_HEAD, end = at + ((uint64_t)1 << exponent);
  if (!s2js_reach(end)) return NULL;
  s2js_front = end;
  ((uint64_t*)at)[-1] = exponent;
  return (void*)at;
}

void free(void* at) {
  if (!at) return;
  uint64_t exponent = ((uint64_t*)at)[-1];
  *(void**)at = s2js_freed[exponent];
  s2js_freed[exponent] = at;
}

void* realloc(void* at, size_t size) {
  uint64_t old = at ? (uint64_t)1 << ((uint64_t*)at)[-1] : 0;
  if (size <= old && at) return at;
  void* more = malloc(size);
  if (!more) return NULL;
  if (at) memcpy(more, at, old);
  free(at);
  return more;
}

void* calloc(size_t count, size_t size) {
  void* at = size && count > S2JS_MOST / size ? NULL : malloc(count * size);
  return at ? memset(at, 0, count * size) : NULL;
}

/* The same for the proved calls, to which no address is 0. */
static void s2js_block(s2u_block* block, void* found, void* instead) {
  block->ok = found != NULL;
  block->at = found ? found : instead;
}

void s2u_block_take(s2u_block* block, size_t size, size_t align) {
  static uint64_t nowhere[2];
  (void)align;
  s2js_block(block, malloc(size), nowhere);
}

void s2u_block_grow(s2u_block* block, void* at, size_t old_size, size_t size, size_t align) {
  (void)old_size, (void)align;
  s2js_block(block, realloc(at, size), at);
}

void s2u_block_give_back(void* at) { free(at); }

/* ---- calls */

enum { S2JS_OUTER = 1, S2JS_INNER = 2 };

typedef struct s2js_coverings {
  s2u_cover_cells outer, inner;
  s2u_cover_fault fault;
} s2js_coverings;

static s2u_cover_options s2js_options(uint64_t cells, uint32_t least, uint32_t deepest, uint32_t edges,
                                      double margin) {
  s2u_cover_options options = {cells, least, deepest, edges, margin};
  return options;
}

static s2u_cover_cells* s2js_if(uint32_t which, uint32_t wanted, s2u_cover_cells* cells) {
  cells->ids = NULL;
  cells->count = 0;
  return which & wanted ? cells : NULL;
}

/* The leaves of places; numbers are two for each. */
void s2js_leaves(const double* positions, size_t numbers, uint64_t* leaves) {
  for (size_t k = 0; k < numbers / 2; k++) leaves[k] = s2u_geo_leaf(positions[2 * k], positions[2 * k + 1]);
}

/* The longitudes and latitudes of points of faces; numbers are three for each: a face, and how many leaves a point lies
 * from its corner along each axis. */
void s2js_places(const double* points, size_t numbers, double* positions) {
  for (size_t k = 0; k < numbers / 3; k++, points += 3, positions += 2)
    s2u_geo_place((uint32_t)points[0], points[1], points[2], &positions[0], &positions[1]);
}

/* A ring is two words: where it ends, and its polygon. */
int32_t s2js_cover(const double* positions, size_t numbers, const s2u_cover_ring* rings, size_t words, uint64_t cells,
                     uint32_t least, uint32_t deepest, uint32_t edges, double margin, uint32_t which,
                     s2js_coverings* made) {
  s2u_cover_shape shape = {positions, rings, words / 2};
  s2u_cover_options options = s2js_options(cells, least, deepest, edges, margin);
  (void)numbers;
  return s2u_cover(&shape, &options, s2js_if(which, S2JS_OUTER, &made->outer),
                   s2js_if(which, S2JS_INNER, &made->inner), &made->fault);
}

int32_t s2js_cover_wkb(const uint8_t* bytes, size_t size, uint64_t cells, uint32_t least, uint32_t deepest,
                         uint32_t edges, double margin, uint32_t which, s2js_coverings* made) {
  s2u_cover_options options = s2js_options(cells, least, deepest, edges, margin);
  return s2u_cover_wkb(bytes, size, &options, s2js_if(which, S2JS_OUTER, &made->outer),
                       s2js_if(which, S2JS_INNER, &made->inner), &made->fault);
}

int32_t s2js_cover_geojson(const char* text, size_t size, uint64_t cells, uint32_t least, uint32_t deepest,
                           uint32_t edges, double margin, uint32_t which, s2js_coverings* made) {
  s2u_cover_options options = s2js_options(cells, least, deepest, edges, margin);
  return s2u_cover_geojson(text, size, &options, s2js_if(which, S2JS_OUTER, &made->outer),
                           s2js_if(which, S2JS_INNER, &made->inner), &made->fault);
}

int32_t s2js_circle(double longitude, double latitude, double radius, uint64_t cells, uint32_t least, uint32_t deepest,
                    double margin, uint32_t which, s2js_coverings* made) {
  s2u_cover_options options = s2js_options(cells, least, deepest, S2U_COVER_GEODESIC, margin);
  return s2u_cover_circle(longitude, latitude, radius, &options, s2js_if(which, S2JS_OUTER, &made->outer),
                          s2js_if(which, S2JS_INNER, &made->inner), &made->fault);
}

int32_t s2js_box(double west, double south, double east, double north, uint64_t cells, uint32_t least,
                 uint32_t deepest, uint32_t edges, double margin, uint32_t which, s2js_coverings* made) {
  s2u_cover_options options = s2js_options(cells, least, deepest, edges, margin);
  return s2u_cover_box(west, south, east, north, &options, s2js_if(which, S2JS_OUTER, &made->outer),
                       s2js_if(which, S2JS_INNER, &made->inner), &made->fault);
}

int32_t s2js_outline(const uint64_t* ids, size_t n, s2u_geo_rings* rings) { return s2u_geo_outline(ids, n, rings); }

int32_t s2js_boundary(const uint64_t* ids, size_t n, s2u_geo_rings* rings) { return s2u_geo_boundary(ids, n, rings); }

/* The cells of a level around the first cell of a list. */
int32_t s2js_neighbors(const uint64_t* ids, size_t n, uint32_t level, s2u_cover_cells* made) {
  (void)n;
  return s2u_cover_neighbors(ids[0], level, made);
}

static int s2js_has_four(s2u_cover_cells* made) {
  made->count = 4;
  made->ids = (uint64_t*)malloc(4 * sizeof *made->ids);
  return made->ids != NULL;
}

int32_t s2js_edge_neighbors(const uint64_t* ids, size_t n, uint32_t level, s2u_cover_cells* made) {
  (void)n, (void)level;
  return s2js_has_four(made) ? s2u_geo_edge_neighbors(ids[0], made->ids) : S2U_MEMORY;
}

int32_t s2js_vertex_neighbors(const uint64_t* ids, size_t n, uint32_t level, s2u_cover_cells* made) {
  (void)n;
  return s2js_has_four(made) ? s2u_geo_vertex_neighbors(ids[0], level, made->ids, &made->count) : S2U_MEMORY;
}

int32_t s2js_expanded(const uint64_t* ids, size_t n, uint32_t level, s2u_cover_cells* made) {
  return s2u_cover_expanded(ids, n, level, made);
}

int32_t s2js_bounds(const uint64_t* ids, size_t n, s2u_cover_bounds* box) { return s2u_cover_rect_bound(ids, n, box); }

int32_t s2js_area(const uint64_t* ids, size_t n, double* area) {
  *area = s2u_geo_area(ids, n);
  return S2U_OK;
}

/* ---- which zones have which places, in an instance that does nothing else: what calls are given lies in its heap */

static s2u_join_zones s2js_made;

/* Begins the heap at some address, without a zone. */
void s2js_zones(uint64_t at) {
  s2js_begin(at);
  s2js_made = s2u_join_none();
}

/* Where so many bytes are, or 0. */
uint32_t s2js_take(uint64_t size) { return (uint32_t)(uint64_t)malloc(size); }

void s2js_give_back(uint64_t at) { free((void*)at); }

int32_t s2js_add(const double* positions, size_t numbers, const s2u_cover_ring* rings, size_t words,
                 s2u_cover_fault* fault) {
  s2u_cover_shape shape = {positions, rings, words / 2};
  (void)numbers;
  return s2u_join_add_shape(&s2js_made, &shape, fault);
}

int32_t s2js_add_wkb(const uint8_t* bytes, size_t size, s2u_cover_fault* fault) {
  return s2u_join_add_wkb(&s2js_made, bytes, size, fault);
}

int32_t s2js_add_geojson(const char* text, size_t size, s2u_cover_fault* fault) {
  return s2u_join_add_geojson(&s2js_made, text, size, fault);
}

typedef struct s2js_found {
  void* pairs; /* s2u_join_pair, which JavaScript gives back */
  size_t count, wrong;
} s2js_found;

int32_t s2js_pairs(const double* longitudes, size_t places, const double* latitudes, size_t as_many, uint32_t borders,
                   s2js_found* found) {
  s2u_cover_list pairs;
  (void)as_many;
  int32_t status =
      s2u_join_pairs_of(&s2js_made, longitudes, latitudes, places, (int)borders, &pairs, &found->wrong);
  found->pairs = pairs.at, found->count = pairs.count;
  return status;
}

/* The deepest level of cells at the border that keep within some meters. */
uint32_t s2js_level_within(double meters) {
  s2u_cover_options options = s2js_options(0, 0, 30, S2U_COVER_MAP, 0);
  s2u_cover_keep_within(&options, meters);
  return options.max_level;
}

const char* s2js_text(int32_t status) { return s2u_cover_status_text(status); }
