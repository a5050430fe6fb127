/* Coverings of polygons, lines and points in degrees, by the calls of polygons of s2union.h; at the end the cells
 * around cells, and the box around a union. All of it is in this header, and needs the library, malloc and -lm. The
 * longitude comes first.
 *
 * A shape is a list of positions, a longitude and a latitude each, and the rings and lines that they make. Its outer
 * covering has each place of the shape; its inner covering has places of the shape alone. The proved calls make the
 * cells of whole numbers, and a proved call makes such numbers of a place in degrees. The steps between these calls are
 * below, tested beside S2 and not proved:
 *
 *   - A corner is rounded to a direction, by at most 3 mm on the earth, and the middle of an edge moves by more.
 *   - Edges are straight on the map of longitudes and latitudes (S2U_COVER_MAP), as in GeoJSON, or shortest ways on the
 *     sphere (S2U_COVER_GEODESIC), as in S2. An edge on the map is cut into pieces, each so near to a shortest way that
 *     the difference is small beside the cells at the border, and a shortest way of more than 90 degrees at its
 *     middle. The margin of the call pays for the rest and for rounding, so nothing of the shape is missing in the
 *     outer covering, and nothing outside of it is in the inner one.
 *   - A ring may cross itself and others: inside is what an odd number of crossings with the rings of a polygon leads
 *     to. On the map polygons may overlap: a shape is all of them together. Geodesic rings are counted all together,
 *     as in S2.
 *   - An edge that two polygons share, by exactly the same two corners, is no border where the polygons are disjoint
 *     for sure; geodesic edges that run both ways aren't. A country by its provinces is covered as the country is.
 *   - A ring has a longitude outside of -180 to 180 where it goes over the date line. Edges of one polygon or of two
 *     that run along it on both sides cancel, and so do parts of a polygon wider than 360 degrees that lie on each
 *     other after a turn.
 *
 * Work and memory follow the positions: all edges have together at most S2U_COVER_MOST_PIECES pieces. */
#ifndef S2UNION_COVER_H
#define S2UNION_COVER_H

#include <stdlib.h>
#include <string.h>
#include "s2union_geo.h"

enum {
  S2U_COVER_NUMBER = -101,   /* a longitude or a latitude is out of range, or not a number: at the position */
  S2U_COVER_FEW = -102,      /* the ring has fewer than four positions, or a line none */
  S2U_COVER_OPEN = -103,     /* the last position of the ring is not its first */
  S2U_COVER_PIECES = -104,   /* the edges are too long for the number of positions */
  S2U_COVER_OUTSIDE = -105,  /* no place was found that is outside of the shape */
  S2U_COVER_OPPOSITE = -106, /* two positions that follow each other lie opposite each other: at the first */
  S2U_COVER_OPTION = -107,   /* a number of cells, a level, a margin, a radius or a kind of edges is out of range */
  S2U_COVER_WKB = -108,      /* the bytes are no WKB: at the byte */
  S2U_COVER_TYPE = -109,     /* the WKB has a type of geometry that has no covering: at the byte */
  S2U_COVER_SRID = -110,     /* the coordinates of the WKB are no degrees: its SRID is neither 0 nor 4326 */
  S2U_COVER_DEEP = -111,     /* the WKB has collections in more than 32 collections */
  S2U_COVER_GEOJSON = -112   /* the text is no GeoJSON of polygons, lines and points: after the ring and the position */
};

/* Edges; the last are geodesic, with the inside on their left. */
enum { S2U_COVER_MAP = 0, S2U_COVER_GEODESIC = 1, S2U_COVER_LEFT = 2 };

#define S2U_COVER_LINE UINT64_MAX /* in the place of the polygon's number: a line, or a point if it has one position */
#define S2U_COVER_EARTH 6371010.0 /* meters of a radian, as S2Earth has it */
#define S2U_COVER_MOST_MARGIN 300000.0 /* meters */
#define S2U_COVER_MOST_RADIUS 20000000.0
#define S2U_COVER_MOST_CELLS 1000000
#define S2U_COVER_MOST_PIECES(positions) (100000 + 8 * (uint64_t)(positions))

#define S2U_COVER_KEPT 0.96 /* the part of a distance that a cell may be wide; the rest pays for bends and rounding */
#define S2U_COVER_WHOLE (3 * (INT64_C(1) << 60)) /* of the library's margins: half a face */
#define S2U_COVER_ROUNDING 4.1e-10 /* radians: the farthest that a corner is rounded */
#define S2U_COVER_NEAR 0.004 /* the part of a margin by which edges may bend, and by which corners may be left out */
#define S2U_COVER_FINE 16384 /* edges may bend by this part of a cell at the border, however small the margin is */
#define S2U_COVER_THIN 1e-9 /* degrees: leaves in what two polygons share are at the border by rounding alone */
#define S2U_COVER_FEW_CELLS 8 /* of a part; if parts have too many together, all cells get larger */
#define S2U_COVER_STEP (S2U_GEO_PI / 16) /* radians: no piece is longer, in longitude or in latitude */

/* A ring of a polygon, or a line. Rings of one polygon have its number, and stand next to each other. */
typedef s2u_ring s2u_cover_ring;

typedef struct s2u_cover_shape {
  const double* positions; /* longitude, latitude, longitude, latitude, .. */
  const s2u_cover_ring* rings;
  size_t count; /* of rings */
} s2u_cover_shape;

/* Options as S2RegionCoverer has them. */
typedef struct s2u_cover_options {
  uint64_t max_cells; /* at most S2U_COVER_MOST_CELLS; the outer covering of more faces has these */
  uint32_t min_level; /* cells at the border are as deep, also if there are more than max_cells then */
  uint32_t max_level;
  uint32_t edges;
  double margin; /* meters by which the outer covering goes beyond the shape, and the inner one stays inside */
} s2u_cover_options;

/* What a fault is about. */
typedef struct s2u_cover_fault {
  uint64_t ring;
  uint64_t position; /* in the ring; or a byte of WKB */
  uint64_t name;     /* which fault of a text or of bytes, such as S2U_FAULT_TWICE, or 0 */
  uint64_t part;     /* how many points, lines and polygons of the text or the bytes come before it */
} s2u_cover_fault;

/* Cells in memory of malloc. */
typedef struct s2u_cover_cells {
  uint64_t* ids;
  size_t count;
} s2u_cover_cells;

static inline const char* s2u_cover_status_text(int32_t status) {
  switch (status) {
    case S2U_COVER_NUMBER: return "a longitude is from -540 to 540 and a latitude from -90 to 90 (the longitude first)";
    case S2U_COVER_FEW: return "a ring has fewer than four positions";
    case S2U_COVER_OPEN: return "a ring is open: its last position is not its first";
    case S2U_COVER_PIECES: return "the edges are too long for so few positions";
    case S2U_COVER_OUTSIDE: return "no place is outside";
    case S2U_COVER_OPPOSITE: return "two positions that follow each other lie opposite each other on the sphere";
    case S2U_COVER_OPTION: return "a number of cells, a level, a number of meters or a kind of edges is out of range";
    case S2U_COVER_WKB: return "the bytes are no WKB";
    case S2U_COVER_TYPE: return "the WKB has a geometry that is no point, line, polygon or collection of them";
    case S2U_COVER_SRID: return "the WKB has an SRID that is not 4326";
    case S2U_COVER_DEEP: return "the WKB has too many collections in each other";
    case S2U_COVER_GEOJSON: return "the text is no GeoJSON of polygons, lines and points";
    default: return s2u_status_text(status);
  }
}

/* The first level whose cells are nowhere wider than some meters, 30 if none is. */
static inline uint32_t s2u_cover_level_within(double meters) {
  uint32_t level = 0; /* the widest diagonal of a level, as S2 has it: 2.4387 / 2^level */
  while (level < 30 && !(ldexp(2.438654594434021, -(int)level) * S2U_COVER_EARTH <= meters)) level++;
  return level;
}

/* Makes cells at the border so small that no place of the outer covering is farther than some meters from the shape,
 * and each place of the shape that is farther from its border lies in the inner one, if max_cells allows it.
 * S2U_COVER_OPTION if the number isn't more than 0, or max_level is beyond 30. */
static inline int32_t s2u_cover_keep_within(s2u_cover_options* options, double meters) {
  uint32_t level = s2u_cover_level_within(S2U_COVER_KEPT * meters);
  if (!(meters > 0) || options->max_level > 30) return S2U_COVER_OPTION;
  if (level < options->min_level) level = options->min_level;
  if (level < options->max_level) options->max_level = level;
  return S2U_OK;
}

static inline double s2u_cover_radians(double degrees) { return degrees * (S2U_GEO_PI / 180); }

/* ---- memory that grows; nothing is lost if there is none */

typedef struct s2u_cover_list {
  char* at;
  size_t count, room, unit;
} s2u_cover_list;

static inline s2u_cover_list s2u_cover_list_of(size_t unit) {
  s2u_cover_list list = {NULL, 0, 0, 0};
  list.unit = unit;
  return list;
}

/* Whether there is memory for this many elements. */
static inline int s2u_cover_take(s2u_cover_list* list, size_t room) {
  void* at = room <= SIZE_MAX / 2 / list->unit ? realloc(list->at, room * list->unit) : NULL;
  if (!at) return 0;
  list->at = (char*)at;
  list->room = room;
  return 1;
}

/* For how many elements to take memory where some more come: for twice as many as there is memory for, at least. */
static inline size_t s2u_cover_more(const s2u_cover_list* list, size_t more) {
  return list->count + (more > list->room ? more : list->room);
}

/* Room for one more element at the end, or NULL. */
static inline void* s2u_cover_add(s2u_cover_list* list) {
  if (list->count == list->room && !s2u_cover_take(list, list->room ? 2 * list->room : 16)) return NULL;
  return list->at + list->unit * list->count++;
}

/* ---- corners */

typedef struct s2u_cover_vector {
  double x, y, z;
} s2u_cover_vector;

static inline s2u_cover_vector s2u_cover_unit(double x, double y, double z) {
  double size = sqrt(x * x + y * y + z * z);
  s2u_cover_vector unit = {x / size, y / size, z / size};
  return unit;
}

static inline s2u_cover_vector s2u_cover_vector_of(const s2u_direction* at) {
  return s2u_cover_unit((double)at->x, (double)at->y, (double)at->z);
}

static inline double s2u_cover_dot(const s2u_cover_vector* a, const s2u_cover_vector* b) {
  return a->x * b->x + a->y * b->y + a->z * b->z;
}

static inline s2u_direction s2u_cover_rounded(double x, double y, double z) {
  const double scale = 2147483647.0;
  s2u_direction found;
  found.x = (int64_t)nearbyint(scale * x);
  found.y = (int64_t)nearbyint(scale * y);
  found.z = (int64_t)nearbyint(scale * z);
  return found;
}

/* A place as a direction, by the proved call. Two places that are a turn apart have the same one. */
static inline s2u_direction s2u_cover_direction(double longitude, double latitude) {
  s2u_direction found = {0, 0, 0}; /* which is none */
  s2u_direction_of(longitude, latitude, &found);
  return found;
}

/* The longitude from -180 to 180, and never -180. */
static inline double s2u_cover_meridian(double longitude) {
  double meridian = remainder(longitude, 360);
  return meridian == -180 ? 180 : meridian;
}

static inline int s2u_cover_is_same(const s2u_direction* a, const s2u_direction* b) {
  return a->x == b->x && a->y == b->y && a->z == b->z;
}

static inline int s2u_cover_is_opposite(const s2u_direction* a, const s2u_direction* b) {
  return a->x == -b->x && a->y == -b->y && a->z == -b->z;
}

/* The middle of the shortest way between two places: half of the sum of their directions, which is how far the one is
 * from the place opposite the other. Of places that are nearly opposite each other these differences of degrees are
 * exact, so the middle is wrong by some 1e-15 radians alone. No number if they are opposite. */
static inline s2u_cover_vector s2u_cover_middle(const double* a, const double* b) {
  double x = s2u_cover_meridian(a[0]), y = s2u_cover_meridian(b[0]);
  int is_first_far = fabs(x) > fabs(y);
  double near = is_first_far ? y : x, far = is_first_far ? x : y, opposite = far - copysign(180, far);
  double near_latitude = is_first_far ? b[1] : a[1], far_latitude = is_first_far ? a[1] : b[1];
  double wide = s2u_cover_radians((near - opposite) / 2), high = s2u_cover_radians((near_latitude + far_latitude) / 2);
  double turn = s2u_cover_radians((near + opposite) / 2), pole = near_latitude < far_latitude ? -1 : 1;
  double below = s2u_cover_radians((90 - pole * near_latitude + (90 + pole * far_latitude)) / 2); /* the pole */
  double out = -pole * cos(below) * sin(high) * cos(wide), east = sin(below) * cos(high) * sin(wide);
  return s2u_cover_unit(out * cos(turn) - east * sin(turn), out * sin(turn) + east * cos(turn),
                        sin(below) * sin(high));
}

/* How much farther than its ends the middle of the shortest way between two corners moves when they are rounded. */
static inline double s2u_cover_sway(const s2u_cover_vector* a, const s2u_cover_vector* b) {
  return S2U_COVER_ROUNDING * (1 / sqrt((1 + s2u_cover_dot(a, b)) / 2) - 1);
}

/* How far a line that is straight on the map is at most from the shortest way between its ends, in radians: an eighth
 * of its greatest sideward acceleration, if in a unit of time it goes from the one to the other. A hundredth more pays
 * for lines of up to S2U_COVER_STEP. A bound that is small at any latitude is taken without a sine. */
static inline double s2u_cover_bend(const double* from, const double* to, double small) {
  double wide = s2u_cover_radians(fabs(to[0] - from[0])), high = s2u_cover_radians(fabs(to[1] - from[1]));
  double south = fabs(from[1]) < fabs(to[1]) ? fabs(from[1]) : fabs(to[1]);
  double north = fabs(from[1]) < fabs(to[1]) ? fabs(to[1]) : fabs(from[1]);
  double most = 1.01 / 8 * wide * (wide + 2 * high); /* at any latitude */
  if (most <= small) return most;
  if ((from[1] < 0) != (to[1] < 0)) south = 0;
  double across = wide * cos(s2u_cover_radians(south)), along = 2 * high;
  return 1.01 / 8 * wide * sin(s2u_cover_radians(north)) * sqrt(across * across + along * along);
}

/* Into how many pieces an edge is cut, so that each bends by no more than a tolerance. */
static inline double s2u_cover_pieces(const double* from, const double* to, double bend, double tolerance) {
  double wide = s2u_cover_radians(fabs(to[0] - from[0])), high = s2u_cover_radians(fabs(to[1] - from[1]));
  double pieces = ceil((wide > high ? wide : high) / S2U_COVER_STEP), bent = ceil(sqrt(bend / tolerance));
  if (bent > pieces) pieces = bent;
  return pieces < 1 ? 1 : pieces;
}

/* ---- what is looked at first */

static inline const double* s2u_cover_at(const s2u_cover_shape* shape, uint64_t position) {
  return shape->positions + 2 * position;
}

static inline uint64_t s2u_cover_begin(const s2u_cover_shape* shape, size_t ring) {
  return ring ? shape->rings[ring - 1].end : 0;
}

static inline int s2u_cover_is_place(const double* at) {
  return fabs(at[0]) <= S2U_GEO_MOST_LONGITUDE && fabs(at[1]) <= S2U_GEO_MOST_LATITUDE; /* and no NaN */
}

/* Whether each position is a place, and each ring closed. */
static inline int32_t s2u_cover_check(const s2u_cover_shape* shape, s2u_cover_fault* fault) {
  for (size_t ring = 0; ring < shape->count; ring++) {
    uint64_t begin = s2u_cover_begin(shape, ring), end = shape->rings[ring].end;
    int is_area = shape->rings[ring].polygon != S2U_COVER_LINE;
    fault->ring = ring;
    fault->position = 0;
    if (end < begin) return S2U_COVER_FEW;
    for (uint64_t k = begin; k < end; k++) {
      fault->position = k - begin;
      if (!s2u_cover_is_place(s2u_cover_at(shape, k))) return S2U_COVER_NUMBER;
    }
    if (end - begin < (is_area ? 4u : 1u)) return S2U_COVER_FEW;
    const double *first = s2u_cover_at(shape, begin), *last = s2u_cover_at(shape, end - 1);
    if (is_area && (first[0] != last[0] || first[1] != last[1])) return S2U_COVER_OPEN;
  }
  fault->ring = fault->position = 0;
  return S2U_OK;
}

static inline int32_t s2u_cover_check_options(const s2u_cover_options* options) {
  int is_fine = options->max_cells <= S2U_COVER_MOST_CELLS && options->max_level <= 30 &&
                options->min_level <= options->max_level && options->edges <= S2U_COVER_LEFT && options->margin >= 0 &&
                options->margin <= S2U_COVER_MOST_MARGIN;
  if (is_fine) return S2U_OK;
  return S2U_COVER_OPTION;
}

/* ---- places on the map */

/* Some rings of a shape, by their numbers. */
typedef struct s2u_cover_part {
  const s2u_cover_shape* shape;
  const size_t* rings;
  size_t count;
  const uint8_t* shared; /* by the position at its end, whether an edge is left out, or NULL: two polygons share it */
} s2u_cover_part;

static inline int s2u_cover_is_shared(const s2u_cover_part* part, uint64_t position) {
  return part->shared && part->shared[position];
}

static inline uint64_t s2u_cover_positions(const s2u_cover_part* part) {
  uint64_t positions = 0;
  for (size_t k = 0; k < part->count; k++)
    positions += part->shape->rings[part->rings[k]].end - s2u_cover_begin(part->shape, part->rings[k]);
  return positions;
}

typedef struct s2u_cover_bounds {
  double west, south, east, north;
} s2u_cover_bounds;

static inline void s2u_cover_widen(s2u_cover_bounds* box, const double* at) {
  box->west = fmin(box->west, at[0]);
  box->south = fmin(box->south, at[1]);
  box->east = fmax(box->east, at[0]);
  box->north = fmax(box->north, at[1]);
}

static inline s2u_cover_bounds s2u_cover_bounds_of(const s2u_cover_part* part) {
  s2u_cover_bounds box = {INFINITY, INFINITY, -INFINITY, -INFINITY};
  for (size_t k = 0; k < part->count; k++) {
    uint64_t end = part->shape->rings[part->rings[k]].end;
    for (uint64_t n = s2u_cover_begin(part->shape, part->rings[k]); n < end; n++)
      s2u_cover_widen(&box, s2u_cover_at(part->shape, n));
  }
  return box;
}

/* Whether the way to the north from a place crosses an edge on an odd number of turns of the map. */
static inline int s2u_cover_is_crossed(const double* a, const double* b, double x, double y) {
  double west = fmin(a[0], b[0]), east = fmax(a[0], b[0]);
  int is_odd = 0;
  for (double turn = ceil((west - x) / 360) - 1; x + 360 * turn < east; turn++) {
    double here = x + 360 * turn;
    if (west <= here) is_odd ^= a[1] + (here - a[0]) / (b[0] - a[0]) * (b[1] - a[1]) > y;
  }
  return is_odd;
}

/* Whether it crosses the rings of polygons an odd number of times. */
static inline int s2u_cover_is_odd(const s2u_cover_part* part, double x, double y) {
  int is_odd = 0;
  for (size_t k = 0; k < part->count; k++) {
    const s2u_cover_ring* ring = &part->shape->rings[part->rings[k]];
    if (ring->polygon == S2U_COVER_LINE) continue;
    for (uint64_t n = s2u_cover_begin(part->shape, part->rings[k]) + 1; n < ring->end; n++)
      if (!s2u_cover_is_shared(part, n))
        is_odd ^= s2u_cover_is_crossed(s2u_cover_at(part->shape, n - 1), s2u_cover_at(part->shape, n), x, y);
  }
  return is_odd;
}

/* ---- which polygons are disjoint for sure: they may be counted together, without the edges that two of them share.
 * An edge has the number of the position at its end. */

typedef struct s2u_cover_polygon {
  s2u_cover_part part;
  s2u_cover_bounds box; /* that begins between -180 and 180 */
  double turn;     /* what was added for that */
  int is_alone;
  uint64_t first, last; /* its positions, up to the last */
  s2u_cover_bounds* boxes; /* of its edges, as they are written: a tree whose leaves have some edges each */
  size_t leaves;
} s2u_cover_polygon;

typedef struct s2u_cover_borders {
  const s2u_cover_shape* shape;
  uint64_t* partners; /* the edge of another polygon that has the same two corners, if there is just one; or 0 */
  uint8_t* kinds;
  s2u_cover_bounds* boxes;
  uint64_t *touched, couples; /* by ring, the last couple of polygons in which it has a corner of both; all couples */
  double work;                /* how many more boxes and edges may be looked at */
} s2u_cover_borders;

enum { S2U_COVER_FIRST = 1, S2U_COVER_OPEN_EDGE = 2, S2U_COVER_LEAF = 8 }; /* kinds; edges of a leaf */

static inline int s2u_cover_by_west(const void* a, const void* b) {
  double x = ((const s2u_cover_polygon*)a)->box.west, y = ((const s2u_cover_polygon*)b)->box.west;
  return (x > y) - (x < y);
}

static inline int s2u_cover_side(const double* a, const double* b, double x, double y) {
  double wide = b[0] - a[0], high = b[1] - a[1], east = x - a[0], north = y - a[1];
  double turn = wide * north - high * east, noise = 1e-12 * (fabs(wide) + fabs(high)) * (fabs(east) + fabs(north));
  return (turn > noise) - (turn < -noise);
}

/* Whether two edges may touch. */
static inline int s2u_cover_may_touch(const double* a, const double* b, const double* c, const double* d) {
  return s2u_cover_side(a, b, c[0], c[1]) * s2u_cover_side(a, b, d[0], d[1]) <= 0 &&
         s2u_cover_side(c, d, a[0], a[1]) * s2u_cover_side(c, d, b[0], b[1]) <= 0;
}

/* An edge from the lesser of its corners to the other, as these are between -180 and 180, and turns between them. */
typedef struct s2u_cover_key {
  double numbers[5];
  uint64_t edge;
  size_t polygon;
  int is_back;
} s2u_cover_key;

static inline int s2u_cover_by_numbers(const void* a, const void* b) {
  const double *x = ((const s2u_cover_key*)a)->numbers, *y = ((const s2u_cover_key*)b)->numbers;
  for (int k = 0; k < 5; k++)
    if (x[k] != y[k]) return x[k] < y[k] ? -1 : 1;
  return 0;
}

static inline s2u_cover_key s2u_cover_key_of(const double* a, const double* b, uint64_t edge, size_t polygon) {
  double west = s2u_cover_meridian(a[0]), east = s2u_cover_meridian(b[0]);
  double turns = nearbyint(((b[0] - a[0]) - (east - west)) / 360);
  int is_back = east != west ? east < west : b[1] != a[1] ? b[1] < a[1] : turns < 0;
  s2u_cover_key there = {{west, a[1], east, b[1], turns}, edge, polygon, 0};
  s2u_cover_key back = {{east, b[1], west, a[1], -turns}, edge, polygon, 1};
  return is_back ? back : there;
}

static inline int s2u_cover_is_corner(const double* a, const double* b) { return a[0] == b[0] && a[1] == b[1]; }

/* The keys of the edges of polygons, sorted. */
static inline int s2u_cover_find_keys(const s2u_cover_borders* borders, const s2u_cover_polygon* polygons, size_t count,
                                      s2u_cover_list* keys) {
  for (size_t k = 0; k < count; k++) {
    for (uint64_t n = polygons[k].first; n < polygons[k].last; n++) {
      const double* at = s2u_cover_at(borders->shape, n);
      if ((borders->kinds[n] & S2U_COVER_FIRST) || s2u_cover_is_corner(at - 2, at)) continue;
      s2u_cover_key* key = (s2u_cover_key*)s2u_cover_add(keys);
      if (!key || S2U_IS_CANCELLED()) return 0;
      *key = s2u_cover_key_of(at - 2, at, n, k);
    }
  }
  if (keys->count) qsort(keys->at, keys->count, sizeof(s2u_cover_key), s2u_cover_by_numbers);
  return 1;
}

/* Finds the edges that just two polygons have, in any direction or in both. */
static inline int32_t s2u_cover_find_partners(s2u_cover_borders* borders, const s2u_cover_polygon* polygons,
                                              size_t count, int is_any_way) {
  s2u_cover_list keys = s2u_cover_list_of(sizeof(s2u_cover_key));
  int is_done = s2u_cover_find_keys(borders, polygons, count, &keys);
  const s2u_cover_key* all = (const s2u_cover_key*)keys.at;
  for (size_t k = 0, end = 0; is_done && k < keys.count; k = end) {
    for (end = k + 1; end < keys.count && s2u_cover_by_numbers(&all[k], &all[end]) == 0;) end++;
    if (end - k != 2 || all[k].polygon == all[k + 1].polygon) continue;
    if (!is_any_way && all[k].is_back == all[k + 1].is_back) continue;
    borders->partners[all[k].edge] = all[k + 1].edge;
    borders->partners[all[k + 1].edge] = all[k].edge;
  }
  free(keys.at);
  return is_done ? S2U_OK : S2U_MEMORY;
}

/* The boxes of the edges of a polygon. */
static inline void s2u_cover_find_boxes(const s2u_cover_borders* borders, s2u_cover_polygon* it) {
  const s2u_cover_bounds none = {INFINITY, INFINITY, -INFINITY, -INFINITY};
  for (size_t leaf = 0; leaf < it->leaves; leaf++) {
    s2u_cover_bounds* box = &it->boxes[it->leaves + leaf];
    uint64_t begin = it->first + S2U_COVER_LEAF * leaf, end = begin + S2U_COVER_LEAF;
    *box = none;
    for (uint64_t n = begin; n < end && n < it->last; n++) {
      if (borders->kinds[n] & S2U_COVER_FIRST) continue;
      s2u_cover_widen(box, s2u_cover_at(borders->shape, n - 1));
      s2u_cover_widen(box, s2u_cover_at(borders->shape, n));
    }
  }
  for (size_t node = it->leaves; node-- > 1;) {
    const s2u_cover_bounds *low = &it->boxes[2 * node], *high = low + 1;
    const s2u_cover_bounds both = {fmin(low->west, high->west), fmin(low->south, high->south),
                                   fmax(low->east, high->east), fmax(low->north, high->north)};
    it->boxes[node] = both;
  }
}

/* A place, and what is asked of a polygon: whether an odd number of its edges, but one, lie to the north of the place,
 * or to the east. */
typedef struct s2u_cover_ray {
  double at[2];
  int axis; /* of the ray: 1 to the north, 0 to the east */
  uint64_t but;
  int is_odd, is_unsure;
} s2u_cover_ray;

static inline void s2u_cover_meet_edge(s2u_cover_ray* ray, const double* a, const double* b) {
  int along = ray->axis, across = 1 - along;
  double here = ray->at[across], wide = b[across] - a[across], high = b[along] - a[along];
  if ((a[across] <= here) == (b[across] <= here)) return;
  double east = here - a[across], north = ray->at[along] - a[along], turn = wide * north - high * east;
  double noise = (fabs(wide) + fabs(high)) * (1e-12 * (fabs(east) + fabs(north)) + 1e-13);
  ray->is_unsure |= fabs(turn) <= noise;
  ray->is_odd ^= (turn < 0) == (wide > 0);
}

static inline void s2u_cover_shoot(s2u_cover_borders* borders, const s2u_cover_polygon* it, size_t node,
                                   s2u_cover_ray* ray) {
  const s2u_cover_bounds* box = &it->boxes[node];
  int is_met = ray->axis ? box->west <= ray->at[0] && ray->at[0] <= box->east && box->north >= ray->at[1] - 1e-12
                         : box->south <= ray->at[1] && ray->at[1] <= box->north && box->east >= ray->at[0] - 1e-12;
  if (!is_met || ray->is_unsure) return;
  if (--borders->work < 0) ray->is_unsure = 1;
  if (node < it->leaves) {
    s2u_cover_shoot(borders, it, 2 * node, ray);
    s2u_cover_shoot(borders, it, 2 * node + 1, ray);
    return;
  }
  uint64_t begin = it->first + S2U_COVER_LEAF * (node - it->leaves);
  for (uint64_t n = begin; n < begin + S2U_COVER_LEAF && n < it->last; n++)
    if (n != ray->but && !(borders->kinds[n] & S2U_COVER_FIRST))
      s2u_cover_meet_edge(ray, s2u_cover_at(borders->shape, n - 1), s2u_cover_at(borders->shape, n));
}

/* Whether a place may be in a polygon. */
static inline int s2u_cover_may_have(s2u_cover_borders* borders, const s2u_cover_polygon* it, double x, double y) {
  s2u_cover_ray ray = {{x, y}, 1, 0, 0, 0};
  s2u_cover_shoot(borders, it, 1, &ray);
  return ray.is_odd || ray.is_unsure;
}

/* On which side of one of its edges a polygon is: to its north or east, or not; -1 if that isn't sure. */
static inline int s2u_cover_side_of(s2u_cover_borders* borders, const s2u_cover_polygon* it, uint64_t edge) {
  const double *a = s2u_cover_at(borders->shape, edge - 1), *b = s2u_cover_at(borders->shape, edge);
  s2u_cover_ray ray = {{(a[0] + b[0]) / 2, (a[1] + b[1]) / 2}, a[0] != b[0], edge, 0, 0};
  s2u_cover_shoot(borders, it, 1, &ray);
  return ray.is_unsure ? -1 : ray.is_odd;
}

/* Two polygons, the second moved to the east by some degrees. */
typedef struct s2u_cover_couple {
  s2u_cover_borders* borders;
  const s2u_cover_polygon *a, *b;
  double east;
} s2u_cover_couple;

/* Notes that the ring of an edge has a corner of both. */
static inline void s2u_cover_touch(const s2u_cover_couple* it, uint64_t edge) {
  size_t low = 0, high = it->borders->shape->count;
  while (low < high) {
    size_t middle = low + (high - low) / 2;
    if (it->borders->shape->rings[middle].end <= edge) low = middle + 1;
    else high = middle;
  }
  it->borders->touched[low] = it->borders->couples;
}

/* Whether the middle of an edge of one of them may be in the other, by a corner that both have; not of an edge that
 * both have. */
static inline int s2u_cover_goes_into(const s2u_cover_couple* it, uint64_t edge, const s2u_cover_polygon* other,
                                      double east) {
  uint64_t partner = it->borders->partners[edge];
  if (partner >= other->first && partner < other->last) return 0;
  const double *a = s2u_cover_at(it->borders->shape, edge - 1), *b = s2u_cover_at(it->borders->shape, edge);
  return s2u_cover_may_have(it->borders, other, (a[0] + b[0]) / 2 + east, (a[1] + b[1]) / 2);
}

/* Whether two edges of one corner may have more than that. */
static inline int s2u_cover_may_lie_along(const double* corner, const double* a, const double* b) {
  double along = (a[0] - corner[0]) * (b[0] - corner[0]) + (a[1] - corner[1]) * (b[1] - corner[1]);
  return s2u_cover_side(corner, a, b[0], b[1]) == 0 && along >= 0;
}

/* Whether polygons may share a place by an edge of each: these touch, but not in a corner alone or along all of both;
 * or one polygon is on both sides of an edge of the other, or on the same side of an edge that both have. */
static inline int s2u_cover_may_cross(const s2u_cover_couple* it, uint64_t first, uint64_t second) {
  const double *a = s2u_cover_at(it->borders->shape, first - 1), *b = s2u_cover_at(it->borders->shape, first);
  const double *p = s2u_cover_at(it->borders->shape, second - 1), *q = s2u_cover_at(it->borders->shape, second);
  double c[2] = {p[0] + it->east, p[1]}, d[2] = {q[0] + it->east, q[1]};
  if (fmax(a[0], b[0]) < fmin(c[0], d[0]) - 1e-12 || fmin(a[0], b[0]) > fmax(c[0], d[0]) + 1e-12 ||
      fmax(a[1], b[1]) < fmin(c[1], d[1]) || fmin(a[1], b[1]) > fmax(c[1], d[1]))
    return 0;
  if (s2u_cover_is_corner(a, b) || s2u_cover_is_corner(p, q)) return 0; /* the edges beside it have its place */
  if (it->borders->partners[first] == second) {
    int side = s2u_cover_side_of(it->borders, it->a, first), other = s2u_cover_side_of(it->borders, it->b, second);
    s2u_cover_touch(it, first), s2u_cover_touch(it, second);
    return side < 0 || other < 0 || side == other;
  }
  int is_first = fabs(a[0] - c[0]) < 1e-9 && s2u_cover_meridian(a[0]) == s2u_cover_meridian(p[0]) && a[1] == p[1];
  int is_last = fabs(b[0] - d[0]) < 1e-9 && s2u_cover_meridian(b[0]) == s2u_cover_meridian(q[0]) && b[1] == q[1];
  int is_next = fabs(b[0] - c[0]) < 1e-9 && s2u_cover_meridian(b[0]) == s2u_cover_meridian(p[0]) && b[1] == p[1];
  int is_before = fabs(a[0] - d[0]) < 1e-9 && s2u_cover_meridian(a[0]) == s2u_cover_meridian(q[0]) && a[1] == q[1];
  int corners = is_first + is_last + is_next + is_before;
  if (corners == 0) return s2u_cover_may_touch(a, b, c, d);
  s2u_cover_touch(it, first), s2u_cover_touch(it, second);
  return corners > 1 || s2u_cover_may_lie_along(is_first || is_before ? a : b, is_first || is_before ? b : a,
                                                is_first || is_next ? d : c) ||
         s2u_cover_goes_into(it, first, it->b, -it->east) || s2u_cover_goes_into(it, second, it->a, it->east);
}

/* Whether some edges of polygons may cross, by the boxes that have them. */
static inline int s2u_cover_may_cross_in(const s2u_cover_couple* it, size_t first, size_t second) {
  const s2u_cover_bounds *a = &it->a->boxes[first], *b = &it->b->boxes[second];
  if (a->east < b->west + it->east - 1e-12 || a->west > b->east + it->east + 1e-12 || a->north < b->south ||
      a->south > b->north)
    return 0;
  if (--it->borders->work < 0 || S2U_IS_CANCELLED()) return 1;
  int is_leaf = first >= it->a->leaves, is_other = second >= it->b->leaves;
  if (!is_leaf && (is_other || it->a->leaves / first >= it->b->leaves / second))
    return s2u_cover_may_cross_in(it, 2 * first, second) || s2u_cover_may_cross_in(it, 2 * first + 1, second);
  if (!is_other)
    return s2u_cover_may_cross_in(it, first, 2 * second) || s2u_cover_may_cross_in(it, first, 2 * second + 1);
  uint64_t begin = it->a->first + S2U_COVER_LEAF * (first - it->a->leaves);
  uint64_t other = it->b->first + S2U_COVER_LEAF * (second - it->b->leaves);
  it->borders->work -= (double)S2U_COVER_LEAF;
  for (uint64_t n = begin; n < begin + S2U_COVER_LEAF && n < it->a->last; n++)
    for (uint64_t m = other; m < other + S2U_COVER_LEAF && m < it->b->last; m++)
      if (!((it->borders->kinds[n] | it->borders->kinds[m]) & S2U_COVER_FIRST) && s2u_cover_may_cross(it, n, m))
        return 1;
  return 0;
}

/* Whether a ring of a polygon that has no corner in common with another one may be in that. */
static inline int s2u_cover_may_be_in(const s2u_cover_couple* it, const s2u_cover_polygon* of,
                                      const s2u_cover_polygon* other, double east) {
  for (size_t k = 0; k < of->part.count; k++) {
    const double* at = s2u_cover_at(of->part.shape, s2u_cover_begin(of->part.shape, of->part.rings[k]));
    if ((it->borders->work -= 0.125) < 0) return 1;
    if (it->borders->touched[of->part.rings[k]] == it->borders->couples) continue;
    if (s2u_cover_may_have(it->borders, other, at[0] + east, at[1])) return 1;
  }
  return 0;
}

/* Whether two polygons may share a place, the second moved to the east by some turns, by all of their edges: no edge
 * crosses another one, none that but one polygon has goes on in the other from a corner of both, the polygons lie on
 * two sides of what both have, and no ring lies in the other polygon. */
static inline int s2u_cover_may_overlap(s2u_cover_borders* borders, const s2u_cover_polygon* a,
                                        const s2u_cover_polygon* b, double turn) {
  const s2u_cover_couple it = {borders, a, b, turn + b->turn - a->turn};
  borders->couples++;
  if (a->box.east - a->box.west > 360 || b->box.east - b->box.west > 360) return 1; /* these may cancel themselves */
  return s2u_cover_may_cross_in(&it, 1, 1) || s2u_cover_may_be_in(&it, a, b, -it.east) ||
         s2u_cover_may_be_in(&it, b, a, it.east);
}

/* Marks polygons that may share a place with another one that isn't marked. */
static inline void s2u_cover_mark(s2u_cover_borders* borders, s2u_cover_polygon* polygons, size_t count) {
  qsort(polygons, count, sizeof *polygons, s2u_cover_by_west);
  for (size_t k = 0; k < count; k++) {
    s2u_cover_polygon* a = &polygons[k];
    for (int turn = 0; turn <= 3 && !a->is_alone; turn++) {
      for (size_t n = turn ? 0 : k + 1; n < count && !a->is_alone; n++) {
        s2u_cover_polygon* b = &polygons[n];
        if (S2U_IS_CANCELLED()) return;
        if (b->box.west + 360 * turn >= a->box.east - S2U_COVER_THIN) break;
        int is_near = !b->is_alone && n != k && a->box.south < b->box.north - S2U_COVER_THIN &&
                      b->box.south < a->box.north - S2U_COVER_THIN;
        if (--borders->work < 0) a->is_alone = 1;
        else if (is_near && s2u_cover_may_overlap(borders, a, b, 360 * turn)) {
          double wide = a->box.east - a->box.west, other = b->box.east - b->box.west;
          (wide < other ? a : b)->is_alone = 1;
        }
      }
    }
  }
}

/* Whether a polygon's edges may be left out: it is counted with others, and isn't so thin that a part of another one
 * may lie on all of it. */
static inline int s2u_cover_is_open(const s2u_cover_polygon* it) {
  return !it->is_alone && it->box.east - it->box.west > 4 * S2U_COVER_THIN &&
         it->box.north - it->box.south > 4 * S2U_COVER_THIN;
}

/* Leaves only those partners that are both in polygons that are counted together, as ones in `kinds`. Whether there are
 * some; and an edge besides, if one is needed. */
static inline int s2u_cover_keep_shared(s2u_cover_borders* borders, const s2u_cover_polygon* polygons, size_t count,
                                        int is_one_needed) {
  uint64_t shared = 0, edges = 0;
  for (size_t k = 0; k < count; k++)
    for (uint64_t n = polygons[k].first; s2u_cover_is_open(&polygons[k]) && n < polygons[k].last; n++)
      if (borders->partners[n]) borders->kinds[n] |= S2U_COVER_OPEN_EDGE;
  for (size_t k = 0; k < count; k++) {
    for (uint64_t n = polygons[k].first; n < polygons[k].last; n++) {
      const double* at = s2u_cover_at(borders->shape, n);
      if (!(borders->kinds[n] & S2U_COVER_FIRST) && !s2u_cover_is_corner(at - 2, at)) edges++;
      if (!borders->partners[n] || !(borders->kinds[n] & borders->kinds[borders->partners[n]] & S2U_COVER_OPEN_EDGE))
        borders->partners[n] = 0;
    }
  }
  for (size_t k = 0; k < count; k++)
    for (uint64_t n = polygons[k].first; n < polygons[k].last; n++)
      shared += borders->kinds[n] = borders->partners[n] != 0;
  return shared > 0 && !(is_one_needed && shared == edges);
}

static inline int32_t s2u_cover_take_borders(s2u_cover_borders* borders, s2u_cover_polygon* polygons, size_t count) {
  uint64_t positions = s2u_cover_begin(borders->shape, borders->shape->count);
  size_t boxes = 0;
  for (size_t k = 0; k < count; k++) boxes += 2 * ((polygons[k].last - polygons[k].first) / S2U_COVER_LEAF + 1);
  borders->work = 100000 + 256 * (double)positions;
  borders->partners = (uint64_t*)calloc(positions + 1, sizeof(uint64_t));
  borders->kinds = (uint8_t*)calloc(positions + 1, 1);
  borders->boxes = (s2u_cover_bounds*)malloc(boxes * sizeof(s2u_cover_bounds));
  borders->touched = (uint64_t*)calloc(borders->shape->count, sizeof(uint64_t));
  if (!borders->partners || !borders->kinds || !borders->boxes || !borders->touched) return S2U_MEMORY;
  for (size_t k = 0; k < borders->shape->count; k++)
    borders->kinds[s2u_cover_begin(borders->shape, k)] = S2U_COVER_FIRST;
  boxes = 0;
  for (size_t k = 0; k < count; k++) {
    polygons[k].leaves = (polygons[k].last - polygons[k].first) / S2U_COVER_LEAF + 1;
    polygons[k].boxes = borders->boxes + boxes;
    boxes += 2 * polygons[k].leaves;
    s2u_cover_find_boxes(borders, &polygons[k]);
  }
  return S2U_OK;
}

/* Marks the polygons on the map that are covered alone, and finds the edges that two others share: `shared` has these
 * as ones, or is NULL. Geodesic rings are counted together, so edges that run both ways cancel wherever these lie; but
 * not all edges, which then are the border of no place. */
static inline int32_t s2u_cover_find_shared(const s2u_cover_shape* shape, s2u_cover_polygon* polygons, size_t count,
                                            int is_on_map, uint8_t** shared) {
  s2u_cover_borders borders = {shape, NULL, NULL, NULL, NULL, 0, 0};
  int32_t status = s2u_cover_take_borders(&borders, polygons, count);
  if (status == S2U_OK) status = s2u_cover_find_partners(&borders, polygons, count, is_on_map);
  if (status == S2U_OK && is_on_map) s2u_cover_mark(&borders, polygons, count);
  if (status == S2U_OK && s2u_cover_keep_shared(&borders, polygons, count, !is_on_map))
    *shared = borders.kinds, borders.kinds = NULL;
  free(borders.touched);
  free(borders.partners);
  free(borders.kinds);
  free(borders.boxes);
  return status;
}

/* ---- the two sides of the date line: where one edge runs along a meridian and another along the same one a turn
 * away, both are left out */

typedef struct s2u_cover_end {
  double meridian, latitude;
  double turn;
  int change; /* 1 where an edge begins in the south, -1 where it ends in the north */
} s2u_cover_end;

typedef struct s2u_cover_seam {
  double meridian, south, north;
} s2u_cover_seam;

static inline int s2u_cover_by_latitude(const void* a, const void* b) {
  const s2u_cover_end *x = (const s2u_cover_end*)a, *y = (const s2u_cover_end*)b;
  if (x->meridian != y->meridian) return x->meridian < y->meridian ? -1 : 1;
  return (x->latitude > y->latitude) - (x->latitude < y->latitude);
}

static inline int s2u_cover_add_ends(s2u_cover_list* ends, const double* a, const double* b) {
  for (int k = 0; k < 2; k++) {
    s2u_cover_end* end = (s2u_cover_end*)s2u_cover_add(ends);
    if (!end) return 0;
    end->meridian = s2u_cover_meridian(a[0]);
    end->turn = a[0] - end->meridian;
    end->latitude = k ? fmax(a[1], b[1]) : fmin(a[1], b[1]);
    end->change = k ? -1 : 1;
  }
  return 1;
}

/* The parts of meridians that just two edges of polygons run along, on two sides of the map. In a part wider than 360
 * degrees both may have the same places beside them, which cancel: such edges stay. So do those that it would take too
 * long to ask about. */
static inline int32_t s2u_cover_find_seams(const s2u_cover_part* part, int is_wide, s2u_cover_list* seams) {
  s2u_cover_list ends = s2u_cover_list_of(sizeof(s2u_cover_end));
  int32_t status = S2U_OK;
  for (size_t k = 0; k < part->count; k++) {
    const s2u_cover_ring* ring = &part->shape->rings[part->rings[k]];
    if (ring->polygon == S2U_COVER_LINE) continue;
    for (uint64_t n = s2u_cover_begin(part->shape, part->rings[k]) + 1; n < ring->end; n++) {
      const double *a = s2u_cover_at(part->shape, n - 1), *b = s2u_cover_at(part->shape, n);
      int is_upright = a[0] == b[0] && a[1] != b[1] && !s2u_cover_is_shared(part, n);
      if (is_upright && !s2u_cover_add_ends(&ends, a, b)) status = S2U_MEMORY;
    }
  }
  s2u_cover_end* all = (s2u_cover_end*)ends.at;
  if (ends.count) qsort(all, ends.count, sizeof *all, s2u_cover_by_latitude);
  double turns = 0, squares = 0, positions = (double)s2u_cover_positions(part), work = 100000 + 64 * positions;
  int count = 0;
  for (size_t k = 0; status == S2U_OK && k < ends.count; k++) {
    if (S2U_IS_CANCELLED()) status = S2U_MEMORY;
    int is_seam = k && count == 2 && all[k].latitude != all[k - 1].latitude && 2 * squares != turns * turns;
    if (is_seam && is_wide) {
      double middle = all[k - 1].latitude + (all[k].latitude - all[k - 1].latitude) / 2;
      is_seam = (work -= positions) >= 0 && s2u_cover_is_odd(part, all[k].meridian, middle);
    }
    if (is_seam) {
      s2u_cover_seam* seam = (s2u_cover_seam*)s2u_cover_add(seams);
      if (!seam) status = S2U_MEMORY;
      else seam->meridian = all[k].meridian, seam->south = all[k - 1].latitude, seam->north = all[k].latitude;
    }
    count += all[k].change;
    turns += all[k].change * all[k].turn;
    squares += all[k].change * all[k].turn * all[k].turn;
  }
  free(all);
  return status;
}

/* The first of the seams of a meridian that ends to the north of a latitude. */
static inline size_t s2u_cover_seam_after(const s2u_cover_list* seams, double meridian, double latitude) {
  const s2u_cover_seam* all = (const s2u_cover_seam*)seams->at;
  size_t low = 0, high = seams->count;
  while (low < high) {
    size_t middle = low + (high - low) / 2;
    int is_before = all[middle].meridian < meridian ||
                    (all[middle].meridian == meridian && all[middle].north <= latitude);
    if (is_before) low = middle + 1;
    else high = middle;
  }
  return low;
}

/* ---- rings of directions */

typedef struct s2u_cover_chain { /* corners between two seams, by their first and their last place */
  size_t first, last;
  int is_used;
} s2u_cover_chain;

typedef struct s2u_cover_build {
  double tolerance, bend; /* how far pieces may bend, and how far they do; shortest ways, by what is rounded */
  double length; /* of the edges in radians, about */
  s2u_cover_list corners, ends;
  s2u_cover_list loose, chains; /* corners of rings that have a seam, and their chains */
  s2u_cover_list seams;
  uint64_t pieces, most;
  int is_on_map;
} s2u_cover_build;

static inline s2u_cover_build s2u_cover_build_of(void) {
  s2u_cover_build build;
  memset(&build, 0, sizeof build);
  build.corners = build.loose = s2u_cover_list_of(sizeof(s2u_direction));
  build.ends = s2u_cover_list_of(sizeof(size_t));
  build.chains = s2u_cover_list_of(sizeof(s2u_cover_chain));
  build.seams = s2u_cover_list_of(sizeof(s2u_cover_seam));
  return build;
}

static inline void s2u_cover_let_go(s2u_cover_build* build) {
  free(build->corners.at);
  free(build->ends.at);
  free(build->loose.at);
  free(build->chains.at);
  free(build->seams.at);
}

/* Adds a corner to a ring or chain that begins at some place, if it isn't the last one there. */
static inline int s2u_cover_add_corner(s2u_cover_list* corners, size_t begin, s2u_direction corner) {
  if (corners->count > begin && s2u_cover_is_same((s2u_direction*)corners->at + corners->count - 1, &corner)) return 1;
  s2u_direction* last = (s2u_direction*)s2u_cover_add(corners);
  if (last) *last = corner;
  return last != NULL;
}

/* Ends a ring: it closes itself, and has at least three corners. */
static inline int s2u_cover_end_ring(s2u_cover_build* build, size_t begin) {
  s2u_cover_list* corners = &build->corners;
  s2u_direction* all = (s2u_direction*)corners->at;
  if (corners->count == begin) return 1;
  if (corners->count > begin + 1 && s2u_cover_is_same(&all[begin], &all[corners->count - 1])) corners->count--;
  while (corners->count < begin + 3) {
    s2u_direction* corner = (s2u_direction*)s2u_cover_add(corners);
    if (!corner) return 0;
    *corner = ((s2u_direction*)corners->at)[begin];
  }
  size_t* end = (size_t*)s2u_cover_add(&build->ends);
  if (end) *end = corners->count;
  return end != NULL;
}

static inline int32_t s2u_cover_end_chain(s2u_cover_build* build, size_t begin) {
  if (build->loose.count <= begin + 1) {
    build->loose.count = begin;
    return S2U_OK;
  }
  s2u_cover_chain* chain = (s2u_cover_chain*)s2u_cover_add(&build->chains);
  if (!chain) return S2U_MEMORY;
  chain->first = begin;
  chain->last = build->loose.count - 1;
  chain->is_used = 0;
  return S2U_OK;
}

/* Adds a shortest way after its beginning, which is the last corner, in two pieces if it is longer than 90 degrees. */
static inline int32_t s2u_cover_add_shortest(s2u_cover_build* build, s2u_cover_list* to, size_t begin, const double* a,
                                             const double* b) {
  s2u_direction corner = s2u_cover_direction(b[0], b[1]);
  s2u_cover_vector from = s2u_cover_vector_of((const s2u_direction*)to->at + to->count - 1);
  s2u_cover_vector end = s2u_cover_vector_of(&corner);
  if (s2u_cover_dot(&from, &end) < 0) {
    from = s2u_cover_middle(a, b);
    if (!s2u_cover_add_corner(to, begin, s2u_cover_rounded(from.x, from.y, from.z))) return S2U_MEMORY;
  }
  build->bend = fmax(build->bend, s2u_cover_sway(&from, &end));
  return s2u_cover_add_corner(to, begin, corner) ? S2U_OK : S2U_MEMORY;
}

/* Adds the pieces of an edge after its beginning. */
static inline int32_t s2u_cover_add_edge(s2u_cover_build* build, s2u_cover_list* to, size_t begin, const double* a,
                                       const double* b) {
  if (S2U_IS_CANCELLED()) return S2U_MEMORY;
  if (!build->is_on_map) return s2u_cover_add_shortest(build, to, begin, a, b);
  double bend = s2u_cover_bend(a, b, build->tolerance / 4), pieces = s2u_cover_pieces(a, b, bend, build->tolerance);
  if (pieces > (double)(build->most - build->pieces)) return S2U_COVER_PIECES;
  build->pieces += (uint64_t)pieces;
  build->bend = fmax(build->bend, bend / (pieces * pieces));
  for (double k = 1; k <= pieces; k++) {
    double part = k / pieces;
    s2u_direction corner = k < pieces ? s2u_cover_direction(a[0] + part * (b[0] - a[0]), a[1] + part * (b[1] - a[1]))
                                      : s2u_cover_direction(b[0], b[1]);
    if (!s2u_cover_add_corner(to, begin, corner)) return S2U_MEMORY;
  }
  return S2U_OK;
}

/* Adds an edge along a meridian without its seams: at each of these a chain ends and another one begins. */
static inline int32_t s2u_cover_add_around_seams(s2u_cover_build* build, size_t* begin, const double* a,
                                                 const double* b) {
  const s2u_cover_seam* seams = (const s2u_cover_seam*)build->seams.at;
  double meridian = s2u_cover_meridian(a[0]), south = fmin(a[1], b[1]), north = fmax(a[1], b[1]);
  size_t low = s2u_cover_seam_after(&build->seams, meridian, south), high = low;
  while (high < build->seams.count && seams[high].meridian == meridian && seams[high].south < north) high++;
  double here[2] = {a[0], a[1]}, there[2] = {a[0], 0};
  int is_north = b[1] > a[1];
  for (size_t k = low; k < high; k++) {
    const s2u_cover_seam* seam = &seams[is_north ? k : high - 1 - (k - low)];
    there[1] = is_north ? seam->south : seam->north;
    int32_t status = here[1] == there[1] ? S2U_OK : s2u_cover_add_edge(build, &build->loose, *begin, here, there);
    if (status == S2U_OK) status = s2u_cover_end_chain(build, *begin);
    if (status != S2U_OK) return status;
    *begin = build->loose.count;
    here[1] = is_north ? seam->north : seam->south;
    if (!s2u_cover_add_corner(&build->loose, *begin, s2u_cover_direction(here[0], here[1]))) return S2U_MEMORY;
  }
  return here[1] == b[1] ? S2U_OK : s2u_cover_add_edge(build, &build->loose, *begin, here, b);
}

static inline int s2u_cover_has_seam(const s2u_cover_build* build, const double* a, const double* b) {
  const s2u_cover_seam* seams = (const s2u_cover_seam*)build->seams.at;
  if (!build->seams.count || a[0] != b[0] || a[1] == b[1]) return 0;
  double meridian = s2u_cover_meridian(a[0]);
  size_t at = s2u_cover_seam_after(&build->seams, meridian, fmin(a[1], b[1]));
  return at < build->seams.count && seams[at].meridian == meridian && seams[at].south < fmax(a[1], b[1]);
}

/* Whether some of the edges of a ring are left out. */
static inline int s2u_cover_is_cut(const s2u_cover_build* build, const s2u_cover_part* part, size_t ring) {
  const s2u_cover_shape* shape = part->shape;
  if ((!build->seams.count && !part->shared) || shape->rings[ring].polygon == S2U_COVER_LINE) return 0;
  for (uint64_t n = s2u_cover_begin(shape, ring) + 1; n < shape->rings[ring].end; n++)
    if (s2u_cover_is_shared(part, n) || s2u_cover_has_seam(build, s2u_cover_at(shape, n - 1), s2u_cover_at(shape, n)))
      return 1;
  return 0;
}

/* Ends a chain where an edge is left out, and begins one after it. */
static inline int32_t s2u_cover_skip_edge(s2u_cover_build* build, size_t* begin, const double* b) {
  int32_t status = s2u_cover_end_chain(build, *begin);
  *begin = build->loose.count;
  if (status == S2U_OK && !s2u_cover_add_corner(&build->loose, *begin, s2u_cover_direction(b[0], b[1])))
    status = S2U_MEMORY;
  return status;
}

/* A ring of a polygon; a line goes there and back. */
static inline int32_t s2u_cover_add_ring(s2u_cover_build* build, const s2u_cover_part* part, size_t ring) {
  const s2u_cover_shape* shape = part->shape;
  int is_loose = s2u_cover_is_cut(build, part, ring);
  s2u_cover_list* to = is_loose ? &build->loose : &build->corners;
  size_t begin = to->count;
  uint64_t first = s2u_cover_begin(shape, ring), end = shape->rings[ring].end;
  const double* at = s2u_cover_at(shape, first);
  int32_t status = s2u_cover_add_corner(to, begin, s2u_cover_direction(at[0], at[1])) ? S2U_OK : S2U_MEMORY;
  for (uint64_t n = first + 1; status == S2U_OK && n < end; n++) {
    const double *a = s2u_cover_at(shape, n - 1), *b = s2u_cover_at(shape, n);
    if (is_loose && s2u_cover_is_shared(part, n)) status = s2u_cover_skip_edge(build, &begin, b);
    else if (is_loose && s2u_cover_has_seam(build, a, b)) status = s2u_cover_add_around_seams(build, &begin, a, b);
    else status = s2u_cover_add_edge(build, to, begin, a, b);
  }
  if (status != S2U_OK) return status;
  if (is_loose) return s2u_cover_end_chain(build, begin);
  if (shape->rings[ring].polygon == S2U_COVER_LINE)
    for (size_t k = to->count - 1; k-- > begin + 1;)
      if (!s2u_cover_add_corner(to, begin, ((s2u_direction*)to->at)[k])) return S2U_MEMORY;
  return s2u_cover_end_ring(build, begin) ? S2U_OK : S2U_MEMORY;
}

/* ---- chains to rings: each corner has as many chains that come as that go */

typedef struct s2u_cover_tip {
  s2u_direction at;
  size_t chain;
  int is_last;
} s2u_cover_tip;

static inline int s2u_cover_by_direction(const void* a, const void* b) {
  const s2u_direction *p = &((const s2u_cover_tip*)a)->at, *q = &((const s2u_cover_tip*)b)->at;
  if (p->x != q->x) return p->x < q->x ? -1 : 1;
  if (p->y != q->y) return p->y < q->y ? -1 : 1;
  return (p->z > q->z) - (p->z < q->z);
}

static inline int s2u_cover_add_chain(s2u_cover_build* build, size_t begin, const s2u_cover_chain* chain, int is_back) {
  const s2u_direction* loose = (const s2u_direction*)build->loose.at;
  for (size_t k = 0; k <= chain->last - chain->first; k++)
    if (!s2u_cover_add_corner(&build->corners, begin, loose[is_back ? chain->last - k : chain->first + k])) return 0;
  return 1;
}

/* The next tip at a corner whose chain isn't used, or NULL. `next` has for each tip, at the first of its corner, where
 * to go on looking. */
static inline const s2u_cover_tip* s2u_cover_next_tip(const s2u_cover_list* tips, size_t* next,
                                                      const s2u_cover_chain* chains, const s2u_direction* at) {
  const s2u_cover_tip* all = (const s2u_cover_tip*)tips->at;
  s2u_cover_tip wanted;
  size_t low = 0, high = tips->count;
  wanted.at = *at;
  while (low < high) {
    size_t middle = low + (high - low) / 2;
    if (s2u_cover_by_direction(&all[middle], &wanted) < 0) low = middle + 1;
    else high = middle;
  }
  if (low == tips->count) return NULL;
  for (size_t k = low + next[low]; k < tips->count && s2u_cover_is_same(&all[k].at, at); k++) {
    next[low] = k - low + 1;
    if (!chains[all[k].chain].is_used) return &all[k];
  }
  return NULL;
}

static inline int s2u_cover_join_with(s2u_cover_build* build, s2u_cover_list* tips, size_t* next) {
  s2u_cover_chain* chains = (s2u_cover_chain*)build->chains.at;
  const s2u_direction* loose = (const s2u_direction*)build->loose.at;
  for (size_t k = 0; k < build->chains.count; k++) {
    size_t begin = build->corners.count, chain = k;
    int is_back = 0;
    if (chains[k].is_used) continue;
    for (;;) {
      chains[chain].is_used = 1;
      if (!s2u_cover_add_chain(build, begin, &chains[chain], is_back)) return 0;
      const s2u_direction* at = &loose[is_back ? chains[chain].first : chains[chain].last];
      const s2u_cover_tip* tip = s2u_cover_next_tip(tips, next, chains, at);
      if (!tip) break;
      chain = tip->chain;
      is_back = tip->is_last;
    }
    if (!s2u_cover_end_ring(build, begin)) return 0;
  }
  return 1;
}

/* Makes rings of the chains between seams. */
static inline int32_t s2u_cover_join(s2u_cover_build* build) {
  s2u_cover_list tips = s2u_cover_list_of(sizeof(s2u_cover_tip));
  const s2u_cover_chain* chains = (const s2u_cover_chain*)build->chains.at;
  size_t count = 2 * build->chains.count;
  if (!count) return S2U_OK;
  size_t* next = (size_t*)calloc(count, sizeof(size_t));
  int is_done = next != NULL;
  for (size_t k = 0; is_done && k < count; k++) {
    s2u_cover_tip* tip = (s2u_cover_tip*)s2u_cover_add(&tips);
    is_done = tip != NULL;
    if (!tip) break;
    tip->chain = k / 2;
    tip->is_last = k % 2;
    tip->at = ((const s2u_direction*)build->loose.at)[k % 2 ? chains[k / 2].last : chains[k / 2].first];
  }
  if (is_done) qsort(tips.at, tips.count, sizeof(s2u_cover_tip), s2u_cover_by_direction);
  is_done = is_done && s2u_cover_join_with(build, &tips, next);
  free(tips.at);
  free(next);
  return is_done ? S2U_OK : S2U_MEMORY;
}

/* All rings of a part, as directions. */
static inline int32_t s2u_cover_build_part(s2u_cover_build* build, const s2u_cover_part* part) {
  s2u_cover_bounds box = s2u_cover_bounds_of(part);
  int32_t status = S2U_OK;
  if (build->is_on_map && box.east - box.west >= 360)
    status = s2u_cover_find_seams(part, box.east - box.west > 360, &build->seams);
  for (size_t k = 0; status == S2U_OK && k < part->count; k++)
    status = s2u_cover_add_ring(build, part, part->rings[k]);
  return status == S2U_OK ? s2u_cover_join(build) : status;
}

/* ---- a leaf that is outside */

static inline s2u_cover_vector s2u_cover_cross(const s2u_cover_vector* a, const s2u_cover_vector* b) {
  s2u_cover_vector cross = {a->y * b->z - a->z * b->y, a->z * b->x - a->x * b->z, a->x * b->y - a->y * b->x};
  return cross;
}

static inline double s2u_cover_apart(const s2u_cover_vector* a, const s2u_cover_vector* b) {
  s2u_cover_vector way = {b->x - a->x, b->y - a->y, b->z - a->z};
  return s2u_cover_dot(&way, &way);
}

/* The square of the distance of a place from the edge between two corners, through the sphere or less. */
static inline double s2u_cover_distance(const s2u_cover_vector* at, const s2u_cover_vector* a,
                                        const s2u_cover_vector* b) {
  s2u_cover_vector normal = s2u_cover_cross(a, b);
  s2u_cover_vector first = s2u_cover_cross(&normal, a), last = s2u_cover_cross(b, &normal);
  double size = s2u_cover_dot(&normal, &normal), height = s2u_cover_dot(&normal, at);
  int is_between = s2u_cover_dot(&first, at) > 0 && s2u_cover_dot(&last, at) > 0;
  double ends = fmin(s2u_cover_apart(at, a), s2u_cover_apart(at, b));
  return is_between ? fmin(height * height / size, ends) : ends;
}

/* Whether a place is farther from all edges than some radians, or from all but the one that ends at some corner. */
static inline int s2u_cover_is_clear(const s2u_cover_build* build, const s2u_cover_vector* at, double least,
                                     size_t but) {
  const s2u_direction* corners = (const s2u_direction*)build->corners.at;
  const size_t* ends = (const size_t*)build->ends.at;
  for (size_t ring = 0, k = 0; ring < build->ends.count; ring++) {
    s2u_cover_vector before = s2u_cover_vector_of(&corners[ends[ring] - 1]);
    for (; k < ends[ring]; k++) {
      s2u_cover_vector here = s2u_cover_vector_of(&corners[k]);
      if (k != but && s2u_cover_distance(at, &before, &here) <= least * least) return 0;
      before = here;
    }
  }
  return 1;
}

static inline uint64_t s2u_cover_leaf_at(const s2u_cover_vector* at) {
  double longitude = atan2(at->y, at->x), latitude = asin(at->z > 1 ? 1 : at->z < -1 ? -1 : at->z);
  return s2u_geo_leaf(longitude * (180 / S2U_GEO_PI), latitude * (180 / S2U_GEO_PI));
}

/* Of the poles and the middle of the gap between the eastern and the western end of a box, the place that is farthest
 * from it; how far, in degrees. */
static inline double s2u_cover_beside(const s2u_cover_bounds* box, double* x, double* y) {
  double gap = fmin((360 - (box->east - box->west)) / 2, 90), north = 90 - box->north, south = box->south + 90;
  *x = 0, *y = 90;
  if (north >= south && north >= gap) return north;
  *y = -90;
  if (south >= gap) return south;
  *x = remainder((box->east + box->west) / 2 + 180, 360), *y = 0;
  return gap;
}

/* A leaf outside of polygons on the map, on either side of some of their edges; 0 if none was found. */
static inline uint64_t s2u_cover_beside_edges(const s2u_cover_build* build, const s2u_cover_part* part, double least) {
  uint64_t step = s2u_cover_positions(part) / 64 + 1, edges = 0;
  for (size_t k = 0; k < part->count; k++) {
    uint64_t end = part->shape->rings[part->rings[k]].end;
    for (uint64_t n = s2u_cover_begin(part->shape, part->rings[k]) + 1; n < end; n++) {
      const double *a = s2u_cover_at(part->shape, n - 1), *b = s2u_cover_at(part->shape, n);
      if (s2u_cover_is_shared(part, n) || edges++ % step) continue;
      for (double away = 0.25; fabs(away) > 1e-4; away *= away > 0 ? -1 : -0.1) {
        if (S2U_IS_CANCELLED()) return 0;
        double x = (a[0] + b[0]) / 2 + away * (b[1] - a[1]), y = (a[1] + b[1]) / 2 - away * (b[0] - a[0]);
        if (!(fabs(y) <= 90) || !(fabs(x) <= 540) || s2u_cover_is_odd(part, x, y)) continue;
        s2u_direction corner = s2u_cover_direction(x, y);
        s2u_cover_vector at = s2u_cover_vector_of(&corner);
        if (s2u_cover_is_clear(build, &at, least, SIZE_MAX)) return s2u_geo_leaf(x, y);
      }
    }
  }
  return 0;
}

/* A leaf outside of polygons on the map; 0 if none was found. */
static inline uint64_t s2u_cover_outside_on_map(const s2u_cover_build* build, const s2u_cover_part* part) {
  s2u_cover_bounds box = s2u_cover_bounds_of(part);
  double x, y, least = 2 * build->bend + 1e-8;
  if (s2u_cover_radians(s2u_cover_beside(&box, &x, &y)) > least) return s2u_geo_leaf(x, y);
  for (int k = 0; k < 128 && !S2U_IS_CANCELLED(); k++) { /* places that lie as the seeds of a sunflower */
    x = remainder(k * 137.50776405003785, 360), y = asin((k + 0.5) / 64 - 1) * (180 / S2U_GEO_PI);
    s2u_direction corner = s2u_cover_direction(x, y);
    s2u_cover_vector at = s2u_cover_vector_of(&corner);
    if (!s2u_cover_is_odd(part, x, y) && s2u_cover_is_clear(build, &at, least, SIZE_MAX)) return s2u_geo_leaf(x, y);
  }
  return s2u_cover_beside_edges(build, part, least);
}

/* The area of the side of a ring that a place isn't on, more than 0 if it is on the left. */
static inline double s2u_cover_area_beside(const s2u_direction* corners, size_t count, const s2u_cover_vector* at) {
  s2u_cover_vector from = {-at->x, -at->y, -at->z}, a = s2u_cover_vector_of(&corners[count - 1]);
  double area = 0;
  for (size_t k = 0; k < count; k++) {
    s2u_cover_vector b = s2u_cover_vector_of(&corners[k]), cross = s2u_cover_cross(&a, &b);
    double below = 1 + s2u_cover_dot(&a, &b) + s2u_cover_dot(&b, &from) + s2u_cover_dot(&from, &a);
    area += 2 * atan2(s2u_cover_dot(&cross, &from), below);
    a = b;
  }
  return area;
}

/* Whether a place is outside of the smaller side of rings. */
static inline int s2u_cover_is_outside(const s2u_cover_build* build, const s2u_cover_vector* at) {
  const s2u_direction* corners = (const s2u_direction*)build->corners.at;
  const size_t* ends = (const size_t*)build->ends.at;
  int is_inside = 0;
  for (size_t ring = 0, begin = 0; ring < build->ends.count; begin = ends[ring++])
    is_inside ^= fabs(s2u_cover_area_beside(corners + begin, ends[ring] - begin, at)) > 2 * S2U_GEO_PI;
  return !is_inside;
}

/* A leaf to the right of the edge between two corners, of which the last is a number of the list, so near that no other
 * edge is between; 0 if none was found. */
static inline uint64_t s2u_cover_beside_edge(const s2u_cover_build* build, const s2u_cover_vector* a,
                                             const s2u_cover_vector* b, size_t last) {
  s2u_cover_vector right = s2u_cover_cross(b, a), middle = s2u_cover_unit(a->x + b->x, a->y + b->y, a->z + b->z);
  right = s2u_cover_unit(right.x, right.y, right.z);
  for (double away = 0.25; right.x == right.x && away > 1e-8 && !S2U_IS_CANCELLED(); away /= 8) {
    s2u_cover_vector at = s2u_cover_unit(middle.x + away * right.x, middle.y + away * right.y,
                                         middle.z + away * right.z);
    if (s2u_cover_is_clear(build, &at, 1.000001 * away, last)) return s2u_cover_leaf_at(&at);
  }
  return 0;
}

/* A leaf outside of geodesic rings; 0 if none was found. */
static inline uint64_t s2u_cover_outside_on_sphere(const s2u_cover_build* build) {
  const s2u_direction* corners = (const s2u_direction*)build->corners.at;
  s2u_cover_vector sum = {0, 0, 0};
  for (size_t k = 0; k < build->corners.count; k++) {
    s2u_cover_vector corner = s2u_cover_vector_of(&corners[k]);
    sum.x -= corner.x, sum.y -= corner.y, sum.z -= corner.z;
  }
  for (int k = -1; k < 64 && !S2U_IS_CANCELLED(); k++) {
    double height = (k + 0.5) / 32 - 1, across = sqrt(1 - height * height), turn = k * 2.399963229728653;
    s2u_cover_vector at = k < 0 ? s2u_cover_unit(sum.x, sum.y, sum.z)
                              : s2u_cover_unit(across * cos(turn), across * sin(turn), height);
    if (at.x == at.x && s2u_cover_is_clear(build, &at, 1e-8, SIZE_MAX) && s2u_cover_is_outside(build, &at))
      return s2u_cover_leaf_at(&at);
  }
  return 0;
}

/* The normal of an edge, in whole numbers of 64 bits. */
static inline void s2u_cover_normal(const s2u_direction* a, const s2u_direction* b, int64_t* normal) {
  normal[0] = a->y * b->z - a->z * b->y;
  normal[1] = a->z * b->x - a->x * b->z;
  normal[2] = a->x * b->y - a->y * b->x;
}

/* Whether a corner is on the circle of an edge: a product of 95 bits is 0 if it is near 0, and its last 64 bits are. */
static inline int s2u_cover_is_on_circle(const int64_t* normal, const s2u_direction* at) {
  uint64_t last = (uint64_t)normal[0] * (uint64_t)at->x + (uint64_t)normal[1] * (uint64_t)at->y +
                  (uint64_t)normal[2] * (uint64_t)at->z;
  double about = (double)normal[0] * (double)at->x + (double)normal[1] * (double)at->y +
                 (double)normal[2] * (double)at->z;
  return last == 0 && fabs(about) < 1e15;
}

/* Whether rings have no area, as they run out and back on themselves: each lies on a circle, or the sum of the others'
 * normals is 0. */
static inline int s2u_cover_run_back(const s2u_cover_build* build) {
  const s2u_direction* corners = (const s2u_direction*)build->corners.at;
  const size_t* ends = (const size_t*)build->ends.at;
  uint64_t all[3] = {0, 0, 0};
  for (size_t ring = 0, begin = 0; ring < build->ends.count; begin = ends[ring++]) {
    uint64_t sum[3] = {0, 0, 0};
    int is_flat = 1;
    for (size_t k = begin; k < ends[ring]; k++) {
      int64_t normal[3];
      s2u_cover_normal(&corners[k > begin ? k - 1 : ends[ring] - 1], &corners[k], normal);
      is_flat = is_flat && s2u_cover_is_on_circle(normal, &corners[begin]);
      for (int n = 0; n < 3; n++) sum[n] += (uint64_t)normal[n];
    }
    for (int n = 0; n < 3 && !is_flat; n++) all[n] += sum[n];
  }
  return all[0] == 0 && all[1] == 0 && all[2] == 0;
}

/* A leaf to the right of geodesic rings, or anywhere if these run out and back; 0 if none was found beside some of
 * their edges. */
static inline uint64_t s2u_cover_outside_on_the_right(const s2u_cover_build* build) {
  const s2u_direction* corners = (const s2u_direction*)build->corners.at;
  const size_t* ends = (const size_t*)build->ends.at;
  size_t step = build->corners.count / 16 + 1;
  for (size_t ring = 0, k = 0; ring < build->ends.count; ring++) {
    s2u_cover_vector before = s2u_cover_vector_of(&corners[ends[ring] - 1]);
    for (; k < ends[ring]; k++) {
      s2u_cover_vector here = s2u_cover_vector_of(&corners[k]);
      uint64_t leaf = k % step == 0 ? s2u_cover_beside_edge(build, &before, &here, k) : 0;
      if (leaf) return leaf;
      before = here;
    }
  }
  return s2u_cover_run_back(build) ? s2u_cover_outside_on_sphere(build) : 0;
}

/* ---- margins */

/* The face of a direction, and how far its place there is from the middle, from 0 to 1 along each axis. */
static inline int s2u_cover_on_face(const s2u_direction* at, double* wide, double* high) {
  double x = fabs((double)at->x), y = fabs((double)at->y), z = fabs((double)at->z);
  int axis = z >= x && z >= y ? 2 : y >= x ? 1 : 0;
  *wide = axis == 0 ? y / x : axis == 1 ? x / y : x / z;
  *high = axis == 0 ? z / x : axis == 1 ? z / y : y / z;
  return axis + 3 * ((axis == 0 ? at->x : axis == 1 ? at->y : at->z) < 0);
}

/* How much farther a place moves along a row or a column of its face than on the sphere, at most, within a distance of
 * the corners: 3 for all of a face, and less if they lie on one face away from its corners. */
static inline double s2u_cover_stretch(const s2u_cover_build* build, double radians) {
  const s2u_direction* corners = (const s2u_direction*)build->corners.at;
  double u, v, wide = 0, high = 0;
  int face = -1;
  for (size_t k = 0; k < build->corners.count; k++) {
    int its = s2u_cover_on_face(&corners[k], &u, &v);
    if (face >= 0 && its != face) return 3;
    face = its;
    wide = fmax(wide, u), high = fmax(high, v);
  }
  wide += 3 * radians, high += 3 * radians;
  if (wide > 1 || high > 1) return 3;
  return 1.0001 * sqrt((1 + fmax(wide * wide, high * high)) * (1 + wide * wide + high * high));
}

/* The greatest number of 64 bits stands for one that is greater, or that isn't a number. */
static inline uint64_t s2u_cover_margin(const s2u_cover_build* build, const s2u_cover_options* options) {
  double radians = options->margin / S2U_COVER_EARTH + build->bend + S2U_COVER_ROUNDING;
  double margin = ceil(s2u_cover_stretch(build, radians) * radians * (double)S2U_COVER_WHOLE);
  return isfinite(margin) && margin >= 0 && margin < 18446744073709551616.0 ? (uint64_t)margin : UINT64_MAX;
}

/* ---- coverings */

static inline int s2u_cover_resize(s2u_cover_cells* cells, size_t room) {
  void* at = room < SIZE_MAX / 8 ? realloc(cells->ids, 8 * room + 8) : NULL;
  if (at) cells->ids = (uint64_t*)at;
  return at != NULL;
}

static inline void s2u_cover_free(s2u_cover_cells* cells) {
  free(cells->ids);
  cells->ids = NULL;
  cells->count = 0;
}

/* One covering of a part that is wanted. */
typedef struct s2u_cover_question {
  const s2u_direction* corners;
  size_t corners_count;
  const size_t* ends;
  size_t ends_count;
  uint64_t outside, margin;
  double length; /* of the edges in radians, about */
  int is_outer;
} s2u_cover_question;

/* The answer of one of two calls, each by its name: the browser's module has no table of functions. */
#define S2U_COVER_EITHER(is, one, other, ...) ((is) ? one(__VA_ARGS__) : other(__VA_ARGS__))

/* Adds the cells of a covering of few cells. */
static inline int32_t s2u_cover_add_up_to(const s2u_cover_question* it, uint32_t deepest, uint64_t most,
                                          s2u_cover_cells* cells) {
  size_t room = most < 6 ? 6 : (size_t)most, len = 0;
  if (!s2u_cover_resize(cells, cells->count + room)) return S2U_MEMORY;
  int32_t status = S2U_COVER_EITHER(
      it->is_outer, s2u_polygon_outer_up_to, s2u_polygon_inner_up_to, it->corners, it->corners_count,
      it->ends, it->ends_count, it->outside, it->margin, 0, deepest, (size_t)most,
      cells->ids + cells->count, room, &len);
  if (status == S2U_OK) cells->count += len;
  return status;
}

/* Adds the cells of both coverings of few cells. */
static inline int32_t s2u_cover_add_both(const s2u_cover_question* it, uint32_t deepest, uint64_t most,
                                         s2u_cover_cells* outer, s2u_cover_cells* inner) {
  size_t room = most < 6 ? 6 : (size_t)most, outer_len = 0, inner_len = 0;
  if (!s2u_cover_resize(outer, outer->count + room) || !s2u_cover_resize(inner, inner->count + room))
    return S2U_MEMORY;
  int32_t status = s2u_polygon_coverings_up_to(
      it->corners, it->corners_count, it->ends, it->ends_count, it->outside, it->margin, 0, deepest, (size_t)most,
      outer->ids + outer->count, room, &outer_len, inner->ids + inner->count, room, &inner_len);
  if (status == S2U_OK) outer->count += outer_len, inner->count += inner_len;
  return status;
}

/* For how many cells of a level to take memory first: for more than the edges mostly touch. */
static inline size_t s2u_cover_room(double length, uint32_t level) {
  double cells = 256 + 2 * length * ldexp(1, (int)level);
  return cells < S2U_COVER_MOST_CELLS ? (size_t)cells : S2U_COVER_MOST_CELLS;
}

/* Adds the cells of a covering of one level. */
static inline int32_t s2u_cover_at_level(const s2u_cover_question* it, uint32_t level, s2u_cover_cells* cells) {
  size_t room = s2u_cover_room(it->length, level), len = 0;
  int32_t status = S2U_ROOM;
  for (int k = 0; status == S2U_ROOM && k < 2; k++, room = len) {
    if (!s2u_cover_resize(cells, cells->count + room)) return S2U_MEMORY;
    status = S2U_COVER_EITHER(
        it->is_outer, s2u_polygon_outer, s2u_polygon_inner, it->corners, it->corners_count,
        it->ends, it->ends_count, it->outside, it->margin, level,
        S2U_COVER_MOST_CELLS, cells->ids + cells->count, room, &len);
  }
  if (status == S2U_OK) cells->count += len;
  return status;
}

/* Adds the cells of a covering that is as fine as that of one level, and finer where few cells allow it: what both
 * have of outer ones, and what either has of inner ones. */
static inline int32_t s2u_cover_add_finer(const s2u_cover_question* it, const s2u_cover_options* options,
                                          uint64_t most, s2u_cover_cells* cells) {
  s2u_cover_cells few = {NULL, 0}, fine = {NULL, 0};
  size_t len = 0;
  int32_t status = s2u_cover_add_up_to(it, options->max_level, most, &few);
  if (status == S2U_OK) status = s2u_cover_at_level(it, options->min_level, &fine);
  size_t room = few.count + fine.count;
  if (status == S2U_OK && !s2u_cover_resize(cells, cells->count + room)) status = S2U_MEMORY;
  if (status == S2U_OK)
    status = S2U_COVER_EITHER(it->is_outer, s2u_intersection, s2u_union, few.ids, few.count, fine.ids, fine.count,
                              cells->ids + cells->count, room, &len);
  if (status == S2U_OK) cells->count += len;
  s2u_cover_free(&few);
  s2u_cover_free(&fine);
  return status;
}

/* Adds the cells of a covering. Where the least level is the deepest one too, a covering of few cells has no cell that
 * the covering of the level doesn't have, or has more than that. */
static inline int32_t s2u_cover_add_question(const s2u_cover_question* it, const s2u_cover_options* options,
                                             uint64_t most, s2u_cover_cells* cells) {
  if (options->min_level == 0) return s2u_cover_add_up_to(it, options->max_level, most, cells);
  return options->min_level == options->max_level ? s2u_cover_at_level(it, options->min_level, cells)
                                                  : s2u_cover_add_finer(it, options, most, cells);
}

static inline s2u_cover_question s2u_cover_question_of(const s2u_cover_build* build, uint64_t outside,
                                                       const s2u_cover_options* options, int is_outer) {
  s2u_cover_question it;
  it.corners = (const s2u_direction*)build->corners.at, it.corners_count = build->corners.count;
  it.ends = (const size_t*)build->ends.at, it.ends_count = build->ends.count;
  it.outside = outside, it.margin = s2u_cover_margin(build, options);
  it.length = build->length;
  it.is_outer = is_outer;
  return it;
}

/* ---- distances on the sphere, as the squares of lengths through it */

static inline double s2u_cover_chord_of(double radians) {
  double half = radians < S2U_GEO_PI ? sin(radians / 2) : 1;
  return radians > 0 ? 4 * half * half : 0;
}

static inline double s2u_cover_angle_of(double chord) { return 2 * asin(fmin(sqrt(chord) / 2, 1)); }

typedef struct s2u_cover_arc { /* an edge of at most 90 degrees, or a place */
  s2u_cover_vector from, to, normal; /* of length 1, or 0 of a place */
} s2u_cover_arc;

static inline s2u_cover_arc s2u_cover_arc_of(s2u_cover_vector from, s2u_cover_vector to) {
  s2u_cover_vector way = {from.x - to.x, from.y - to.y, from.z - to.z};
  s2u_cover_vector sum = {from.x + to.x, from.y + to.y, from.z + to.z};
  s2u_cover_vector cross = s2u_cover_cross(&way, &sum); /* twice that of both, and right where they are near */
  s2u_cover_arc arc = {from, to, {0, 0, 0}};
  if (s2u_cover_dot(&cross, &cross) > 0) arc.normal = s2u_cover_unit(cross.x, cross.y, cross.z);
  return arc;
}

/* How far a place is from an arc. */
static inline double s2u_cover_chord(const s2u_cover_vector* at, const s2u_cover_arc* arc) {
  s2u_cover_vector first = s2u_cover_cross(&arc->normal, &arc->from), last = s2u_cover_cross(&arc->to, &arc->normal);
  double ends = fmin(s2u_cover_apart(at, &arc->from), s2u_cover_apart(at, &arc->to));
  if (!(s2u_cover_dot(&first, at) > 0 && s2u_cover_dot(&last, at) > 0)) return ends;
  s2u_cover_vector way = {at->x - arc->from.x, at->y - arc->from.y, at->z - arc->from.z};
  double sine = s2u_cover_dot(&arc->normal, &way), square = fmin(sine * sine, 1);
  return fmin(2 * square / (1 + sqrt(1 - square)), ends);
}

static inline int s2u_cover_do_cross(const s2u_cover_arc* a, const s2u_cover_arc* b) {
  s2u_cover_vector here = {a->from.x + a->to.x, a->from.y + a->to.y, a->from.z + a->to.z};
  s2u_cover_vector there = {b->from.x + b->to.x, b->from.y + b->to.y, b->from.z + b->to.z};
  return (s2u_cover_dot(&a->normal, &b->from) > 0) != (s2u_cover_dot(&a->normal, &b->to) > 0) &&
         (s2u_cover_dot(&b->normal, &a->from) > 0) != (s2u_cover_dot(&b->normal, &a->to) > 0) &&
         s2u_cover_dot(&here, &there) > 0;
}

/* A cell on the sphere. */
typedef struct s2u_cover_quad {
  s2u_cover_arc sides[4]; /* with the cell on their left */
  s2u_cover_vector middle;
  double radius; /* of the circle around its middle, in radians */
} s2u_cover_quad;

static inline s2u_cover_vector s2u_cover_on_sphere(const s2u_square* at, double i, double j) {
  double x, y, z;
  s2u_geo_point_of_cube(at->face, at->i + i * at->size, at->j + j * at->size, &x, &y, &z);
  return s2u_cover_unit(x, y, z);
}

static inline s2u_cover_quad s2u_cover_quad_of(uint64_t cell) {
  s2u_cover_quad quad;
  s2u_cover_vector corners[4];
  s2u_square at = {0, 0, 0, 0}; /* which is none */
  double far = 0;
  s2u_square_of(cell, &at);
  quad.middle = s2u_cover_on_sphere(&at, 0.5, 0.5);
  for (int k = 0; k < 4; k++) {
    corners[k] = s2u_cover_on_sphere(&at, k == 1 || k == 2, k > 1);
    far = fmax(far, s2u_cover_apart(&quad.middle, &corners[k]));
  }
  for (int k = 0; k < 4; k++) quad.sides[k] = s2u_cover_arc_of(corners[k], corners[(k + 1) % 4]);
  quad.radius = s2u_cover_angle_of(far) * (1 + 1e-9);
  return quad;
}

static inline int s2u_cover_quad_has(const s2u_cover_quad* quad, const s2u_cover_vector* at) {
  for (int k = 0; k < 4; k++)
    if (s2u_cover_dot(&quad->sides[k].normal, at) < 0) return 0;
  return 1;
}

/* Whether the nearest places of a cell and an arc are no farther from each other than that. */
static inline int s2u_cover_is_near(const s2u_cover_quad* quad, const s2u_cover_arc* arc, double chord) {
  for (int k = 0; k < 4; k++)
    if (s2u_cover_chord(&quad->sides[k].from, arc) <= chord || s2u_cover_do_cross(&quad->sides[k], arc) ||
        s2u_cover_chord(&arc->from, &quad->sides[k]) <= chord || s2u_cover_chord(&arc->to, &quad->sides[k]) <= chord)
      return 1;
  return s2u_cover_quad_has(quad, &arc->from);
}

/* Whether all of a cell is no farther than some radians from an arc, for sure. Where the corners of a cell are within
 * an angle of an arc, the sine of the angle of its other places is at most that sine by the cosine of its radius. A
 * cell is within more than 90 degrees of a place if it is farther from the opposite place than what is left to 180. */
static inline int s2u_cover_is_within(const s2u_cover_quad* quad, const s2u_cover_arc* arc, double radians) {
  int is_place = s2u_cover_dot(&arc->normal, &arc->normal) == 0;
  if (radians >= S2U_GEO_PI) return 1;
  if (radians > S2U_GEO_PI / 2) {
    s2u_cover_vector opposite = {-arc->from.x, -arc->from.y, -arc->from.z};
    s2u_cover_arc other = s2u_cover_arc_of(opposite, opposite);
    return is_place && !s2u_cover_is_near(quad, &other, s2u_cover_chord_of(S2U_GEO_PI - radians));
  }
  double corner = is_place ? radians : asin(sin(radians) * cos(quad->radius)), chord = s2u_cover_chord_of(corner);
  for (int k = 0; k < 4; k++)
    if (!(s2u_cover_chord(&quad->sides[k].from, arc) <= chord)) return 0;
  return 1;
}

/* ---- corridors: cells by how far they are from the edges of a part. The library's covering, which is wider, is where
 * the search begins */

/* Cells that have a place in the corridor; that lie in it; or that are not in it and have a place of a union. */
enum { S2U_COVER_MEETS, S2U_COVER_LIES, S2U_COVER_MISSES };

typedef struct s2u_cover_spot {
  uint64_t cell;
  size_t begin, end; /* of its arcs, in a list of their numbers */
  int is_whole;      /* whether all of it is in the corridor */
  int below;         /* how many cells of the next level matter */
} s2u_cover_spot;

typedef struct s2u_cover_walk {
  const s2u_cover_arc* arcs;
  double radians; /* half of the width of the corridor */
  int kind;
  const s2u_cover_cells* within;
  uint64_t most;
  uint32_t least, deepest;
  double work; /* how many more pairs of a cell that is divided and an arc there may be */
  s2u_cover_list spots, numbers, next, next_numbers, done;
} s2u_cover_walk;

/* Whether a union has a place of a cell. */
static inline int s2u_cover_meets(const s2u_cover_cells* cells, uint64_t cell) {
  uint64_t half = (cell & (~cell + 1)) - 1;
  size_t low = 0, high = cells->count;
  while (low < high) {
    size_t middle = low + (high - low) / 2;
    uint64_t its = cells->ids[middle];
    if (its + ((its & (~its + 1)) - 1) < cell - half) low = middle + 1;
    else high = middle;
  }
  if (low == cells->count) return 0;
  uint64_t its = cells->ids[low];
  return its - ((its & (~its + 1)) - 1) <= cell + half;
}

/* Adds the numbers of the arcs that may be nearest to a place of a cell, of those in a list, and no farther than the
 * corridor is wide; `nearest` is that of its middle, or none. */
static inline int s2u_cover_sift(const s2u_cover_walk* walk, const s2u_cover_quad* quad, const uint32_t* numbers,
                                 size_t count, s2u_cover_list* to, uint32_t* nearest) {
  size_t begin = to->count, end = begin;
  double least = INFINITY, most = s2u_cover_chord_of(walk->radians + quad->radius) * (1 + 1e-9);
  if (to->room - begin < count && !s2u_cover_take(to, s2u_cover_more(to, count))) return 0;
  uint32_t* all = (uint32_t*)(void*)to->at;
  for (size_t k = 0; k < count; k++) {
    double chord = s2u_cover_chord(&quad->middle, &walk->arcs[numbers[k]]);
    if (chord < least) {
      least = chord, *nearest = numbers[k];
      double far = s2u_cover_angle_of(least) + 2 * quad->radius; /* what is farther is nearest nowhere in the cell */
      most = far < S2U_GEO_PI ? fmin(most, s2u_cover_chord_of(far) * (1 + 1e-9)) : most;
    }
    if (chord <= most) all[end++] = numbers[k];
  }
  to->count = end;
  return 1;
}

/* Adds a spot for a cell, if it matters, with its arcs of those in a list. */
static inline int s2u_cover_add_spot(const s2u_cover_walk* walk, uint64_t cell, const uint32_t* from, size_t count,
                                     s2u_cover_list* spots, s2u_cover_list* numbers) {
  const s2u_cover_quad quad = s2u_cover_quad_of(cell);
  double chord = s2u_cover_chord_of(walk->radians), far;
  size_t begin = numbers->count;
  uint32_t nearest = 0;
  if (!s2u_cover_sift(walk, &quad, from, count, numbers, &nearest)) return 0;
  const uint32_t* all = (const uint32_t*)(const void*)numbers->at;
  int is_near = 0, is_whole = 0, is_any = numbers->count > begin;
  if (is_any) {
    far = s2u_cover_angle_of(s2u_cover_chord(&quad.middle, &walk->arcs[nearest]));
    is_near = far <= walk->radians || s2u_cover_is_near(&quad, &walk->arcs[nearest], chord);
    for (size_t k = begin; k < numbers->count && !is_near; k++)
      is_near = s2u_cover_is_near(&quad, &walk->arcs[all[k]], chord);
    is_whole = is_near && (far + quad.radius <= walk->radians ||
                           s2u_cover_is_within(&quad, &walk->arcs[nearest], walk->radians));
  }
  int is_missed = walk->kind == S2U_COVER_MISSES && !is_near;
  int is_kept = walk->kind == S2U_COVER_MISSES ? !is_whole && s2u_cover_meets(walk->within, cell) : is_near;
  if (!is_kept || is_whole || is_missed) numbers->count = begin;
  if (!is_kept) return 1;
  s2u_cover_spot spot = {cell, begin, numbers->count, is_whole || is_missed, 0};
  s2u_cover_spot* its = (s2u_cover_spot*)s2u_cover_add(spots);
  if (its) *its = spot;
  return its != NULL;
}

static inline int s2u_cover_is_at_level(const s2u_cover_spot* spot, uint32_t level) {
  return s2u_level(spot->cell) == (int32_t)level;
}

/* Makes the spots below those of a level that are divided. */
static inline int s2u_cover_look_below(s2u_cover_walk* walk, uint32_t level) {
  s2u_cover_spot* spots = (s2u_cover_spot*)walk->spots.at;
  const uint32_t* numbers = (const uint32_t*)(const void*)walk->numbers.at;
  for (size_t k = 0; k < walk->spots.count; k++) {
    if (S2U_IS_CANCELLED()) return 0;
    size_t before = walk->next.count;
    double pairs = (double)(spots[k].end - spots[k].begin) + 1;
    if (!s2u_cover_is_at_level(&spots[k], level) || spots[k].is_whole || (walk->work -= pairs) < 0) continue;
    uint64_t size = spots[k].cell & (~spots[k].cell + 1), child = spots[k].cell - size + size / 4;
    for (int n = 0; n < 4; n++, child += size / 2)
      if (!s2u_cover_add_spot(walk, child, numbers + spots[k].begin, spots[k].end - spots[k].begin, &walk->next,
                              &walk->next_numbers))
        return 0;
    spots[k].below = (int)(walk->next.count - before);
  }
  return 1;
}

static inline int s2u_cover_add_done(s2u_cover_walk* walk, uint64_t cell) {
  uint64_t* done = (uint64_t*)s2u_cover_add(&walk->done);
  if (done) *done = cell;
  return done != NULL;
}

/* Of a level, which spots are divided: outer ones as long as no more cells than allowed come of it, those first that
 * come to the fewest. `is_divided` has one for each. */
static inline void s2u_cover_choose(const s2u_cover_walk* walk, uint32_t level, uint8_t* is_divided) {
  const s2u_cover_spot* spots = (const s2u_cover_spot*)walk->spots.at;
  uint64_t total = walk->done.count + walk->spots.count;
  for (int wanted = 1; wanted <= 4; wanted++) {
    for (size_t k = 0; k < walk->spots.count; k++) {
      if (spots[k].below != wanted || !s2u_cover_is_at_level(&spots[k], level)) continue;
      int is_any = walk->kind != S2U_COVER_MEETS || level < walk->least;
      is_divided[k] = is_any || total + (uint64_t)wanted - 1 <= walk->most;
      if (is_divided[k]) total += (uint64_t)wanted - 1;
    }
  }
}

/* Goes from the spots of a level to those below: what isn't divided is done, or left out of cells that lie within. */
static inline int s2u_cover_go_down(s2u_cover_walk* walk, uint32_t level) {
  uint8_t* is_divided = (uint8_t*)calloc(walk->spots.count + 1, 1);
  const s2u_cover_spot *spots = (const s2u_cover_spot*)walk->spots.at, *next = (const s2u_cover_spot*)walk->next.at;
  s2u_cover_list kept = s2u_cover_list_of(sizeof(s2u_cover_spot)), numbers = s2u_cover_list_of(sizeof(uint32_t));
  int is_fine = is_divided != NULL;
  if (is_fine) s2u_cover_choose(walk, level, is_divided);
  for (size_t k = 0, at = 0; is_fine && k < walk->spots.count; at += (size_t)spots[k++].below) {
    int is_later = !s2u_cover_is_at_level(&spots[k], level), is_done = spots[k].is_whole;
    is_done |= walk->kind == S2U_COVER_MEETS && !is_later && !is_divided[k];
    if (is_done) is_fine = s2u_cover_add_done(walk, spots[k].cell);
    for (size_t n = 0; is_fine && !is_done && n < (is_later ? 1 : is_divided[k] ? (size_t)spots[k].below : 0); n++) {
      const s2u_cover_spot* its = is_later ? &spots[k] : &next[at + n];
      const s2u_cover_list* from = is_later ? &walk->numbers : &walk->next_numbers;
      s2u_cover_spot* spot = its->is_whole ? NULL : (s2u_cover_spot*)s2u_cover_add(&kept);
      if (its->is_whole) is_fine = s2u_cover_add_done(walk, its->cell);
      else if (!spot) is_fine = 0;
      else *spot = *its, spot->below = 0, spot->begin = numbers.count;
      for (size_t m = its->begin; is_fine && spot && m < its->end; m++) {
        uint32_t* number = (uint32_t*)s2u_cover_add(&numbers);
        if (number) *number = ((const uint32_t*)(const void*)from->at)[m];
        is_fine = number != NULL;
      }
      if (is_fine && spot) spot->end = numbers.count;
    }
  }
  free(is_divided);
  free(walk->spots.at);
  free(walk->numbers.at);
  walk->spots = kept, walk->numbers = numbers;
  walk->next.count = walk->next_numbers.count = 0;
  return is_fine;
}

/* Whether a search is at its end: as many cells as allowed, and as deep as asked for. */
static inline int s2u_cover_is_walked(const s2u_cover_walk* walk, uint32_t level) {
  int is_full = walk->kind != S2U_COVER_MEETS && walk->done.count >= walk->most && level >= walk->least;
  return is_full || level >= walk->deepest || walk->spots.count == 0;
}

static inline int32_t s2u_cover_walk_down(s2u_cover_walk* walk) {
  for (uint32_t level = 0; !s2u_cover_is_walked(walk, level); level++) {
    if (!s2u_cover_look_below(walk, level)) return S2U_MEMORY;
    if (walk->work < 0 && level < walk->least) return S2U_MANY;
    if (!s2u_cover_go_down(walk, level)) return S2U_MEMORY;
    if (walk->done.count + walk->spots.count > S2U_COVER_MOST_CELLS && level < walk->least) return S2U_MANY;
  }
  const s2u_cover_spot* spots = (const s2u_cover_spot*)walk->spots.at;
  for (size_t k = 0; k < walk->spots.count; k++)
    if ((walk->kind == S2U_COVER_MEETS || spots[k].is_whole) && !s2u_cover_add_done(walk, spots[k].cell))
      return S2U_MEMORY;
  return S2U_OK;
}

/* The arcs of a part, and where their search begins: at few cells that have all of the corridor. */
typedef struct s2u_cover_corridors {
  s2u_cover_arc* arcs;
  size_t count;
  const uint64_t* roots;
  size_t roots_count;
} s2u_cover_corridors;

/* Adds the cells of a search. */
static inline int32_t s2u_cover_add_walk(const s2u_cover_corridors* in, const s2u_cover_options* options, uint64_t most,
                                         int kind, double radians, const s2u_cover_cells* within,
                                         s2u_cover_cells* cells) {
  s2u_cover_walk walk = {in->arcs, radians, kind, within, most, options->min_level, options->max_level, 0,
                         s2u_cover_list_of(sizeof(s2u_cover_spot)), s2u_cover_list_of(sizeof(uint32_t)),
                         s2u_cover_list_of(sizeof(s2u_cover_spot)), s2u_cover_list_of(sizeof(uint32_t)),
                         s2u_cover_list_of(sizeof(uint64_t))};
  uint32_t* all = (uint32_t*)malloc(4 * in->count + 4);
  uint64_t allowed = options->min_level > 0 ? 4 * S2U_COVER_MOST_CELLS : most;
  int32_t status = all && in->count < UINT32_MAX ? S2U_OK : S2U_MEMORY;
  walk.work = 1048576 + 64 * ((double)in->count + (double)allowed);
  for (size_t k = 0; status == S2U_OK && k < in->count; k++) all[k] = (uint32_t)k;
  for (size_t k = 0; status == S2U_OK && k < in->roots_count; k++)
    if (!s2u_cover_add_spot(&walk, in->roots[k], all, in->count, &walk.spots, &walk.numbers)) status = S2U_MEMORY;
  free(all);
  if (status == S2U_OK) status = s2u_cover_walk_down(&walk);
  if (status == S2U_OK && !s2u_cover_resize(cells, cells->count + walk.done.count)) status = S2U_MEMORY;
  if (status == S2U_OK && walk.done.count) memcpy(cells->ids + cells->count, walk.done.at, 8 * walk.done.count);
  if (status == S2U_OK) cells->count += walk.done.count;
  free(walk.spots.at), free(walk.numbers.at), free(walk.next.at), free(walk.next_numbers.at), free(walk.done.at);
  return status;
}

/* Adds the corners of a ring, or of a line, which goes there and back, but those that are so near to the last one. */
static inline int s2u_cover_add_rough(s2u_cover_build* rough, const s2u_direction* corners, size_t count, int is_line,
                                      double chord) {
  size_t begin = rough->corners.count, last = is_line ? count / 2 : count - 1;
  s2u_cover_vector from = s2u_cover_vector_of(&corners[0]);
  for (size_t k = 0; k <= last; k++) {
    s2u_cover_vector to = s2u_cover_vector_of(&corners[k]);
    if (k > 0 && k < last && s2u_cover_apart(&from, &to) <= chord) continue;
    if (!s2u_cover_add_corner(&rough->corners, begin, corners[k])) return 0;
    from = to;
  }
  for (size_t k = rough->corners.count - 1; is_line && k-- > begin + 1;)
    if (!s2u_cover_add_corner(&rough->corners, begin, ((const s2u_direction*)(void*)rough->corners.at)[k])) return 0;
  return s2u_cover_end_ring(rough, begin);
}

/* The arcs of rings, of lines once. */
static inline void s2u_cover_find_arcs(const s2u_cover_build* rough, int is_line, s2u_cover_corridors* in) {
  const s2u_direction* corners = (const s2u_direction*)(void*)rough->corners.at;
  const size_t* ends = (const size_t*)(void*)rough->ends.at;
  for (size_t ring = 0, begin = 0; ring < rough->ends.count; begin = ends[ring++]) {
    size_t count = ends[ring] - begin;
    for (size_t k = 0; k < (is_line ? count / 2 : count); k++)
      in->arcs[in->count++] = s2u_cover_arc_of(s2u_cover_vector_of(&corners[begin + k]),
                                               s2u_cover_vector_of(&corners[begin + (k + 1) % count]));
  }
}

/* At how many cells a search begins. */
static inline uint64_t s2u_cover_roots(const s2u_cover_options* options) {
  return options->max_cells < 8 ? options->max_cells : 8;
}

static inline int32_t s2u_cover_add_faces(s2u_cover_cells* cells) {
  if (!s2u_cover_resize(cells, cells->count + 6)) return S2U_MEMORY;
  for (uint32_t face = 0; face < 6; face++) cells->ids[cells->count++] = s2u_parent(s2u_from_face_ij(face, 0, 0), 0);
  return S2U_OK;
}

/* Adds the coverings of a part that has a margin: of lines and points, cells that have a place in the corridor, or lie
 * in it; of polygons their coverings without it, with the corridor of their border, or without that. */
static inline int32_t s2u_cover_add_corridors(const s2u_cover_build* build, const s2u_cover_build* rough,
                                              uint64_t outside, const s2u_cover_options* options, int is_area,
                                              uint64_t most, s2u_cover_cells* outer, s2u_cover_cells* inner) {
  double radians = options->margin / S2U_COVER_EARTH, moved = rough->bend + S2U_COVER_ROUNDING;
  s2u_cover_cells roots = {NULL, 0}, faces = {NULL, 0}, within = {NULL, 0};
  s2u_cover_options plain = *options;
  s2u_cover_corridors in = {(s2u_cover_arc*)malloc((rough->corners.count + 1) * sizeof(s2u_cover_arc)), 0, NULL, 0};
  plain.margin = 0;
  const s2u_cover_question wide = s2u_cover_question_of(rough, outside, options, 1);
  const s2u_cover_question all = s2u_cover_question_of(build, outside, &plain, 1);
  const s2u_cover_question some = s2u_cover_question_of(build, outside, &plain, 0);
  int32_t status = in.arcs ? s2u_cover_add_faces(&faces) : S2U_MEMORY;
  if (status == S2U_OK) s2u_cover_find_arcs(rough, !is_area, &in);
  if (status == S2U_OK) status = s2u_cover_add_up_to(&wide, options->max_level, s2u_cover_roots(options), &roots);
  in.roots = roots.ids, in.roots_count = roots.count;
  if (status == S2U_OK && outer && is_area) status = s2u_cover_add_question(&all, &plain, most, outer);
  if (status == S2U_OK && outer)
    status = s2u_cover_add_walk(&in, options, most, S2U_COVER_MEETS, radians + moved, NULL, outer);
  if (status == S2U_OK && inner && !is_area && radians > moved)
    status = s2u_cover_add_walk(&in, options, most, S2U_COVER_LIES, radians - moved, NULL, inner);
  if (status == S2U_OK && inner && is_area) status = s2u_cover_add_question(&some, &plain, most, &within);
  in.roots = faces.ids, in.roots_count = faces.count;
  if (status == S2U_OK && inner && is_area)
    status = s2u_cover_add_walk(&in, options, most, S2U_COVER_MISSES, radians + moved, &within, inner);
  free(in.arcs);
  s2u_cover_free(&roots);
  s2u_cover_free(&faces);
  s2u_cover_free(&within);
  return status;
}

/* The same, by the edges of a part without corners that are near to each other. */
static inline int32_t s2u_cover_add_with_margin(const s2u_cover_build* build, uint64_t outside,
                                                const s2u_cover_options* options, int is_area, uint64_t most,
                                                s2u_cover_cells* outer, s2u_cover_cells* inner) {
  double near = S2U_COVER_NEAR * options->margin / S2U_COVER_EARTH;
  const size_t* ends = (const size_t*)(void*)build->ends.at;
  s2u_cover_build rough = s2u_cover_build_of();
  int32_t status = S2U_OK;
  rough.bend = build->bend + near, rough.length = build->length;
  for (size_t ring = 0, begin = 0; status == S2U_OK && ring < build->ends.count; begin = ends[ring++])
    if (S2U_IS_CANCELLED() || !s2u_cover_add_rough(&rough, (const s2u_direction*)(void*)build->corners.at + begin,
                                                   ends[ring] - begin, !is_area, s2u_cover_chord_of(near)))
      status = S2U_MEMORY;
  if (status == S2U_OK)
    status = s2u_cover_add_corridors(build, &rough, outside, options, is_area, most, outer, inner);
  s2u_cover_let_go(&rough);
  return status;
}

/* What is asked for: coverings of a shape, by its parts. */
typedef struct s2u_cover_wanted {
  const s2u_cover_options* options;
  double length, size; /* of all edges, and of a cell at the border, about, in radians */
  s2u_cover_cells *outer, *inner;
} s2u_cover_wanted;

/* How long the edges of a part are, in radians, about. */
static inline double s2u_cover_length(const s2u_cover_part* part) {
  double length = 0;
  for (size_t k = 0; k < part->count; k++) {
    uint64_t end = part->shape->rings[part->rings[k]].end;
    for (uint64_t n = s2u_cover_begin(part->shape, part->rings[k]) + 1; n < end; n++) {
      const double *a = s2u_cover_at(part->shape, n - 1), *b = s2u_cover_at(part->shape, n);
      double height = (a[1] + b[1]) / 180, wide = (b[0] - a[0]) * (1 - height * height), high = b[1] - a[1];
      if (!s2u_cover_is_shared(part, n)) length += s2u_cover_radians(sqrt(wide * wide + high * high));
    }
  }
  return length;
}

static inline int s2u_cover_has_area(const s2u_cover_part* part) {
  for (size_t k = 0; k < part->count; k++)
    if (part->shape->rings[part->rings[k]].polygon != S2U_COVER_LINE) return 1;
  return 0;
}

/* The rings of a part: pieces that bend by a small part of a cell, or by more if they would be too many. */
static inline int32_t s2u_cover_build_within(s2u_cover_build* build, const s2u_cover_part* part,
                                             const s2u_cover_wanted* wanted, double length) {
  double margin = wanted->options->margin / S2U_COVER_EARTH, tolerance = fmin(wanted->size / 64, 1e-4);
  if (margin > 0) tolerance = fmin(tolerance, fmax(S2U_COVER_NEAR * margin, wanted->size / S2U_COVER_FINE));
  tolerance = fmax(tolerance, S2U_COVER_ROUNDING);
  int32_t status = S2U_COVER_PIECES;
  for (int k = 0; status == S2U_COVER_PIECES && k < 12; k++, tolerance *= 16) {
    *build = s2u_cover_build_of();
    build->is_on_map = wanted->options->edges == S2U_COVER_MAP;
    build->most = S2U_COVER_MOST_PIECES(s2u_cover_positions(part));
    build->tolerance = tolerance, build->length = length;
    status = s2u_cover_build_part(build, part);
    if (status != S2U_OK) s2u_cover_let_go(build);
  }
  return status;
}

/* A leaf outside of a part; 0 if none was found. For geodesic rings all of their edges are looked at. */
static inline int32_t s2u_cover_find_outside(const s2u_cover_build* build, const s2u_cover_part* part,
                                             const s2u_cover_wanted* wanted, uint64_t* outside) {
  s2u_cover_part whole = *part;
  s2u_cover_build all;
  int32_t status = S2U_OK;
  int is_left = wanted->options->edges == S2U_COVER_LEFT;
  if (build->is_on_map) {
    *outside = s2u_cover_outside_on_map(build, part);
    return status;
  }
  whole.shared = NULL;
  if (part->shared) status = s2u_cover_build_within(&all, &whole, wanted, build->length);
  if (status != S2U_OK) return status;
  const s2u_cover_build* from = part->shared ? &all : build;
  *outside = is_left ? s2u_cover_outside_on_the_right(from) : s2u_cover_outside_on_sphere(from);
  if (part->shared) s2u_cover_let_go(&all);
  return status;
}

static inline int32_t s2u_cover_add_build(const s2u_cover_build* build, const s2u_cover_part* part,
                                          const s2u_cover_wanted* wanted, uint64_t share) {
  int is_area = s2u_cover_has_area(part);
  int32_t status = S2U_OK;
  if (!build->ends.count) { /* no edge is left: all of the sphere, or nothing */
    if (!is_area || !s2u_cover_is_odd(part, 0.12345678, 0.23456789)) return S2U_OK;
    if (wanted->outer) status = s2u_cover_add_faces(wanted->outer);
    return wanted->inner && status == S2U_OK ? s2u_cover_add_faces(wanted->inner) : status;
  }
  uint64_t outside = s2u_geo_leaf(0, 90);
  if (is_area) status = s2u_cover_find_outside(build, part, wanted, &outside);
  if (status != S2U_OK || !outside) return status == S2U_OK ? S2U_COVER_OUTSIDE : status;
  const s2u_cover_question outer = s2u_cover_question_of(build, outside, wanted->options, 1);
  const s2u_cover_question inner = s2u_cover_question_of(build, outside, wanted->options, 0);
  if (wanted->options->margin > 0)
    return s2u_cover_add_with_margin(build, outside, wanted->options, is_area, share, wanted->outer, wanted->inner);
  if (wanted->outer && wanted->inner && is_area && wanted->options->min_level == 0)
    return s2u_cover_add_both(&outer, wanted->options->max_level, share, wanted->outer, wanted->inner);
  if (wanted->outer) status = s2u_cover_add_question(&outer, wanted->options, share, wanted->outer);
  if (wanted->inner && is_area && status == S2U_OK)
    status = s2u_cover_add_question(&inner, wanted->options, share, wanted->inner);
  return status;
}

/* How long the border of a covering is, about: of a margin, that on both sides of the edges and around their ends. */
static inline double s2u_cover_reach(double length, size_t rings, const s2u_cover_options* options) {
  double margin = options->margin / S2U_COVER_EARTH;
  return margin > 0 ? 2 * length + 2 * S2U_GEO_PI * margin * (double)rings : length;
}

/* Adds the coverings of a part, by twice its share of the cells: those of parts that overlap are fewer together, and of
 * too many the best are kept. */
static inline int32_t s2u_cover_add_part(const s2u_cover_part* part, const s2u_cover_wanted* wanted) {
  s2u_cover_build build;
  uint64_t most = wanted->options->max_cells;
  if (!part->count) return S2U_OK;
  double length = s2u_cover_reach(s2u_cover_length(part), part->count, wanted->options);
  if (length < wanted->length) most = (uint64_t)(2 * (double)most * (length / wanted->length));
  if (most < S2U_COVER_FEW_CELLS) most = S2U_COVER_FEW_CELLS;
  if (most > wanted->options->max_cells) most = wanted->options->max_cells;
  int32_t status = s2u_cover_build_within(&build, part, wanted, length);
  if (status != S2U_OK) return status;
  status = s2u_cover_add_build(&build, part, wanted, most);
  s2u_cover_let_go(&build);
  return status;
}

static inline int s2u_cover_by_size(const void* a, const void* b) {
  uint64_t x = *(const uint64_t*)a, y = *(const uint64_t*)b, p = s2u_size(x), q = s2u_size(y);
  return p != q ? (p < q ? 1 : -1) : (x > y) - (x < y);
}

/* ---- fewer cells: as few larger ones as allowed that have all of a union, the largest divided first */

typedef struct s2u_cover_node {
  uint64_t cell;
  size_t begin, end; /* the cells of the union in it */
} s2u_cover_node;

/* The cell of the next level that has a cell of the union; of a leaf, the leaf. */
static inline uint64_t s2u_cover_child_of(uint64_t within, uint64_t cell) {
  int32_t level = s2u_level(within);
  return level < 30 ? s2u_parent(cell, (uint32_t)level + 1) : within;
}

/* The nodes below one that have cells of the union; at most four. */
static inline int s2u_cover_divide(const s2u_cover_cells* cells, const s2u_cover_node* node, s2u_cover_node* below) {
  int count = 0;
  for (size_t begin = node->begin, end = begin; begin < node->end; begin = end) {
    uint64_t child = s2u_cover_child_of(node->cell, cells->ids[begin]);
    size_t high = node->end;
    for (end = begin + 1; end < high;) {
      size_t middle = end + (high - end) / 2;
      if (s2u_cover_child_of(node->cell, cells->ids[middle]) == child) end = middle + 1;
      else high = middle;
    }
    s2u_cover_node its = {child, begin, end};
    below[count++] = its;
  }
  return count;
}

/* Divides the nodes of a level, those first that make the fewest, as long as there are no more than `most` cells: the
 * others are done. */
static inline int s2u_cover_divide_all(const s2u_cover_cells* cells, const s2u_cover_list* nodes, size_t most,
                                       s2u_cover_list* next, s2u_cover_list* done) {
  const s2u_cover_node* all = (const s2u_cover_node*)nodes->at;
  size_t total = done->count + nodes->count;
  for (int wanted = 1; wanted <= 4; wanted++) {
    for (size_t k = 0; k < nodes->count; k++) {
      s2u_cover_node below[4];
      int is_whole = all[k].cell == cells->ids[all[k].begin], count = 1;
      if (!is_whole) count = s2u_cover_divide(cells, &all[k], below);
      if (count != wanted) continue;
      int is_kept = is_whole || total + (size_t)count - 1 > most;
      for (int n = 0; !is_kept && n < count; n++) {
        s2u_cover_node* node = (s2u_cover_node*)s2u_cover_add(next);
        if (!node) return 0;
        *node = below[n];
      }
      if (!is_kept) total += (size_t)count - 1;
      uint64_t* cell = is_kept ? (uint64_t*)s2u_cover_add(done) : NULL;
      if ((is_kept && !cell) || S2U_IS_CANCELLED()) return 0;
      if (cell) *cell = all[k].cell;
    }
  }
  return 1;
}

/* Replaces the cells of a union by at most `most`, 6 at least, that have all of it. */
static inline int32_t s2u_cover_shorten(s2u_cover_cells* cells, size_t most) {
  s2u_cover_list nodes = s2u_cover_list_of(sizeof(s2u_cover_node)), next = nodes;
  s2u_cover_list done = s2u_cover_list_of(sizeof(uint64_t));
  int is_fine = 1;
  for (size_t begin = 0, end = 0; is_fine && begin < cells->count; begin = end) {
    s2u_cover_node* face = (s2u_cover_node*)s2u_cover_add(&nodes);
    is_fine = face != NULL;
    if (!face) break;
    face->cell = s2u_parent(cells->ids[begin], 0), face->begin = begin;
    while (end < cells->count && s2u_parent(cells->ids[end], 0) == face->cell) end++;
    face->end = end;
  }
  while (is_fine && nodes.count > 0) {
    is_fine = s2u_cover_divide_all(cells, &nodes, most, &next, &done);
    s2u_cover_list before = nodes;
    nodes = next, next = before, next.count = 0;
  }
  free(nodes.at);
  free(next.at);
  if (!is_fine) {
    free(done.at);
    return S2U_MEMORY;
  }
  free(cells->ids);
  cells->ids = (uint64_t*)(void*)done.at, cells->count = done.count;
  return s2u_normalise(cells->ids, cells->count, &cells->count);
}

/* The union of the cells of parts. Of too many, outer ones are replaced by fewer, and of inner ones the largest are
 * kept. */
static inline int32_t s2u_cover_unite(s2u_cover_cells* cells, const s2u_cover_options* options, int is_outer) {
  size_t most = options->max_cells < 6 && is_outer ? 6 : (size_t)options->max_cells;
  int32_t status = s2u_normalise(cells->ids, cells->count, &cells->count);
  if (status != S2U_OK || cells->count <= most || options->min_level > 0) return status;
  if (is_outer) return s2u_cover_shorten(cells, most);
  qsort(cells->ids, cells->count, sizeof(uint64_t), s2u_cover_by_size);
  return s2u_normalise(cells->ids, most, &cells->count);
}

/* ---- shapes to parts */

/* The polygons of a shape. `rings` has room for all rings: the polygons' stand first, then the lines. */
static inline size_t s2u_cover_polygons(const s2u_cover_shape* shape, size_t* rings, s2u_cover_polygon* polygons) {
  size_t count = 0, n = 0;
  for (size_t k = 0; k < shape->count; k++) {
    if (shape->rings[k].polygon == S2U_COVER_LINE) continue;
    if (!k || shape->rings[k - 1].polygon != shape->rings[k].polygon) {
      s2u_cover_polygon none = {{shape, rings + n, 0, NULL}, {0, 0, 0, 0}, 0, 0, s2u_cover_begin(shape, k), 0, NULL, 0};
      polygons[count++] = none;
    }
    polygons[count - 1].part.count++;
    polygons[count - 1].last = shape->rings[k].end;
    rings[n++] = k;
  }
  for (size_t k = 0; k < shape->count; k++)
    if (shape->rings[k].polygon == S2U_COVER_LINE) rings[n++] = k;
  for (size_t k = 0; k < count; k++) {
    s2u_cover_polygon* it = &polygons[k];
    it->box = s2u_cover_bounds_of(&it->part);
    it->turn = -360 * floor((it->box.west + 180) / 360);
    it->box.west += it->turn, it->box.east += it->turn;
  }
  return count;
}

/* Covers the polygons that are disjoint for sure, with the lines, and then each other polygon. */
static inline int32_t s2u_cover_add_parts(const s2u_cover_shape* shape, const s2u_cover_wanted* wanted, size_t* rings,
                                          size_t* together, s2u_cover_polygon* polygons, size_t count,
                                          const uint8_t* shared) {
  size_t areas = 0, n = 0;
  s2u_cover_part common = {shape, together, 0, shared};
  for (size_t k = 0; k < count; k++) {
    areas += polygons[k].part.count;
    for (size_t m = 0; !polygons[k].is_alone && m < polygons[k].part.count; m++)
      together[n++] = polygons[k].part.rings[m];
  }
  s2u_cover_part lines = {shape, rings + areas, shape->count - areas, NULL};
  int are_apart = n > 0 && lines.count > 0 && wanted->options->margin > 0;
  for (size_t k = areas; k < shape->count && !are_apart; k++) together[n++] = rings[k];
  common.count = n;
  int32_t status = s2u_cover_add_part(&common, wanted);
  if (status == S2U_COVER_OUTSIDE && wanted->options->edges == S2U_COVER_MAP) { /* together they may have all places */
    for (size_t k = 0; k < count; k++) polygons[k].is_alone = 1;
    status = are_apart ? S2U_OK : s2u_cover_add_part(&lines, wanted);
  }
  if (status == S2U_OK && are_apart) status = s2u_cover_add_part(&lines, wanted);
  for (size_t k = 0; status == S2U_OK && k < count; k++)
    if (polygons[k].is_alone) status = s2u_cover_add_part(&polygons[k].part, wanted);
  return status;
}

/* How wide cells at the border will be, about, by how many they may be and how deep. */
static inline double s2u_cover_size(double length, const s2u_cover_options* options) {
  double by_count = length / (2 * (double)options->max_cells + 1), by_level = ldexp(1, -(int)options->max_level);
  if (options->min_level > 0) by_count = fmin(by_count, ldexp(1, -(int)options->min_level));
  return fmax(by_count, by_level);
}

/* Whether cells of the least level along the border are not too many: as many as edges of this length, in radians, may
 * touch. */
static inline int s2u_cover_are_few_enough(double length, const s2u_cover_options* options) {
  double most = options->margin > 0 ? 2.0 * S2U_COVER_MOST_CELLS : 4.0 * S2U_COVER_MOST_CELLS;
  return options->min_level == 0 || length * ldexp(1, (int)options->min_level) <= most;
}

/* Covers a shape: `rings` has room for twice as many as it has, and `polygons` for as many. */
static inline int32_t s2u_cover_add_polygons(const s2u_cover_shape* shape, s2u_cover_wanted* wanted, size_t* rings,
                                             s2u_cover_polygon* polygons) {
  size_t count = s2u_cover_polygons(shape, rings, polygons);
  s2u_cover_part all = {shape, rings, shape->count, NULL};
  uint8_t* shared = NULL;
  int32_t status = S2U_OK;
  if (count > 1)
    status = s2u_cover_find_shared(shape, polygons, count, wanted->options->edges == S2U_COVER_MAP, &shared);
  all.shared = shared;
  wanted->length = s2u_cover_reach(s2u_cover_length(&all), shape->count, wanted->options);
  wanted->size = s2u_cover_size(wanted->length, wanted->options);
  if (status == S2U_OK && !s2u_cover_are_few_enough(wanted->length, wanted->options)) status = S2U_MANY;
  if (status == S2U_OK)
    status = s2u_cover_add_parts(shape, wanted, rings, rings + shape->count, polygons, count, shared);
  free(shared);
  return status;
}

/* Whether two places lie opposite each other, as they are written or rounded. */
static inline int s2u_cover_are_opposite(const double* a, const double* b) {
  if (fabs(a[1] + b[1]) > 1e-6) return 0; /* more than rounding moves them */
  s2u_direction from = s2u_cover_direction(a[0], a[1]), to = s2u_cover_direction(b[0], b[1]);
  s2u_cover_vector begin = s2u_cover_vector_of(&from), end = s2u_cover_vector_of(&to);
  if (s2u_cover_is_opposite(&from, &to)) return 1;
  if (s2u_cover_dot(&begin, &end) >= 0) return 0;
  begin = s2u_cover_middle(a, b);
  return begin.x != begin.x;
}

/* Whether no two corners of a geodesic ring or line that follow each other lie opposite each other. */
static inline int32_t s2u_cover_check_opposite(const s2u_cover_shape* shape, s2u_cover_fault* fault) {
  for (size_t ring = 0; ring < shape->count; ring++) {
    for (uint64_t k = s2u_cover_begin(shape, ring) + 1; k < shape->rings[ring].end; k++) {
      if (!s2u_cover_are_opposite(s2u_cover_at(shape, k - 1), s2u_cover_at(shape, k))) continue;
      fault->ring = ring;
      fault->position = k - 1 - s2u_cover_begin(shape, ring);
      return S2U_COVER_OPPOSITE;
    }
  }
  return S2U_OK;
}

/* The outer and the inner covering of a shape; either may be NULL. If both are, the shape is looked at alone, in time
 * by its positions. The caller frees their cells by s2u_cover_free, also after an error. Statuses are those above and
 * of s2union.h; the fault says where what is wrong stands. */
static inline int32_t s2u_cover(const s2u_cover_shape* shape, const s2u_cover_options* options, s2u_cover_cells* outer,
                                    s2u_cover_cells* inner, s2u_cover_fault* fault) {
  s2u_cover_wanted wanted = {options, 0, 0, outer, inner};
  s2u_cover_cells none = {NULL, 0};
  if (outer) *outer = none;
  if (inner) *inner = none;
  memset(fault, 0, sizeof *fault);
  int32_t status = s2u_cover_check_options(options);
  if (status == S2U_OK) status = s2u_cover_check(shape, fault);
  if (status == S2U_OK && options->edges != S2U_COVER_MAP) status = s2u_cover_check_opposite(shape, fault);
  if (status != S2U_OK || !shape->count || (!outer && !inner)) return status;
  size_t* rings = (size_t*)calloc(2 * shape->count, sizeof(size_t));
  s2u_cover_polygon* polygons = (s2u_cover_polygon*)calloc(shape->count, sizeof *polygons);
  if (rings && polygons) {
    status = s2u_cover_add_polygons(shape, &wanted, rings, polygons);
    if (status == S2U_OK && outer) status = s2u_cover_unite(outer, options, 1);
    if (status == S2U_OK && inner) status = s2u_cover_unite(inner, options, 0);
  } else {
    status = S2U_MEMORY;
  }
  free(rings);
  free(polygons);
  return S2U_IS_CANCELLED() ? S2U_MEMORY : status; /* what wasn't done may have looked like another error */
}

/* ---- texts and bytes of shapes, which the proved calls read */

typedef struct s2u_cover_reader {
  s2u_cover_list positions, rings; /* of two doubles, and of s2u_cover_ring */
} s2u_cover_reader;

static inline void s2u_cover_close(s2u_cover_reader* reader) {
  free(reader->positions.at);
  free(reader->rings.at);
}

/* The status of a fault of bytes, or else of a text. */
static inline int32_t s2u_cover_status_of(size_t fault, int is_text) {
  switch (fault) {
    case S2U_FAULT_NOT_FINITE:
    case S2U_FAULT_RANGE: return S2U_COVER_NUMBER;
    case S2U_FAULT_FEW: return S2U_COVER_FEW;
    case S2U_FAULT_OPEN: return S2U_COVER_OPEN;
    case S2U_FAULT_TYPE:
    case S2U_FAULT_UNCOVERED: return is_text ? S2U_COVER_GEOJSON : S2U_COVER_TYPE;
    case S2U_FAULT_SRID: return S2U_COVER_SRID;
    case S2U_FAULT_DEEP: return is_text ? S2U_COVER_GEOJSON : S2U_COVER_DEEP;
    default: return is_text ? S2U_COVER_GEOJSON : S2U_COVER_WKB;
  }
}

/* Whether a status is about a byte of WKB. */
static inline int s2u_cover_is_of_byte(int32_t status) {
  return status == S2U_COVER_WKB || status == S2U_COVER_TYPE || status == S2U_COVER_SRID || status == S2U_COVER_DEEP;
}

/* Whether there is memory for this many elements, or for one if they are none; there is none before. */
static inline int s2u_cover_begin_list(s2u_cover_list* list, size_t unit, size_t count) {
  *list = s2u_cover_list_of(unit);
  return s2u_cover_take(list, count ? count : 1);
}

/* The shape in a text of GeoJSON or in bytes of WKB, in memory of malloc: s2u_cover_close frees it, also after an
 * error. Its fault is about a byte of WKB if s2u_cover_is_of_byte, and else about a ring and a position. */
static inline int32_t s2u_cover_open(const void* at, size_t size, int is_text, s2u_cover_reader* reader,
                                     s2u_cover_shape* shape, s2u_cover_fault* fault) {
  size_t most = is_text ? S2U_MOST_SHAPE_GEOJSON(size) : S2U_MOST_SHAPE_WKB(size), count = 0, rings = 0;
  s2u_shape_fault first = {0, 0, 0, 0, 0};
  memset(fault, 0, sizeof *fault);
  shape->positions = NULL, shape->rings = NULL, shape->count = 0;
  int is_there = s2u_cover_begin_list(&reader->positions, 2 * sizeof(double), most);
  if (!s2u_cover_begin_list(&reader->rings, sizeof(s2u_cover_ring), most) || !is_there) return S2U_MEMORY;
  s2u_place* places = (s2u_place*)(void*)reader->positions.at;
  s2u_cover_ring* ends = (s2u_cover_ring*)(void*)reader->rings.at;
  int32_t status = is_text
      ? s2u_shape_geojson((const char*)at, size, places, reader->positions.room, &count, ends, reader->rings.room,
                          &rings, &first)
      : s2u_shape_wkb((const uint8_t*)at, size, places, reader->positions.room, &count, ends, reader->rings.room,
                      &rings, &first);
  if (status != S2U_OK) count = rings = 0;
  reader->positions.count = count, reader->rings.count = rings;
  shape->positions = (const double*)(void*)reader->positions.at;
  shape->rings = (const s2u_cover_ring*)(void*)reader->rings.at;
  shape->count = rings;
  if (status != S2U_SHAPE) return status;
  status = s2u_cover_status_of(first.name, is_text);
  int is_of_byte = s2u_cover_is_of_byte(status);
  fault->ring = is_of_byte ? 0 : first.ring, fault->position = is_of_byte ? first.byte : first.position;
  fault->name = first.name, fault->part = first.part;
  return status;
}

static inline int32_t s2u_cover_open_wkb(const uint8_t* bytes, size_t size, s2u_cover_reader* reader,
                                         s2u_cover_shape* shape, s2u_cover_fault* fault) {
  return s2u_cover_open(bytes, size, 0, reader, shape, fault);
}

/* Covers the shape in a text of GeoJSON or in bytes of WKB. */
static inline int32_t s2u_cover_read(const void* at, size_t size, int is_text, const s2u_cover_options* options,
                                     s2u_cover_cells* outer, s2u_cover_cells* inner, s2u_cover_fault* fault) {
  s2u_cover_reader reader;
  s2u_cover_shape shape;
  s2u_cover_cells none = {NULL, 0};
  if (outer) *outer = none;
  if (inner) *inner = none;
  int32_t status = s2u_cover_open(at, size, is_text, &reader, &shape, fault);
  if (status == S2U_OK) status = s2u_cover(&shape, options, outer, inner, fault);
  s2u_cover_close(&reader);
  return status;
}

static inline int32_t s2u_cover_wkb(const uint8_t* bytes, size_t size, const s2u_cover_options* options,
                                        s2u_cover_cells* outer, s2u_cover_cells* inner, s2u_cover_fault* fault) {
  return s2u_cover_read(bytes, size, 0, options, outer, inner, fault);
}

static inline int32_t s2u_cover_geojson(const char* text, size_t size, const s2u_cover_options* options,
                                        s2u_cover_cells* outer, s2u_cover_cells* inner, s2u_cover_fault* fault) {
  return s2u_cover_read(text, size, 1, options, outer, inner, fault);
}

/* ---- boxes, circles and corridors */

/* The five positions of the ring around a box. */
static inline int32_t s2u_cover_box_ring(double west, double south, double east, double north, double* positions) {
  const double most = S2U_GEO_MOST_LONGITUDE, from[2] = {west, 0}, to[2] = {east, 0};
  double begin = west, end = east;
  if (north >= -90 && north < south && south <= 90) return S2U_ARGUMENT;
  if (s2u_cover_is_place(from) && s2u_cover_is_place(to)) {
    if (end < begin) end += 360 * ceil((begin - end) / 360);
    if (end > begin + 360) begin = -180, end = 180;
    double back = end > most ? 360 * ceil((end - most) / 360) : 0;
    begin -= back, end -= back;
  }
  const double corners[10] = {begin, south, end, south, end, north, begin, north, begin, south};
  memcpy(positions, corners, sizeof corners);
  return S2U_OK;
}

/* A box of the map. One that ends to the west of where it begins goes over the date line, and one wider than 360
 * degrees has all longitudes. S2U_ARGUMENT if it ends to the south of where it begins, as the box of no cell does. */
static inline int32_t s2u_cover_box(double west, double south, double east, double north,
                                        const s2u_cover_options* options, s2u_cover_cells* outer,
                                        s2u_cover_cells* inner, s2u_cover_fault* fault) {
  double positions[10];
  s2u_cover_ring ring = {5, 0};
  s2u_cover_shape shape = {positions, &ring, 1};
  s2u_cover_cells none = {NULL, 0};
  if (outer) *outer = none;
  if (inner) *inner = none;
  memset(fault, 0, sizeof *fault);
  int32_t status = s2u_cover_box_ring(west, south, east, north, positions);
  return status != S2U_OK ? status : s2u_cover(&shape, options, outer, inner, fault);
}

#define S2U_COVER_NOISE 1e-14 /* radians: more than places in doubles are wrong by */

/* The cells at which the search of a circle begins: few that have all of a square around it, or the faces. */
static inline int32_t s2u_cover_find_roots(s2u_direction place, double meters, const s2u_cover_options* options,
                                           s2u_cover_cells* roots) {
  s2u_direction corners[3] = {place, place, place};
  s2u_cover_build build = s2u_cover_build_of();
  s2u_cover_options wide = *options;
  const size_t end = 3;
  if (meters > S2U_COVER_MOST_MARGIN) return s2u_cover_add_faces(roots);
  wide.margin = meters;
  build.corners.at = (char*)(void*)corners, build.corners.count = 3;
  s2u_cover_question it = s2u_cover_question_of(&build, s2u_geo_leaf(0, 90), &wide, 1);
  it.ends = &end, it.ends_count = 1;
  return s2u_cover_add_up_to(&it, options->max_level, s2u_cover_roots(options), roots);
}

/* Within a radius in meters of a place. A margin widens the outer covering, and narrows the inner one. */
static inline int32_t s2u_cover_circle(double longitude, double latitude, double radius,
                                           const s2u_cover_options* options, s2u_cover_cells* outer,
                                           s2u_cover_cells* inner, s2u_cover_fault* fault) {
  const double place[2] = {longitude, latitude};
  double wide = (radius + options->margin) / S2U_COVER_EARTH, narrow = (radius - options->margin) / S2U_COVER_EARTH;
  s2u_cover_cells none = {NULL, 0}, roots = none;
  if (outer) *outer = none;
  if (inner) *inner = none;
  memset(fault, 0, sizeof *fault);
  if (!s2u_cover_is_place(place)) return S2U_COVER_NUMBER;
  if (!(radius >= 0 && radius <= S2U_COVER_MOST_RADIUS)) return S2U_COVER_OPTION;
  int32_t status = s2u_cover_check_options(options);
  if (status != S2U_OK) return status;
  if (!s2u_cover_are_few_enough(2 * S2U_GEO_PI * sin(fmin(wide, S2U_GEO_PI / 2)), options)) return S2U_MANY;
  double turn = s2u_cover_radians(remainder(longitude, 360)), height = s2u_cover_radians(latitude);
  s2u_cover_vector middle = s2u_cover_unit(cos(turn) * cos(height), sin(turn) * cos(height), sin(height));
  s2u_cover_arc arc = s2u_cover_arc_of(middle, middle);
  status = s2u_cover_find_roots(s2u_cover_direction(longitude, latitude), radius + options->margin, options, &roots);
  const s2u_cover_corridors in = {&arc, 1, roots.ids, roots.count};
  if (status == S2U_OK && outer)
    status = s2u_cover_add_walk(&in, options, options->max_cells, S2U_COVER_MEETS, wide + S2U_COVER_NOISE, NULL,
                                outer);
  if (status == S2U_OK && inner && narrow > S2U_COVER_NOISE)
    status = s2u_cover_add_walk(&in, options, options->max_cells, S2U_COVER_LIES, narrow - S2U_COVER_NOISE, NULL,
                                inner);
  s2u_cover_free(&roots);
  if (status == S2U_OK && outer) status = s2u_cover_unite(outer, options, 1);
  if (status == S2U_OK && inner) status = s2u_cover_unite(inner, options, 0);
  return S2U_IS_CANCELLED() ? S2U_MEMORY : status;
}

/* The places no farther than half a width in meters from a line. For cells that lie in the corridor ask s2u_cover, with
 * half of the width as the margin. */
static inline int32_t s2u_cover_corridor(const double* positions, size_t count, double width,
                                             const s2u_cover_options* options, s2u_cover_cells* outer,
                                             s2u_cover_fault* fault) {
  s2u_cover_ring ring = {count, S2U_COVER_LINE};
  s2u_cover_shape shape = {positions, &ring, 1};
  s2u_cover_options wide = *options;
  wide.margin = options->margin + width / 2;
  return s2u_cover(&shape, &wide, outer, NULL, fault);
}

/* ---- cells beside cells, and the box around them */

#define S2U_COVER_MOST_NEIGHBORS 1000000
/* The cells of a union and around them, before they are normalized. */
#define S2U_COVER_MOST_AROUND(count) (4 * S2U_COVER_MOST_CELLS + 9 * (uint64_t)(count))

/* How many cells of a level around a cell there may be: a row along each edge, and the corners. */
static inline uint64_t s2u_cover_around(const s2u_square* at, uint32_t level) {
  return 4 * ((uint64_t)at->size >> (30 - level)) + 4;
}

/* Adds the cells of a level, that of the cell or a deeper one, that touch a cell from outside; `cells` has room. */
static inline void s2u_cover_add_around(const s2u_square* at, uint32_t level, s2u_cover_cells* cells) {
  const int64_t step = INT64_C(1) << (30 - level), i = at->i, j = at->j, size = at->size;
  for (int64_t k = -step; k <= size; k += step) {
    int is_beside = k >= 0 && k < size; /* otherwise below the first or above the last, where the corners are */
    const int64_t places[4][2] = {{i - step, j + k}, {i + size, j + k}, {i + k, j - step}, {i + k, j + size}};
    for (int n = 0; n < (is_beside ? 4 : 2); n++) {
      uint64_t leaf = s2u_geo_leaf_beside(at->face, places[n][0], places[n][1]);
      if (leaf) cells->ids[cells->count++] = s2u_parent(leaf, level);
    }
  }
}

/* The cells of a level that touch a cell, at an edge or a corner, and share no leaf with it, as a union: eight of its
 * own level, seven at a corner of the cube, and four of a face. S2CellId::AppendAllNeighbors. S2U_NO_CELL; S2U_ARGUMENT
 * for a level beyond 30 or above that of the cell; S2U_MANY for more than S2U_COVER_MOST_NEIGHBORS. The caller frees
 * the cells by s2u_cover_free, also after an error. */
static inline int32_t s2u_cover_neighbors(uint64_t cell, uint32_t level, s2u_cover_cells* neighbors) {
  s2u_square at;
  neighbors->ids = NULL, neighbors->count = 0;
  int32_t status = s2u_square_of(cell, &at);
  if (status != S2U_OK) return status;
  if (level > 30 || level < (uint32_t)s2u_level(cell)) return S2U_ARGUMENT;
  if (s2u_cover_around(&at, level) > S2U_COVER_MOST_NEIGHBORS) return S2U_MANY;
  if (!s2u_cover_resize(neighbors, (size_t)s2u_cover_around(&at, level))) return S2U_MEMORY;
  s2u_cover_add_around(&at, level, neighbors);
  return s2u_normalise(neighbors->ids, neighbors->count, &neighbors->count);
}

/* A cell, or the one of a level that has it if it is deeper. */
static inline uint64_t s2u_cover_no_deeper(uint64_t cell, uint32_t level) {
  return s2u_level(cell) > (int32_t)level ? s2u_parent(cell, level) : cell;
}

/* Adds each cell of a union, if it is not deeper than a level, and those around it; `cells` has room. Without `cells`
 * they are only counted: S2U_MANY if there are too many. */
static inline int32_t s2u_cover_expand(const uint64_t* ids, size_t count, uint32_t level, s2u_cover_cells* cells,
                                       uint64_t* most) {
  uint64_t last = 0;
  s2u_square at;
  for (size_t k = 0; k < count; k++) {
    if (!s2u_is_cell(ids[k])) return S2U_NO_CELL;
    if (S2U_IS_CANCELLED()) return S2U_MEMORY;
    uint64_t cell = s2u_cover_no_deeper(ids[k], level);
    if (cell == last) continue;
    last = cell;
    s2u_square_of(cell, &at);
    if (cells) {
      cells->ids[cells->count++] = cell;
      s2u_cover_add_around(&at, level, cells);
    } else {
      *most += 1 + s2u_cover_around(&at, level);
      if (*most > S2U_COVER_MOST_AROUND(count)) return S2U_MANY;
    }
  }
  return S2U_OK;
}

/* A union and the cells of a level that touch it; cells that are deeper are first replaced by those of the level that
 * have them. S2CellUnion::Expand. S2U_NO_CELL; S2U_ARGUMENT for a level beyond 30; S2U_MANY, before memory is taken,
 * for more cells than S2U_COVER_MOST_AROUND. The caller frees the cells by s2u_cover_free, also after an error. */
static inline int32_t s2u_cover_expanded(const uint64_t* ids, size_t count, uint32_t level, s2u_cover_cells* expanded) {
  uint64_t most = 0;
  expanded->ids = NULL, expanded->count = 0;
  if (level > 30) return S2U_ARGUMENT;
  int32_t status = s2u_cover_expand(ids, count, level, NULL, &most);
  if (status != S2U_OK) return status;
  if (!s2u_cover_resize(expanded, (size_t)most)) return S2U_MEMORY;
  status = s2u_cover_expand(ids, count, level, expanded, &most);
  if (status != S2U_OK) return status;
  return s2u_normalise(expanded->ids, expanded->count, &expanded->count);
}

#define S2U_COVER_BESIDE 1e-13 /* degrees: what the corners of cells are wrong by, and less than a leaf by far */

/* A longitude that is wrong by a little, but on the date line. */
static inline double s2u_cover_aside(double longitude, double by) {
  return fabs(longitude) == 180 ? longitude : longitude + by;
}

/* The box of a square of a face, of a fourth of it at most; its west is from -180 to less than 180. A pole has all
 * longitudes. */
static inline void s2u_cover_box_of(uint32_t face, double i, double j, double size, s2u_cover_bounds* box) {
  double corner[2], first = 0;
  s2u_cover_bounds none = {INFINITY, INFINITY, -INFINITY, -INFINITY};
  *box = none;
  for (int k = 0; k < 4; k++) {
    s2u_geo_place(face, i + (k & 1 ? size : 0), j + (k & 2 ? size : 0), &corner[0], &corner[1]);
    if (k == 0) first = corner[0];
    corner[0] -= 360 * nearbyint((corner[0] - first) / 360);
    s2u_cover_widen(box, corner);
  }
  box->south = fmax(box->south - S2U_COVER_BESIDE, -90);
  box->north = fmin(box->north + S2U_COVER_BESIDE, 90);
  box->west = s2u_cover_aside(box->west, -S2U_COVER_BESIDE);
  box->east = s2u_cover_aside(box->east, S2U_COVER_BESIDE);
  if (box->south == -90 || box->north == 90) box->west = -180, box->east = 180;
  double turn = box->west < -180 ? 360 : box->west >= 180 ? -360 : 0;
  box->west += turn, box->east += turn;
}

static inline int s2u_cover_by_its_west(const void* a, const void* b) {
  double x = ((const s2u_cover_bounds*)a)->west, y = ((const s2u_cover_bounds*)b)->west;
  return (x > y) - (x < y);
}

/* Joins the longitudes of boxes, which begin in turn: all but the widest gap between them. */
static inline void s2u_cover_join_longitudes(const s2u_cover_bounds* boxes, size_t count, s2u_cover_bounds* box) {
  double end = boxes[0].east, widest = 0;
  for (size_t k = 1; k < count; k++) end = fmax(end, boxes[k].east);
  end -= 360; /* of the turn before */
  box->west = -180, box->east = 180;
  for (size_t k = 0; k < count; end = fmax(end, boxes[k++].east)) {
    if (boxes[k].west - end <= widest) continue;
    widest = boxes[k].west - end;
    box->west = boxes[k].west, box->east = end <= -180 ? end + 360 : end;
  }
}

/* The box in degrees in which a union lies, the narrowest one: S2CellUnion::GetRectBound. It goes over the date line if
 * the east is less than the west, and has all longitudes from -180 to 180 if there is no gap. That of no cell has a
 * south of 90 and a north of -90. S2U_NO_CELL, S2U_MEMORY. */
static inline int32_t s2u_cover_rect_bound(const uint64_t* ids, size_t count, s2u_cover_bounds* box) {
  s2u_cover_bounds none = {180, 90, -180, -90};
  size_t length = 0, faces = 0;
  s2u_square at;
  *box = none;
  for (size_t k = 0; k < count; k++) {
    if (!s2u_is_cell(ids[k])) return S2U_NO_CELL;
    faces += s2u_level(ids[k]) == 0;
  }
  if (count == 0) return S2U_OK;
  s2u_cover_bounds* boxes = (s2u_cover_bounds*)calloc(count + 3 * faces, sizeof *boxes);
  if (!boxes) return S2U_MEMORY;
  for (size_t k = 0; k < count && !S2U_IS_CANCELLED(); k++) {
    s2u_square_of(ids[k], &at);
    double size = at.size == S2U_GEO_SIDE ? at.size / 2 : at.size;
    for (int child = 0; child < (at.size == S2U_GEO_SIDE ? 4 : 1); child++, length++) {
      s2u_cover_box_of(at.face, at.i + (child & 1 ? size : 0), at.j + (child & 2 ? size : 0), size, &boxes[length]);
      box->south = fmin(box->south, boxes[length].south);
      box->north = fmax(box->north, boxes[length].north);
    }
  }
  qsort(boxes, length, sizeof *boxes, s2u_cover_by_its_west);
  s2u_cover_join_longitudes(boxes, length, box);
  free(boxes);
  return S2U_IS_CANCELLED() ? S2U_MEMORY : S2U_OK;
}

#endif
