/* Exact joins of points with polygons in degrees: whether a shape in WKB has a place, a smaller shape that has the same
 * places of a tile, and which of many zones have which of many places. All of it is in this header, and needs the
 * library, malloc and -lm. It is tested, not proved. The longitude comes first.
 *
 * Edges are straight on the map, as for S2U_COVER_MAP, and inside is what an odd number of crossings with the rings of
 * a polygon leads to. A place on an edge is in the shape. The answer is that of the numbers as they are given: no sum
 * is rounded where that would change it (of numbers below 1e-290 it may be). A shape that goes on beyond 180 degrees
 * has the places at the other end of the map too, and parts of a polygon wider than 360 degrees that lie on each other
 * after a turn cancel, as in its coverings.
 *
 * A join in a database compares tiles first: coverings by s2union_cover.h, cut at one level, tell most pairs apart. It
 * asks about the clipped shape only where a leaf is in the outer covering and not in the inner one. A program that
 * holds all zones makes them once, by s2u_join_zones_of or one by one by s2u_join_add_wkb, and then calls
 * s2u_join_pairs_of for places. */
#ifndef S2UNION_JOIN_H
#define S2UNION_JOIN_H

#include "s2union_cover.h"

/* ---- on which side of an edge a place is */

/* Adds a number to numbers whose sum is kept without rounding, the greatest last. */
static inline void s2u_join_add(double* sum, size_t* count, double number) {
  for (size_t k = 0; k < *count; k++) {
    double both = number + sum[k], part = both - number;
    sum[k] = (number - (both - part)) + (sum[k] - part); /* what rounding has left out of both */
    number = both;
  }
  sum[(*count)++] = number;
}

#define S2U_JOIN_SCALE 3.273390607896142e150 /* 2^500: so small numbers, and what rounding leaves out, stay numbers */

/* 1 if a place is to the left of the way from a to b, -1 if it is to the right, and 0 on its line. */
static inline int s2u_join_side(const double* a, const double* b, double x, double y) {
  double left = (b[0] - a[0]) * (y - a[1]), right = (b[1] - a[1]) * (x - a[0]), turn = left - right;
  double noise = 4e-16 * (fabs(left) + fabs(right)) + 1e-300; /* more than the five roundings come to */
  if (turn > noise || turn < -noise) return turn > 0 ? 1 : -1;
  const double pairs[6][2] = {{b[0], y}, {-b[0], a[1]}, {-a[0], y}, {-b[1], x}, {b[1], a[0]}, {a[1], x}};
  double sum[12];
  size_t count = 0;
  for (int k = 0; k < 6; k++) {
    double one = S2U_JOIN_SCALE * pairs[k][0], other = S2U_JOIN_SCALE * pairs[k][1], product = one * other;
    s2u_join_add(sum, &count, fma(one, other, -product));
    s2u_join_add(sum, &count, product);
  }
  while (count > 0 && sum[count - 1] == 0) count--;
  return count == 0 ? 0 : sum[count - 1] > 0 ? 1 : -1;
}

/* Whether a place is on an edge; and *is_odd is turned if the way to the north from the place crosses the edge. */
static inline int s2u_join_meets(const double* a, const double* b, double x, double y, int* is_odd) {
  int is_east_of_a = a[0] <= x, is_east_of_b = b[0] <= x, crosses = is_east_of_a != is_east_of_b;
  if ((!crosses && x != a[0] && x != b[0]) || (y > a[1] && y > b[1])) return 0;
  if (y < a[1] && y < b[1]) return *is_odd ^= crosses, 0;
  int side = s2u_join_side(a, b, x, y);
  if (side == 0) return (x >= a[0] || x >= b[0]) && (x <= a[0] || x <= b[0]);
  *is_odd ^= crosses && side == (is_east_of_a ? -1 : 1); /* an edge to the east has the south on its right */
  return 0;
}

/* Whether a place is on a ring or a line; and *is_odd is turned as often as the way to the north crosses it. */
static inline int s2u_join_meets_ring(const s2u_cover_shape* shape, size_t ring, double x, double y, int* is_odd) {
  uint64_t begin = s2u_cover_begin(shape, ring), end = shape->rings[ring].end;
  const double* a = s2u_cover_at(shape, begin);
  if (a[0] == x && a[1] == y) return 1; /* all that a point has */
  for (uint64_t n = begin + 1; n < end; n++, a += 2)
    if (s2u_join_meets(a, a + 2, x, y, is_odd)) return 1;
  return 0;
}

/* Whether a shape, whose positions lie in a box, has a place on any turn of the map. */
static inline int s2u_join_has(const s2u_cover_shape* shape, const s2u_cover_bounds* box, double x, double y) {
  int is_odd = 0;
  for (size_t ring = 0; ring < shape->count; ring++) {
    uint64_t polygon = shape->rings[ring].polygon;
    for (double turn = ceil((box->west - x) / 360); x + 360 * turn <= box->east; turn++)
      if (s2u_join_meets_ring(shape, ring, x + 360 * turn, y, &is_odd)) return 1;
    if (ring + 1 < shape->count && shape->rings[ring + 1].polygon == polygon && polygon != S2U_COVER_LINE) continue;
    if (is_odd && polygon != S2U_COVER_LINE) return 1;
    is_odd = 0;
  }
  return 0;
}

/* The box of a shape's positions: INFINITY and -INFINITY of none. */
static inline s2u_cover_bounds s2u_join_bounds(const s2u_cover_shape* shape) {
  s2u_cover_bounds box = {INFINITY, INFINITY, -INFINITY, -INFINITY};
  for (uint64_t n = 0; shape->count > 0 && n < shape->rings[shape->count - 1].end; n++) {
    const double* at = s2u_cover_at(shape, n);
    if (at[0] < box.west) box.west = at[0];
    if (at[0] > box.east) box.east = at[0];
    if (at[1] < box.south) box.south = at[1];
    if (at[1] > box.north) box.north = at[1];
  }
  return box;
}

/* Whether a shape in WKB has a place, from -540 to 540 and from -90 to 90 degrees. The errors are those of
 * s2u_cover_wkb, but a shape may have edges of any length; and S2U_ARGUMENT for another place. */
static inline int32_t s2u_join_covers(const uint8_t* bytes, size_t size, double longitude, double latitude, int* covers,
                                      s2u_cover_fault* fault) {
  const double place[2] = {longitude, latitude};
  s2u_cover_reader reader;
  s2u_cover_shape shape;
  *covers = 0;
  int32_t status = s2u_cover_open_wkb(bytes, size, &reader, &shape, fault);
  if (status == S2U_OK) status = s2u_cover_check(&shape, fault);
  if (status == S2U_OK && !s2u_cover_is_place(place)) status = S2U_ARGUMENT;
  s2u_cover_bounds box = s2u_join_bounds(&shape);
  if (status == S2U_OK && latitude >= box.south && latitude <= box.north)
    *covers = s2u_join_has(&shape, &box, longitude, latitude);
  s2u_cover_close(&reader);
  return status;
}

/* ---- clips */

/* The box of a tile at each turn of the map that a shape has, from the west to the east. */
enum { S2U_JOIN_TURNS = 6 };
typedef struct s2u_join_boxes {
  double south, north, west[S2U_JOIN_TURNS], east[S2U_JOIN_TURNS];
  int count;
} s2u_join_boxes;

static inline s2u_join_boxes s2u_join_boxes_of(const s2u_geo_box* tile, const s2u_cover_bounds* box) {
  s2u_join_boxes it;
  it.south = tile->south, it.north = tile->north, it.count = 0;
  for (double turn = ceil((box->west - tile->east) / 360);
       it.count < S2U_JOIN_TURNS && tile->west + 360 * turn <= box->east; turn++) {
    it.west[it.count] = tile->west + 360 * turn;
    it.east[it.count++] = tile->east + 360 * turn;
  }
  return it;
}

/* Beyond which sides of the boxes a position is, as bits: south, north, and west of each box and east of the one before
 * it. Two positions with a bit in common are joined by an edge that meets no box. */
static inline uint32_t s2u_join_beyond(const s2u_join_boxes* boxes, const double* at) {
  uint32_t sides = at[1] < boxes->south ? 1 : at[1] > boxes->north ? 2 : 0;
  int k = 0;
  while (k < boxes->count && boxes->east[k] < at[0]) k++;
  return k < boxes->count && boxes->west[k] <= at[0] ? sides : sides | UINT32_C(4) << k;
}

/* Leaves out positions of a ring or a line between two others where all of them are beyond one side. What that adds and
 * takes away is beyond this side too, so the shape has the same places in the boxes. The positions that stay, none if
 * all are beyond one side, are written to `to`. How many there are. */
static inline uint64_t s2u_join_shorten(const s2u_join_boxes* boxes, const double* at, uint64_t count, int is_area,
                                        double* to) {
  uint64_t kept = 0;
  uint32_t all = ~UINT32_C(0), last = 0, run = 0;
  for (uint64_t k = 0; k < count; k++) {
    uint32_t sides = s2u_join_beyond(boxes, at + 2 * k);
    all &= sides;
    int replaces = kept > 1 && (run & sides);
    run = replaces ? run & sides : last & sides;
    if (!replaces) kept++;
    memmove(to + 2 * (kept - 1), at + 2 * k, 2 * sizeof(double));
    last = sides;
  }
  if (all) return 0;
  for (; is_area && kept < 4; kept++) to[2 * kept] = to[2 * kept - 2], to[2 * kept + 1] = to[2 * kept - 1];
  return kept;
}

/* Shortens the rings and lines that a reader has, in their place. */
static inline void s2u_join_shorten_all(s2u_cover_reader* reader, s2u_cover_shape* shape, const s2u_join_boxes* boxes) {
  double* positions = (double*)(void*)reader->positions.at;
  s2u_cover_ring* rings = (s2u_cover_ring*)(void*)reader->rings.at;
  size_t kept = 0;
  uint64_t begin = 0, to = 0;
  for (size_t ring = 0; ring < shape->count; ring++) {
    const s2u_cover_ring it = rings[ring];
    uint64_t count = s2u_join_shorten(boxes, positions + 2 * begin, it.end - begin, it.polygon != S2U_COVER_LINE,
                                      positions + 2 * to);
    begin = it.end;
    to += count;
    rings[kept].end = to;
    rings[kept].polygon = it.polygon;
    kept += count > 0;
  }
  shape->count = kept;
}

/* Bytes in memory of malloc. */
typedef struct s2u_join_bytes {
  uint8_t* at;
  size_t size;
} s2u_join_bytes;

static inline void s2u_join_put(s2u_join_bytes* to, const void* bytes, size_t size) {
  if (to->at) memcpy(to->at + to->size, bytes, size);
  to->size += size;
}

static inline void s2u_join_put_count(s2u_join_bytes* to, uint64_t count) {
  uint32_t number = (uint32_t)count;
  s2u_join_put(to, &number, sizeof number);
}

/* The order of bytes, which is the machine's, and the type of a geometry. */
static inline void s2u_join_put_type(s2u_join_bytes* to, uint64_t type) {
  const uint16_t one = 1;
  s2u_join_put(to, &one, 1);
  s2u_join_put_count(to, type);
}

/* How many rings of the same polygon follow, this one with them. A line has one. */
static inline size_t s2u_join_rings(const s2u_cover_shape* shape, size_t ring) {
  size_t next = ring + 1;
  uint64_t polygon = shape->rings[ring].polygon;
  while (polygon != S2U_COVER_LINE && next < shape->count && shape->rings[next].polygon == polygon) next++;
  return next - ring;
}

/* Writes a shape as WKB: a MultiPolygon, or a collection if it has points or lines. Without memory it counts the bytes
 * alone. */
static inline void s2u_join_put_shape(s2u_join_bytes* to, const s2u_cover_shape* shape) {
  uint64_t parts = 0, lines = 0;
  to->size = 0;
  for (size_t ring = 0; ring < shape->count; ring += s2u_join_rings(shape, ring)) {
    parts++;
    lines += shape->rings[ring].polygon == S2U_COVER_LINE;
  }
  s2u_join_put_type(to, lines ? 7 : 6);
  s2u_join_put_count(to, parts);
  for (size_t ring = 0, rings = 0; ring < shape->count; ring++, rings--) {
    uint64_t begin = s2u_cover_begin(shape, ring), count = shape->rings[ring].end - begin;
    int is_line = shape->rings[ring].polygon == S2U_COVER_LINE;
    if (rings == 0) {
      rings = s2u_join_rings(shape, ring);
      s2u_join_put_type(to, !is_line ? 3 : count > 1 ? 2 : 1);
      if (!is_line) s2u_join_put_count(to, rings);
    }
    if (!is_line || count > 1) s2u_join_put_count(to, count);
    s2u_join_put(to, s2u_cover_at(shape, begin), 16 * (size_t)count);
  }
}

/* A shape in WKB, of fewer positions, that has the same places as a shape in WKB among those whose leaves lie in a
 * tile. Its positions are some of the shape's. The caller frees the bytes. The errors are those of s2u_join_covers, and
 * S2U_NO_CELL. */
static inline int32_t s2u_join_clip(const uint8_t* bytes, size_t size, uint64_t tile, s2u_join_bytes* clip,
                                    s2u_cover_fault* fault) {
  s2u_cover_reader reader;
  s2u_cover_shape shape;
  s2u_geo_box box;
  clip->at = NULL, clip->size = 0;
  int32_t status = s2u_cover_open_wkb(bytes, size, &reader, &shape, fault);
  if (status == S2U_OK) status = s2u_cover_check(&shape, fault);
  if (status == S2U_OK) status = s2u_geo_box_of(tile, &box);
  if (status == S2U_OK) {
    const s2u_cover_bounds bounds = s2u_join_bounds(&shape);
    const s2u_join_boxes boxes = s2u_join_boxes_of(&box, &bounds);
    s2u_join_shorten_all(&reader, &shape, &boxes);
    s2u_join_put_shape(clip, &shape);
    clip->at = (uint8_t*)malloc(clip->size);
    if (clip->at) s2u_join_put_shape(clip, &shape);
    else status = S2U_MEMORY;
  }
  s2u_cover_close(&reader);
  return status;
}

/* ---- many places and many zones
 *
 * A zone is a shape in WKB. A tree over the zones' boxes finds those that may have a place. Of such a zone the edges
 * that are filed at the place's longitude are asked, each as above. They are filed when the first place lies in the
 * box. Calls end with S2U_MEMORY if S2U_IS_CANCELLED() says so, which s2union_cover.h asks too. */

/* An edge between two positions of a zone; of a point both are the same. */
typedef struct s2u_join_edge {
  uint32_t from, to, part; /* twice the place of its polygon or its line in the zone, and 1 more of a line */
} s2u_join_edge;

typedef struct s2u_join_zone {
  s2u_join_bytes bytes; /* the caller's, which stay, or a copy, which goes when edges are filed */
  int is_copy;
  s2u_cover_bounds box;
  double* positions;    /* NULL before edges are filed */
  s2u_join_edge* edges; /* one slab of longitudes after the other, in each as the shape has them */
  size_t *begins, slabs; /* of each slab, and the end of the last */
} s2u_join_zone;

enum { S2U_JOIN_FAN = 8, S2U_JOIN_MOST_LEVELS = 22 };

/* Zones, and boxes around them. The lowest level of boxes has each zone's own, in the order of the leaves of their
 * middles, and each other level one for S2U_JOIN_FAN boxes below it. */
typedef struct s2u_join_zones {
  s2u_cover_list zones; /* of s2u_join_zone */
  size_t levels, begins[S2U_JOIN_MOST_LEVELS + 1]; /* no levels before boxes are made */
  s2u_cover_list order, boxes; /* the number of each zone that has a position, and all boxes */
} s2u_join_zones;

static inline s2u_join_zone* s2u_join_zone_at(const s2u_join_zones* it, size_t number) {
  return (s2u_join_zone*)(void*)it->zones.at + number;
}

typedef struct s2u_join_pair {
  uint64_t point, zone;
} s2u_join_pair;

/* The place in the slabs of a longitude. */
static inline size_t s2u_join_slab(const s2u_join_zone* zone, double x) {
  double slab = (x - zone->box.west) * ((double)zone->slabs / (zone->box.east - zone->box.west));
  if (!isfinite(slab) || slab <= 0) return 0; /* of a box of no width it is no number */
  return slab < (double)zone->slabs ? (size_t)slab : zone->slabs - 1;
}

/* Writes the edges of a shape, at most one for each position, and returns how many there are. */
static inline size_t s2u_join_edges_of(const s2u_cover_shape* shape, s2u_join_edge* edges) {
  size_t count = 0;
  uint32_t part = 0;
  for (size_t ring = 0; ring < shape->count; ring++) {
    uint64_t begin = s2u_cover_begin(shape, ring), end = shape->rings[ring].end, polygon = shape->rings[ring].polygon;
    int is_line = polygon == S2U_COVER_LINE;
    if (ring > 0 && (is_line || polygon != shape->rings[ring - 1].polygon)) part += 2;
    for (uint64_t to = end - begin > 1 ? begin + 1 : begin; to < end; to++, count++) {
      edges[count].from = (uint32_t)(to > begin ? to - 1 : to);
      edges[count].to = (uint32_t)to;
      edges[count].part = part + (uint32_t)is_line;
    }
  }
  return count;
}

/* The first and the last slab of an edge. */
static inline void s2u_join_slabs_of(const s2u_join_zone* zone, const s2u_join_edge* edge, size_t* first,
                                     size_t* last) {
  double a = zone->positions[2 * (size_t)edge->from], b = zone->positions[2 * (size_t)edge->to];
  *first = s2u_join_slab(zone, a < b ? a : b);
  *last = s2u_join_slab(zone, a < b ? b : a);
}

/* Files edges in slabs, so many that on average an edge lies in at most three. Whether there is memory. */
static inline int s2u_join_file(s2u_join_zone* zone, const s2u_join_edge* edges, size_t count) {
  double wide = 0, whole = zone->box.east - zone->box.west;
  size_t first, last;
  for (size_t k = 0; k < count; k++)
    wide += fabs(zone->positions[2 * (size_t)edges[k].to] - zone->positions[2 * (size_t)edges[k].from]);
  zone->slabs = whole > 0 ? 1 + (size_t)((double)count * (wide > whole ? whole / wide : 1)) : 1;
  if (!(zone->begins = (size_t*)calloc(zone->slabs + 2, sizeof(size_t)))) return 0;
  size_t* ends = zone->begins + 1; /* each begins as the slab's begin, and is its end when all edges are filed */
  for (size_t k = 0; k < count; k++) {
    s2u_join_slabs_of(zone, &edges[k], &first, &last);
    for (size_t slab = first; slab <= last; slab++) ends[slab + 1]++;
  }
  for (size_t slab = 1; slab <= zone->slabs; slab++) ends[slab] += ends[slab - 1];
  zone->edges = (s2u_join_edge*)malloc((ends[zone->slabs] + 1) * sizeof(s2u_join_edge));
  for (size_t k = 0; zone->edges && k < count; k++) {
    s2u_join_slabs_of(zone, &edges[k], &first, &last);
    for (size_t slab = first; slab <= last; slab++) zone->edges[ends[slab]++] = edges[k];
  }
  return zone->edges != NULL;
}

static inline void s2u_join_close(s2u_join_zone* zone) {
  free(zone->positions);
  free(zone->edges);
  free(zone->begins);
  zone->positions = NULL, zone->edges = NULL, zone->begins = NULL;
}

/* Frees the bytes of a zone that are its own. */
static inline void s2u_join_let_go(s2u_join_zone* zone) {
  if (zone->is_copy) free(zone->bytes.at);
  zone->bytes.at = NULL, zone->bytes.size = 0, zone->is_copy = 0;
}

/* Reads a zone and files its edges; a zone that has been read before has S2U_OK. */
static inline int32_t s2u_join_open(s2u_join_zone* zone) {
  s2u_cover_reader reader;
  s2u_cover_shape shape;
  s2u_cover_fault fault;
  if (zone->positions) return S2U_OK;
  if (S2U_IS_CANCELLED()) return S2U_MEMORY;
  int32_t status = s2u_cover_open_wkb(zone->bytes.at, zone->bytes.size, &reader, &shape, &fault);
  size_t positions = reader.positions.count;
  s2u_join_edge* edges = status == S2U_OK ? (s2u_join_edge*)malloc((positions + 1) * sizeof(s2u_join_edge)) : NULL;
  s2u_join_zone filed = *zone; /* what the zone becomes when all of it is there */
  if (edges) {
    filed.positions = (double*)(void*)reader.positions.at, reader.positions.at = NULL;
    if (s2u_join_file(&filed, edges, s2u_join_edges_of(&shape, edges))) *zone = filed;
    else s2u_join_close(&filed);
  }
  free(edges);
  s2u_cover_close(&reader);
  if (zone->positions) s2u_join_let_go(zone);
  return status != S2U_OK || zone->positions ? status : S2U_MEMORY;
}

/* Whether a zone whose edges are filed has a place, on any turn of the map. A place on an edge is in the zone, or with
 * `borders` 0 in none of the polygons that have the edge. */
static inline int s2u_join_zone_has(const s2u_join_zone* zone, double x, double y, int borders) {
  const s2u_join_edge *at[S2U_JOIN_TURNS], *end[S2U_JOIN_TURNS];
  double here[S2U_JOIN_TURNS];
  int turns = 0;
  for (double turn = ceil((zone->box.west - x) / 360); turns < S2U_JOIN_TURNS && x + 360 * turn <= zone->box.east;
       turn++) {
    here[turns] = x + 360 * turn;
    if (here[turns] < zone->box.west) continue;
    size_t slab = s2u_join_slab(zone, here[turns]);
    at[turns] = zone->edges + zone->begins[slab];
    end[turns++] = zone->edges + zone->begins[slab + 1];
  }
  for (;;) {
    uint32_t part = UINT32_MAX;
    int is_odd = 0, is_on = 0;
    for (int k = 0; k < turns; k++)
      if (at[k] < end[k] && at[k]->part < part) part = at[k]->part;
    if (part == UINT32_MAX) return 0;
    for (int k = 0; k < turns; k++)
      for (; at[k] < end[k] && at[k]->part == part; at[k]++)
        is_on |= s2u_join_meets(zone->positions + 2 * (size_t)at[k]->from, zone->positions + 2 * (size_t)at[k]->to,
                                here[k], y, &is_odd);
    if (is_on ? borders : is_odd && !(part & 1)) return 1;
  }
}

/* ---- the tree */

/* The leaf of a place, and its number among others. */
typedef struct s2u_join_leaf {
  uint64_t leaf;
  size_t number;
} s2u_join_leaf;

static inline int s2u_join_by_leaf(const void* a, const void* b) {
  uint64_t x = ((const s2u_join_leaf*)a)->leaf, y = ((const s2u_join_leaf*)b)->leaf;
  return (x > y) - (x < y);
}

/* No zones. */
static inline s2u_join_zones s2u_join_none(void) {
  s2u_join_zones it;
  memset(&it, 0, sizeof it);
  it.zones = s2u_cover_list_of(sizeof(s2u_join_zone));
  it.order = s2u_cover_list_of(sizeof(size_t)), it.boxes = s2u_cover_list_of(sizeof(s2u_cover_bounds));
  return it;
}

static inline void s2u_join_free(s2u_join_zones* it) {
  for (size_t zone = 0; zone < it->zones.count; zone++) {
    s2u_join_close(s2u_join_zone_at(it, zone));
    s2u_join_let_go(s2u_join_zone_at(it, zone));
  }
  free(it->zones.at);
  free(it->order.at);
  free(it->boxes.at);
  *it = s2u_join_none();
}

/* Orders the zones that have positions by the leaves of their boxes' middles. Whether there is memory. */
static inline int s2u_join_order(s2u_join_zones* it) {
  s2u_cover_list middles = s2u_cover_list_of(sizeof(s2u_join_leaf));
  int is_fine = 1;
  it->order.count = 0;
  for (size_t zone = 0; is_fine && zone < it->zones.count; zone++) {
    const s2u_cover_bounds* box = &s2u_join_zone_at(it, zone)->box;
    if (!(box->west <= box->east)) continue;
    s2u_join_leaf* middle = (s2u_join_leaf*)s2u_cover_add(&middles);
    if (!(is_fine = middle != NULL)) break;
    middle->leaf = s2u_geo_leaf((box->west + box->east) / 2, (box->south + box->north) / 2);
    middle->number = zone;
  }
  const s2u_join_leaf* at = (const s2u_join_leaf*)(void*)middles.at;
  if (is_fine && middles.count) qsort(middles.at, middles.count, sizeof(s2u_join_leaf), s2u_join_by_leaf);
  for (size_t k = 0; is_fine && k < middles.count; k++) {
    size_t* zone = (size_t*)s2u_cover_add(&it->order);
    if ((is_fine = zone != NULL)) *zone = at[k].number;
  }
  free(middles.at);
  return is_fine;
}

static inline const s2u_cover_bounds* s2u_join_box(const s2u_join_zones* it, size_t place) {
  return (const s2u_cover_bounds*)(const void*)it->boxes.at + place;
}

/* Makes the boxes, level by level. Whether there is memory. */
static inline int s2u_join_pile(s2u_join_zones* it) {
  size_t below = 0, count = it->order.count, levels = 1;
  it->boxes.count = 0;
  for (size_t k = 0; k < count; k++) {
    s2u_cover_bounds* box = (s2u_cover_bounds*)s2u_cover_add(&it->boxes);
    if (!box) return 0;
    *box = s2u_join_zone_at(it, ((const size_t*)(const void*)it->order.at)[k])->box;
  }
  for (; it->begins[levels] = it->boxes.count, count > 1; levels++) {
    for (size_t k = 0; k < count; k++) {
      const s2u_cover_bounds low = *s2u_join_box(it, below + k);
      if (k % S2U_JOIN_FAN == 0) {
        s2u_cover_bounds* box = (s2u_cover_bounds*)s2u_cover_add(&it->boxes);
        if (!box) return 0;
        *box = low;
      }
      s2u_cover_bounds* box = (s2u_cover_bounds*)(void*)it->boxes.at + it->boxes.count - 1;
      if (low.west < box->west) box->west = low.west;
      if (low.east > box->east) box->east = low.east;
      if (low.south < box->south) box->south = low.south;
      if (low.north > box->north) box->north = low.north;
    }
    below = it->begins[levels];
    count = it->boxes.count - below;
  }
  it->levels = levels;
  return 1;
}

/* Makes the boxes of zones, if that wasn't done since the last one was added. Whether there is memory. */
static inline int s2u_join_make_boxes(s2u_join_zones* it) {
  return it->levels > 0 || (s2u_join_order(it) && s2u_join_pile(it));
}

/* Adds a zone of bytes that stay, or that are a copy and the zone's from now on. After an error they stay the
 * caller's, and there is no zone more. */
static inline int32_t s2u_join_add_bytes(s2u_join_zones* it, s2u_join_bytes bytes, int is_copy,
                                         s2u_cover_fault* fault) {
  s2u_cover_reader reader;
  s2u_cover_shape shape;
  int32_t status = s2u_cover_open_wkb(bytes.at, bytes.size, &reader, &shape, fault);
  if (status == S2U_OK) status = s2u_cover_check(&shape, fault);
  if (status == S2U_OK && (reader.positions.count > UINT32_MAX / 2 || S2U_IS_CANCELLED())) status = S2U_MEMORY;
  s2u_join_zone* zone = status == S2U_OK ? (s2u_join_zone*)s2u_cover_add(&it->zones) : NULL;
  if (zone) {
    memset(zone, 0, sizeof *zone);
    zone->bytes = bytes, zone->is_copy = is_copy, zone->box = s2u_join_bounds(&shape);
    it->levels = 0;
  }
  s2u_cover_close(&reader);
  return status != S2U_OK || zone ? status : S2U_MEMORY;
}

/* Adds a zone for s2u_join_pairs_of: a copy of a shape in WKB, whose number is how many zones there were. The first is
 * added to s2u_join_none(), and s2u_join_free frees them all. The errors are those of s2u_join_covers; then the zones
 * are as they were. */
static inline int32_t s2u_join_add_wkb(s2u_join_zones* it, const uint8_t* bytes, size_t size, s2u_cover_fault* fault) {
  s2u_join_bytes copy = {(uint8_t*)malloc(size + 1), size};
  memset(fault, 0, sizeof *fault);
  if (!copy.at) return S2U_MEMORY;
  if (size > 0) memcpy(copy.at, bytes, size);
  int32_t status = s2u_join_add_bytes(it, copy, 1, fault);
  if (status != S2U_OK) free(copy.at);
  return status;
}

/* The same of polygons and lines, of which nothing is needed later. The errors are those of s2u_cover, but edges may
 * have any length. */
static inline int32_t s2u_join_add_shape(s2u_join_zones* it, const s2u_cover_shape* shape, s2u_cover_fault* fault) {
  s2u_join_bytes bytes = {NULL, 0};
  memset(fault, 0, sizeof *fault);
  int32_t status = s2u_cover_check(shape, fault);
  if (status != S2U_OK) return status;
  if (shape->count > 0 && shape->rings[shape->count - 1].end > UINT32_MAX / 2) return S2U_MEMORY;
  s2u_join_put_shape(&bytes, shape);
  bytes.at = (uint8_t*)malloc(bytes.size);
  if (!bytes.at) return S2U_MEMORY;
  s2u_join_put_shape(&bytes, shape);
  status = s2u_join_add_bytes(it, bytes, 1, fault);
  if (status != S2U_OK) free(bytes.at);
  return status;
}

/* The same of a text of GeoJSON. Its errors are those of reading it too. */
static inline int32_t s2u_join_add_geojson(s2u_join_zones* it, const char* text, size_t size, s2u_cover_fault* fault) {
  s2u_cover_reader reader;
  s2u_cover_shape shape;
  int32_t status = s2u_cover_open(text, size, 1, &reader, &shape, fault);
  if (status == S2U_OK) status = s2u_join_add_shape(it, &shape, fault);
  s2u_cover_close(&reader);
  return status;
}

/* The same of a box, as s2u_cover_box has it. */
static inline int32_t s2u_join_add_box(s2u_join_zones* it, double west, double south, double east, double north,
                                       s2u_cover_fault* fault) {
  double positions[10];
  s2u_cover_ring ring = {5, 0};
  s2u_cover_shape shape = {positions, &ring, 1};
  memset(fault, 0, sizeof *fault);
  int32_t status = s2u_cover_box_ring(west, south, east, north, positions);
  return status != S2U_OK ? status : s2u_join_add_shape(it, &shape, fault);
}

/* Zones for s2u_join_pairs_of, of shapes in WKB. Their bytes must stay as long as the zones. s2u_join_free frees the
 * zones, also after an error: those of s2u_join_covers, about the shape *wrong. */
static inline int32_t s2u_join_zones_of(const s2u_join_bytes* shapes, size_t count, s2u_join_zones* it, size_t* wrong,
                                        s2u_cover_fault* fault) {
  *it = s2u_join_none();
  memset(fault, 0, sizeof *fault);
  for (*wrong = 0; *wrong < count; ++*wrong) {
    int32_t status = s2u_join_add_bytes(it, shapes[*wrong], 0, fault);
    if (status != S2U_OK) return status;
  }
  *wrong = 0;
  return s2u_join_make_boxes(it) ? S2U_OK : S2U_MEMORY;
}

/* A place that is asked about, and where pairs go. */
typedef struct s2u_join_asked {
  double x, y;
  int borders;
  uint64_t point;
  s2u_cover_list* pairs;
} s2u_join_asked;

/* Adds the pairs of zones in a box of the tree, on a turn of the map. */
static inline int32_t s2u_join_look(s2u_join_zones* it, size_t level, size_t place, double turned,
                                    const s2u_join_asked* asked) {
  const s2u_cover_bounds* box = s2u_join_box(it, it->begins[level] + place);
  if (turned < box->west || turned > box->east || asked->y < box->south || asked->y > box->north) return S2U_OK;
  if (level > 0) {
    size_t count = it->begins[level] - it->begins[level - 1], begin = place * S2U_JOIN_FAN;
    int32_t status = S2U_OK;
    for (size_t k = begin; status == S2U_OK && k < begin + S2U_JOIN_FAN && k < count; k++)
      status = s2u_join_look(it, level - 1, k, turned, asked);
    return status;
  }
  size_t number = ((const size_t*)(const void*)it->order.at)[place];
  s2u_join_zone* zone = s2u_join_zone_at(it, number);
  int32_t status = s2u_join_open(zone);
  if (status != S2U_OK || !s2u_join_zone_has(zone, asked->x, asked->y, asked->borders)) return status;
  s2u_join_pair* pair = (s2u_join_pair*)s2u_cover_add(asked->pairs);
  if (!pair) return S2U_MEMORY;
  pair->point = asked->point, pair->zone = number;
  return S2U_OK;
}

static inline int s2u_join_by_zone(const void* a, const void* b) {
  uint64_t x = ((const s2u_join_pair*)a)->zone, y = ((const s2u_join_pair*)b)->zone;
  return (x > y) - (x < y);
}

/* Brings the last pairs, of one point, to the order of zones, each once. */
static inline void s2u_join_sort(s2u_cover_list* pairs, size_t begin) {
  s2u_join_pair* at = (s2u_join_pair*)(void*)pairs->at;
  size_t kept = begin + 1;
  if (pairs->count - begin < 2) return;
  qsort(at + begin, pairs->count - begin, sizeof(s2u_join_pair), s2u_join_by_zone);
  for (size_t k = kept; k < pairs->count; k++)
    if (at[k].zone != at[kept - 1].zone) at[kept++] = at[k];
  pairs->count = kept;
}

/* Adds the pairs of a place. */
static inline int32_t s2u_join_ask(s2u_join_zones* it, const s2u_join_asked* asked) {
  size_t begin = asked->pairs->count;
  const s2u_cover_bounds* all = s2u_join_box(it, it->boxes.count - 1);
  for (double turn = ceil((all->west - asked->x) / 360); asked->x + 360 * turn <= all->east; turn++) {
    int32_t status = s2u_join_look(it, it->levels - 1, 0, asked->x + 360 * turn, asked);
    if (status != S2U_OK) return status;
  }
  s2u_join_sort(asked->pairs, begin);
  return S2U_OK;
}

/* Brings pairs, which stand point by point, to the order of points. Whether there is memory. */
static inline int s2u_join_arrange(s2u_cover_list* pairs, size_t points) {
  const s2u_join_pair* at = (const s2u_join_pair*)(void*)pairs->at;
  s2u_join_pair* to = (s2u_join_pair*)malloc((pairs->count + 1) * sizeof(s2u_join_pair));
  size_t* begins = (size_t*)calloc(points + 1, sizeof(size_t)); /* of the pairs of each point */
  int is_fine = to && begins;
  for (size_t k = 0; is_fine && k < pairs->count; k++) begins[at[k].point + 1]++;
  for (size_t point = 0; is_fine && point < points; point++) begins[point + 1] += begins[point];
  for (size_t k = 0; is_fine && k < pairs->count; k++) to[begins[at[k].point]++] = at[k];
  free(begins);
  free(is_fine ? pairs->at : (char*)(void*)to);
  if (is_fine) pairs->at = (char*)(void*)to;
  return is_fine;
}

/* An exact join: the pairs of a place and a zone that has it, in the order of places, and of zones for each. With
 * `borders` a place on an edge is in the zone, as for s2u_join_covers; without, it is in none of the polygons that have
 * the edge, and no line has a place. The caller frees pairs->at, also after an error: S2U_MEMORY, and S2U_ARGUMENT if
 * the place with the number *wrong is beyond -540 to 540 and -90 to 90 degrees. One thread at a time may ask the same
 * zones. Places are asked in the order of their leaves, which have the same memory in turn. A place takes a step for
 * each zone in whose box it lies, and for each edge there at its longitude. */
static inline int32_t s2u_join_pairs_of(s2u_join_zones* zones, const double* longitudes, const double* latitudes,
                                        size_t count, int borders, s2u_cover_list* pairs, size_t* wrong) {
  s2u_join_asked asked = {0, 0, 0, 0, NULL};
  int32_t status = S2U_OK;
  asked.borders = borders, asked.pairs = pairs;
  *pairs = s2u_cover_list_of(sizeof(s2u_join_pair));
  for (*wrong = 0; *wrong < count; ++*wrong) {
    const double place[2] = {longitudes[*wrong], latitudes[*wrong]};
    if (!s2u_cover_is_place(place)) return S2U_ARGUMENT;
  }
  if (!s2u_join_make_boxes(zones)) return S2U_MEMORY;
  if (zones->boxes.count == 0 || count == 0) return S2U_OK;
  s2u_join_leaf* leaves = count <= SIZE_MAX / sizeof(s2u_join_leaf)
                              ? (s2u_join_leaf*)malloc(count * sizeof(s2u_join_leaf)) : NULL;
  if (!leaves) return S2U_MEMORY;
  for (size_t k = 0; k < count; k++) leaves[k].leaf = s2u_geo_leaf(longitudes[k], latitudes[k]), leaves[k].number = k;
  qsort(leaves, count, sizeof(s2u_join_leaf), s2u_join_by_leaf);
  for (size_t k = 0; status == S2U_OK && k < count; k++) {
    size_t number = leaves[k].number;
    asked.x = longitudes[number], asked.y = latitudes[number], asked.point = number;
    status = S2U_IS_CANCELLED() ? S2U_MEMORY : s2u_join_ask(zones, &asked);
  }
  free(leaves);
  return status != S2U_OK || s2u_join_arrange(pairs, count) ? status : S2U_MEMORY;
}

#endif
