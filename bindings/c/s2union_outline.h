/* The outline of a union on a map: polygons without the borders between its cells, and the lines round it. All of it is
 * in this header, in whole numbers of a cube until the last step, to degrees, and needs the library for squares of
 * cells, malloc and -lm. It is tested beside S2 and GEOS, not proved. The longitude comes first. */
#ifndef S2UNION_OUTLINE_H
#define S2UNION_OUTLINE_H

#include <stdbool.h>
#include <stdlib.h>
#include <string.h>
#include "s2union_geo.h"

/* Rings on a map: the longitude and the latitude of each position in turn, how many positions there are up to the end
 * of each ring, and how many rings up to the end of each polygon. Empty at first: all zero. */
typedef struct s2u_geo_rings {
  double* positions;
  size_t* ring_ends;
  size_t* polygon_ends;
  size_t rings, polygons;
} s2u_geo_rings;

static inline void s2u_geo_free(s2u_geo_rings* rings) {
  free(rings->positions), free(rings->ring_ends), free(rings->polygon_ends);
  memset(rings, 0, sizeof *rings);
}

/* A corner on a cube from -2^30 to 2^30, where those of two faces are the same. On a map that is cut at the date line,
 * a corner there is two, at 2 and -2 right angles east, and a pole is one for each meridian from it, -2 to 2. */
typedef struct s2u_geo_corner {
  int32_t x, y, z, turn;
} s2u_geo_corner;

/* Where a side of a square begins or ends on its line, which goes along an axis: the side has its cell on the left, and
 * goes with the axis or against it. */
typedef struct s2u_geo_mark {
  int32_t axis, turn, line[2], at;
  bool is_end, is_against;
  size_t cell;
} s2u_geo_mark;

/* A part of the border of a union, with the cell on its left; `vertex` is that of its end. */
typedef struct s2u_geo_part {
  s2u_geo_corner from, to;
  size_t cell, vertex;
  bool is_used;
} s2u_geo_part;

typedef struct s2u_geo_loop {
  size_t polygon, begin, length; /* of positions */
  double twice_area;             /* on the map: negative for a hole */
} s2u_geo_loop;

/* Lists that grow, and the rest of what the walk needs. */
typedef struct s2u_geo_outliner {
  bool is_map, is_full;
  double most; /* square of the longest part, in radians of longitude and latitude */
  s2u_geo_mark* marks;
  size_t marks_len, squares;
  size_t* roots; /* of each square: one that its polygon has too, a lesser one or itself */
  s2u_geo_part* parts;
  size_t parts_len, parts_room;
  size_t* path;   /* the parts that were gone along and are in no loop yet */
  size_t* places; /* of each vertex: where the path has it, plus 1 */
  s2u_geo_loop* loops;
  size_t loops_len, loops_room;
  double* positions;
  size_t positions_len, positions_room; /* numbers, two a position */
} s2u_geo_outliner;

/* Room for one more item in a list, or false: also if the call is cancelled. */
static inline bool s2u_geo_grown(void** list, size_t length, size_t* room, size_t item) {
  if (S2U_IS_CANCELLED()) return false;
  if (length < *room) return true;
  size_t more = *room ? *room * 2 : 64;
  void* grown = more <= SIZE_MAX / item ? realloc(*list, more * item) : NULL;
  if (grown) *list = grown, *room = more;
  return grown != NULL;
}

static inline int s2u_geo_order(int64_t a, int64_t b) { return (a > b) - (a < b); }

static inline s2u_geo_corner s2u_geo_corner_of(uint32_t face, int64_t i, int64_t j) {
  int32_t a = (int32_t)(2 * i - S2U_GEO_SIDE), b = (int32_t)(2 * j - S2U_GEO_SIDE), w = S2U_GEO_SIDE;
  const s2u_geo_corner corners[6] = {{w, a, b, 0},   {-a, w, b, 0}, {-a, -b, w, 0},
                                     {-w, -b, -a, 0}, {b, -w, -a, 0}, {b, a, -w, 0}};
  return corners[face];
}

static inline bool s2u_geo_is_pole(s2u_geo_corner c) { return c.x == 0 && c.y == 0; }

static inline bool s2u_geo_is_on_date_line(s2u_geo_corner c) { return c.y == 0 && c.x < 0; }

static inline double s2u_geo_on_cube(int32_t at) {
  return s2u_geo_uv_of(((double)at + S2U_GEO_SIDE) / 2);
}

static inline void s2u_geo_degrees(s2u_geo_corner c, double* place) {
  double x = s2u_geo_on_cube(c.x), y = s2u_geo_on_cube(c.y), z = s2u_geo_on_cube(c.z);
  place[0] = c.turn ? c.turn * 90.0 : atan2(y + 0.0, x + 0.0) * (180 / S2U_GEO_PI);
  place[1] = atan2(z, sqrt(x * x + y * y)) * (180 / S2U_GEO_PI);
}

/* ---- the border, part by part */

static inline int s2u_geo_compare_marks(const void* left, const void* right) {
  const s2u_geo_mark *a = (const s2u_geo_mark*)left, *b = (const s2u_geo_mark*)right;
  if (S2U_IS_CANCELLED()) return 0; /* so a sort ends soon, in any order */
  int order = s2u_geo_order(a->axis, b->axis);
  if (!order) order = s2u_geo_order(a->line[0], b->line[0]);
  if (!order) order = s2u_geo_order(a->line[1], b->line[1]);
  if (!order) order = s2u_geo_order(a->turn, b->turn);
  if (!order) order = s2u_geo_order(a->at, b->at);
  return order ? order : s2u_geo_order(b->is_end, a->is_end);
}

static inline void s2u_geo_put_side(s2u_geo_outliner* o, s2u_geo_corner from, s2u_geo_corner to, int32_t turn) {
  const int32_t a[3] = {from.x, from.y, from.z}, b[3] = {to.x, to.y, to.z};
  int32_t axis = a[0] != b[0] ? 0 : a[1] != b[1] ? 1 : 2;
  s2u_geo_mark mark;
  memset(&mark, 0, sizeof mark);
  mark.axis = axis, mark.turn = turn, mark.cell = o->squares;
  mark.line[0] = a[axis == 0 ? 1 : 0], mark.line[1] = a[axis == 2 ? 1 : 2];
  mark.is_against = b[axis] < a[axis];
  for (int k = 0; k < 2; k++) {
    mark.is_end = k;
    mark.at = (k != mark.is_against) ? b[axis] : a[axis];
    o->marks[o->marks_len++] = mark;
  }
}

static inline void s2u_geo_put_square(s2u_geo_outliner* o, uint32_t face, int64_t i, int64_t j, int64_t size) {
  s2u_geo_corner corners[4] = {s2u_geo_corner_of(face, i, j), s2u_geo_corner_of(face, i + size, j),
                               s2u_geo_corner_of(face, i + size, j + size), s2u_geo_corner_of(face, i, j + size)};
  int64_t y = 0;
  for (int k = 0; k < 4; k++) y += corners[k].y;
  for (int k = 0; k < 4; k++) {
    s2u_geo_corner from = corners[k], to = corners[(k + 1) % 4];
    bool is_cut = o->is_map && from.y == 0 && to.y == 0 && from.x <= 0 && to.x <= 0;
    s2u_geo_put_side(o, from, to, is_cut ? (y > 0 ? 2 : -2) : 0);
  }
  o->roots[o->squares] = o->squares;
  o->squares++;
}

static inline size_t s2u_geo_root(size_t* roots, size_t cell) {
  while (roots[cell] != cell) cell = roots[cell] = roots[roots[cell]];
  return cell;
}

static inline void s2u_geo_join(size_t* roots, size_t a, size_t b) {
  a = s2u_geo_root(roots, a), b = s2u_geo_root(roots, b);
  if (a < b) roots[b] = a;
  else roots[a] = b;
}

static inline s2u_geo_corner s2u_geo_on_line(const s2u_geo_mark* mark, int32_t at) {
  const int32_t* l = mark->line;
  s2u_geo_corner on[3] = {{at, l[0], l[1], 0}, {l[0], at, l[1], 0}, {l[0], l[1], at, 0}};
  return on[mark->axis];
}

/* Whether a part is short enough for its line on the map to be nowhere far from the side itself. */
static inline bool s2u_geo_is_short(const s2u_geo_outliner* o, s2u_geo_corner from, s2u_geo_corner to) {
  double a[2], b[2];
  s2u_geo_degrees(from, a), s2u_geo_degrees(to, b);
  bool is_along_meridian = s2u_geo_is_pole(from) || s2u_geo_is_pole(to);
  double width = is_along_meridian ? 0 : fabs(a[0] - b[0]), height = a[1] - b[1];
  if (width > 180) width = 360 - width;
  return (width * width + height * height) * (S2U_GEO_PI / 180) * (S2U_GEO_PI / 180) <= o->most;
}

/* The place between two that is a multiple of the greatest power of two. */
static inline int32_t s2u_geo_between(int32_t from, int32_t to) {
  int64_t a = (int64_t)from + S2U_GEO_SIDE, b = (int64_t)to + S2U_GEO_SIDE, step = (int64_t)1 << 31;
  while (step > 1 && (a / step + 1) * step >= b) step /= 2;
  return (int32_t)((a / step + 1) * step - S2U_GEO_SIDE);
}

/* At which meridian an end of a part lies, in right angles east, if it is a pole or on the date line; else 0. */
static inline int32_t s2u_geo_turn_of(const s2u_geo_mark* on, s2u_geo_corner end, s2u_geo_corner other) {
  int32_t east = s2u_geo_order(other.y, 0);
  if (s2u_geo_is_pole(end)) return on->turn ? on->turn : east;
  return !s2u_geo_is_on_date_line(end) ? 0 : on->turn ? on->turn : 2 * east;
}

static inline bool s2u_geo_put_part(s2u_geo_outliner* o, const s2u_geo_mark* on, int32_t from, int32_t to,
                                    bool is_against, size_t cell) {
  s2u_geo_part part;
  memset(&part, 0, sizeof part);
  part.from = s2u_geo_on_line(on, is_against ? to : from), part.to = s2u_geo_on_line(on, is_against ? from : to);
  if (o->is_map) {
    part.from.turn = s2u_geo_turn_of(on, part.from, part.to);
    part.to.turn = s2u_geo_turn_of(on, part.to, part.from);
    if (to - from > 2 && !s2u_geo_is_short(o, part.from, part.to)) {
      int32_t middle = s2u_geo_between(from, to);
      return s2u_geo_put_part(o, on, from, middle, is_against, cell) &&
             s2u_geo_put_part(o, on, middle, to, is_against, cell);
    }
  }
  part.cell = cell;
  if (!s2u_geo_grown((void**)&o->parts, o->parts_len, &o->parts_room, sizeof part)) return false;
  o->parts[o->parts_len++] = part;
  return true;
}

/* The parts of sides that one cell alone has. Two cells with a part in common are of one polygon. */
static inline bool s2u_geo_put_parts(s2u_geo_outliner* o) {
  const size_t none = SIZE_MAX;
  size_t sides[2] = {none, none};
  if (o->marks_len) qsort(o->marks, o->marks_len, sizeof *o->marks, s2u_geo_compare_marks);
  for (size_t k = 0; k < o->marks_len; k++) {
    if (S2U_IS_CANCELLED()) return false;
    const s2u_geo_mark* mark = &o->marks[k];
    if (k && mark->at != mark[-1].at) {
      if (sides[0] != none && sides[1] != none) s2u_geo_join(o->roots, sides[0], sides[1]);
      else if (sides[0] != none || sides[1] != none) {
        bool is_against = sides[0] == none;
        if (!s2u_geo_put_part(o, mark, mark[-1].at, mark->at, is_against, sides[is_against])) return false;
      }
    }
    sides[mark->is_against] = mark->is_end ? none : mark->cell;
  }
  return true;
}

/* ---- the parts, one after the other */

static inline int s2u_geo_compare_corners(const s2u_geo_corner* a, const s2u_geo_corner* b) {
  int order = s2u_geo_order(a->x, b->x);
  if (!order) order = s2u_geo_order(a->y, b->y);
  if (!order) order = s2u_geo_order(a->z, b->z);
  return order ? order : s2u_geo_order(a->turn, b->turn);
}

static inline int s2u_geo_compare_parts(const void* left, const void* right) {
  const s2u_geo_part *a = (const s2u_geo_part*)left, *b = (const s2u_geo_part*)right;
  if (S2U_IS_CANCELLED()) return 0;
  int order = s2u_geo_compare_corners(&a->from, &b->from);
  return order ? order : s2u_geo_compare_corners(&a->to, &b->to);
}

/* How far to the left a part turns from the one before it; back the same way is the last. */
static inline int64_t s2u_geo_leftness(const s2u_geo_part* before, const s2u_geo_part* after) {
  int64_t d[3] = {before->to.x - (int64_t)before->from.x, before->to.y - (int64_t)before->from.y,
                  before->to.z - (int64_t)before->from.z};
  int64_t e[3] = {after->to.x - (int64_t)after->from.x, after->to.y - (int64_t)after->from.y,
                  after->to.z - (int64_t)after->from.z};
  for (int k = 0; k < 3; k++) d[k] = s2u_geo_order(d[k], 0), e[k] = s2u_geo_order(e[k], 0);
  if (d[0] == -e[0] && d[1] == -e[1] && d[2] == -e[2]) return INT64_MIN;
  return (d[1] * e[2] - d[2] * e[1]) * before->to.x + (d[2] * e[0] - d[0] * e[2]) * before->to.y +
         (d[0] * e[1] - d[1] * e[0]) * before->to.z;
}

/* The first of the parts that begin at this corner, or the number of all parts. */
static inline size_t s2u_geo_vertex(const s2u_geo_outliner* o, const s2u_geo_corner* corner) {
  size_t low = 0, high = o->parts_len;
  while (low < high) {
    size_t middle = low + (high - low) / 2;
    if (s2u_geo_compare_corners(&o->parts[middle].from, corner) < 0) low = middle + 1;
    else high = middle;
  }
  return low;
}

/* The vertex at which a part ends. On a map a pole is its edge: from where one gets to it, one goes along the edge,
 * with the union on the left, to the meridian where it ends. */
static inline size_t s2u_geo_end(const s2u_geo_outliner* o, s2u_geo_corner end) {
  if (!o->is_map || !s2u_geo_is_pole(end)) return s2u_geo_vertex(o, &end);
  for (int32_t step = end.z > 0 ? -1 : 1; -2 <= end.turn && end.turn <= 2; end.turn += step) {
    size_t found = s2u_geo_vertex(o, &end);
    if (found < o->parts_len && !s2u_geo_compare_corners(&o->parts[found].from, &end)) return found;
  }
  return o->parts_len;
}

/* The part that goes on from a vertex, with the same cell on its left if there are two; the number of all if none is
 * left. */
static inline size_t s2u_geo_next(const s2u_geo_outliner* o, size_t vertex, const s2u_geo_part* before) {
  size_t found = o->parts_len;
  int64_t best = 0;
  for (size_t k = vertex; k < o->parts_len; k++) {
    const s2u_geo_part* part = &o->parts[k];
    if (k > vertex && s2u_geo_compare_corners(&part->from, &o->parts[vertex].from)) break;
    if (part->is_used) continue;
    int64_t left = before ? s2u_geo_leftness(before, part) : 0;
    if (found == o->parts_len || left > best) found = k, best = left;
  }
  return found;
}

static inline bool s2u_geo_put_position(s2u_geo_outliner* o, double longitude, double latitude) {
  if (!s2u_geo_grown((void**)&o->positions, o->positions_len + 1, &o->positions_room, sizeof(double))) return false;
  o->positions[o->positions_len++] = longitude;
  o->positions[o->positions_len++] = latitude;
  return true;
}

/* Puts a position of a loop. A boundary goes on by the shorter way from the one before. */
static inline bool s2u_geo_put_next(s2u_geo_outliner* o, s2u_geo_loop* loop, double longitude, double latitude) {
  size_t n = o->positions_len;
  bool is_first = !loop->length++;
  if (!o->is_map && !is_first) longitude += 360 * nearbyint((o->positions[n - 2] - longitude) / 360);
  if (!is_first) { /* from the first position: that of leaves is lost in the squares of their places */
    const double *first = o->positions + 2 * loop->begin, *last = o->positions + n - 2;
    loop->twice_area += (last[0] - first[0]) * (latitude - first[1]) - (longitude - first[0]) * (last[1] - first[1]);
  }
  return s2u_geo_put_position(o, longitude, latitude);
}

/* Puts a closed line of parts. A pole has every longitude: that of the way to it, and that of the way from it. */
static inline bool s2u_geo_put_loop(s2u_geo_outliner* o, const size_t* path, size_t length) {
  s2u_geo_loop loop = {s2u_geo_root(o->roots, o->parts[path[0]].cell), o->positions_len / 2, 0, 0};
  for (size_t k = 0; k <= length; k++) {
    const s2u_geo_part *part = &o->parts[path[k % length]], *last = &o->parts[path[(k + length - 1) % length]];
    double place[2], come[2], left[2];
    s2u_geo_degrees(part->from, place);
    if (s2u_geo_is_pole(part->from)) {
      s2u_geo_degrees(o->is_map ? last->to : last->from, come);
      s2u_geo_degrees(o->is_map ? part->from : part->to, left);
      if (!s2u_geo_put_next(o, &loop, come[0], place[1])) return false;
      place[0] = left[0];
      if (k == length) break;
    }
    if (!s2u_geo_put_next(o, &loop, place[0], place[1])) return false;
  }
  if (!s2u_geo_grown((void**)&o->loops, o->loops_len, &o->loops_room, sizeof loop)) return false;
  o->loops[o->loops_len++] = loop;
  return true;
}

/* Goes from a vertex along parts that aren't used, as far as there are any, and puts the closed lines on the way, none
 * of which has a corner twice. */
static inline bool s2u_geo_put_loops_from(s2u_geo_outliner* o, size_t vertex) {
  for (size_t length = 0;;) {
    size_t next = s2u_geo_next(o, vertex, length ? &o->parts[o->path[length - 1]] : NULL);
    if (next == o->parts_len) return true;
    o->parts[next].is_used = true;
    o->places[vertex] = length + 1;
    o->path[length++] = next;
    vertex = o->parts[next].vertex;
    if (!o->places[vertex]) continue;
    size_t begin = o->places[vertex] - 1;
    if (!s2u_geo_put_loop(o, o->path + begin, length - begin)) return false;
    for (; length > begin; length--) o->places[s2u_geo_vertex(o, &o->parts[o->path[length - 1]].from)] = 0;
  }
}

static inline bool s2u_geo_put_loops(s2u_geo_outliner* o) {
  if (o->parts_len) qsort(o->parts, o->parts_len, sizeof *o->parts, s2u_geo_compare_parts);
  for (size_t k = 0; k < o->parts_len && !S2U_IS_CANCELLED(); k++) o->parts[k].vertex = s2u_geo_end(o, o->parts[k].to);
  o->path = (size_t*)calloc(o->parts_len + 1, sizeof *o->path);
  o->places = (size_t*)calloc(o->parts_len + 1, sizeof *o->places);
  if (!o->path || !o->places || S2U_IS_CANCELLED()) return false;
  for (size_t k = 0; k < o->parts_len; k++)
    if (!s2u_geo_put_loops_from(o, s2u_geo_vertex(o, &o->parts[k].from))) return false;
  return true;
}

static inline int s2u_geo_compare_loops(const void* left, const void* right) {
  const s2u_geo_loop *a = (const s2u_geo_loop*)left, *b = (const s2u_geo_loop*)right;
  if (a->polygon != b->polygon) return a->polygon < b->polygon ? -1 : 1;
  if ((a->twice_area < 0) != (b->twice_area < 0)) return a->twice_area < 0 ? 1 : -1;
  return a->begin < b->begin ? -1 : a->begin > b->begin;
}

/* ---- the calls */

static inline bool s2u_geo_put_rings(s2u_geo_outliner* o, s2u_geo_rings* rings) {
  if (o->is_map && o->loops_len) qsort(o->loops, o->loops_len, sizeof *o->loops, s2u_geo_compare_loops);
  rings->positions = (double*)malloc((o->positions_len + 1) * sizeof(double));
  rings->ring_ends = (size_t*)malloc((o->loops_len + 1) * sizeof(size_t));
  rings->polygon_ends = (size_t*)malloc((o->loops_len + 1) * sizeof(size_t));
  if (!rings->positions || !rings->ring_ends || !rings->polygon_ends) return false;
  size_t length = 0;
  for (size_t k = 0; k < o->loops_len; k++) {
    const s2u_geo_loop* loop = &o->loops[k];
    memcpy(rings->positions + 2 * length, o->positions + 2 * loop->begin, 2 * loop->length * sizeof(double));
    if (o->is_map && k && loop->polygon != loop[-1].polygon) rings->polygon_ends[rings->polygons++] = k;
    rings->ring_ends[rings->rings++] = length += loop->length;
  }
  if (o->is_map && o->loops_len) rings->polygon_ends[rings->polygons++] = o->loops_len;
  return true;
}

static inline int32_t s2u_geo_put_squares(s2u_geo_outliner* o, const uint64_t* ids, size_t n) {
  int64_t least = S2U_GEO_SIDE;
  double length = 0; /* of all sides, in radians, at most */
  for (size_t k = 0; k < n; k++) {
    s2u_square q;
    int32_t status = s2u_square_of(ids[k], &q);
    if (status != S2U_OK) return status;
    bool is_face = o->is_map && q.size == S2U_GEO_SIDE;
    int64_t size = is_face ? q.size / 2 : q.size;
    for (int child = 0; child < (is_face ? 4 : 1); child++)
      s2u_geo_put_square(o, q.face, q.i + (child & 1) * size, q.j + (child >> 1) * size, size);
    if (size < least) least = size;
    length += (is_face ? 16 : 4) * 1.6 * (double)size / S2U_GEO_SIDE;
  }
  double longest = length / (100000 + 64 * (double)n); /* that many parts are enough */
  o->most = fmax(0.8 * (double)least / S2U_GEO_SIDE, longest * longest);
  return S2U_OK;
}

static inline int32_t s2u_geo_outlined(const uint64_t* ids, size_t n, bool is_map, s2u_geo_rings* rings) {
  s2u_geo_outliner o;
  memset(&o, 0, sizeof o);
  memset(rings, 0, sizeof *rings);
  o.is_map = is_map;
  size_t squares = n + 18; /* a face is four */
  if (!s2u_is_union(ids, n)) return S2U_NO_UNION;
  if (squares > SIZE_MAX / 8 / sizeof *o.marks) return S2U_MEMORY;
  o.marks = (s2u_geo_mark*)malloc(squares * 8 * sizeof *o.marks);
  o.roots = (size_t*)malloc(squares * sizeof *o.roots);
  int32_t status = o.marks && o.roots ? s2u_geo_put_squares(&o, ids, n) : S2U_MEMORY;
  if (status == S2U_OK && !(s2u_geo_put_parts(&o) && s2u_geo_put_loops(&o) && s2u_geo_put_rings(&o, rings)))
    status = S2U_MEMORY;
  free(o.marks), free(o.roots), free(o.parts), free(o.loops), free(o.positions), free(o.path), free(o.places);
  if (status != S2U_OK) s2u_geo_free(rings);
  return status;
}

/* The outline of a union as polygons on a map, in degrees from -180 to 180 and from -90 to 90: for each part that hangs
 * together a ring around it, counterclockwise, and then its holes, clockwise. The date line cuts polygons in two, and
 * one with a pole goes along the map's upper or lower edge. Sides are followed so closely that no two rings cross; by
 * some 100,000 positions and 64 a cell at most, so a leaf beside thousands of large cells may touch their sides.
 * S2U_NO_UNION if the list is not a union, S2U_MEMORY. */
static inline int32_t s2u_geo_outline(const uint64_t* ids, size_t n, s2u_geo_rings* rings) {
  return s2u_geo_outlined(ids, n, true, rings);
}

/* The boundary of a union as closed lines through corners of cells, with the union on their left: those of
 * S2Polygon::InitToCellUnionBorder. A line goes on beyond 180 or -180 degrees, and one around a pole ends 360 degrees
 * from where it begins. There are no polygons. Statuses as those of s2u_geo_outline. */
static inline int32_t s2u_geo_boundary(const uint64_t* ids, size_t n, s2u_geo_rings* rings) {
  return s2u_geo_outlined(ids, n, false, rings);
}

#endif
