/* Points in degrees for s2union.h: the leaf of a place, as S2 has it, the middle and the box of a cell, the cells
 * beside a cell, and the area of cells. All of it is in this header, in plain floating point or whole numbers, and
 * needs the library for cells and -lm. It is tested beside S2, not proved. The longitude comes first. */
#ifndef S2UNION_GEO_H
#define S2UNION_GEO_H

#include <math.h>
#include "s2union.h"

/* Long calls of s2union_cover.h and s2union_outline.h can be cancelled: define S2U_IS_CANCELLED() before the headers.
 * It is asked again and again, says whether the call is to end, and stays true until the call has ended. The call then
 * ends with S2U_MEMORY, and nothing is lost; its caller knows that it isn't memory that is missing. The library's own
 * calls end if they are given no memory: s2union_host.h says how. */
#ifndef S2U_IS_CANCELLED
#define S2U_IS_CANCELLED() 0
#endif

#define S2U_GEO_MOST_LONGITUDE 540.0 /* data go from -180 to 180 or from 0 to 360, and rings on over the date line */
#define S2U_GEO_MOST_LATITUDE 90.0
#define S2U_GEO_SIDE 1073741824 /* of a face, in leaves */
#define S2U_GEO_PI 3.14159265358979323846

/* How many leaves lie before the place u, from -1 to 1, of a face. */
static inline uint32_t s2u_geo_place_on_face(double u) {
  double s = u >= 0 ? 0.5 * sqrt(1 + 3 * u) : 1 - 0.5 * sqrt(1 - 3 * u);
  double place = nearbyint(S2U_GEO_SIDE * s - 0.5);
  if (!isfinite(place) || place <= 0) return 0;
  return place < S2U_GEO_SIDE - 1 ? (uint32_t)place : S2U_GEO_SIDE - 1;
}

static inline uint64_t s2u_geo_leaf_of(uint32_t face, double u, double v) {
  return s2u_from_face_ij(face, s2u_geo_place_on_face(u), s2u_geo_place_on_face(v));
}

/* The leaf at a place in degrees, from -540 to 540 and from -90 to 90: S2CellId(S2LatLng::FromDegrees(latitude,
 * longitude)). 0 if one of the two is out of range or NaN. */
static inline uint64_t s2u_geo_leaf(double longitude, double latitude) {
  if (!(fabs(longitude) <= S2U_GEO_MOST_LONGITUDE) || !(fabs(latitude) <= S2U_GEO_MOST_LATITUDE)) return 0;
  double turn = longitude * (S2U_GEO_PI / 180), height = latitude * (S2U_GEO_PI / 180);
  double x = cos(turn) * cos(height), y = sin(turn) * cos(height), z = sin(height);
  double a = fabs(x), b = fabs(y), c = fabs(z);
  if (c >= a && c >= b) return z < 0 ? s2u_geo_leaf_of(5, -y / z, -x / z) : s2u_geo_leaf_of(2, -x / z, -y / z);
  if (b >= a) return y < 0 ? s2u_geo_leaf_of(4, z / y, -x / y) : s2u_geo_leaf_of(1, -x / y, z / y);
  return x < 0 ? s2u_geo_leaf_of(3, z / x, y / x) : s2u_geo_leaf_of(0, y / x, z / x);
}

static inline double s2u_geo_uv_of(double place) {
  double s = place / S2U_GEO_SIDE;
  return s >= 0.5 ? (4 * s * s - 1) / 3 : (1 - 4 * (1 - s) * (1 - s)) / 3;
}

/* Where the cube has a point of a face, i and j leaves from its corner; the cube's edges are 2 long. */
static inline void s2u_geo_point_of_cube(uint32_t face, double i, double j, double* x, double* y, double* z) {
  double u = s2u_geo_uv_of(i), v = s2u_geo_uv_of(j);
  switch (face) {
    case 0: *x = 1, *y = u, *z = v; break;
    case 1: *x = -u, *y = 1, *z = v; break;
    case 2: *x = -u, *y = -v, *z = 1; break;
    case 3: *x = -1, *y = -v, *z = -u; break;
    case 4: *x = v, *y = -1, *z = -u; break;
    default: *x = v, *y = u, *z = -1;
  }
}

/* The longitude, from -180 to 180, and the latitude of a point of a face, i and j leaves from its corner. */
static inline void s2u_geo_place(uint32_t face, double i, double j, double* longitude, double* latitude) {
  double x, y, z;
  s2u_geo_point_of_cube(face, i, j, &x, &y, &z);
  *longitude = atan2(y + 0.0, x + 0.0) * (180 / S2U_GEO_PI); /* as S2: -0 is 0, so never -180 */
  *latitude = atan2(z, sqrt(x * x + y * y)) * (180 / S2U_GEO_PI); /* as S2; hypot is of glibc 2.35 */
}

static inline void s2u_geo_middle_of_square(const s2u_square* square, double* longitude, double* latitude) {
  s2u_geo_place(square->face, square->i + square->size / 2.0, square->j + square->size / 2.0, longitude, latitude);
}

/* The longitude and the latitude of the middle of a cell. S2U_NO_CELL if it is none. */
static inline int32_t s2u_geo_middle(uint64_t cell, double* longitude, double* latitude) {
  s2u_square square;
  int32_t status = s2u_square_of(cell, &square);
  if (status == S2U_OK) s2u_geo_middle_of_square(&square, longitude, latitude);
  return status;
}

/* ---- cells beside a cell */

/* The leaf of a face at a place on the cube, whose corners are S2U_GEO_SIDE from the middle along each axis. */
static inline uint64_t s2u_geo_leaf_on_cube(uint32_t face, int64_t a, int64_t b) {
  return s2u_from_face_ij(face, (uint32_t)((a + S2U_GEO_SIDE - 1) / 2), (uint32_t)((b + S2U_GEO_SIDE - 1) / 2));
}

/* The leaf at a place of a face. A place over an edge of the face, however far, has the first leaf there on the face
 * that goes on from the edge; over a corner of the face there is none: 0. */
static inline uint64_t s2u_geo_leaf_beside(uint32_t face, int64_t i, int64_t j) {
  const int64_t side = S2U_GEO_SIDE, w = side - 1;
  int is_i = i >= 0 && i < side, is_j = j >= 0 && j < side;
  int64_t a = is_i ? 2 * i - w : i < 0 ? -side : side, b = is_j ? 2 * j - w : j < 0 ? -side : side, x, y, z;
  if (is_i && is_j) return s2u_from_face_ij(face, (uint32_t)i, (uint32_t)j);
  if (!is_i && !is_j) return 0;
  switch (face) { /* as in s2u_geo_place, with the first row of the other face in the place of 1 */
    case 0: x = w, y = a, z = b; break;
    case 1: x = -a, y = w, z = b; break;
    case 2: x = -a, y = -b, z = w; break;
    case 3: x = -w, y = -b, z = -a; break;
    case 4: x = b, y = -w, z = -a; break;
    default: x = b, y = a, z = -w;
  }
  if (x == side) return s2u_geo_leaf_on_cube(0, y, z);
  if (y == side) return s2u_geo_leaf_on_cube(1, -x, z);
  if (z == side) return s2u_geo_leaf_on_cube(2, -x, -y);
  if (x == -side) return s2u_geo_leaf_on_cube(3, -z, -y);
  if (y == -side) return s2u_geo_leaf_on_cube(4, -z, x);
  return s2u_geo_leaf_on_cube(5, y, x);
}

/* The four cells of a cell's level that share an edge with it: below, to the right, above and to the left on its face.
 * S2CellId::GetEdgeNeighbors. S2U_NO_CELL if it is none. */
static inline int32_t s2u_geo_edge_neighbors(uint64_t cell, uint64_t neighbors[4]) {
  s2u_square at;
  int32_t status = s2u_square_of(cell, &at), level = s2u_level(cell);
  if (status != S2U_OK) return status;
  const int64_t i = at.i, j = at.j, size = at.size;
  const int64_t places[4][2] = {{i, j - size}, {i + size, j}, {i, j + size}, {i - size, j}};
  for (int k = 0; k < 4; k++)
    neighbors[k] = s2u_parent(s2u_geo_leaf_beside(at.face, places[k][0], places[k][1]), (uint32_t)level);
  return S2U_OK;
}

/* The cells of a level around the corner of such a cell that is nearest to a deeper one: four, or three at a corner of
 * the cube. The first has the deeper one. S2CellId::AppendVertexNeighbors. S2U_NO_CELL, or S2U_ARGUMENT for a level
 * that is not above that of the cell. */
static inline int32_t s2u_geo_vertex_neighbors(uint64_t cell, uint32_t level, uint64_t neighbors[4], size_t* count) {
  s2u_square at, above;
  int32_t status = s2u_square_of(cell, &at);
  *count = 0;
  if (status != S2U_OK) return status;
  if (level >= (uint32_t)s2u_level(cell)) return S2U_ARGUMENT;
  status = s2u_square_of(s2u_parent(cell, level), &above);
  if (status != S2U_OK) return status;
  const int64_t size = above.size, i = above.i, j = above.j;
  const int64_t east = 2 * ((int64_t)at.i - i) >= size ? i + size : i - size;
  const int64_t north = 2 * ((int64_t)at.j - j) >= size ? j + size : j - size;
  const int64_t places[4][2] = {{i, j}, {east, j}, {i, north}, {east, north}};
  for (int k = 0; k < 4; k++) {
    uint64_t leaf = s2u_geo_leaf_beside(at.face, places[k][0], places[k][1]);
    if (leaf) neighbors[(*count)++] = s2u_parent(leaf, level);
  }
  return S2U_OK;
}

/* ---- the box of a cell */

#define S2U_GEO_AROUND 1e-9 /* degrees, a tenth of a millimeter: more than rounding moves a place */

/* Degrees; a box may go on beyond 180 or -180. */
typedef struct s2u_geo_box {
  double west, south, east, north;
} s2u_geo_box;

/* Longitudes around the middle and latitudes, with what is around. Those that reach a pole have all longitudes. */
static inline s2u_geo_box s2u_geo_box_around(double middle, double across, double south, double north) {
  double far = fabs(south) < fabs(north) ? fabs(north) : fabs(south);
  s2u_geo_box box;
  if (far >= 90)
    middle = 0, across = 180;
  else
    across += S2U_GEO_AROUND / cos(far * (S2U_GEO_PI / 180));
  box.west = middle - across, box.east = middle + across;
  box.south = south - S2U_GEO_AROUND < -90 ? -90 : south - S2U_GEO_AROUND;
  box.north = north + S2U_GEO_AROUND > 90 ? 90 : north + S2U_GEO_AROUND;
  return box;
}

/* The box of a face, of which no corner has the highest latitude. */
static inline s2u_geo_box s2u_geo_box_of_face(uint32_t face, double middle) {
  double corner, latitude;
  s2u_geo_place(2, 0, 0, &corner, &latitude);
  if (face == 2) return s2u_geo_box_around(0, 180, latitude, 90);
  return face == 5 ? s2u_geo_box_around(0, 180, -90, -latitude) : s2u_geo_box_around(middle, 45, -45, 45);
}

/* The box of a smaller cell: all of it lies on one side of the middle of its face, so its corners are the farthest to
 * each side. */
static inline s2u_geo_box s2u_geo_box_of_corners(const s2u_square* square, double middle) {
  double across = 0, south = 90, north = -90;
  for (int corner = 0; corner < 4; corner++) {
    double longitude, latitude, i = square->i + (corner > 1 ? square->size : 0.0);
    double j = square->j + (corner == 1 || corner == 2 ? square->size : 0.0);
    s2u_geo_place(square->face, i, j, &longitude, &latitude);
    double away = fabs(longitude - middle) > 180 ? 360 - fabs(longitude - middle) : fabs(longitude - middle);
    if (away > across) across = away;
    if (latitude < south) south = latitude;
    if (latitude > north) north = latitude;
  }
  return s2u_geo_box_around(middle, across, south, north);
}

/* The longitudes and the latitudes between which a cell lies, rounding with them. S2U_NO_CELL if it is none. */
static inline int32_t s2u_geo_box_of(uint64_t cell, s2u_geo_box* box) {
  double longitude, latitude;
  s2u_square square;
  int32_t status = s2u_square_of(cell, &square);
  if (status != S2U_OK) return status;
  s2u_geo_middle_of_square(&square, &longitude, &latitude);
  *box = square.size == S2U_GEO_SIDE ? s2u_geo_box_of_face(square.face, longitude)
                                     : s2u_geo_box_of_corners(&square, longitude);
  return S2U_OK;
}

/* ---- the area of cells */

#define S2U_GEO_EARTH 6371.01 /* the earth's mean radius in kilometers, as S2Earth has it */

/* Where a side of a square begins on its face, from -1 to 1, and how long it is there: no small difference of two large
 * numbers. It doesn't go over the middle of the face. */
static inline double s2u_geo_side_on_face(double begin, double length, double* side) {
  double s = begin / S2U_GEO_SIDE, part = length / S2U_GEO_SIDE;
  *side = 4 * part * (s >= 0.5 ? 2 * s + part : 2 - 2 * s - part) / 3;
  return s2u_geo_uv_of(begin);
}

/* The area of a square of a face on a sphere of radius 1, by the rule of Gauss and Legendre: with six nodes along a
 * side, or two of a small square, which give it to its last digits. It is at most an eighth of the face wide. */
static inline double s2u_geo_area_of_square(double i, double j, double size) {
  static const double nodes[8][2] = {
      {-0.9324695142031521, 0.1713244923791704}, {-0.6612093864662645, 0.3607615730481386},
      {-0.2386191860831969, 0.4679139345726910}, {0.2386191860831969, 0.4679139345726910},
      {0.6612093864662645, 0.3607615730481386},  {0.9324695142031521, 0.1713244923791704},
      {-0.5773502691896257, 1},                  {0.5773502691896257, 1}};
  const int begin = size < (1 << 18) ? 6 : 0, end = size < (1 << 18) ? 8 : 6;
  double width, height, sum = 0;
  const double u = s2u_geo_side_on_face(i, size, &width), v = s2u_geo_side_on_face(j, size, &height);
  for (int a = begin; a < end; a++) {
    for (int b = begin; b < end; b++) {
      double x = u + width * (1 + nodes[a][0]) / 2, y = v + height * (1 + nodes[b][0]) / 2, square = 1 + x * x + y * y;
      sum += nodes[a][1] * nodes[b][1] / (square * sqrt(square));
    }
  }
  return sum * width * height / 4;
}

/* The area of a cell on a sphere of radius 1. A number that is no cell has none. */
static inline double s2u_geo_area_of_cell(uint64_t cell) {
  s2u_square at;
  if (s2u_square_of(cell, &at) != S2U_OK) return 0;
  const int parts = at.size > S2U_GEO_SIDE / 8 ? (int)(at.size / (S2U_GEO_SIDE / 8)) : 1; /* along a side */
  const double side = (double)at.size / parts;
  double sum = 0;
  for (int part = 0; part < parts * parts; part++)
    sum += s2u_geo_area_of_square(at.i + part / parts * side, at.j + part % parts * side, side);
  return sum;
}

/* The area of cells in square kilometers, on a sphere with the earth's mean radius: of a union S2CellUnion::ExactArea,
 * which is that on a sphere of radius 1. The earth is flattened, so an area there differs by less than 1 percent. A
 * number that is no cell has none. */
static inline double s2u_geo_area(const uint64_t* ids, size_t count) {
  double sum = 0;
  for (size_t k = 0; k < count; k++) sum += s2u_geo_area_of_cell(ids[k]);
  return sum * S2U_GEO_EARTH * S2U_GEO_EARTH;
}

#endif
