/* Cells beside cells, unions with the cells around them, the boxes and areas of unions: by a plain look at all cells of
 * a level, whose corners lie on a cube; each allocation refused in turn; what is refused. The last line is 'N passed, M
 * failed'. tests/peer asks S2 about more. */
#include <s2union_cover.h>
#include "../../../tests/refuse.h"
#include "tests.h"

typedef struct {
  int64_t at[3];
} corner; /* of a cube from -S2U_GEO_SIDE to S2U_GEO_SIDE */

static corner corner_of(uint32_t face, int64_t i, int64_t j) {
  const int64_t w = S2U_GEO_SIDE, a = 2 * i - w, b = 2 * j - w;
  const corner faces[6] = {{{w, a, b}}, {{-a, w, b}}, {{-a, -b, w}}, {{-w, -b, -a}}, {{b, -w, -a}}, {{b, a, -w}}};
  return faces[face];
}

/* Whether a corner of one cell lies in the other one or on its border: so it is if they touch, and one is no larger. */
static int touches(uint64_t small, uint64_t large) {
  s2u_square s, l;
  if (s2u_square_of(small, &s) != S2U_OK || s2u_square_of(large, &l) != S2U_OK) abort();
  corner low = corner_of(l.face, l.i, l.j), high = corner_of(l.face, (int64_t)l.i + l.size, (int64_t)l.j + l.size);
  for (int k = 0; k < 4; k++) {
    corner c = corner_of(s.face, (int64_t)s.i + (k & 1 ? s.size : 0), (int64_t)s.j + (k & 2 ? s.size : 0));
    int is_in = 1;
    for (int axis = 0; axis < 3; axis++) {
      int64_t a = low.at[axis], b = high.at[axis];
      is_in &= c.at[axis] >= (a < b ? a : b) && c.at[axis] <= (a < b ? b : a);
    }
    if (is_in) return 1;
  }
  return 0;
}

static uint64_t nth_cell(unsigned level, uint64_t n) { return (2 * n + 1) << (60 - 2 * level); }
#define CELLS(level) ((uint64_t)6 << 2 * (level))
enum { DEEPEST = 4 };

/* The cells of a level that touch a cell and share no leaf with it. */
static size_t beside(uint64_t cell, unsigned level, uint64_t* ids) {
  size_t count = 0;
  for (uint64_t n = 0; n < CELLS(level); n++) {
    uint64_t other = nth_cell(level, n);
    if (!s2u_cell_intersects(cell, other) && touches(other, cell)) ids[count++] = other;
  }
  return count;
}

static int is_list(const s2u_cover_cells* cells, const uint64_t* ids, size_t count) {
  return cells->count == count && memcmp(cells->ids, ids, 8 * count) == 0;
}

static void neighbors(void) {
  static uint64_t ids[CELLS(DEEPEST)];
  uint64_t four[4];
  s2u_cover_cells found;
  for (unsigned own = 0; own <= 3; own++) {
    for (uint64_t n = 0; n < CELLS(own); n++) {
      uint64_t cell = nth_cell(own, n);
      for (unsigned level = own; level <= DEEPEST; level++) {
        size_t count = beside(cell, level, ids);
        CHECK(s2u_cover_neighbors(cell, level, &found) == S2U_OK && is_list(&found, ids, count));
        s2u_cover_free(&found);
      }
      size_t count = beside(cell, own, ids);
      CHECK(s2u_geo_edge_neighbors(cell, four) == S2U_OK);
      for (int k = 0; k < 4; k++) CHECK(s2u_contains_cell(ids, count, four[k]) == 1);
    }
  }
}

static void expanded(void) {
  static uint64_t ids[40], wanted[50000], more[CELLS(DEEPEST)];
  for (int turn = 0; turn < 300; turn++) {
    unsigned level = (unsigned)(draw() % (DEEPEST + 1));
    size_t count = random_union(ids, 1 + draw() % 40, 0, 6), length = 0;
    for (size_t k = 0; k < count; k++) {
      uint64_t cell = s2u_level(ids[k]) > (int32_t)level ? s2u_parent(ids[k], level) : ids[k];
      size_t around = beside(cell, level, more);
      wanted[length++] = cell;
      memcpy(wanted + length, more, 8 * around);
      length += around;
    }
    if (s2u_normalise(wanted, length, &length) != S2U_OK) abort();
    s2u_cover_cells found;
    CHECK(s2u_cover_expanded(ids, count, level, &found) == S2U_OK && is_list(&found, wanted, length));
    s2u_cover_free(&found);
  }
}

static double part(void) { return (double)(draw() >> 11) / 9007199254740992.0; }

static int is_between(double x, double west, double east) {
  return west <= east ? x >= west && x <= east : x >= west || x <= east;
}

/* Random places of the cells are in the box, and one that is narrower on any side would lose a corner. */
static void boxes(void) {
  uint64_t ids[12];
  for (int turn = 0; turn < 2000; turn++) {
    unsigned low = (unsigned)(draw() % 31);
    size_t count = random_union(ids, 1 + draw() % 12, low, low + 3 > 30 ? 30 : low + 3);
    s2u_cover_bounds box;
    CHECK(s2u_cover_rect_bound(ids, count, &box) == S2U_OK);
    CHECK(box.west >= -180 && box.west < 180 && box.east > -180 && box.east <= 180 && box.south <= box.north);
    int inside = 1, on_sides = 0;
    for (size_t k = 0; k < count; k++) {
      s2u_square at;
      double x, y;
      s2u_square_of(ids[k], &at);
      for (int n = 0; n < 40; n++) {
        const double thirds[3] = {0, 0.5, 1}, along = n < 9 ? thirds[n % 3] : part();
        const double across = n < 9 ? thirds[n / 3] : part();
        s2u_geo_place(at.face, at.i + at.size * along, at.j + at.size * across, &x, &y);
        inside &= y >= box.south && y <= box.north && (fabs(y) == 90 || is_between(x, box.west, box.east) ||
                                                       (fabs(x) == 180 && is_between(-x, box.west, box.east)));
        on_sides |= (y < box.south + 1e-9) | (y > box.north - 1e-9) << 1;
        on_sides |= (fabs(remainder(x - box.west, 360)) < 1e-9) << 2 | (fabs(remainder(x - box.east, 360)) < 1e-9) << 3;
      }
    }
    CHECK(inside);
    CHECK((on_sides | (box.west == -180 && box.east == 180 ? 12 : 0)) == 15);
  }
  const uint64_t face = nth_cell(0, 0), back[2] = {nth_cell(0, 3), 0};
  s2u_cover_bounds box;
  CHECK(s2u_cover_rect_bound(&face, 1, &box) == S2U_OK && fabs(box.west + 45) < 1e-12 && fabs(box.north - 45) < 1e-12);
  CHECK(s2u_cover_rect_bound(back, 1, &box) == S2U_OK && fabs(box.west - 135) < 1e-12 && fabs(box.east + 135) < 1e-12);
  const uint64_t near[1] = {s2u_parent(s2u_geo_leaf(179.9, 1), 1)}; /* it ends at the date line, and isn't over it */
  CHECK(s2u_cover_rect_bound(near, 1, &box) == S2U_OK && box.east == 180 && box.west < 180);
  CHECK(s2u_cover_rect_bound(NULL, 0, &box) == S2U_OK && box.south > box.north && box.west > box.east);
}

/* The sphere has the area of its faces, and a cell that of its children; what is no cell has none. */
static void areas(void) {
  const double sphere = 4 * S2U_GEO_PI * S2U_GEO_EARTH * S2U_GEO_EARTH;
  uint64_t faces[7] = {0};
  for (uint64_t face = 0; face < 6; face++) faces[face] = nth_cell(0, face);
  CHECK(fabs(s2u_geo_area(faces, 7) / sphere - 1) < 1e-14 && s2u_geo_area(NULL, 0) == 0);
  for (int turn = 0; turn < 5000; turn++) {
    const uint64_t cell = random_cell(0, 29, 6);
    uint64_t children[4];
    for (uint32_t k = 0; k < 4; k++) children[k] = s2u_child(cell, k);
    const double area = s2u_geo_area(&cell, 1), average = sphere / 6 / (double)(1ull << 2 * s2u_level(cell));
    CHECK(area > 0.6 * average && area < 1.4 * average && fabs(s2u_geo_area(children, 4) / area - 1) < 1e-13);
  }
}

/* The cells around the nearest corner of a larger cell have the four places that are half its side away. */
static void corners(void) {
  for (int turn = 0; turn < 5000; turn++) {
    const uint64_t cell = random_cell(1, 30, 6);
    const uint32_t level = (uint32_t)(draw() % (uint64_t)s2u_level(cell));
    uint64_t four[4];
    size_t count;
    s2u_square at, above;
    s2u_square_of(cell, &at), s2u_square_of(s2u_parent(cell, level), &above);
    const uint32_t half = (uint32_t)above.size / 2, last = S2U_GEO_SIDE - 1 - half;
    const uint32_t i = (uint32_t)at.i, j = (uint32_t)at.j;
    if (i < half || j < half || i > last || j > last) continue; /* beside the face */
    CHECK(s2u_geo_vertex_neighbors(cell, level, four, &count) == S2U_OK && count == 4);
    for (int k = 0; k < 4; k++) {
      uint64_t leaf = s2u_from_face_ij(at.face, k & 1 ? i + half : i - half, k & 2 ? j + half : j - half), here = 0;
      for (int n = 0; n < 4; n++) here += four[n] == s2u_parent(leaf, level);
      CHECK(here == 1);
    }
  }
}

/* Cells and those around them may be as many as the bound, and no more: with leaves around, cells that are 2^k leaves
 * wide are bounded by 4 * 2^k + 5 together, and these by 4 * (1,000,000 + 8) + 5 * 8. */
static void as_many_as_allowed(void) {
  const uint32_t levels[] = {11, 12, 13, 14, 16, 21, 24, 27};
  uint64_t ids[9];
  s2u_cover_cells found;
  for (uint64_t k = 0; k < 8; k++) ids[k] = s2u_parent(s2u_from_face_ij(0, (uint32_t)k << 25, 0), levels[k]);
  CHECK(s2u_cover_expanded(ids, 8, 30, &found) == S2U_OK && found.count > 8);
  s2u_cover_free(&found);
  ids[8] = s2u_parent(s2u_from_face_ij(0, 9u << 25, 0), 29);
  CHECK(s2u_cover_expanded(ids, 9, 30, &found) == S2U_MANY && !found.ids);
}

static void refused(void) {
  const uint64_t face = nth_cell(0, 0), leaf = nth_cell(30, 5), none[2] = {face, 2};
  uint64_t four[4];
  size_t count;
  s2u_cover_cells found;
  s2u_cover_bounds box;
  CHECK(s2u_geo_edge_neighbors(2, four) == S2U_NO_CELL);
  CHECK(s2u_geo_vertex_neighbors(0, 3, four, &count) == S2U_NO_CELL && count == 0);
  CHECK(s2u_geo_vertex_neighbors(leaf, 30, four, &count) == S2U_ARGUMENT && count == 0);
  CHECK(s2u_geo_vertex_neighbors(face, UINT32_MAX, four, &count) == S2U_ARGUMENT);
  CHECK(s2u_cover_neighbors(2, 30, &found) == S2U_NO_CELL && !found.ids);
  CHECK(s2u_cover_neighbors(leaf, 31, &found) == S2U_ARGUMENT && s2u_cover_neighbors(leaf, 29, &found) == S2U_ARGUMENT);
  CHECK(s2u_cover_neighbors(face, 17, &found) == S2U_OK && found.count == (4 << 17));
  s2u_cover_free(&found);
  CHECK(s2u_cover_neighbors(face, 18, &found) == S2U_MANY && s2u_cover_neighbors(face, 30, &found) == S2U_MANY);
  CHECK(s2u_cover_expanded(none, 2, 3, &found) == S2U_NO_CELL && !found.ids);
  CHECK(s2u_cover_expanded(&face, 1, 31, &found) == S2U_ARGUMENT && !found.ids);
  CHECK(s2u_cover_expanded(&face, 1, 30, &found) == S2U_MANY && !found.ids);
  CHECK(s2u_cover_expanded(NULL, 0, 30, &found) == S2U_OK && found.count == 0);
  s2u_cover_free(&found);
  CHECK(s2u_cover_rect_bound(none, 2, &box) == S2U_NO_CELL);
  long blocks = blocks_taken();
  int32_t status = S2U_MEMORY;
  for (long turn = 1; status == S2U_MEMORY && turn < 100; turn++) {
    refuse_memory(turn);
    status = s2u_cover_neighbors(face, 3, &found);
    if (status == S2U_OK) s2u_cover_free(&found), status = s2u_cover_expanded(none, 1, 3, &found);
    if (status == S2U_OK) s2u_cover_free(&found), status = s2u_cover_rect_bound(none, 1, &box);
    refuse_memory(0);
    s2u_cover_free(&found);
    CHECK(blocks_taken() == blocks);
  }
  CHECK(status == S2U_OK);
}

int main(void) {
  neighbors();
  expanded();
  boxes();
  areas();
  corners();
  as_many_as_allowed();
  refused();
  return report();
}
