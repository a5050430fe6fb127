/* The functions of s2union_outline.h, asked with any corners, squares, marks and parts. check.py has Frama-C look at
 * each. */
#include "__fc_builtin.h"
#include "contracts.h"
#include "s2union_outline.h"

enum { CELLS = 2, MARKS = 8, PARTS = 4, POSITIONS = 2 * (PARTS + 2) };
static s2u_geo_mark marks[MARKS];
static size_t roots[CELLS];
static s2u_geo_part parts[PARTS];
static size_t path[PARTS + 1], places[PARTS + 1];
volatile int32_t any_turn;
volatile size_t any_size;

static int32_t any_on_cube(void) {
  return Frama_C_int_interval(-S2U_GEO_SIDE, S2U_GEO_SIDE);
}

static s2u_geo_corner any_corner(void) {
  return (s2u_geo_corner){any_on_cube(), any_on_cube(), any_on_cube(), Frama_C_int_interval(-2, 2)};
}

static size_t any_cell_of(size_t count) {
  return (size_t)Frama_C_unsigned_long_interval(0, count - 1);
}

static s2u_geo_mark any_mark(void) {
  return (s2u_geo_mark){Frama_C_int_interval(0, 2), Frama_C_int_interval(-2, 2), {any_on_cube(), any_on_cube()},
                        any_on_cube(), any_turn > 0, any_turn > 0, any_cell_of(CELLS)};
}

static s2u_geo_part any_part(void) {
  return (s2u_geo_part){any_corner(), any_corner(), any_cell_of(CELLS), any_cell_of(PARTS + 1), any_turn > 0};
}

static s2u_geo_outliner any_outliner(void) {
  s2u_geo_outliner o;
  memset(&o, 0, sizeof o);
  o.is_map = any_turn > 0, o.most = any_number;
  o.marks = marks, o.roots = roots, o.parts = parts, o.path = path, o.places = places;
  for (int k = 0; k < MARKS; k++) marks[k] = any_mark();
  for (int k = 0; k < CELLS; k++) roots[k] = any_cell_of(CELLS);
  for (int k = 0; k < PARTS; k++) parts[k] = any_part();
  o.marks_len = MARKS, o.parts_len = any_cell_of(PARTS + 1), o.parts_room = PARTS;
  return o;
}

void outline_degrees(void) {
  double place[2];
  s2u_geo_degrees(any_corner(), place);
}

void outline_put_squares(void) { /* a square of each size, anywhere on its face */
  for (int level = 0; level <= 30; level++) {
    s2u_geo_outliner o = any_outliner();
    int64_t size = (int64_t)1 << level;
    o.marks_len = 0, o.squares = 0;
    s2u_geo_put_square(&o, Frama_C_unsigned_int_interval(0, 5),
                       size * Frama_C_long_interval(0, (S2U_GEO_SIDE >> level) - 1),
                       size * Frama_C_long_interval(0, (S2U_GEO_SIDE >> level) - 1), size);
  }
}

void outline_compare(void) {
  s2u_geo_mark a = any_mark(), b = any_mark();
  s2u_geo_compare_marks(&a, &b);
  s2u_geo_part c = any_part(), d = any_part();
  s2u_geo_compare_parts(&c, &d);
  s2u_geo_leftness(&c, &d);
}

void outline_join(void) {
  any_outliner();
  s2u_geo_join(roots, any_cell_of(CELLS), any_cell_of(CELLS));
}

void outline_between(void) {
  s2u_geo_between(any_on_cube(), any_on_cube());
}

void outline_on_line(void) {
  s2u_geo_outliner o = any_outliner();
  s2u_geo_mark mark = any_mark();
  s2u_geo_corner from = s2u_geo_on_line(&mark, any_on_cube()), to = s2u_geo_on_line(&mark, any_on_cube());
  s2u_geo_is_short(&o, from, to);
  s2u_geo_turn_of(&mark, from, to);
}

void outline_end(void) { /* among each number of parts */
  for (size_t count = 0; count <= PARTS; count++) {
    s2u_geo_outliner o = any_outliner();
    o.parts_len = count;
    s2u_geo_end(&o, any_corner());
    if (count == 0) continue;
    s2u_geo_part before = any_part();
    s2u_geo_next(&o, any_cell_of(count), &before);
    s2u_geo_next(&o, any_cell_of(count), NULL);
  }
}

/* The sort of the C library: any order of the items is as good here, as all of them are any. */
void qsort(void* items, size_t count, size_t size, int (*order)(const void*, const void*)) {
  order(items, (uint8_t*)items + (count - 1) * size);
}

void outline_put_parts(void) { /* of a boundary; on a map the parts are cut too, by a function that calls itself */
  static s2u_geo_part found[MARKS];
  s2u_geo_outliner o = any_outliner();
  o.is_map = false, o.marks_len = 4, o.parts = found, o.parts_len = 0, o.parts_room = MARKS;
  s2u_geo_put_parts(&o);
}

void outline_put_loop(void) {
  static double positions[2 * POSITIONS];
  static s2u_geo_loop loops[1];
  for (size_t length = 1; length <= PARTS; length++) {
    s2u_geo_outliner o = any_outliner();
    o.positions = positions, o.positions_len = 0, o.positions_room = 2 * POSITIONS;
    o.loops = loops, o.loops_len = 0, o.loops_room = 1;
    for (size_t k = 0; k < length; k++) path[k] = any_cell_of(PARTS);
    s2u_geo_put_loop(&o, path, length);
  }
}

void outline_grown(void) { /* each list that grows does it here: from none, and by one more */
  const s2u_geo_loop loop = {0, 0, 0, any_number};
  size_t room = 0;
  s2u_geo_loop* list = NULL;
  if (s2u_geo_grown((void**)&list, 0, &room, sizeof loop)) {
    list[0] = list[63] = loop;
    if (s2u_geo_grown((void**)&list, 64, &room, sizeof loop)) list[64] = list[127] = loop;
  }
  free(list);
}

void outline_put_rings(void) {
  static double positions[2 * POSITIONS];
  static s2u_geo_loop loops[2];
  s2u_geo_outliner o = any_outliner();
  s2u_geo_rings rings;
  for (int k = 0; k < 2 * POSITIONS; k++) positions[k] = any_number;
  memset(&rings, 0, sizeof rings);
  o.loops = loops, o.positions = positions, o.positions_len = 2 * POSITIONS;
  loops[0] = (s2u_geo_loop){any_cell_of(CELLS), 0, 2, any_number};
  loops[1] = (s2u_geo_loop){any_cell_of(CELLS), 2, 3, any_number};
  for (o.loops_len = 0; o.loops_len <= 2; o.loops_len++)
    if (s2u_geo_put_rings(&o, &rings)) s2u_geo_free(&rings);
}
