/* Functions of s2union_cover.h, asked with any numbers, a shape of a polygon with a hole, a line and a point, any
 * corners in any rings, and any cells. check.py has Frama-C look at each; join.c has the reader of WKB. */
#include "__fc_builtin.h"
#include "contracts.h"
#include "s2union_cover.h"

enum { POSITIONS = 12, CORNERS = 8, SEAMS = 4 };
static double positions[2 * POSITIONS];
static const s2u_cover_ring rings[] = {{4, 0}, {8, 0}, {11, S2U_COVER_LINE}, {12, S2U_COVER_LINE}};
static const s2u_cover_shape shape = {positions, rings, 4};
static const size_t numbers[] = {0, 1, 2, 3};
static uint8_t shared[POSITIONS];
static s2u_direction corners[CORNERS];
static size_t ends[CORNERS];
static s2u_cover_seam seams[SEAMS];
static s2u_cover_chain chains[CORNERS];
volatile int any_turn;

static double any_from(double least, double most) { return Frama_C_double_interval(least, most); }

static s2u_cover_part any_part(void) {
  const s2u_cover_part part = {&shape, numbers, 4, any_turn > 0 ? shared : NULL};
  for (int k = 0; k < 2 * POSITIONS; k++) positions[k] = any_number;
  for (int k = 0; k < POSITIONS; k++) shared[k] = any_turn > 0;
  return part;
}

static s2u_cover_vector any_vector(void) { return (s2u_cover_vector){any_number, any_number, any_number}; }

static int64_t any_coordinate(void) { return Frama_C_long_interval(-2147483647L, 2147483647L); }

static s2u_direction any_direction(void) {
  return (s2u_direction){any_coordinate(), any_coordinate(), any_coordinate()};
}

static s2u_cover_list list_of(void* at, size_t count, size_t room, size_t unit) {
  s2u_cover_list list = s2u_cover_list_of(unit);
  list.at = (char*)at, list.count = count, list.room = room;
  return list;
}

/* Corners in two rings. */
static s2u_cover_build any_build(void) {
  s2u_cover_build build;
  memset(&build, 0, sizeof build);
  for (int k = 0; k < CORNERS; k++) corners[k] = any_direction();
  for (int k = 0; k < SEAMS; k++) seams[k] = (s2u_cover_seam){any_number, any_number, any_number};
  ends[0] = 3, ends[1] = CORNERS;
  build.corners = build.loose = list_of(corners, CORNERS, CORNERS, sizeof *corners);
  build.ends = list_of(ends, 2, CORNERS, sizeof *ends);
  build.chains = list_of(chains, 0, CORNERS, sizeof *chains);
  build.seams = list_of(seams, SEAMS, SEAMS, sizeof *seams);
  build.bend = any_from(0, 1), build.tolerance = any_number, build.is_on_map = any_turn > 0;
  return build;
}

void cover_options(void) {
  s2u_cover_options options = {any_cell, any_level, any_level, any_level, any_number};
  s2u_cover_keep_within(&options, any_number);
  s2u_cover_check_options(&options);
  s2u_cover_room(any_from(0, 1e20), Frama_C_unsigned_int_interval(0, 30));
}

void cover_check(void) {
  s2u_cover_fault fault;
  any_part();
  s2u_cover_check(&shape, &fault);
}

void cover_edge(void) {
  const double a[2] = {any_number, any_number}, b[2] = {any_number, any_number};
  const double c[2] = {any_number, any_number}, d[2] = {any_number, any_number};
  s2u_cover_pieces(a, b, s2u_cover_bend(a, b, any_number), any_number);
  s2u_cover_may_touch(a, b, c, d);
  s2u_cover_middle(a, b);
  s2u_cover_key x = s2u_cover_key_of(a, b, any_cell, any_cell), y = s2u_cover_key_of(c, d, any_cell, any_cell);
  s2u_cover_by_numbers(&x, &y);
}

void cover_rounded(void) { /* of numbers from -1 to 1 */
  s2u_cover_rounded(any_from(-1, 1), any_from(-1, 1), any_from(-1, 1));
}

void cover_is_odd(void) {
  const s2u_cover_part part = any_part();
  const s2u_cover_bounds box = s2u_cover_bounds_of(&part);
  double x, y;
  s2u_cover_beside(&box, &x, &y);
  s2u_cover_is_odd(&part, any_number, any_number);
}

void cover_seams(void) {
  const double a[2] = {any_number, any_number}, b[2] = {any_number, any_number};
  const s2u_cover_build build = any_build();
  s2u_cover_has_seam(&build, a, b);
}

void cover_is_cut(void) {
  const s2u_cover_build build = any_build();
  const s2u_cover_part part = any_part();
  for (size_t ring = 0; ring < 4; ring++) s2u_cover_is_cut(&build, &part, ring);
}

void cover_list(void) { /* each list that grows does it here: from none, and by one more */
  s2u_cover_list list = s2u_cover_list_of(sizeof(s2u_cover_seam));
  const s2u_cover_seam seam = {any_number, any_number, any_number};
  s2u_cover_seam* added = (s2u_cover_seam*)s2u_cover_add(&list);
  if (added) {
    *added = seam;
    list.count = list.room;
    added = (s2u_cover_seam*)s2u_cover_add(&list);
    if (added) *added = seam;
  }
  free(list.at);
}

void cover_end_ring(void) { /* of up to four corners */
  for (size_t count = 3; count <= 6; count++) {
    s2u_cover_build build = any_build();
    build.corners.count = build.loose.count = count, build.ends.count = 1;
    if (s2u_cover_add_corner(&build.corners, 3, any_direction())) s2u_cover_end_ring(&build, 3);
    s2u_cover_end_chain(&build, 3);
  }
}

void cover_is_clear(void) {
  const s2u_cover_build build = any_build();
  const s2u_cover_vector at = any_vector();
  s2u_cover_is_clear(&build, &at, any_number, any_cell);
}

void cover_is_outside(void) {
  const s2u_cover_build build = any_build();
  const s2u_cover_vector at = any_vector();
  s2u_cover_is_outside(&build, &at);
  s2u_cover_leaf_at(&at);
}

void cover_run_back(void) {
  const s2u_cover_build build = any_build();
  s2u_cover_run_back(&build);
}

void cover_stretch(void) {
  const s2u_cover_build build = any_build();
  s2u_cover_stretch(&build, any_number);
}

void cover_margin(void) {
  const s2u_cover_options options = {any_cell, any_level, any_level, any_level, any_number};
  s2u_cover_build build = any_build();
  build.bend = any_number;
  s2u_cover_margin(&build, &options);
}

void cover_quad(void) {
  const s2u_cover_quad quad = s2u_cover_quad_of(any_cell);
  const s2u_cover_arc arc = s2u_cover_arc_of(any_vector(), any_vector());
  s2u_cover_is_near(&quad, &arc, any_number);
  s2u_cover_is_within(&quad, &arc, any_number);
}

void cover_meets(void) {
  static uint64_t ids[CORNERS];
  for (int k = 0; k < CORNERS; k++) ids[k] = any_cell;
  for (size_t count = 0; count <= CORNERS; count++) {
    const s2u_cover_cells cells = {ids, count};
    s2u_cover_meets(&cells, any_cell);
  }
}

void cover_divide(void) {
  static uint64_t ids[CORNERS];
  s2u_cover_node below[CORNERS];
  for (int k = 0; k < CORNERS; k++) ids[k] = any_cell;
  const s2u_cover_cells cells = {ids, CORNERS};
  const s2u_cover_node node = {any_cell, 0, CORNERS};
  s2u_cover_divide(&cells, &node, below);
}

void cover_add_around(void) { /* a leaf, and the leaves that touch it */
  uint64_t ids[8];
  s2u_cover_cells cells = {ids, 0};
  s2u_square at;
  if (s2u_square_of(any_cell, &at) != S2U_OK) return;
  at.size = 1;
  s2u_cover_add_around(&at, 30, &cells);
}

void cover_join_longitudes(void) {
  s2u_cover_bounds boxes[SEAMS], box;
  for (size_t count = 1; count <= SEAMS; count++) {
    for (int k = 0; k < SEAMS; k++)
      s2u_cover_box_of(Frama_C_unsigned_int_interval(0, 5), any_number, any_number, any_number, &boxes[k]);
    s2u_cover_by_its_west(&boxes[0], &boxes[1]);
    s2u_cover_join_longitudes(boxes, count, &box);
  }
}
