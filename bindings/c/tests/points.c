/* The leaves of places by s2union_geo.h: lines of standard input have a longitude, a latitude and the token that S2 has
 * there. It is C and C++. The last line is 'N passed, M failed'. */
#include <s2union_geo.h>
#include <stdio.h>
#include <string.h>

static int is_near(double x, double y, double longitude, double latitude) {
  return fabs(y - latitude) < 1e-7 && (fabs(latitude) > 89 || fabs(remainder(x - longitude, 360)) < 2e-7);
}

/* Whether the middle of a cell is, as near as numbers go, what it is if the latitude is taken by hypot; and whether a
 * leaf is that of its middle by both. That of a larger cell is a corner of four leaves, so any of these may have it. */
static int is_as_by_hypot(uint64_t cell) {
  double longitude, latitude, other;
  s2u_square square;
  if (s2u_square_of(cell, &square) != S2U_OK || s2u_geo_middle(cell, &longitude, &latitude) != S2U_OK) return 0;
  const double u = s2u_geo_uv_of(square.i + square.size / 2.0), v = s2u_geo_uv_of(square.j + square.size / 2.0);
  const double at[6][3] = {{1, u, v}, {-u, 1, v}, {-u, -v, 1}, {-1, -v, -u}, {v, -1, -u}, {v, u, -1}};
  const double* to = at[square.face];
  other = atan2(to[2], hypot(to[0], to[1])) * (180 / S2U_GEO_PI);
  if (fabs(other - latitude) > 4e-14) return 0;
  return square.size > 1 || (s2u_geo_leaf(longitude, latitude) == cell && s2u_geo_leaf(longitude, other) == cell);
}

static int all_as_by_hypot(void) {
  uint64_t state = 1;
  for (int turn = 0; turn < 1000000; turn++) {
    uint32_t i, j;
    state = state * 6364136223846793005u + 1442695040888963407u;
    i = (uint32_t)(state >> 34), j = (uint32_t)(state >> 4) & 0x3fffffff;
    uint64_t cell = s2u_parent(s2u_from_face_ij((uint32_t)turn % 6, i, j), turn % 4 ? 30 : (uint32_t)turn / 4 % 31);
    if (!is_as_by_hypot(cell)) return 0;
  }
  return 1;
}

int main(void) {
  double longitude, latitude, x, y;
  char token[17];
  int passed = 0, failed = 0;
  while (scanf("%lf %lf %16s", &longitude, &latitude, token) == 3) {
    uint64_t wanted = 0, leaf = s2u_geo_leaf(longitude, latitude);
    int is_so = s2u_from_token(token, strlen(token), &wanted) == S2U_OK && leaf == wanted &&
                s2u_geo_middle(leaf, &x, &y) == S2U_OK && is_near(x, y, longitude, latitude);
    is_so ? passed++ : failed++;
  }
  const double wrong[][2] = {{541, 0}, {-541, 0}, {0, 91}, {0, -91}, {NAN, 0}, {0, NAN}, {INFINITY, 0}};
  for (size_t k = 0; k < sizeof wrong / sizeof *wrong; k++)
    s2u_geo_leaf(wrong[k][0], wrong[k][1]) ? failed++ : passed++;
  s2u_geo_middle(2, &x, &y) == S2U_NO_CELL ? passed++ : failed++;
  all_as_by_hypot() ? passed++ : failed++;
  printf("%d passed, %d failed\n", passed, failed);
  return passed < 11 || failed > 0;
}
