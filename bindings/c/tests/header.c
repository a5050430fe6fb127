/* The header alone, in each of the languages that it is for. */
#include <s2union.h>

/* The bounds of a number of cells, computed from an int: more than an int holds. */
static int sizes_are_wide(int cells) {
  uint64_t n = (uint64_t)cells;
  return S2U_MOST_TOKENS(cells) == 17 * n && S2U_MOST_ANCESTORS(cells) == 31 * n && S2U_FILE_SIZE(cells) == 9 + 8 * n &&
         S2U_MOST_DIFFERENCE(cells, cells) == 91 * n && S2U_MOST_SYMMETRIC_DIFFERENCE(cells, cells) == 180 * n &&
         S2U_MOST_COMPLEMENT(cells) == 6 + 90 * n;
}

int main(void) {
  int is_whole = s2u_version() == S2U_VERSION && s2u_status_text(S2U_ROOM)[0] == 't';
  return is_whole && sizes_are_wide(300000000) ? 0 : 1;
}
