/* Coverings of s2union_cover.h and clips of s2union_join.h of what libFuzzer makes: bytes as WKB, and shapes of few and
 * of odd numbers. Whatever they are, there is an error by name, or an outer covering that has the inner one, and a clip
 * that has the same places. Both coverings agree with the shape itself about its corners, and a place. The first two
 * bytes are options. bindings/c/tests/check.sh builds it. */
#include <s2union_join.h>
#include <stdio.h>

static void must(int holds, const char* what) {
  if (holds) return;
  fprintf(stderr, "FAILED: %s\n", what);
  abort();
}
#define MUST(holds) must((holds), __FILE__ ": " #holds)

static int has(const s2u_cover_cells* cells, uint64_t leaf) {
  return s2u_contains_cell(cells->ids, cells->count, leaf) == 1;
}

static void look(int32_t status, const s2u_cover_options* options, s2u_cover_cells* outer, s2u_cover_cells* inner) {
  if (status == S2U_OK) {
    MUST(s2u_is_union(outer->ids, outer->count) == 1 && s2u_is_union(inner->ids, inner->count) == 1);
    MUST(s2u_contains(outer->ids, outer->count, inner->ids, inner->count) == 1);
    MUST(outer->count <= (options->max_cells < 6 ? 6 : options->max_cells) && inner->count <= options->max_cells);
  } else {
    MUST((status <= S2U_COVER_NUMBER && status >= S2U_COVER_DEEP) || status == S2U_MEMORY);
    MUST(strlen(s2u_cover_status_text(status)) > 9);
  }
}

/* A clip has the shape's places of its tile: the middle, which is in the tile, and what the clip's own clip has. */
static void of_clip(const uint8_t* bytes, size_t size, uint64_t tile) {
  s2u_join_bytes clip, again;
  s2u_cover_fault fault;
  double longitude, latitude;
  int whole, part;
  int32_t status = s2u_join_clip(bytes, size, tile, &clip, &fault);
  MUST(status == S2U_OK || (status <= S2U_COVER_NUMBER && status >= S2U_COVER_DEEP) || status == S2U_MEMORY);
  if (status != S2U_OK) return;
  s2u_geo_middle(tile, &longitude, &latitude);
  if (s2u_join_covers(bytes, size, longitude, latitude, &whole, &fault) == S2U_OK &&
      s2u_join_covers(clip.at, clip.size, longitude, latitude, &part, &fault) == S2U_OK)
    MUST(whole == part);
  if (s2u_join_clip(clip.at, clip.size, tile, &again, &fault) == S2U_OK) MUST(again.size <= clip.size);
  free(clip.at);
  free(again.at);
}

static void of_wkb(const uint8_t* bytes, size_t size, const s2u_cover_options* options) {
  s2u_cover_cells outer, inner;
  s2u_cover_fault fault;
  uint8_t* copy = malloc(size + 1);
  if (!copy) return;
  memcpy(copy, bytes, size);
  look(s2u_cover_wkb(copy, size, options, &outer, &inner, &fault), options, &outer, &inner);
  MUST(fault.position <= size);
  s2u_cover_free(&outer);
  s2u_cover_free(&inner);
  uint64_t leaf = s2u_geo_leaf((double)(options->max_cells * 6) - 180, options->max_level * 6.0 - 90);
  of_clip(copy, size, s2u_parent(leaf, options->max_level / 3));
  free(copy);
}

static double degrees_of(const uint8_t* bytes, double most) {
  static const double some[] = {0, 1, 0.5, 1e-7, 1, 1, 0.25, 1.0 / 3};
  double whole = (int8_t)bytes[0] / 127.0 * most;
  return bytes[1] % 4 ? most / 6 * (bytes[0] % 13 - 6) : whole * some[bytes[1] / 4 % 8];
}

/* Both coverings of a shape on the map, and a join, say of its corners, and of a place, what the shape itself says. */
static void of_places(const s2u_cover_shape* shape, const double* place, const s2u_cover_cells* outer,
                      const s2u_cover_cells* inner) {
  size_t count = shape->count ? shape->rings[shape->count - 1].end : 0;
  s2u_join_bytes wkb = {NULL, 0};
  s2u_cover_fault fault;
  s2u_join_put_shape(&wkb, shape);
  if (!(wkb.at = malloc(wkb.size))) return;
  s2u_join_put_shape(&wkb, shape);
  s2u_join_zones zones;
  size_t wrong;
  int32_t made = s2u_join_zones_of(&wkb, 1, &zones, &wrong, &fault);
  MUST(made == S2U_OK);
  for (size_t k = 0; k <= count; k++) {
    const double* at = k < count ? shape->positions + 2 * k : place;
    uint64_t leaf = s2u_geo_leaf(at[0], at[1]);
    int covers;
    MUST(s2u_join_covers(wkb.at, wkb.size, at[0], at[1], &covers, &fault) == S2U_OK && (covers || k == count));
    MUST(covers ? has(outer, leaf) : !has(inner, leaf));
    s2u_cover_list pairs;
    int32_t asked = s2u_join_pairs_of(&zones, &at[0], &at[1], 1, 1, &pairs, &wrong);
    MUST(asked == S2U_OK && pairs.count == (size_t)covers);
    free(pairs.at);
  }
  s2u_join_free(&zones);
  free(wkb.at);
}

static void of_positions(const uint8_t* bytes, size_t size, const s2u_cover_options* options) {
  enum { MOST = 40 };
  double positions[2 * MOST];
  s2u_cover_ring rings[MOST];
  size_t count = 0, ended = 0, begin = 0;
  const double place[2] = {options->max_cells * 17.0 - 540, options->max_level * 6.0 - 90};
  for (; size >= 5 && count + 1 < MOST; bytes += 5, size -= 5) {
    positions[2 * count] = degrees_of(bytes, bytes[4] & 4 ? 540 : 180);
    positions[2 * count + 1] = degrees_of(bytes + 2, 90);
    count++;
    if (count - begin < 3 || bytes[4] % 4) continue;
    int is_line = bytes[4] % 16 == 8;
    if (!is_line) memcpy(positions + 2 * count, positions + 2 * begin, 16), count++;
    rings[ended].end = begin = count;
    rings[ended].polygon = is_line ? S2U_COVER_LINE : ended / (1 + bytes[4] / 128);
    ended++;
  }
  s2u_cover_shape shape = {positions, rings, ended};
  s2u_cover_cells outer, inner;
  s2u_cover_fault fault;
  int32_t status = s2u_cover(&shape, options, &outer, &inner, &fault);
  look(status, options, &outer, &inner);
  if (status == S2U_OK && options->edges == S2U_COVER_MAP) of_places(&shape, place, &outer, &inner);
  s2u_cover_free(&outer);
  s2u_cover_free(&inner);
}

int LLVMFuzzerTestOneInput(const uint8_t* bytes, size_t size) {
  if (size < 2) return 0;
  s2u_cover_options options = {bytes[0] % 64, 0, bytes[0] & 128 ? 30 : bytes[1] % 31u, bytes[1] % 3u, 0};
  if (bytes[1] & 64) options.margin = 1000 * (bytes[0] % 300);
  if (bytes[1] & 128) of_wkb(bytes + 2, size - 2, &options);
  else of_positions(bytes + 2, size - 2, &options);
  return 0;
}
