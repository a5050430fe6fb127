/* Coverings of the texts and bytes that tests/model/maps.py prints, which are the standard input: each with
 * all the room that it needs, with less and with none; of shapes that cost much; and what no argument may do. */
#include "tests.h"

enum { WORDS = 13 };

typedef int32_t map_call(const void*, size_t, uint32_t, uint64_t, uint64_t*, size_t, size_t*, size_t*,
                         s2u_shape_fault*);

/* Each call with its bound as a number of 64 bits. */
#define CALL_OF(name)                                                                                                  \
  static int32_t name(const void* at, size_t n, uint32_t level, uint64_t most, uint64_t* out, size_t room,            \
                      size_t* len, size_t* outer, s2u_shape_fault* fault) {                                           \
    return s2u_##name(at, n, level, most, out, room, len, outer, fault);                                               \
  }
CALL_OF(map_wkb)
CALL_OF(map_geojson)
CALL_OF(geodesic_wkb)
CALL_OF(geodesic_geojson)
CALL_OF(map_wkb_up_to)
CALL_OF(map_geojson_up_to)

static map_call* call_of(const char* name) {
  static const struct {
    const char* name;
    map_call* call;
  } calls[] = {{"map_wkb", map_wkb}, {"map_geojson", map_geojson}, {"geodesic_wkb", geodesic_wkb},
               {"geodesic_geojson", geodesic_geojson}, {"map_wkb_up_to", map_wkb_up_to},
               {"map_geojson_up_to", map_geojson_up_to}};
  for (size_t k = 0; k < sizeof calls / sizeof *calls; k++)
    if (!strcmp(name, calls[k].name)) return calls[k].call;
  return NULL;
}

static const s2u_shape_fault untouched = {99, 98, 97, 96, 95};

static int is_fault(const s2u_shape_fault* fault, size_t name, size_t byte, size_t part, size_t ring, size_t position) {
  return fault->name == name && fault->byte == byte && fault->part == part && fault->ring == ring &&
         fault->position == position;
}

static int is_untouched(const s2u_shape_fault* fault) { return is_fault(fault, 99, 98, 97, 96, 95); }

/* The names of faults as rows have them, in the order of their numbers. */
static size_t number_of(const char* name) {
  static const char* const names[] = {
      "truncated", "trailing", "order", "type", "uncovered", "srid", "member", "deep", "count", "few", "open",
      "not_finite", "utf8", "json", "twice", "no_type", "missing", "position", "range", "no_inside",
      "no_map", "long_edge", "spread"};
  for (size_t k = 0; k < sizeof names / sizeof *names; k++)
    if (!strcmp(name, names[k])) return k + 1;
  return 0;
}

/* Cells in hexadecimal, with blanks between them, to a list; how many. */
static size_t cells_of(const char* words, uint64_t* to) {
  size_t n = 0;
  char* end;
  for (; *words && *words != '\n'; words = *end == ' ' ? end + 1 : end) to[n++] = strtoull(words, &end, 16);
  return n;
}

/* A covering that there is, in each room. */
static void covered(map_call* call, const uint8_t* at, size_t n, uint32_t level, uint64_t bound, char** words) {
  size_t most = strlen(words[0]) + strlen(words[1]), len = 77, outer = 77;
  uint64_t* want = malloc(8 * (most + 1));
  size_t first = cells_of(words[0], want), all = first + cells_of(words[1], want + first);
  uint64_t* out = (uint64_t*)at_the_edge(8 * (all + 1)) + 1; /* with one before it that isn't the call's */
  s2u_shape_fault fault = untouched;
  out[-1] = 7;
  CHECK(call(at, n, level, bound, out, all, &len, &outer, &fault) == S2U_OK && len == all && outer == first);
  CHECK(memcmp(out, want, 8 * all) == 0 && out[-1] == 7 && is_untouched(&fault));
  CHECK(s2u_is_union(out, outer) == 1 && s2u_is_union(out + outer, len - outer) == 1);
  const size_t rooms[] = {0, first, all - 1, all / 2};
  for (size_t k = 0; k < 4 && all > 0; k++) {
    if (rooms[k] >= all) continue;
    for (size_t c = 0; c < all; c++) out[c] = 7;
    CHECK(call(at, n, level, bound, rooms[k] ? out : NULL, rooms[k], &len, &outer, &fault) == S2U_ROOM);
    CHECK(len == all && outer == first && out[0] == 7 && out[all - 1] == 7 && is_untouched(&fault));
  }
  free(want);
}

/* A row: the name of a call, bytes, a level, a bound, and the answer. */
static void row(char* line) {
  char* words[WORDS] = {0};
  size_t count = 0, n = 0, len = 77, outer = 77;
  for (char* word = line; word && count < WORDS; word = strchr(word, '\t')) {
    if (count) *word++ = 0;
    words[count++] = word;
  }
  words[count - 1][strcspn(words[count - 1], "\n")] = 0;
  map_call* call = call_of(words[0]);
  if (call == NULL) abort();
  uint8_t* at = at_the_edge(strlen(words[1]) / 2);
  for (const char* hex = words[1]; *hex; hex += 2) at[n++] = (uint8_t)strtoul((char[]){hex[0], hex[1], 0}, NULL, 16);
  uint32_t level = (uint32_t)strtoul(words[2], NULL, 10);
  uint64_t bound = strtoull(words[3], NULL, 10);
  if (words[4][0] != '!') {
    covered(call, n ? at : NULL, n, level, bound, words + 4);
    return;
  }
  uint64_t out[2] = {7, 7};
  s2u_shape_fault fault = untouched;
  int32_t status = call(n ? at : NULL, n, level, bound, out, 2, &len, &outer, &fault);
  CHECK(len == 0 && outer == 0 && out[0] == 7 && out[1] == 7);
  char name[20];
  unsigned long long of[4] = {0};
  if (!strcmp(words[4], "!many") || !strcmp(words[4], "!argument")) {
    CHECK(status == (words[4][1] == 'm' ? S2U_MANY : S2U_ARGUMENT) && is_untouched(&fault));
  } else {
    CHECK(sscanf(words[4], "!%19s %llu %llu %llu %llu", name, &of[0], &of[1], &of[2], &of[3]) == 5);
    CHECK(status == S2U_SHAPE && is_fault(&fault, number_of(name), of[0], of[1], of[2], of[3]));
  }
}

/* 64 KB that might cost much: a level that no zigzag is allowed, and what is no text in the last byte alone. */
static void much(void) {
  enum { SIZE = 65536 };
  char* text = at_the_edge(SIZE);
  size_t n = 0, len = 77, outer = 77;
  s2u_shape_fault fault = untouched;
  memset(text, '[', SIZE);
  CHECK(s2u_map_geojson(text, SIZE, 30, UINT64_MAX, NULL, 0, &len, &outer, &fault) == S2U_SHAPE);
  CHECK(is_fault(&fault, S2U_FAULT_JSON, 0, 0, 0, 0));
  n = (size_t)sprintf(text, "{\"type\":\"Polygon\",\"coordinates\":[[[0,0]");
  for (int side = 0; n < SIZE - 20; side = 1 - side)
    n += (size_t)sprintf(text + n, ",[%d,%d]", side ? 99 : 9, 80 * side);
  n += (size_t)sprintf(text + n, ",[0,0]]]}");
  CHECK(s2u_map_geojson(text, n, 30, UINT64_C(1) << 24, NULL, 0, &len, &outer, &fault) == S2U_MANY && len == 0);
  CHECK(s2u_map_geojson(text, n, 30, 0, NULL, 0, &len, &outer, &fault) == S2U_MANY && len == 0);
  CHECK(s2u_map_geojson(text, n, 2, S2U_MAP_WORK, NULL, 0, &len, &outer, &fault) == S2U_ROOM && len > 0);
  CHECK(s2u_map_geojson_up_to(text, n, 30, SIZE_MAX, NULL, 0, &len, &outer, &fault) == S2U_ROOM);
  CHECK(outer <= S2U_MOST_FEW && len - outer <= S2U_MOST_FEW);
  CHECK(s2u_map_geojson(text, n - 1, 2, S2U_MAP_WORK, NULL, 0, &len, &outer, &fault) == S2U_SHAPE);
  CHECK(is_fault(&fault, S2U_FAULT_JSON, 0, 0, 0, 0) && len == 0 && outer == 0);
  uint8_t* bytes = (uint8_t*)text;
  for (size_t k = 0; k < SIZE; k++) bytes[k] = (uint8_t[]){1, 7, 0, 0, 0, 1, 0, 0, 0}[k % 9];
  CHECK(s2u_map_wkb(bytes, SIZE, 30, UINT64_MAX, NULL, 0, &len, &outer, &fault) == S2U_SHAPE);
  CHECK(is_fault(&fault, S2U_FAULT_DEEP, 33 * 9, 0, 0, 0));
}

int main(void) {
  char* line = NULL;
  size_t size = 0;
  while (getline(&line, &size, stdin) > 0) row(line);
  free(line);
  much();
  CHECK(!strcmp(s2u_fault_text(0), s2u_fault_text(24)) && strcmp(s2u_fault_text(1), s2u_fault_text(23)));
  return report();
}
