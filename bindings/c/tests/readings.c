/* Shapes of the texts and bytes that tests/model/readings.py prints, which are the standard input: each with all the
 * room that it needs, with less and with none; by s2union_cover.h; and 64 KB that might cost much. The last line is
 * 'N passed, M failed'. */
#include <s2union_cover.h>
#include "tests.h"

typedef struct {
  double* positions;
  s2u_ring* rings;
  size_t count, ends;
} shape;

static int32_t read_to(int is_text, const uint8_t* at, size_t n, s2u_place* places, size_t room, size_t* len,
                       s2u_ring* rings, size_t rings_room, size_t* rings_len, s2u_shape_fault* fault) {
  return is_text ? s2u_shape_geojson((const char*)at, n, places, room, len, rings, rings_room, rings_len, fault)
                 : s2u_shape_wkb(at, n, places, room, len, rings, rings_room, rings_len, fault);
}

/* The names of faults as rows have them, in the order of their numbers. */
static size_t number_of(const char* name) {
  static const char* const names[] = {"truncated", "trailing", "order", "type", "uncovered", "srid", "member", "deep",
                                      "count", "few", "open", "not_finite", "utf8", "json", "twice", "no_type",
                                      "missing", "position", "range"};
  for (size_t k = 0; k < sizeof names / sizeof *names; k++)
    if (!strcmp(name, names[k])) return k + 1;
  return 0;
}

/* The rings of a row, from its third word on. */
static shape shape_of(const char* words) {
  size_t most = strlen(words) / 2 + 1;
  shape it = {malloc(16 * most), malloc(sizeof(s2u_ring) * most), 0, 0};
  char* end;
  for (const char* at = words; *at; at = *end ? end + 1 : end) {
    uint64_t polygon = *at == '-' ? UINT64_MAX : strtoull(at, NULL, 10);
    end = strchr(at, ':');
    do it.positions[it.count++] = strtod(end + 1, &end);
    while (*end == ',');
    it.rings[it.ends++] = (s2u_ring){it.count / 2, polygon};
  }
  it.count /= 2;
  return it;
}

static const s2u_shape_fault untouched = {99, 98, 97, 96, 95};

static int is_untouched(const s2u_shape_fault* fault) { return !memcmp(fault, &untouched, sizeof untouched); }

/* A shape that there is: all of it is written if both lists have room, else nothing is. */
static void is_read(int is_text, const uint8_t* at, size_t n, const shape* want) {
  size_t most = is_text ? S2U_MOST_SHAPE_GEOJSON(n) : S2U_MOST_SHAPE_WKB(n);
  CHECK(want->count <= most && want->ends <= want->count);
  const size_t rooms[][2] = {{want->count, want->ends}, {want->count + 1, want->ends + 3}, {0, 0},
                             {want->count - 1, want->ends}, {want->count, want->ends - 1}};
  for (size_t k = 0; k < sizeof rooms / sizeof *rooms; k++) {
    size_t len = 77, ends = 77, room = rooms[k][0], rings_room = rooms[k][1];
    if (room > want->count + 1 || rings_room > want->ends + 3) continue; /* none is fewer than none */
    s2u_place* places = at_the_edge(sizeof(s2u_place) * (room + 1)); /* with one before it that isn't the call's */
    s2u_ring* rings = malloc(sizeof(s2u_ring) * (rings_room + 1));
    s2u_shape_fault fault = untouched;
    memset(places, 7, sizeof(s2u_place) * (room + 1)), memset(rings, 7, sizeof(s2u_ring) * (rings_room + 1));
    int32_t status = read_to(is_text, at, n, room ? places + 1 : NULL, room, &len, rings_room ? rings : NULL,
                             rings_room, &ends, &fault);
    int fits = room >= want->count && rings_room >= want->ends;
    size_t written = fits ? want->count : 0, ended = fits ? want->ends : 0;
    CHECK(status == (fits ? S2U_OK : S2U_ROOM) && len == want->count && ends == want->ends && is_untouched(&fault));
    CHECK(!memcmp(places + 1, want->positions, 16 * written) && !memcmp(rings, want->rings, sizeof *rings * ended));
    CHECK(((uint8_t*)places)[15] == 7 && ((uint8_t*)(rings + ended))[0] == 7);
    for (size_t c = written; c < room; c++) CHECK(((uint8_t*)(places + 1 + c))[0] == 7);
    free(rings);
  }
}

/* What s2union_cover.h makes of it: the same lists, or a status with the place of the fault. */
static void is_opened(int is_text, const uint8_t* at, size_t n, const shape* want, const s2u_shape_fault* told) {
  s2u_cover_reader reader;
  s2u_cover_shape found;
  s2u_cover_fault fault;
  int32_t status = s2u_cover_open(at, n, is_text, &reader, &found, &fault);
  if (want) {
    CHECK(status == S2U_OK && found.count == want->ends && reader.positions.count == want->count);
    CHECK(!memcmp(found.positions, want->positions, 16 * want->count));
    CHECK(!memcmp(found.rings, want->rings, sizeof(s2u_ring) * want->ends));
  } else {
    int is_of_byte = s2u_cover_is_of_byte(status);
    CHECK(status <= S2U_COVER_NUMBER && found.count == 0 && fault.name == told->name && !(is_text && is_of_byte));
    CHECK(fault.position == (is_of_byte ? told->byte : told->position) && fault.ring == (is_of_byte ? 0 : told->ring));
  }
  s2u_cover_close(&reader);
}

static void row(char* line) {
  line[strcspn(line, "\n")] = 0;
  char *hex = strchr(line, '\t') + 1, *words = strchr(hex, '\t');
  int is_text = line[0] == 'g';
  size_t n = (words ? (size_t)(words - hex) : strlen(hex)) / 2, len = 77, ends = 77;
  uint8_t* at = at_the_edge(n);
  for (size_t k = 0; k < n; k++) at[k] = (uint8_t)strtoul((char[]){hex[2 * k], hex[2 * k + 1], 0}, NULL, 16);
  const uint8_t* given = n ? at : NULL;
  words = words ? words + 1 : hex + strlen(hex);
  if (*words != '!') {
    shape want = shape_of(words);
    is_read(is_text, given, n, &want);
    is_opened(is_text, given, n, &want, NULL);
    free(want.positions), free(want.rings);
    return;
  }
  char name[20];
  unsigned long long of[4];
  s2u_place place = {7, 7};
  s2u_ring ring = {7, 7};
  s2u_shape_fault fault = untouched;
  CHECK(sscanf(words, "!%19s %llu %llu %llu %llu", name, &of[0], &of[1], &of[2], &of[3]) == 5);
  CHECK(read_to(is_text, given, n, &place, 1, &len, &ring, 1, &ends, &fault) == S2U_SHAPE && len == 0 && ends == 0);
  CHECK(fault.name == number_of(name) && fault.byte == of[0] && fault.part == of[1] && fault.ring == of[2] &&
        fault.position == of[3] && place.longitude == 7 && ring.end == 7);
  is_opened(is_text, given, n, NULL, &fault);
}

/* 64 KB that might cost much: lists in each other, points, numbers of many digits, names, features, and collections. */
static void much(void) {
  enum { SIZE = 65536 };
  static const char* const texts[] = {"[", "[[],", "{\"type\":\"MultiPoint\",\"coordinates\":[|[0,0],", "\"\\u0000",
                                      "{\"type\":\"Point\",\"coordinates\":[0.|1234567890", "{|\"a\":0,",
                                      "{|\"\\u0061b\":[],",
                                      "{\"type\":\"FeatureCollection\",\"features\":[|{\"type\":\"Feature\"},", "1e|9"};
  char* text = at_the_edge(SIZE);
  s2u_place* places = malloc(sizeof(s2u_place) * SIZE);
  s2u_ring* rings = malloc(sizeof(s2u_ring) * SIZE);
  for (size_t k = 0; k <= sizeof texts / sizeof *texts; k++) {
    size_t len = 77, ends = 77, n = 0;
    s2u_shape_fault fault = untouched;
    const char* own = k < sizeof texts / sizeof *texts ? texts[k] : "";
    const char* again = strchr(own, '|') ? strchr(own, '|') + 1 : own;
    for (const char* from = own; from < again - 1; from++) text[n++] = *from;
    for (; *again && n < SIZE; n++) text[n] = again[(n - (size_t)(again - own - (again > own))) % strlen(again)];
    for (; n < SIZE; n++) text[n] = (char)((uint8_t[]){1, 7, 0, 0, 0, 1, 0, 0, 0})[n % 9];
    CHECK(read_to(*own != 0, (const uint8_t*)text, SIZE, places, SIZE, &len, rings, SIZE, &ends, &fault) == S2U_SHAPE);
    CHECK(len == 0 && ends == 0);
  }
  free(places), free(rings);
}

int main(void) {
  char* line = NULL;
  size_t size = 0;
  while (getline(&line, &size, stdin) > 0) row(line);
  free(line);
  much();
  return report();
}
