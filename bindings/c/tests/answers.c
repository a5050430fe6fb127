/* A sum of the library's answers to drawn questions, by which two builds of it are compared: answers SEED ROUNDS [SUM].
 * In each round each call of the header is made once: tools/calls writes the list, so none is left out. Two libraries
 * that answer alike print the same. With SUM, the status is 1 if the last sum is another.
 *
 * Numbers that are no cells are drawn too, and lists that are no unions, levels that don't exist, bytes of files with a
 * mistake, texts that name nothing, and rooms that are too small. If it is compiled with REFUSING, and linked with a
 * library without a heap, it is the heap, and refuses every third block. Nothing but C's own library is needed. No draw
 * and no call stands among the arguments of a call that another may change: compilers evaluate arguments in different
 * orders. */
#include "calls.h"
#include <inttypes.h>
#include <s2union.h>
#include <stdio.h>
#include <stdlib.h>
#include <string.h>

enum { MOST = 32, ROOM = 256, LAST = 0x3fffffff };

static uint64_t state = 88172645463325252u, sum = 14695981039346656037u;

static uint64_t draw(void) {
  state ^= state << 13;
  state ^= state >> 7;
  state ^= state << 17;
  return state;
}

static uint32_t below(uint32_t n) {
  return (uint32_t)(draw() >> 32) % n;
}

/* ---- the heap */

static uint64_t taken, given_back, asked;

#ifdef REFUSING
static s2u_block block_of(void* at) {
  static uint64_t nowhere[2];
  taken += at != NULL;
  return (s2u_block){at != NULL, at != NULL ? at : nowhere};
}

static int is_refused(void) {
  return ++asked % 3 == 0;
}

s2u_block s2u_heap_take(size_t size, size_t align) {
  return block_of(is_refused() ? NULL : malloc(size != 0 ? size : align));
}

s2u_block s2u_heap_grow(void* at, size_t old_size, size_t size, size_t align) {
  (void)old_size, (void)align;
  void* grown = is_refused() ? NULL : realloc(at, size);
  given_back += grown != NULL;
  return block_of(grown);
}

void s2u_heap_give_back(void* at) {
  given_back++;
  free(at);
}
#endif

/* ---- what a call is given */

static uint64_t xs[MOST], ys[MOST], ids[MOST], id, other, place;
static size_t nx, ny, ids_room, ends[3], lists, most;
static uint8_t file[9 + 8 * MOST], other_file[9 + 8 * MOST];
static char words[18 * MOST];
static size_t file_size, other_size, words_size;
static s2u_point points[MOST];
static size_t points_count;
static uint32_t level, modulus, i, j;
static s2u_rect rect;
static s2u_direction corners[8];
static double longitude, latitude;
static size_t corners_count, corner_ends[2], rings;
static uint64_t outside, margin;
static uint32_t coarse, least, deepest;
static uint8_t wkb[256];
static char geojson[400];
static size_t wkb_size, geojson_size;
static uint64_t shape_work;

/* Mostly a cell, often one near others; sometimes any number. */
static uint64_t drawn(void) {
  if (below(16) == 0) return draw();
  uint32_t deep = below(31), face = below(6), at = below(LAST), to = below(LAST);
  uint64_t leaf = below(3) == 0 ? s2u_from_face_ij(face, at, to)
                                : s2u_from_face_ij(face % 2, at % 40 << 4, to % 40 << 4);
  return s2u_parent(leaf, deep);
}

/* Mostly a union; sometimes any list. Its length. */
static size_t drawn_list(uint64_t* list) {
  size_t n = below(MOST), length = 0;
  for (size_t at = 0; at < n; at++) list[at] = drawn();
  if (below(8) == 0) return n;
  return s2u_normalise(list, n, &length) == S2U_OK ? length : 0;
}

/* The bytes of a list as a file, sometimes with a byte of it changed, or some cut off. Their number. */
static size_t drawn_file(const uint64_t* list, size_t n, uint8_t* to) {
  size_t size = 0;
  if (s2u_encode(list, n, to, 9 + 8 * MOST, &size) != S2U_OK) return 0;
  if (below(3) == 0) to[below((uint32_t)size)] ^= (uint8_t)draw();
  return below(8) == 0 ? below((uint32_t)size + 1) : size;
}

/* A token, a debug text or a list of tokens, sometimes with a character changed. Its length. */
static size_t drawn_words(char* to) {
  size_t size = 0;
  uint32_t form = below(3);
  int32_t status = form == 0   ? s2u_token(id, to, sizeof words, &size)
                   : form == 1 ? s2u_debug(id, to, sizeof words, &size)
                               : s2u_tokens(xs, nx, to, sizeof words, &size);
  if (status != S2U_OK || size == 0) return 0;
  if (below(4) == 0) to[below((uint32_t)size)] = "0123456789abcdefX/ \n-"[below(21)];
  return size;
}

/* Two rings of corners; sometimes a corner, an end, the leaf outside, the margin or a level is wrong. */
static void draw_polygon(void) {
  corners_count = below(8) ? 8 : below(9), rings = below(8) ? 2 : below(3);
  for (size_t at = 0; at < corners_count; at++) {
    int64_t* parts[] = {&corners[at].x, &corners[at].y, &corners[at].z};
    for (size_t part = 0; part < 3; part++) *parts[part] = below(200) ? (int64_t)below(41) - 20 : (int64_t)draw();
  }
  corner_ends[0] = below(8) ? 4 : below(9), corner_ends[1] = corners_count;
  outside = below(8) ? s2u_range_min(id) : id, margin = below(2) ? 0 : draw() >> 3;
  coarse = below(40) ? below(5) : level, least = below(4), deepest = below(5) + 2;
  if (coarse > 5) coarse |= 32; /* no level: at a deep one an edge meets very many cells */
}

/* A ring as WKB and as GeoJSON, sometimes with a byte changed, or some cut off. Its numbers have few digits. */
static void draw_shape(void) {
  static const uint8_t head[] = {1, 3, 0, 0, 0, 1, 0, 0, 0};
  uint32_t n = below(6) + 3;
  uint8_t* to = wkb + sizeof head;
  char* at = geojson + sprintf(geojson, "{\"type\":\"Polygon\",\"coordinates\":[[");
  memcpy(wkb, head, sizeof head);
  *to++ = (uint8_t)(n + 1), *to++ = 0, *to++ = 0, *to++ = 0;
  double first[2] = {0, 0};
  for (uint32_t k = 0; k <= n; k++) {
    double place[2];
    place[0] = (double)below(2880) / 8 - 180;
    place[1] = (double)below(1440) / 8 - 90;
    if (k == 0) memcpy(first, place, sizeof place);
    if (k == n && below(16)) memcpy(place, first, sizeof place);
    for (size_t part = 0; part < 2; part++) {
      uint64_t bits;
      memcpy(&bits, &place[part], sizeof bits);
      for (size_t byte = 0; byte < 8; byte++) *to++ = (uint8_t)(bits >> 8 * byte);
    }
    at += sprintf(at, "%s[%.3f,%.3f]", k == 0 ? "" : ",", place[0], place[1]);
  }
  at += sprintf(at, "]]}");
  wkb_size = (size_t)(to - wkb), geojson_size = (size_t)(at - geojson);
  size_t wrong = below((uint32_t)wkb_size), other_wrong = below((uint32_t)geojson_size);
  if (below(4) == 0) wkb[wrong] ^= (uint8_t)draw();
  if (below(4) == 0) geojson[other_wrong] = "0129.,-+eE[]{}\":typeP x\377"[below(26)];
  if (below(8) == 0) wkb_size = below((uint32_t)wkb_size + 1);
  if (below(8) == 0) geojson_size = below((uint32_t)geojson_size + 1);
  shape_work = below(8) ? S2U_MAP_WORK : below(1 << 20);
}

static void draw_all(void) {
  id = drawn(), other = below(4) ? drawn() : s2u_range_max(id);
  level = below(34), modulus = below(5), most = below(8) ? below(60) : draw();
  i = below(8) ? below(LAST) : (uint32_t)draw(), j = below(8) ? below(LAST) : (uint32_t)draw();
  nx = drawn_list(xs), ny = drawn_list(ys);
  place = below(4) ? below((uint32_t)nx + 2) : draw();
  ids_room = below(MOST);
  for (size_t at = 0; at < ids_room; at++) ids[at] = drawn();
  lists = below(4);
  for (size_t at = 0; at < lists; at++) ends[at] = below(8) ? nx * (at + 1) / lists : draw();
  points_count = below(MOST);
  for (size_t at = 0; at < points_count; at++) {
    points[at].face = below(40) ? below(6) : below(9);
    points[at].i = below(LAST), points[at].j = below(LAST);
  }
  uint32_t wide = below(2048), high = below(2048);
  rect = (s2u_rect){below(7), i / 2, i / 2 + wide, j / 2, j / 2 + high};
  file_size = drawn_file(xs, nx, file), other_size = drawn_file(ys, ny, other_file);
  words_size = drawn_words(words);
  longitude = (double)below(1100) - 550 + (double)below(1 << 20) / (1 << 20);
  latitude = (double)below(190) - 95 + (double)below(1 << 20) / (1 << 20);
  draw_polygon();
  draw_shape();
}

/* ---- what a call writes */

static uint64_t out[ROOM], more[ROOM], work[2 * MOST], number, other_number;
static uint8_t bytes[9 + 8 * MOST];
static char text[18 * MOST];
static size_t out_room, more_room, work_room, bytes_room, text_room, len, count;
static uint32_t small;
static s2u_square square;
static s2u_direction direction;
static s2u_shape_fault shape_fault;
static s2u_place places[MOST];
static s2u_ring shape_rings[MOST];
static size_t places_room, shape_rings_room;

static size_t drawn_room(size_t whole) {
  return below(8) ? whole : below(40);
}

static void draw_rooms(void) {
  out_room = drawn_room(ROOM), more_room = drawn_room(ROOM), work_room = drawn_room(2 * MOST);
  bytes_room = drawn_room(sizeof bytes), text_room = drawn_room(sizeof text);
  places_room = drawn_room(MOST), shape_rings_room = drawn_room(MOST);
}

/* All of it, so also what is behind the result and has to be as it was. */
static void see(const void* at, size_t size) {
  const uint8_t* from = at;
  uint64_t word;
  for (; size >= sizeof word; size -= sizeof word, from += sizeof word) {
    memcpy(&word, from, sizeof word);
    sum = (sum ^ word) * 1099511628211u;
    sum ^= sum >> 29;
  }
  for (; size > 0; size--) sum = (sum ^ *from++) * 1099511628211u;
}

/* ---- the rounds */

static uint64_t calls_made;

static void say(uint64_t answer) {
  see(&answer, sizeof answer);
  calls_made++;
}

#define SEE(what) see(&what, sizeof what);
#define ASK(name, arguments, written) say((uint64_t)s2u_##name arguments); written

static void ask_each(void) {
  EACH_CALL(ASK)
  see(&asked, sizeof asked);
}

int main(int argc, char** argv) {
  if (argc < 3 || argc > 4) return 2;
  state ^= strtoull(argv[1], NULL, 10) << 20;
  long rounds = atol(argv[2]);
  (void)more, (void)more_room, (void)other_number, (void)small, (void)taken; /* no call may want them */
  for (long k = 1; k <= rounds; k++) {
    draw_all();
    draw_rooms();
    ask_each();
    if (taken != given_back) return puts("a block is not given back"), 1;
    if (k % 10000 == 0) printf("%ld rounds, sum %016" PRIx64 "\n", k, sum);
  }
  printf("%" PRIu64 " calls, sum %016" PRIx64 "\n", calls_made, sum);
  if (argc < 4 || strtoull(argv[3], NULL, 16) == sum) return 0;
  return puts("the sum is another one"), 1;
}
