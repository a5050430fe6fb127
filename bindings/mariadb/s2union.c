/* User functions of MariaDB and MySQL: a union is a BLOB, the union file that SQLite's extension has too, and a cell a
 * BIGINT. README.md says what each does. An argument of a wrong type is an error of the statement. A wrong value
 * answers NULL, since a user function can't end a statement once it has begun. */
#include <mysql.h>
#include <stdint.h>
#include <stdio.h>
#include <stdlib.h>
#include <string.h>

/* Whether KILL or a limit of time has ended this thread's statement, as MariaDB says to its plugins; MySQL doesn't.
 * While a covering is made, it is asked before the library gets memory, and the headers ask in their loops. */
extern void* _current_thd(void) __attribute__((weak));
extern int thd_killed(const void* thd) __attribute__((weak));
extern void my_error(unsigned number, unsigned long flags, ...) __attribute__((weak));
/* How its own functions warn of a value for which they answer NULL. */
extern void my_printf_error(unsigned number, const char* form, unsigned long flags, ...) __attribute__((weak));
enum { QUERY_INTERRUPTED = 1317, NO_GEOMETRY = 1416, AS_WARNING = 2048 };
static int is_killed(void) {
  const void* thd = _current_thd && thd_killed && my_error ? _current_thd() : NULL;
  return thd && thd_killed(thd);
}
static __thread int is_covering;
static void* taken(size_t size) { return is_covering && is_killed() ? NULL : malloc(size); }
#define S2U_HOST_TAKE(size) taken(size)
#define S2U_HOST_GIVE_BACK(at) free(at)
#pragma GCC visibility push(hidden)
#include <s2union_host.h>
#pragma GCC visibility pop
#define S2U_IS_CANCELLED() is_killed()
#include <s2union_cover.h>

typedef char flag; /* where the server hears whether the answer is NULL */

/* ---- what is given. The letters of arguments: a file to be asked, a list, a text or a list, a cell, what may be a
 * cell, a number, degrees, bytes, the WKB of a shape, or its WKB or GeoJSON. The first three are unions. A capital
 * letter may be left out. */

typedef struct {
  uint64_t* ids; /* of a list */
  uint8_t* file; /* that was made of a list */
  const uint8_t* bytes;
  size_t n, size;
  uint64_t cell;
  uint32_t number;
  double degrees;
} argument;

/* What a statement has of a function until its end: the last text or file that it answered, and of each argument the
 * size of the last file, and that file itself if it is kept. */
enum { MOST_ARGUMENTS = 3, WORTH_KEEPING = 250 };
typedef struct {
  char* answer;
  struct last { size_t size; uint8_t* file; } last[MOST_ARGUMENTS];
} state;

/* What an argument has to be that isn't; NULL if it is. A text without a length may be NULL, or a parameter that isn't
 * known yet. */
static const char* missed(const UDF_ARGS* args, unsigned k, char letter) {
  int is_text = args->arg_type[k] == STRING_RESULT;
  if (is_text && args->lengths[k] == 0 && !args->args[k]) return NULL;
  if (args->arg_type[k] == INT_RESULT && !strchr("ws", letter)) return NULL;
  switch (letter) {
    case 'm': case 'b': return NULL;
    case 'd': return is_text ? "a longitude or a latitude is a number" : NULL;
    case 'n': return "a level or the number of a child is an integer";
    case 'N': return "a number of cells or a level is an integer";
    case 'w': return is_text ? NULL : "a shape is a BLOB of WKB";
    case 's': return is_text ? NULL : "a shape is a BLOB of WKB, or a text of GeoJSON";
    case 'c': return is_text ? NULL : "a cell is an integer or a text";
    default: return is_text ? NULL : "a union is a BLOB, or cells in an integer or a text";
  }
}

static flag is_refused(UDF_ARGS* args, const char* letters, char* message) {
  if (args->arg_count < strcspn(letters, "N") || args->arg_count > strlen(letters)) {
    strcpy(message, "s2: another number of arguments");
    return 1;
  }
  for (unsigned k = 0; k < args->arg_count; k++) {
    const char* what = missed(args, k, letters[k]);
    if (what) {
      sprintf(message, "s2: argument %u: %s", k + 1, what);
      return 1;
    }
    if (letters[k] == 'd' && args->arg_type[k] != STRING_RESULT) args->arg_type[k] = REAL_RESULT;
  }
  return 0;
}

#define BYTES(k) (const uint8_t*)args->args[k], args->lengths[k]
#define TEXT(k) args->args[k], args->lengths[k]

static int read_cell(const UDF_ARGS* args, unsigned k, uint64_t* cell) {
  if (args->arg_type[k] == STRING_RESULT) return s2u_host_cell_of_text(TEXT(k), cell) == S2U_OK;
  if (args->arg_type[k] != INT_RESULT) return 0;
  *cell = (uint64_t)*(long long*)args->args[k];
  return s2u_is_cell(*cell);
}

/* Any number that is too large for a level, a child or cells is as good as another. */
static int read_number(const UDF_ARGS* args, unsigned k, uint32_t* number) {
  if (args->arg_type[k] != INT_RESULT) return 0;
  long long wide = *(long long*)args->args[k];
  *number = wide < 0 || wide > UINT32_MAX ? UINT32_MAX : (uint32_t)wide;
  return 1;
}

static int read_degrees(const UDF_ARGS* args, unsigned k, double* degrees) {
  if (args->arg_type[k] != REAL_RESULT) return 0;
  *degrees = *(double*)args->args[k];
  return 1;
}

static int read_bytes(const UDF_ARGS* args, unsigned k, argument* a) {
  if (args->arg_type[k] != STRING_RESULT) return 0;
  a->bytes = (const uint8_t*)args->args[k];
  a->size = args->lengths[k];
  return 1;
}

/* The server doesn't say whether bytes come or a text. No text of cells begins as a union file does. */
static int is_file(const UDF_ARGS* args, unsigned k) {
  return args->arg_type[k] == STRING_RESULT && args->lengths[k] > 0 && args->args[k][0] == 1;
}

/* The union of a file or of cells. No bytes at all are no file, but for `has_texts` the text of no cell. */
static int read_list(const UDF_ARGS* args, unsigned k, int has_texts, argument* a) {
  int is_text = args->arg_type[k] == STRING_RESULT;
  size_t room = is_file(args, k) ? S2U_MOST_IN_FILE(args->lengths[k]) : is_text ? S2U_MOST_NAMED(args->lengths[k]) : 1;
  if (is_text && args->lengths[k] == 0 && !has_texts) return 0;
  a->ids = malloc(8 * room + 8);
  a->n = 1;
  if (!a->ids || !is_text) return a->ids && read_cell(args, k, a->ids);
  if (is_file(args, k)) return s2u_decode(BYTES(k), a->ids, room, &a->n) == S2U_OK;
  return s2u_from_tokens(TEXT(k), a->ids, room, &a->n) == S2U_OK && s2u_normalise(a->ids, a->n, &a->n) == S2U_OK;
}

/* The file of a list, in memory of its own; NULL if there is none. */
static uint8_t* file_of(const uint64_t* ids, size_t n, size_t* size) {
  uint8_t* file = malloc(S2U_FILE_SIZE(n));
  if (!file || s2u_encode(ids, n, file, S2U_FILE_SIZE(n), size) == S2U_OK) return file;
  free(file);
  return NULL;
}

/* s2u_file_check of a file. One that comes again in each row, as in a join, is kept the second time if its cells are
 * normalized. From then on it is compared, which takes the place of the check and is faster. */
static int32_t check(struct last* last, const uint8_t* bytes, size_t size) {
  int again = last->size == size;
  if (again && last->file && memcmp(last->file, bytes, size) == 0) return 1;
  int32_t status = s2u_file_check(bytes, size);
  if (size <= WORTH_KEEPING) return status;
  free(last->file);
  *last = (struct last){size, again && status == 1 ? malloc(size) : NULL};
  if (last->file) memcpy(last->file, bytes, size);
  return status;
}

/* A file that can be asked: in place, if its cells are normalized. */
static int read_file(state* kept, const UDF_ARGS* args, unsigned k, argument* a) {
  int32_t status = is_file(args, k) ? check(&kept->last[k], BYTES(k)) : 0;
  a->bytes = (const uint8_t*)args->args[k];
  a->size = args->lengths[k];
  if (status != 0) return status == 1;
  if (read_list(args, k, 0, a)) a->bytes = a->file = file_of(a->ids, a->n, &a->size);
  return a->file != NULL;
}

static int read_argument(state* kept, const UDF_ARGS* args, unsigned k, char letter, argument* a) {
  switch (letter) {
    case 'f': return read_file(kept, args, k, a);
    case 'l': case 't': return read_list(args, k, letter == 't', a);
    case 'c': return read_cell(args, k, &a->cell);
    case 'm': a->number = (uint32_t)read_cell(args, k, &a->cell); return 1;
    case 'n': case 'N': return read_number(args, k, &a->number);
    case 'd': return read_degrees(args, k, &a->degrees);
    case 'w': case 's': return read_bytes(args, k, a);
    default: return a->number = is_file(args, k) && s2u_file_check(BYTES(k)) == 1, 1;
  }
}

/* Whether no argument is NULL, and each is what its letter wants. */
static int are_read(UDF_INIT* it, const UDF_ARGS* args, const char* letters, argument* a) {
  for (unsigned k = 0; k < args->arg_count; k++)
    if (!args->args[k]) return 0;
  for (unsigned k = 0; k < args->arg_count; k++)
    if (!read_argument((state*)it->ptr, args, k, letters[k], &a[k])) return 0;
  return 1;
}

static void give_back(argument* a) {
  for (int k = 0; k < MOST_ARGUMENTS; k++) free(a[k].ids), free(a[k].file);
}

/* `most` is the length of the longest answer. The server cuts answers at it wherever it keeps them: for DISTINCT, say.
 * It would take that of the arguments. */
static flag begin(UDF_INIT* it, UDF_ARGS* args, const char* letters, unsigned most, char* message) {
  it->maybe_null = 1, it->const_item = 0, it->ptr = NULL, it->max_length = most;
  if (is_refused(args, letters, message)) return 1;
  it->ptr = calloc(1, sizeof(state));
  if (!it->ptr) strcpy(message, "s2: out of memory");
  return !it->ptr;
}

static void end(UDF_INIT* it) {
  state* kept = (state*)it->ptr;
  for (int k = 0; kept && k < MOST_ARGUMENTS; k++) free(kept->last[k].file);
  if (kept) free(kept->answer);
  free(kept);
}

#define FUNCTION(name, letters, most)                                                               \
  flag name##_init(UDF_INIT* it, UDF_ARGS* args, char* message) {                                    \
    return begin(it, args, letters, most, message);                                                  \
  }                                                                                                  \
  void name##_deinit(UDF_INIT* it) { end(it); }

/* ---- numbers: `call` sets `answer`, and says whether there is one */

#define NUMBER(name, letters, call)                                                                 \
  FUNCTION(name, letters, 20)                                                                        \
  long long name(UDF_INIT* it, UDF_ARGS* args, flag* is_null, flag* error) {                         \
    (void)error;                                                                                     \
    uint64_t answer = 0;                                                                             \
    argument a[MOST_ARGUMENTS] = {{0}};                                                              \
    *is_null = (flag)!(are_read(it, args, letters, a) && (call));                                    \
    give_back(a);                                                                                    \
    return *is_null ? 0 : (long long)answer;                                                         \
  }
#define ASKED(call) ((answer = (uint64_t)(int64_t)(call)), (int64_t)answer >= 0)
#define FOUND(call) ((answer = (call)) != 0)
#define FILE_OF(k) a[k].bytes, a[k].size

NUMBER(s2_is_union, "b", ASKED(a->number))
NUMBER(s2_is_cell, "m", ASKED(a->number))
NUMBER(s2_contains, "ff", ASKED(s2u_file_contains(FILE_OF(0), FILE_OF(1))))
NUMBER(s2_contains_cell, "fc", ASKED(s2u_file_contains_cell(FILE_OF(0), a[1].cell)))
NUMBER(s2_intersects, "ff", ASKED(s2u_file_intersects(FILE_OF(0), FILE_OF(1))))
NUMBER(s2_intersects_cell, "fc", ASKED(s2u_file_intersects_cell(FILE_OF(0), a[1].cell)))
NUMBER(s2_count, "f", s2u_file_count(FILE_OF(0), &answer) == S2U_OK)
NUMBER(s2_leaves, "f", s2u_file_leaf_count(FILE_OF(0), &answer) == S2U_OK)
NUMBER(s2_level, "c", ASKED(s2u_level(a->cell)))
NUMBER(s2_face, "c", ASKED(s2u_face(a->cell)))
NUMBER(s2_parent, "cn", FOUND(s2u_parent(a->cell, a[1].number)))
NUMBER(s2_child, "cn", FOUND(s2u_child(a->cell, a[1].number)))
NUMBER(s2_range_min, "c", FOUND(s2u_range_min(a->cell)))
NUMBER(s2_range_max, "c", FOUND(s2u_range_max(a->cell)))
NUMBER(s2_common_ancestor, "cc", FOUND(s2u_common_ancestor(a->cell, a[1].cell)))
NUMBER(s2_cell, "c", FOUND(a->cell))
NUMBER(s2_leaf_at, "dd", FOUND(s2u_geo_leaf(a->degrees, a[1].degrees)))

/* ---- degrees of the middle of a cell, and the area of a union: `call` sets `answer`, and says whether there is one */

enum { LONGEST_DOUBLE = 24, ALL_DECIMALS = 31 };

#define MEASURE(name, letters, call)                                                                \
  flag name##_init(UDF_INIT* it, UDF_ARGS* args, char* message) {                                    \
    it->decimals = ALL_DECIMALS;                                                                     \
    return begin(it, args, letters, LONGEST_DOUBLE, message);                                        \
  }                                                                                                  \
  void name##_deinit(UDF_INIT* it) { end(it); }                                                      \
  double name(UDF_INIT* it, UDF_ARGS* args, flag* is_null, flag* error) {                            \
    (void)error;                                                                                     \
    double answer = 0;                                                                               \
    argument a[MOST_ARGUMENTS] = {{0}};                                                              \
    *is_null = (flag)!(are_read(it, args, letters, a) && (call));                                    \
    give_back(a);                                                                                    \
    return answer;                                                                                   \
  }

static int found_middle(const argument* a, int is_latitude, double* degrees) {
  double longitude, latitude;
  if (s2u_geo_middle(a->cell, &longitude, &latitude) != S2U_OK) return 0;
  *degrees = is_latitude ? latitude : longitude;
  return 1;
}
/* Of the union of the cells, so that each place counts once. */
static int found_area(argument* a, double* area) {
  if (s2u_normalise(a->ids, a->n, &a->n) != S2U_OK) return 0;
  *area = s2u_geo_area(a->ids, a->n);
  return 1;
}

MEASURE(s2_longitude, "c", found_middle(a, 0, &answer))
MEASURE(s2_latitude, "c", found_middle(a, 1, &answer))
MEASURE(s2_area, "l", found_area(a, &answer))

/* ---- texts and unions: `call` makes one in memory of its own, and sets `len` */

#define KEEPER(name, letters, most, call)                                                           \
  FUNCTION(name, letters, most)                                                                      \
  char* name(UDF_INIT* it, UDF_ARGS* args, char* result, unsigned long* length, flag* is_null, flag* error) { \
    (void)result, (void)error;                                                                       \
    state* kept = (state*)it->ptr;                                                                   \
    argument a[MOST_ARGUMENTS] = {{0}};                                                              \
    size_t len = 0;                                                                                  \
    free(kept->answer);                                                                              \
    kept->answer = are_read(it, args, letters, a) ? (char*)(call) : NULL;                            \
    give_back(a);                                                                                    \
    *is_null = (flag)!kept->answer;                                                                  \
    *length = len;                                                                                   \
    return kept->answer;                                                                             \
  }
#define LIST_OF(k) a[k].ids, a[k].n
enum { LONGEST = 1073741824 }; /* bytes: as much as a packet can have */

static char* token_of(uint64_t cell, size_t* len) {
  char* text = malloc(S2U_MOST_TOKEN);
  if (text && s2u_token(cell, text, S2U_MOST_TOKEN, len) != S2U_OK) free(text), text = NULL;
  return text;
}
static char* tokens_of(const argument* a, size_t* len) {
  char* text = malloc(S2U_MOST_TOKENS(a->n) + 1);
  if (text && s2u_tokens(LIST_OF(0), text, S2U_MOST_TOKENS(a->n), len) != S2U_OK) free(text), text = NULL;
  return text;
}

KEEPER(s2_token, "c", S2U_MOST_TOKEN, token_of(a->cell, &len))
KEEPER(s2_tokens, "l", LONGEST, tokens_of(a, &len))
KEEPER(s2_normalise, "t", LONGEST, file_of(LIST_OF(0), &len))

/* A union that `call` makes in `out`, where `room` is as much as the longest one takes. */
#define MAKER(name, letters, longest, call)                                                         \
  static uint8_t* make_##name(const argument* a, size_t* len) {                                      \
    size_t room = (longest), n = 0;                                                                  \
    uint64_t* out = malloc(8 * room + 8);                                                            \
    uint8_t* file = out && (call) == S2U_OK ? file_of(out, n, len) : NULL;                           \
    free(out);                                                                                       \
    return file;                                                                                     \
  }                                                                                                  \
  KEEPER(name, letters, LONGEST, make_##name(a, &len))
#define MADE out, room, &n

MAKER(s2_union, "ll", a->n + a[1].n, s2u_union(LIST_OF(0), LIST_OF(1), MADE))
MAKER(s2_intersection, "ll", a->n + a[1].n, s2u_intersection(LIST_OF(0), LIST_OF(1), MADE))
MAKER(s2_difference, "ll", S2U_MOST_DIFFERENCE(a->n, a[1].n), s2u_difference(LIST_OF(0), LIST_OF(1), MADE))
MAKER(s2_symmetric_difference, "ll", S2U_MOST_SYMMETRIC_DIFFERENCE(a->n, a[1].n),
      s2u_symmetric_difference(LIST_OF(0), LIST_OF(1), MADE))
MAKER(s2_complement, "l", S2U_MOST_COMPLEMENT(a->n), s2u_complement(LIST_OF(0), MADE))

/* ---- coverings of shapes in WKB, at most 200 cells and of level 30 if nothing else is said */

/* Whether a call had no error. If it was ended with the statement, that is an error, for NULL would be an answer. */
static int is_made(int32_t status) {
  if (status == S2U_MEMORY && is_killed()) my_error(QUERY_INTERRUPTED, 0);
  return status == S2U_OK;
}

/* The file of cells, if their call had no error; they go. */
static uint8_t* file_with(int32_t status, s2u_cover_cells* cells, size_t* len) {
  uint8_t* file = is_made(status) ? file_of(cells->ids, cells->count, len) : NULL;
  s2u_cover_free(cells);
  return file;
}

static uint8_t* covering_of(const argument* a, unsigned count, int is_outer, size_t* len) {
  const s2u_cover_options options = {count > 1 ? a[1].number : 200, 0, count > 2 ? a[2].number : 30, S2U_COVER_MAP, 0};
  s2u_cover_cells cells;
  s2u_cover_fault fault;
  is_covering = 1;
  int32_t status = s2u_cover_wkb(a->bytes, a->size, &options, is_outer ? &cells : NULL, is_outer ? NULL : &cells,
                                 &fault);
  is_covering = 0;
  return file_with(status, &cells, len);
}

KEEPER(s2_covering, "wNN", LONGEST, covering_of(a, args->arg_count, 1, &len))
KEEPER(s2_interior, "wNN", LONGEST, covering_of(a, args->arg_count, 0, &len))

/* ---- coverings of polygons as they are written, proved, in WKB or GeoJSON. The server doesn't say which of the two
 * comes: WKB begins with the byte 0 or 1, as no text of JSON does. */

typedef struct {
  size_t n, outer; /* both coverings' cells, of which those of the outer one come first */
  s2u_shape_fault fault;
} mapped;
typedef int32_t mapper(const argument* a, uint64_t* out, size_t room, mapped* m);

#define SHAPE_MAKER(name, bytes_taken, f, e, ...)                                                   \
  static int32_t name(const argument* a, uint64_t* out, size_t room, mapped* m) {                    \
    int is_wkb = a->size > 0 && a->bytes[0] < 2;                                                     \
    s2u_host_bound(bytes_taken);                                                                     \
    return s2u_host_bounded(                                                                         \
      is_wkb ? f##_wkb##e(a->bytes, a->size, __VA_ARGS__, out, room, &m->n, &m->outer, &m->fault)    \
             : f##_geojson##e((const char*)a->bytes, a->size, __VA_ARGS__, out, room, &m->n, &m->outer, &m->fault)); \
  }
SHAPE_MAKER(on_map, UINT64_MAX, s2u_map, , a[1].number, S2U_MAP_WORK)
SHAPE_MAKER(few_on_map, UINT64_MAX, s2u_map, _up_to, a[1].number, a[2].number)
SHAPE_MAKER(on_sphere, S2U_HOST_WORK, s2u_geodesic, , a[1].number, S2U_MOST_COVERING)

/* Both coverings; the caller frees `out`. */
static int32_t made_by(mapper* make, const argument* a, uint64_t** out, mapped* m) {
  enum { FIRST_ROOM = 4096 };
  int32_t status = S2U_ROOM;
  size_t room = FIRST_ROOM;
  is_covering = 1;
  for (int turn = 0; turn < 2 && status == S2U_ROOM; turn++, room = m->n) {
    free(*out);
    *out = malloc(8 * room);
    status = *out ? make(a, *out, room, m) : S2U_MEMORY;
  }
  is_covering = 0;
  return status;
}

/* Says why there is no covering, where the server has warnings. */
static void warn(int32_t status, const s2u_shape_fault* at) {
  if (status == S2U_OK || status == S2U_MEMORY || !my_printf_error) return;
  if (status == S2U_SHAPE)
    my_printf_error(NO_GEOMETRY, "s2: %s: byte %zu, part %zu, ring %zu, position %zu", AS_WARNING,
                    s2u_fault_text(at->name), at->byte, at->part, at->ring, at->position);
  else
    my_printf_error(NO_GEOMETRY, "s2: %s", AS_WARNING, s2u_status_text(status));
}

static uint8_t* one_of_both(mapper* make, const argument* a, int is_outer, size_t* len) {
  mapped m;
  uint64_t* out = NULL;
  uint8_t* file = NULL;
  int32_t status = a[2].number > S2U_MOST_COVERING ? S2U_ARGUMENT : made_by(make, a, &out, &m);
  warn(status, &m.fault);
  if (is_made(status)) file = is_outer ? file_of(out, m.outer, len) : file_of(out + m.outer, m.n - m.outer, len);
  free(out);
  return file;
}

#define ON_MAP args->arg_count > 2 ? few_on_map : on_map
KEEPER(s2_map_outer, "snN", LONGEST, one_of_both(ON_MAP, a, 1, &len))
KEEPER(s2_map_inner, "snN", LONGEST, one_of_both(ON_MAP, a, 0, &len))
KEEPER(s2_geodesic_outer, "sn", LONGEST, one_of_both(on_sphere, a, 1, &len))
KEEPER(s2_geodesic_inner, "sn", LONGEST, one_of_both(on_sphere, a, 0, &len))

/* ---- cells around a cell, of its own level if no other is named, and around a union; the box of a union */

static uint8_t* neighbors_of(const argument* a, unsigned count, size_t* len) {
  s2u_cover_cells cells;
  uint32_t level = count > 1 ? a[1].number : (uint32_t)s2u_level(a->cell);
  return file_with(s2u_cover_neighbors(a->cell, level, &cells), &cells, len);
}
static uint8_t* expanded_of(const argument* a, size_t* len) {
  s2u_cover_cells cells;
  return file_with(s2u_cover_expanded(LIST_OF(0), a[1].number, &cells), &cells, len);
}
enum { LONGEST_BOX = 4 * LONGEST_DOUBLE + 8 };
static char* bounds_of(const argument* a, size_t* len) {
  s2u_cover_bounds box;
  if (!is_made(s2u_cover_rect_bound(LIST_OF(0), &box)) || box.south > box.north) return NULL;
  char* text = malloc(LONGEST_BOX);
  if (text)
    *len = (size_t)snprintf(text, LONGEST_BOX, "[%.17g,%.17g,%.17g,%.17g]", box.west, box.south, box.east, box.north);
  return text;
}

KEEPER(s2_neighbors, "cN", LONGEST, neighbors_of(a, args->arg_count, &len))
KEEPER(s2_expanded, "ln", LONGEST, expanded_of(a, &len))
KEEPER(s2_bounds, "l", LONGEST_BOX, bounds_of(a, &len))
