/* Unions of S2 cells in SQLite, over libs2union. README.md says what each function does.
 *
 * A union is a BLOB, the bytes of its file. Only the library knows about cells. This file has SQLite's types, NULL,
 * errors and memory. */
#include <sqlite3ext.h>
#include <string.h>
#include "functions.h"
SQLITE_EXTENSION_INIT1
#include "values.h"

/* ---- memory: the library takes it from SQLite's heap, so SQLite's limits hold for both ---- */

#define S2U_HOST_TAKE(size) sqlite3_malloc64(size)
#define S2U_HOST_GIVE_BACK(at) sqlite3_free(at)
#include "s2union_host.h"

/* A list of n cells, or a file of n bytes. The last user that drops it frees it. */
typedef struct block {
  size_t users, n, room;
  uint64_t cells[];
} block;

static block* new_block(size_t room, size_t size) {
  block* b = room > (SIZE_MAX - sizeof *b) / size ? NULL : sqlite3_malloc64(sizeof *b + room * size);
  if (b) *b = (block){.users = 1, .room = room};
  return b;
}

static block* block_of(void* cells) { return (block*)((char*)cells - offsetof(block, cells)); }

static void drop(block* b) { if (b && --b->users == 0) sqlite3_free(b); }

static void drop_cells(void* cells) { drop(block_of(cells)); }

/* ---- values: each call answers a status, which is made an error at the end ---- */

enum { NOT_A_UNION = -100, NOT_A_CELL = -101, NOT_A_NUMBER = -102, NO_FRAME = -103, NOT_A_SHAPE = -104 };

static const char* reason(int32_t status) {
  switch (status) {
    case NOT_A_UNION: return "a union is a BLOB, or cells in an INTEGER or a TEXT";
    case NOT_A_CELL: return "a cell is an INTEGER or a TEXT";
    case NOT_A_NUMBER: return "a level, face, coordinate or number of cells is an INTEGER";
    case NOT_A_SHAPE: return "a shape is a BLOB of WKB, or a TEXT of GeoJSON";
    case NO_FRAME: return "the frame of a window has to begin with UNBOUNDED PRECEDING";
    default: return s2u_status_text(status);
  }
}

/* What is said of a refusal: its reason, and the values that it concerns, of a long text only the beginning. */
static char* refusal(int32_t status, sqlite3_value** v, int n) {
  sqlite3_str* said = sqlite3_str_new(NULL);
  sqlite3_str_appendf(said, "s2: %s", reason(status));
  for (int k = 0, type; k < n; k++) {
    sqlite3_str_appendall(said, k ? ", " : ": "), type = sqlite3_value_type(v[k]);
    if (type == SQLITE_BLOB) sqlite3_str_appendf(said, "a BLOB of length %d", sqlite3_value_bytes(v[k]));
    else sqlite3_str_appendf(said, type == SQLITE_TEXT ? "%!.40Q" : "%s", sqlite3_value_text(v[k]));
  }
  return sqlite3_str_finish(said);
}

static void refuse(sqlite3_context* c, int32_t status, sqlite3_value** v, int n) {
  char* text = status == S2U_MEMORY ? NULL : refusal(status, v, n);
  text ? sqlite3_result_error(c, text, -1) : sqlite3_result_error_nomem(c);
  sqlite3_free(text);
}

static int32_t cell_of(sqlite3_value* v, uint64_t* cell) {
  const char* text;
  size_t n;
  int type = sqlite3_value_type(v);
  if (type == SQLITE_TEXT && text_of(v, &text, &n) != S2U_OK) return S2U_MEMORY;
  if (type == SQLITE_TEXT) return s2u_host_cell_of_text(text, n, cell);
  *cell = (uint64_t)sqlite3_value_int64(v);
  return type != SQLITE_INTEGER ? NOT_A_CELL : s2u_is_cell(*cell) ? S2U_OK : S2U_NO_CELL;
}

static int32_t number_of(sqlite3_value* v, uint32_t* number) {
  sqlite3_int64 wide = sqlite3_value_int64(v);
  *number = (uint32_t)wide;
  if (sqlite3_value_type(v) != SQLITE_INTEGER) return NOT_A_NUMBER;
  return *number == wide ? S2U_OK : S2U_ARGUMENT;
}

static int32_t count_of(sqlite3_value* v, uint32_t* count) {
  int32_t status = number_of(v, count);
  return status == S2U_OK && *count > S2U_MOST_COVERING ? S2U_ARGUMENT : status;
}

/* Cells that are gathered, and normalized when they have doubled. */
typedef struct gathered { block* list; size_t settled; } gathered;
enum { PIECE = S2U_HOST_PIECE };

static int32_t settle(gathered* g) {
  int32_t status = s2u_normalise(g->list->cells, g->list->n, &g->list->n);
  g->settled = g->list->n;
  return status;
}

static int32_t gather(gathered* g, block* more) {
  size_t n = g->list ? g->list->n : 0;
  if (!g->list || n + more->n > g->list->room) {
    block* wider = new_block(2 * (n + more->n), sizeof(uint64_t));
    if (!wider) return S2U_MEMORY;
    if (n > 0) memcpy(wider->cells, g->list->cells, n * sizeof(uint64_t));
    drop(g->list);
    g->list = wider;
  }
  memcpy(g->list->cells + n, more->cells, more->n * sizeof(uint64_t));
  g->list->n = n + more->n;
  return s2u_host_has_doubled(g->list->n, g->settled) ? settle(g) : S2U_OK;
}

static int32_t list_of_text(const char* text, size_t n, block** list) {
  gathered g = {.list = NULL};
  block* piece = new_block(S2U_MOST_NAMED(n < PIECE ? n : PIECE), sizeof(uint64_t));
  int32_t status = piece ? gather(&g, piece) : S2U_MEMORY;
  for (size_t taken; n > 0 && status == S2U_OK; text += taken, n -= taken) {
    taken = s2u_host_piece_of(text, n);
    status = s2u_from_tokens(text, taken, piece->cells, piece->room, &piece->n);
    if (status == S2U_OK) status = gather(&g, piece);
  }
  drop(piece);
  *list = g.list;
  return status == S2U_OK ? settle(&g) : status;
}

/* The union of a value as a list. The caller drops it, even after a refusal. */
static int32_t list_of(sqlite3_value* v, block** list) {
  const uint8_t* bytes = NULL;
  const char* text = NULL;
  size_t n = 0, room = 1;
  int type = sqlite3_value_type(v);
  int32_t status = type == SQLITE_INTEGER ? S2U_OK : NOT_A_UNION;
  if (type == SQLITE_TEXT) return text_of(v, &text, &n) == S2U_OK ? list_of_text(text, n, list) : S2U_MEMORY;
  if (type == SQLITE_BLOB && (status = bytes_of(v, &bytes, &n)) == S2U_OK) room = S2U_MOST_IN_FILE(n);
  if (status != S2U_OK) return status;
  block* b = *list = new_block(room, sizeof(uint64_t));
  if (!b) return S2U_MEMORY;
  b->n = 1;
  return type == SQLITE_BLOB ? s2u_decode(bytes, n, b->cells, room, &b->n) : cell_of(v, b->cells);
}

static int32_t file_of_list(const block* list, block** file) {
  if (!(*file = new_block(S2U_FILE_SIZE(list->n), 1))) return S2U_MEMORY;
  return s2u_encode(list->cells, list->n, (uint8_t*)(*file)->cells, (*file)->room, &(*file)->n);
}

static int32_t file_of(sqlite3_value* v, block** file) {
  block* list = NULL;
  int32_t status = list_of(v, &list);
  if (status == S2U_OK) status = file_of_list(list, file);
  drop(list);
  return status;
}

/* ---- arguments ---- */

/* What a call says of a shape: how many of its cells are those of the outer covering, or its fault. */
typedef struct mapped { size_t outer; s2u_shape_fault fault; } mapped;

/* What an argument is read as. The held block is dropped after the call. */
typedef struct argument {
  block* held;
  const uint8_t* bytes;
  size_t n;
  uint64_t cell;
  uint32_t number;
  int is_text; /* of a shape: GeoJSON */
  mapped* mapped;
} argument;

typedef int32_t maker(const argument* a, uint64_t* out, size_t room, size_t* n);

typedef struct function {
  const char *name, *letters;
  int32_t (*call)(sqlite3_context* c, const struct function* f, const argument* a);
  maker* make;
  int32_t (*text)(uint64_t cell, char* text, size_t room, size_t* len);
  struct last { size_t n; block* file; } last[2]; /* in a connection's own copy of the function */
} function;

/* PREPARED is the subtype of s2_prepared.value, which is always made in normal form. A file of no more bytes than
 * WORTH_KEEPING is checked as fast as SQLite looks up that it was checked. */
enum { MOST_ARGUMENTS = 7, PREPARED = 0x53, WORTH_KEEPING = 250 };

/* What is made of a constant is kept for all rows: SQLite drops it after the last row, or at once. */
static int32_t hold(sqlite3_context* c, sqlite3_value** v, int k, int32_t (*of)(sqlite3_value*, block**), argument* a) {
  void* kept = sqlite3_get_auxdata(c, k);
  if (kept) a->held = block_of(kept);
  int32_t status = kept ? S2U_OK : of(v[k], &a->held);
  if (status == S2U_OK) a->held->users++;
  if (status == S2U_OK && !kept) sqlite3_set_auxdata(c, k, a->held->cells, drop_cells);
  return status;
}

/* s2u_file_check of an argument's file. A file that comes again in each row, as from a subquery or a join, is kept the
 * second time if it is in normal form. From then on it is compared, which takes the place of the check. */
static int32_t check(struct last* last, const uint8_t* bytes, size_t n) {
  int again = last->n == n;
  if (again && last->file && memcmp(last->file->cells, bytes, n) == 0) return 1;
  int32_t status = s2u_file_check(bytes, n);
  if (n <= WORTH_KEEPING) return status;
  drop(last->file);
  *last = (struct last){n, again && status == 1 ? new_block(n, 1) : NULL};
  if (last->file) memcpy(last->file->cells, bytes, n);
  return status;
}

/* Reads a union as a file that can be asked: in place, if the argument is in normal form. */
static int32_t file_argument(sqlite3_context* c, sqlite3_value** v, int k, argument* a) {
  static char normal; /* kept for a constant in normal form */
  void* kept = sqlite3_get_auxdata(c, k);
  if (sqlite3_value_type(v[k]) == SQLITE_BLOB && (!kept || kept == &normal)) {
    int32_t status = bytes_of(v[k], &a->bytes, &a->n);
    if (status != S2U_OK || kept || sqlite3_value_subtype(v[k]) == PREPARED) return status;
    status = check(&((function*)sqlite3_user_data(c))->last[k], a->bytes, a->n);
    if (status == 1 && a->n > WORTH_KEEPING) sqlite3_set_auxdata(c, k, &normal, NULL);
    if (status != 0) return status < 0 ? status : S2U_OK;
  }
  if (kept == &normal) sqlite3_set_auxdata(c, k, NULL, NULL); /* a host's constant whose type has changed */
  int32_t status = hold(c, v, k, file_of, a);
  if (status == S2U_OK) a->bytes = (const uint8_t*)a->held->cells, a->n = a->held->n;
  return status;
}

static int32_t shape_argument(sqlite3_value* v, argument* a) {
  const char* text = NULL;
  int type = sqlite3_value_type(v);
  a->is_text = type == SQLITE_TEXT;
  if (!a->is_text) return type == SQLITE_BLOB ? bytes_of(v, &a->bytes, &a->n) : NOT_A_SHAPE;
  int32_t status = text_of(v, &text, &a->n);
  a->bytes = (const uint8_t*)text;
  return status;
}

/* The letters of arguments: a list, a file to be asked, a cell or a file to be asked, a cell, what may be a cell, a
 * number, how many cells there may be, a shape, or bytes. */
static int32_t read_argument(sqlite3_context* c, char letter, sqlite3_value** v, int k, argument* a) {
  int type = sqlite3_value_type(v[k]);
  switch (letter) {
    case 'l': return hold(c, v, k, list_of, a);
    case 'f': return file_argument(c, v, k, a);
    case 'q': return type == SQLITE_INTEGER ? cell_of(v[k], &a->cell) : file_argument(c, v, k, a);
    case 'c': return cell_of(v[k], &a->cell);
    case 'm': return a->number = (type = cell_of(v[k], &a->cell)) == S2U_OK, type == S2U_MEMORY ? type : S2U_OK;
    case 'n': return number_of(v[k], &a->number);
    case 'k': return count_of(v[k], &a->number);
    case 's': return shape_argument(v[k], a);
    default: return type == SQLITE_BLOB ? bytes_of(v[k], &a->bytes, &a->n) : S2U_OK;
  }
}

/* ---- functions ---- */

#define LIST(a) (a).held->cells, (a).held->n
#define RECT(a) &(s2u_rect){(a)[0].number, (a)[1].number, (a)[2].number, (a)[3].number, (a)[4].number}
#define MAKER(name, f, ...) \
  static int32_t name(const argument* a, uint64_t* out, size_t room, size_t* n) { return f(__VA_ARGS__, out, room, n); }
MAKER(make_union, s2u_union, LIST(a[0]), LIST(a[1]))
MAKER(make_intersection, s2u_intersection, LIST(a[0]), LIST(a[1]))
MAKER(make_difference, s2u_difference, LIST(a[0]), LIST(a[1]))
MAKER(make_symmetric_difference, s2u_symmetric_difference, LIST(a[0]), LIST(a[1]))
MAKER(make_complement, s2u_complement, LIST(a[0]))
MAKER(make_range, s2u_range, a[0].cell, a[1].cell)
#define COVERS(e, ...) MAKER(make_outer##e, s2u_outer##e, __VA_ARGS__) MAKER(make_inner##e, s2u_inner##e, __VA_ARGS__)
COVERS(, RECT(a), a[5].number, S2U_MOST_COVERING)
COVERS(_of, LIST(a[0]), a[1].number, S2U_MOST_COVERING)
COVERS(_in, LIST(a[0]), RECT(a + 1), a[6].number, S2U_MOST_COVERING)
MAKER(make_ancestors, s2u_ancestors, LIST(a[0]))
MAKER(make_part, s2u_intersection, LIST(a[0]), &a[1].cell, 1)

/* The cells of both coverings of a shape, the outer ones first, by a call that takes at most so many bytes. */
#define SHAPE_MAKER(name, bytes_taken, f, e, ...) \
  static int32_t name(const argument* a, uint64_t* out, size_t room, size_t* n) { \
    mapped* m = a->mapped; \
    s2u_host_bound(bytes_taken); \
    return s2u_host_bounded( \
      a->is_text ? f##_geojson##e((const char*)a->bytes, a->n, __VA_ARGS__, out, room, n, &m->outer, &m->fault) \
                 : f##_wkb##e(a->bytes, a->n, __VA_ARGS__, out, room, n, &m->outer, &m->fault)); \
  }
SHAPE_MAKER(make_map, UINT64_MAX, s2u_map, , a[1].number, S2U_MAP_WORK)
SHAPE_MAKER(make_few_on_map, UINT64_MAX, s2u_map, _up_to, a[1].number, a[2].number)
SHAPE_MAKER(make_geodesic, S2U_HOST_WORK, s2u_geodesic, , a[1].number, S2U_MOST_COVERING)

/* The list that a maker makes. The caller drops it, even after a refusal. */
static int32_t list_made(maker* make, const argument* a, size_t room, block** list) {
  int32_t status = S2U_ROOM;
  for (int turn = 0; turn < 2 && status == S2U_ROOM; turn++, room = (*list)->n) {
    drop(*list);
    if (!(*list = new_block(room, sizeof(uint64_t)))) return S2U_MEMORY;
    status = make(a, (*list)->cells, room, &(*list)->n);
  }
  return status;
}

static int32_t answer_list(sqlite3_context* c, const block* list) {
  block* file = NULL;
  int32_t status = file_of_list(list, &file);
  if (status == S2U_OK) sqlite3_result_blob64(c, file->cells, file->n, drop_cells);
  else drop(file);
  return status;
}

static int32_t answer_cell(sqlite3_context* c, uint64_t cell) {
  if (cell) sqlite3_result_int64(c, (sqlite3_int64)cell); /* 0 is none: NULL */
  return S2U_OK;
}

/* A number below 0 is a refusal, which the caller answers. */
static int32_t answer_number(sqlite3_context* c, int32_t number) { return sqlite3_result_int(c, number), number; }

#define CALL(name) static int32_t name(sqlite3_context* c, const function* f, const argument* a)

CALL(makes) {
  block* list = NULL;
  size_t nx = a[0].held ? a[0].held->n : 0, ny = a[1].held ? a[1].held->n : 0;
  int32_t status = list_made(f->make, a, nx + ny + S2U_MOST_RANGE, &list);
  if (status == S2U_OK) status = answer_list(c, list);
  drop(list);
  return status;
}

static int32_t answer_fault(sqlite3_context* c, const s2u_shape_fault* fault) {
  char* text = sqlite3_mprintf("s2: %s: byte %llu, part %llu, ring %llu, position %llu", s2u_fault_text(fault->name),
                               (uint64_t)fault->byte, (uint64_t)fault->part, (uint64_t)fault->ring,
                               (uint64_t)fault->position);
  if (text) sqlite3_result_error(c, text, -1);
  sqlite3_free(text);
  return text ? S2U_OK : S2U_MEMORY;
}

/* One of the two coverings of a shape, or the error of its fault. */
static int32_t covering_of(sqlite3_context* c, const function* f, const argument* a, int is_outer) {
  enum { FIRST_ROOM = 4096 };
  mapped m;
  argument own[MOST_ARGUMENTS];
  block* list = NULL;
  memcpy(own, a, sizeof own);
  own->mapped = &m;
  int32_t status = list_made(f->make, own, FIRST_ROOM, &list);
  if (status == S2U_OK) {
    if (!is_outer) memmove(list->cells, list->cells + m.outer, (list->n - m.outer) * sizeof(uint64_t));
    list->n = is_outer ? m.outer : list->n - m.outer;
    status = answer_list(c, list);
  } else if (status == S2U_SHAPE) {
    status = answer_fault(c, &m.fault);
  }
  drop(list);
  return status;
}

CALL(outer_of_shape) { return covering_of(c, f, a, 1); }
CALL(inner_of_shape) { return covering_of(c, f, a, 0); }

#define FILE_OF(a) (a).bytes, (a).n
#define ASK(x, y, of, of_cell) (y).cell ? of_cell(FILE_OF(x), (y).cell) : of(FILE_OF(x), FILE_OF(y))
CALL(contains) { return answer_number(c, ASK(a[0], a[1], s2u_file_contains, s2u_file_contains_cell)); }
CALL(within) { return answer_number(c, ASK(a[1], a[0], s2u_file_contains, s2u_file_contains_cell)); }
CALL(intersects) { return answer_number(c, ASK(a[0], a[1], s2u_file_intersects, s2u_file_intersects_cell)); }

static int32_t answer_count(sqlite3_context* c, const argument* a, int32_t (*of)(const uint8_t*, size_t, uint64_t*)) {
  uint64_t count = 0;
  int32_t status = of(FILE_OF(*a), &count);
  return sqlite3_result_int64(c, (sqlite3_int64)count), status;
}

CALL(tokens) {
  block* text = new_block(S2U_MOST_TOKENS(a->held->n), 1);
  if (!text) return S2U_MEMORY;
  int32_t status = s2u_tokens(LIST(*a), (char*)text->cells, text->room, &text->n);
  return sqlite3_result_text64(c, (char*)text->cells, text->n, drop_cells, SQLITE_UTF8), status;
}

CALL(text) {
  char text[S2U_MOST_DEBUG];
  size_t len = 0;
  int32_t status = f->text(a->cell, text, sizeof text, &len);
  return sqlite3_result_text64(c, text, len, SQLITE_TRANSIENT, SQLITE_UTF8), status;
}

CALL(leaf) {
  uint64_t cell = s2u_from_face_ij(a[0].number, a[1].number, a[2].number);
  return cell ? answer_cell(c, cell) : S2U_ARGUMENT;
}

CALL(count) { return answer_count(c, a, s2u_file_count); }
CALL(leaves) { return answer_count(c, a, s2u_file_leaf_count); }
CALL(normalise) { return answer_list(c, a->held); }
CALL(is_union) { return answer_number(c, s2u_file_check(a->bytes, a->n) == 1); }
CALL(is_cell) { return answer_number(c, (int32_t)a->number); }
CALL(cell) { return answer_cell(c, a->cell); }
/* NULL if the cell has no such parent or child; a number that none has one for is refused. */
CALL(parent) { return a[1].number > 30 ? S2U_ARGUMENT : answer_cell(c, s2u_parent(a->cell, a[1].number)); }
CALL(child) { return a[1].number > 3 ? S2U_ARGUMENT : answer_cell(c, s2u_child(a->cell, a[1].number)); }
CALL(range_min) { return answer_cell(c, s2u_range_min(a->cell)); }
CALL(range_max) { return answer_cell(c, s2u_range_max(a->cell)); }
CALL(common_ancestor) { return answer_cell(c, s2u_common_ancestor(a[0].cell, a[1].cell)); }
CALL(level) { return answer_number(c, s2u_level(a->cell)); }
CALL(face) { return answer_number(c, s2u_face(a->cell)); }
CALL(version) { return sqlite3_result_text(c, S2U_VERSION_TEXT, -1, SQLITE_STATIC), S2U_OK; }

#define OF_SHAPE(name, l, e) \
  {name "_outer", l, outer_of_shape, .make = e}, {name "_inner", l, inner_of_shape, .make = e}
#define COVERINGS(l, e) {"s2_outer", l, makes, .make = make_outer##e}, {"s2_inner", l, makes, .make = make_inner##e}
static const function functions[] = {
  {"s2_union", "ll", makes, .make = make_union}, {"s2_intersection", "ll", makes, .make = make_intersection},
  {"s2_difference", "ll", makes, .make = make_difference}, {"s2_range", "cc", makes, .make = make_range},
  {"s2_symmetric_difference", "ll", makes, .make = make_symmetric_difference}, {"s2_within", "qf", within},
  COVERINGS("nnnnnn", ), COVERINGS("ln", _of), COVERINGS("lnnnnnn", _in), {"s2_is_cell", "m", is_cell},
  {"s2_normalise", "l", normalise}, {"s2_is_union", "b", is_union}, {"s2_contains", "fq", contains},
  {"s2_intersects", "fq", intersects}, {"s2_count", "f", count}, {"s2_leaves", "f", leaves}, {"s2_tokens", "l", tokens},
  {"s2_cell", "c", cell}, {"s2_token", "c", text, .text = s2u_token}, {"s2_debug", "c", text, .text = s2u_debug},
  {"s2_level", "c", level}, {"s2_face", "c", face}, {"s2_parent", "cn", parent}, {"s2_child", "cn", child},
  {"s2_range_min", "c", range_min}, {"s2_range_max", "c", range_max}, {"s2_common_ancestor", "cc", common_ancestor},
  {"s2_leaf", "nnn", leaf}, {"s2_version", "", version}, {"s2_complement", "l", makes, .make = make_complement},
  OF_SHAPE("s2_map", "sn", make_map), OF_SHAPE("s2_map", "snk", make_few_on_map),
  OF_SHAPE("s2_geodesic", "sn", make_geodesic),
};

/* Every function comes through here: NULL if an argument is NULL, an error if the call refuses. */
static void dispatch(sqlite3_context* c, int arguments, sqlite3_value** v) {
  const function* f = sqlite3_user_data(c);
  argument a[MOST_ARGUMENTS] = {{.held = NULL}};
  int32_t status = S2U_OK, read = 0;
  for (int k = 0; k < arguments; k++)
    if (sqlite3_value_type(v[k]) == SQLITE_NULL) return;
  for (; read < arguments && status == S2U_OK; read++) status = read_argument(c, f->letters[read], v, read, &a[read]);
  if (status < 0) refuse(c, status, v + read - 1, 1);
  else if ((status = f->call(c, f, a)) < 0) refuse(c, status, v, arguments);
  for (int k = 0; k < arguments; k++) drop(a[k].held);
}

/* ---- aggregates, also over a window whose frame begins with the partition ---- */

/* An aggregate takes each row's list into what it has of the rows before, of which there is at least one. */
typedef struct aggregate { const char* name; int32_t (*take)(gathered* g, block* more); } aggregate;

static int32_t take_intersection(gathered* g, block* more) {
  argument a[2] = {{.held = g->list}, {.held = more}};
  block* both = NULL;
  int32_t status = list_made(make_intersection, a, g->list->n + more->n, &both);
  drop(status == S2U_OK ? g->list : both);
  if (status == S2U_OK) g->list = both;
  return status;
}

static const aggregate aggregates[] = {{"s2_union_agg", gather}, {"s2_intersection_agg", take_intersection}};

static void step(sqlite3_context* c, int arguments, sqlite3_value** v) {
  const aggregate* aggregate = sqlite3_user_data(c);
  gathered* g = sqlite3_aggregate_context(c, sizeof *g);
  block* list = NULL;
  if (sqlite3_value_type(v[0]) == SQLITE_NULL) return;
  int32_t status = g ? list_of(v[0], &list) : S2U_MEMORY;
  if (status == S2U_OK) status = g->list ? aggregate->take(g, list) : gather(g, list);
  if (status != S2U_OK) refuse(c, status, v, 1);
  drop(list);
}

static void value(sqlite3_context* c) {
  gathered* g = sqlite3_aggregate_context(c, 0);
  if (!g || !g->list) return; /* no row, or only NULL: NULL, as sum() answers */
  int32_t status = settle(g);
  if (status == S2U_OK) status = answer_list(c, g->list);
  if (status != S2U_OK) refuse(c, status, NULL, 0);
}

static void final(sqlite3_context* c) {
  gathered* g = sqlite3_aggregate_context(c, 0);
  value(c);
  if (g) drop(g->list);
}

static void inverse(sqlite3_context* c, int arguments, sqlite3_value** v) { refuse(c, NO_FRAME, NULL, 0); }

/* ---- tables: s2_cells(x, level, modulus), s2_tiles(x, level), s2_ancestors(x), s2_prepared(x), s2_functions ---- */

#define COUNT(list) (sizeof(list) / sizeof *(list))

typedef struct kind {
  const char *name, *schema;
  int hidden, least, most; /* the first hidden column, which is the first argument, and how many arguments there are */
  enum { PREPARED_VALUE, FUNCTIONS, ANCESTORS, CELLS, TILES } rows; /* cells and tiles are cut as they are asked for */
} kind;

/* The arguments of a call are kept as they were given: SQLite may ask for the hidden columns, and compares them with
 * the arguments where it has too many conditions to leave that out. Cells are cut as they are asked for: those that are
 * ready, and those that wait to be cut, the last one first, before those that come next in the list. */
enum { MOST_GIVEN = 3, READY = 256, MOST_WAITING = 128 };

typedef struct table { sqlite3_vtab base; const kind* kind; } table;
typedef struct cursor {
  sqlite3_vtab_cursor base;
  sqlite3_value* given[MOST_GIVEN];
  block *block, *whole; /* whose cells are cut, and the region whose parts are in them */
  size_t next, at, n, waiting;
  uint32_t level, modulus;
  uint64_t ready[READY], wait[MOST_WAITING];
} cursor;

/* A row is known by its key, which has the arguments: so a row that two sides of an OR make comes once, and FULL JOIN,
 * which makes a call again to find the rows without a match, knows those that it has met. */
#define KEY(columns) "PRIMARY KEY(" columns ")) WITHOUT ROWID"
static const kind kinds[] = {
  {"s2_cells", "CREATE TABLE x(cell, range_min, range_max, x BLOB HIDDEN, level HIDDEN, modulus HIDDEN, "
   KEY("cell, level, modulus, x"), 3, 1, 3, CELLS},
  {"s2_tiles", "CREATE TABLE x(tile, part, x BLOB HIDDEN, level HIDDEN, " KEY("tile, level, x"), 2, 2, 2, TILES},
  {"s2_ancestors", "CREATE TABLE x(cell, range_min, range_max, x BLOB HIDDEN, " KEY("cell, x"), 3, 1, 1, ANCESTORS},
  {"s2_prepared", "CREATE TABLE x(value, x BLOB HIDDEN, " KEY("x"), 1, 1, 1, PREPARED_VALUE},
  {"s2_functions", "CREATE TABLE x(name, arguments, result, extension, " KEY("name, arguments"), 4, 0, 0, FUNCTIONS},
};

static int connect(sqlite3* db, void* aux, int argc, const char* const* argv, sqlite3_vtab** made, char** error) {
  const kind* kind = aux;
  int code = sqlite3_declare_vtab(db, kind->schema);
  table* t = code == SQLITE_OK ? sqlite3_malloc64(sizeof *t) : NULL;
  if (!t) return code == SQLITE_OK ? SQLITE_NOMEM : code;
  *t = (table){.kind = kind};
  *made = &t->base;
  return sqlite3_vtab_config(db, SQLITE_VTAB_INNOCUOUS);
}

static int disconnect(sqlite3_vtab* t) { return sqlite3_free(t), SQLITE_OK; }

/* The plan's number is how many arguments are given: each once, in order, and a constant in the loop. One that is left
 * out, or isn't known before the loop, is not among the constraints, but its column or a later one is used. */
static int best_index(sqlite3_vtab* t, sqlite3_index_info* plan) {
  const kind* kind = ((table*)t)->kind;
  sqlite3_uint64 left_out = plan->colUsed; /* a bit for each column that the statement uses */
  for (int a = 0; a < kind->most; a++) {
    for (int k = 0; k < plan->nConstraint; k++) {
      const struct sqlite3_index_constraint* given = &plan->aConstraint[k];
      if (given->iColumn != kind->hidden + a || given->op != SQLITE_INDEX_CONSTRAINT_EQ) continue;
      if (!given->usable || plan->idxNum != a) return SQLITE_CONSTRAINT;
      plan->aConstraintUsage[k].argvIndex = ++plan->idxNum;
      plan->aConstraintUsage[k].omit = 1;
    }
  }
  for (int column = kind->hidden + plan->idxNum; column > 0; column--) left_out /= 2;
  plan->estimatedCost = plan->estimatedRows = kind->rows == PREPARED_VALUE ? 1 : 20;
  return plan->idxNum >= kind->least && left_out == 0 ? SQLITE_OK : SQLITE_CONSTRAINT;
}

static int open(sqlite3_vtab* t, sqlite3_vtab_cursor** made) {
  cursor* u = sqlite3_malloc64(sizeof *u);
  if (!u) return SQLITE_NOMEM;
  *u = (cursor){.block = NULL};
  return *made = &u->base, SQLITE_OK;
}

/* Drops what the last call was given and has made. */
static void empty(cursor* u) {
  drop(u->block), drop(u->whole);
  for (int k = 0; k < MOST_GIVEN; k++) sqlite3_value_free(u->given[k]);
  *u = (cursor){.base = u->base};
}

static int close(sqlite3_vtab_cursor* u) { return empty((cursor*)u), sqlite3_free(u), SQLITE_OK; }

static const kind* kind_of(const cursor* u) { return ((const table*)u->base.pVtab)->kind; }

/* Cuts n cells, or a half of them and so on if they make more than there is room for. *some is how many it has cut. */
static int32_t cut_some(cursor* u, const uint64_t* cells, size_t n, size_t* some) {
  int32_t status = S2U_ROOM;
  for (*some = n < READY ? n : READY; status == S2U_ROOM && *some > 0; *some /= 2) {
    status = s2u_denormalised(cells, *some, u->level, u->modulus, u->ready, READY, &u->n);
    if (status != S2U_ROOM) return status;
  }
  return u->n = 0, S2U_OK;
}

/* Cuts the next cells: the last that waits, or some of the list. One that makes more cells than there is room for gives
 * way to its children, which are cut to the same cells. */
static int32_t cut(cursor* u) {
  int32_t status = S2U_OK;
  size_t some;
  for (u->at = u->n = 0; u->n == 0 && status == S2U_OK && (u->waiting > 0 || u->next < u->block->n);) {
    int waits = u->waiting > 0;
    const uint64_t* cells = waits ? &u->wait[u->waiting - 1] : &u->block->cells[u->next];
    uint64_t first = *cells;
    status = cut_some(u, cells, waits ? 1 : u->block->n - u->next, &some);
    if (waits) u->waiting--;
    else u->next += some > 0 ? some : 1;
    for (uint32_t k = 4; k > 0 && some == 0; k--) u->wait[u->waiting++] = s2u_child(first, k - 1);
  }
  return status;
}

/* The rows of a call, with a level of 0 and a modulus of 1 if they aren't given. */
static int32_t fill(cursor* u, const kind* kind, int arguments, sqlite3_value** v) {
  argument a[MOST_ARGUMENTS] = {[2].number = 1};
  size_t none = 0;
  u->n = kind->rows == FUNCTIONS ? COUNT(listed) : 1;
  if (kind->rows == FUNCTIONS) return S2U_OK;
  if (kind->rows == PREPARED_VALUE) return file_of(v[0], &u->block);
  int32_t status = list_of(v[0], &a[0].held);
  for (int k = 1; k < arguments && status == S2U_OK; k++) status = number_of(v[k], &a[k].number);
  if (status == S2U_OK) status = s2u_denormalised(NULL, 0, a[1].number, a[2].number, NULL, 0, &none);
  u->level = a[1].number, u->modulus = a[2].number;
  if (status != S2U_OK) return drop(a[0].held), status;
  if (kind->rows == CELLS) return u->block = a[0].held, cut(u);
  status = list_made(kind->rows == TILES ? make_outer_of : make_ancestors, a, a[0].held->n, &u->block);
  if (kind->rows == TILES) return u->whole = a[0].held, status == S2U_OK ? cut(u) : status;
  if (status == S2U_OK) u->n = u->block->n;
  return drop(a[0].held), status;
}

static int filter(sqlite3_vtab_cursor* base, int arguments, const char* text, int argc, sqlite3_value** v) {
  cursor* u = (cursor*)base;
  empty(u);
  for (int k = 0; k < arguments; k++) {
    if (sqlite3_value_type(v[k]) == SQLITE_NULL) return SQLITE_OK; /* no rows */
    if (!(u->given[k] = sqlite3_value_dup(v[k]))) return SQLITE_NOMEM;
  }
  int32_t status = fill(u, kind_of(u), arguments, v);
  if (status == S2U_OK) return SQLITE_OK;
  if (status == S2U_MEMORY) return SQLITE_NOMEM;
  sqlite3_free(base->pVtab->zErrMsg);
  base->pVtab->zErrMsg = refusal(status, v, arguments);
  return SQLITE_ERROR;
}

/* Memory is the only thing that may be missing. */
static int next(sqlite3_vtab_cursor* base) {
  cursor* u = (cursor*)base;
  u->at++;
  if (u->at < u->n || kind_of(u)->rows < CELLS) return SQLITE_OK;
  return cut(u) == S2U_OK ? SQLITE_OK : SQLITE_NOMEM;
}

static int eof(sqlite3_vtab_cursor* u) { return ((cursor*)u)->at >= ((cursor*)u)->n; }

static int column(sqlite3_vtab_cursor* base, sqlite3_context* c, int k) {
  static const function parts = {.make = make_part};
  cursor* u = (cursor*)base;
  const kind* kind = kind_of(u);
  uint64_t cell = kind->rows < ANCESTORS ? 0 : (kind->rows < CELLS ? u->block->cells : u->ready)[u->at];
  int32_t status = S2U_OK;
  if (k >= kind->hidden) {
    if (u->given[k - kind->hidden]) sqlite3_result_value(c, u->given[k - kind->hidden]);
  } else if (kind->rows == PREPARED_VALUE) {
    u->block->users++;
    sqlite3_result_blob64(c, u->block->cells, u->block->n, drop_cells);
    sqlite3_result_subtype(c, PREPARED);
  } else if (kind->rows == FUNCTIONS) {
    sqlite3_result_text(c, listed[u->at][k], -1, SQLITE_STATIC);
  } else if (kind->rows == TILES && k == 1) {
    status = makes(c, &parts, (argument[]){{.held = u->whole}, {.cell = cell}});
  } else {
    answer_cell(c, k == 0 ? cell : k == 1 ? s2u_range_min(cell) : s2u_range_max(cell));
  }
  if (status != S2U_OK) refuse(c, status, NULL, 0);
  return SQLITE_OK;
}

static const sqlite3_module tables = {
  .xConnect = connect, .xDisconnect = disconnect, .xBestIndex = best_index, .xOpen = open, .xClose = close,
  .xFilter = filter, .xNext = next, .xEof = eof, .xColumn = column,
};

enum { FLAGS = SQLITE_UTF8 | SQLITE_INNOCUOUS | SQLITE_SUBTYPE, PURE = FLAGS | SQLITE_DETERMINISTIC };

static void forget(void* own) {
  function* f = own;
  drop(f->last[0].file), drop(f->last[1].file), sqlite3_free(f);
}

static int create(sqlite3* db, const function* f) {
  function* own = sqlite3_malloc64(sizeof *own);
  if (!own) return SQLITE_NOMEM;
  *own = *f;
  int flags = f->call == version ? FLAGS : PURE; /* an update changes the version, so no index may have it */
  return sqlite3_create_function_v2(db, f->name, (int)strlen(f->letters), flags, own, dispatch, NULL, NULL, forget);
}

#define EXPORTED __attribute__((visibility("default")))

/* SQLite looks for this name first, whatever the file is called. */
EXPORTED int sqlite3_extension_init(sqlite3* db, char** error, const sqlite3_api_routines* api) {
  int code = SQLITE_OK;
  SQLITE_EXTENSION_INIT2(api);
  for (const function* f = functions; code == SQLITE_OK && f < functions + COUNT(functions); f++) code = create(db, f);
  for (const kind* k = kinds; code == SQLITE_OK && k < kinds + COUNT(kinds); k++)
    code = sqlite3_create_module(db, k->name, &tables, (void*)k);
  for (const aggregate* a = aggregates; code == SQLITE_OK && a < aggregates + COUNT(aggregates); a++)
    code = sqlite3_create_window_function(db, a->name, 1, PURE, (void*)a, step, final, value, inverse, NULL);
  return code;
}

/* The name for a program that links several extensions statically. */
EXPORTED int sqlite3_sunion_init(sqlite3* db, char** error, const sqlite3_api_routines* api) {
  return sqlite3_extension_init(db, error, api);
}
