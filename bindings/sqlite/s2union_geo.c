/* Points and shapes in degrees for unions of S2 cells in SQLite. README.md says what each function does. */
#include <s2union.h>
#include <sqlite3ext.h>
#include <s2union_join.h>
#include <string.h>
SQLITE_EXTENSION_INIT1
#include "values.h"

/* What is wrong with a value: a text of SQLite's memory, and the code of an error, SQLITE_NOMEM if there is no memory
 * for the text. */
static int wrong(char** text, const char* what, sqlite3_value* v) {
  int type = sqlite3_value_type(v);
  *text = type == SQLITE_BLOB ? sqlite3_mprintf("s2: %s: a BLOB of length %d", what, sqlite3_value_bytes(v))
          : type == SQLITE_TEXT ? sqlite3_mprintf("s2: %s: %!.40Q", what, sqlite3_value_text(v))
                                : sqlite3_mprintf("s2: %s: %s", what, sqlite3_value_text(v));
  return *text ? SQLITE_ERROR : SQLITE_NOMEM;
}

/* Answers with an error, unless the code is SQLITE_OK, and frees its text. */
static void refuse(sqlite3_context* c, int code, char* text) {
  if (code == SQLITE_ERROR) sqlite3_result_error(c, text, -1);
  else if (code != SQLITE_OK) sqlite3_result_error_nomem(c);
  sqlite3_free(text);
}

static int has_null(int n, sqlite3_value** v) {
  for (int k = 0; k < n; k++)
    if (sqlite3_value_type(v[k]) == SQLITE_NULL) return 1;
  return 0;
}

static int is_number(sqlite3_value* v, double most) { /* SQLite has no NaN: it is NULL */
  int type = sqlite3_value_type(v);
  return (type == SQLITE_INTEGER || type == SQLITE_FLOAT) && fabs(sqlite3_value_double(v)) <= most;
}

/* Whether a longitude and a latitude are in their ranges. */
static int check_place(sqlite3_value** v, char** text) {
  if (!is_number(v[0], S2U_GEO_MOST_LONGITUDE)) return wrong(text, "a longitude is a number from -540 to 540", v[0]);
  if (!is_number(v[1], S2U_GEO_MOST_LATITUDE))
    return wrong(text, "a latitude is a number from -90 to 90 (the longitude comes first)", v[1]);
  return SQLITE_OK;
}

static void leaf_at_function(sqlite3_context* c, int n, sqlite3_value** v) {
  char* text = NULL;
  if (has_null(n, v)) return;
  int code = check_place(v, &text);
  if (code == SQLITE_OK)
    sqlite3_result_int64(c, (sqlite3_int64)s2u_geo_leaf(sqlite3_value_double(v[0]), sqlite3_value_double(v[1])));
  refuse(c, code, text);
}

/* A cell is an INTEGER or a TEXT, as in the extension s2union. */
static int32_t cell_of(sqlite3_value* v, uint64_t* cell) {
  if (sqlite3_value_type(v) == SQLITE_TEXT) {
    const char* text;
    size_t n;
    if (text_of(v, &text, &n) != S2U_OK) return S2U_MEMORY;
    return memchr(text, '/', n) ? s2u_from_debug(text, n, cell) : s2u_from_token(text, n, cell);
  }
  *cell = (uint64_t)sqlite3_value_int64(v);
  return sqlite3_value_type(v) == SQLITE_INTEGER ? S2U_OK : S2U_NO_CELL;
}

/* The error of a call that took a cell, the value of which is v. */
static int check_cell(int32_t status, sqlite3_value* v, char** text) {
  return status == S2U_OK ? SQLITE_OK : status == S2U_MEMORY ? SQLITE_NOMEM : wrong(text, "not a cell", v);
}

static void coordinate(sqlite3_context* c, sqlite3_value* v, int is_latitude) {
  uint64_t cell;
  double longitude, latitude;
  char* text = NULL;
  if (has_null(1, &v)) return;
  int32_t status = cell_of(v, &cell);
  if (status == S2U_OK) status = s2u_geo_middle(cell, &longitude, &latitude);
  int code = check_cell(status, v, &text);
  if (code == SQLITE_OK) sqlite3_result_double(c, is_latitude ? latitude : longitude);
  refuse(c, code, text);
}

static void longitude_function(sqlite3_context* c, int n, sqlite3_value** v) { coordinate(c, v[0], 0); }
static void latitude_function(sqlite3_context* c, int n, sqlite3_value** v) { coordinate(c, v[0], 1); }

/* ---- coverings of shapes in WKB */

typedef struct wkb {
  const uint8_t* at;
  size_t size;
} wkb;

/* The bytes of a shape. */
static int shape_of(sqlite3_value* v, wkb* shape, char** text) {
  if (sqlite3_value_type(v) != SQLITE_BLOB) return wrong(text, "a shape is a BLOB of WKB", v);
  return bytes_of(v, &shape->at, &shape->size) == S2U_OK ? SQLITE_OK : SQLITE_NOMEM;
}

/* A whole number from 0 to the most that it may be, which an argument that isn't there leaves as it is. */
static int count_of(sqlite3_value* v, const char* what, sqlite3_int64 most, sqlite3_int64* number, char** text) {
  if (!v) return SQLITE_OK;
  *number = sqlite3_value_int64(v);
  if (sqlite3_value_type(v) == SQLITE_INTEGER && *number >= 0 && *number <= most) return SQLITE_OK;
  return wrong(text, what, v);
}

static int max_cells_of(sqlite3_value* v, sqlite3_int64* number, char** text) {
  return count_of(v, "a number of cells is from 0 to 1000000", S2U_COVER_MOST_CELLS, number, text);
}

static int level_of(sqlite3_value* v, sqlite3_int64* number, char** text) {
  return count_of(v, "a level is from 0 to 30", 30, number, text);
}

/* The union file of cells. */
static void result_cells(sqlite3_context* c, const s2u_cover_cells* cells) {
  size_t size = S2U_FILE_SIZE(cells->count), len;
  uint8_t* file = sqlite3_malloc64(size);
  if (file) s2u_encode(cells->ids, cells->count, file, size, &len); /* which has room enough */
  file ? sqlite3_result_blob64(c, file, size, sqlite3_free) : sqlite3_result_error_nomem(c);
}

/* What is wrong with a shape: the text of the status and where, a byte or a position of a ring. */
static int check_status(int32_t status, const s2u_cover_fault* fault, char** text) {
  const char* what = s2u_cover_status_text(status);
  if (status == S2U_OK) return SQLITE_OK;
  if (status == S2U_MEMORY) return SQLITE_NOMEM;
  *text = status <= S2U_COVER_WKB ? sqlite3_mprintf("s2: %s: at byte %llu", what, fault->position)
                                  : sqlite3_mprintf("s2: %s: ring %llu, position %llu", what, fault->ring,
                                                    fault->position);
  return *text ? SQLITE_ERROR : SQLITE_NOMEM;
}

static void cover(sqlite3_context* c, int n, sqlite3_value** v, int is_outer) {
  sqlite3_int64 most = 200, deepest = 30;
  s2u_cover_cells cells = {NULL, 0};
  char* text = NULL;
  wkb shape;
  if (has_null(n, v)) return;
  int code = shape_of(v[0], &shape, &text);
  if (code == SQLITE_OK) code = max_cells_of(n > 1 ? v[1] : NULL, &most, &text);
  if (code == SQLITE_OK) code = level_of(n > 2 ? v[2] : NULL, &deepest, &text);
  if (code == SQLITE_OK) {
    const s2u_cover_options options = {(uint64_t)most, 0, (uint32_t)deepest, S2U_COVER_MAP, 0};
    s2u_cover_fault fault;
    int32_t status = s2u_cover_wkb(shape.at, shape.size, &options, is_outer ? &cells : NULL, is_outer ? NULL : &cells,
                                   &fault);
    code = check_status(status, &fault, &text);
  }
  if (code == SQLITE_OK) result_cells(c, &cells);
  s2u_cover_free(&cells);
  refuse(c, code, text);
}

/* ---- the cells around cells, and the box and the area of a region */

/* The cells of a region, as in the extension s2union: of a union file, of tokens in a TEXT, or one. The caller frees
 * them, also after an error. */
static int32_t region_of(sqlite3_value* v, s2u_cover_cells* cells) {
  int type = sqlite3_value_type(v);
  const char* text = NULL;
  const uint8_t* bytes = NULL;
  size_t n = 1;
  *cells = (s2u_cover_cells){NULL, 1};
  if (type == SQLITE_FLOAT) return S2U_NO_CELL;
  if (type == SQLITE_TEXT && text_of(v, &text, &n) != S2U_OK) return S2U_MEMORY;
  if (type == SQLITE_BLOB && bytes_of(v, &bytes, &n) != S2U_OK) return S2U_MEMORY;
  size_t room = text ? S2U_MOST_NAMED(n) : bytes ? S2U_MOST_IN_FILE(n) : 1;
  if (!s2u_cover_resize(cells, room)) return S2U_MEMORY;
  if (type == SQLITE_INTEGER) return cell_of(v, cells->ids);
  return type == SQLITE_TEXT ? s2u_from_tokens(text, n, cells->ids, room, &cells->count)
                             : s2u_decode(bytes, n, cells->ids, room, &cells->count);
}

static void refuse_value(sqlite3_context* c, const char* what, sqlite3_value* v) {
  char* text = NULL;
  int code = wrong(&text, what, v);
  refuse(c, code, text);
}

/* Whether an argument is a level, or isn't there; else there is an error. */
static int is_level(sqlite3_context* c, sqlite3_value* v, sqlite3_int64* level) {
  char* text = NULL;
  int code = level_of(v, level, &text);
  refuse(c, code, text);
  return code == SQLITE_OK;
}

static void result_around(sqlite3_context* c, int32_t status, sqlite3_value* v, s2u_cover_cells* cells) {
  if (status == S2U_OK) result_cells(c, cells);
  else if (status == S2U_MEMORY) sqlite3_result_error_nomem(c);
  else refuse_value(c, s2u_status_text(status), v);
  s2u_cover_free(cells);
}

static void neighbors_function(sqlite3_context* c, int n, sqlite3_value** v) {
  uint64_t cell;
  s2u_cover_cells cells = {NULL, 0};
  if (has_null(n, v)) return;
  int32_t status = cell_of(v[0], &cell);
  if (status == S2U_OK && !s2u_is_cell(cell)) status = S2U_NO_CELL;
  if (status != S2U_OK) {
    result_around(c, status, v[0], &cells);
    return;
  }
  sqlite3_int64 own = s2u_level(cell), level = own;
  if (is_level(c, n > 1 ? v[1] : NULL, &level) && level >= own)
    result_around(c, s2u_cover_neighbors(cell, (uint32_t)level, &cells), v[n - 1], &cells);
}

static void expanded_function(sqlite3_context* c, int n, sqlite3_value** v) {
  s2u_cover_cells region = {NULL, 0}, cells = {NULL, 0};
  sqlite3_int64 level;
  if (has_null(n, v) || !is_level(c, v[1], &level)) return;
  int32_t status = region_of(v[0], &region);
  if (status == S2U_OK) status = s2u_cover_expanded(region.ids, region.count, (uint32_t)level, &cells);
  result_around(c, status, v[status == S2U_MANY ? 1 : 0], &cells);
  s2u_cover_free(&region);
}

/* A list of JSON, as `bbox` of GeoJSON. */
static void bounds_function(sqlite3_context* c, int n, sqlite3_value** v) {
  s2u_cover_cells region = {NULL, 0}, none = {NULL, 0};
  s2u_cover_bounds box = {0, 1, 0, 0};
  if (sqlite3_value_type(v[0]) == SQLITE_NULL) return;
  int32_t status = region_of(v[0], &region);
  if (status == S2U_OK) status = s2u_cover_rect_bound(region.ids, region.count, &box);
  s2u_cover_free(&region);
  if (status != S2U_OK) {
    result_around(c, status, v[0], &none);
  } else if (box.south <= box.north) {
    char* text = sqlite3_mprintf("[%!.17g,%!.17g,%!.17g,%!.17g]", box.west, box.south, box.east, box.north);
    text ? sqlite3_result_text(c, text, -1, sqlite3_free) : sqlite3_result_error_nomem(c);
  }
}

/* Of the union of the cells, so that each place counts once. */
static void area_function(sqlite3_context* c, int n, sqlite3_value** v) {
  s2u_cover_cells region = {NULL, 0}, none = {NULL, 0};
  if (sqlite3_value_type(v[0]) == SQLITE_NULL) return;
  int32_t status = region_of(v[0], &region);
  if (status == S2U_OK) status = s2u_normalise(region.ids, region.count, &region.count);
  if (status == S2U_OK) sqlite3_result_double(c, s2u_geo_area(region.ids, region.count));
  else result_around(c, status, v[0], &none);
  s2u_cover_free(&region);
}

static void covering_function(sqlite3_context* c, int n, sqlite3_value** v) { cover(c, n, v, 1); }
static void interior_function(sqlite3_context* c, int n, sqlite3_value** v) { cover(c, n, v, 0); }

/* ---- exact joins: whether a shape has a place, its clips, and all its tiles */

static void covers_function(sqlite3_context* c, int n, sqlite3_value** v) {
  char* text = NULL;
  int covers;
  wkb shape;
  if (has_null(n, v)) return;
  int code = shape_of(v[0], &shape, &text);
  if (code == SQLITE_OK) code = check_place(v + 1, &text);
  if (code == SQLITE_OK) {
    s2u_cover_fault fault;
    int32_t status = s2u_join_covers(shape.at, shape.size, sqlite3_value_double(v[1]), sqlite3_value_double(v[2]),
                                     &covers, &fault);
    code = check_status(status, &fault, &text);
  }
  if (code == SQLITE_OK) sqlite3_result_int(c, covers);
  refuse(c, code, text);
}

/* The clip of a shape in a tile. */
static int answer_clip(sqlite3_context* c, sqlite3_value* v, uint64_t tile, char** text) {
  s2u_cover_fault fault;
  s2u_join_bytes clip;
  wkb shape;
  int code = shape_of(v, &shape, text);
  if (code != SQLITE_OK) return code;
  code = check_status(s2u_join_clip(shape.at, shape.size, tile, &clip, &fault), &fault, text);
  if (code == SQLITE_OK) sqlite3_result_blob64(c, clip.at, clip.size, SQLITE_TRANSIENT);
  free(clip.at);
  return code;
}

static void clip_function(sqlite3_context* c, int n, sqlite3_value** v) {
  char* text = NULL;
  uint64_t tile = 0;
  if (has_null(n, v)) return;
  wkb shape;
  int code = shape_of(v[0], &shape, &text);
  if (code == SQLITE_OK) code = check_cell(cell_of(v[1], &tile), v[1], &text);
  if (code == SQLITE_OK && !s2u_is_cell(tile)) code = wrong(&text, "not a cell", v[1]);
  if (code == SQLITE_OK) code = answer_clip(c, v[0], tile, &text);
  refuse(c, code, text);
}

enum { TILE, PART, SURE, CLIP, SHAPE, LEVEL, MAX_CELLS, COLUMNS, GIVEN = COLUMNS - SHAPE };

/* A call of s2_join_tiles: its arguments as they were given, both coverings, and the cells whose tiles come. */
typedef struct cursor {
  sqlite3_vtab_cursor base;
  sqlite3_value* given[GIVEN];
  s2u_cover_cells outer, inner, cells, part, sure;
  sqlite3_int64 level;
  uint64_t tile; /* 0 at the end */
  size_t next; /* of the cells */
} cursor;

/* A row is known by its tile and the arguments, as in the tables of s2union.c. */
static int connect(sqlite3* db, void* aux, int argc, const char* const* argv, sqlite3_vtab** made, char** error) {
  int code = sqlite3_declare_vtab(db, "CREATE TABLE x(tile, part, sure, clip, x BLOB HIDDEN, level HIDDEN, "
                                      "max_cells HIDDEN, PRIMARY KEY(tile, level, max_cells, x)) WITHOUT ROWID");
  if (code != SQLITE_OK) return code;
  if (!(*made = sqlite3_malloc64(sizeof **made))) return SQLITE_NOMEM;
  **made = (sqlite3_vtab){.nRef = 0};
  return sqlite3_vtab_config(db, SQLITE_VTAB_INNOCUOUS);
}

static int disconnect(sqlite3_vtab* t) { return sqlite3_free(t), SQLITE_OK; }

/* The plan's number is how many arguments are given, each once, in order, and a constant in the loop. */
static int best_index(sqlite3_vtab* t, sqlite3_index_info* plan) {
  for (int a = SHAPE; a < COLUMNS; a++) {
    for (int k = 0; k < plan->nConstraint; k++) {
      if (plan->aConstraint[k].iColumn != a || plan->aConstraint[k].op != SQLITE_INDEX_CONSTRAINT_EQ) continue;
      if (!plan->aConstraint[k].usable || plan->idxNum != a - SHAPE) return SQLITE_CONSTRAINT;
      plan->aConstraintUsage[k].argvIndex = ++plan->idxNum;
      plan->aConstraintUsage[k].omit = 1;
    }
  }
  plan->estimatedCost = 1e6, plan->estimatedRows = 20;
  return plan->idxNum >= 2 && plan->colUsed >> (SHAPE + plan->idxNum) == 0 ? SQLITE_OK : SQLITE_CONSTRAINT;
}

static int open_cursor(sqlite3_vtab* t, sqlite3_vtab_cursor** made) {
  cursor* u = sqlite3_malloc64(sizeof *u);
  if (!u) return SQLITE_NOMEM;
  *u = (cursor){.next = 0};
  return *made = &u->base, SQLITE_OK;
}

/* Frees what the last call was given and has made. */
static void empty(cursor* u) {
  s2u_cover_cells* const lists[] = {&u->outer, &u->inner, &u->cells, &u->part, &u->sure};
  for (size_t k = 0; k < sizeof lists / sizeof *lists; k++) s2u_cover_free(lists[k]);
  for (int k = 0; k < GIVEN; k++) sqlite3_value_free(u->given[k]);
  *u = (cursor){.base = u->base};
}

static int close_cursor(sqlite3_vtab_cursor* u) { return empty((cursor*)u), sqlite3_free(u), SQLITE_OK; }

/* Room for what a list has of a tile, or for the cells of a level that a list meets: they are no more than it has. */
static int take_room(s2u_cover_cells* cells, const s2u_cover_cells* of) {
  return (cells->ids = malloc((of->count + 1) * sizeof(uint64_t))) != NULL;
}

/* Goes to the next tile, and to what both coverings have in it. */
static int next(sqlite3_vtab_cursor* base) {
  cursor* u = (cursor*)base;
  uint64_t end = u->tile ? s2u_range_max(u->tile) : 0;
  if (u->tile && end != s2u_range_max(u->cells.ids[u->next - 1])) u->tile = s2u_next(u->tile);
  else if (u->next == u->cells.count) return u->tile = 0, SQLITE_OK;
  else u->tile = s2u_parent(s2u_range_min(u->cells.ids[u->next++]), (uint32_t)u->level);
  s2u_intersection(u->outer.ids, u->outer.count, &u->tile, 1, u->part.ids, u->outer.count + 1, &u->part.count);
  s2u_intersection(u->inner.ids, u->inner.count, &u->tile, 1, u->sure.ids, u->inner.count + 1, &u->sure.count);
  return SQLITE_OK;
}

static int fill(cursor* u, int n, sqlite3_value** v, char** text) {
  sqlite3_int64 most = 50;
  wkb shape;
  int code = shape_of(v[0], &shape, text);
  if (code == SQLITE_OK) code = level_of(v[1], &u->level, text);
  if (code == SQLITE_OK) code = max_cells_of(n > 2 ? v[2] : NULL, &most, text);
  if (code != SQLITE_OK) return code;
  const s2u_cover_options options = {(uint64_t)most, 0, 30, S2U_COVER_MAP, 0};
  s2u_cover_fault fault;
  code = check_status(s2u_cover_wkb(shape.at, shape.size, &options, &u->outer, &u->inner, &fault), &fault, text);
  if (code != SQLITE_OK) return code;
  if (!take_room(&u->cells, &u->outer) || !take_room(&u->part, &u->outer) || !take_room(&u->sure, &u->inner))
    return SQLITE_NOMEM;
  s2u_outer_of(u->outer.ids, u->outer.count, (uint32_t)u->level, S2U_MOST_COVERING, u->cells.ids, u->outer.count,
               &u->cells.count); /* which has room enough */
  return next(&u->base);
}

static int filter(sqlite3_vtab_cursor* base, int plan, const char* name, int n, sqlite3_value** v) {
  cursor* u = (cursor*)base;
  char* text = NULL;
  empty(u);
  if (has_null(n, v)) return SQLITE_OK; /* no rows */
  for (int k = 0; k < n; k++)
    if (!(u->given[k] = sqlite3_value_dup(v[k]))) return SQLITE_NOMEM;
  int code = fill(u, n, v, &text);
  if (!text) return code;
  sqlite3_free(base->pVtab->zErrMsg);
  base->pVtab->zErrMsg = text;
  return code;
}

static int eof(sqlite3_vtab_cursor* u) { return ((cursor*)u)->tile == 0; }

static int column(sqlite3_vtab_cursor* base, sqlite3_context* c, int k) {
  cursor* u = (cursor*)base;
  char* text = NULL;
  int code = SQLITE_OK;
  if (k == TILE) sqlite3_result_int64(c, (sqlite3_int64)u->tile);
  else if (k == PART || k == SURE) result_cells(c, k == PART ? &u->part : &u->sure);
  else if (k >= SHAPE && u->given[k - SHAPE]) sqlite3_result_value(c, u->given[k - SHAPE]);
  else if (k == CLIP && !s2u_contains(u->sure.ids, u->sure.count, u->part.ids, u->part.count))
    code = answer_clip(c, u->given[0], u->tile, &text);
  refuse(c, code, text);
  return SQLITE_OK;
}

static const sqlite3_module join_tiles = {
  .xConnect = connect, .xDisconnect = disconnect, .xBestIndex = best_index, .xOpen = open_cursor,
  .xClose = close_cursor, .xFilter = filter, .xNext = next, .xEof = eof, .xColumn = column,
};

__attribute__((visibility("default")))
int sqlite3_sunion_geo_init(sqlite3* db, char** error, const sqlite3_api_routines* api) {
  static const struct { const char* name; int n; void (*call)(sqlite3_context*, int, sqlite3_value**); } all[] = {
    {"s2_leaf_at", 2, leaf_at_function},
    {"s2_longitude", 1, longitude_function},
    {"s2_latitude", 1, latitude_function},
    {"s2_covering", 1, covering_function},
    {"s2_covering", 2, covering_function},
    {"s2_covering", 3, covering_function},
    {"s2_interior", 1, interior_function},
    {"s2_interior", 2, interior_function},
    {"s2_interior", 3, interior_function},
    {"s2_neighbors", 1, neighbors_function},
    {"s2_neighbors", 2, neighbors_function},
    {"s2_expanded", 2, expanded_function},
    {"s2_bounds", 1, bounds_function},
    {"s2_area", 1, area_function},
    {"s2_covers", 3, covers_function},
    {"s2_clip", 2, clip_function},
  };
  SQLITE_EXTENSION_INIT2(api);
  int status = sqlite3_create_module(db, "s2_join_tiles", &join_tiles, NULL);
  for (size_t k = 0; status == SQLITE_OK && k < sizeof all / sizeof *all; k++)
    status = sqlite3_create_function_v2(db, all[k].name, all[k].n,
      SQLITE_UTF8 | SQLITE_DETERMINISTIC | SQLITE_INNOCUOUS, NULL, all[k].call, NULL, NULL, NULL);
  return status;
}

/* SQLite asks for a name that it makes of the file's, and then for this one. */
__attribute__((visibility("default")))
int sqlite3_extension_init(sqlite3* db, char** error, const sqlite3_api_routines* api) {
  return sqlite3_sunion_geo_init(db, error, api);
}
