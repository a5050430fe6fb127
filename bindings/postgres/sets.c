/* Unions that are made: by set operations, as coverings, of ranges and of lists of cells, and in tiles. */
#include "postgres.h"

#include "access/htup_details.h"
#include "catalog/pg_type.h"
#include "funcapi.h"
#include "miscadmin.h"
#include "utils/array.h"

#include "value.h"

/* What is made of what. The numbers of a call and a last cell are there if they may be refused. */
typedef struct Job {
  FunctionCallInfo call;
  int first_number;
  const S2Union *x, *y;
  uint64_t first, last;
  s2u_rect rect;
  uint32_t level;
} Job;

typedef int32_t maker(const Job* j, uint64_t* out, size_t room, size_t* n);

#define MAKER(name, f, ...) \
  static int32_t name(const Job* j, uint64_t* out, size_t room, size_t* n) { return f(__VA_ARGS__, out, room, n); }
MAKER(make_union, s2u_union, LIST(j->x), LIST(j->y))
MAKER(make_intersection, s2u_intersection, LIST(j->x), LIST(j->y))
MAKER(make_difference, s2u_difference, LIST(j->x), LIST(j->y))
MAKER(make_symmetric_difference, s2u_symmetric_difference, LIST(j->x), LIST(j->y))
MAKER(make_complement, s2u_complement, LIST(j->x))
MAKER(make_range, s2u_range, j->first, j->last)
MAKER(make_outer, s2u_outer, &j->rect, j->level, S2U_MOST_COVERING)
MAKER(make_inner, s2u_inner, &j->rect, j->level, S2U_MOST_COVERING)
MAKER(make_outer_of, s2u_outer_of, LIST(j->x), j->level, S2U_MOST_COVERING)
MAKER(make_inner_of, s2u_inner_of, LIST(j->x), j->level, S2U_MOST_COVERING)
MAKER(make_outer_in, s2u_outer_in, LIST(j->x), &j->rect, j->level, S2U_MOST_COVERING)
MAKER(make_inner_in, s2u_inner_in, LIST(j->x), &j->rect, j->level, S2U_MOST_COVERING)

/* The refusal of what a job was given. */
static void must_be_made(int32_t status, const Job* j) {
  if (j->call) must_take_numbers(status, j->call, j->first_number);
  if (j->last && status == S2U_ARGUMENT)
    refuse(status, psprintf(INT64_FORMAT " to " INT64_FORMAT, (int64)j->first, (int64)j->last), false);
  must_be_ok(status);
}

static Datum made(maker* make, const Job* j, size_t room) {
  size_t n = 0;
  S2Union* u = new_value(room);
  int32_t status = make(j, u->cells, room, &n);
  if (status == S2U_ROOM) {
    room = n;
    pfree(u);
    u = new_value(room);
    status = make(j, u->cells, room, &n);
  }
  must_be_made(status, j);
  return finished(u, n);
}

/* Argument k of a set operation. What an operation has just made hardly comes again, so it isn't kept. */
static const S2Union* stored_argument(FunctionCallInfo fcinfo, int k) {
  bool stored = is_constant(fcinfo->flinfo, k) || VARATT_IS_EXTERNAL_ONDISK(PG_GETARG_POINTER(k));
  return stored ? ASKED(k) : ARGUMENT(k);
}

static Datum of_two_unions(FunctionCallInfo fcinfo, maker* make) {
  Job j = {.x = stored_argument(fcinfo, 0), .y = stored_argument(fcinfo, 1)};
  return made(make, &j, Min(count_of(j.x) + count_of(j.y), MOST_IN_VALUE));
}

static Datum of_one_union(FunctionCallInfo fcinfo, maker* make) {
  Job j = {.x = stored_argument(fcinfo, 0)};
  return made(make, &j, Min(count_of(j.x) + S2U_MOST_COMPLEMENT(0), MOST_IN_VALUE));
}

/* The covering of a rectangle at a level, whose six numbers are the arguments from `first` on; before it there may be a
 * union that clips it. Numbers of SQL's integer that are below 0 are out of range for the library too. */
static Datum of_rectangle(FunctionCallInfo fcinfo, int first, maker* make) {
  uint32_t a[6];
  for (int k = 0; k < 6; k++) a[k] = (uint32_t)PG_GETARG_INT32(first + k);
  Job j = {fcinfo, first, first ? ARGUMENT(0) : NULL, .rect = {a[0], a[1], a[2], a[3], a[4]}, .level = a[5]};
  return made(make, &j, S2U_MOST_RANGE);
}

static Datum of_level(FunctionCallInfo fcinfo, maker* make) {
  Job j = {fcinfo, 1, ARGUMENT(0), .level = (uint32_t)PG_GETARG_INT32(1)};
  return made(make, &j, count_of(j.x));
}

FUNCTION(s2union_union, of_two_unions(fcinfo, make_union))
FUNCTION(s2union_intersection, of_two_unions(fcinfo, make_intersection))
FUNCTION(s2union_difference, of_two_unions(fcinfo, make_difference))
FUNCTION(s2union_symmetric_difference, of_two_unions(fcinfo, make_symmetric_difference))
FUNCTION(s2union_complement, of_one_union(fcinfo, make_complement))
FUNCTION(s2union_outer, of_rectangle(fcinfo, 0, make_outer))
FUNCTION(s2union_inner, of_rectangle(fcinfo, 0, make_inner))
FUNCTION(s2union_outer_in, of_rectangle(fcinfo, 1, make_outer_in))
FUNCTION(s2union_inner_in, of_rectangle(fcinfo, 1, make_inner_in))
FUNCTION(s2union_outer_of, of_level(fcinfo, make_outer_of))
FUNCTION(s2union_inner_of, of_level(fcinfo, make_inner_of))

PG_FUNCTION_INFO_V1(s2union_range);
Datum s2union_range(PG_FUNCTION_ARGS) {
  Job j = {.first = cell_argument(fcinfo, 0)};
  j.last = cell_argument(fcinfo, 1);
  return made(make_range, &j, S2U_MOST_RANGE);
}

S2Union* s2union_of_cell(int64 number) {
  uint64_t cell = (uint64_t)number;
  return s2u_is_cell(cell) ? value_with(&cell, 1) : NULL;
}

PG_FUNCTION_INFO_V1(s2union_from_cell);
Datum s2union_from_cell(PG_FUNCTION_ARGS) {
  uint64_t cell = cell_argument(fcinfo, 0);
  return PointerGetDatum(value_with(&cell, 1));
}

static void refuse_null(void) {
  ereport(ERROR, errcode(ERRCODE_NULL_VALUE_NOT_ALLOWED), errmsg("s2union: a cell is NULL"));
}

/* The union of n cells that are in a new value. */
static Datum normalised(S2Union* u, size_t n) {
  size_t end = n;
  int32_t status = s2u_normalise(u->cells, n, &end);
  if (status == S2U_NO_CELL) refuse_number((int64)u->cells[end]);
  must_be_ok(status);
  return finished(u, end);
}

PG_FUNCTION_INFO_V1(s2union_from_cells);
Datum s2union_from_cells(PG_FUNCTION_ARGS) {
  ArrayType* cells = PG_GETARG_ARRAYTYPE_P(0);
  size_t n = ArrayGetNItems(ARR_NDIM(cells), ARR_DIMS(cells));
  if (array_contains_nulls(cells)) refuse_null();
  return normalised(value_with((const uint64_t*)ARR_DATA_PTR(cells), n), n);
}

PG_FUNCTION_INFO_V1(s2union_from_texts);
Datum s2union_from_texts(PG_FUNCTION_ARGS) {
  Datum* words = NULL;
  bool* nulls = NULL;
  int n = 0;
  deconstruct_array(PG_GETARG_ARRAYTYPE_P(0), TEXTOID, -1, false, TYPALIGN_INT, &words, &nulls, &n);
  S2Union* u = new_value(n);
  for (int k = 0; k < n; k++) {
    CHECK_FOR_INTERRUPTS();
    if (nulls[k]) refuse_null();
    u->cells[k] = cell_named(DatumGetTextPP(words[k]));
  }
  return normalised(u, n);
}

/* ---- a covering with few cells, for what must not grow with a value: an index's keys, the planner's sample ---- */

/* Whether the covering at a level has few enough cells, and keys if these are wanted. */
static bool fits(const uint64_t* cells, size_t n, uint32_t level, Few* few) {
  CHECK_FOR_INTERRUPTS();
  int32_t status = s2u_outer_of(cells, n, level, few->most, few->range, few->most, &few->ranges);
  if (status == S2U_OK && few->key) status = s2u_ancestors(few->range, few->ranges, few->key, few->most, &few->keys);
  if (status == S2U_MANY || status == S2U_ROOM) return false;
  must_be_ok(status);
  return true;
}

bool cover_by_few(const uint64_t* cells, size_t n, Few* few) {
  uint32_t least = 0;
  if (fits(cells, n, 30, few)) return true;
  for (uint32_t exceeds = 30; least + 1 < exceeds;) {
    uint32_t level = (least + exceeds) / 2;
    *(fits(cells, n, level, few) ? &least : &exceeds) = level;
  }
  fits(cells, n, least, few);
  return false;
}

S2Union* s2union_covering(const S2Union* u, size_t most) {
  if (count_of(u) <= most) return value_with(LIST(u));
  S2Union* covering = new_value(most);
  Few few = {.most = most, .range = covering->cells};
  cover_by_few(LIST(u), &few);
  finished(covering, few.ranges);
  return covering;
}

/* ---- tiles: the cells of a level that a union meets, and its part in each, a row for each ---- */

typedef struct Tiles {
  const S2Union* whole;
  uint64_t* tile;
} Tiles;

enum { CELLS_OF_PART = 256 }; /* room for most parts */

/* What is kept from row to row, as the argument is: the union, unpacked, and its tiles, which are counted. */
static Tiles* new_tiles(FunctionCallInfo fcinfo, uint64_t* count) {
  Tiles* t = palloc0(sizeof *t);
  size_t n = 0;
  t->whole = ARGUMENT(0);
  Job j = {fcinfo, 1, t->whole, .level = (uint32_t)PG_GETARG_INT32(1)};
  S2Union* outer = (S2Union*)DatumGetPointer(made(make_outer_of, &j, count_of(j.x)));
  must_be_ok(s2u_denormalised_len(LIST(outer), j.level, 1, count));
  if (*count > MOST_IN_VALUE) must_take_numbers(S2U_MANY, fcinfo, 1);
  t->tile = palloc_extended(Max(*count, 1) * sizeof *t->tile, MCXT_ALLOC_HUGE);
  if (*count > 0) must_be_ok(s2u_denormalised(LIST(outer), j.level, 1, t->tile, *count, &n));
  pfree(outer);
  return t;
}

static Datum row_of_tile(const Tiles* t, uint64_t tile, TupleDesc row) {
  bool nulls[2] = {false, false};
  Job j = {.x = t->whole, .y = value_with(&tile, 1)};
  Datum values[2] = {Int64GetDatum((int64)tile), made(make_intersection, &j, Min(count_of(j.x), CELLS_OF_PART))};
  return HeapTupleGetDatum(heap_form_tuple(row, values, nulls));
}

PG_FUNCTION_INFO_V1(s2_tiles);
Datum s2_tiles(PG_FUNCTION_ARGS) {
  FuncCallContext* rows;
  if (SRF_IS_FIRSTCALL()) {
    rows = SRF_FIRSTCALL_INIT();
    MemoryContext context = MemoryContextSwitchTo(rows->multi_call_memory_ctx);
    TypeFuncClass kind = get_call_result_type(fcinfo, NULL, &rows->tuple_desc);
    must_be_ok(kind == TYPEFUNC_COMPOSITE ? S2U_OK : S2U_ARGUMENT);
    rows->tuple_desc = BlessTupleDesc(rows->tuple_desc);
    rows->user_fctx = new_tiles(fcinfo, &rows->max_calls);
    MemoryContextSwitchTo(context);
  }
  rows = SRF_PERCALL_SETUP();
  if (rows->call_cntr == rows->max_calls) SRF_RETURN_DONE(rows);
  const Tiles* t = rows->user_fctx;
  Datum row = row_of_tile(t, t->tile[rows->call_cntr], rows->tuple_desc);
  SRF_RETURN_NEXT(rows, row);
}
