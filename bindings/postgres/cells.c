/* Functions of SQL about a cell, and the arrays of the cells of a union. */
#include "postgres.h"

#include "catalog/pg_type.h"
#include "utils/array.h"
#include "utils/builtins.h"

#include "value.h"

/* An array of n cells. The caller fills in the cells; without any, an array has no dimension. */
#define MOST_OF_ARRAY ((MaxAllocSize - ARR_OVERHEAD_NONULLS(1)) / sizeof(int64))

static ArrayType* new_array(uint64_t n) {
  if (n > MOST_OF_ARRAY) must_be_ok(S2U_MANY);
  size_t size = n == 0 ? sizeof(ArrayType) : ARR_OVERHEAD_NONULLS(1) + n * sizeof(int64);
  ArrayType* array = palloc0(size);
  SET_VARSIZE(array, size);
  array->elemtype = INT8OID;
  array->ndim = n == 0 ? 0 : 1;
  if (n == 0) return array;
  ARR_DIMS(array)[0] = (int)n;
  ARR_LBOUND(array)[0] = 1;
  return array;
}

static Datum array_of(const uint64_t* cells, size_t n) {
  ArrayType* array = new_array(n);
  if (n > 0) memcpy(ARR_DATA_PTR(array), cells, n * sizeof(int64));
  PG_RETURN_ARRAYTYPE_P(array);
}

PG_FUNCTION_INFO_V1(s2union_cells);
Datum s2union_cells(PG_FUNCTION_ARGS) {
  S2Union* u = ARGUMENT(0);
  return array_of(LIST(u));
}

PG_FUNCTION_INFO_V1(s2union_cells_cut);
Datum s2union_cells_cut(PG_FUNCTION_ARGS) {
  S2Union* u = ARGUMENT(0);
  uint32_t level = (uint32_t)PG_GETARG_INT32(1), modulus = (uint32_t)PG_GETARG_INT32(2);
  uint64_t count = 0;
  size_t n = 0;
  must_take_numbers(s2u_denormalised_len(LIST(u), level, modulus, &count), fcinfo, 1);
  if (count > MOST_OF_ARRAY) must_take_numbers(S2U_MANY, fcinfo, 1);
  ArrayType* array = new_array(count);
  if (count > 0) must_be_ok(s2u_denormalised(LIST(u), level, modulus, (uint64_t*)ARR_DATA_PTR(array), count, &n));
  PG_RETURN_ARRAYTYPE_P(array);
}

PG_FUNCTION_INFO_V1(s2union_ancestors);
Datum s2union_ancestors(PG_FUNCTION_ARGS) {
  S2Union* u = ARGUMENT(0);
  size_t room = 2 * count_of(u) + 31, n = 0;
  uint64_t* cells = palloc_extended(room * sizeof *cells, MCXT_ALLOC_HUGE);
  int32_t status = s2u_ancestors(LIST(u), cells, room, &n);
  if (status == S2U_ROOM) {
    room = n;
    pfree(cells);
    cells = palloc_extended(room * sizeof *cells, MCXT_ALLOC_HUGE);
    status = s2u_ancestors(LIST(u), cells, room, &n);
  }
  must_be_ok(status);
  return array_of(cells, n);
}

PG_FUNCTION_INFO_V1(s2_leaf);
Datum s2_leaf(PG_FUNCTION_ARGS) {
  uint32_t face = (uint32_t)PG_GETARG_INT32(0), i = (uint32_t)PG_GETARG_INT32(1), j = (uint32_t)PG_GETARG_INT32(2);
  uint64_t leaf = s2u_from_face_ij(face, i, j);
  must_take_numbers(leaf ? S2U_OK : S2U_ARGUMENT, fcinfo, 0);
  PG_RETURN_INT64((int64)leaf);
}

PG_FUNCTION_INFO_V1(s2_version);
Datum s2_version(PG_FUNCTION_ARGS) { PG_RETURN_TEXT_P(cstring_to_text(S2U_VERSION_TEXT)); }

uint64_t cell_argument(FunctionCallInfo fcinfo, int k) {
  uint64_t cell = (uint64_t)PG_GETARG_INT64(k);
  if (!s2u_is_cell(cell)) refuse_number((int64)cell);
  return cell;
}

uint64_t cell_named(const text* word) {
  uint64_t cell = 0;
  int32_t status = s2u_host_cell_of_text(VARDATA_ANY(word), VARSIZE_ANY_EXHDR(word), &cell);
  if (status == S2U_NO_CELL) refuse_text(VARDATA_ANY(word), VARSIZE_ANY_EXHDR(word));
  must_be_ok(status);
  return cell;
}

#define CELL cell_argument(fcinfo, 0)

/* Whether a text names a cell. */
static bool names_cell(const text* word) {
  uint64_t cell;
  return s2u_host_cell_of_text(VARDATA_ANY(word), VARSIZE_ANY_EXHDR(word), &cell) == S2U_OK;
}

FUNCTION(s2_is_cell, BoolGetDatum(s2u_is_cell((uint64_t)PG_GETARG_INT64(0)) == 1))
FUNCTION(s2_is_cell_of_text, BoolGetDatum(names_cell(PG_GETARG_TEXT_PP(0))))
FUNCTION(s2_cell, Int64GetDatum((int64)cell_named(PG_GETARG_TEXT_PP(0))))
FUNCTION(s2_cell_of_number, Int64GetDatum((int64)CELL))

typedef int32_t writer(uint64_t cell, char* text, size_t room, size_t* n);

static Datum written(uint64_t cell, writer* write) {
  char text[S2U_MOST_DEBUG];
  size_t n = 0;
  must_be_ok(write(cell, text, sizeof text, &n));
  PG_RETURN_TEXT_P(cstring_to_text_with_len(text, (int)n));
}

/* A cell, or NULL: 0 is none. */
static Datum cell_or_null(FunctionCallInfo fcinfo, uint64_t cell) {
  if (cell == 0) PG_RETURN_NULL();
  PG_RETURN_INT64((int64)cell);
}

typedef uint64_t relation(uint64_t cell, uint32_t number);

/* The parent or the child of a cell by a number, or NULL if it has none. A number that no cell has one for is
 * refused. */
static Datum relative(FunctionCallInfo fcinfo, relation* of, uint32_t most) {
  uint64_t cell = CELL;
  uint32_t number = (uint32_t)PG_GETARG_INT32(1);
  must_take_numbers(number <= most ? S2U_OK : S2U_ARGUMENT, fcinfo, 1);
  return cell_or_null(fcinfo, of(cell, number));
}

FUNCTION(s2_token, written(CELL, s2u_token))
FUNCTION(s2_debug, written(CELL, s2u_debug))
FUNCTION(s2_level, Int32GetDatum(s2u_level(CELL)))
FUNCTION(s2_face, Int32GetDatum(s2u_face(CELL)))
FUNCTION(s2_range_min, Int64GetDatum((int64)s2u_range_min(CELL)))
FUNCTION(s2_range_max, Int64GetDatum((int64)s2u_range_max(CELL)))
FUNCTION(s2_parent, relative(fcinfo, s2u_parent, 30))
FUNCTION(s2_child, relative(fcinfo, s2u_child, 3))
FUNCTION(s2_common_ancestor, cell_or_null(fcinfo, s2u_common_ancestor(CELL, cell_argument(fcinfo, 1))))
