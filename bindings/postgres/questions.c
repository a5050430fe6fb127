/* Questions about unions, by yes or no and by a number. */
#include "postgres.h"

#include "value.h"

Datum answer(int32_t status) {
  must_be_ok(status);
  PG_RETURN_BOOL(status == 1);
}

/* A question about argument a and argument b. */
static Datum of_two_asked(FunctionCallInfo fcinfo, question* ask, int a, int b) {
  const S2Union *x = ASKED(a), *y = ASKED(b);
  Datum yes = answer(ask(LIST(x), LIST(y)));
  free_asked(fcinfo, x, a);
  free_asked(fcinfo, y, b);
  return yes;
}

FUNCTION(s2union_contains, of_two_asked(fcinfo, s2u_contains, 0, 1))
FUNCTION(s2union_within, of_two_asked(fcinfo, s2u_contains, 1, 0))
FUNCTION(s2union_intersects, of_two_asked(fcinfo, s2u_intersects, 0, 1))

typedef int32_t cell_question(const uint64_t* xs, size_t n, uint64_t cell);

/* A question about the union in argument a and the cell in argument b. */
static Datum of_asked_and_cell(FunctionCallInfo fcinfo, cell_question* ask, int a, int b) {
  const S2Union* x = ASKED(a);
  int32_t status = ask(LIST(x), (uint64_t)PG_GETARG_INT64(b));
  if (status == S2U_NO_CELL) refuse_number(PG_GETARG_INT64(b));
  Datum yes = answer(status);
  free_asked(fcinfo, x, a);
  return yes;
}

FUNCTION(s2union_contains_cell, of_asked_and_cell(fcinfo, s2u_contains_cell, 0, 1))
FUNCTION(s2union_cell_within, of_asked_and_cell(fcinfo, s2u_contains_cell, 1, 0))
FUNCTION(s2union_intersects_cell, of_asked_and_cell(fcinfo, s2u_intersects_cell, 0, 1))
FUNCTION(s2union_cell_intersects, of_asked_and_cell(fcinfo, s2u_intersects_cell, 1, 0))

int64 edge_of(const uint64_t* cells, size_t n, bool least) {
  int64 found = (int64)cells[0];
  for (size_t k = 0; k < n; k++) {
    int64 leaf = (int64)(least ? s2u_range_min(cells[k]) : s2u_range_max(cells[k]));
    if (least ? leaf < found : leaf > found) found = leaf;
  }
  return found;
}

/* NULL if the union has no cell. */
static Datum edge(FunctionCallInfo fcinfo, bool least) {
  S2Union* region = ARGUMENT(0);
  size_t n = count_of(region);
  int64 found = n == 0 ? 0 : edge_of(LIST(region), least);
  PG_FREE_IF_COPY(region, 0);
  if (n == 0) PG_RETURN_NULL();
  PG_RETURN_INT64(found);
}

FUNCTION(s2union_least, edge(fcinfo, true))
FUNCTION(s2union_greatest, edge(fcinfo, false))

FUNCTION(s2union_count, Int64GetDatum((int64)count_of(ARGUMENT(0))))
FUNCTION(s2union_is_empty, BoolGetDatum(count_of(ARGUMENT(0)) == 0))

PG_FUNCTION_INFO_V1(s2union_leaves);
Datum s2union_leaves(PG_FUNCTION_ARGS) {
  S2Union* u = ARGUMENT(0);
  PG_RETURN_INT64((int64)s2u_leaf_count(LIST(u)));
}
