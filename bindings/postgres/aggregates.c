/* The aggregate that makes the union of all rows. */
#include "postgres.h"

#include "value.h"

/* The state of argument 0, made in the aggregate's context if there is none yet. */
static Gathered* state_of(FunctionCallInfo fcinfo) {
  MemoryContext context;
  if (!AggCheckCallContext(fcinfo, &context)) elog(ERROR, "s2union: called outside of an aggregate");
  return PG_ARGISNULL(0) ? new_gathered(context, 64) : (Gathered*)PG_GETARG_POINTER(0);
}

/* The state unchanged, for a row or a state that is NULL. */
static Datum unchanged(FunctionCallInfo fcinfo) {
  if (PG_ARGISNULL(0)) PG_RETURN_NULL();
  return PG_GETARG_DATUM(0);
}

PG_FUNCTION_INFO_V1(s2union_agg_step);
Datum s2union_agg_step(PG_FUNCTION_ARGS) {
  if (PG_ARGISNULL(1)) return unchanged(fcinfo);
  Gathered* g = state_of(fcinfo);
  S2Union* u = ARGUMENT(1);
  gather(g, LIST(u));
  PG_RETURN_POINTER(g);
}

PG_FUNCTION_INFO_V1(s2union_agg_step_cell);
Datum s2union_agg_step_cell(PG_FUNCTION_ARGS) {
  if (PG_ARGISNULL(1)) return unchanged(fcinfo);
  uint64_t cell = cell_argument(fcinfo, 1);
  Gathered* g = state_of(fcinfo);
  gather(g, &cell, 1);
  PG_RETURN_POINTER(g);
}

PG_FUNCTION_INFO_V1(s2union_agg_step_text);
Datum s2union_agg_step_text(PG_FUNCTION_ARGS) {
  if (PG_ARGISNULL(1)) return unchanged(fcinfo);
  S2Union* u = read_text(PG_GETARG_DATUM(1));
  Gathered* g = state_of(fcinfo);
  gather(g, LIST(u));
  PG_RETURN_POINTER(g);
}

PG_FUNCTION_INFO_V1(s2union_agg_combine);
Datum s2union_agg_combine(PG_FUNCTION_ARGS) {
  if (PG_ARGISNULL(1)) return unchanged(fcinfo);
  Gathered *g = state_of(fcinfo), *more = (Gathered*)PG_GETARG_POINTER(1);
  gather(g, more->cells, more->n);
  PG_RETURN_POINTER(g);
}

PG_FUNCTION_INFO_V1(s2union_agg_serialise);
Datum s2union_agg_serialise(PG_FUNCTION_ARGS) {
  Gathered* g = state_of(fcinfo);
  settle(g);
  PG_RETURN_BYTEA_P(file_of(g->cells, g->n));
}

PG_FUNCTION_INFO_V1(s2union_agg_deserialise);
Datum s2union_agg_deserialise(PG_FUNCTION_ARGS) {
  bytea* file = PG_GETARG_BYTEA_PP(0);
  Gathered* g = new_gathered(CurrentMemoryContext, S2U_MOST_IN_FILE(VARSIZE_ANY_EXHDR(file)));
  must_be_ok(s2u_decode(FILE_ARGUMENT(file), g->cells, g->room, &g->n));
  PG_RETURN_POINTER(g);
}

PG_FUNCTION_INFO_V1(s2union_agg_final);
Datum s2union_agg_final(PG_FUNCTION_ARGS) {
  if (PG_ARGISNULL(0)) PG_RETURN_NULL();
  return PointerGetDatum(value_of_gathered(state_of(fcinfo)));
}
