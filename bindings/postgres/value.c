/* The value of the type s2union, a list of cells: how it is read, made, sent, ordered and hashed. */
#include "postgres.h"

#include "common/hashfn.h"
#include "libpq/pqformat.h"
#include "miscadmin.h"

#include "value.h"

enum { FORM = 1 };

S2Union* new_value(size_t room) {
  if (room > MOST_IN_VALUE)
    ereport(ERROR, errcode(ERRCODE_PROGRAM_LIMIT_EXCEEDED),
            errmsg("s2union: more than %zu cells", (size_t)MOST_IN_VALUE));
  S2Union* u = palloc(HEAD + room * sizeof(uint64_t));
  u->form = FORM;
  SET_VARSIZE(u, HEAD);
  return u;
}

Datum finished(S2Union* u, size_t n) {
  SET_VARSIZE(u, HEAD + n * sizeof(uint64_t));
  return PointerGetDatum(u);
}

S2Union* value_with(const uint64_t* cells, size_t n) {
  S2Union* u = new_value(n);
  if (n > 0) memcpy(u->cells, cells, n * sizeof(uint64_t));
  finished(u, n);
  return u;
}

S2Union* s2union_value(Datum datum) {
  S2Union* u = (S2Union*)PG_DETOAST_DATUM(datum);
  bool whole = VARSIZE(u) >= HEAD && (VARSIZE(u) - HEAD) % sizeof(uint64_t) == 0;
  if (!whole || u->form != FORM || !s2u_is_union(u->cells, count_of(u))) must_be_ok(S2U_NO_UNION);
  return u;
}

/* ---- cells that are gathered: normalized when they have doubled ---- */

Gathered* new_gathered(MemoryContext context, size_t room) {
  Gathered* g = MemoryContextAllocZero(context, sizeof *g);
  g->room = Max(room, 1);
  g->cells = MemoryContextAllocHuge(context, g->room * sizeof(uint64_t));
  return g;
}

void settle(Gathered* g) {
  CHECK_FOR_INTERRUPTS();
  must_be_ok(s2u_normalise(g->cells, g->n, &g->n));
  g->settled = g->n;
}

void gather(Gathered* g, const uint64_t* cells, size_t n) {
  if (g->n + n > g->room) {
    g->room = 2 * (g->n + n);
    g->cells = repalloc_huge(g->cells, g->room * sizeof(uint64_t));
  }
  memcpy(g->cells + g->n, cells, n * sizeof(uint64_t));
  g->n += n;
  if (s2u_host_has_doubled(g->n, g->settled)) settle(g);
}

S2Union* value_of_gathered(Gathered* g) {
  settle(g);
  if (g->n > MOST_IN_VALUE) must_be_ok(S2U_MANY);
  return value_with(g->cells, g->n);
}

/* ---- on the wire, and as bytea: the union's file ---- */

static Datum of_file(const void* bytes, size_t n) {
  S2Union* u = new_value(S2U_MOST_IN_FILE(n));
  size_t cells = 0;
  must_be_ok(s2u_decode(bytes, n, u->cells, S2U_MOST_IN_FILE(n), &cells));
  return finished(u, cells);
}

bytea* file_of(const uint64_t* cells, size_t n) {
  size_t length = 0;
  if (S2U_FILE_SIZE(n) > MaxAllocSize - VARHDRSZ) must_be_ok(S2U_MANY);
  bytea* file = palloc(VARHDRSZ + S2U_FILE_SIZE(n));
  must_be_ok(s2u_encode(cells, n, (uint8_t*)VARDATA(file), S2U_FILE_SIZE(n), &length));
  SET_VARSIZE(file, VARHDRSZ + length);
  return file;
}

PG_FUNCTION_INFO_V1(s2union_recv);
Datum s2union_recv(PG_FUNCTION_ARGS) {
  StringInfo message = (StringInfo)PG_GETARG_POINTER(0);
  int n = message->len - message->cursor;
  return of_file(pq_getmsgbytes(message, n), n);
}

PG_FUNCTION_INFO_V1(s2union_send);
Datum s2union_send(PG_FUNCTION_ARGS) {
  S2Union* u = ARGUMENT(0);
  PG_RETURN_BYTEA_P(file_of(LIST(u)));
}

PG_FUNCTION_INFO_V1(s2union_from_bytea);
Datum s2union_from_bytea(PG_FUNCTION_ARGS) {
  bytea* file = PG_GETARG_BYTEA_PP(0);
  return of_file(FILE_ARGUMENT(file));
}

PG_FUNCTION_INFO_V1(s2_is_union);
Datum s2_is_union(PG_FUNCTION_ARGS) {
  bytea* file = PG_GETARG_BYTEA_PP(0);
  PG_RETURN_BOOL(s2u_file_check(FILE_ARGUMENT(file)) == 1);
}

/* ---- order and hash: those of the lists, since each region has exactly one ---- */

/* Frees copies, since a sort calls this many times in one context. */
static int compared(FunctionCallInfo fcinfo) {
  S2Union *x = ARGUMENT(0), *y = ARGUMENT(1);
  int order = s2u_compare(LIST(x), LIST(y));
  PG_FREE_IF_COPY(x, 0);
  PG_FREE_IF_COPY(y, 1);
  return order;
}

FUNCTION(s2union_eq, BoolGetDatum(compared(fcinfo) == 0))
FUNCTION(s2union_ne, BoolGetDatum(compared(fcinfo) != 0))
FUNCTION(s2union_lt, BoolGetDatum(compared(fcinfo) < 0))
FUNCTION(s2union_le, BoolGetDatum(compared(fcinfo) <= 0))
FUNCTION(s2union_gt, BoolGetDatum(compared(fcinfo) > 0))
FUNCTION(s2union_ge, BoolGetDatum(compared(fcinfo) >= 0))
FUNCTION(s2union_cmp, Int32GetDatum(compared(fcinfo)))

/* hash_any answers the low half of hash_any_extended if the seed is 0. */
static Datum hashed(FunctionCallInfo fcinfo, uint64 seed) {
  S2Union* u = ARGUMENT(0);
  Datum hash = hash_any_extended((const unsigned char*)u->cells, (int)(VARSIZE(u) - HEAD), seed);
  PG_FREE_IF_COPY(u, 0);
  return hash;
}

FUNCTION(s2union_hash, Int32GetDatum((int32)(uint32)DatumGetUInt64(hashed(fcinfo, 0))))
FUNCTION(s2union_hash_extended, hashed(fcinfo, (uint64)PG_GETARG_INT64(1)))
