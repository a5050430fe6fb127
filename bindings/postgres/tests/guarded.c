/* The extension for PostgreSQL as its tests run it: its files in one, over an allocator that
 *   - puts a guard after each block, and ends the session if one has been written over when the call ends,
 *   - hides the guard from the address sanitizer or from valgrind, so that a read of it is caught too,
 *   - refuses the allocation that s2_refuse(n) names: as the server does, or by telling the library that there is none,
 *   - cancels the statement at the allocation that s2_cancel(n) names,
 *   - counts what a call leaves: s2_left(), the blocks of the call and the copies of its arguments that nobody freed,
 *   - takes as the most bytes of a value or a text those that s2_limit(n) names,
 *   - counts where a call may be cancelled: s2_chances(),
 *   - counts the bytes that are compared with others: s2_compared(),
 *   - shows what a GIN index asks for and is answered: s2_keys(asked, strategy), s2_keys_found(strategy, found, exact),
 *   - makes a pointer to a value: s2_pointer_to(x).
 * The build has rewritten each 'Datum NAME(PG_FUNCTION_ARGS)' of these files to GUARDED(NAME). */
#include "postgres.h"

#include "access/detoast.h"
#include "access/gin.h"
#include "access/gist.h"
#include "access/htup_details.h"
#include "access/stratnum.h"
#include "catalog/pg_type.h"
#include "common/hashfn.h"
#include "fmgr.h"
#include "funcapi.h"
#include "lib/ilist.h"
#include "lib/stringinfo.h"
#include "libpq/pqformat.h"
#include "mb/pg_wchar.h"
#include "miscadmin.h"
#include "nodes/primnodes.h"
#include "utils/array.h"
#include "utils/builtins.h"
#include "utils/memutils.h"
#include "utils/sortsupport.h"

#ifdef __SANITIZE_ADDRESS__
#include <sanitizer/asan_interface.h>
#define HIDE(at, n) ASAN_POISON_MEMORY_REGION(at, n)
#define SHOW(at, n) ASAN_UNPOISON_MEMORY_REGION(at, n)
#else
#include <valgrind/memcheck.h>
#define HIDE(at, n) (void)VALGRIND_MAKE_MEM_NOACCESS(at, n)
#define SHOW(at, n) (void)VALGRIND_MAKE_MEM_DEFINED(at, n)
#endif

enum { GUARD = 32, MOST = 1 << 20, MARK = 0xa5 };

typedef struct Block {
  char* at;
  Size n;
  int guard; /* none after a copy of an argument, which the server makes */
} Block;

static Block blocks[MOST];
static int used, left;
static bool called; /* in a call by SQL, not by the planner or by ANALYZE, which free what they are given */
static int64 asked, refused = -1;

static bool refuses(void) { return ++asked == refused; }

static void* noted(void* at, Size n, int guard) {
  if (used == MOST) elog(PANIC, "more blocks than the test can note");
  memset((char*)at + n, MARK, guard);
  HIDE((char*)at + n, guard);
  blocks[used++] = (Block){at, n, guard};
  return at;
}

static void look(const Block* b) {
  SHOW(b->at + b->n, b->guard);
  for (int k = 0; k < b->guard; k++)
    if ((unsigned char)b->at[b->n + k] != MARK) elog(PANIC, "a block of %zu bytes is written over", b->n);
}

static void forget(void* at) {
  for (int k = used - 1; k >= 0; k--)
    if (blocks[k].at == at) {
      look(&blocks[k]);
      blocks[k] = blocks[--used];
      return;
    }
}

static void end_of_call(void) {
  for (int k = 0; k < used; k++) look(&blocks[k]);
  left = used;
  used = 0;
  called = false;
}

static int64 takes, cancelled;

static void* taken(MemoryContext context, Size n, int flags) {
  if (++takes == cancelled) InterruptPending = QueryCancelPending = true;
  if (!called) return MemoryContextAllocExtended(context, n, flags);
  if (refuses()) {
    if (flags & MCXT_ALLOC_NO_OOM) return NULL;
    ereport(ERROR, errcode(ERRCODE_OUT_OF_MEMORY), errmsg("out of memory"), errdetail("A test has refused it."));
  }
  void* at = MemoryContextAllocExtended(context, n + GUARD, flags);
  return at ? noted(at, n, GUARD) : NULL;
}

static void* widened(void* at, Size n) {
  if (!called) return repalloc_huge(at, n);
  if (refuses()) ereport(ERROR, errcode(ERRCODE_OUT_OF_MEMORY), errmsg("out of memory"));
  forget(at);
  return noted(repalloc_huge(at, n + GUARD), n, GUARD);
}

static void freed(void* at) {
  forget(at);
  pfree(at);
}

static struct varlena* detoasted(Datum datum) {
  struct varlena *stored = (struct varlena*)DatumGetPointer(datum), *whole = pg_detoast_datum(stored);
  return whole == stored || !called ? whole : noted(whole, VARSIZE(whole), 0);
}

#define GUARDED(name) \
  static Datum whole_##name(PG_FUNCTION_ARGS); \
  Datum name(PG_FUNCTION_ARGS) { \
    Datum answer = 0; \
    called = true; \
    PG_TRY(); \
    { answer = whole_##name(fcinfo); } \
    PG_FINALLY(); \
    { end_of_call(); } \
    PG_END_TRY(); \
    return answer; \
  } \
  static Datum whole_##name(PG_FUNCTION_ARGS)

static void keep_nothing(void);

/* s2_refuse(n): the n-th allocation from now on is refused; none if n is 0. Answers how many allocations there were
 * since the last call of it. No value is kept from before. */
PG_FUNCTION_INFO_V1(s2_refuse);
Datum s2_refuse(PG_FUNCTION_ARGS) {
  int64 were = asked;
  keep_nothing();
  asked = 0;
  refused = PG_GETARG_INT64(0) > 0 ? PG_GETARG_INT64(0) : -1;
  PG_RETURN_INT64(were);
}

/* s2_cancel(n): at the n-th allocation from now on the statement is cancelled, as by pg_cancel_backend; at none if n is
 * 0. Answers how many there were since the last call of it. */
PG_FUNCTION_INFO_V1(s2_cancel);
Datum s2_cancel(PG_FUNCTION_ARGS) {
  int64 were = takes;
  takes = 0;
  cancelled = PG_GETARG_INT64(0);
  PG_RETURN_INT64(were);
}

PG_FUNCTION_INFO_V1(s2_left);
Datum s2_left(PG_FUNCTION_ARGS) { PG_RETURN_INT32(left); }

static Size most_bytes = MaxAllocSize;

/* s2_limit(n): no value and no text has more than n bytes. */
PG_FUNCTION_INFO_V1(s2_limit);
Datum s2_limit(PG_FUNCTION_ARGS) {
  most_bytes = PG_GETARG_INT64(0);
  PG_RETURN_VOID();
}

/* A count, and the function of SQL that answers what was counted since its last call. */
#define COUNT(count, name) \
  static int64 count; \
  PG_FUNCTION_INFO_V1(name); \
  Datum name(PG_FUNCTION_ARGS) { \
    int64 were = count; \
    count = 0; \
    PG_RETURN_INT64(were); \
  }
COUNT(chances, s2_chances) /* how often a call has looked whether it is cancelled */
COUNT(bytes_compared, s2_compared) /* how many bytes were compared with others, at most */

#undef memcmp
#define memcmp(some, others, n) (bytes_compared += (n), memcmp(some, others, n))
#undef CHECK_FOR_INTERRUPTS
#define CHECK_FOR_INTERRUPTS() \
  do { \
    chances++; \
    if (INTERRUPTS_PENDING_CONDITION()) ProcessInterrupts(); \
  } while (0)
#undef MaxAllocSize
#define MaxAllocSize most_bytes
#define palloc(n) taken(CurrentMemoryContext, n, 0)
#define palloc0(n) taken(CurrentMemoryContext, n, MCXT_ALLOC_ZERO)
#define palloc_extended(n, flags) taken(CurrentMemoryContext, n, flags)
#define MemoryContextAllocExtended(context, n, flags) taken(context, n, flags)
#define MemoryContextAllocZero(context, n) taken(context, n, MCXT_ALLOC_ZERO)
#define MemoryContextAllocHuge(context, n) taken(context, n, MCXT_ALLOC_HUGE)
#define repalloc_huge(at, n) widened(at, n)
#define pfree(at) freed(at)
#undef PG_DETOAST_DATUM
#define PG_DETOAST_DATUM(datum) detoasted(datum)
#include "rewritten.c"

static void keep_nothing(void) {
  if (store.context) MemoryContextDelete(store.context);
}

/* s2_keys(asked, strategy): how many keys a question has, how many of them are ranges, how many come with something
 * that PostgreSQL doesn't compare, the mode of the search, and whether a row with a key that is found matches. */
PG_FUNCTION_INFO_V1(s2_keys);
Datum s2_keys(PG_FUNCTION_ARGS) {
  int32 n = 0, mode = GIN_SEARCH_MODE_DEFAULT, ranges = 0, sought = 0;
  bool* partial = NULL;
  Pointer* extra = NULL;
  DirectFunctionCall7(s2union_gin_query, PG_GETARG_DATUM(0), PointerGetDatum(&n), PG_GETARG_DATUM(1),
                      PointerGetDatum(&partial), PointerGetDatum(&extra), PointerGetDatum(NULL),
                      PointerGetDatum(&mode));
  for (int32 k = 0; k < n; k++) {
    ranges += partial[k];
    sought += extra[k] != NULL;
  }
  char exact = ((Sought**)extra)[0]->exact ? 't' : 'f';
  PG_RETURN_TEXT_P(cstring_to_text(psprintf("%d %d %d %d %c", n, ranges, sought, mode, exact)));
}

/* s2_keys_found(strategy, found, exact): whether a row matches, if 't', 'f' and 'm' in found say which keys are found
 * in it, which are not, and which may be. */
PG_FUNCTION_INFO_V1(s2_keys_found);
Datum s2_keys_found(PG_FUNCTION_ARGS) {
  static const char letters[] = "ftm"; /* GIN_FALSE, GIN_TRUE, GIN_MAYBE */
  const char* found = text_to_cstring(PG_GETARG_TEXT_PP(1));
  int32 n = strlen(found);
  GinTernaryValue* values = palloc(n);
  Sought first = {.exact = PG_GETARG_BOOL(2)}, *sought = &first;
  for (int32 k = 0; k < n; k++) values[k] = strchr(letters, found[k]) - letters;
  Datum answer = DirectFunctionCall7(s2union_gin_consistent, PointerGetDatum(values), PG_GETARG_DATUM(0), (Datum)0,
                                     Int32GetDatum(n), PointerGetDatum(&sought), (Datum)0, (Datum)0);
  PG_RETURN_TEXT_P(cstring_to_text_with_len(&letters[(int)DatumGetGinTernaryValue(answer)], 1));
}

/* s2_pointer_to(x): a pointer to a small value in memory, which is at one place for all calls. */
PG_FUNCTION_INFO_V1(s2_pointer_to);
Datum s2_pointer_to(PG_FUNCTION_ARGS) {
  static uint64 place[1024];
  const varatt_indirect to = {(struct varlena*)place};
  const struct varlena* x = PG_DETOAST_DATUM(PG_GETARG_DATUM(0));
  struct varlena* pointer = palloc(INDIRECT_POINTER_SIZE);
  memcpy(place, x, Min(VARSIZE(x), sizeof place));
  SET_VARTAG_EXTERNAL(pointer, VARTAG_INDIRECT);
  memcpy(VARDATA_EXTERNAL(pointer), &to, sizeof to);
  PG_RETURN_POINTER(pointer);
}
