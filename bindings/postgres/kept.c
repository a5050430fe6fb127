/* Values that come again.
 *
 * A large value comes in row after row, in each part of a table and on each side of an OR. The first time its bytes are
 * kept as they came, which are few if they are out of line; once they have come again, the value too. All calls of a
 * transaction share what is kept: at most work_mem, but always the two values that came last, which may be the
 * arguments of the call that runs. They are found by a hash of some words, which are spread over the bytes: all bytes,
 * if these are the name of a value. A value of no more bytes than WORTH_KEEPING, some 30 cells, is checked as fast as
 * it is compared; one that is compressed takes longer. */
#include "postgres.h"

#include "common/hashfn.h"
#include "lib/ilist.h"
#include "miscadmin.h"
#include "nodes/primnodes.h"

#include "value.h"

enum { ALWAYS_KEPT = 2, WORTH_KEEPING = 240 };
enum { WORDS_HASHED = 16, MOST_COMPARED = 2, BUCKETS = 1024 };

typedef struct Kept {
  dlist_node place, in_bucket;
  reader* read;
  uint64 hash;
  Size size, whole;
  S2Union* value; /* NULL: not yet */
  uint64_t bytes[FLEXIBLE_ARRAY_MEMBER];
} Kept;

static struct {
  MemoryContext context; /* NULL: nothing is kept */
  MemoryContextCallback end;
  dlist_head latest_first, bucket[BUCKETS];
  int n;
  Size size;
} store;

static void end_store(void* unused) {
  store.context = NULL;
}

static void begin_store(void) {
  MemoryContext context = AllocSetContextCreate(TopTransactionContext, "s2union values", ALLOCSET_SMALL_SIZES);
  store.end = (MemoryContextCallback){.func = end_store};
  MemoryContextRegisterResetCallback(context, &store.end);
  dlist_init(&store.latest_first);
  for (int k = 0; k < BUCKETS; k++) dlist_init(&store.bucket[k]);
  store.n = 0;
  store.size = 0;
  store.context = context;
}

static Kept* latest(Kept* k) {
  dlist_move_head(&store.latest_first, &k->place);
  return k;
}

static uint64 hash_of(const void* bytes, Size size) {
  uint64_t words[WORDS_HASHED];
  for (Size k = 0; k < WORDS_HASHED; k++) {
    Size at = (size - sizeof *words) * k / (WORDS_HASHED - 1);
    memcpy(&words[k], (const char*)bytes + at, sizeof *words);
  }
  return DatumGetUInt64(hash_any_extended((const unsigned char*)words, sizeof words, size));
}

/* What is kept of these bytes, which becomes the latest; or NULL. Values that are made in each row may all have one
 * hash: then it gives up before it has compared more bytes than it takes to read the value a few times. */
static Kept* kept_of(const void* bytes, Size size, uint64 hash, reader* read) {
  dlist_iter at;
  int compared = 0;
  if (store.context == NULL) return NULL;
  dlist_foreach(at, &store.bucket[hash % BUCKETS]) {
    Kept* k = dlist_container(Kept, in_bucket, at.cur);
    if (k->size != size || k->read != read || k->hash != hash) continue;
    if (memcmp(k->bytes, bytes, size) == 0) return latest(k);
    if (++compared == MOST_COMPARED) return NULL;
  }
  return NULL;
}

/* Whether an argument of the call that runs is kept: it is among the values that came last. */
bool is_kept(const S2Union* u) {
  dlist_iter at;
  int looked_at = 0;
  if (store.context == NULL) return false;
  dlist_foreach(at, &store.latest_first) {
    if (dlist_container(Kept, place, at.cur)->value == u) return true;
    if (++looked_at == ALWAYS_KEPT) return false;
  }
  return false;
}

static void drop(Kept* k) {
  dlist_delete(&k->place);
  dlist_delete(&k->in_bucket);
  store.n--;
  store.size -= k->whole;
  if (k->value && k->value != (S2Union*)k->bytes) pfree(k->value);
  pfree(k);
}

static void keep_no_more_than_the_most(void) {
  while (store.n > ALWAYS_KEPT && store.size > (Size)work_mem * 1024)
    drop(dlist_tail_element(Kept, place, &store.latest_first));
}

static void keep_bytes(const void* bytes, Size size, uint64 hash, reader* read) {
  if (store.context == NULL) begin_store();
  Kept* k = MemoryContextAllocExtended(store.context, sizeof *k + size, MCXT_ALLOC_HUGE);
  *k = (Kept){.read = read, .hash = hash, .size = size, .whole = sizeof *k + size};
  memcpy(k->bytes, bytes, size);
  dlist_push_head(&store.latest_first, &k->place);
  dlist_push_head(&store.bucket[hash % BUCKETS], &k->in_bucket);
  store.n++;
  store.size += k->whole;
  keep_no_more_than_the_most();
}

/* A value whose bytes are kept. If it came in place, these are the value. */
static const S2Union* keep_value(Kept* k, S2Union* u, Datum datum) {
  bool in_place = (Pointer)u == DatumGetPointer(datum);
  k->value = in_place ? (S2Union*)k->bytes : MemoryContextAllocExtended(store.context, VARSIZE(u), MCXT_ALLOC_HUGE);
  if (in_place) return k->value;
  memcpy(k->value, u, VARSIZE(u));
  k->whole += VARSIZE(u);
  store.size += VARSIZE(u);
  pfree(u);
  keep_no_more_than_the_most();
  return k->value;
}

/* Whether a value is worth keeping. The bytes of one that is kept out of line on disk name it, and no other value gets
 * this name until the server's counter has gone around; others that aren't in place are somewhere in memory. */
static bool is_worth_keeping(const void* bytes, Size size, Size worth) {
  return VARATT_IS_EXTERNAL(bytes) ? VARATT_IS_EXTERNAL_ONDISK(bytes) : size > worth;
}

const S2Union* read_again(Datum datum, reader* read, Size worth) {
  const void* bytes = DatumGetPointer(datum);
  Size size = VARSIZE_ANY(bytes);
  if (!is_worth_keeping(bytes, size, worth)) return read(datum);
  uint64 hash = hash_of(bytes, size);
  Kept* k = kept_of(bytes, size, hash, read);
  if (k && k->value) return k->value;
  S2Union* u = read(datum);
  if (k) return keep_value(k, u, datum);
  keep_bytes(bytes, size, hash, read);
  return u;
}

const S2Union* value_again(Datum datum) {
  return read_again(datum, s2union_value, WORTH_KEEPING);
}

bool is_constant(FmgrInfo* call, int k) {
  Node* node = call == NULL ? NULL : call->fn_expr;
  List* arguments = NIL;
  if (node && IsA(node, OpExpr)) arguments = ((OpExpr*)node)->args;
  if (node && IsA(node, FuncExpr)) arguments = ((FuncExpr*)node)->args;
  return k < list_length(arguments) && IsA(list_nth(arguments, k), Const);
}

/* A constant lies in the plan of the query: it is checked once. */
static const S2Union* constant_argument(FmgrInfo* call, Datum datum) {
  if (call->fn_extra != DatumGetPointer(datum)) call->fn_extra = s2union_value(datum);
  return call->fn_extra;
}

const S2Union* asked_argument(FunctionCallInfo fcinfo, int k) {
  Datum datum = PG_GETARG_DATUM(k);
  bool in_plan = is_constant(fcinfo->flinfo, k) && !VARATT_IS_EXTENDED(DatumGetPointer(datum));
  return in_plan ? constant_argument(fcinfo->flinfo, datum) : value_again(datum);
}

/* Frees a copy of argument k that isn't kept, since an index or a join asks many questions in one context. */
void free_asked(FunctionCallInfo fcinfo, const S2Union* u, int k) {
  if ((Pointer)u != PG_GETARG_POINTER(k) && !is_kept(u)) pfree((S2Union*)u);
}
