/* PostgreSQL's index class GiST: the key of a union is a covering of it with few cells.
 *
 * It serves EXCLUDE. A row may be in a part of the index if the question shares a leaf with the covering of that part;
 * each row that is found is looked at. Empty unions have no place there: <@, which finds them, is GIN's. */
#include "postgres.h"

#include "access/gist.h"
#include "utils/sortsupport.h"

#include "value.h"

enum { MOST_CELLS_OF_KEY = 8 };

/* Puts the cells of a key, which are few, after n others. Answers how many there are then. */
static size_t with_cells(uint64_t* cells, size_t n, const S2Union* key) {
  size_t more = Min(count_of(key), MOST_CELLS_OF_KEY);
  memcpy(cells + n, key->cells, more * sizeof *cells);
  return n + more;
}

/* A list, in any order, as the key of a part of the index. */
static Datum key_over(uint64_t* cells, size_t n) {
  must_be_ok(s2u_normalise(cells, n, &n));
  return PointerGetDatum(s2union_covering(value_with(cells, n), MOST_CELLS_OF_KEY));
}

PG_FUNCTION_INFO_V1(s2union_gist_compress);
Datum s2union_gist_compress(PG_FUNCTION_ARGS) {
  GISTENTRY* entry = (GISTENTRY*)PG_GETARG_POINTER(0);
  if (!entry->leafkey) PG_RETURN_POINTER(entry);
  GISTENTRY* key = palloc(sizeof *key);
  Datum covering = PointerGetDatum(s2union_covering(s2union_value(entry->key), MOST_CELLS_OF_KEY));
  gistentryinit(*key, covering, entry->rel, entry->page, entry->offset, false);
  PG_RETURN_POINTER(key);
}

PG_FUNCTION_INFO_V1(s2union_gist_consistent);
Datum s2union_gist_consistent(PG_FUNCTION_ARGS) {
  GISTENTRY* entry = (GISTENTRY*)PG_GETARG_POINTER(0);
  StrategyNumber strategy = PG_GETARG_UINT16(2);
  const S2Union *key = s2union_value(entry->key), *u = question_again(PG_GETARG_DATUM(1), strategy);
  bool contains = strategy == CONTAINS || strategy == CONTAINS_CELL;
  *(bool*)PG_GETARG_POINTER(4) = true; /* each row is looked at */
  return answer(contains ? s2u_contains(LIST(key), LIST(u)) : s2u_intersects(LIST(key), LIST(u)));
}

PG_FUNCTION_INFO_V1(s2union_gist_union);
Datum s2union_gist_union(PG_FUNCTION_ARGS) {
  GistEntryVector* entries = (GistEntryVector*)PG_GETARG_POINTER(0);
  uint64_t* cells = palloc(entries->n * MOST_CELLS_OF_KEY * sizeof *cells);
  size_t n = 0;
  for (int k = 0; k < entries->n; k++) n = with_cells(cells, n, s2union_value(entries->vector[k].key));
  Datum key = key_over(cells, n);
  *(int*)PG_GETARG_POINTER(1) = VARSIZE(key);
  return key;
}

/* How many leaves a part of the index grows by. */
PG_FUNCTION_INFO_V1(s2union_gist_penalty);
Datum s2union_gist_penalty(PG_FUNCTION_ARGS) {
  const S2Union* key = s2union_value(((GISTENTRY*)PG_GETARG_POINTER(0))->key);
  const S2Union* more = s2union_value(((GISTENTRY*)PG_GETARG_POINTER(1))->key);
  uint64_t cells[2 * MOST_CELLS_OF_KEY];
  size_t n = with_cells(cells, with_cells(cells, 0, key), more);
  must_be_ok(s2u_normalise(cells, n, &n));
  *(float*)PG_GETARG_POINTER(2) = (float)(s2u_leaf_count(cells, n) - s2u_leaf_count(LIST(key)));
  PG_RETURN_POINTER(PG_GETARG_POINTER(2));
}

typedef struct Placed {
  const S2Union* key;
  OffsetNumber at;
} Placed;

static int by_place(const void* x, const void* y) {
  const Placed *a = x, *b = y;
  return s2u_compare(LIST(a->key), LIST(b->key));
}

/* One half of the entries that are split, in the order of their first cells. */
static Datum half(const Placed* placed, int n, OffsetNumber* offsets, int* count) {
  uint64_t* cells = palloc(n * MOST_CELLS_OF_KEY * sizeof *cells);
  size_t m = 0;
  for (int k = 0; k < n; k++) {
    m = with_cells(cells, m, placed[k].key);
    offsets[k] = placed[k].at;
  }
  *count = n;
  return key_over(cells, m);
}

PG_FUNCTION_INFO_V1(s2union_gist_picksplit);
Datum s2union_gist_picksplit(PG_FUNCTION_ARGS) {
  GistEntryVector* entries = (GistEntryVector*)PG_GETARG_POINTER(0);
  GIST_SPLITVEC* split = (GIST_SPLITVEC*)PG_GETARG_POINTER(1);
  int n = entries->n - 1, left = n / 2; /* the entries begin at FirstOffsetNumber, 1 */
  Placed* placed = palloc(n * sizeof *placed);
  for (int k = 0; k < n; k++)
    placed[k] = (Placed){s2union_value(entries->vector[k + 1].key), (OffsetNumber)(k + 1)};
  qsort(placed, n, sizeof *placed, by_place);
  split->spl_left = palloc(entries->n * sizeof(OffsetNumber));
  split->spl_right = palloc(entries->n * sizeof(OffsetNumber));
  split->spl_ldatum = half(placed, left, split->spl_left, &split->spl_nleft);
  split->spl_rdatum = half(placed + left, n - left, split->spl_right, &split->spl_nright);
  PG_RETURN_POINTER(split);
}

PG_FUNCTION_INFO_V1(s2union_gist_same);
Datum s2union_gist_same(PG_FUNCTION_ARGS) {
  const S2Union *x = ARGUMENT(0), *y = ARGUMENT(1);
  *(bool*)PG_GETARG_POINTER(2) = s2u_compare(LIST(x), LIST(y)) == 0;
  PG_RETURN_POINTER(PG_GETARG_POINTER(2));
}

/* An index is made in the order of its keys, so that each page has those of a part of the curve. */
static int by_key(Datum x, Datum y, SortSupport sort) {
  S2Union *a = s2union_value(x), *b = s2union_value(y);
  int order = s2u_compare(LIST(a), LIST(b));
  if ((Pointer)a != DatumGetPointer(x)) pfree(a);
  if ((Pointer)b != DatumGetPointer(y)) pfree(b);
  return order;
}

PG_FUNCTION_INFO_V1(s2union_gist_sortsupport);
Datum s2union_gist_sortsupport(PG_FUNCTION_ARGS) {
  ((SortSupport)PG_GETARG_POINTER(0))->comparator = by_key;
  PG_RETURN_VOID();
}
