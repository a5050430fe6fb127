/* PostgreSQL's index class GIN: the keys of a union are its cells.
 *
 * A cell of the column shares a leaf with a cell of the question if it is an ancestor of that cell (these are looked
 * up), or if it lies in that cell (that is a range of keys). A row that contains a question contains its first cell, so
 * only that one and its ancestors are looked up, however many cells the question has.
 *
 * While rows wait in the index's pending list, PostgreSQL compares each of them with each key, and can't be cancelled.
 * So a question that would have more keys than MOST_KEYS asks for those of its outer covering at the finest level at
 * which that has no more, and the rows that are found are looked at. */
#include "postgres.h"

#include "access/gin.h"
#include "miscadmin.h"

#include "value.h"

enum { MOST_KEYS = 256 };

static Datum key_of(uint64_t cell) { return Int64GetDatum((int64)cell); }

PG_FUNCTION_INFO_V1(s2union_gin_value);
Datum s2union_gin_value(PG_FUNCTION_ARGS) {
  S2Union* u = ARGUMENT(0);
  int32* count = (int32*)PG_GETARG_POINTER(1);
  size_t n = count_of(u);
  Datum* keys = palloc(Max(n, 1) * sizeof(Datum));
  for (size_t k = 0; k < n; k++) keys[k] = key_of(u->cells[k]);
  *count = (int32)n;
  PG_RETURN_POINTER(keys);
}

/* What goes with each key of a question. PostgreSQL compares a key that has nothing with all keys before it. */
typedef struct Sought {
  int64 last; /* the end of a range */
  bool exact; /* in that of the first key: a row with a key that is found matches */
} Sought;

/* The keys of a question, as an index's function answers them. */
typedef struct Keys {
  size_t n;
  Datum* keys;
  bool* partial;
  Sought** sought;
} Keys;

static Keys new_keys(size_t room) {
  Sought* each = palloc0(room * sizeof *each);
  Keys k = {0, palloc(room * sizeof(Datum)), palloc0(room), palloc(room * sizeof(Sought*))};
  for (size_t at = 0; at < room; at++) k.sought[at] = &each[at];
  return k;
}

static void look_up(Keys* k, uint64_t cell) {
  k->keys[k->n++] = key_of(cell);
}

static void look_in(Keys* k, uint64_t cell) {
  k->sought[k->n]->last = (int64)s2u_range_max(cell);
  k->partial[k->n] = true;
  look_up(k, s2u_range_min(cell));
}

/* The keys of a question: the ancestors of its cells, and the ranges of its cells. Both lists are in order. */
static Keys keys_of(const Few* a) {
  Keys k = new_keys(Max(Max(a->keys, a->ranges), 1));
  size_t r = 0;
  for (size_t above = 0; above < a->keys; above++) {
    if (r < a->ranges && a->key[above] == a->range[r]) r++;
    else look_up(&k, a->key[above]);
  }
  for (r = 0; r < a->ranges; r++) look_in(&k, a->range[r]);
  return k;
}

/* The same without ranges: a cell of the question and its ancestors. */
static Keys keys_above(const Few* a) {
  Keys k = new_keys(Max(a->keys, 1));
  for (size_t above = 0; above < a->keys; above++) look_up(&k, a->key[above]);
  return k;
}

const S2Union* question_again(Datum asked, StrategyNumber strategy) {
  if (strategy != CONTAINS_CELL && strategy != OVERLAPS_CELL) return value_again(asked);
  const S2Union* u = s2union_of_cell(DatumGetInt64(asked));
  if (u == NULL) refuse_number(DatumGetInt64(asked));
  return u;
}

PG_FUNCTION_INFO_V1(s2union_gin_query);
Datum s2union_gin_query(PG_FUNCTION_ARGS) {
  StrategyNumber strategy = PG_GETARG_UINT16(2);
  const S2Union* u = question_again(PG_GETARG_DATUM(0), strategy);
  int32* mode = (int32*)PG_GETARG_POINTER(6);
  bool contains = strategy == CONTAINS || strategy == CONTAINS_CELL;
  size_t count = contains ? Min(count_of(u), 1) : count_of(u);
  uint64_t range[MOST_KEYS], key[MOST_KEYS];
  Few a = {.most = MOST_KEYS, .range = range, .key = strategy != WITHIN ? key : NULL};
  bool all = cover_by_few(u->cells, count, &a) && count == count_of(u);
  Keys k = contains ? keys_above(&a) : keys_of(&a);
  k.sought[0]->exact = all && strategy != WITHIN;
  if (contains && k.n == 0) *mode = GIN_SEARCH_MODE_ALL;
  if (strategy == WITHIN) *mode = GIN_SEARCH_MODE_INCLUDE_EMPTY;
  *(int32*)PG_GETARG_POINTER(1) = (int32)k.n;
  *(bool**)PG_GETARG_POINTER(3) = k.partial;
  *(Sought***)PG_GETARG_POINTER(4) = k.sought;
  PG_RETURN_POINTER(k.keys);
}

/* Whether a key is past the end of the range. */
PG_FUNCTION_INFO_V1(s2union_gin_partial);
Datum s2union_gin_partial(PG_FUNCTION_ARGS) {
  int64 last = ((Sought*)PG_GETARG_POINTER(3))->last;
  PG_RETURN_INT32(PG_GETARG_INT64(1) > last ? 1 : 0);
}

/* Whether a row may match, by the keys that are found in it. */
PG_FUNCTION_INFO_V1(s2union_gin_consistent);
Datum s2union_gin_consistent(PG_FUNCTION_ARGS) {
  const GinTernaryValue* found = (const GinTernaryValue*)PG_GETARG_POINTER(0);
  StrategyNumber strategy = PG_GETARG_UINT16(1);
  int32 n = PG_GETARG_INT32(3), place = 0;
  Sought** sought = (Sought**)PG_GETARG_POINTER(4);
  if (strategy == WITHIN || n == 0) PG_RETURN_GIN_TERNARY_VALUE(GIN_MAYBE);
  while (place < n && found[place] == GIN_FALSE) place++;
  if (place == n) PG_RETURN_GIN_TERNARY_VALUE(GIN_FALSE);
  PG_RETURN_GIN_TERNARY_VALUE(sought[0]->exact ? found[place] : GIN_MAYBE);
}
