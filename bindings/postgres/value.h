/* What the files of the extension share. A value holds the cells of a union, at a multiple of 8 so that questions can
 * be answered in place. */
#ifndef S2UNION_VALUE_H
#define S2UNION_VALUE_H

#include "access/stratnum.h"
#include "fmgr.h"
#include "miscadmin.h"
#include "utils/memutils.h"

#pragma GCC visibility push(hidden)
#include <s2union_host.h>

typedef struct S2Union {
  int32 length; /* a varlena's: SET_VARSIZE, VARSIZE */
  uint32 form;
  uint64_t cells[FLEXIBLE_ARRAY_MEMBER];
} S2Union;

#define HEAD offsetof(S2Union, cells)
#define LIST(u) (u)->cells, count_of(u)
#define MOST_IN_VALUE ((MaxAllocSize - HEAD) / sizeof(uint64_t))

static inline size_t count_of(const S2Union* u) {
  return (VARSIZE(u) - HEAD) / sizeof(uint64_t);
}

/* A question of the library about two unions: 1, 0 or a refusal. */
typedef int32_t question(const uint64_t* xs, size_t nx, const uint64_t* ys, size_t ny);

/* An SQL function, by its name and the value that it answers. */
#define FUNCTION(name, value) \
  PG_FUNCTION_INFO_V1(name); \
  Datum name(PG_FUNCTION_ARGS) { return value; }

/* ---- server.c: errors ---- */

/* Whether CHECK_FOR_INTERRUPTS would end the statement. Other interrupts don't. */
static inline bool is_cancelled(void) {
  return unlikely(QueryCancelPending || ProcDiePending) && InterruptHoldoffCount == 0 && CritSectionCount == 0 &&
         QueryCancelHoldoffCount == 0;
}

/* The error of a status below 0; of memory that is missing because the statement is cancelled, that of the cancel. */
void must_be_ok(int32_t status);

/* The same of a call that takes numbers, from argument `first` on. */
void must_take_numbers(int32_t status, FunctionCallInfo fcinfo, int first);

/* The error of a status, with the value that was refused. */
_Noreturn void refuse(int32_t status, const char* value, bool is_text);
void refuse_number(int64 number);
void refuse_text(const char* text, size_t n);

/* The first 40 bytes of a text, or less, so that no character is cut. */
char* start_of(const char* text, size_t n);

/* ---- value.c ---- */

/* A stored value. It is never trusted: one that is not a union is an error. */
S2Union* s2union_value(Datum datum);
#define ARGUMENT(k) s2union_value(PG_GETARG_DATUM(k))

/* A value with room for this many cells, and none in it yet. */
S2Union* new_value(size_t room);
Datum finished(S2Union* u, size_t n);

/* A value of a list in normal form. */
S2Union* value_with(const uint64_t* cells, size_t n);

/* The union file of a list. */
bytea* file_of(const uint64_t* cells, size_t n);
#define FILE_ARGUMENT(file) (const uint8_t*)VARDATA_ANY(file), VARSIZE_ANY_EXHDR(file)

/* Cells that are gathered, and normalized when they have doubled. */
typedef struct Gathered {
  uint64_t* cells;
  size_t n, room, settled;
} Gathered;

Gathered* new_gathered(MemoryContext context, size_t room);
void gather(Gathered* g, const uint64_t* cells, size_t n);
void settle(Gathered* g);
S2Union* value_of_gathered(Gathered* g);

/* ---- kept.c: values that come again ---- */

typedef S2Union* reader(Datum datum);

/* A value that may come again in the next call, by its reader if it has more bytes than `worth`. */
const S2Union* read_again(Datum datum, reader* read, Size worth);
const S2Union* value_again(Datum datum);

/* Whether an argument of the call that runs is kept. */
bool is_kept(const S2Union* u);

/* Whether argument k of a call is a constant of the query. */
bool is_constant(FmgrInfo* call, int k);

/* Argument k of a question, and what frees its copy. */
const S2Union* asked_argument(FunctionCallInfo fcinfo, int k);
void free_asked(FunctionCallInfo fcinfo, const S2Union* u, int k);
#define ASKED(k) asked_argument(fcinfo, k)

/* ---- text.c, sets.c, questions.c, cells.c ---- */

/* The union of the cells that a text names. */
S2Union* read_text(Datum datum);

/* An outer covering with at most some cells, 6 or more, and, if `key` isn't NULL, at most as many with all ancestors of
 * these. */
typedef struct Few {
  size_t most, ranges, keys;
  uint64_t *range, *key;
} Few;

/* The covering of a list at the finest level at which it is so. Answers whether that is the list itself. */
bool cover_by_few(const uint64_t* cells, size_t n, Few* few);

/* A union if it has at most this many cells, or else that covering. */
S2Union* s2union_covering(const S2Union* u, size_t most);

/* A union of one cell; NULL if the number is not a cell. */
S2Union* s2union_of_cell(int64 cell);

/* An answer of the library by yes or no, or its error. */
Datum answer(int32_t status);

/* The least or the greatest leaf of one cell or more, in SQL's order, in which faces 4 and 5 come first. An index of
 * leaves is asked for what lies between them. */
int64 edge_of(const uint64_t* cells, size_t n, bool least);

/* Argument k, a cell in SQL's bigint; the cell that a text names. */
uint64_t cell_argument(FunctionCallInfo fcinfo, int k);
uint64_t cell_named(const text* word);

/* ---- geo.c ---- */

/* A longitude or a latitude, which is an error if it is beyond the most that it may be. */
double degrees_of(double number, double most, const char* what);

/* ---- gin.c: the questions that both classes of indexes are asked ---- */

enum { OVERLAPS = 1, CONTAINS = 2, WITHIN = 3, CONTAINS_CELL = 4, OVERLAPS_CELL = 5 };

/* A question's union, which may be asked for again in the next call; of a question about a cell, the union of it. */
const S2Union* question_again(Datum asked, StrategyNumber strategy);

#pragma GCC visibility pop
#endif
