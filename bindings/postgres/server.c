/* Unions of S2 cells in PostgreSQL, over libs2union: what the server gives to the library and hears from it, memory and
 * errors. README.md says what each function does.
 *
 * Only the library knows about cells. The files of this folder have PostgreSQL's values, errors, memory and index
 * classes, each what its name says; value.h has what they share. */
#include "postgres.h"

#include "lib/stringinfo.h"
#include "mb/pg_wchar.h"

#include "value.h"

PG_MODULE_MAGIC;

/* ---- memory: the library takes it from the current context, and no longjmp leaves a call of the library. As it takes
 * some again and again while it works, a call that gets none when the statement is cancelled ends at once, in the way
 * that is proved: by S2U_MEMORY, with nothing lost. The error is that of the cancel ---- */

static void* of_context(size_t size) {
  if (size > MaxAllocHugeSize || is_cancelled()) return NULL;
  return MemoryContextAllocExtended(CurrentMemoryContext, size, MCXT_ALLOC_HUGE | MCXT_ALLOC_NO_OOM);
}

#define S2U_HOST_TAKE(size) of_context(size)
#define S2U_HOST_GIVE_BACK(at) pfree(at)
#include <s2union_host.h>

/* ---- errors: they name what was refused, at most its first 40 bytes ---- */

/* The SQLSTATE of a refusal. */
static int code_of(int32_t status) {
  switch (status) {
    case S2U_MEMORY: return ERRCODE_OUT_OF_MEMORY;
    case S2U_MANY: return ERRCODE_PROGRAM_LIMIT_EXCEEDED;
    case S2U_NO_UNION: return ERRCODE_DATA_CORRUPTED;
    case S2U_FILE_SHORT:
    case S2U_FILE_VERSION:
    case S2U_FILE_TRAILING:
    case S2U_FILE_CELL: return ERRCODE_INVALID_BINARY_REPRESENTATION;
    default: return ERRCODE_INVALID_PARAMETER_VALUE;
  }
}

void must_be_ok(int32_t status) {
  if (status == S2U_MEMORY) CHECK_FOR_INTERRUPTS();
  if (status < 0) ereport(ERROR, errcode(code_of(status)), errmsg("s2union: %s", s2u_status_text(status)));
}

char* start_of(const char* text, size_t n) {
  return pnstrdup(text, pg_mbcliplen(text, (int)n, 40));
}

void refuse(int32_t status, const char* value, bool is_text) {
  ereport(ERROR, errcode(code_of(status)), errmsg("s2union: %s: %s", s2u_status_text(status), value),
          is_text ? errhint("A text names a cell by its token or its debug text. A number has no quotes.") : 0);
}

void refuse_number(int64 number) {
  refuse(S2U_NO_CELL, psprintf(INT64_FORMAT, number), false);
}

void refuse_text(const char* text, size_t n) {
  refuse(S2U_NO_CELL, psprintf("\"%s\"", start_of(text, n)), true);
}

static void refuse_numbers(int32_t status, FunctionCallInfo fcinfo, int first) {
  StringInfoData numbers;
  initStringInfo(&numbers);
  for (int k = first; k < PG_NARGS(); k++)
    appendStringInfo(&numbers, "%s%d", k == first ? "" : ", ", PG_GETARG_INT32(k));
  refuse(status, numbers.data, false);
}

void must_take_numbers(int32_t status, FunctionCallInfo fcinfo, int first) {
  if (status == S2U_ARGUMENT || status == S2U_MANY) refuse_numbers(status, fcinfo, first);
  must_be_ok(status);
}
