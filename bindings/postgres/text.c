/* Unions as texts: tokens or debug texts with blanks or commas between them; tokens come out.
 *
 * A text is read and written in pieces, since a session can be cancelled only between two calls of the library. */
#include "postgres.h"

#include "miscadmin.h"
#include "utils/builtins.h"

#include "value.h"

enum { PIECE = S2U_HOST_PIECE, TEXT_WORTH_KEEPING = 100 };
#define MOST_TEXT (MaxAllocSize - 1) /* without the NUL that ends it */

static void refuse_word(const char* word) {
  ereport(ERROR, errcode(ERRCODE_INVALID_TEXT_REPRESENTATION),
          errmsg("invalid input syntax for type %s: \"%s\" names no cell", "s2union",
                 start_of(word, strcspn(word, S2U_HOST_BLANKS))));
}

static S2Union* value_of_text(const char* text) {
  size_t length = strlen(text), room = S2U_MOST_NAMED(Min(length, PIECE)), n = 0;
  uint64_t* cells = palloc(Max(room, 1) * sizeof(uint64_t));
  Gathered* g = new_gathered(CurrentMemoryContext, room);
  for (size_t at = 0, piece; at < length; at += piece) {
    CHECK_FOR_INTERRUPTS();
    piece = s2u_host_piece_of(text + at, length - at);
    int32_t status = s2u_from_tokens(text + at, piece, cells, room, &n);
    if (status == S2U_NO_CELL) refuse_word(text + at + n);
    must_be_ok(status);
    gather(g, cells, n);
  }
  S2Union* u = value_of_gathered(g);
  pfree(cells);
  pfree(g->cells);
  pfree(g);
  return u;
}

PG_FUNCTION_INFO_V1(s2union_in);
Datum s2union_in(PG_FUNCTION_ARGS) { return PointerGetDatum(value_of_text(PG_GETARG_CSTRING(0))); }

S2Union* read_text(Datum datum) {
  char* words = TextDatumGetCString(datum);
  S2Union* u = value_of_text(words);
  pfree(words);
  return u;
}

/* A text may come again in the next row, as the parameter of a question does. */
PG_FUNCTION_INFO_V1(s2union_from_text);
Datum s2union_from_text(PG_FUNCTION_ARGS) {
  const S2Union* u = read_again(PG_GETARG_DATUM(0), read_text, TEXT_WORTH_KEEPING);
  return PointerGetDatum(is_kept(u) ? value_with(LIST(u)) : u);
}

/* The tokens of a union after `before` bytes that the caller fills; a NUL ends them. */
static char* tokens_of(const S2Union* u, size_t before, size_t* length) {
  size_t count = count_of(u), room = Min(before + S2U_MOST_TOKENS(count), MOST_TEXT), n = 0;
  char* text = palloc(room + 1);
  *length = before;
  for (size_t k = 0; k < count; k += PIECE) {
    CHECK_FOR_INTERRUPTS();
    if (k > 0 && *length < room) text[(*length)++] = ' ';
    int32_t status = s2u_tokens(u->cells + k, Min(count - k, PIECE), text + *length, room - *length, &n);
    must_be_ok(status == S2U_ROOM ? S2U_MANY : status);
    *length += n;
  }
  text[*length] = '\0';
  return text;
}

PG_FUNCTION_INFO_V1(s2union_out);
Datum s2union_out(PG_FUNCTION_ARGS) {
  size_t length = 0;
  PG_RETURN_CSTRING(tokens_of(ARGUMENT(0), 0, &length));
}

PG_FUNCTION_INFO_V1(s2union_tokens);
Datum s2union_tokens(PG_FUNCTION_ARGS) {
  size_t length = 0;
  char* tokens = tokens_of(ARGUMENT(0), VARHDRSZ, &length);
  SET_VARSIZE(tokens, length);
  PG_RETURN_TEXT_P((text*)tokens);
}
