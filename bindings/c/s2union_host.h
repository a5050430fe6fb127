/* What the C of a database shares, or of another host that runs statements: a heap for libs2union_noheap.a over the
 * host's own, texts in pieces, and when gathered cells are to be normalized. It is tested, not proved.
 *
 * One source of the host defines S2U_HOST_TAKE(size), which answers some bytes at a multiple of 8 or NULL, and
 * S2U_HOST_GIVE_BACK(at), and includes this header after that: it has the three functions that the library calls. */
#ifndef S2UNION_HOST_H
#define S2UNION_HOST_H

#include <string.h>
#include "s2union.h"

#define S2U_HOST_BLANKS " ,\t\r\n" /* between the words of a text */

/* A call of the library takes memory again and again where its work grows, as a covering's does. To cancel it, give it
 * none: S2U_HOST_TAKE answers NULL from then on, the call ends with S2U_MEMORY, and nothing is lost. Statements with
 * calls that take none are cancelled between two of them. PIECE is the most bytes of a text, or cells, that one such
 * call is given. Cells that are gathered are normalized if there are more than GATHERED. */
enum { S2U_HOST_PIECE = 65536, S2U_HOST_GATHERED = 100000, S2U_HOST_ALIGNMENT = 16 };

/* Whether the call of a thread is to end: asked again and again, in the thread, and true from then on. */
typedef struct s2u_heap_asked {
  int (*is_cancelled)(void* of);
  void* of;
} s2u_heap_asked;

#ifdef __cplusplus
extern "C"
#endif
/* Of the library with its own heap: what is asked in this thread before a call is given memory, or NULL, until the next
 * such call, which answers it. What `asked` has must last as long. On other systems than Linux nothing is asked. */
const s2u_heap_asked* s2u_heap_ask(const s2u_heap_asked* asked);

/* Of a host with a heap of its own, a bound of the work of calls that have none: a covering of geodesic edges takes
 * memory for the edges at each cell that it looks into. The bytes that it takes are counted, with those that it gives
 * back. By S2U_HOST_WORK of them, 512 MiB, it has worked for five to ten seconds, whatever the shape is. */
#define S2U_HOST_WORK UINT64_C(536870912)

#ifdef __cplusplus
extern "C" {
#endif
/* How many bytes this thread's next call may take; UINT64_MAX if nobody counts. */
void s2u_host_bound(uint64_t bytes);

/* Ends the bound. Answers the status of the call, or S2U_MANY if it got no memory beyond the bound, and ended so. */
int32_t s2u_host_bounded(int32_t status);
#ifdef __cplusplus
}
#endif

/* The cell that a text names, by its token or its debug text. */
static inline int32_t s2u_host_cell_of_text(const char* text, size_t n, uint64_t* cell) {
  return memchr(text, '/', n) ? s2u_from_debug(text, n, cell) : s2u_from_token(text, n, cell);
}

/* How much of a text is read at once: whole words, or the start of one that is too long for a cell. */
static inline size_t s2u_host_piece_of(const char* text, size_t n) {
  size_t end = S2U_HOST_PIECE;
  if (n <= S2U_HOST_PIECE) return n;
  while (end > 0 && !memchr(S2U_HOST_BLANKS, text[end], sizeof S2U_HOST_BLANKS - 1)) end--;
  return end > 0 ? end : S2U_HOST_PIECE;
}

/* Whether n cells that are gathered are to be normalized: the last time, `settled` were left, and they have doubled. */
static inline int s2u_host_has_doubled(size_t n, size_t settled) {
  return n > S2U_HOST_GATHERED && n > 2 * settled;
}

#endif

#ifdef S2U_HOST_TAKE
static __thread uint64_t s2u_host_left = UINT64_MAX; /* of what was allowed; 0 if a call has got no more */

void s2u_host_bound(uint64_t bytes) { s2u_host_left = bytes; }

int32_t s2u_host_bounded(int32_t status) {
  int is_over = s2u_host_left == 0;
  s2u_host_left = UINT64_MAX;
  return is_over ? S2U_MANY : status;
}

static inline int s2u_host_is_over(size_t size) {
  if (s2u_host_left == UINT64_MAX) return 0;
  s2u_host_left = size < s2u_host_left ? s2u_host_left - size : 0;
  return s2u_host_left == 0;
}

/* The library needs multiples of 16. The byte before a block says how much was skipped. */
s2u_block s2u_heap_take(size_t size, size_t align) {
  static uint64_t nowhere[2];
  int is_none = size > SIZE_MAX - S2U_HOST_ALIGNMENT || s2u_host_is_over(size);
  uint8_t* raw = is_none ? NULL : S2U_HOST_TAKE(size + S2U_HOST_ALIGNMENT);
  (void)align;
  if (!raw) return (s2u_block){0, nowhere};
  size_t skip = S2U_HOST_ALIGNMENT - (uintptr_t)raw % S2U_HOST_ALIGNMENT;
  raw[skip - 1] = (uint8_t)skip;
  return (s2u_block){1, raw + skip};
}

void s2u_heap_give_back(void* at) {
  S2U_HOST_GIVE_BACK((uint8_t*)at - ((uint8_t*)at)[-1]);
}

s2u_block s2u_heap_grow(void* at, size_t old_size, size_t size, size_t align) {
  s2u_block grown = s2u_heap_take(size, align);
  if (!grown.ok) return grown;
  memcpy(grown.at, at, old_size < size ? old_size : size);
  s2u_heap_give_back(at);
  return grown;
}
#undef S2U_HOST_TAKE
#undef S2U_HOST_GIVE_BACK
#endif
