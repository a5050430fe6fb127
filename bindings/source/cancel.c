/* Calls of the library that are cancelled: what s2u_heap_ask of s2union_host.h was given is asked before a thread gets
 * memory, and if it says so, there is none. The library takes memory again and again where its work grows, and each of
 * its calls is proved to end with S2U_MEMORY and nothing lost if it gets none: so no call has to be another one, in
 * parts, to be cancelled. It is here, and not in a heap of each language's own, for those that share libs2union.so.
 * Nothing proves this file: it is trusted, as the heap is. */
#include <stdlib.h>
#include "s2union_host.h"

/* The heap itself: the kit's, or that of heap.c. */
s2u_block s2u_plain_take(size_t size, size_t align);
s2u_block s2u_plain_grow(void* at, size_t old_size, size_t size, size_t align);

/* A thread's own place, where it is sure to be without memory being taken for it; elsewhere nothing is asked. */
#if defined(__GLIBC__)
static __thread const s2u_heap_asked* asked __attribute__((tls_model("initial-exec")));
#elif defined(__linux__)
static __thread const s2u_heap_asked* asked;
#else
#define asked ((const s2u_heap_asked*)NULL)
#endif

const s2u_heap_asked* s2u_heap_ask(const s2u_heap_asked* from_now_on) {
  const s2u_heap_asked* before = asked;
#ifdef asked
  (void)from_now_on;
#else
  asked = from_now_on;
#endif
  return before;
}

static int is_cancelled(void) { return asked != NULL && asked->is_cancelled(asked->of); }

s2u_block s2u_heap_take(size_t size, size_t align) {
  static uint64_t nowhere[2];
  return is_cancelled() ? (s2u_block){0, nowhere} : s2u_plain_take(size, align);
}

s2u_block s2u_heap_grow(void* at, size_t old_size, size_t size, size_t align) {
  return is_cancelled() ? (s2u_block){0, at} : s2u_plain_grow(at, old_size, size, align);
}
