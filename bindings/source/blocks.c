/* What the proved code calls to take memory, in C's own terms: a block comes back through a pointer, so that it does on
 * each system as its C compiler has it. The heap itself is heap.c, or that of a host, which defines the three functions
 * of s2union.h. It is trusted, not proved. */
#include "s2union.h"

#if defined(__GNUC__) && !defined(_WIN32)
#define HIDDEN __attribute__((visibility("hidden")))
#else
#define HIDDEN
#endif

HIDDEN void s2u_block_take(s2u_block* block, size_t size, size_t align);
HIDDEN void s2u_block_grow(s2u_block* block, void* at, size_t old_size, size_t size, size_t align);
HIDDEN void s2u_block_give_back(void* at);

void s2u_block_take(s2u_block* block, size_t size, size_t align) {
  *block = s2u_heap_take(size, align);
}

void s2u_block_grow(s2u_block* block, void* at, size_t old_size, size_t size, size_t align) {
  *block = s2u_heap_grow(at, old_size, size, align);
}

void s2u_block_give_back(void* at) {
  s2u_heap_give_back(at);
}
