/* The heap of Rattle's run time over malloc, realloc and free, for a processor for which the kit has no object: what
 * its heap.pic.o defines on x86-64, and all of the kit's C that libs2union calls. Nothing proves it. It is trusted to
 * do what the contracts of `libc::heap` in the kit say, which take it as given:
 *
 *   rattle_alloc    a new block of `size` bytes, or `ok` 0. `align` divides 16, and so suits what malloc answers.
 *   rattle_realloc  the block again, of `size` bytes, of which the first `kept` are as before. It may have moved. Or
 *                   `ok` 0, and the block is as it was.
 *   rattle_dealloc  ends a block of either.
 *
 * A block of no bytes has a place too, and a place is never null. bindings/c/tests/check.sh puts this in place of the
 * kit's own on x86-64, and the answers and each refused allocation are tested again.
 */
#include <stddef.h>
#include <stdint.h>
#include <stdlib.h>

typedef struct {
  uint64_t ok;
  void* at;
} tried;

static char nothing;

static tried of(void* at) {
  return (tried){at != NULL, at != NULL ? at : &nothing};
}

tried rattle_alloc(size_t size, size_t align) {
  return of(malloc(size != 0 ? size : align));
}

tried rattle_realloc(void* at, size_t kept, size_t size, size_t align) {
  (void)kept; /* realloc keeps all that both have room for */
  return of(realloc(at, size != 0 ? size : align));
}

void rattle_dealloc(void* at) {
  free(at);
}
