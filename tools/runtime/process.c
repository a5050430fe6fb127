/* What s2calc calls of the kit's C beside the heap, for a processor for which the kit has no object: the number of the
 * last error, and the words of the command line. All else that it calls is the C library's own. Nothing proves it. It
 * is trusted to do what the contracts of `os` in the kit say, as its errno.pic.o and args.pic.o do on x86-64.
 */
#include <errno.h>
#include <stddef.h>
#include <stdint.h>

int rattle_errno(void) {
  return errno;
}

void rattle_set_errno(int error) {
  errno = error;
}

static char** words;
static size_t count;

__attribute__((constructor)) static void begin(int argc, char** argv) { /* glibc passes these words to constructors */
  words = argv;
  count = (size_t)argc;
}

size_t rattle_arg_count(void) {
  return count;
}

/* Copies the bytes of a word. Answers how many there are, -1 if there is no such word, or -2 if the room is too little
 * for them. */
ptrdiff_t rattle_arg(size_t place, uint8_t* to, size_t room) {
  if (place >= count) return -1;
  size_t n = 0;
  for (; words[place][n] != 0; n++) {
    if (n == room) return -2;
    to[n] = (uint8_t)words[place][n];
  }
  return (ptrdiff_t)n;
}
