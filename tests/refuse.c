/* Makes calls of a program fail. A program that it is linked into asks for that by refuse.h. For any other it is built
 * as a shared library: LD_PRELOAD=refuse.so REFUSED='CALL FIRST LAST ERROR' program.
 * The calls from FIRST to LAST of the kind CALL, counted from 1, fail with the number ERROR; a `write` whose ERROR is 0
 * takes nothing. CALL is `memory` (malloc, calloc and realloc), `read`, `write`, `open`, `statx`, `close` or `lseek`.
 * With PIECE=N, a read of standard input and a write to standard output transfer at most N bytes. With CALLS=FILE, the
 * program's calls are written to that file at its end, one a line: their kinds, files (-1: none) and answers. With
 * SWAPPED=PATH, each file becomes a link to PATH just before it is opened. */
#define _GNU_SOURCE
#include "refuse.h"
#include <dlfcn.h>
#include <errno.h>
#include <fcntl.h>
#include <limits.h>
#include <stdarg.h>
#include <stdio.h>
#include <stdlib.h>
#include <string.h>
#include <sys/stat.h>
#include <sys/syscall.h>
#include <unistd.h>

enum kind { MEMORY, READ, WRITE, OPEN, STATX, CLOSE, LSEEK, KINDS };
static const char *const names[KINDS] = {"memory", "read", "write", "open", "statx", "close", "lseek"};

static struct { enum kind kind; int file; long answer; } calls[1 << 16];
static long total, counted[KINDS];
static char refused[16];
static long first, last, error, piece;
static const char *log_of_calls, *swapped;

/* Of the thread that asks: how many calls for memory it made, which of them is refused, and its blocks. */
#define OF_THREAD static _Thread_local __attribute__((tls_model("initial-exec")))
OF_THREAD long asked, to_refuse, taken;

/* The C library's own functions, or those of a sanitizer. */
static void *(*take)(size_t), *(*take_zeros)(size_t, size_t), *(*grow)(void *, size_t), (*give_back)(void *);

static void begin(void) {
  const char *words = getenv("REFUSED"), *number = getenv("PIECE");
  if (words && *words && sscanf(words, "%15s %ld %ld %ld", refused, &first, &last, &error) != 4) abort();
  log_of_calls = getenv("CALLS");
  swapped = getenv("SWAPPED");
  *(void **)&take = dlsym(RTLD_NEXT, "malloc");
  *(void **)&take_zeros = dlsym(RTLD_NEXT, "calloc");
  *(void **)&grow = dlsym(RTLD_NEXT, "realloc");
  *(void **)&give_back = dlsym(RTLD_NEXT, "free");
  piece = number ? atol(number) : LONG_MAX;
}

/* Counts a call, and tells whether it is to fail. */
static int is_refused(enum kind kind, int file) {
  if (piece == 0) begin();
  long number = ++counted[kind];
  if (log_of_calls) {
    if (total == sizeof calls / sizeof *calls) abort();
    calls[total].kind = kind;
    calls[total].file = file;
    calls[total++].answer = -1;
  }
  int is = number >= first && number <= last && strcmp(refused, names[kind]) == 0;
  if (is) errno = (int)error;
  if (kind != MEMORY || ++asked != to_refuse) return is;
  errno = ENOMEM;
  return 1;
}

/* Notes what the last call answered. */
static long noted(long answer) {
  if (log_of_calls) calls[total - 1].answer = answer;
  return answer;
}

static void *given(void *memory) {
  noted(memory != NULL);
  taken += memory != NULL;
  return memory;
}

void *malloc(size_t size) { return is_refused(MEMORY, -1) ? NULL : given(take(size)); }

void *calloc(size_t count, size_t size) { return is_refused(MEMORY, -1) ? NULL : given(take_zeros(count, size)); }

void *realloc(void *old, size_t size) {
  if (is_refused(MEMORY, -1)) return NULL;
  void *grown = given(grow(old, size));
  taken -= old && (grown || size == 0);
  return grown;
}

void free(void *memory) {
  if (piece == 0) begin();
  taken -= memory != NULL;
  give_back(memory);
}

long refuse_memory(long n) {
  long before = asked;
  asked = 0;
  to_refuse = n;
  return before;
}

long blocks_taken(void) { return taken; }

static size_t least(size_t size) { return size > (size_t)piece ? (size_t)piece : size; }

ssize_t read(int file, void *to, size_t size) {
  if (is_refused(READ, file)) return -1;
  return noted(syscall(SYS_read, file, to, file == 0 ? least(size) : size));
}

ssize_t write(int file, const void *from, size_t size) {
  if (is_refused(WRITE, file)) return error ? -1 : noted(0);
  return noted(syscall(SYS_write, file, from, file == 1 ? least(size) : size));
}

int open(const char *path, int flags, ...) {
  va_list more;
  va_start(more, flags);
  int mode = flags & O_CREAT ? va_arg(more, int) : 0;
  va_end(more);
  if (is_refused(OPEN, -1)) return -1;
  if (swapped && (unlink(path) || symlink(swapped, path))) abort();
  return (int)noted(syscall(SYS_openat, AT_FDCWD, path, flags, mode));
}

int statx(int folder, const char *restrict path, int flags, unsigned mask, struct statx *restrict to) {
  return is_refused(STATX, -1) ? -1 : (int)noted(syscall(SYS_statx, folder, path, flags, mask, to));
}

int close(int file) { return is_refused(CLOSE, file) ? -1 : (int)noted(syscall(SYS_close, file)); }

off_t lseek(int file, off_t by, int from) {
  return is_refused(LSEEK, file) ? -1 : noted(syscall(SYS_lseek, file, by, from));
}

__attribute__((destructor)) static void tell(void) {
  long number = total;
  FILE *log = log_of_calls ? fopen(log_of_calls, "w") : NULL;
  if (!log) return;
  for (long k = 0; k < number; k++) fprintf(log, "%s %d %ld\n", names[calls[k].kind], calls[k].file, calls[k].answer);
  fclose(log);
}
