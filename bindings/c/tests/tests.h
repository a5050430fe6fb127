/* What the tests share: lists that end at a page which may not be touched, random cells, and counts. */
#ifndef TESTS_H
#define TESTS_H
#include <s2union.h>
#include <stdio.h>
#include <stdlib.h>
#include <string.h>
#include <sys/mman.h>
#include <unistd.h>

static size_t passed, failed;

/* Counts a check, and reports one that fails. */
static inline void check(int holds, const char* what) {
  if (holds) {
    passed++;
  } else {
    failed++;
    printf("FAILED: %s\n", what);
  }
}
#define CHECK(holds) check((holds), __FILE__ ": " #holds)

static inline int report(void) {
  printf("%zu passed, %zu failed\n", passed, failed);
  return failed != 0;
}

/* Memory of n bytes; the byte after the last may not be read or written. */
static inline void* at_the_edge(size_t size) {
  size_t page = (size_t)sysconf(_SC_PAGESIZE), whole = (size + page - 1) / page * page;
  char* at = (char*)mmap(NULL, whole + page, PROT_READ | PROT_WRITE, MAP_PRIVATE | MAP_ANONYMOUS, -1, 0);
  if (at == MAP_FAILED || mprotect(at + whole, page, PROT_NONE)) abort();
  return at + whole - size;
}

static uint64_t state = 88172645463325252u;

static inline uint64_t draw(void) {
  state ^= state << 13;
  state ^= state >> 7;
  state ^= state << 17;
  return state;
}

/* A random cell of a level from `low` to `high`, on the first `faces` faces. */
static inline uint64_t random_cell(unsigned low, unsigned high, unsigned faces) {
  unsigned level = low + (unsigned)(draw() % (high - low + 1));
  uint64_t leaf = 2 * (draw() % ((uint64_t)faces << 60)) + 1, marker = (uint64_t)1 << (2 * (30 - level));
  return (leaf & (~marker + 1)) | marker;
}

/* A union of at most `n` random cells in `ids`; its length. */
static inline size_t random_union(uint64_t* ids, size_t n, unsigned low, unsigned high) {
  size_t len = 0;
  for (size_t k = 0; k < n; k++) ids[k] = random_cell(low, high, 6);
  if (s2u_normalise(ids, n, &len) != S2U_OK) abort();
  return len;
}
#endif
