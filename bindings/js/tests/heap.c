/* The heap of the page's module, which bindings/js/module.c has, compiled for this system: blocks that each have a
 * pattern of their own, and zones with less and less memory. The last line is 'N passed, M failed'. */
#define _GNU_SOURCE
#include <math.h>
#include <stdbool.h>
#include <stdint.h>
#include <stdio.h>
#include <stdlib.h>
#include <string.h>
#include <sys/mman.h>

enum { BLOCKS = 500, ROUNDS = 300000 };
#define BEGIN 0x10000000u
#define PAGES 1024u /* of the memory, at the most, behind BEGIN */

static uint64_t page_count = BEGIN / 65536, most_pages = PAGES;
static unsigned long passed, failed;

static uint64_t grown(uint64_t more) {
  if (page_count + more > BEGIN / 65536 + most_pages) return UINT32_MAX;
  return page_count += more, 0;
}

void *heap_malloc(size_t size), *heap_calloc(size_t count, size_t size), *heap_realloc(void* at, size_t size);
void heap_free(void* at);

#define __builtin_wasm_memory_size(memory) page_count
#define __builtin_wasm_memory_grow(memory, more) grown(more)
#define malloc heap_malloc
#define calloc heap_calloc
#define realloc heap_realloc
#define free heap_free
#define qsort heap_qsort
#include "sort.h"
#include "module.c"
#undef malloc
#undef calloc
#undef realloc
#undef free
#undef qsort

static void is(int holds, const char* what) {
  if (!holds && failed < 9) printf("FAILED: %s\n", what);
  if (holds) passed++;
  else failed++;
}

static uint64_t any(void) {
  static uint64_t state = 88172645463325252u;
  state ^= state << 13, state ^= state >> 7, state ^= state << 17;
  return state * 2685821657736338717u;
}

typedef struct block {
  uint8_t* at;
  size_t size;
  uint64_t seed;
} block;

static block blocks[BLOCKS];

static void fill(block* b) {
  b->seed = any();
  for (size_t k = 0; k < b->size; k++) b->at[k] = (uint8_t)(b->seed >> k % 57);
}

static int keeps(const block* b, size_t size) {
  size_t k = 0;
  while (k < size && b->at[k] == (uint8_t)(b->seed >> k % 57)) k++;
  return k == size;
}

static int is_empty(const block* b) {
  size_t k = 0;
  while (k < b->size && b->at[k] == 0) k++;
  return k == b->size;
}

/* A block is taken, made larger or smaller, or given back; each has what was written there. */
static void change(block* b) {
  size_t size = any() % (any() % 50 ? 300 : 20000), old = b->size;
  if (!b->at) {
    int is_clear = any() % 2;
    *b = (block){is_clear ? heap_calloc(size, 1) : heap_malloc(size), size, 0};
    if (is_clear) is(is_empty(b), "calloc clears");
  } else if (any() % 2) {
    b->at = heap_realloc(b->at, size);
    is(keeps(b, size < old ? size : old), "realloc keeps");
    b->size = size;
  } else {
    is(keeps(b, old), "no block lies on another");
    heap_free(b->at);
    *b = (block){NULL, 0, 0};
    return;
  }
  is((uintptr_t)b->at % 16 == 0 && (uint64_t)(uintptr_t)b->at + size <= page_count * 65536, "16 bytes, in the memory");
  fill(b);
}

/* Blocks of some sizes, all at once, given back at the end: where the heap ends then. */
static uint64_t end_of_all(void) {
  for (size_t k = 0; k < BLOCKS; k++) blocks[k].at = heap_realloc(heap_malloc(k * 37), k * 75);
  for (int k = 0; k < BLOCKS; k++) heap_free(blocks[k].at);
  memset(blocks, 0, sizeof blocks);
  return s2js_front;
}

static int refuses(size_t count, size_t size) { return heap_calloc(count, size) == NULL; }

/* How many blocks were taken, of which none was given back. */
static size_t blocks_taken(void) {
  size_t count = 0;
  for (uint64_t at = BEGIN; at < s2js_front; count++)
    at += S2JS_HEAD + ((uint64_t)1 << *(uint64_t*)(uintptr_t)(at + S2JS_HEAD - 8));
  for (size_t exponent = 0; exponent < sizeof s2js_freed / sizeof *s2js_freed; exponent++)
    for (void** block = s2js_freed[exponent]; block; block = *block) count--;
  return count;
}

/* Adds two zones and asks them, where this many blocks of the least size are left: what cannot be had is said, the
 * zones that were added stay, and no block is lost. Whether all was had. */
static int has_zones(size_t left) {
  static const double corners[] = {0, 0, 9, 0, 9, 9, 5, 4, 4, 5, 3, 4, 2, 5, 1, 4, 0, 9, 0, 0};
  static const double x[] = {1, 20}, y[] = {1, 2};
  const s2u_cover_ring ring = {sizeof corners / 16, 0};
  s2u_cover_fault fault;
  s2js_found found;
  s2js_zones(BEGIN);
  while (s2js_take(1)) continue;
  size_t all = blocks_taken();
  s2js_zones(BEGIN);
  for (size_t k = left; k < all; k++) s2js_take(1);
  size_t before = blocks_taken(), added = 0;
  for (int zone = 0; zone < 2; zone++) {
    int32_t status = s2js_add(corners, 2 * ring.end, &ring, 2, &fault);
    is(status == S2U_OK || status == S2U_MEMORY, "a zone is added, or there is no memory");
    added += status == S2U_OK;
    is(s2js_made.zones.count == added, "the zones are as they were");
  }
  int32_t status = s2js_pairs(x, 2, y, 2, 1, &found);
  is(status == S2U_OK ? found.count == added : status == S2U_MEMORY, "each zone that was added has the place");
  s2js_give_back((uintptr_t)found.pairs);
  s2u_join_free(&s2js_made);
  is(blocks_taken() == before, "what was taken is given back");
  return added == 2 && status == S2U_OK;
}

static int by_number(const void* a, const void* b) {
  uint32_t x = *(const uint32_t*)a, y = *(const uint32_t*)b;
  return (x > y) - (x < y);
}

/* Numbers are brought to the order of C's own library, where there is memory and where there is none. */
static void sorts(void) {
  static uint32_t own[3000], wanted[3000];
  s2js_begin(BEGIN);
  for (size_t turn = 0; turn < 200; turn++) {
    size_t count = turn < 20 ? turn : any() % 3000, most = 1 + any() % 5000;
    for (size_t k = 0; k < count; k++) own[k] = wanted[k] = (uint32_t)(any() % most);
    most_pages = turn % 2 ? PAGES : 0;
    if (!most_pages) page_count = BEGIN / 65536;
    heap_qsort(own, count, sizeof *own, by_number);
    qsort(wanted, count, sizeof *wanted, by_number);
    is(memcmp(own, wanted, count * sizeof *own) == 0, "sorted");
  }
  most_pages = PAGES;
}

static void zones(void) {
  size_t left = 0;
  most_pages = 2;
  while (left < 1000 && !has_zones(left)) left++;
  is(left > 30 && left < 1000, "zones take memory");
  most_pages = PAGES;
}

int main(void) {
  void* at = mmap((void*)(uintptr_t)BEGIN, PAGES * 65536, PROT_READ | PROT_WRITE,
                  MAP_PRIVATE | MAP_ANONYMOUS | MAP_FIXED_NOREPLACE, -1, 0);
  if (at != (void*)(uintptr_t)BEGIN) return perror("mmap"), 2;
  sorts();
  zones();
  s2js_begin(BEGIN + 3);
  uint64_t end = end_of_all();
  for (int turn = 0; turn < 20; turn++) is(end_of_all() == end, "what was given back is used again");
  for (long k = 0; k < ROUNDS; k++) change(&blocks[any() % BLOCKS]);
  for (int k = 0; k < BLOCKS; k++) is(!blocks[k].at || keeps(&blocks[k], blocks[k].size), "all are there at the end");
  is(refuses(1, S2JS_MOST / 2 + 1) && refuses(S2JS_MOST, 2) && refuses(SIZE_MAX, SIZE_MAX), "too many bytes");
  is(refuses(1, PAGES * 65536), "more than the memory has");
  s2js_begin(BEGIN);
  is(heap_malloc(1) == (void*)(uintptr_t)(BEGIN + S2JS_HEAD), "a new heap begins where it is told to");
  heap_free(NULL);
  is(heap_realloc(NULL, 9) != NULL, "a block of no other");
  printf("%lu passed, %lu failed\n", passed, failed);
  return failed != 0;
}
