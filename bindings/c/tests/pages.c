/* Calls that pass over many cells of a list or a file by a search read few of its pages. The pages are shut, and a
 * handler counts each that is read. Each call of calls.h is one of these, or READ_ALL has it. */
#include "calls.h"
#include "tests.h"
#include <signal.h>

enum { N = 1 << 20, LEVEL = 11, FEW = 80 };
static const uint64_t face = 1ull << 60, next_face = 3ull << 60, one = 0x555555555555555;
static const s2u_rect middle = {0, (1 << 29) - 1, 1 << 29, (1 << 29) - 1, 1 << 29};
static uint64_t *list, id;
static uint8_t* file;
static size_t page, len, first, count, size;
static volatile sig_atomic_t pages_read;
static struct { char *at, *end; } closed; /* the pages that were shut */

/* Every second cell of a level: half of face 0. */
static uint64_t cell_at(uint64_t k) { return (4 * k + 1) << (2 * (30 - LEVEL)); }

static void open_page(int signal, siginfo_t* info, void* context) {
  char* at = info->si_addr;
  (void)signal, (void)context;
  if (at < closed.at || at >= closed.end) abort();
  if (mprotect(at - (size_t)at % page, page, PROT_READ)) abort();
  pages_read++;
}

static void shut_bytes(void* at, size_t bytes) {
  pages_read = 0;
  closed.at = (char*)at - (size_t)at % page, closed.end = (char*)at + bytes;
  if (mprotect(closed.at, (size_t)(closed.end - closed.at), PROT_NONE)) abort();
}

/* Shuts the list before a call. */
static const uint64_t* shut(void) {
  shut_bytes(list, 8 * N);
  return list;
}

/* Shuts the file. */
static const uint8_t* shut_file(void) {
  shut_bytes(file, size);
  return file;
}

static int reads_few(void) { return pages_read > 0 && pages_read <= FEW; }

/* The calls of one union that read each cell: what they make has a part for each, or is cut at each. */
static const char* const READ_ALL[] = {"ancestors", "complement"};

static int reads_all(const char* name) {
  for (size_t k = 0; k < sizeof READ_ALL / sizeof *READ_ALL; k++)
    if (strcmp(name, READ_ALL[k]) == 0) return 1;
  return 0;
}

/* Asks each call that makes a list of two unions about the long one and a cell after it, and each of one union. */
static void each_call(void) {
#define OF_TWO(name, most) \
  CHECK(s2u_##name(shut(), N, &next_face, 1, NULL, 0, &len) != S2U_NO_UNION && reads_few()); \
  CHECK(s2u_##name(&next_face, 1, shut(), N, NULL, 0, &len) != S2U_NO_UNION && reads_few());
#define OF_ONE(name, most) \
  CHECK(s2u_##name(shut(), N, NULL, 0, &len) == S2U_ROOM && reads_few() != reads_all(#name));
  CALLS_OF_TWO_UNIONS(OF_TWO)
  CALLS_OF_A_UNION(OF_ONE)
}

/* Asks each call about a file that doesn't name each of its cells. */
static void each_call_about_a_file(void) {
  uint8_t of_a_cell[17], answer;
  uint64_t cells;
  size_t bad;
  if (s2u_encode(&next_face, 1, of_a_cell, sizeof of_a_cell, &len) != S2U_OK) abort();
  CHECK(s2u_file_count(shut_file(), size, &cells) == S2U_OK && cells == N && pages_read == 1);
  CHECK(s2u_file_cell(shut_file(), size, N - 1, &id) == S2U_OK && id == cell_at(N - 1) && pages_read == 2);
  CHECK(s2u_file_contains_cell(shut_file(), size, cell_at(N / 3)) == 1 && reads_few());
  CHECK(s2u_file_contains_cell(shut_file(), size, next_face) == 0 && reads_few());
  CHECK(s2u_file_contains_cells(shut_file(), size, &next_face, 1, &answer, 1, &bad) == S2U_OK && reads_few());
  CHECK(s2u_file_intersects_cell(shut_file(), size, face) == 1 && reads_few());
  CHECK(s2u_file_intersects_cell(shut_file(), size, next_face) == 0 && reads_few());
  CHECK(s2u_file_contains(shut_file(), size, of_a_cell, len) == 0 && reads_few());
  CHECK(s2u_file_contains(of_a_cell, len, shut_file(), size) == 0 && reads_few());
  CHECK(s2u_file_intersects(shut_file(), size, of_a_cell, len) == 0 && reads_few());
  CHECK(s2u_file_leaf_count(shut_file(), size, &cells) == S2U_OK && !reads_few());
}

int main(void) {
  struct sigaction action = {0};
  uint64_t out[4];
  page = (size_t)sysconf(_SC_PAGESIZE);
  list = at_the_edge(8 * N);
  for (size_t k = 0; k < N; k++) list[k] = cell_at(k);
  CHECK(s2u_is_union(list, N) == 1);
  size = 9 + 8 * (size_t)N;
  file = at_the_edge(size);
  CHECK(s2u_encode(list, N, file, size, &len) == S2U_OK && len == size);
  action.sa_sigaction = open_page, action.sa_flags = SA_SIGINFO;
  sigaction(SIGSEGV, &action, NULL);
  each_call();
  each_call_about_a_file();
  CHECK(s2u_difference(shut(), N, &face, 1, out, 4, &len) == S2U_OK && len == 0 && reads_few());
  CHECK(s2u_difference(shut(), N, &next_face, 1, out, 0, &len) == S2U_ROOM && len == N && reads_few());
  CHECK(s2u_intersection(shut(), N, &next_face, 1, out, 4, &len) == S2U_OK && len == 0 && reads_few());
  CHECK(s2u_intersection(shut(), N, &face, 1, out, 0, &len) == S2U_ROOM && len == N && reads_few());
  CHECK(s2u_union(shut(), N, &next_face, 1, out, 0, &len) == S2U_ROOM && len == N + 1 && reads_few());
  CHECK(s2u_outer_of(shut(), N, 0, 9, out, 4, &len) == S2U_OK && len == 1 && out[0] == face && reads_few());
  CHECK(s2u_inner_of(shut(), N, 0, 9, out, 4, &len) == S2U_OK && len == 0 && reads_few());
  /* A rectangle across the middle of the face lies in no smaller cell. The list has one of its four leaves. */
  CHECK(s2u_outer_in(shut(), N, &middle, 30, 9, out, 4, &len) == S2U_OK && len == 1 && out[0] == one && reads_few());
  CHECK(s2u_inner_in(shut(), N, &middle, 30, 9, out, 4, &len) == S2U_OK && len == 1 && out[0] == one && reads_few());
  CHECK(s2u_contains(&face, 1, shut(), N) == 1 && reads_few());
  CHECK(s2u_intersects(shut(), N, &next_face, 1) == 0 && reads_few());
  CHECK(s2u_contains_cell(shut(), N, 1) == 1 && reads_few());
  CHECK(s2u_intersects_cell(shut(), N, next_face) == 0 && reads_few());
  CHECK(s2u_cells_at(shut(), N, face, &first, &count) == S2U_OK && first == 0 && count == N && reads_few());
  printf("%d pages read by the last call, of %zu\n", (int)pages_read, 8 * N / page);
  return report();
}
