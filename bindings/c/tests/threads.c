/* Eight threads ask the same lists the same questions at once; each must get what one thread gets. */
#include "tests.h"
#include <pthread.h>

enum { N = 2000, THREADS = 8, ROUNDS = 50 };
static uint64_t raw[N], x[N], y[N], want[100 * N];
static size_t nx, ny, wanted;

static void* rounds(void* wrong) {
  uint64_t *out = malloc(sizeof want), *list = malloc(sizeof raw);
  size_t len;
  for (int k = 0; k < ROUNDS; k++) {
    *(long*)wrong +=
        s2u_union(x, nx, y, ny, out, 100 * N, &len) != S2U_OK || len != wanted || memcmp(out, want, 8 * len);
    *(long*)wrong += s2u_difference(x, nx, y, ny, out, 100 * N, &len) != S2U_OK || s2u_contains(x, nx, out, len) != 1;
    memcpy(list, raw, sizeof raw);
    *(long*)wrong += s2u_normalise(list, N, &len) != S2U_OK || len != nx || memcmp(list, x, 8 * nx);
  }
  free(out);
  free(list);
  return NULL;
}

int main(void) {
  pthread_t threads[THREADS];
  long wrong[THREADS] = {0};
  for (size_t k = 0; k < N; k++) raw[k] = x[k] = random_cell(8, 14, 6);
  CHECK(s2u_normalise(x, N, &nx) == S2U_OK);
  ny = random_union(y, N, 8, 14);
  CHECK(s2u_union(x, nx, y, ny, want, 100 * N, &wanted) == S2U_OK);
  for (int k = 0; k < THREADS; k++) pthread_create(&threads[k], NULL, rounds, &wrong[k]);
  for (int k = 0; k < THREADS; k++) {
    pthread_join(threads[k], NULL);
    CHECK(wrong[k] == 0);
  }
  return report();
}
