/* qsort of the module for WebAssembly, by the malloc, free and memcpy that are declared before. All of it is inlined,
 * so that no function is called by its address. */
#ifndef S2UNION_SORT_H
#define S2UNION_SORT_H

#define S2JS_INLINED __attribute__((always_inline)) static inline

S2JS_INLINED void s2js_swap(char* a, char* b, size_t size) {
  for (size_t k = 0; k < size; k++) {
    char byte = a[k];
    a[k] = b[k], b[k] = byte;
  }
}

/* Moves elements by gaps that get smaller, where there is no memory. */
S2JS_INLINED void s2js_sort_in_place(char* at, size_t count, size_t size, int (*order)(const void*, const void*)) {
  for (size_t gap = count / 2; gap > 0; gap = gap == 2 ? 1 : gap * 5 / 11)
    for (size_t k = gap; k < count; k++)
      for (size_t to = k; to >= gap && order(at + size * to, at + size * (to - gap)) < 0; to -= gap)
        s2js_swap(at + size * to, at + size * (to - gap), size);
}

/* Merges sorted runs, whose length doubles. */
S2JS_INLINED void qsort(void* at, size_t count, size_t size, int (*order)(const void*, const void*)) {
  char *from = (char*)at, *to = (char*)malloc(count * size), *other = to;
  if (!other) s2js_sort_in_place(from, count, size, order);
  for (size_t run = 1; other && run < count; run *= 2) {
    for (size_t begin = 0; begin < count; begin += 2 * run) {
      size_t middle = begin + run < count ? begin + run : count, end = middle + run < count ? middle + run : count;
      size_t left = begin, right = middle;
      for (size_t k = begin; k < end; k++) {
        int is_right = left == middle || (right < end && order(from + size * right, from + size * left) < 0);
        memcpy(to + size * k, from + size * (is_right ? right++ : left++), size);
      }
    }
    char* sorted = to;
    to = from, from = sorted;
  }
  if (from != (char*)at) memcpy(at, from, count * size);
  free(other);
}

#endif
