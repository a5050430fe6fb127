/* Asks the library of the jar, in place of Java: hosted LIBRARY ROUNDS. The natives of bindings/java are called with
 * drawn cells, lists, bytes and numbers, right and wrong, over arrays that this program has, as Java hands them out. It
 * prints a sum of all that they answer and write, which has to be one on each system. */
#include <jni.h>
#include <stdint.h>
#include <stdio.h>
#include <stdlib.h>
#include <string.h>
#ifdef _WIN32
/* As windows.h declares them, which has a DIFFERENCE of its own. */
__declspec(dllimport) void* __stdcall LoadLibraryA(const char* path);
__declspec(dllimport) void* __stdcall GetProcAddress(void* library, const char* name);
#define open_library(path) LoadLibraryA(path)
#define find(library, name) GetProcAddress(library, name)
#else
#include <dlfcn.h>
#define open_library(path) dlopen(path, RTLD_NOW)
#define find(library, name) dlsym(library, name)
#endif
#include "calls.h"

enum { MOST = 400 };
typedef struct _jobject array;
struct _jobject { jsize length, unit; uint8_t bytes[MOST * 8]; };
static uint64_t state = 88172645463325252u, sum = 14695981039346656037u;

static uint64_t drawn(void) {
  state ^= state << 13, state ^= state >> 7, state ^= state << 17;
  return state;
}
static void add(const void* from, size_t size) {
  const uint8_t* bytes = from;
  for (size_t k = 0; k < size; k++) sum = (sum ^ bytes[k]) * 1099511628211u;
}
static void add_number(int64_t number) { add(&number, sizeof number); }

/* ---- what Java gives */

static jsize JNICALL length_of(JNIEnv* env, jarray of) { (void)env; return of->length; }
static void* JNICALL taken(JNIEnv* env, jarray of, jboolean* copy) {
  (void)env;
  if (copy) *copy = JNI_FALSE;
  return of->bytes;
}
static void JNICALL given_back(JNIEnv* env, jarray of, void* at, jint mode) {
  (void)env, (void)of, (void)at, (void)mode;
}
static jint* JNICALL ints_of(JNIEnv* env, jintArray of, jboolean* copy) { return taken(env, of, copy); }
static void JNICALL ints_back(JNIEnv* env, jintArray of, jint* at, jint mode) { given_back(env, of, at, mode); }
static void JNICALL longs_set(JNIEnv* env, jlongArray to, jsize at, jsize n, const jlong* from) {
  (void)env;
  memcpy(to->bytes + 8 * at, from, 8 * (size_t)n);
}
static void JNICALL ints_get(JNIEnv* env, jintArray of, jsize at, jsize n, jint* to) {
  (void)env;
  memcpy(to, of->bytes + 4 * at, 4 * (size_t)n);
}

/* ---- what is drawn */

static uint64_t cell(void) {
  unsigned level = (unsigned)(drawn() % 31);
  uint64_t last = 1ull << (60 - 2 * level), id = (drawn() % 6) << 61 | (drawn() >> 3 & ((1ull << 61) - 1));
  if (drawn() % 50 == 0) return drawn();
  if (level > 3 && drawn() % 2) id &= 3ull << 61 | 0xffull << 40;
  return (id & ~(2 * last - 1)) | last;
}
static void empty(array* it, jsize length, jsize unit) {
  memset(it, 0, sizeof *it);
  it->length = length, it->unit = unit;
}
static void cells(array* it) {
  empty(it, (jsize)(drawn() % 40), 8);
  for (jsize k = 0; k < it->length; k++) {
    uint64_t id = cell();
    memcpy(it->bytes + 8 * k, &id, 8);
  }
}
static void rectangle(array* it) {
  empty(it, 5, 4);
  for (jsize k = 0; k < 5; k++) {
    jint number = (jint)(drawn() % (k == 0 ? 7 : 1u << 30));
    memcpy(it->bytes + 4 * k, &number, 4);
  }
}
static void add_array(const array* it) { add(it->bytes, (size_t)it->length * (size_t)it->unit); }

#define NATIVE(result, name, ...) \
  result (JNICALL *name)(JNIEnv*, jclass, __VA_ARGS__); \
  *(void**)&name = find(library, "Java_s2union_Calls_" #name); \
  if (!name) return printf("no " #name "\n"), 1

int main(int count, char** words) {
  void* library = count == 3 ? open_library(words[1]) : NULL;
  if (!library) return printf("no library\n"), 1;
  NATIVE(jlong, leafAt, jint, jint, jint);
  NATIVE(jlong, call, jint, jarray, jarray, jarray, jlong, jlong, jintArray, jlongArray);
  struct JNINativeInterface_ host;
  memset(&host, 0, sizeof host);
  host.GetArrayLength = length_of, host.GetPrimitiveArrayCritical = taken;
  host.ReleasePrimitiveArrayCritical = given_back, host.GetIntArrayElements = ints_of;
  host.ReleaseIntArrayElements = ints_back, host.SetLongArrayRegion = longs_set, host.GetIntArrayRegion = ints_get;
  const struct JNINativeInterface_* table = &host;
  JNIEnv* env = &table;
  static array xs, ys, of, file, out, bounds, found;
  array* lists[] = {&xs, &ys};
  for (long round = atol(words[2]); round > 0; round--) {
    jlong n;
    for (int k = 0; k < 2; k++) { /* unions mostly, made by the library */
      cells(&of), empty(&found, 1, 8), empty(lists[k], of.length, 8);
      if (call(env, NULL, NORMALISE, &of, NULL, lists[k], 0, 0, NULL, &found) >= 0 && drawn() % 20) {
        memcpy(&n, found.bytes, 8);
        lists[k]->length = (jsize)n;
      }
    }
    empty(&file, MOST * 8, 1), call(env, NULL, ENCODE, &xs, NULL, &file, 0, 0, NULL, &found);
    memcpy(&n, found.bytes, 8);
    file.length = n < MOST * 8 ? (jsize)n : MOST * 8;
    if (drawn() % 4 == 0) file.bytes[drawn() % 20] ^= (uint8_t)drawn();
    add_number(leafAt(env, NULL, (jint)(drawn() % 7), (jint)drawn(), (jint)(drawn() >> 34)));
    for (jint k = 0; k < (jint)(sizeof forms / sizeof *forms); k++) {
      const form* it = &forms[k];
      int is_of_each = k == PARENTS || k == RANGE_MINS || k == RANGE_MAXES;
      int is_of_cells = k == RANGE || k == COMMON_ANCESTOR;
      if (k == UNION_OF_MANY) continue; /* whose second list says where others end */
      jlong a = (jlong)(is_of_cells || drawn() % 2 ? cell() : drawn() % 32);
      jlong b = (jlong)(is_of_cells ? cell() : drawn() % 32);
      empty(&out, it->is_bytes[OUT] ? MOST * 8 : is_of_each ? xs.length : MOST, it->is_bytes[OUT] ? 1 : 8);
      rectangle(&bounds), empty(&found, 1, 8);
      add_number(call(env, NULL, k, it->is_bytes[0] ? &file : &xs, it->is_bytes[1] ? &file : &ys, &out, a, b, &bounds,
                      &found));
      add_array(&out), add_array(&found);
    }
  }
  printf("sum %016llx\n", (unsigned long long)sum);
  return 0;
}
