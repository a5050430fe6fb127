/* The calls of s2union.h for Java: Calls.java has the natives. One of them makes nearly all calls, as calls.h has them.
 * tools/methods.py makes that of the exports, with their numbers and those of the cases here. A list is a long[], whose
 * signs mean nothing. Lists of up to SHORT elements are passed where they lie, which holds the collector up meanwhile.
 * So are lists of any length to calls that end soon. To others longer ones are copied. There is no arithmetic on cells
 * here. */
#include <jni.h>
#include <s2union_join.h>
#include <s2union_outline.h>
#include "calls.h" /* the numbers, and below what makes each call */

#ifndef SHORT
#define SHORT 1000000
#endif

/* The lists of a call, and where they are. The last one is written. */
typedef struct {
  JNIEnv* env;
  jarray given[LISTS];
  void* at[LISTS];
  jsize length[LISTS];
  int is_bytes[LISTS], is_copy[LISTS];
} passed;

static void add(passed* lists, int k, jarray given, int is_bytes, int ends_soon) {
  JNIEnv* env = lists->env;
  lists->given[k] = given;
  lists->length[k] = given != NULL ? (*env)->GetArrayLength(env, given) : 0;
  lists->is_bytes[k] = is_bytes;
  lists->is_copy[k] = lists->length[k] > SHORT && !ends_soon;
}

/* Whether all lists are there: first those that are copied, since Java may not be asked for more after the others. */
static int begin(passed* lists) {
  JNIEnv* env = lists->env;
  for (int turn = 0; turn < 2; turn++) {
    for (int k = 0; k < LISTS; k++) {
      jarray given = lists->given[k];
      if (given == NULL || lists->is_copy[k] == turn) continue;
      lists->at[k] = !lists->is_copy[k]   ? (*env)->GetPrimitiveArrayCritical(env, given, NULL)
                     : lists->is_bytes[k] ? (void*)(*env)->GetByteArrayElements(env, given, NULL)
                                          : (void*)(*env)->GetLongArrayElements(env, given, NULL);
      if (lists->at[k] == NULL) return 0;
    }
  }
  return 1;
}

static void end(passed* lists) {
  JNIEnv* env = lists->env;
  for (int turn = 1; turn >= 0; turn--) {
    for (int k = LISTS - 1; k >= 0; k--) {
      jarray given = lists->given[k];
      jint mode = k == OUT ? 0 : JNI_ABORT;
      if (lists->at[k] == NULL || lists->is_copy[k] == turn) continue;
      if (!lists->is_copy[k]) (*env)->ReleasePrimitiveArrayCritical(env, given, lists->at[k], mode);
      else if (lists->is_bytes[k]) (*env)->ReleaseByteArrayElements(env, given, lists->at[k], mode);
      else (*env)->ReleaseLongArrayElements(env, given, lists->at[k], mode);
    }
  }
}

#define CALL(result, name) JNIEXPORT result JNICALL Java_s2union_Calls_##name
#define LIST(k) ((uint64_t*)lists->at[k]), ((size_t)lists->length[k])
#define BYTES(k) ((uint8_t*)lists->at[k]), ((size_t)lists->length[k])
#define TEXT(k) ((char*)lists->at[k]), ((size_t)lists->length[k])

static void put(JNIEnv* env, jlongArray to, uint64_t number) {
  jlong signed_number = (jlong)number;
  (*env)->SetLongArrayRegion(env, to, 0, 1, &signed_number);
}

/* ---- calls of lists, in a form of their own */

static int32_t normalised(const passed* lists, size_t* len) {
  const uint64_t* from = lists->at[0];
  uint64_t* to = lists->at[OUT];
  for (jsize k = 0; k < lists->length[0]; k++) to[k] = from[k];
  return s2u_normalise(to, (size_t)lists->length[0], len);
}

/* The union of lists that lie one after another, each of which ends at the next of the second list. Of what is written,
 * a third is for the union, and the rest is where the call works. */
static int32_t united(const passed* lists, size_t* len) {
  uint64_t* out = lists->at[OUT];
  size_t n = (size_t)lists->length[0];
  return s2u_union_of_many(LIST(0), lists->at[1], (size_t)lists->length[1], out + n, 2 * n, out, n, len);
}

#include "calls.h"

/* Whether a call ends soon, so that lists of any length are passed where they lie. */
static int ends_soon(JNIEnv* env, int when, jarray xs, jarray ys) {
  int is_few = ys != NULL && (*env)->GetArrayLength(env, ys) <= SHORT;
  int is_short = xs != NULL && (*env)->GetArrayLength(env, xs) <= SHORT;
  return when == SOON || (when == SOON_IF_FEW && is_few) || (when == SOON_IF_ONE_IS_SHORT && (is_few || is_short));
}

/* What a call of lists and numbers answers. Java gets the number that it writes, if it wants one. */
CALL(jlong, call)(JNIEnv* env, jclass of, jint call, jarray xs, jarray ys, jarray out, jlong a, jlong b, jintArray rect,
                  jlongArray found) {
  (void)of;
  const form* it = &forms[call];
  passed lists = {.env = env};
  jint bounds[5] = {0};
  size_t len = 0;
  uint64_t number = 0;
  int soon = ends_soon(env, it->when, xs, ys);
  if (rect != NULL) (*env)->GetIntArrayRegion(env, rect, 0, 5, bounds);
  add(&lists, 0, xs, it->is_bytes[0], soon);
  add(&lists, 1, ys, it->is_bytes[1], soon);
  add(&lists, OUT, out, it->is_bytes[OUT], soon);
  jlong answer = S2U_MEMORY;
  if (begin(&lists))
    answer = called(call, &lists, (uint64_t)a, (uint64_t)b, (const s2u_rect*)(void*)bounds, &len, &number);
  end(&lists);
  if (found != NULL) put(env, found, len + number);
  return answer;
}

CALL(jlong, leafAt)(JNIEnv* env, jclass of, jint face, jint i, jint j) {
  (void)env, (void)of;
  return (jlong)s2u_from_face_ij((uint32_t)face, (uint32_t)i, (uint32_t)j);
}

CALL(jint, square)(JNIEnv* env, jclass of, jlong id, jlongArray out) {
  (void)of;
  s2u_square found = {0, 0, 0, 0};
  int32_t status = s2u_square_of((uint64_t)id, &found);
  jlong numbers[] = {found.face, found.i, found.j, found.size};
  (*env)->SetLongArrayRegion(env, out, 0, 4, numbers);
  return status;
}

CALL(jint, cellsAt)(JNIEnv* env, jclass of, jlongArray xs, jlong cell, jlongArray out) {
  (void)of;
  passed given = {.env = env}, *lists = &given;
  size_t first = 0, count = 0;
  add(lists, 0, xs, 0, 1);
  int32_t status = begin(lists) ? s2u_cells_at(LIST(0), (uint64_t)cell, &first, &count) : S2U_MEMORY;
  end(lists);
  jlong places[] = {(jlong)first, (jlong)count};
  (*env)->SetLongArrayRegion(env, out, 0, 2, places);
  return status;
}

/* The leaves at points, each of which is three numbers. */
CALL(jint, fromPoints)(JNIEnv* env, jclass of, jintArray points, jlongArray out, jlongArray bad) {
  (void)of;
  passed given = {.env = env}, *lists = &given;
  size_t first = 0, count = (size_t)(*env)->GetArrayLength(env, points) / 3;
  jint* numbers = (*env)->GetIntArrayElements(env, points, NULL);
  if (numbers == NULL) return S2U_MEMORY;
  add(lists, OUT, out, 0, 0);
  int32_t status = begin(lists) ? s2u_from_points((const s2u_point*)numbers, count, LIST(OUT), &first) : S2U_MEMORY;
  end(lists);
  (*env)->ReleaseIntArrayElements(env, points, numbers, JNI_ABORT);
  put(env, bad, first);
  return status;
}

/* ---- degrees, of which arrays are copied: coverings take their time */

CALL(jlong, leafAtPosition)(JNIEnv* env, jclass of, jdouble longitude, jdouble latitude) {
  (void)env, (void)of;
  return (jlong)s2u_geo_leaf(longitude, latitude);
}

/* The leaves of positions, each of which is two numbers, up to the first that is out of range. */
CALL(jint, leavesAt)(JNIEnv* env, jclass of, jdoubleArray positions, jlongArray out, jlongArray bad) {
  (void)of;
  passed lists = {.env = env};
  jdouble* at = (*env)->GetDoubleArrayElements(env, positions, NULL);
  if (at == NULL) return S2U_MEMORY;
  jsize count = 0;
  add(&lists, OUT, out, 0, 0);
  int32_t status = begin(&lists) ? S2U_OK : S2U_MEMORY;
  uint64_t* leaves = lists.at[OUT];
  for (; status == S2U_OK && count < lists.length[OUT]; count++)
    if ((leaves[count] = s2u_geo_leaf(at[2 * count], at[2 * count + 1])) == 0) break;
  end(&lists);
  (*env)->ReleaseDoubleArrayElements(env, positions, at, JNI_ABORT);
  put(env, bad, (uint64_t)count);
  return status;
}

/* The longitude and the latitude of the middle of a cell. */
CALL(jint, middle)(JNIEnv* env, jclass of, jlong cell, jdoubleArray out) {
  (void)of;
  jdouble place[2] = {0, 0};
  int32_t status = s2u_geo_middle((uint64_t)cell, &place[0], &place[1]);
  (*env)->SetDoubleArrayRegion(env, out, 0, 2, place);
  return status;
}

CALL(jstring, shapeText)(JNIEnv* env, jclass of, jint status) {
  (void)of;
  return (*env)->NewStringUTF(env, s2u_cover_status_text(status));
}

/* What a covering is asked for, and where it is put. */
typedef struct {
  void* given;
  size_t size; /* of bytes */
  s2u_cover_ring* rings;
  size_t count;
  s2u_cover_options options;
  s2u_cover_cells cells[2];
  s2u_cover_cells *outer, *inner;
  s2u_cover_fault fault;
} covering;

static int32_t covered(jint call, covering* it) {
  const double* n = it->given;
  const s2u_cover_shape shape = {n, it->rings, it->count};
  s2u_cover_options* options = &it->options;
  switch (call) {
    case COVER: return s2u_cover(&shape, options, it->outer, it->inner, &it->fault);
    case COVER_WKB: return s2u_cover_wkb(it->given, it->size, options, it->outer, it->inner, &it->fault);
    case COVER_GEOJSON: return s2u_cover_geojson(it->given, it->size, options, it->outer, it->inner, &it->fault);
    case COVER_CIRCLE: return s2u_cover_circle(n[0], n[1], n[2], options, it->outer, it->inner, &it->fault);
    case COVER_BOX: return s2u_cover_box(n[0], n[1], n[2], n[3], options, it->outer, it->inner, &it->fault);
    default: return S2U_ARGUMENT;
  }
}

/* An array of cells. NULL if Java has no memory for it, which it throws then. */
static jlongArray array_of(JNIEnv* env, const s2u_cover_cells* cells) {
  if (cells->count > INT32_MAX) return NULL;
  jlongArray made = (*env)->NewLongArray(env, (jsize)cells->count);
  if (made != NULL) (*env)->SetLongArrayRegion(env, made, 0, (jsize)cells->count, (const jlong*)cells->ids);
  return made;
}

/* Numbers are the most cells, the least and the deepest level, and the kind of edges; meters are the margin and how far
 * coverings may go beyond a shape, or 0. `wanted` is 1 for the outer covering, 2 for the inner one, 3 for both, whose
 * cells are put to `made`; one that isn't wanted is empty. */
static int32_t cover_for(JNIEnv* env, jint call, covering* it, const jlong* numbers, const jdouble* meters,
                         jobjectArray made, jint wanted) {
  const s2u_cover_options options = {(uint64_t)numbers[0], (uint32_t)numbers[1], (uint32_t)numbers[2],
                                     (uint32_t)numbers[3], meters[0]};
  it->options = options;
  it->outer = wanted != 2 ? &it->cells[0] : NULL;
  it->inner = wanted != 1 ? &it->cells[1] : NULL;
  int32_t status = meters[1] != 0 ? s2u_cover_keep_within(&it->options, meters[1]) : S2U_OK;
  if (status == S2U_OK) status = covered(call, it);
  for (int k = 0; k < 2; k++) {
    jlongArray array = status == S2U_OK ? array_of(env, &it->cells[k]) : NULL;
    if (array != NULL) (*env)->SetObjectArrayElement(env, made, k, array);
    else if (status == S2U_OK) status = S2U_MEMORY;
    s2u_cover_free(&it->cells[k]);
  }
  return status;
}

/* Whether a shape is bytes of WKB or a text. */
static int is_of_bytes(jint call) { return call == COVER_WKB || call == COVER_GEOJSON; }

/* Takes the arrays of a shape from Java: bytes of WKB or of a text, or numbers, which are positions with rings, each of
 * which is two numbers, or a circle or a box. Whether they are there. */
static int take_shape(JNIEnv* env, jint call, jarray given, jlongArray rings, covering* it) {
  it->size = (size_t)(*env)->GetArrayLength(env, given);
  it->given = is_of_bytes(call) ? (void*)(*env)->GetByteArrayElements(env, given, NULL)
                                : (void*)(*env)->GetDoubleArrayElements(env, given, NULL);
  it->rings = (s2u_cover_ring*)(void*)(*env)->GetLongArrayElements(env, rings, NULL);
  it->count = (size_t)(*env)->GetArrayLength(env, rings) / 2;
  return it->given != NULL && it->rings != NULL;
}

/* Gives them back. `at` gets the ring and the position of a fault, its name and its part. */
static void give_shape_back(JNIEnv* env, jint call, jarray given, jlongArray rings, const covering* it, int32_t status,
                            jlongArray at) {
  if (it->rings != NULL) (*env)->ReleaseLongArrayElements(env, rings, (jlong*)(void*)it->rings, JNI_ABORT);
  if (it->given != NULL && is_of_bytes(call)) (*env)->ReleaseByteArrayElements(env, given, it->given, JNI_ABORT);
  else if (it->given != NULL) (*env)->ReleaseDoubleArrayElements(env, given, it->given, JNI_ABORT);
  const s2u_cover_fault* fault = &it->fault;
  jlong place[] = {(jlong)fault->ring, (jlong)fault->position, (jlong)fault->name, (jlong)fault->part};
  if (status != S2U_OK && status != S2U_MEMORY) (*env)->SetLongArrayRegion(env, at, 0, 4, place);
}

CALL(jint, cover)(JNIEnv* env, jclass of, jint call, jint wanted, jarray given, jlongArray rings, jlongArray options,
                  jdoubleArray meters, jobjectArray made, jlongArray at) {
  (void)of;
  covering it = {.size = 0};
  jlong numbers[4];
  jdouble far[2];
  (*env)->GetLongArrayRegion(env, options, 0, 4, numbers);
  (*env)->GetDoubleArrayRegion(env, meters, 0, 2, far);
  int32_t status = S2U_MEMORY;
  if (take_shape(env, call, given, rings, &it)) status = cover_for(env, call, &it, numbers, far, made, wanted);
  give_shape_back(env, call, given, rings, &it, status, at);
  return status;
}

/* ---- shapes as they are written */

typedef struct {
  const void* given;
  size_t size;
  uint32_t level;
  uint64_t most; /* work on the map, or cells of a covering */
  uint64_t* out;
  size_t room, len, outer;
  s2u_shape_fault fault;
} mapping;

static int32_t map_of(jint call, mapping* it) {
  switch (call) {
    case MAP_GEOJSON:
      return s2u_map_geojson(it->given, it->size, it->level, it->most, it->out, it->room, &it->len, &it->outer,
                             &it->fault);
    case MAP_WKB:
      return s2u_map_wkb(it->given, it->size, it->level, it->most, it->out, it->room, &it->len, &it->outer, &it->fault);
    case MAP_GEOJSON_UP_TO:
      return s2u_map_geojson_up_to(it->given, it->size, it->level, (size_t)it->most, it->out, it->room, &it->len,
                                   &it->outer, &it->fault);
    case MAP_WKB_UP_TO:
      return s2u_map_wkb_up_to(it->given, it->size, it->level, (size_t)it->most, it->out, it->room, &it->len,
                               &it->outer, &it->fault);
    case GEODESIC_GEOJSON:
      return s2u_geodesic_geojson(it->given, it->size, it->level, (size_t)it->most, it->out, it->room, &it->len,
                                  &it->outer, &it->fault);
    case GEODESIC_WKB:
      return s2u_geodesic_wkb(it->given, it->size, it->level, (size_t)it->most, it->out, it->room, &it->len,
                              &it->outer, &it->fault);
    default: return S2U_ARGUMENT;
  }
}

/* Both coverings of a text or of bytes, whose cells are put to `made`. A fault is put to `at`. */
CALL(jint, map)(JNIEnv* env, jclass of, jint call, jlong room, jbyteArray given, jint level, jlong most,
                jobjectArray made, jlongArray at) {
  (void)of;
  jbyte* bytes = (*env)->GetByteArrayElements(env, given, NULL);
  if (bytes == NULL) return S2U_MEMORY;
  mapping it = {.given = bytes, .size = (size_t)(*env)->GetArrayLength(env, given), .level = (uint32_t)level,
                .most = (uint64_t)most, .len = (size_t)room};
  int32_t status = S2U_ROOM;
  while (status == S2U_ROOM) {
    it.room = it.len;
    free(it.out);
    it.out = malloc(it.room * sizeof *it.out);
    status = it.out != NULL ? map_of(call, &it) : S2U_MEMORY;
  }
  (*env)->ReleaseByteArrayElements(env, given, bytes, JNI_ABORT);
  const s2u_cover_cells cells[] = {{it.out, it.outer}, {it.out != NULL ? it.out + it.outer : NULL, it.len - it.outer}};
  for (int k = 0; k < 2 && status == S2U_OK; k++) {
    jlongArray array = array_of(env, &cells[k]);
    if (array != NULL) (*env)->SetObjectArrayElement(env, made, k, array);
    else status = S2U_MEMORY;
  }
  const jlong fault[] = {(jlong)it.fault.name, (jlong)it.fault.byte, (jlong)it.fault.part, (jlong)it.fault.ring,
                         (jlong)it.fault.position};
  if (status == S2U_SHAPE) (*env)->SetLongArrayRegion(env, at, 0, 5, fault);
  free(it.out);
  return status;
}

/* ---- which zones have which places */

/* Zones, or 0 without memory. */
CALL(jlong, zones)(JNIEnv* env, jclass of) {
  (void)env, (void)of;
  s2u_join_zones* zones = malloc(sizeof *zones);
  if (zones != NULL) *zones = s2u_join_none();
  return (jlong)(uintptr_t)zones;
}

CALL(void, freeZones)(JNIEnv* env, jclass of, jlong at) {
  (void)env, (void)of;
  s2u_join_free((s2u_join_zones*)(uintptr_t)at);
  free((s2u_join_zones*)(uintptr_t)at);
}

/* Adds a shape, as `cover` takes it. A circle is no zone. */
CALL(jint, addZone)(JNIEnv* env, jclass of, jlong to, jint call, jarray given, jlongArray rings, jlongArray at) {
  (void)of;
  s2u_join_zones* zones = (s2u_join_zones*)(uintptr_t)to;
  covering it = {.size = 0};
  int32_t status = S2U_MEMORY;
  if (take_shape(env, call, given, rings, &it)) {
    const double* n = it.given;
    const s2u_cover_shape shape = {n, it.rings, it.count};
    if (call == COVER_WKB) status = s2u_join_add_wkb(zones, it.given, it.size, &it.fault);
    else if (call == COVER_GEOJSON) status = s2u_join_add_geojson(zones, it.given, it.size, &it.fault);
    else if (call == COVER_BOX) status = s2u_join_add_box(zones, n[0], n[1], n[2], n[3], &it.fault);
    else status = call == COVER ? s2u_join_add_shape(zones, &shape, &it.fault) : S2U_ARGUMENT;
  }
  give_shape_back(env, call, given, rings, &it, status, at);
  return status;
}

/* Puts the places of pairs, and their zones. Whether Java has memory for them. */
static int put_pairs(JNIEnv* env, jobjectArray made, const s2u_join_pair* pairs, size_t count) {
  for (jsize k = 0; k < 2; k++) {
    jintArray array = count <= INT32_MAX ? (*env)->NewIntArray(env, (jsize)count) : NULL;
    jint* to = array != NULL ? (*env)->GetPrimitiveArrayCritical(env, array, NULL) : NULL;
    if (to == NULL) return 0;
    for (size_t n = 0; n < count; n++) to[n] = (jint)(k == 0 ? pairs[n].point : pairs[n].zone);
    (*env)->ReleasePrimitiveArrayCritical(env, array, to, 0);
    (*env)->SetObjectArrayElement(env, made, k, array);
  }
  return 1;
}

/* The pairs of places and zones that have them. There are as many longitudes as latitudes. */
CALL(jint, pairs)(JNIEnv* env, jclass of, jlong at, jdoubleArray longitudes, jdoubleArray latitudes, jboolean borders,
                  jobjectArray made, jlongArray bad) {
  (void)of;
  s2u_cover_list pairs = {NULL, 0, 0, 0};
  size_t wrong = 0, count = (size_t)(*env)->GetArrayLength(env, longitudes);
  jdouble *x = (*env)->GetDoubleArrayElements(env, longitudes, NULL), *y = NULL;
  if (x != NULL) y = (*env)->GetDoubleArrayElements(env, latitudes, NULL);
  int32_t status = S2U_MEMORY;
  if (y != NULL) status = s2u_join_pairs_of((s2u_join_zones*)(uintptr_t)at, x, y, count, borders, &pairs, &wrong);
  if (y != NULL) (*env)->ReleaseDoubleArrayElements(env, latitudes, y, JNI_ABORT);
  if (x != NULL) (*env)->ReleaseDoubleArrayElements(env, longitudes, x, JNI_ABORT);
  if (status == S2U_OK && !put_pairs(env, made, (const s2u_join_pair*)(void*)pairs.at, pairs.count))
    status = S2U_MEMORY;
  free(pairs.at);
  if (status == S2U_ARGUMENT) put(env, bad, wrong);
  return status;
}

/* ---- what is around cells */

static int32_t around(jint call, const uint64_t* ids, size_t n, uint32_t level, s2u_cover_cells* cells) {
  switch (call) {
    case NEIGHBORS: return s2u_cover_neighbors(*ids, level, cells);
    case EXPANDED: return s2u_cover_expanded(ids, n, level, cells);
    case EDGE_NEIGHBORS: return cells->count = 4, s2u_geo_edge_neighbors(*ids, cells->ids);
    case VERTEX_NEIGHBORS: return s2u_geo_vertex_neighbors(*ids, level, cells->ids, &cells->count);
    default: return S2U_ARGUMENT;
  }
}

/* The cells around a cell or a union, in `made`. The last two calls have room for four. */
CALL(jint, around)(JNIEnv* env, jclass of, jint call, jlongArray cells, jint level, jobjectArray made) {
  (void)of;
  uint64_t four[4];
  int is_of_four = call == EDGE_NEIGHBORS || call == VERTEX_NEIGHBORS;
  s2u_cover_cells found = {is_of_four ? four : NULL, 0};
  jlong* ids = (*env)->GetLongArrayElements(env, cells, NULL);
  if (ids == NULL) return S2U_MEMORY;
  int32_t status = around(call, (const uint64_t*)ids, (size_t)(*env)->GetArrayLength(env, cells), (uint32_t)level,
                          &found);
  (*env)->ReleaseLongArrayElements(env, cells, ids, JNI_ABORT);
  jlongArray array = status == S2U_OK ? array_of(env, &found) : NULL;
  if (array != NULL) (*env)->SetObjectArrayElement(env, made, 0, array);
  else if (status == S2U_OK) status = S2U_MEMORY;
  if (!is_of_four) s2u_cover_free(&found);
  return status;
}

/* The west, south, east and north of a union; of no cell the south is more than the north. */
CALL(jint, bounds)(JNIEnv* env, jclass of, jlongArray cells, jdoubleArray sides) {
  (void)of;
  s2u_cover_bounds box;
  jlong* ids = (*env)->GetLongArrayElements(env, cells, NULL);
  if (ids == NULL) return S2U_MEMORY;
  int32_t status = s2u_cover_rect_bound((const uint64_t*)ids, (size_t)(*env)->GetArrayLength(env, cells), &box);
  (*env)->ReleaseLongArrayElements(env, cells, ids, JNI_ABORT);
  const jdouble numbers[] = {box.west, box.south, box.east, box.north};
  (*env)->SetDoubleArrayRegion(env, sides, 0, 4, numbers);
  return status;
}

/* In square kilometers. */
CALL(jint, area)(JNIEnv* env, jclass of, jlongArray cells, jdoubleArray one) {
  (void)of;
  jlong* ids = (*env)->GetLongArrayElements(env, cells, NULL);
  if (ids == NULL) return S2U_MEMORY;
  const jdouble area = s2u_geo_area((const uint64_t*)ids, (size_t)(*env)->GetArrayLength(env, cells));
  (*env)->ReleaseLongArrayElements(env, cells, ids, JNI_ABORT);
  (*env)->SetDoubleArrayRegion(env, one, 0, 1, &area);
  return S2U_OK;
}

static int32_t drawn(jint call, const uint64_t* ids, size_t n, s2u_geo_rings* rings) {
  switch (call) {
    case OUTLINE: return s2u_geo_outline(ids, n, rings);
    case BOUNDARY: return s2u_geo_boundary(ids, n, rings);
    default: return S2U_ARGUMENT;
  }
}

/* Puts an array of numbers, each a double or an int. Whether Java has memory for it. */
static int put_numbers(JNIEnv* env, jobjectArray made, jsize place, const void* numbers, size_t count, int is_double) {
  if (count > INT32_MAX) return 0;
  jsize n = (jsize)count;
  jarray array = is_double ? (jarray)(*env)->NewDoubleArray(env, n) : (jarray)(*env)->NewLongArray(env, n);
  if (array == NULL) return 0;
  if (is_double) (*env)->SetDoubleArrayRegion(env, array, 0, n, numbers);
  else (*env)->SetLongArrayRegion(env, array, 0, n, numbers);
  (*env)->SetObjectArrayElement(env, made, place, array);
  return 1;
}

/* The positions of an outline or a boundary, and the ends of its rings and polygons. */
CALL(jint, draw)(JNIEnv* env, jclass of, jint call, jlongArray cells, jobjectArray made) {
  (void)of;
  s2u_geo_rings rings = {NULL, NULL, NULL, 0, 0};
  jlong* ids = (*env)->GetLongArrayElements(env, cells, NULL);
  if (ids == NULL) return S2U_MEMORY;
  int32_t status = drawn(call, (const uint64_t*)ids, (size_t)(*env)->GetArrayLength(env, cells), &rings);
  (*env)->ReleaseLongArrayElements(env, cells, ids, JNI_ABORT);
  if (status != S2U_OK) return status;
  size_t positions = rings.rings != 0 ? rings.ring_ends[rings.rings - 1] : 0;
  int is_put = put_numbers(env, made, 0, rings.positions, 2 * positions, 1) &&
               put_numbers(env, made, 1, rings.ring_ends, rings.rings, 0) &&
               put_numbers(env, made, 2, rings.polygon_ends, rings.polygons, 0);
  s2u_geo_free(&rings);
  return is_put ? S2U_OK : S2U_MEMORY;
}
