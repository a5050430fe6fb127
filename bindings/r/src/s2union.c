/* The library by .Call. An s2_cell of R is a double that holds the 64 bits of a cell, so the memory of a vector of them
 * is the library's list. */
#if defined(__clang__) /* no multiplication is joined with an addition, so each machine has the same cells */
#pragma STDC FP_CONTRACT OFF
#elif defined(__GNUC__)
#pragma GCC optimize("fp-contract=off")
#endif
#define R_NO_REMAP
#include <limits.h>
#include <stdlib.h>
#include <string.h>
#include <Rinternals.h>
#include <R_ext/Rdynload.h>
#include <s2union_join.h>

typedef struct {
  const uint64_t* ids;
  size_t n;
} list;

static list list_of(SEXP x) { /* R gives an empty vector an address that isn't aligned */
  size_t n = (size_t)XLENGTH(x);
  return (list){n ? (const uint64_t*)REAL(x) : NULL, n};
}
typedef struct {
  const uint8_t* at;
  size_t n;
} raw;
static raw raw_of(SEXP bytes) {
  size_t n = (size_t)XLENGTH(bytes);
  return (raw){n ? RAW(bytes) : NULL, n};
}
static uint64_t* room_for(size_t n) { return (uint64_t*)R_alloc(n, sizeof(uint64_t)); } /* until the .Call ends */
static SEXP vector_of(const uint64_t* ids, size_t n) {
  SEXP made = Rf_allocVector(REALSXP, (R_xlen_t)n);
  if (n) memcpy(REAL(made), ids, n * sizeof *ids);
  return made;
}

static SEXP raw_in(const uint8_t* bytes, size_t n) {
  SEXP made = Rf_allocVector(RAWSXP, (R_xlen_t)n);
  if (n) memcpy(RAW(made), bytes, n);
  return made;
}
static SEXP text_in(const char* text, size_t n) { return Rf_ScalarString(Rf_mkCharLen(n ? text : "", (int)n)); }
static SEXP lists_in(const uint64_t* ids, size_t first, size_t n) { /* two lists that follow each other */
  SEXP made = PROTECT(Rf_allocVector(VECSXP, 2));
  SET_VECTOR_ELT(made, 0, vector_of(ids, first));
  SET_VECTOR_ELT(made, 1, vector_of(ids + first, n - first));
  UNPROTECT(1);
  return made;
}

#define NAMED(status) [-(status)] = #status
static const char* const names[] = {NAMED(S2U_MEMORY), NAMED(S2U_NO_CELL), NAMED(S2U_ARGUMENT), NAMED(S2U_MANY),
  NAMED(S2U_FILE_SHORT), NAMED(S2U_FILE_VERSION), NAMED(S2U_FILE_TRAILING), NAMED(S2U_FILE_CELL), NAMED(S2U_SHAPE),
  NAMED(S2U_COVER_NUMBER), NAMED(S2U_COVER_FEW), NAMED(S2U_COVER_OPEN), NAMED(S2U_COVER_PIECES),
  NAMED(S2U_COVER_OUTSIDE), NAMED(S2U_COVER_OPPOSITE), NAMED(S2U_COVER_OPTION), NAMED(S2U_COVER_WKB),
  NAMED(S2U_COVER_TYPE), NAMED(S2U_COVER_SRID), NAMED(S2U_COVER_DEEP)};
/* Ends the .Call by an error, which a function of R makes of its name, its text and numbers. */
static void end_by(const char* function, const char* name, const char* text, const double* numbers, R_xlen_t n) {
  SEXP words = PROTECT(Rf_allocVector(STRSXP, 2)), at = PROTECT(Rf_allocVector(REALSXP, n));
  SET_STRING_ELT(words, 0, Rf_mkChar(name ? name : "S2U_ERROR"));
  SET_STRING_ELT(words, 1, Rf_mkChar(text));
  memcpy(REAL(at), numbers, (size_t)n * sizeof *numbers);
  SEXP own = PROTECT(R_FindNamespace(PROTECT(Rf_mkString("s2union"))));
  Rf_eval(PROTECT(Rf_lang3(Rf_install(function), words, at)), own);
  UNPROTECT(5);
}
/* Ends the .Call by the error of a status, at a place and in a ring, from 1 on, or NA. */
static void refuse(int32_t status, double place, double ring) {
  const char* name = status > -(int32_t)(sizeof names / sizeof *names) ? names[-status] : NULL;
  end_by("refuse", name, s2u_cover_status_text(status), (double[]){place, ring}, 2);
}
static void check(int32_t status, size_t place) {
  if (status < 0) refuse(status, status == S2U_NO_CELL ? (double)place + 1 : NA_REAL, NA_REAL);
}

static list region(SEXP x) { /* the vector itself if it is a union, or else a copy that is normalized */
  list it = list_of(x);
  if (s2u_is_union(it.ids, it.n)) return it;
  uint64_t* own = memcpy(room_for(it.n), it.ids, it.n * sizeof *own);
  int32_t status = s2u_normalise(own, it.n, &it.n);
  check(status, it.n);
  return (list){own, it.n};
}
static SEXP r_normalise(SEXP x) {
  list it = region(x);
  return vector_of(it.ids, it.n);
}

static raw file_of(SEXP bytes) { /* where the file lies, if it is that of a union, or else a copy that is */
  raw it = raw_of(bytes);
  if (s2u_file_check(it.at, it.n) == 1) return it;
  size_t room = S2U_MOST_IN_FILE(it.n), len;
  uint64_t* ids = room_for(room);
  check(s2u_decode(it.at, it.n, ids, room, &len), 0);
  uint8_t* own = (uint8_t*)R_alloc(S2U_FILE_SIZE(len), 1);
  check(s2u_encode(ids, len, own, S2U_FILE_SIZE(len), &room), 0);
  return (raw){own, room};
}

static SEXP answer(int32_t found) {
  check(found, 0);
  return Rf_ScalarLogical(found);
}
static uint64_t cell_in(SEXP cell) {
  uint64_t id;
  memcpy(&id, REAL(cell), sizeof id);
  check(s2u_level(id), 0);
  return id;
}
static uint32_t count_of(double number) { /* what is none, or too large, is out of the range of each option */
  return number >= 0 && number <= UINT_MAX && number == floor(number) ? (uint32_t)number : UINT_MAX;
}
static uint32_t count_in(SEXP number) { return count_of(REAL(number)[0]); }
static uint64_t whole_in(SEXP number) { /* a bound: nothing is more than the greatest */
  double given = REAL(number)[0];
  if (!(given >= 0 && (given == floor(given)))) check(S2U_ARGUMENT, 0);
  return given < 0x1p64 ? (uint64_t)given : UINT64_MAX;
}

/* What a call makes, of which more than `most` elements are an error: `room` is tried, and then as much as it says. */
#define FILL(kind, first, most, call) \
  const uint64_t limit = most; \
  size_t room = first, len = 0; \
  kind* out = (kind*)R_alloc(room, sizeof *out); \
  int32_t status = call; \
  if ((status == S2U_OK || status == S2U_ROOM) && len > limit) status = S2U_MANY; \
  if (status == S2U_ROOM) out = (kind*)R_alloc(room = len, sizeof *out), status = call

/* Many questions to a list or to the bytes of a file. NA is the answer for NA, and no NA is a cell. */
#define QUESTIONS(name) int32_t name(const void* of, size_t n, const uint64_t* cells, size_t m, uint8_t* answers, \
                                     size_t room, size_t* bad)
#define ASKS(name) static QUESTIONS(ask_##name) { return s2u_##name(of, n, cells, m, answers, room, bad); }
static SEXP answers_of(QUESTIONS((*call)), const void* of, size_t n, SEXP y) {
  list cells = list_of(y);
  uint8_t* answers = (uint8_t*)R_alloc(cells.n, 1);
  size_t bad;
  int32_t status = call(of, n, cells.ids, cells.n, answers, cells.n, &bad);
  int has_missing = status == S2U_NO_CELL && R_IsNA(REAL(y)[bad]);
  if (has_missing) {
    uint64_t* known = room_for(cells.n);
    for (size_t k = 0; k < cells.n; k++) known[k] = R_IsNA(REAL(y)[k]) ? s2u_from_face_ij(0, 0, 0) : cells.ids[k];
    status = call(of, n, known, cells.n, answers, cells.n, &bad);
  }
  check(status, bad);
  SEXP out = Rf_allocVector(LGLSXP, (R_xlen_t)cells.n);
  for (size_t k = 0; k < cells.n; k++)
    LOGICAL(out)[k] = has_missing && R_IsNA(REAL(y)[k]) ? NA_LOGICAL : answers[k];
  return out;
}

static const char* name_of_fault(size_t fault); /* as calls.h has it */
static void check_shape(int32_t status, const s2u_shape_fault* it, int is_text) {
  if (status != S2U_SHAPE) {
    check(status, 0);
    return;
  }
  double at[] = {(double)it->byte + 1, (double)it->part + 1, (double)it->ring + 1, (double)it->position + 1};
  if (is_text) at[0] = NA_REAL;
  end_by("refuse_shape", name_of_fault(it->name), s2u_fault_text(it->name), at, 4);
}
#include "calls.h"

/* ---- leaves of places, and coverings */

static SEXP r_leaf(SEXP longitude, SEXP latitude) { /* two vectors of one length */
  SEXP made = PROTECT(Rf_allocVector(REALSXP, XLENGTH(longitude)));
  const double *x = REAL(longitude), *y = REAL(latitude);
  for (R_xlen_t k = 0; k < XLENGTH(longitude); k++) {
    uint64_t leaf = s2u_geo_leaf(x[k], y[k]);
    int is_missing = ISNAN(x[k]) || ISNAN(y[k]);
    if (!leaf && !is_missing) refuse(S2U_COVER_NUMBER, (double)k + 1, NA_REAL);
    if (is_missing) REAL(made)[k] = NA_REAL;
    else memcpy(REAL(made) + k, &leaf, sizeof leaf);
  }
  UNPROTECT(1);
  return made;
}

static s2u_cover_options options_of(SEXP numbers) { /* max_cells, min_level, max_level, margin, edges, within or NA */
  const double *at = REAL(numbers), within = at[5];
  s2u_cover_options it = {count_of(at[0]), count_of(at[1]), count_of(at[2]), count_of(at[4]), at[3]};
  int is_kept = ISNA(within) || it.max_level > 30 || s2u_cover_keep_within(&it, within) == S2U_OK;
  if (!is_kept) it.margin = NAN; /* refused as each other number of meters */
  return it;
}

typedef struct {
  s2u_cover_cells outer, inner;
} both;
static s2u_cover_cells* if_wanted(s2u_cover_cells* cells, SEXP wanted, int which) {
  *cells = (s2u_cover_cells){NULL, 0};
  return LOGICAL(wanted)[which] ? cells : NULL;
}
static SEXP lists_of(void* of) {
  const both* it = (const both*)of;
  SEXP made = PROTECT(Rf_allocVector(VECSXP, 2));
  SET_VECTOR_ELT(made, 0, vector_of(it->outer.ids, it->outer.count));
  SET_VECTOR_ELT(made, 1, vector_of(it->inner.ids, it->inner.count));
  UNPROTECT(1);
  return made;
}
static void let_go(void* of) {
  both* it = (both*)of;
  s2u_cover_free(&it->outer);
  s2u_cover_free(&it->inner);
}
static void refuse_shape(int32_t status, const s2u_cover_fault* fault) {
  int is_of_bytes = status <= S2U_COVER_WKB, is_nowhere = status == S2U_COVER_OPTION || status > S2U_COVER_NUMBER;
  refuse(status, is_nowhere ? NA_REAL : (double)fault->position + 1,
         is_nowhere || is_of_bytes ? NA_REAL : (double)fault->ring + 1);
}
/* The lists of an answer, or its error. Its memory goes back, also if R has none for them. */
static SEXP given(int32_t status, both* it, const s2u_cover_fault* fault) {
  if (status == S2U_OK) return R_ExecWithCleanup(lists_of, it, let_go, it);
  let_go(it);
  refuse_shape(status, fault);
  return R_NilValue;
}
static SEXP r_cover_wkb(SEXP bytes, SEXP numbers, SEXP wanted) {
  s2u_cover_options options = options_of(numbers);
  s2u_cover_fault fault;
  both it;
  size_t n = (size_t)XLENGTH(bytes);
  int32_t status = s2u_cover_wkb(n ? RAW(bytes) : NULL, n, &options, if_wanted(&it.outer, wanted, 0),
                                 if_wanted(&it.inner, wanted, 1), &fault);
  return given(status, &it, &fault);
}
static s2u_cover_shape shape_of(SEXP positions, SEXP ends, SEXP polygons) {
  size_t count = (size_t)XLENGTH(ends);
  s2u_cover_ring* rings = (s2u_cover_ring*)R_alloc(count, sizeof *rings);
  for (size_t k = 0; k < count; k++)
    rings[k] = (s2u_cover_ring){(uint64_t)REAL(ends)[k], (uint64_t)REAL(polygons)[k]};
  return (s2u_cover_shape){REAL(positions), rings, count};
}
static SEXP r_cover_rings(SEXP positions, SEXP ends, SEXP polygons, SEXP numbers, SEXP wanted) {
  s2u_cover_shape shape = shape_of(positions, ends, polygons);
  s2u_cover_options options = options_of(numbers);
  s2u_cover_fault fault;
  both it;
  int32_t status = s2u_cover(&shape, &options, if_wanted(&it.outer, wanted, 0), if_wanted(&it.inner, wanted, 1),
                             &fault);
  return given(status, &it, &fault);
}

/* ---- which zones have which places: zones are an external pointer */

static void free_zones(SEXP at) {
  s2u_join_zones* zones = (s2u_join_zones*)R_ExternalPtrAddr(at);
  if (zones) s2u_join_free(zones);
  free(zones);
  R_ClearExternalPtr(at);
}
static SEXP r_zones(void) {
  SEXP at = PROTECT(R_MakeExternalPtr(NULL, R_NilValue, R_NilValue));
  R_RegisterCFinalizerEx(at, free_zones, TRUE);
  s2u_join_zones* zones = (s2u_join_zones*)malloc(sizeof *zones);
  check(zones ? S2U_OK : S2U_MEMORY, 0);
  *zones = s2u_join_none();
  R_SetExternalPtrAddr(at, zones);
  UNPROTECT(1);
  return at;
}
static s2u_join_zones* zones_of(SEXP at) { /* of a session that was saved there are none */
  s2u_join_zones* zones = TYPEOF(at) == EXTPTRSXP ? (s2u_join_zones*)R_ExternalPtrAddr(at) : NULL;
  if (!zones) Rf_error("these zones are gone");
  return zones;
}
static SEXP added(int32_t status, const s2u_cover_fault* fault) {
  if (status != S2U_OK) refuse_shape(status, fault);
  return R_NilValue;
}
static SEXP r_add_wkb(SEXP zones, SEXP bytes) {
  s2u_cover_fault fault;
  size_t n = (size_t)XLENGTH(bytes);
  return added(s2u_join_add_wkb(zones_of(zones), n ? RAW(bytes) : NULL, n, &fault), &fault);
}
static SEXP r_add_rings(SEXP zones, SEXP positions, SEXP ends, SEXP polygons) {
  s2u_cover_shape shape = shape_of(positions, ends, polygons);
  s2u_cover_fault fault;
  return added(s2u_join_add_shape(zones_of(zones), &shape, &fault), &fault);
}
static SEXP numbers_of(void* of) { /* of places and of zones, from 1 on */
  const s2u_cover_list* list = (const s2u_cover_list*)of;
  const s2u_join_pair* pairs = (const s2u_join_pair*)(void*)list->at;
  SEXP made = PROTECT(Rf_allocVector(VECSXP, 2));
  for (int which = 0; which < 2; which++) {
    SEXP numbers = Rf_allocVector(REALSXP, (R_xlen_t)list->count);
    SET_VECTOR_ELT(made, which, numbers);
    for (size_t k = 0; k < list->count; k++) REAL(numbers)[k] = 1.0 + (double)(which ? pairs[k].zone : pairs[k].point);
  }
  UNPROTECT(1);
  return made;
}
static void free_list(void* of) { free(((s2u_cover_list*)of)->at); }
static SEXP r_pairs(SEXP zones, SEXP longitude, SEXP latitude, SEXP borders) { /* places in two vectors of one length */
  s2u_cover_list pairs;
  size_t wrong, count = (size_t)XLENGTH(longitude);
  int32_t status = s2u_join_pairs_of(zones_of(zones), count ? REAL(longitude) : NULL, count ? REAL(latitude) : NULL,
                                     count, LOGICAL(borders)[0] == TRUE, &pairs, &wrong);
  if (status == S2U_OK) return R_ExecWithCleanup(numbers_of, &pairs, free_list, &pairs);
  free_list(&pairs);
  refuse(status == S2U_ARGUMENT ? S2U_COVER_NUMBER : status, status == S2U_ARGUMENT ? (double)wrong + 1 : NA_REAL,
         NA_REAL);
  return R_NilValue;
}

/* ---- what is around */

static SEXP vector_in(void* of) {
  const both* it = (const both*)of;
  return vector_of(it->outer.ids, it->outer.count);
}
static SEXP found(int32_t status, both* it) {
  if (status == S2U_OK) return R_ExecWithCleanup(vector_in, it, let_go, it);
  let_go(it);
  check(status, 0);
  return R_NilValue;
}
static SEXP r_neighbors(SEXP cell, SEXP level) { /* of its own level, if that is NA */
  uint64_t id;
  both it = {{NULL, 0}, {NULL, 0}};
  memcpy(&id, REAL(cell), sizeof id);
  uint32_t of = ISNA(REAL(level)[0]) ? (uint32_t)s2u_level(id) : count_of(REAL(level)[0]);
  return found(s2u_cover_neighbors(id, of, &it.outer), &it);
}
static SEXP r_expanded(SEXP x, SEXP level) {
  list whole = region(x);
  both it = {{NULL, 0}, {NULL, 0}};
  return found(s2u_cover_expanded(whole.ids, whole.n, count_of(REAL(level)[0]), &it.outer), &it);
}
static SEXP r_bounds(SEXP x) { /* west, south, east, north; of no cell the south is more than the north */
  list whole = region(x);
  s2u_cover_bounds box;
  check(s2u_cover_rect_bound(whole.ids, whole.n, &box), 0);
  SEXP sides = Rf_allocVector(REALSXP, 4);
  REAL(sides)[0] = box.west, REAL(sides)[1] = box.south, REAL(sides)[2] = box.east, REAL(sides)[3] = box.north;
  return sides;
}

static SEXP r_area(SEXP x) {
  list whole = region(x);
  return Rf_ScalarReal(s2u_geo_area(whole.ids, whole.n));
}

#define CALL(name, arguments) {#name, (DL_FUNC)r_##name, arguments}
static const R_CallMethodDef calls[] = {MADE_CALLS, CALL(leaf, 2), CALL(cover_wkb, 3), CALL(cover_rings, 5),
  CALL(zones, 0), CALL(add_wkb, 2), CALL(add_rings, 4), CALL(pairs, 4),
  CALL(neighbors, 2), CALL(expanded, 2), CALL(bounds, 1), CALL(area, 1), {NULL, NULL, 0}};
void R_init_s2union(DllInfo* library) {
  R_registerRoutines(library, NULL, calls, NULL, NULL);
  R_useDynamicSymbols(library, FALSE);
}
