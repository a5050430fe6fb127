/* Coverings of shapes in WKB, regions as WKB, and what is around cells and regions, for PostgreSQL: functions of the
 * extension s2union_geo. docs/GEO.md says what each does. What the headers take of malloc is given back before an
 * error. */
#include "postgres.h"

#include <math.h>

#include "access/htup_details.h"
#include "catalog/pg_type.h"
#include "fmgr.h"
#include "funcapi.h"
#include "lib/stringinfo.h"
#include "utils/array.h"
#include "value.h"

#define S2U_IS_CANCELLED() is_cancelled()
#pragma GCC visibility push(hidden)
#include <s2union_join.h>
#include <s2union_outline.h>
#pragma GCC visibility pop

static void must_be_covered(int32_t status, const s2u_cover_fault* fault) {
  const char* text = s2u_cover_status_text(status);
  if (status == S2U_OK) return;
  if (status == S2U_MEMORY) must_be_ok(status);
  if (status == S2U_COVER_OPTION)
    ereport(ERROR, errcode(ERRCODE_INVALID_PARAMETER_VALUE),
            errmsg("s2union: out of range: a number of cells is from 0 to %d, and a level from 0 to 30",
                   S2U_COVER_MOST_CELLS));
  if (status <= S2U_COVER_WKB)
    ereport(ERROR, errcode(ERRCODE_INVALID_BINARY_REPRESENTATION),
            errmsg("s2union: %s: at byte " UINT64_FORMAT, text, fault->position));
  ereport(ERROR, errcode(ERRCODE_INVALID_PARAMETER_VALUE),
          errmsg("s2union: %s: ring " UINT64_FORMAT ", position " UINT64_FORMAT, text, fault->ring, fault->position));
}

/* Covers the shape of the first argument, with the numbers of the others: the outer cells, the inner ones, or both. */
static void cover(FunctionCallInfo fcinfo, s2u_cover_cells* outer, s2u_cover_cells* inner) {
  bytea* wkb = PG_GETARG_BYTEA_PP(0);
  const s2u_cover_options options = {(uint64_t)PG_GETARG_INT32(1), 0, (uint32_t)PG_GETARG_INT32(2), S2U_COVER_MAP, 0};
  s2u_cover_fault fault;
  CHECK_FOR_INTERRUPTS();
  int32_t status = s2u_cover_wkb(FILE_ARGUMENT(wkb), &options, outer, inner, &fault);
  if (status == S2U_OK) return;
  if (outer) s2u_cover_free(outer);
  if (inner) s2u_cover_free(inner);
  must_be_covered(status, &fault);
}

/* The value of cells, which are given back also if there is no memory for it. */
static Datum value_of_cells(s2u_cover_cells* cells) {
  S2Union* volatile value = NULL;
  PG_TRY();
  { value = value_with(cells->ids, cells->count); }
  PG_FINALLY();
  { s2u_cover_free(cells); }
  PG_END_TRY();
  return PointerGetDatum(value);
}

PG_FUNCTION_INFO_V1(s2_covering);
Datum s2_covering(PG_FUNCTION_ARGS) {
  s2u_cover_cells cells = {NULL, 0};
  cover(fcinfo, &cells, NULL);
  return value_of_cells(&cells);
}

PG_FUNCTION_INFO_V1(s2_interior);
Datum s2_interior(PG_FUNCTION_ARGS) {
  s2u_cover_cells cells = {NULL, 0};
  cover(fcinfo, NULL, &cells);
  return value_of_cells(&cells);
}

PG_FUNCTION_INFO_V1(s2_coverings);
Datum s2_coverings(PG_FUNCTION_ARGS) {
  s2u_cover_cells outer = {NULL, 0}, inner = {NULL, 0};
  TupleDesc pair;
  Datum values[2];
  bool nulls[2] = {false, false};
  if (get_call_result_type(fcinfo, NULL, &pair) != TYPEFUNC_COMPOSITE) elog(ERROR, "s2union: not a pair of regions");
  pair = BlessTupleDesc(pair);
  cover(fcinfo, &outer, &inner);
  PG_TRY();
  { values[0] = value_of_cells(&outer); }
  PG_CATCH();
  {
    s2u_cover_free(&inner);
    PG_RE_THROW();
  }
  PG_END_TRY();
  values[1] = value_of_cells(&inner);
  PG_RETURN_DATUM(HeapTupleGetDatum(heap_form_tuple(pair, values, nulls)));
}

/* ---- exact joins: whether a shape has a place, and its clips */

PG_FUNCTION_INFO_V1(s2_covers);
Datum s2_covers(PG_FUNCTION_ARGS) {
  bytea* wkb = PG_GETARG_BYTEA_PP(0);
  double longitude = degrees_of(PG_GETARG_FLOAT8(1), S2U_GEO_MOST_LONGITUDE, "longitude");
  double latitude = degrees_of(PG_GETARG_FLOAT8(2), S2U_GEO_MOST_LATITUDE, "latitude");
  s2u_cover_fault fault;
  int covers;
  must_be_covered(s2u_join_covers(FILE_ARGUMENT(wkb), longitude, latitude, &covers, &fault), &fault);
  PG_RETURN_BOOL(covers);
}

PG_FUNCTION_INFO_V1(s2_clip);
Datum s2_clip(PG_FUNCTION_ARGS) {
  bytea* wkb = PG_GETARG_BYTEA_PP(0);
  s2u_cover_fault fault;
  s2u_join_bytes clip;
  bytea* value = NULL;
  CHECK_FOR_INTERRUPTS();
  int32_t status = s2u_join_clip(FILE_ARGUMENT(wkb), (uint64_t)PG_GETARG_INT64(1), &clip, &fault);
  if (status == S2U_NO_CELL) refuse_number(PG_GETARG_INT64(1));
  must_be_covered(status, &fault);
  if (clip.size <= MaxAllocSize - VARHDRSZ) value = palloc_extended(VARHDRSZ + clip.size, MCXT_ALLOC_NO_OOM);
  if (value) {
    SET_VARSIZE(value, VARHDRSZ + clip.size);
    memcpy(VARDATA(value), clip.at, clip.size);
  }
  free(clip.at);
  if (!value) must_be_covered(S2U_MEMORY, &fault);
  PG_RETURN_BYTEA_P(value);
}

/* ---- regions as WKB, in the machine's order of bytes */

#ifdef WORDS_BIGENDIAN
#define WKB_ORDER 0
#else
#define WKB_ORDER 1
#endif

static void put_count(StringInfo wkb, size_t count) {
  uint32_t number = (uint32_t)count;
  void* bytes = &number;
  appendBinaryStringInfo(wkb, bytes, sizeof number);
}

static void put_head(StringInfo wkb, uint32_t type, size_t parts) {
  appendStringInfoCharMacro(wkb, WKB_ORDER);
  put_count(wkb, type);
  put_count(wkb, parts);
}

static void put_position(StringInfo wkb, const double* position) {
  appendBinaryStringInfo(wkb, (const char*)position, 2 * sizeof *position);
}

enum { WKB_POLYGON = 3, WKB_MULTIPOLYGON = 6 };

static void begin_polygons(StringInfo wkb, size_t polygons) {
  initStringInfo(wkb);
  put_count(wkb, 0); /* the head of the value, which is finished last */
  put_head(wkb, WKB_MULTIPOLYGON, polygons);
}

static Datum finished_wkb(StringInfo wkb) {
  SET_VARSIZE(wkb->data, wkb->len);
  return PointerGetDatum(wkb->data);
}

static void put_rings(StringInfo wkb, const s2u_geo_rings* rings) {
  size_t position = 0, ring = 0;
  begin_polygons(wkb, rings->polygons);
  for (size_t polygon = 0; polygon < rings->polygons; polygon++) {
    put_head(wkb, WKB_POLYGON, rings->polygon_ends[polygon] - ring);
    for (; ring < rings->polygon_ends[polygon]; ring++) {
      CHECK_FOR_INTERRUPTS();
      put_count(wkb, rings->ring_ends[ring] - position);
      for (; position < rings->ring_ends[ring]; position++) put_position(wkb, rings->positions + 2 * position);
    }
  }
}

PG_FUNCTION_INFO_V1(s2_outline);
Datum s2_outline(PG_FUNCTION_ARGS) {
  S2Union* region = ARGUMENT(0);
  s2u_geo_rings rings;
  StringInfoData wkb;
  must_be_ok(s2u_geo_outline(LIST(region), &rings));
  PG_TRY();
  { put_rings(&wkb, &rings); }
  PG_FINALLY();
  { s2u_geo_free(&rings); }
  PG_END_TRY();
  return finished_wkb(&wkb);
}

#define BEFORE(corner) ((corner) == 0 ? 3 : (corner) - 1)
#define AFTER(corner) ((corner) == 3 ? 0 : (corner) + 1)

/* The ring of a square of a face, each corner by the shorter way from the first. A pole has the longitudes of the
 * corners before and after it. */
static void put_square(StringInfo wkb, uint32_t face, double i, double j, double size) {
  double corners[4][2], ring[7][2];
  int count = 0;
  for (int k = 0; k < 4; k++)
    s2u_geo_place(face, i + (k == 1 || k == 2 ? size : 0), j + (k > 1 ? size : 0), &corners[k][0], &corners[k][1]);
  for (int k = 0; k < 4; k++) {
    bool is_pole = fabs(corners[k][1]) == 90;
    for (int side = 0; side <= is_pole; side++, count++) {
      ring[count][0] = corners[!is_pole ? k : side ? AFTER(k) : BEFORE(k)][0];
      ring[count][1] = corners[k][1];
    }
  }
  double west = ring[0][0];
  for (int k = 1; k < count; k++) {
    ring[k][0] += 360 * nearbyint((ring[0][0] - ring[k][0]) / 360);
    west = fmin(west, ring[k][0]);
  }
  for (int k = 0; west >= 180 && k < count; k++) ring[k][0] -= 360; /* it begins at the date line */
  memcpy(ring[count++], ring[0], sizeof ring[0]);
  put_head(wkb, WKB_POLYGON, 1);
  put_count(wkb, (size_t)count);
  for (int k = 0; k < count; k++) put_position(wkb, ring[k]);
}

PG_FUNCTION_INFO_V1(s2_squares);
Datum s2_squares(PG_FUNCTION_ARGS) {
  S2Union* region = ARGUMENT(0);
  size_t n = count_of(region), faces = 0;
  StringInfoData wkb;
  s2u_square square;
  for (size_t k = 0; k < n && faces <= 6; k++) faces += s2u_level(region->cells[k]) == 0;
  begin_polygons(&wkb, n + 3 * faces);
  for (size_t k = 0; k < n; k++) {
    CHECK_FOR_INTERRUPTS();
    s2u_square_of(region->cells[k], &square);
    bool is_face = square.size == S2U_GEO_SIDE;
    double size = is_face ? S2U_GEO_SIDE / 2 : square.size;
    for (int child = 0; child <= (is_face ? 3 : 0); child++)
      put_square(&wkb, square.face, square.i + (child == 2 || child == 3 ? size : 0),
                 square.j + (child == 1 || child == 2 ? size : 0), size);
  }
  return finished_wkb(&wkb);
}

/* ---- the cells around cells, and the box around a region */

/* The value of cells that were made of an argument and a level, or the error. */
static Datum value_around(FunctionCallInfo fcinfo, int32_t status, s2u_cover_cells* cells) {
  if (status == S2U_OK) return value_of_cells(cells);
  s2u_cover_free(cells);
  must_take_numbers(status, fcinfo, 1);
  return (Datum)0;
}

PG_FUNCTION_INFO_V1(s2_neighbors);
Datum s2_neighbors(PG_FUNCTION_ARGS) {
  uint64_t cell = cell_argument(fcinfo, 0);
  int32 own = s2u_level(cell), level = PG_NARGS() > 1 ? PG_GETARG_INT32(1) : own;
  s2u_cover_cells cells;
  if (level >= 0 && level < own) PG_RETURN_NULL();
  return value_around(fcinfo, s2u_cover_neighbors(cell, (uint32_t)level, &cells), &cells);
}

PG_FUNCTION_INFO_V1(s2_expanded);
Datum s2_expanded(PG_FUNCTION_ARGS) {
  S2Union* region = ARGUMENT(0);
  s2u_cover_cells cells;
  CHECK_FOR_INTERRUPTS();
  return value_around(fcinfo, s2u_cover_expanded(LIST(region), (uint32_t)PG_GETARG_INT32(1), &cells), &cells);
}

PG_FUNCTION_INFO_V1(s2_bounds);
Datum s2_bounds(PG_FUNCTION_ARGS) {
  S2Union* region = ARGUMENT(0);
  s2u_cover_bounds box;
  CHECK_FOR_INTERRUPTS();
  must_be_ok(s2u_cover_rect_bound(LIST(region), &box));
  if (box.south > box.north) PG_RETURN_NULL();
  Datum sides[] = {Float8GetDatum(box.west), Float8GetDatum(box.south), Float8GetDatum(box.east),
                   Float8GetDatum(box.north)};
  PG_RETURN_ARRAYTYPE_P(construct_array(sides, lengthof(sides), FLOAT8OID, sizeof(float8), FLOAT8PASSBYVAL,
                                        TYPALIGN_DOUBLE));
}
