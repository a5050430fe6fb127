/* Points in degrees for unions of S2 cells in PostgreSQL: the functions of the extension s2union_geo. docs/GEO.md says
 * what each does. */
#include "postgres.h"

#include <math.h>

#include "fmgr.h"
#include "utils/geo_decls.h"
#include "value.h"

#pragma GCC visibility push(hidden)
#include <s2union_geo.h>
#pragma GCC visibility pop

double degrees_of(double number, double most, const char* what) {
  if (!(fabs(number) <= most)) /* nor is it NaN */
    ereport(ERROR, errcode(ERRCODE_NUMERIC_VALUE_OUT_OF_RANGE),
            errmsg("s2union: a %s is a number from -%g to %g: %g", what, most, most, number),
            errhint("The longitude comes first."));
  return number;
}

PG_FUNCTION_INFO_V1(s2_leaf_at);
Datum s2_leaf_at(PG_FUNCTION_ARGS) {
  double longitude = degrees_of(PG_GETARG_FLOAT8(0), S2U_GEO_MOST_LONGITUDE, "longitude");
  double latitude = degrees_of(PG_GETARG_FLOAT8(1), S2U_GEO_MOST_LATITUDE, "latitude");
  PG_RETURN_INT64((int64)s2u_geo_leaf(longitude, latitude));
}

static void must_be_cell(int32_t status, int64 cell) {
  if (status != S2U_OK)
    ereport(ERROR, errcode(ERRCODE_INVALID_PARAMETER_VALUE), errmsg("s2union: not a cell: " INT64_FORMAT, cell));
}

static void middle_of_cell(int64 cell, double* longitude, double* latitude) {
  must_be_cell(s2u_geo_middle((uint64_t)cell, longitude, latitude), cell);
}

PG_FUNCTION_INFO_V1(s2_longitude);
Datum s2_longitude(PG_FUNCTION_ARGS) {
  double longitude, latitude;
  middle_of_cell(PG_GETARG_INT64(0), &longitude, &latitude);
  PG_RETURN_FLOAT8(longitude);
}

PG_FUNCTION_INFO_V1(s2_latitude);
Datum s2_latitude(PG_FUNCTION_ARGS) {
  double longitude, latitude;
  middle_of_cell(PG_GETARG_INT64(0), &longitude, &latitude);
  PG_RETURN_FLOAT8(latitude);
}

/* The sum of s2u_geo_area, which is cancelled between two cells. */
PG_FUNCTION_INFO_V1(s2_area);
Datum s2_area(PG_FUNCTION_ARGS) {
  S2Union* region = ARGUMENT(0);
  size_t n = count_of(region);
  double sum = 0;
  for (size_t k = 0; k < n; k++) {
    CHECK_FOR_INTERRUPTS();
    sum += s2u_geo_area_of_cell(region->cells[k]);
  }
  PG_RETURN_FLOAT8(sum * S2U_GEO_EARTH * S2U_GEO_EARTH);
}

PG_FUNCTION_INFO_V1(s2_box);
Datum s2_box(PG_FUNCTION_ARGS) {
  int64 cell = PG_GETARG_INT64(0);
  s2u_geo_box it;
  BOX* box = palloc(sizeof *box);
  must_be_cell(s2u_geo_box_of((uint64_t)cell, &it), cell);
  *box = (BOX){.high = {it.east, it.north}, .low = {it.west, it.south}};
  PG_RETURN_BOX_P(box);
}
