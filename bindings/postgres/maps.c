/* Coverings of polygons as they are written, in WKB or in GeoJSON, for PostgreSQL: the proved calls of the library.
 * README.md says what each does. */
#include "postgres.h"

#include "mb/pg_wchar.h"

#include "value.h"

typedef struct Shape {
  const char* at;
  size_t n;
  bool is_text; /* GeoJSON */
} Shape;

static Shape wkb_argument(FunctionCallInfo fcinfo) {
  bytea* wkb = PG_GETARG_BYTEA_PP(0);
  return (Shape){VARDATA_ANY(wkb), VARSIZE_ANY_EXHDR(wkb), false};
}

/* A text in UTF-8, whatever the encoding of the database is. */
static Shape geojson_argument(FunctionCallInfo fcinfo) {
  text* geojson = PG_GETARG_TEXT_PP(0);
  const char* own = VARDATA_ANY(geojson);
  size_t n = VARSIZE_ANY_EXHDR(geojson);
  const char* at = pg_server_to_any(own, (int)n, PG_UTF8);
  return (Shape){at, at == own ? n : strlen(at), true};
}

/* A call that makes both coverings, the outer one's cells first, with what it says of them. It takes at most so many
 * bytes. */
typedef struct Mapped {
  size_t n, outer;
  s2u_shape_fault fault;
} Mapped;

typedef int32_t mapper(FunctionCallInfo fcinfo, const Shape* s, uint64_t* out, size_t room, Mapped* m);

#define MAPPER(name, bytes_taken, f, e, ...) \
  static int32_t name(FunctionCallInfo fcinfo, const Shape* s, uint64_t* out, size_t room, Mapped* m) { \
    s2u_host_bound(bytes_taken); \
    return s2u_host_bounded( \
      s->is_text ? f##_geojson##e(s->at, s->n, __VA_ARGS__, out, room, &m->n, &m->outer, &m->fault) \
                 : f##_wkb##e((const uint8_t*)s->at, s->n, __VA_ARGS__, out, room, &m->n, &m->outer, &m->fault)); \
  }
#define NUMBER(k) (uint32_t)PG_GETARG_INT32(k)
MAPPER(by_level_on_map, UINT64_MAX, s2u_map, , NUMBER(1), S2U_MAP_WORK)
MAPPER(by_few_on_map, UINT64_MAX, s2u_map, _up_to, NUMBER(1), NUMBER(2))
MAPPER(on_sphere, S2U_HOST_WORK, s2u_geodesic, , NUMBER(1), S2U_MOST_COVERING)

static int32_t on_map(FunctionCallInfo fcinfo, const Shape* s, uint64_t* out, size_t room, Mapped* m) {
  if (PG_NARGS() == 2) return by_level_on_map(fcinfo, s, out, room, m);
  return NUMBER(2) > S2U_MOST_COVERING ? S2U_ARGUMENT : by_few_on_map(fcinfo, s, out, room, m);
}

static void refuse_shape(const Shape* s, const s2u_shape_fault* fault) {
  int code = s->is_text ? ERRCODE_INVALID_TEXT_REPRESENTATION : ERRCODE_INVALID_BINARY_REPRESENTATION;
  ereport(ERROR, errcode(fault->name >= S2U_FAULT_NO_INSIDE ? ERRCODE_INVALID_PARAMETER_VALUE : code),
          errmsg("s2union: %s: byte %zu, part %zu, ring %zu, position %zu", s2u_fault_text(fault->name), fault->byte,
                 fault->part, fault->ring, fault->position),
          fault->name == S2U_FAULT_JSON ? errhint("A text is GeoJSON. WKB has the type bytea.") : 0);
}

/* One of both coverings, or the error. */
static Datum covering_of(FunctionCallInfo fcinfo, mapper* map, Shape s, bool is_outer) {
  enum { FIRST_ROOM = 4096 };
  Mapped m;
  S2Union* u = new_value(FIRST_ROOM);
  CHECK_FOR_INTERRUPTS();
  int32_t status = map(fcinfo, &s, u->cells, FIRST_ROOM, &m);
  if (status == S2U_ROOM) {
    size_t room = m.n;
    pfree(u);
    u = new_value(room);
    status = map(fcinfo, &s, u->cells, room, &m);
  }
  if (status == S2U_SHAPE) refuse_shape(&s, &m.fault);
  must_take_numbers(status, fcinfo, 1);
  if (!is_outer) memmove(u->cells, u->cells + m.outer, (m.n - m.outer) * sizeof *u->cells);
  return finished(u, is_outer ? m.outer : m.n - m.outer);
}

FUNCTION(s2union_map_outer_of_wkb, covering_of(fcinfo, on_map, wkb_argument(fcinfo), true))
FUNCTION(s2union_map_inner_of_wkb, covering_of(fcinfo, on_map, wkb_argument(fcinfo), false))
FUNCTION(s2union_map_outer_of_geojson, covering_of(fcinfo, on_map, geojson_argument(fcinfo), true))
FUNCTION(s2union_map_inner_of_geojson, covering_of(fcinfo, on_map, geojson_argument(fcinfo), false))
FUNCTION(s2union_geodesic_outer_of_wkb, covering_of(fcinfo, on_sphere, wkb_argument(fcinfo), true))
FUNCTION(s2union_geodesic_inner_of_wkb, covering_of(fcinfo, on_sphere, wkb_argument(fcinfo), false))
FUNCTION(s2union_geodesic_outer_of_geojson, covering_of(fcinfo, on_sphere, geojson_argument(fcinfo), true))
FUNCTION(s2union_geodesic_inner_of_geojson, covering_of(fcinfo, on_sphere, geojson_argument(fcinfo), false))
