/* Places in degrees for places.py and sphere.py of s2union_geo: by s2union_geo.h, so that cells are S2's bit for bit.
 * Outlines of unions for outlines.py, by s2union_outline.h, and coverings for coverer.py, by s2union_cover.h; by these
 * two the cells around cells for around.py; and joins for index.py, by s2union_join.h. */

/* The library's calls that the headers make. They are the same for each interpreter, as the library is. */
static Calls there;
#define s2u_from_face_ij there.s2u_from_face_ij
#define s2u_square_of there.s2u_square_of
#define s2u_is_union there.s2u_is_union
#define s2u_is_cell there.s2u_is_cell
#define s2u_level there.s2u_level
#define s2u_parent there.s2u_parent
#define s2u_size there.s2u_size
#define s2u_normalise there.s2u_normalise
#define s2u_union there.s2u_union
#define s2u_intersection there.s2u_intersection
#define s2u_outer_of there.s2u_outer_of
#define s2u_direction_of there.s2u_direction_of
#define s2u_polygon_outer there.s2u_polygon_outer
#define s2u_polygon_inner there.s2u_polygon_inner
#define s2u_polygon_outer_up_to there.s2u_polygon_outer_up_to
#define s2u_polygon_inner_up_to there.s2u_polygon_inner_up_to
#define s2u_polygon_coverings_up_to there.s2u_polygon_coverings_up_to
#define s2u_shape_geojson there.s2u_shape_geojson
#define s2u_shape_wkb there.s2u_shape_wkb
#include <s2union_join.h>
#include <s2union_outline.h>
#undef s2u_from_face_ij
#undef s2u_square_of
#undef s2u_is_union
#undef s2u_is_cell
#undef s2u_level
#undef s2u_parent
#undef s2u_size
#undef s2u_normalise
#undef s2u_union
#undef s2u_intersection
#undef s2u_outer_of
#undef s2u_direction_of
#undef s2u_polygon_outer
#undef s2u_polygon_inner
#undef s2u_polygon_outer_up_to
#undef s2u_polygon_inner_up_to
#undef s2u_polygon_coverings_up_to
#undef s2u_shape_geojson
#undef s2u_shape_wkb

static void use_places(const Calls* calls) { there = *calls; }

/* Whether it is a float or an int itself. Of what can become one, Python's side makes it. */
static bool is_plain_number(PyObject* given, double* number) {
  if (!PyFloat_CheckExact(given) && !PyLong_CheckExact(given)) return false;
  *number = PyFloat_AsDouble(given);
  if (!PyErr_Occurred()) return true;
  PyErr_Clear();
  return false;
}

/* The leaf of a place, or 0: a number is out of range, or no float or int. */
static PyObject* py_leaf(PyObject* module, PyObject* words) {
  double longitude, latitude;
  (void)module;
  if (!has(words, 2)) return NULL;
  bool are_numbers = is_plain_number(WORD(0), &longitude) && is_plain_number(WORD(1), &latitude);
  return PyLong_FromUnsignedLongLong(are_numbers ? s2u_geo_leaf(longitude, latitude) : 0);
}

/* The leaves of places, as a bytearray. One that is out of range has 0. */
static PyObject* py_leaves(PyObject* module, PyObject* words) {
  HELD List longitudes = {0}, latitudes = {0};
  (void)module;
  if (!has(words, 2) || !as_list(WORD(0), sizeof(double), &longitudes) ||
      !as_list(WORD(1), sizeof(double), &latitudes))
    return NULL;
  const double *x = longitudes.at, *y = latitudes.at;
  size_t n = longitudes.n < latitudes.n ? longitudes.n : latitudes.n;
  PyObject* found = PyByteArray_FromStringAndSize(NULL, (Py_ssize_t)(n * sizeof(uint64_t)));
  if (!found) return NULL;
  void* at = PyByteArray_AsString(found);
  uint64_t* leaves = at;
  UNLOCKED(for (size_t k = 0; k < n; k++) leaves[k] = s2u_geo_leaf(x[k], y[k]));
  return found;
}

/* The longitudes of the middles of cells, and then their latitudes, as a bytearray. */
static PyObject* py_middles(PyObject* module, PyObject* given) {
  HELD List cells = {0};
  size_t n = 0;
  (void)module;
  if (!as_list(given, sizeof(uint64_t), &cells)) return NULL;
  if (cells.n > PY_SSIZE_T_MAX / 2 / sizeof(double)) return PyErr_NoMemory();
  PyObject* found = PyByteArray_FromStringAndSize(NULL, (Py_ssize_t)(2 * cells.n * sizeof(double)));
  if (!found) return NULL;
  const uint64_t* ids = cells.at;
  void* at = PyByteArray_AsString(found);
  double *longitudes = at, *latitudes = longitudes + cells.n;
  uint64_t id = 0;
  UNLOCKED(for (; n < cells.n; n++) {
    id = ids[n];
    if (s2u_geo_middle(id, &longitudes[n], &latitudes[n]) != S2U_OK) break;
  });
  if (n == cells.n) return found;
  Py_DECREF(found);
  return refused_number(id, NULL);
}

/* Rings on a map: longitudes and latitudes in turn, how many positions there are up to the end of each ring, and how
 * many rings up to the end of each polygon. */
static PyObject* rings_of(PyObject* given, __typeof__(s2u_geo_outline)* call) {
  HELD List cells = {0};
  s2u_geo_rings rings;
  int32_t status;
  if (!as_list(given, sizeof(uint64_t), &cells)) return NULL;
  CANCELLABLE(status, call(cells.at, cells.n, &rings));
  if (status != S2U_OK) {
    s2u_geo_free(&rings);
    return refused(status, NULL);
  }
  size_t positions = rings.rings ? rings.ring_ends[rings.rings - 1] : 0;
  PyObject* found = Py_BuildValue("(y#y#y#)", rings.positions, (Py_ssize_t)(positions * 2 * sizeof(double)),
                                  rings.ring_ends, (Py_ssize_t)(rings.rings * sizeof(size_t)),
                                  rings.polygon_ends, (Py_ssize_t)(rings.polygons * sizeof(size_t)));
  s2u_geo_free(&rings);
  return found;
}

/* The outline of a union as polygons on a map, and its boundary as lines. */
static PyObject* py_outline(PyObject* module, PyObject* given) {
  (void)module;
  return rings_of(given, s2u_geo_outline);
}

static PyObject* py_boundary(PyObject* module, PyObject* given) {
  (void)module;
  return rings_of(given, s2u_geo_boundary);
}

/* ---- coverings of shapes */

static bool as_meters(PyObject* given, double* meters) {
  *meters = PyFloat_AsDouble(given);
  return !PyErr_Occurred();
}

/* Options: the most cells, the least and the deepest level, the kind of edges, the margin in meters. */
static bool as_options(PyObject* given, s2u_cover_options* options) {
  uint64_t least, deepest, edges;
  if (!PyTuple_Check(given)) return refuse_type("options", "a tuple", given);
  if (!has(given, 5) ||
      !as_number(PyTuple_GetItem(given, 0), "max_cells", 0, S2U_COVER_MOST_CELLS, &options->max_cells) ||
      !as_number(PyTuple_GetItem(given, 1), "min_level", 0, 30, &least) ||
      !as_number(PyTuple_GetItem(given, 2), "max_level", 0, 30, &deepest) ||
      !as_number(PyTuple_GetItem(given, 3), "edges", 0, S2U_COVER_LEFT, &edges) ||
      !as_meters(PyTuple_GetItem(given, 4), &options->margin))
    return false;
  options->min_level = (uint32_t)least;
  options->max_level = (uint32_t)deepest;
  options->edges = (uint32_t)edges;
  return true;
}

typedef struct Covered {
  s2u_cover_cells outer, inner;
  s2u_cover_fault fault;
  int32_t status;
} Covered;

static PyObject* bytes_of_cells(const s2u_cover_cells* cells) {
  return PyBytes_FromStringAndSize((const char*)cells->ids, (Py_ssize_t)(8 * cells->count));
}

/* The cells of both coverings as bytes; or a status, the ring and the position that it is about, and its text. */
static PyObject* covered(Covered* it) {
  PyObject* answer = NULL;
  if (it->status == S2U_OK) {
    PyObject *outer = bytes_of_cells(&it->outer), *inner = outer ? bytes_of_cells(&it->inner) : NULL;
    if (inner) answer = PyTuple_Pack(2, outer, inner);
    Py_XDECREF(outer);
    Py_XDECREF(inner);
  } else if (it->status == S2U_MEMORY) {
    refused(it->status, NULL);
  } else {
    answer = Py_BuildValue("(iKKs)", (int)it->status, (unsigned long long)it->fault.ring,
                           (unsigned long long)it->fault.position, s2u_cover_status_text(it->status));
  }
  s2u_cover_free(&it->outer);
  s2u_cover_free(&it->inner);
  return answer;
}

/* Which coverings are wanted: 1 the outer, 2 the inner, 3 both; of 0 the shape is looked at. */
static bool as_which(PyObject* given, Covered* it, s2u_cover_cells** outer, s2u_cover_cells** inner) {
  uint64_t which;
  memset(it, 0, sizeof *it);
  if (!as_number(given, "which", 0, 3, &which)) return false;
  *outer = which == 1 || which == 3 ? &it->outer : NULL;
  *inner = which == 2 || which == 3 ? &it->inner : NULL;
  return true;
}

/* Of positions, and of rings: two numbers for each, where it ends and its polygon. */
static PyObject* py_coverings(PyObject* module, PyObject* words) {
  HELD List positions = {0}, rings = {0};
  s2u_cover_options options;
  s2u_cover_cells *outer, *inner;
  Covered it;
  (void)module;
  if (!has(words, 4) || !as_options(WORD(2), &options) || !as_which(WORD(3), &it, &outer, &inner) ||
      !as_list(WORD(0), 2 * sizeof(double), &positions) || !as_list(WORD(1), sizeof(s2u_cover_ring), &rings))
    return NULL;
  s2u_cover_shape shape = {positions.at, rings.at, rings.n};
  for (size_t k = 0; k < rings.n; k++)
    if (shape.rings[k].end > positions.n) return raise_refusal(S2U_ARGUMENT, "a ring ends behind the positions");
  CANCELLABLE(it.status, s2u_cover(&shape, &options, outer, inner, &it.fault));
  return covered(&it);
}

static PyObject* py_coverings_of_wkb(PyObject* module, PyObject* words) {
  HELD List bytes = {0};
  s2u_cover_options options;
  s2u_cover_cells *outer, *inner;
  Covered it;
  (void)module;
  if (!has(words, 3) || !as_options(WORD(1), &options) || !as_which(WORD(2), &it, &outer, &inner) ||
      !as_list(WORD(0), 1, &bytes))
    return NULL;
  CANCELLABLE(it.status, s2u_cover_wkb(bytes.at, bytes.n, &options, outer, inner, &it.fault));
  return covered(&it);
}

/* The positions and the rings of a text of GeoJSON, as bytes. */
static PyObject* py_shape_of_geojson(PyObject* module, PyObject* text) {
  HELD List bytes = {0};
  s2u_cover_reader reader;
  s2u_cover_shape shape;
  s2u_cover_fault fault;
  PyObject* answer = NULL;
  int32_t status;
  (void)module;
  if (!as_list(text, 1, &bytes)) return NULL;
  CANCELLABLE(status, s2u_cover_open(bytes.at, bytes.n, 1, &reader, &shape, &fault));
  if (status == S2U_OK)
    answer = Py_BuildValue("(y#y#)", shape.positions, (Py_ssize_t)(2 * sizeof(double) * reader.positions.count),
                           shape.rings, (Py_ssize_t)(sizeof(s2u_cover_ring) * shape.count));
  else if (fault.name == 0)
    refused(status, NULL);
  else
    raise_fault(&(s2u_shape_fault){(size_t)fault.name, 0, (size_t)fault.part, (size_t)fault.ring,
                                   (size_t)fault.position});
  s2u_cover_close(&reader);
  return answer;
}

static PyObject* py_coverings_of_circle(PyObject* module, PyObject* words) {
  double longitude, latitude, radius;
  s2u_cover_options options;
  s2u_cover_cells *outer, *inner;
  Covered it;
  (void)module;
  if (!has(words, 5) || !as_meters(WORD(0), &longitude) || !as_meters(WORD(1), &latitude) ||
      !as_meters(WORD(2), &radius) || !as_options(WORD(3), &options) || !as_which(WORD(4), &it, &outer, &inner))
    return NULL;
  CANCELLABLE(it.status, s2u_cover_circle(longitude, latitude, radius, &options, outer, inner, &it.fault));
  return covered(&it);
}

static PyObject* py_level_within(PyObject* module, PyObject* given) {
  double meters;
  (void)module;
  return as_meters(given, &meters) ? PyLong_FromUnsignedLong(s2u_cover_level_within(S2U_COVER_KEPT * meters)) : NULL;
}

/* ---- cells around cells */

/* The error of a cell and a level. */
static PyObject* refused_around(int32_t status, uint64_t cell, uint64_t level) {
  if (status == S2U_NO_CELL) return refused_number(cell, NULL);
  if (status == S2U_MEMORY) return refused(status, NULL);
  return raise_refusal(status, "%s: level %d", s2u_status_text(status), (int)level);
}

/* The cells of an answer as bytes, or its error. */
static PyObject* cells_of(int32_t status, s2u_cover_cells* cells, uint64_t cell, uint64_t level) {
  PyObject* answer = status == S2U_OK ? bytes_of_cells(cells) : refused_around(status, cell, level);
  s2u_cover_free(cells);
  return answer;
}

static bool as_cell_and_level(PyObject* words, uint64_t* cell, uint64_t* level) {
  return has(words, 2) && as_cell(WORD(0), cell) && as_number(WORD(1), "level", 0, 30, level);
}

static PyObject* py_neighbors(PyObject* module, PyObject* words) {
  uint64_t cell, level;
  s2u_cover_cells found;
  int32_t status;
  (void)module;
  if (!as_cell_and_level(words, &cell, &level)) return NULL;
  UNLOCKED(status = s2u_cover_neighbors(cell, (uint32_t)level, &found));
  return cells_of(status, &found, cell, level);
}

static PyObject* py_edge_neighbors(PyObject* module, PyObject* given) {
  uint64_t cell, found[4];
  (void)module;
  if (!as_cell(given, &cell)) return NULL;
  int32_t status = s2u_geo_edge_neighbors(cell, found);
  return status == S2U_OK ? PyBytes_FromStringAndSize((const char*)found, sizeof found) : refused_number(cell, NULL);
}

static PyObject* py_vertex_neighbors(PyObject* module, PyObject* words) {
  uint64_t cell, level, found[4];
  size_t count;
  (void)module;
  if (!as_cell_and_level(words, &cell, &level)) return NULL;
  int32_t status = s2u_geo_vertex_neighbors(cell, (uint32_t)level, found, &count);
  if (status == S2U_OK) return PyBytes_FromStringAndSize((const char*)found, (Py_ssize_t)(8 * count));
  return refused_around(status, cell, level);
}

static PyObject* py_expanded(PyObject* module, PyObject* words) {
  HELD List cells = {0};
  uint64_t level;
  s2u_cover_cells found;
  int32_t status;
  (void)module;
  if (!has(words, 2) || !as_number(WORD(1), "level", 0, 30, &level) || !as_list(WORD(0), sizeof(uint64_t), &cells))
    return NULL;
  CANCELLABLE(status, s2u_cover_expanded(cells.at, cells.n, (uint32_t)level, &found));
  return cells_of(status, &found, 0, level);
}

/* In square kilometers. */
static PyObject* py_area(PyObject* module, PyObject* given) {
  HELD List cells = {0};
  double area;
  (void)module;
  if (!as_list(given, sizeof(uint64_t), &cells)) return NULL;
  UNLOCKED(area = s2u_geo_area(cells.at, cells.n));
  return PyFloat_FromDouble(area);
}

/* West, south, east and north in degrees; of no cell the south is more than the north. */
static PyObject* py_rect_bound(PyObject* module, PyObject* given) {
  HELD List cells = {0};
  s2u_cover_bounds box;
  int32_t status;
  (void)module;
  if (!as_list(given, sizeof(uint64_t), &cells)) return NULL;
  CANCELLABLE(status, s2u_cover_rect_bound(cells.at, cells.n, &box));
  if (status != S2U_OK) return refused(status, NULL);
  return Py_BuildValue("(dddd)", box.west, box.south, box.east, box.north);
}

/* ---- which zones have which places */

static const char OF_ZONES[] = "s2union.zones";

typedef struct Zones {
  s2u_join_zones zones;
  PyObject* shapes; /* the tuple of bytes in which the zones lie */
  bool are_asked;
} Zones;

static void forget(Zones* it) {
  s2u_join_free(&it->zones);
  Py_DECREF(it->shapes);
  free(it);
}

static void forget_zones(PyObject* capsule) { forget(PyCapsule_GetPointer(capsule, OF_ZONES)); }

/* The bytes of a tuple of shapes, or NULL. */
static s2u_join_bytes* bytes_of_shapes(PyObject* shapes, size_t n) {
  s2u_join_bytes* each = PyMem_Malloc((n + 1) * sizeof *each);
  if (!each) PyErr_NoMemory();
  for (size_t k = 0; each && k < n; k++) {
    PyObject* shape = PyTuple_GetItem(shapes, (Py_ssize_t)k);
    each[k].at = (uint8_t*)PyBytes_AsString(shape);
    if (each[k].at) each[k].size = (size_t)PyBytes_Size(shape);
    else PyMem_Free(each), each = NULL;
  }
  return each;
}

/* Zones for `pairs`, of a tuple of shapes in WKB. */
static PyObject* py_zones(PyObject* module, PyObject* shapes) {
  s2u_cover_fault fault;
  size_t wrong = 0;
  int32_t status;
  (void)module;
  if (!PyTuple_Check(shapes)) return refuse_type("shapes", "a tuple", shapes), NULL;
  size_t n = (size_t)PyTuple_Size(shapes);
  s2u_join_bytes* each = bytes_of_shapes(shapes, n);
  if (!each) return NULL;
  Zones* it = malloc(sizeof *it);
  if (!it) return PyMem_Free(each), PyErr_NoMemory();
  it->shapes = shapes;
  it->are_asked = false;
  Py_INCREF(shapes);
  CANCELLABLE(status, s2u_join_zones_of(each, n, &it->zones, &wrong, &fault));
  PyMem_Free(each);
  PyObject* capsule = status == S2U_OK ? PyCapsule_New(it, OF_ZONES, forget_zones) : NULL;
  if (!capsule) forget(it);
  if (status == S2U_OK) return capsule;
  if (status == S2U_MEMORY) return refused(status, NULL);
  return raise_refusal(status, "zone %llu: %s", (unsigned long long)wrong, s2u_cover_status_text(status));
}

/* The pairs of places and zones that have them: a place and a zone each. No other thread may ask the zones meanwhile; a
 * handler of signals that does so has an error. */
static PyObject* py_pairs(PyObject* module, PyObject* words) {
  HELD List longitudes = {0}, latitudes = {0};
  s2u_cover_list pairs;
  uint64_t borders;
  size_t wrong = 0;
  int32_t status;
  (void)module;
  if (!has(words, 4) || !as_number(WORD(3), "borders", 0, 1, &borders) ||
      !as_list(WORD(1), sizeof(double), &longitudes) || !as_list(WORD(2), sizeof(double), &latitudes))
    return NULL;
  Zones* it = PyCapsule_GetPointer(WORD(0), OF_ZONES);
  if (!it) return NULL;
  if (it->are_asked) {
    PyErr_SetString(PyExc_RuntimeError, "a handler of signals asks the zones that it interrupted");
    return NULL;
  }
  size_t n = longitudes.n < latitudes.n ? longitudes.n : latitudes.n;
  it->are_asked = true;
  CANCELLABLE(status, s2u_join_pairs_of(&it->zones, longitudes.at, latitudes.at, n, (int)borders, &pairs, &wrong));
  it->are_asked = false;
  PyObject* found = NULL;
  if (status == S2U_OK) found = PyBytes_FromStringAndSize(pairs.at, (Py_ssize_t)(pairs.count * sizeof(s2u_join_pair)));
  else if (status == S2U_ARGUMENT) raise_refusal(status, "the place %llu is out of range", (unsigned long long)wrong);
  else refused(status, NULL);
  free(pairs.at);
  return found;
}
