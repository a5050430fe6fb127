// Points in polygons by two other libraries, for joins.py, which loads this file: GEOS's STRtree of the points with
// prepared polygons, the calls that shapely 2 makes for a join by `within`, and S2's index of shapes. Each function
// writes the pairs, a point and a zone, with the seconds of processor time that its index and its questions take, and
// returns how many there are. A zone is a polygon or more in WKB, as GEOS reads it.
#include <geos_c.h>
#include <s2/mutable_s2shape_index.h>
#include <s2/s2contains_point_query.h>
#include <s2/s2latlng.h>
#include <s2/s2polygon.h>

#include <cstdint>
#include <ctime>
#include <memory>
#include <utility>
#include <vector>

struct Job {
  const double *x, *y;  // of each point
  int64_t points;
  const unsigned char* wkb;
  const int64_t* ends;  // of each zone in it
  int64_t zones;
};

static double now() {
  timespec it;
  clock_gettime(CLOCK_PROCESS_CPUTIME_ID, &it);
  return static_cast<double>(it.tv_sec) + static_cast<double>(it.tv_nsec) / 1e9;
}

static std::vector<GEOSGeometry*> zones_of(GEOSContextHandle_t geos, const Job& job) {
  std::vector<GEOSGeometry*> zones;
  for (int64_t k = 0, begin = 0; k < job.zones; begin = job.ends[k++]) {
    zones.push_back(GEOSGeomFromWKB_buf_r(geos, job.wkb + begin, static_cast<size_t>(job.ends[k] - begin)));
  }
  return zones;
}

extern "C" int64_t pairs_of_geos(const Job* job, int64_t* pairs, double* seconds) {
  GEOSContextHandle_t geos = GEOS_init_r();
  const std::vector<GEOSGeometry*> zones = zones_of(geos, *job);
  std::vector<GEOSGeometry*> points;
  for (int64_t k = 0; k < job->points; k++) points.push_back(GEOSGeom_createPointFromXY_r(geos, job->x[k], job->y[k]));
  const double begun = now();
  GEOSSTRtree* tree = GEOSSTRtree_create_r(geos, 10);
  for (GEOSGeometry*& point : points) GEOSSTRtree_insert_r(geos, tree, point, &point);
  GEOSSTRtree_query_r(geos, tree, points[0], [](void*, void*) {}, nullptr);  // the first one sorts it
  const double made = now();
  int64_t* to = pairs;
  std::vector<GEOSGeometry**> near;
  for (size_t zone = 0; zone < zones.size(); zone++) {
    near.clear();
    GEOSSTRtree_query_r(geos, tree, zones[zone], [](void* point, void* all) {
      static_cast<std::vector<GEOSGeometry**>*>(all)->push_back(static_cast<GEOSGeometry**>(point));
    }, &near);
    if (near.empty()) continue;
    const GEOSPreparedGeometry* prepared = GEOSPrepare_r(geos, zones[zone]);
    for (GEOSGeometry** point : near) {
      if (GEOSPreparedContains_r(geos, prepared, *point) != 1) continue;
      *to++ = point - points.data(), *to++ = static_cast<int64_t>(zone);
    }
    GEOSPreparedGeom_destroy_r(geos, prepared);
  }
  seconds[0] = made - begun, seconds[1] = now() - made;
  GEOSSTRtree_destroy_r(geos, tree);
  for (GEOSGeometry* each : points) GEOSGeom_destroy_r(geos, each);
  for (GEOSGeometry* each : zones) GEOSGeom_destroy_r(geos, each);
  GEOS_finish_r(geos);
  return (to - pairs) / 2;
}

static std::unique_ptr<S2Loop> loop_of(GEOSContextHandle_t geos, const GEOSGeometry* ring) {
  const GEOSCoordSequence* places = GEOSGeom_getCoordSeq_r(geos, ring);
  unsigned length = 0;
  GEOSCoordSeq_getSize_r(geos, places, &length);
  std::vector<S2Point> corners;
  for (unsigned k = 0; k + 1 < length; k++) {
    double x, y;
    GEOSCoordSeq_getXY_r(geos, places, k, &x, &y);
    const S2Point corner = S2LatLng::FromDegrees(y, x).ToPoint();
    if (corners.empty() || corners.back() != corner) corners.push_back(corner);
  }
  auto loop = std::make_unique<S2Loop>(corners, S2Debug::DISABLE);
  loop->Normalize();
  return loop;
}

static std::unique_ptr<S2Polygon> polygon_of(GEOSContextHandle_t geos, const GEOSGeometry* zone) {
  std::vector<std::unique_ptr<S2Loop>> loops;
  for (int part = 0; part < GEOSGetNumGeometries_r(geos, zone); part++) {
    const GEOSGeometry* polygon = GEOSGetGeometryN_r(geos, zone, part);
    loops.push_back(loop_of(geos, GEOSGetExteriorRing_r(geos, polygon)));
    for (int hole = 0; hole < GEOSGetNumInteriorRings_r(geos, polygon); hole++) {
      loops.push_back(loop_of(geos, GEOSGetInteriorRingN_r(geos, polygon, hole)));
    }
  }
  auto made = std::make_unique<S2Polygon>();
  made->set_s2debug_override(S2Debug::DISABLE);
  made->InitNested(std::move(loops));
  return made;
}

extern "C" int64_t pairs_of_s2(const Job* job, int64_t* pairs, double* seconds) {
  GEOSContextHandle_t geos = GEOS_init_r();
  const std::vector<GEOSGeometry*> zones = zones_of(geos, *job);
  std::vector<std::unique_ptr<S2Polygon>> polygons;
  for (const GEOSGeometry* zone : zones) polygons.push_back(polygon_of(geos, zone));
  const double begun = now();
  MutableS2ShapeIndex index;
  for (const auto& polygon : polygons) index.Add(std::make_unique<S2Polygon::Shape>(polygon.get()));
  index.ForceBuild();
  const double made = now();
  int64_t* to = pairs;
  auto query = MakeS2ContainsPointQuery(&index);
  for (int64_t k = 0; k < job->points; k++) {
    query.VisitContainingShapes(S2LatLng::FromDegrees(job->y[k], job->x[k]).ToPoint(), [&](S2Shape* shape) {
      *to++ = k, *to++ = shape->id();
      return true;
    });
  }
  seconds[0] = made - begun, seconds[1] = now() - made;
  for (GEOSGeometry* each : zones) GEOSGeom_destroy_r(geos, each);
  GEOS_finish_r(geos);
  return (to - pairs) / 2;
}
