// Coverings of GeoJSON by S2: cover FILE.geojson FOLDER MAX_CELLS MAX_LEVEL
// Writes FOLDER/NAME.outer and FOLDER/NAME.inner for each feature, with NAME from its property 'file'. Lines are taken
// as borders too. Rings may cross or touch themselves, and polygons may overlap: a point is inside if it is in an odd
// number of rings, and what they enclose is the smaller side.
#include <s2/s2builder.h>
#include <s2/s2builderutil_s2polygon_layer.h>
#include <s2/s2builderutil_snap_functions.h>
#include <s2/s2cell_union.h>
#include <s2/s2edge_tessellator.h>
#include <s2/s2polygon.h>
#include <s2/s2projections.h>
#include <s2/s2region_coverer.h>
#include <cmath>
#include <cstdlib>
#include <fstream>
#include <iostream>
#include <memory>
#include <nlohmann/json.hpp>
#include <set>
#include <stdexcept>

using nlohmann::json;

R2Point PointOf(const json& position) {
  const double longitude = position.at(0), latitude = position.at(1);
  if (!(std::abs(longitude) <= 540 && std::abs(latitude) <= 90)) throw std::runtime_error("a position is out of range");
  return R2Point(longitude, latitude);
}

// Adds the edges of all lists of points below. An edge that is straight on the map is bent on the sphere: it is cut
// until that is less than 10 m.
void AddEdges(const json& coordinates, S2Builder* builder) {
  static const S2::PlateCarreeProjection map(180);
  static const S2EdgeTessellator cut(&map, S1Angle::Radians(10 / 6371e3));
  if (coordinates.empty()) return;
  const json& first = coordinates.at(0);
  if (first.empty() || !first.at(0).is_number()) {
    for (const json& part : coordinates) AddEdges(part, builder);
    return;
  }
  for (size_t k = 1; k < coordinates.size(); k++) {
    std::vector<S2Point> points;
    cut.AppendUnprojected(PointOf(coordinates.at(k - 1)), PointOf(coordinates.at(k)), &points);
    for (size_t i = 1; i < points.size(); i++) builder->AddEdge(points[i - 1], points[i]);
  }
}

// Ends the program with a word about a file.
[[noreturn]] void Refuse(const std::string& name, const std::string& why) {
  std::cerr << name << ": " << why << "\n";
  std::exit(1);
}

int NumberIn(const std::string& word, int least, int most) {
  char* end = nullptr;
  const long number = std::strtol(word.c_str(), &end, 10);
  if (end == word.c_str() || *end != '\0' || number < least || number > most) {
    Refuse(word, "it is no number from " + std::to_string(least) + " to " + std::to_string(most));
  }
  return static_cast<int>(number);
}

json Features(const std::string& name) {
  std::ifstream file(name);
  if (!file) Refuse(name, "it can't be read");
  const json found = json::parse(file, nullptr, false);
  if (!found.contains("features")) Refuse(name, "it is no collection of features in GeoJSON");
  return found["features"];
}

// The name of a feature's files. A stranger's leads nowhere but into the folder.
std::string NameOf(const json& feature, const std::string& file) {
  const std::string name = feature.at("properties").at("file");
  if (name.find('/') != std::string::npos) Refuse(file, name + " would lie in another folder");
  return name;
}

void Write(const S2CellUnion& cells, const std::string& name) {
  Encoder encoder;
  cells.Encode(&encoder);
  if (!std::ofstream(name, std::ios::binary).write(encoder.base(), encoder.length())) {
    Refuse(name, "it can't be written");
  }
}

int main(int argc, char** argv) try {
  if (argc != 5) return std::cerr << "usage: cover FILE.geojson FOLDER MAX_CELLS MAX_LEVEL\n", 2;
  S2RegionCoverer coverer;
  coverer.mutable_options()->set_max_cells(NumberIn(argv[3], 1, 1000000));
  coverer.mutable_options()->set_max_level(NumberIn(argv[4], 0, 30));
  size_t outer_cells = 0, inner_cells = 0;
  const json features = Features(argv[1]);
  std::set<std::string> names;
  for (const json& feature : features) {
    const std::string name = NameOf(feature, argv[1]);
    if (!names.insert(name).second) Refuse(argv[1], name + " is the name of two features");
  }
  for (const json& feature : features) {
    const std::string name = std::string(argv[2]) + "/" + NameOf(feature, argv[1]);
    S2Builder::Options options{s2builderutil::S2CellIdSnapFunction(23)};  // to within 2 m
    options.set_split_crossing_edges(true);
    S2Builder builder(options);
    S2Polygon polygon;
    builder.StartLayer(std::make_unique<s2builderutil::S2PolygonLayer>(
        &polygon, s2builderutil::S2PolygonLayer::Options(S2Builder::EdgeType::UNDIRECTED)));
    builder.AddIsFullPolygonPredicate(S2Builder::IsFullPolygon(false));
    AddEdges(feature.at("geometry").at("coordinates"), &builder);
    S2Error error;
    if (!builder.Build(&error)) Refuse(name, error.text());
    const S2CellUnion outer = coverer.GetCovering(polygon), inner = coverer.GetInteriorCovering(polygon);
    Write(outer, name + ".outer");
    Write(inner, name + ".inner");
    outer_cells += outer.size();
    inner_cells += inner.size();
  }
  std::cout << features.size() << " features, " << outer_cells << " and " << inner_cells << " cells\n";
} catch (const std::exception& error) {
  Refuse(argv[1], error.what());
}
