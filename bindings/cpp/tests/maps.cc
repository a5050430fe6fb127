// The coverings of the texts and bytes of tests/model/maps.py by s2union.hpp, whose rows are the standard input: what
// is made, and each error as it is thrown and as it is reported. The last line is 'N passed, M failed'.
#include <cstdio>
#include <iostream>
#include <map>
#include <sstream>
#include <string>
#include <vector>

#include <s2union.hpp>

using s2union::CellUnion;
using s2union::Coverings;

static unsigned long passed, failed;

// The names of faults as the rows have them, in the order of their numbers.
static const char* const kFaults[] = {
    "truncated", "trailing", "order", "type", "uncovered", "srid", "member", "deep", "count", "few", "open",
    "not_finite", "utf8", "json", "twice", "no_type", "missing", "position", "range", "no_inside", "no_map",
    "long_edge", "spread"};

static const std::map<int32_t, std::string> kStatuses = {{S2U_MANY, "!many"}, {S2U_ARGUMENT, "!argument"}};

static std::vector<std::string> FieldsOf(const std::string& line) {
  std::vector<std::string> fields;
  std::istringstream words(line + "\t");
  for (std::string field; std::getline(words, field, '\t');) fields.push_back(field);
  return fields;
}

static std::string BytesOf(const std::string& hex) {
  std::string bytes;
  for (size_t at = 0; at < hex.size(); at += 2)
    bytes.push_back(static_cast<char>(std::stoul(hex.substr(at, 2), nullptr, 16)));
  return bytes;
}

static std::string Shown(const CellUnion& cells) {
  std::ostringstream text;
  for (uint64_t id : cells) text << (text.tellp() > 0 ? " " : "") << std::hex << id;
  return text.str();
}

static std::string Shown(const s2u_shape_fault& fault) {
  std::ostringstream text;
  text << '!' << kFaults[fault.name - 1] << ' ' << fault.byte << ' ' << fault.part << ' ' << fault.ring << ' '
       << fault.position;
  return text.str();
}

static Coverings Covered(const std::vector<std::string>& row, s2u_shape_fault* fault, int32_t* status) {
  const std::string bytes = BytesOf(row[1]);
  const int level = std::stoi(row[2]);
  const size_t most = std::stoull(row[3]);  // work, or cells
  if (row[0] == "map_wkb") return CellUnion::CoverWkb(bytes, level, most, fault, status);
  if (row[0] == "map_geojson") return CellUnion::CoverGeoJson(bytes, level, most, fault, status);
  if (row[0] == "map_wkb_up_to") return CellUnion::CoverWkbUpTo(bytes, level, most, fault, status);
  if (row[0] == "map_geojson_up_to") return CellUnion::CoverGeoJsonUpTo(bytes, level, most, fault, status);
  if (row[0] == "geodesic_wkb") return CellUnion::CoverGeodesicWkb(bytes, level, most, fault, status);
  return CellUnion::CoverGeodesicGeoJson(bytes, level, most, fault, status);
}

// What is made of a row, or the error that is thrown.
static std::string Thrown(const std::vector<std::string>& row) {
  try {
    const Coverings made = Covered(row, nullptr, nullptr);
    return Shown(made.outer) + "\t" + Shown(made.inner);
  } catch (const s2union::ShapeError& error) {
    return Shown(error.fault());
  } catch (const s2union::Error& error) {
    return kStatuses.at(error.status());
  }
}

// The same with a status, after which a fault that isn't there is as it was.
static std::string Reported(const std::vector<std::string>& row) {
  s2u_shape_fault fault = {99, 0, 0, 0, 0};
  int32_t status = S2U_OK;
  const Coverings made = Covered(row, &fault, &status);
  if (status == S2U_SHAPE) return Shown(fault);
  if (fault.name != 99) return "a fault";
  return status == S2U_OK ? Shown(made.outer) + "\t" + Shown(made.inner) : kStatuses.at(status);
}

int main() {
  for (std::string line; std::getline(std::cin, line);) {
    const std::vector<std::string> row = FieldsOf(line);
    const std::string wanted = row.size() > 5 ? row[4] + "\t" + row[5] : row[4];
    const bool is_same = Thrown(row) == wanted && Reported(row) == wanted;
    if (!is_same) std::cout << line.substr(0, 400) << '\n';
    (is_same ? passed : failed)++;
  }
  std::cout << passed << " passed, " << failed << " failed\n";
  return failed != 0;
}
