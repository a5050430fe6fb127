/* An example of each member of s2union.hpp, which the header's reference shows: a program whose last line is 'N passed,
 * M failed'. */
#include "as_s2.h"
#include "../../c/tests/tests.h"
#include <s2union_join.h>
#include <s2union.hpp>
#include <set>
#include <sstream>

using s2union::CellUnion;
using s2union::UnionFile;
using S2CellId = Cell;
using S2CellUnion = Theirs;

#define check(...) check((__VA_ARGS__), #__VA_ARGS__)

/// The file of the cells 04 and 14.
static const std::string bytes("\1\2\0\0\0\0\0\0\0\0\0\0\0\0\0\0\4\0\0\0\0\0\0\0\x14", 25);

int main() {
  {
    // [Error]
    check(std::string(s2union::Error(S2U_NO_CELL).what()) == "not a cell");
    check(std::string(s2union::Error(S2U_COVER_WKB, "the bytes are no WKB").what()) == "the bytes are no WKB");
    // [Error]
  }
  {
    // [ShapeError]
    const s2u_shape_fault fault = {S2U_FAULT_OPEN, 0, 1, 2, 4};
    const s2union::ShapeError error(fault);
    check(error.status() == S2U_SHAPE && error.fault().position == 4);
    check(std::string(error.what()).rfind(": byte 0, part 1, ring 2, position 4") != std::string::npos);
    // [ShapeError]
  }
  {
    // [Error.status]
    int32_t caught = S2U_OK;
    try {
      CellUnion::FromTokens("xyz");
    } catch (const s2union::Error& error) {
      caught = error.status();
    }
    check(caught == S2U_NO_CELL);
    // [Error.status]
  }
  {
    // [CellUnion]
    check(CellUnion().empty());
    // [CellUnion]
  }
  {
    // [CellUnion of cells]
    std::vector<uint64_t> cells = {0x0c00000000000000, 0x0400000000000000, 0x0c00000000000000};
    check(CellUnion(std::move(cells)).Tokens() == "04 0c");
    // [CellUnion of cells]
  }
  {
    // [CellUnion of a copy]
    std::vector<int64_t> column = {0x0400000000000000, 2};
    int32_t status;
    check(CellUnion(column, &status).empty() && status == S2U_NO_CELL);
    // [CellUnion of a copy]
  }
  {
    // [CellUnion of another class]
    S2CellUnion theirs = S2CellUnion::FromNormalized({S2CellId(0x0400000000000000), S2CellId(0x1400000000000000)});
    s2union::CellUnionOf<S2CellId> ours = theirs;
    check(ours.Tokens() == "04 14");
    // [CellUnion of another class]
  }
  {
    // [operator Theirs]
    s2union::CellUnionOf<S2CellId> ours = s2union::CellUnionOf<S2CellId>::FromTokens("04 14");
    S2CellUnion theirs = ours;
    check(theirs.cell_ids() == ours.cell_ids());
    // [operator Theirs]
  }
  {
    // [operator Theirs of a result]
    using Ours = s2union::CellUnionOf<S2CellId>;
    const Ours x = Ours::FromTokens("04 14"), y = Ours::FromTokens("0c");
    S2CellUnion theirs = x.Union(y);
    check(theirs.cell_ids().size() == 3);
    // [operator Theirs of a result]
  }
  {
    // [operator Theirs of numbers]
    const CellUnion numbers = CellUnion::FromTokens("04 14");
    S2CellUnion theirs(numbers);
    check(theirs.cell_ids().size() == 2);
    // [operator Theirs of numbers]
  }
  {
    // [operator== of another class]
    const S2CellUnion theirs = S2CellUnion::FromNormalized({S2CellId(0x0400000000000000)});
    const auto ours = s2union::CellUnionOf<S2CellId>::FromTokens("04");
    check(ours == theirs && !(theirs != ours));
    // [operator== of another class]
  }
  {
    // [WholeSphere]
    check(CellUnion::WholeSphere().Tokens() == "1 3 5 7 9 b");
    // [WholeSphere]
  }
  {
    // [FromNormalized]
    check(CellUnion::FromNormalized({0x0400000000000000, 0x0c00000000000000}).Tokens() == "04 0c");
    int32_t status;
    check(CellUnion::FromNormalized({0x0c00000000000000, 0x0400000000000000}, &status).empty());
    check(status == S2U_NO_UNION);
    // [FromNormalized]
  }
  {
    // [FromNormalized of a copy]
    const std::vector<uint64_t> cells = {0x0400000000000000, 0x0c00000000000000};
    check(CellUnion::FromNormalized(cells).cell_ids() == cells);
    // [FromNormalized of a copy]
  }
  {
    // [FromMinMax]
    CellUnion leaves = CellUnion::FromMinMax(1, 0x07ffffffffffffff);
    check(leaves.Tokens() == "04");
    // [FromMinMax]
  }
  {
    // [FromBeginEnd]
    CellUnion leaves = CellUnion::FromBeginEnd(1, 0x0800000000000001);
    check(leaves.Tokens() == "04");
    // [FromBeginEnd]
  }
  {
    // [Init]
    CellUnion half = CellUnion::FromTokens("04 0c");
    half.Init(std::vector<uint64_t>{0x1c00000000000000, 0x1400000000000000});
    check(half.Tokens() == "14 1c");
    // [Init]
  }
  {
    // [Init of a copy]
    CellUnion half = CellUnion::FromTokens("04 0c");
    const std::vector<uint64_t> cells = {2};
    int32_t status;
    half.Init(cells, &status);
    check(status == S2U_NO_CELL && half.Tokens() == "04 0c");
    // [Init of a copy]
  }
  {
    // [InitFromMinMax]
    CellUnion leaves;
    leaves.InitFromMinMax(1, 0x07ffffffffffffff);
    check(leaves.Tokens() == "04");
    // [InitFromMinMax]
  }
  {
    // [InitFromBeginEnd]
    CellUnion leaves;
    leaves.InitFromBeginEnd(1, 0x0800000000000001);
    check(leaves.Tokens() == "04");
    // [InitFromBeginEnd]
  }
  {
    // [Clear]
    CellUnion half = CellUnion::FromTokens("04 0c");
    half.Clear();
    check(half.empty());
    // [Clear]
  }
  {
    // [Release]
    CellUnion half = CellUnion::FromTokens("04 0c");
    std::vector<uint64_t> cells = half.Release();
    check(cells.size() == 2 && half.empty());
    // [Release]
  }
  {
    // [Pack]
    CellUnion half = CellUnion::FromTokens("04 0c");
    half.Pack();
    check(half.size() == 2);
    // [Pack]
  }
  {
    // [swap]
    CellUnion park = CellUnion::FromTokens("1"), pond = CellUnion::FromTokens("14");
    park.swap(pond);
    swap(park, pond);
    check(park.Contains(pond));
    // [swap]
  }
  {
    // [num_cells]
    check(CellUnion::WholeSphere().num_cells() == 6);
    // [num_cells]
  }
  {
    // [cell_id]
    CellUnion half = CellUnion::FromTokens("04 0c");
    check(half.cell_id(1) == 0x0c00000000000000);
    // [cell_id]
  }
  {
    // [size]
    check(CellUnion::WholeSphere().size() == 6);
    // [size]
  }
  {
    // [empty]
    check(CellUnion().empty() && !CellUnion::WholeSphere().empty());
    // [empty]
  }
  {
    // [operator[]]
    CellUnion half = CellUnion::FromTokens("04 0c");
    check(half[1] == 0x0c00000000000000);
    // [operator[]]
  }
  {
    // [begin]
    CellUnion half = CellUnion::FromTokens("04 0c");
    uint64_t leaves = 0;
    for (uint64_t id : half) leaves += s2u_size(id);
    check(leaves == half.LeafCellsCovered() && half.end() - half.begin() == 2);
    // [begin]
  }
  {
    // [cell_ids]
    CellUnion half = CellUnion::FromTokens("04 0c");
    check(half.cell_ids() == std::vector<uint64_t>({0x0400000000000000, 0x0c00000000000000}));
    // [cell_ids]
  }
  {
    // [ids]
    CellUnion half = CellUnion::FromTokens("04 0c");
    size_t first, count;
    check(s2u_cells_at(half.ids(), half.size(), 0x1000000000000000, &first, &count) == S2U_OK && count == 2);
    // [ids]
  }
  {
    // [IsValid]
    check(CellUnion().IsValid());
    // [IsValid]
  }
  {
    // [IsNormalized]
    check(CellUnion(std::vector<uint64_t>{0x0c00000000000000, 0x0400000000000000}).IsNormalized());
    // [IsNormalized]
  }
  {
    // [Normalize]
    CellUnion half = CellUnion::FromTokens("04 0c");
    half.Normalize();
    check(half.Tokens() == "04 0c");
    // [Normalize]
  }
  {
    // [Denormalize]
    std::vector<uint64_t> cells;
    CellUnion::FromTokens("1").Denormalize(1, 1, &cells);
    check(cells == std::vector<uint64_t>({0x0400000000000000, 0x0c00000000000000, 0x1400000000000000,
                                         0x1c00000000000000}));
    // [Denormalize]
  }
  {
    // [UnionOf]
    CellUnion half = CellUnion::FromTokens("04 0c");
    check(CellUnion::UnionOf({half, CellUnion::FromTokens("14"), half}).Tokens() == "04 0c 14");
    // [UnionOf]
  }
  {
    // [Intersection with a cell]
    CellUnion half = CellUnion::FromTokens("04 0c");
    check(half.Intersection(0x1000000000000000) == half && half.Intersection(1).LeafCellsCovered() == 1);
    // [Intersection with a cell]
  }
  {
    // [Covering]
    check(CellUnion(std::vector<uint64_t>{1}).Covering(1).Tokens() == "04");
    int32_t status;
    check(CellUnion::WholeSphere().Covering(0, 5, &status).empty() && status == S2U_MANY);
    // [Covering]
  }
  {
    // [CoveringOf]
    s2u_rect edge = {0, 0, (1 << 30) - 1, 0, 0};
    check(CellUnion::CoveringOf(edge, 1).Tokens() == "04 1c");
    int32_t status;
    check(CellUnion::CoveringOf(edge, 1, 1, &status).empty() && status == S2U_MANY);
    // [CoveringOf]
  }
  {
    // [InteriorCoveringOf]
    s2u_rect side = {0, 0, (1 << 30) - 1, 0, (1 << 29) - 1};
    check(CellUnion::InteriorCoveringOf(side, 1).Tokens() == "04 1c");
    // [InteriorCoveringOf]
  }
  {
    // [InteriorCoveringIn]
    s2u_rect side = {0, 0, (1 << 30) - 1, 0, (1 << 29) - 1};
    check(CellUnion::FromTokens("04 0c").InteriorCoveringIn(side, 1).Tokens() == "04");
    // [InteriorCoveringIn]
  }
  const s2union::Polygon triangle = {{{10, 1, 1}, {10, 9, 1}, {10, 1, 9}}, {3}, s2u_from_face_ij(3, 0, 0), 0};
  {
    // [Polygon]
    struct Point {
      double x() const { return at[0]; }
      double y() const { return at[1]; }
      double z() const { return at[2]; }
      double at[3];
    };
    s2union::Polygon octant;
    octant.outside = s2u_from_face_ij(3, 0, 0);
    octant.AddRing(std::vector<Point>{{{1, 0, 0}}, {{0, 1, 0}}, {{0, 0, 1}}});
    check(octant.corners[1].y == 2147483647 && octant.ends.back() == 3);
    check(CellUnion::PolygonInteriorCovering(octant, 2).size() == 3);
    // [Polygon]
  }
  {
    // [PolygonOf]
    using Cells = s2union::CellUnionOf<Cell>;  // of S2CellId, and for Loop an S2Loop or an S2Polygon
    const Loop octant({{1, 0, 0}, {0, 1, 0}, {0, 0, 1}});
    check(Cells::PolygonInteriorCovering(Cells::PolygonOf(octant), 2).size() == 3);
    // [PolygonOf]
  }
  {
    // [PolygonCovering]
    check(CellUnion::PolygonCovering(triangle, 3).Tokens() == "11 13 144 17");
    int32_t status;
    check(CellUnion::PolygonCovering(triangle, 3, 3, &status).empty() && status == S2U_MANY);
    // [PolygonCovering]
  }
  {
    // [PolygonInteriorCovering]
    check(CellUnion::PolygonInteriorCovering(triangle, 3).Tokens() == "114");
    // [PolygonInteriorCovering]
  }
  {
    // [PolygonCoveringUpTo]
    check(CellUnion::PolygonCoveringUpTo(triangle, 0, 30, 4).size() == 4);
    // [PolygonCoveringUpTo]
  }
  {
    // [PolygonInteriorCoveringUpTo]
    check(CellUnion::PolygonInteriorCoveringUpTo(triangle, 0, 4, 8).size() == 7);
    // [PolygonInteriorCoveringUpTo]
  }
  {
    // [operator==]
    CellUnion park = CellUnion::FromTokens("1"), pond = CellUnion::FromTokens("14");
    check(park != pond && park == pond.Union(park));
    // [operator==]
  }
  {
    // [order]
    CellUnion park = CellUnion::FromTokens("1"), pond = CellUnion::FromTokens("14");
    check(park < pond && std::set<CellUnion>({pond, park, pond}).size() == 2);
    // [order]
  }
  {
    // [Encode]
    std::string out;
    CellUnion::FromTokens("04 14").Encode(&out);
    check(out == bytes);
    // [Encode]
  }
  {
    // [Decode]
    CellUnion union_of_file;
    check(union_of_file.Decode(bytes.data(), bytes.size()) && union_of_file.Tokens() == "04 14");
    check(!union_of_file.Decode(bytes.data(), 24));
    // [Decode]
  }
  {
    // [Decode of S2]
    std::string both = bytes + bytes;
    Decoder decoder(both.data(), both.size());
    CellUnion first;
    check(first.Decode(&decoder) && first.size() == 2 && decoder.avail() == bytes.size());
    // [Decode of S2]
  }
  {
    // [ToString]
    CellUnion half = CellUnion::FromTokens("04 0c");
    check(half.ToString() == "Size:2 S2CellIds:04,0c");
    // [ToString]
  }
  {
    // [Tokens]
    check(CellUnion(std::vector<uint64_t>{0x0c00000000000000, 0x0400000000000000}).Tokens() == "04 0c");
    // [Tokens]
  }
  {
    // [FromTokens]
    check(CellUnion::FromTokens("0c, 0/0").Tokens() == "04 0c");
    int32_t status;
    check(CellUnion::FromTokens("0c, x", &status).empty() && status == S2U_NO_CELL);
    // [FromTokens]
  }
  {
    // [operator<<]
    CellUnion half = CellUnion::FromTokens("04 0c");
    std::ostringstream out;
    out << half;
    check(out.str() == "Size:2 S2CellIds:04,0c");
    // [operator<<]
  }
  {
    // [IsNormalized of a list]
    check(CellUnion::IsNormalized({0x0400000000000000, 0x0c00000000000000}));
    check(!CellUnion::IsNormalized({0x0c00000000000000, 0x0400000000000000}));
    // [IsNormalized of a list]
  }
  {
    // [Normalize of a list]
    std::vector<uint64_t> cells = {0x0c00000000000000, 0x0400000000000000, 0x0c00000000000000};
    CellUnion::Normalize(&cells);
    check(cells == std::vector<uint64_t>({0x0400000000000000, 0x0c00000000000000}));
    // [Normalize of a list]
  }
  {
    // [Denormalize of a list]
    std::vector<uint64_t> cells = {0x1000000000000000};
    CellUnion::Denormalize(cells, 1, 1, &cells);
    check(cells.size() == 4);
    // [Denormalize of a list]
  }
  {
    // [GetIntersection]
    std::vector<uint64_t> shared;
    CellUnion::GetIntersection({0x0400000000000000, 0x1400000000000000}, {0x1000000000000000}, &shared);
    check(shared == std::vector<uint64_t>({0x0400000000000000, 0x1400000000000000}));
    // [GetIntersection]
  }
  {
    // [Difference of lists]
    const S2CellUnion face({S2CellId(0x1000000000000000)}), land({S2CellId(0x0400000000000000)});
    const std::vector<S2CellId> rest = s2union::Difference(face.cell_ids(), land.cell_ids());
    check(rest.size() == 3 && s2union::Difference(face, land).cell_ids() == rest);
    // [Difference of lists]
  }
  {
    // [UnionFile]
    UnionFile held(bytes.data(), bytes.size());
    int32_t status;
    check(held.size() == 2 && UnionFile(bytes.data(), 24, &status).empty() && status == S2U_FILE_SHORT);
    // [UnionFile]
  }
  {
    // [UnionFile.size]
    UnionFile held(bytes.data(), bytes.size());
    check(held.size() == 2);
    // [UnionFile.size]
  }
  {
    // [UnionFile.empty]
    UnionFile held(bytes.data(), bytes.size());
    check(!held.empty());
    // [UnionFile.empty]
  }
  {
    // [UnionFile.num_cells]
    UnionFile held(bytes.data(), bytes.size());
    check(held.num_cells() == 2);
    // [UnionFile.num_cells]
  }
  {
    // [UnionFile.cell_id]
    UnionFile held(bytes.data(), bytes.size());
    check(held.cell_id(1) == 0x1400000000000000 && held.cell_id(2) == 0);
    // [UnionFile.cell_id]
  }
  {
    // [UnionFile.Union]
    UnionFile held(bytes.data(), bytes.size());
    check(held.Union().Tokens() == "04 14");
    // [UnionFile.Union]
  }
  {
    // [Zones]
    check(s2union::Zones().size() == 0);
    // [Zones]
  }
  {
    // [Zones.fault]
    s2union::Zones zones;
    const double open[] = {2, 48, 3, 48, 3, 49, 2, 49};
    const s2u_cover_ring ring = {4, 0};
    int32_t status;
    zones.Add(s2u_cover_shape{open, &ring, 1}, &status);
    check(status == S2U_COVER_OPEN && zones.fault().ring == 0 && zones.fault().position == 3);
    // [Zones.fault]
  }
  {
    // [Zones.Add]
    s2union::Zones zones;
    check(zones.Add(std::string_view("\1\7\0\0\0\0\0\0\0", 9)) == 0); // a collection of nothing
    // [Zones.Add]
  }
  {
    // [Zones.Add of rings]
    s2union::Zones zones;
    const double corners[] = {2, 48, 3, 48, 3, 49, 2, 48};
    const s2u_cover_ring ring = {4, 0};
    check(zones.Add(s2u_cover_shape{corners, &ring, 1}) == 0 && zones.size() == 1);
    // [Zones.Add of rings]
  }
  {
    // [Zones.AddBox]
    s2union::Zones fiji;
    fiji.AddBox(177, -19, -179, -16);
    check(fiji.Pairs({180}, {-17}, true).size() == 1);
    // [Zones.AddBox]
  }
  {
    // [Zones.Pairs]
    s2union::Zones zones;
    zones.AddBox(2, 48, 3, 49);
    zones.AddBox(2.5, 48, 4, 50);
    const auto pairs = zones.Pairs({0, 2.7}, {0, 48.5}, true);
    check(pairs.size() == 2 && pairs[0].point == 1 && pairs[0].zone == 0 && pairs[1].zone == 1);
    // [Zones.Pairs]
  }
  // examples: all others but file_count
  return report();
}
