/* S2's own class of unions with the operations of s2union.hpp in place of its own: S2's own tests are linked with this.
 *
 * S2's file s2cell_union.cc is linked too, with weak symbols, so what is defined here takes the place of what it
 * defines, and its geometry stays. A list that is not normalized, which only FromVerbatim makes, is left to S2's own
 * code, here under another name; how often that happened is printed at the end. */
#include <s2union.hpp>

#include <cstdio>

#include "absl/flags/flag.h"
#include "absl/strings/str_cat.h"
#include "s2/base/integral_types.h"
#include "s2/base/logging.h"
#include "s2/s1angle.h"
#include "s2/s2cap.h"
#include "s2/s2cell.h"
#include "s2/s2cell_id.h"
#include "s2/s2cell_union.h"
#include "s2/s2latlng_rect.h"
#include "s2/s2metrics.h"
#include "s2/util/coding/coder.h"

#undef S2_S2CELL_UNION_H_
#define S2CellUnion S2OwnUnion
#define s2cell_union_decode_max_num_cells s2_own_union_decode_max_num_cells
#include "s2/s2cell_union.cc"
#undef S2CellUnion
#undef s2cell_union_decode_max_num_cells

namespace {

using Proved = s2union::CellUnionOf<S2CellId>;
using Cells = std::vector<S2CellId>;

struct Calls {
  size_t answered = 0, left = 0;
  ~Calls() { printf("calls: %zu answered by s2union.hpp, %zu left to S2's own code\n", answered, left); }
} calls;

/// Whether the header answers a call, which it does where the lists are normalized.
bool answers(bool is_normalized) {
  (is_normalized ? calls.answered : calls.left)++;
  return is_normalized;
}
bool answers(const Cells& x) { return answers(Proved::IsNormalized(x)); }
bool answers(const Cells& x, const Cells& y) { return answers(Proved::IsNormalized(x) && Proved::IsNormalized(y)); }

S2OwnUnion own(const S2CellUnion& x) { return S2OwnUnion::FromVerbatim(x.cell_ids()); }
S2CellUnion again(const S2OwnUnion& x) { return S2CellUnion::FromVerbatim(x.cell_ids()); }
S2CellUnion again(const Proved& x) { return S2CellUnion(x); }

}  // namespace

S2CellUnion S2CellUnion::WholeSphere() { return again(Proved::WholeSphere()); }

void S2CellUnion::Init(const std::vector<uint64>& cell_ids) { cell_ids_ = Proved(cell_ids).Release(); }

void S2CellUnion::InitFromMinMax(S2CellId min_id, S2CellId max_id) {
  answers(true);
  Proved made = Proved::FromMinMax(min_id, max_id);
  S2_CHECK_EQ(made, Proved::FromBeginEnd(min_id, max_id.next()));
  cell_ids_ = made.Release();
}

void S2CellUnion::InitFromBeginEnd(S2CellId begin, S2CellId end) {
  answers(true);
  cell_ids_ = Proved::FromBeginEnd(begin, end).Release();
}

bool S2CellUnion::IsNormalized() const { return Proved::IsNormalized(cell_ids_); }

void S2CellUnion::Normalize(Cells* ids) {
  answers(true);
  Proved::Normalize(ids);
}

void S2CellUnion::Denormalize(const Cells& in, int min_level, int level_mod, Cells* out) {
  if (answers(in)) return Proved::Denormalize(in, min_level, level_mod, out);
  S2OwnUnion::Denormalize(in, min_level, level_mod, out);
}

bool S2CellUnion::Contains(S2CellId id) const {
  return answers(cell_ids_) ? s2union::ContainsCell(cell_ids_, id) : own(*this).Contains(id);
}

bool S2CellUnion::Intersects(S2CellId id) const {
  return answers(cell_ids_) ? s2union::IntersectsCell(cell_ids_, id) : own(*this).Intersects(id);
}

bool S2CellUnion::Contains(const S2CellUnion& y) const {
  return answers(cell_ids_, y.cell_ids_) ? s2union::Contains(cell_ids_, y.cell_ids_) : own(*this).Contains(own(y));
}

bool S2CellUnion::Intersects(const S2CellUnion& y) const {
  return answers(cell_ids_, y.cell_ids_) ? s2union::Intersects(cell_ids_, y.cell_ids_) : own(*this).Intersects(own(y));
}

S2CellUnion S2CellUnion::Union(const S2CellUnion& y) const {
  answers(true);
  return again(Proved(*this).Union(y));
}

S2CellUnion S2CellUnion::Intersection(S2CellId id) const {
  return answers(cell_ids_) ? again(Proved(*this).Intersection(id)) : again(own(*this).Intersection(id));
}

S2CellUnion S2CellUnion::Intersection(const S2CellUnion& y) const {
  if (answers(cell_ids_, y.cell_ids_)) return again(Proved(*this).Intersection(y));
  return again(own(*this).Intersection(own(y)));
}

void S2CellUnion::GetIntersection(const Cells& x, const Cells& y, Cells* out) {
  if (answers(x, y)) return Proved::GetIntersection(x, y, out);
  S2OwnUnion::GetIntersection(x, y, out);
}

S2CellUnion S2CellUnion::Difference(const S2CellUnion& y) const {
  if (answers(cell_ids_, y.cell_ids_)) return FromVerbatim(s2union::Difference(cell_ids_, y.cell_ids_));
  return again(own(*this).Difference(own(y)));
}

uint64 S2CellUnion::LeafCellsCovered() const {
  return answers(cell_ids_) ? Proved(*this).LeafCellsCovered() : own(*this).LeafCellsCovered();
}

bool operator==(const S2CellUnion& x, const S2CellUnion& y) {
  return answers(x.cell_ids_, y.cell_ids_) ? Proved(x) == Proved(y) : own(x) == own(y);
}

bool operator!=(const S2CellUnion& x, const S2CellUnion& y) { return !(x == y); }

void S2CellUnion::Encode(Encoder* const encoder) const {
  if (answers(cell_ids_)) return Proved(*this).Encode(encoder);
  own(*this).Encode(encoder);
}

/// A file of more cells than a flag of S2's allows is left to S2, since the header has no such limit.
bool S2CellUnion::Decode(Decoder* const decoder) {
  const auto most = static_cast<uint64>(absl::GetFlag(FLAGS_s2cell_union_decode_max_num_cells));
  if (!answers(decoder->avail() <= S2U_FILE_SIZE(most))) {
    S2OwnUnion decoded;
    bool is_taken = decoded.Decode(decoder);
    cell_ids_ = decoded.Release();
    return is_taken;
  }
  Proved decoded;
  bool is_taken = decoded.Decode(decoder);
  if (is_taken) cell_ids_ = decoded.Release();
  return is_taken;
}

std::string S2CellUnion::ToString() const {
  return answers(cell_ids_) ? Proved(*this).ToString() : own(*this).ToString();
}
