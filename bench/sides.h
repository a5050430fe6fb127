// The same calls for both libraries, on lists of identifiers: `ours` is the proved one, `peer` is S2.
#pragma once
#include <s2/encoded_s2cell_id_vector.h>
#include <s2/s2cell_id.h>
#include <s2/s2cell_union.h>
#include <s2/util/coding/coder.h>
#include <s2union.h>

#include <cstdio>
#include <cstdlib>

#include "workload.h"

struct Bounds {
  uint8_t face;
  uint32_t i0, i1, j0, j1;
};

inline void must(bool made, const char* call) {
  if (made) return;
  fprintf(stderr, "%s made nothing\n", call);
  exit(1);
}

inline void made(int32_t status, const char* call) {
  if (status < 0) fprintf(stderr, "%s\n", s2u_status_text(status));
  must(status >= 0, call);
}

inline std::vector<S2CellId> peer_cells(const List& ids) {
  std::vector<S2CellId> cells;
  cells.reserve(ids.size());
  for (u64 id : ids) cells.push_back(S2CellId(id));
  return cells;
}

inline S2CellUnion peer_union(const List& ids) { return S2CellUnion::FromVerbatim(peer_cells(ids)); }

using PeerCells = std::vector<S2CellId>;

// S2's best way to take the bytes of a union file that a stranger hands over: it sorts only what isn't normalized.
inline void peer_decode(const std::vector<uint8_t>& bytes, S2CellUnion* cells) {
  Decoder decoder(bytes.data(), bytes.size());
  must(cells->Decode(&decoder), "Decode");
  for (S2CellId cell : *cells) must(cell.is_valid(), "Decode");
  if (!cells->IsNormalized()) cells->Normalize();
}

// How many of the cells, which are in order, S2's union contains: a walk over it, by steps of one, and by a search from
// there where the next cell is far.
inline u64 peer_walk(const S2CellUnion& peer, const List& asked) {
  const PeerCells& ids = peer.cell_ids();
  auto is_before = [](S2CellId x, S2CellId y) { return x.range_max() < y.range_min(); };
  u64 count = 0;
  auto at = ids.begin();
  for (u64 id : asked) {
    S2CellId cell(id);
    for (int steps = 0; at != ids.end() && is_before(*at, cell); steps++)
      at = steps < 8 ? at + 1 : std::lower_bound(at, ids.end(), cell, is_before);
    count += at != ids.end() && at->contains(cell);
  }
  return count;
}

inline List ids_of(const std::vector<S2CellId>& cells) {
  List ids;
  ids.reserve(cells.size());
  for (S2CellId cell : cells) ids.push_back(cell.id());
  return ids;
}

inline List ids_of(const S2CellUnion& cells) { return ids_of(cells.cell_ids()); }

using PeerOperation = S2CellUnion (S2CellUnion::*)(const S2CellUnion&) const;
using SetCall = int32_t (*)(const u64*, size_t, const u64*, size_t, u64*, size_t, size_t*);
using PairCall = int32_t (*)(const u64*, size_t, const u64*, size_t);
using CellCall = int32_t (*)(const u64*, size_t, u64);
using CellsCall = int32_t (*)(const u64*, size_t, const u64*, size_t, uint8_t*, size_t, size_t*);
using RectangleCall = int32_t (*)(const s2u_rect*, uint32_t, size_t, u64*, size_t, size_t*);
using ClippedCall = int32_t (*)(const u64*, size_t, const s2u_rect*, uint32_t, size_t, u64*, size_t, size_t*);

// A list that the proved library fills.
class Room {
 public:
  explicit Room(size_t cells) : list_(cells) {}

  u64* at() { return list_.data(); }
  size_t size() const { return list_.size(); }
  size_t* len() { return &len_; }
  List made() const { return List(list_.begin(), list_.begin() + len_); }
  const u64* begin() const { return list_.data(); }
  const u64* end() const { return list_.data() + len_; }

 private:
  List list_;
  size_t len_ = 0;
};

inline s2u_rect rect_of(const Bounds& bounds) {
  return {bounds.face, bounds.i0, bounds.i1, bounds.j0, bounds.j1};
}

// Puts what a call makes of two unions into the room.
inline void put(SetCall call, const List& xs, const List& ys, Room& room, const char* name) {
  made(call(xs.data(), xs.size(), ys.data(), ys.size(), room.at(), room.size(), room.len()), name);
}

inline bool is_so(PairCall call, const List& xs, const List& ys) {
  return call(xs.data(), xs.size(), ys.data(), ys.size()) == 1;
}

// The covering of a rectangle.
inline void cover(RectangleCall call, const Bounds& bounds, int level, Room& room) {
  const s2u_rect rect = rect_of(bounds);
  made(call(&rect, level, S2U_MOST_COVERING, room.at(), room.size(), room.len()), "covering");
}

// The covering of what a union and a rectangle share.
inline void cover_clipped(ClippedCall call, const List& ids, const Bounds& bounds, int level, Room& room) {
  const s2u_rect rect = rect_of(bounds);
  made(call(ids.data(), ids.size(), &rect, level, S2U_MOST_COVERING, room.at(), room.size(), room.len()), "clipped");
}
