// S2 and the proved library on the same work, in one run: bench/README.md describes the rows.
#include "rectangle.h"
#include "sides.h"
#include "sizes.h"
#include "table.h"

static const size_t N = 1000000;

static u64 sum_of(const List& list) { return Sum().add_all(list).value(); }
static u64 sum_of(const S2CellUnion& cells) { return sum_of(ids_of(cells)); }
static u64 packed(u64 face, u64 i, u64 j) { return face << 60 | i << 30 | j; }

static S2CellUnion normalised(const List& list) { return S2CellUnion(peer_cells(list)); }

struct Place {
  uint8_t face;
  uint32_t i, j;
};

static void places(Table& table) {
  Random random(1);
  std::vector<Place> places(N);
  for (Place& p : places) {
    p.face = random.below(6);
    p.i = random.coordinate();
    p.j = random.coordinate();
  }
  List a(N), b(N);
  table.row({"from_face_ij", N, 0x7830da93e3796d2c},
            {[&] {
               for (size_t k = 0; k < N; k++)
                 a[k] = S2CellId::FromFaceIJ(places[k].face, places[k].i, places[k].j).id();
             },
             [&] { return sum_of(a); }},
            {[&] {
               for (size_t k = 0; k < N; k++) b[k] = s2u_from_face_ij(places[k].face, places[k].i, places[k].j);
             },
             [&] { return sum_of(b); }});
  u64 last_a = 0, last_b = 0;
  auto chained = [&](u64* last, auto call) {
    u64 h = 0;
    for (const Place& p : places) h = call(p.face, p.i ^ (h >> 40 & 1), p.j);
    *last = h;
  };
  table.row({"from_face_ij_chained", N, 0x19bce297ab5651cd},
            {[&] {
               chained(&last_a, [](uint8_t f, uint32_t i, uint32_t j) { return S2CellId::FromFaceIJ(f, i, j).id(); });
             },
             [&] { return last_a; }},
            {[&] { chained(&last_b, s2u_from_face_ij); }, [&] { return last_b; }});
}

static void squares(Table& table) {
  List a(N), b(N);
  auto row = [&](Row it, const List& ids) {
    table.row(it,
              {[&] {
                 for (size_t k = 0; k < N; k++) {
                   S2CellId cell(ids[k]);
                   int i, j, face = cell.ToFaceIJOrientation(&i, &j, nullptr), size = cell.GetSizeIJ();
                   a[k] = packed(face, i & -size, j & -size);
                 }
               }, [&] { return sum_of(a); }},
              {[&] {
                 for (size_t k = 0; k < N; k++) {
                   s2u_square square;
                   must(s2u_square_of(ids[k], &square) == S2U_OK, it.name);
                   b[k] = packed(square.face, square.i, square.j);
                 }
               }, [&] { return sum_of(b); }});
  };
  Random leaves(2);
  List ids(N);
  for (u64& id : ids) id = leaves.leaf();
  row({"square_of_leaf", N, 0x4d6129f6e9f8d588}, ids);
}

// Texts side by side, each with room for 32 bytes.
struct Texts {
  std::vector<char> bytes = std::vector<char>(32 * N);
  std::vector<size_t> lens = std::vector<size_t>(N);

  std::string at(size_t k) const { return std::string(&bytes[32 * k], lens[k]); }
  u64 sum() const {
    Sum sum;
    for (size_t k = 0; k < N; k++) sum.add_text(at(k));
    return sum.value();
  }
};

static void texts(Table& table) {
  List ids = Random(3).cells(N, 0, 30), a(N), b(N);
  std::vector<std::string> peer(N);
  auto sum_of_texts = [&] {
    Sum sum;
    for (const std::string& text : peer) sum.add_text(text);
    return sum.value();
  };
  Texts proved;
  table.row({"token", N, 0xd45cf93fd9fd52c1},
            {[&] {
               for (size_t k = 0; k < N; k++) peer[k] = S2CellId(ids[k]).ToToken();
             },
             sum_of_texts},
            {[&] {
               for (size_t k = 0; k < N; k++)
                 must(s2u_token(ids[k], &proved.bytes[32 * k], 32, &proved.lens[k]) == S2U_OK, "token");
             },
             [&] { return proved.sum(); }});
  for (size_t k = 0; k < N; k++) peer[k] = S2CellId(ids[k]).ToToken();
  table.row({"from_token", N, 0xe714663334a73aec},
            {[&] {
               for (size_t k = 0; k < N; k++) a[k] = S2CellId::FromToken(peer[k]).id();
             },
             [&] { return sum_of(a); }},
            {[&] {
               for (size_t k = 0; k < N; k++)
                 must(s2u_from_token(peer[k].data(), peer[k].size(), &b[k]) == S2U_OK, "from_token");
             },
             [&] { return sum_of(b); }});
}

static void normalising(Table& table) {
  Room room(1100000);
  S2CellUnion normal;
  auto row = [&](Row it, const List& list) {
    std::vector<S2CellId> cells = peer_cells(list);
    table.row(it, {[&] { normal = S2CellUnion(cells); }, [&] { return sum_of(normal); }},
              {[&] {
                 std::copy(list.begin(), list.end(), room.at());
                 made(s2u_normalise(room.at(), list.size(), room.len()), it.name);
               },
               [&] { return sum_of(room.made()); }});
  };
  List shuffled = Random(4).cells(N, 14, 20), sorted = shuffled;
  std::sort(sorted.begin(), sorted.end());
  row({"normalise_sorted", N, 0x0a3d9902386a5f06}, sorted);
  row({"normalise_shuffled", N, 0x0a3d9902386a5f06}, shuffled);
  List level(1048576);
  for (size_t m = 0; m < level.size(); m++) level[m] = cell_at(10, m);
  row({"normalise_one_face_sorted", level.size(), 0x5000000000000000}, level);
  Random(5).shuffle(level);
  row({"normalise_one_face_shuffled", level.size(), 0x5000000000000000}, level);
}

// The unions that the set operations are measured on.
struct Unions {
  List x = ids_of(normalised(Random(6).cells_of(0, 130000, 8, 14)));
  List y = ids_of(normalised(Random(7).cells_of(0, 130000, 8, 14)));
  List far = ids_of(normalised(Random(8).cells_of(3, 130000, 8, 14)));
  List even, odd, inside, face = {cell_at(0, 0)};

  Unions() {
    for (u64 n = 0; n < 100000; n++) {
      even.push_back(cell_at(12, 4 * n));
      odd.push_back(cell_at(12, 4 * n + 2));
    }
    for (u64 id : x) inside.push_back(child_of(child_of(id, 1), 2));
  }
};

static void sets(Table& table, const Unions& u) {
  Room room(2000000);
  S2CellUnion made;
  auto row = [&](Row it, const List& xs, const List& ys, PeerOperation peer, SetCall proved) {
    S2CellUnion x = peer_union(xs), y = peer_union(ys);
    it.units = xs.size() + ys.size();
    table.row(it, {[&] { made = (x.*peer)(y); }, [&] { return sum_of(made); }},
              {[&] { put(proved, xs, ys, room, it.name); }, [&] { return sum_of(room.made()); }});
  };
  row({"union_random", 0, 0}, u.x, u.y, &S2CellUnion::Union, s2u_union);
  row({"union_alternating", 0, 0}, u.even, u.odd, &S2CellUnion::Union, s2u_union);
  row({"union_disjoint", 0, 0}, u.x, u.far, &S2CellUnion::Union, s2u_union);
  row({"union_inside", 0, 0}, u.x, u.inside, &S2CellUnion::Union, s2u_union);
  PeerOperation intersection = &S2CellUnion::Intersection;
  row({"intersection_random", 0, 0}, u.x, u.y, intersection, s2u_intersection);
  row({"intersection_alternating", 0, 0}, u.even, u.odd, intersection, s2u_intersection);
  row({"intersection_disjoint", 0, 0}, u.x, u.far, intersection, s2u_intersection);
  row({"intersection_inside", 0, 0}, u.x, u.inside, intersection, s2u_intersection);
  row({"difference_random", 0, 0}, u.x, u.y, &S2CellUnion::Difference, s2u_difference);
  row({"difference_alternating", 0, 0}, u.even, u.odd, &S2CellUnion::Difference, s2u_difference);
  row({"difference_disjoint", 0, 0}, u.x, u.far, &S2CellUnion::Difference, s2u_difference);
  row({"difference_inside", 0, 0}, u.x, u.inside, &S2CellUnion::Difference, s2u_difference);
  row({"difference_from_face", 0, 0}, u.face, u.y, &S2CellUnion::Difference, s2u_difference);
}

static void union_questions(Table& table, const Unions& u) {
  bool a = false, b = false;
  auto row = [&](Row it, const List& xs, const List& ys, bool (S2CellUnion::*peer)(const S2CellUnion&) const,
                 PairCall proved) {
    S2CellUnion x = peer_union(xs), y = peer_union(ys);
    it.units = xs.size() + ys.size();
    table.row(it, {[&] { a = (x.*peer)(y); }, [&] { return Sum().add(a).value(); }},
              {[&] { b = is_so(proved, xs, ys); }, [&] { return Sum().add(b).value(); }});
  };
  row({"contains_union_inside", 0, Sum().add(1).value()}, u.x, u.inside, &S2CellUnion::Contains, s2u_contains);
  row({"contains_union_itself", 0, Sum().add(1).value()}, u.x, u.x, &S2CellUnion::Contains, s2u_contains);
  row({"intersects_union_apart", 0, Sum().add(0).value()}, u.even, u.odd, &S2CellUnion::Intersects, s2u_intersects);
}

static void denormalising(Table& table, const Unions& u) {
  S2CellUnion x = peer_union(u.x);
  Room room(1500000);
  std::vector<S2CellId> cells;
  auto row = [&](Row it, int min, int modulus) {
    table.row(it,
              {[&] { x.Denormalize(min, modulus, &cells); }, [&] { return sum_of(ids_of(cells)); }},
              {[&] {
                 made(s2u_denormalised(u.x.data(), u.x.size(), min, modulus, room.at(), room.size(), room.len()),
                      it.name);
               },
               [&] { return sum_of(room.made()); }},
              [&] { return cells.size(); });
  };
  row({"denormalise_level_11", 0, 0x9420967cca17adb5}, 11, 1);
  row({"denormalise_every_third", 0, 0xcf20f4307d92eba9}, 4, 3);
}

static void files(Table& table) {
  List ids = ids_of(normalised(Random(10).cells(N, 14, 20)));
  S2CellUnion cells = peer_union(ids), decoded;
  std::vector<uint8_t> bytes(S2U_FILE_SIZE(ids.size()));
  Encoder encoder;
  auto encode = [&] {
    size_t len = 0;
    made(s2u_encode(ids.data(), ids.size(), bytes.data(), bytes.size(), &len), "encode");
  };
  table.row({"encode", ids.size(), 0x8fa81b1fd1049144},
            {[&] {
               encoder.clear();
               cells.Encode(&encoder);
             },
             [&] {
               const char* first = encoder.base();
               return Sum().add_all(std::vector<uint8_t>(first, first + encoder.length())).value();
             }},
            {encode, [&] { return Sum().add_all(bytes).value(); }});
  encode();
  Room room(ids.size());
  table.row({"decode_and_normalise", ids.size(), 0x2a71494719421e09},
            {[&] { peer_decode(bytes, &decoded); }, [&] { return sum_of(decoded); }},
            {[&] { made(s2u_decode(bytes.data(), bytes.size(), room.at(), room.size(), room.len()), "decode"); },
             [&] { return sum_of(room.made()); }});
}

static void coverings(Table& table) {
  Bounds large = {1, 126420997, 159450117, 401604613, 434633733};
  Room room(300000);
  S2CellUnion made;
  auto row = [&](Row it, bool outer, RectangleCall proved) {
    table.row(it, {[&] { made = covering_by_descent(large, 20, outer); }, [&] { return sum_of(made); }},
              {[&] { cover(proved, large, 20, room); }, [&] { return sum_of(room.made()); }},
              [&] { return made.num_cells(); });
  };
  row({"outer_large", 0, 0x34e7e225fe88cd2f}, true, s2u_outer);
  row({"inner_large", 0, 0xb844960511bf68f7}, false, s2u_inner);

  Random random(11);
  std::vector<Bounds> small(10000);
  for (Bounds& r : small) {
    r.face = random.below(6);
    r.i0 = random.below(1073700000);
    r.j0 = random.below(1073700000);
    r.i1 = r.i0 + random.below(40000);
    r.j1 = r.j0 + random.below(40000);
  }
  Sum a, b;
  size_t cells = 0;
  table.row({"outer_small", 0, 0x3911cab6bd233914},
            {[&] {
               a = Sum();
               for (const Bounds& r : small) for (S2CellId cell : covering_by_descent(r, 18, true)) a.add(cell.id());
             }, [&] { return a.value(); }},
            {[&] {
               b = Sum();
               cells = 0;
               for (const Bounds& r : small) {
                 cover(s2u_outer, r, 18, room);
                 b.add_all(room);
                 cells += *room.len();
               }
             }, [&] { return b.value(); }},
            [&] { return cells; });
}

static void clipped_coverings(Table& table) {
  const int level = 20;
  Bounds bounds = {1, 100000000, 500000000, 200000000, 600000000};
  S2CellUnion cells = normalised(Random(10).cells(N, 14, level));
  List ids = ids_of(cells);
  Room room(300000);
  S2CellUnion made;
  auto row = [&](Row it, bool outer, ClippedCall proved) {
    table.row(it,
              {[&] { made = covering_by_coverer(ClippedRegion(&cells, bounds), level, outer); },
               [&] { return sum_of(made); }},
              {[&] { cover_clipped(proved, ids, bounds, level, room); },
               [&] { return sum_of(room.made()); }},
              [&] { return made.num_cells(); });
  };
  row({"outer_clipped", 0, 0x9ca6eabf3cadbabe}, true, s2u_outer_in);
  row({"inner_clipped", 0, 0x2cd6df40491cb689}, false, s2u_inner_in);
}

static void ranges(Table& table) {
  Random random(12);
  std::vector<std::pair<u64, u64>> ends(100000);
  for (auto& [first, last] : ends) {
    u64 a = random.leaf(), b = random.leaf();
    first = std::min(a, b);
    last = std::max(a, b);
  }
  Room room(1000);
  Sum a, b;
  size_t cells = 0;
  table.row({"range", 0, 0xb789253b3d76d2c2},
            {[&] {
               a = Sum();
               for (auto& [first, last] : ends)
                 for (S2CellId cell : S2CellUnion::FromMinMax(S2CellId(first), S2CellId(last))) a.add(cell.id());
             },
             [&] { return a.value(); }},
            {[&] {
               b = Sum();
               cells = 0;
               for (auto& [first, last] : ends) {
                 made(s2u_range(first, last, room.at(), room.size(), room.len()), "range");
                 b.add_all(room);
                 cells += *room.len();
               }
             },
             [&] { return b.value(); }},
            [&] { return cells; });
}

int main(int argc, char** argv) {
  Table table(argc > 1 ? argv[1] : "", argc > 2 ? atoi(argv[2]) : 5);
  Unions unions;
  places(table);
  squares(table);
  texts(table);
  normalising(table);
  sets(table, unions);
  union_questions(table, unions);
  Sizes(table).rows();
  denormalising(table, unions);
  files(table);
  coverings(table);
  clipped_coverings(table);
  ranges(table);
  return table.status();
}
