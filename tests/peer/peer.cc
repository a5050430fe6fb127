// The proved library and S2 asked the same random questions: peer [CASES [SEED]]. It stops at the first answer that
// differs.
#include "rectangle.h"
#include "sides.h"

static const char* question = "";

static std::string text_of(const List& ids) {
  std::string text;
  for (u64 id : ids) text += S2CellId(id).ToString() + " ";
  return text.empty() ? "nothing" : text;
}

template <typename Value>
static void same(const Value& proved, const Value& peer, const std::string& about) {
  if (proved == peer) return;
  fprintf(stderr, "%s differs for %s\n", question, about.c_str());
  exit(1);
}

static void same_cells(const Room& proved, const List& peer, const std::string& about) {
  if (proved.made() == peer) return;
  fprintf(stderr, "%s differs for %s\n  proved  %s\n  S2      %s\n", question, about.c_str(),
          text_of(proved.made()).c_str(), text_of(peer).c_str());
  exit(1);
}

static Room room(4000000);

static void cells(Random& random) {
  uint8_t face = random.below(6);
  uint32_t i = random.coordinate(), j = random.coordinate();
  S2CellId leaf = S2CellId::FromFaceIJ(face, i, j);
  std::string place = std::to_string(face) + " " + std::to_string(i) + " " + std::to_string(j);
  question = "from_face_ij";
  same(s2u_from_face_ij(face, i, j), u64{leaf.id()}, place);

  S2CellId cell(random.cell(0, 30));
  std::string about = cell.ToString();
  s2u_square square;
  made(s2u_square_of(cell.id(), &square), "square");
  int si, sj, sface = cell.ToFaceIJOrientation(&si, &sj, nullptr), size = cell.GetSizeIJ();
  question = "square";
  same<u64>(square.face, sface, about);
  same<u64>(square.i, si & -size, about);
  same<u64>(square.j, sj & -size, about);
  same<u64>(square.size, size, about);
}

static void read_text(FromText from_text, const std::string& text, S2CellId peer) {
  u64 id = 0;
  bool found = from_text(text.data(), text.size(), &id) == S2U_OK;
  same(found, peer.is_valid(), "'" + text + "'");
  if (found) same(id, u64{peer.id()}, "'" + text + "'");
}

// The text with one of its bytes replaced by another.
static std::string spoilt(Random& random, std::string text, const std::string& bytes) {
  text[random.below(text.size())] = bytes[random.below(bytes.size())];
  return text;
}

static void texts(Random& random) {
  S2CellId cell(random.cell(0, 30));
  char text[S2U_MOST_DEBUG];
  size_t len = 0;
  question = "token";
  made(s2u_token(cell.id(), text, sizeof text, &len), question);
  std::string token(text, text + len);
  same(token, cell.ToToken(), cell.ToString());
  question = "from_token";
  read_text(s2u_from_token, token, cell);
  std::string other = spoilt(random, token, "0123456789abcdefABCDEF");
  read_text(s2u_from_token, other, S2CellId::FromToken(other));

  question = "debug";
  made(s2u_debug(cell.id(), text, sizeof text, &len), question);
  std::string debug(text, text + len);
  same(debug, cell.ToString(), token);
  question = "from_debug";
  read_text(s2u_from_debug, debug, cell);
  other = spoilt(random, debug, "01234567/");
  read_text(s2u_from_debug, other, S2CellId::FromDebugString(other));
}

// Cells close to one another, so that some contain others and some are all children of one parent.
static List near_cells(Random& random, u64 around) {
  int top = S2CellId(around).level(), deep = std::min(30, top + 1 + static_cast<int>(random.below(4)));
  List list(random.below(60));
  for (u64& id : list) {
    int level = top + random.below(deep - top + 1);
    u64 leaf = S2CellId(around).range_min().id() + 2 * random.below(lowest_bit(around));
    id = parent_of(leaf, level);
  }
  return list;
}

static List normal(const List& ids) { return ids_of(S2CellUnion(peer_cells(ids))); }

static void operations(const List& xs, const List& ys) {
  S2CellUnion x = peer_union(xs), y = peer_union(ys);
  std::string about = text_of(xs) + "and " + text_of(ys);
  auto ask = [&](const char* name, SetCall proved, const S2CellUnion& peer) {
    question = name;
    put(proved, xs, ys, room, name);
    same_cells(room, ids_of(peer), about);
  };
  ask("union", s2u_union, x.Union(y));
  ask("intersection", s2u_intersection, x.Intersection(y));
  ask("difference", s2u_difference, x.Difference(y));
  auto ask_whether = [&](const char* name, PairCall proved, bool peer) {
    question = name;
    same<int32_t>(proved(xs.data(), xs.size(), ys.data(), ys.size()), peer, about);
  };
  ask_whether("contains", s2u_contains, x.Contains(y));
  ask_whether("intersects", s2u_intersects, x.Intersects(y));
}

// Which of the cells a union contains, and which it shares a leaf with.
static void questions_of_cells(const List& xs, const List& cells) {
  S2CellUnion x = peer_union(xs);
  auto contains = [&](u64 cell) { return x.Contains(S2CellId(cell)); };
  auto intersects = [&](u64 cell) { return x.Intersects(S2CellId(cell)); };
  auto ask = [&](const char* name, CellsCall proved, auto peer) {
    std::vector<uint8_t> answers(cells.size(), 7);
    size_t bad = 0;
    question = name;
    made(proved(xs.data(), xs.size(), cells.data(), cells.size(), answers.data(), cells.size(), &bad), name);
    for (size_t k = 0; k < cells.size(); k++)
      same<int>(answers[k], peer(cells[k]), text_of(xs) + "and " + text_of({cells[k]}));
  };
  ask("contains_cells", s2u_contains_cells, contains);
  ask("intersects_cells", s2u_intersects_cells, intersects);
}

static void unions(Random& random) {
  u64 around = random.cell(0, 29);
  List given = near_cells(random, around), others = near_cells(random, around);
  List xs = normal(given), ys = normal(others);
  question = "normalise";
  std::copy(given.begin(), given.end(), room.at());
  made(s2u_normalise(room.at(), given.size(), room.len()), question);
  same_cells(room, xs, text_of(given));
  operations(xs, ys);
  questions_of_cells(xs, others);

  S2CellUnion x = peer_union(xs);
  int min = std::min(30, S2CellId(around).level() + static_cast<int>(random.below(5))), modulus = 1 + random.below(3);
  std::vector<S2CellId> cut;
  x.Denormalize(min, modulus, &cut);
  std::string about = text_of(xs) + "at " + std::to_string(min) + " by " + std::to_string(modulus);
  question = "denormalised";
  made(s2u_denormalised(xs.data(), xs.size(), min, modulus, room.at(), room.size(), room.len()), question);
  same_cells(room, ids_of(cut), about);
}

// How many files had the same bytes, and how many of the other's files each side could read.
static long files_same, files_read_by_s2, files_of_s2_read;

static void files(Random& random) {
  List given = near_cells(random, random.cell(0, 29)), xs = normal(given);
  std::vector<uint8_t> bytes(S2U_FILE_SIZE(xs.size()));
  size_t len = 0;
  Encoder encoder;
  peer_union(xs).Encode(&encoder);
  std::string file(encoder.base(), encoder.length());
  question = "encode";
  made(s2u_encode(xs.data(), xs.size(), bytes.data(), bytes.size(), &len), question);
  same(std::string(bytes.begin(), bytes.begin() + len), file, text_of(xs));
  files_same++;
  question = "S2's Decode";
  Decoder decoder(bytes.data(), len);
  S2CellUnion read;
  must(read.Decode(&decoder) && read == peer_union(xs), question);
  files_read_by_s2++;
  question = "decode";
  Encoder unsorted;
  peer_union(given).Encode(&unsorted);
  const uint8_t* start = reinterpret_cast<const uint8_t*>(unsorted.base());
  made(s2u_decode(start, unsorted.length(), room.at(), room.size(), room.len()), question);
  same_cells(room, xs, text_of(given));
  files_of_s2_read++;
}

static void ranges(Random& random) {
  u64 a = random.leaf(), b = random.leaf();
  if (random.below(2) == 0) b = a + 2 * random.below(5000);
  if (b >> 61 > 5) b = a;
  u64 first = std::min(a, b), last = std::max(a, b);
  question = "range";
  made(s2u_range(first, last, room.at(), room.size(), room.len()), question);
  same_cells(room, ids_of(S2CellUnion::FromMinMax(S2CellId(first), S2CellId(last))), text_of({first, last}));
}

// The coverings of what a rectangle shares with a union of cells around cells of its outer covering and in them. By S2
// they are the shared cells of the rectangle's and the union's, and around each deeper cell that meets the rectangle.
static void clipped_coverings(Random& random, const Bounds& r, int level, const S2CellUnion& outer,
                              const S2CellUnion& inner, const std::string& rectangle) {
  List given;
  for (uint32_t k = random.below(5); k > 0; k--) {
    S2CellId cell = outer.cell_id(random.below(outer.num_cells()));
    List near = near_cells(random, cell.parent(std::max(0, cell.level() - int(random.below(3)))).id());
    given.insert(given.end(), near.begin(), near.end());
  }
  List ids = normal(given);
  std::vector<S2CellId> whole, cut;
  for (S2CellId cell : peer_cells(ids)) {
    if (cell.level() <= level) whole.push_back(cell);
    else if (part_of(r, cell) != Part::Out) cut.push_back(cell.parent(level));
  }
  S2CellUnion kept(std::move(whole));
  std::string about = rectangle + " in " + text_of(ids);
  question = "outer_in";
  cover_clipped(s2u_outer_in, ids, r, level, room);
  same_cells(room, ids_of(kept.Intersection(outer).Union(S2CellUnion(std::move(cut)))), about);
  question = "inner_in";
  cover_clipped(s2u_inner_in, ids, r, level, room);
  same_cells(room, ids_of(kept.Intersection(inner)), about);
}

static void coverings(Random& random) {
  int bits = 1 + random.below(30);
  uint32_t side = 1u << 30, most = 1u << bits;
  auto bounds = [&](uint32_t* least, uint32_t* greatest) {
    *least = random.below(side);
    *greatest = *least + random.below(std::min(most, side - *least));
  };
  Bounds r;
  r.face = random.below(6);
  bounds(&r.i0, &r.i1);
  bounds(&r.j0, &r.j1);
  int level = random.below(std::min(30, 30 - bits + 6) + 1);
  std::string about = std::to_string(r.face) + " " + std::to_string(r.i0) + " " + std::to_string(r.i1) + " " +
                      std::to_string(r.j0) + " " + std::to_string(r.j1) + " at " + std::to_string(level);
  auto ask = [&](const char* name, RectangleCall proved, const S2CellUnion& peer) {
    question = name;
    cover(proved, r, level, room);
    same_cells(room, ids_of(peer), about);
  };
  S2CellUnion outer = rectangle_by_coverer(r, level, true), inner = covering_by_descent(r, level, false);
  ask("outer", s2u_outer, outer);
  ask("inner", s2u_inner, inner);
  clipped_coverings(random, r, level, outer, inner, about);
}

int main(int argc, char** argv) {
  long cases = argc > 1 ? atol(argv[1]) : 100000;
  u64 seed = argc > 2 ? strtoull(argv[2], nullptr, 10) : 1;
  Random random(seed);
  for (long k = 0; k < cases; k++) {
    cells(random);
    texts(random);
    unions(random);
    files(random);
    ranges(random);
    if (k % 20 == 0) coverings(random);
  }
  printf("union files: %ld with the bytes of S2's S2CellUnion::Encode, %ld read by S2, %ld of S2's read\n", files_same,
         files_read_by_s2, files_of_s2_read);
  printf("%ld random cases with the seed %llu, none different\n", cases, static_cast<unsigned long long>(seed));
  printf("%ld passed, 0 failed\n", cases);
}
