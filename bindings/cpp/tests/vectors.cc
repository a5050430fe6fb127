/* The questions of tests/model/vectors.py and edges.py, asked of the unions of s2union.hpp: vectors FILE. Where they
 * have no member, or none that tells the place of an error, the calls of s2union.h are asked. */
#include <s2union.hpp>
#include <fstream>
#include <functional>
#include <iostream>
#include <list>
#include <map>
#include <set>
#include <sstream>

using s2union::CellUnion;
using s2union::UnionFile;
using Cells = std::vector<uint64_t>;

/// The most cells that there may be.
static constexpr size_t kMost = 100000;

/// The names of the statuses, from the rows that have them.
static std::map<int32_t, std::string> names;

static std::string refusal(int32_t status) { return "!" + names.at(status); }
/// A refusal with the place that the call reports.
static std::string refusal(int32_t status, size_t place) {
  return status == S2U_NO_CELL ? refusal(status) + " " + std::to_string(place) : refusal(status);
}

/// The fields of a row between its call and its answer.
struct Given : std::vector<std::string> {
  uint64_t cell(size_t k) const { return std::stoull(at(k), nullptr, 16); }
  template <class Number>
  std::vector<Number> numbers(size_t k, int base) const {
    std::vector<Number> found;
    std::istringstream words(at(k));
    for (std::string word; words >> word;) found.push_back(static_cast<Number>(std::stoull(word, nullptr, base)));
    return found;
  }
  Cells cells(size_t k) const { return numbers<uint64_t>(k, 16); }
  uint32_t number(size_t k, size_t place = 0) const { return numbers<uint32_t>(k, 10).at(place); }
  CellUnion unions(size_t k) const { return CellUnion::FromNormalized(cells(k)); }
  s2u_rect rect(size_t k) const {
    const auto corners = numbers<uint32_t>(k, 10);
    return {corners.at(0), corners.at(1), corners.at(2), corners.at(3), corners.at(4)};
  }
  std::string bytes(size_t k) const {
    std::string found;
    for (size_t at = 0; at < (*this)[k].size(); at += 2) {
      found += static_cast<char>(std::stoi((*this)[k].substr(at, 2), nullptr, 16));
    }
    return found;
  }
  UnionFile file(size_t k) const {
    files.emplace_back();
    unions(k).Encode(&files.back());
    return UnionFile(files.back().data(), files.back().size());
  }

  mutable std::list<std::string> files;  // which have been asked
};

static std::string hexadecimal(uint64_t number, int width = 0) {
  std::ostringstream text;
  text.width(width);
  text.fill('0');
  text << std::hex << number;
  return text.str();
}
static std::string hexadecimal(const std::string& bytes) {
  std::string text;
  for (unsigned char byte : bytes) text += hexadecimal(byte, 2);
  return text;
}
template <class List, class Show>
static std::string joined(const List& list, Show show) {
  std::string text;
  for (const auto& each : list) text += (text.empty() ? "" : " ") + show(each);
  return text;
}
static std::string shown(bool holds) { return holds ? "yes" : "no"; }
static std::string shown(const Cells& cells) {
  return joined(cells, [](uint64_t cell) { return hexadecimal(cell); });
}
static std::string shown(const CellUnion& made) { return shown(made.cell_ids()); }
static std::string shown(uint64_t count) { return std::to_string(count); }
static std::string shown(const std::vector<bool>& answers) {
  return joined(answers, [](bool holds) { return shown(holds); });
}
static std::string shown(const CellUnion& made, int32_t status) {
  return status == S2U_OK ? shown(made) : refusal(status);
}
static std::string answer(int32_t status) { return status < 0 ? refusal(status) : shown(status == 1); }

/// What a call of one number answers that says 0 for no cell, or for no answer.
static std::string of_cells(uint64_t found, std::initializer_list<uint64_t> cells) {
  for (uint64_t cell : cells) {
    if (s2u_is_cell(cell) != 1) return found == 0 ? refusal(S2U_NO_CELL) : "an answer for no cell";
  }
  return found == 0 ? "none" : hexadecimal(found);
}
/// The list that a call makes.
template <class Number>
static std::pair<int32_t, std::vector<Number>> list(
    const std::function<int32_t(Number* out, size_t room, size_t* len)>& call) {
  std::vector<Number> out(kMost);
  size_t len = 0;
  const int32_t status = call(out.data(), out.size(), &len);
  out.resize(len);
  return {status, out};
}
static std::string cells_of(const std::function<int32_t(uint64_t* out, size_t room, size_t* len)>& call) {
  const auto [status, found] = list<uint64_t>(call);
  return status == S2U_OK ? shown(found) : refusal(status, found.size());
}
static std::string text_of(const std::function<int32_t(char* out, size_t room, size_t* len)>& call) {
  const auto [status, found] = list<char>(call);
  return status == S2U_OK ? std::string(found.begin(), found.end()) : refusal(status);
}
/// The entries of a call for many cells, or the refusal of the first cell that has none, with its place.
template <class Number>
static std::pair<std::string, std::vector<Number>> entries(
    const Cells& cells, size_t width, const std::function<int32_t(Number* out, size_t room, size_t* bad)>& call) {
  std::vector<Number> out(width * cells.size());
  size_t bad = 0;
  const int32_t status = call(out.data(), out.size(), &bad);
  if (status != S2U_OK) return {refusal(status, bad), out};
  if (bad < cells.size()) return {refusal(s2u_is_cell(cells[bad]) ? S2U_ARGUMENT : S2U_NO_CELL) + " " +
                                  std::to_string(bad), out};
  return {"", out};
}

using Question = std::function<std::string(const Given&)>;

/// What a member answers. Its errors have no place.
template <class Ask>
static Question member(Ask ask) {
  return [ask](const Given& g) {
    int32_t status = S2U_OK;
    const auto found = ask(g, &status);
    return status == S2U_OK ? shown(found) : refusal(status);
  };
}
static Question range_ends(decltype(s2u_range_mins) call) {
  return [call](const Given& g) {
    const Cells cells = g.cells(0);
    const auto [said, found] = entries<uint64_t>(cells, 1, [&](uint64_t* out, size_t room, size_t* bad) {
      return call(cells.data(), cells.size(), out, room, bad);
    });
    return said.empty() ? shown(found) : said;
  };
}
static Question asks_of_many(decltype(s2u_contains_cells) call) {
  return [call](const Given& g) {
    const CellUnion x = g.unions(0);
    const Cells asked = g.cells(1);
    std::vector<uint8_t> answers(asked.size());
    size_t bad = 0;
    const int32_t status =
        call(x.ids(), x.size(), asked.data(), asked.size(), answers.data(), answers.size(), &bad);
    return status == S2U_OK ? joined(answers, [](uint8_t holds) { return shown(holds == 1); }) : refusal(status, bad);
  };
}
static std::string version(const Given&) {
  const uint32_t number = s2u_version();
  if (number != S2U_VERSION) return "the header's is another";
  return std::to_string(number / 10000) + "." + std::to_string(number / 100 % 100) + "." + std::to_string(number % 100);
}
static std::string text_of_status(const Given& g) {
  const s2union::Error error(std::stoi(g[1]));
  return names.at(error.status()) == g[0] ? error.what() : "another status";
}
static std::string children(const Given& g) {
  const std::string first = of_cells(s2u_child(g.cell(0), 0), {g.cell(0)});
  if (first == "none" || first[0] == '!') return first;
  Cells found;
  for (uint32_t k = 0; k < 4; k++) found.push_back(s2u_child(g.cell(0), k));
  return shown(found);
}
static std::string square(const Given& g) {
  s2u_square found;
  const int32_t status = s2u_square_of(g.cell(0), &found);
  if (status != S2U_OK) return refusal(status);
  return joined(std::initializer_list<uint32_t>{found.face, found.i, found.j, found.size},
                [](uint32_t number) { return std::to_string(number); });
}
static std::string number_of(int32_t found) { return found < 0 ? refusal(found) : std::to_string(found); }
static std::string levels(const Given& g) {
  const Cells cells = g.cells(0);
  const auto [said, found] = entries<uint8_t>(cells, 1, [&](uint8_t* out, size_t room, size_t* bad) {
    return s2u_levels(cells.data(), cells.size(), out, room, bad);
  });
  return said.empty() ? joined(found, [](uint8_t level) { return std::to_string(level); }) : said;
}
static std::string token_fields(const Given& g) {
  const Cells cells = g.cells(0);
  const auto [said, found] = entries<char>(cells, S2U_MOST_TOKEN, [&](char* out, size_t room, size_t* bad) {
    return s2u_token_fields(cells.data(), cells.size(), out, room, bad);
  });
  return said.empty() ? hexadecimal(std::string(found.begin(), found.end())) : said;
}
static std::string parents(const Given& g) {
  const Cells cells = g.cells(0);
  const auto [said, found] = entries<uint64_t>(cells, 1, [&](uint64_t* out, size_t room, size_t* bad) {
    return s2u_parents(cells.data(), cells.size(), g.number(1), out, room, bad);
  });
  return said.empty() ? shown(found) : said;
}
static std::string from_points(const Given& g) {
  const auto numbers = g.numbers<uint32_t>(0, 10);
  std::vector<s2u_point> points;
  for (size_t k = 0; k < numbers.size(); k += 3) points.push_back({numbers[k], numbers[k + 1], numbers[k + 2]});
  Cells out(points.size());
  size_t bad = 0;
  const int32_t status = s2u_from_points(points.data(), points.size(), out.data(), out.size(), &bad);
  if (status != S2U_OK) return refusal(status);
  return bad < points.size() ? refusal(S2U_ARGUMENT) + " " + std::to_string(bad) : shown(out);
}
/// A list as it is normalized in place, which reports where it is refused, and as a union is made of it.
static std::string normalise(const Given& g) {
  Cells cells = g.cells(0);
  size_t len = 0;
  int32_t status = s2u_normalise(cells.data(), cells.size(), &len), other = S2U_OK;
  const CellUnion made(g.cells(0), &other);
  if (status != other) return "another refusal";
  if (status != S2U_OK) return cells == g.cells(0) ? refusal(status, len) : "changed";
  cells.resize(len);
  return cells == made.cell_ids() ? shown(cells) : "another union";
}
static std::string is_union(const Given& g) {
  int32_t status = S2U_OK;
  const CellUnion made = CellUnion::FromNormalized(g.cells(0), &status);
  return CellUnion::IsNormalized(g.cells(0)) == (status == S2U_OK) ? shown(status == S2U_OK) : "another answer";
}
template <class Call>
static Question cell_of_text(Call call) {
  return [call](const Given& g) {
    const std::string text = g.bytes(0);
    uint64_t id = 0;
    const int32_t status = call(text.data(), text.size(), &id);
    return status == S2U_OK ? hexadecimal(id) : refusal(status);
  };
}
static std::string named(const Given& g) {
  const std::string text = g.bytes(0);
  return cells_of([&](uint64_t* out, size_t room, size_t* len) {
    return s2u_from_tokens(text.data(), text.size(), out, room, len);
  });
}
static std::string decode(const Given& g) {
  CellUnion x;
  int32_t status = S2U_OK;
  const std::string bytes = g.bytes(0);
  x.Decode(bytes.data(), bytes.size(), &status);
  return shown(x, status);
}
static std::string file_check(const Given& g) {
  const std::string bytes = g.bytes(0);
  return answer(s2u_file_check(reinterpret_cast<const uint8_t*>(bytes.data()), bytes.size()));
}
static std::string encode(const Given& g) {
  std::string bytes;
  g.unions(0).Encode(&bytes);
  return hexadecimal(bytes);
}
/// Each cell cut; the method has no limit but memory.
static std::string denormalised(const Given& g) {
  Cells found;
  int32_t status = S2U_OK;
  const auto cut = g.numbers<int>(1, 10);
  g.unions(0).Denormalize(cut[0], cut[1], &found, &status);
  return status == S2U_OK ? shown(found) : refusal(status == S2U_MEMORY ? S2U_MANY : status);
}
static std::string cells_at(const Given& g) {
  const CellUnion x = g.unions(0);
  size_t first = 0, count = 0;
  const int32_t status = s2u_cells_at(x.ids(), x.size(), g.cell(1), &first, &count);
  const auto begin = x.begin() + static_cast<ptrdiff_t>(first);
  return status == S2U_OK ? shown(Cells(begin, begin + static_cast<ptrdiff_t>(count))) : refusal(status);
}
static std::string compare(const Given& g) {
  const Cells x = g.cells(0), y = g.cells(1);
  return std::to_string(s2u_compare(x.data(), x.size(), y.data(), y.size()));
}

/// Each question with the ways to answer it: by a member, by a call of s2union.h, or by both.
static const std::multimap<std::string, Question> questions = {
    // questions: all but file_count
    {"version", version},
    {"text_of", text_of_status},
    {"is_cell", [](const Given& g) { return answer(s2u_is_cell(g.cell(0))); }},
    {"level", [](const Given& g) { return number_of(s2u_level(g.cell(0))); }},
    {"face", [](const Given& g) { return number_of(s2u_face(g.cell(0))); }},
    {"range_min", [](const Given& g) { return of_cells(s2u_range_min(g.cell(0)), {g.cell(0)}); }},
    {"range_max", [](const Given& g) { return of_cells(s2u_range_max(g.cell(0)), {g.cell(0)}); }},
    {"size", [](const Given& g) {
       const uint64_t found = s2u_size(g.cell(0));
       return found == 0 ? of_cells(found, {g.cell(0)}) : shown(found);
     }},
    {"next", [](const Given& g) { return of_cells(s2u_next(g.cell(0)), {g.cell(0)}); }},
    {"previous", [](const Given& g) { return of_cells(s2u_prev(g.cell(0)), {g.cell(0)}); }},
    {"parent", [](const Given& g) { return of_cells(s2u_parent(g.cell(0), g.number(1)), {g.cell(0)}); }},
    {"children", children},
    {"token", [](const Given& g) {
       return text_of([&](char* out, size_t room, size_t* len) { return s2u_token(g.cell(0), out, room, len); });
     }},
    {"debug", [](const Given& g) {
       return text_of([&](char* out, size_t room, size_t* len) { return s2u_debug(g.cell(0), out, room, len); });
     }},
    {"from_token", cell_of_text(s2u_from_token)},
    {"from_debug", cell_of_text(s2u_from_debug)},
    {"from_face_ij", [](const Given& g) {
       const uint64_t leaf = s2u_from_face_ij(g.number(0), g.number(0, 1), g.number(0, 2));
       return leaf == 0 ? refusal(S2U_ARGUMENT) : hexadecimal(leaf);
     }},
    {"square", square},
    {"contains", [](const Given& g) { return answer(s2u_cell_contains(g.cell(0), g.cell(1))); }},
    {"intersects", [](const Given& g) { return answer(s2u_cell_intersects(g.cell(0), g.cell(1))); }},
    {"common_ancestor", [](const Given& g) {
       return of_cells(s2u_common_ancestor(g.cell(0), g.cell(1)), {g.cell(0), g.cell(1)});
     }},
    {"levels", levels},
    {"range_mins", range_ends(s2u_range_mins)},
    {"range_maxes", range_ends(s2u_range_maxes)},
    {"token_fields", token_fields},
    {"parents", parents},
    {"from_points", from_points},
    {"normalise", normalise},
    {"is_union", is_union},
    {"from_tokens", member([](const Given& g, int32_t* status) { return CellUnion::FromTokens(g.bytes(0), status); })},
    {"named", named},
    {"decode", decode},
    {"file_check", file_check},
    {"encode", encode},
    {"tokens", [](const Given& g) {
       const CellUnion x = g.unions(0);
       return hexadecimal(text_of([&](char* out, size_t room, size_t* len) {
         return s2u_tokens(x.ids(), x.size(), out, room, len);
       }));
     }},
    {"range", [](const Given& g) {
       const std::string found = cells_of([&](uint64_t* out, size_t room, size_t* len) {
         return s2u_range(g.cell(0), g.cell(1), out, room, len);
       });
       return found.substr(0, found.find(" 0"));  // a refusal has no place here
     }},
    {"leaves", member([](const Given& g, int32_t* status) {
       return CellUnion::FromBeginEnd(g.cell(0), g.cell(1), status);
     })},
    {"denormalised", denormalised},
    {"intersection_with_cell", member([](const Given& g, int32_t* status) {
       return g.unions(0).Intersection(g.cell(1), status);
     })},
    {"compare", compare},
    {"cells_at", cells_at},
    {"contains_cells", asks_of_many(s2u_contains_cells)},
    {"intersects_cells", asks_of_many(s2u_intersects_cells)},
};

/// The fields of a line, between which there are tabs.
static Given fields(const std::string& line) {
  Given found;
  std::string::size_type begin = 0, end;
  while ((end = line.find('\t', begin)) != std::string::npos) {
    found.push_back(line.substr(begin, end - begin));
    begin = end + 1;
  }
  found.push_back(line.substr(begin));
  return found;
}

/// Whether an answer is the wanted one. That of a member doesn't tell the place of an error.
static bool is_wanted(const std::string& found, const std::string& want) {
  return found == want || (found[0] == '!' && want.rfind(found + " ", 0) == 0);
}

int main(int argc, char** argv) {
  std::ifstream file(argc == 2 ? argv[1] : "");
  std::vector<Given> rows;
  for (std::string line; std::getline(file, line);) rows.push_back(fields(line));
  for (const Given& row : rows) {
    if (row[0] == "text_of") names[std::stoi(row[2])] = row[1];
  }
  std::set<std::string> asked, known;
  size_t passed = 0, failed = 0;
  for (Given& row : rows) {
    const std::string call = row.front(), want = row.back();
    row.erase(row.begin());
    row.pop_back();
    asked.insert(call);
    const auto [first, last] = questions.equal_range(call);
    bool is_right = first != last;
    for (auto way = first; way != last; ++way) {
      const std::string found = way->second(row);
      if (is_wanted(found, want)) continue;
      is_right = false;
      std::cout << "FAILED: " << call << " " << joined(row, [](const std::string& field) { return field; }) << ": "
                << found << ", not " << want << "\n";
    }
    (is_right ? passed : failed)++;
  }
  for (const auto& [call, way] : questions) known.insert(call);
  if (asked != known) {
    failed++;
    std::cout << "FAILED: " << asked.size() << " calls are asked, of " << known.size() << "\n";
  }
  std::cout << passed << " passed, " << failed << " failed\n";
  return failed != 0;
}
