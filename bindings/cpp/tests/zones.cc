/* Zones of s2union.hpp, asked the questions of tests/model/shapes.py about them, and what these don't ask: zones FILE.
 * The last line is 'N passed, M failed'. */
#include "../../c/tests/tests.h"
#include <s2union_join.h>
#include <s2union.hpp>
#include <cstring>
#include <fstream>
#include <map>
#include <sstream>

using s2union::Zones;

static const std::map<int32_t, std::string> names = {
    {S2U_ARGUMENT, "!argument"}, {S2U_COVER_NUMBER, "!number"}, {S2U_COVER_OPEN, "!open"}, {S2U_COVER_WKB, "!wkb"}};

static std::vector<std::string> parts(const std::string& text, char between) {
  std::vector<std::string> found(1);
  for (char letter : text) {
    if (letter == between) found.emplace_back();
    else found.back() += letter;
  }
  return found;
}

static std::string bytes(const std::string& hex) {
  std::string found;
  for (size_t at = 0; at < hex.size(); at += 2) found += static_cast<char>(std::stoi(hex.substr(at, 2), nullptr, 16));
  return found;
}

static std::vector<double> numbers(const std::string& hex) {
  std::vector<double> found(hex.size() / 16);
  for (size_t k = 0; k < found.size(); k++) {
    const uint64_t bits = std::stoull(hex.substr(16 * k, 16), nullptr, 16);
    std::memcpy(&found[k], &bits, sizeof bits);
  }
  return found;
}

/// Adds a zone of the file.
static size_t add(Zones* zones, const std::string& text, int32_t* status) {
  if (text.rfind("wkb:", 0) == 0) return zones->Add(bytes(text.substr(4)), status);
  if (text.rfind("box:", 0) == 0) {
    const auto n = numbers(text.substr(4));
    return zones->AddBox(n.at(0), n.at(1), n.at(2), n.at(3), status);
  }
  std::vector<double> positions;
  std::vector<s2u_cover_ring> rings;
  std::istringstream words(text);
  for (std::string word; words >> word;) {
    const auto pair = parts(word, ':');
    for (double number : numbers(pair.at(1))) positions.push_back(number);
    rings.push_back({positions.size() / 2, pair[0] == "-" ? S2U_COVER_LINE : std::stoull(pair[0])});
  }
  return zones->Add(s2u_cover_shape{positions.data(), rings.data(), rings.size()}, status);
}

/// The answer to a question, with a status or with what is thrown.
static std::string answer(const std::vector<std::string>& fields, bool throws) {
  Zones zones;
  int32_t status = S2U_OK, *outcome = throws ? nullptr : &status;
  try {
    for (const auto& each : parts(fields.at(1), '|')) {
      const size_t number = add(&zones, each, outcome);
      if (status != S2U_OK) throw s2union::Error(status);
      CHECK(number + 1 == zones.size());
    }
  } catch (const s2union::Error& error) {
    const auto fault = zones.fault();
    const std::string at = " " + std::to_string(fault.position);
    if (error.status() == S2U_ARGUMENT) return names.at(error.status());
    return names.at(error.status()) + (error.status() <= S2U_COVER_WKB ? "" : " " + std::to_string(fault.ring)) + at;
  }
  std::string found;
  try {
    const auto pairs = zones.Pairs(numbers(fields.at(3)), numbers(fields.at(4)), fields.at(2) == "1", outcome);
    if (status != S2U_OK) throw s2union::Error(status);
    for (const auto& [point, zone] : pairs)
      found += (found.empty() ? "" : " ") + std::to_string(point) + ":" + std::to_string(zone);
  } catch (const s2union::Error& error) {
    found = error.status() == S2U_ARGUMENT ? "!number 1" : names.at(error.status());
  }
  return found;
}

int main(int, char** words) {
  std::ifstream file(words[1]);
  int asked = 0;
  for (std::string line; std::getline(file, line);) {
    const auto fields = parts(line, '\t');
    if (fields.at(0) != "zones") continue;
    CHECK(answer(fields, false) == fields.at(5));
    CHECK(answer(fields, true) == fields.at(5));
    asked++;
  }
  CHECK(asked > 10);
  Zones zones;
  zones.AddBox(2, 48, 3, 49);
  Zones moved(std::move(zones)), other;
  other = std::move(moved);
  CHECK(other.size() == 1 && other.Pairs({2.5}, {48.5}, false).size() == 1);
  int32_t status = S2U_OK;
  CHECK(other.Pairs({2.5}, {}, false, &status).empty() && status == S2U_ARGUMENT);
  try {
    other.Add("no WKB");
    CHECK(false);
  } catch (const s2union::Error& error) {
    CHECK(error.status() == S2U_COVER_WKB && std::string(error.what()) == "the bytes are no WKB");
  }
  return report();
}
