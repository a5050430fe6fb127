// Times three ways to do the same work in turn: S2, the call for C, and hand-written C++ (limit.h). A row counts only
// if all checksums agree, and are the known one of real.sums. Its noise is how far the middle round of the least quiet
// way is above the least.
#pragma once
#include <array>
#include <fstream>
#include <map>

#include "table.h"

enum Way { PEER, CALL, LIMIT, WAYS };

class Lanes : public Rows {
 public:
  Lanes(const char* only, int rounds) : Rows(only), rounds_(rounds) {
    std::ifstream sums("real.sums");
    for (std::string name; sums >> name;) sums >> std::hex >> known_[name];
    printf("%-34s %10s %10s %10s %9s %9s %6s  %s\n", "", "S2", "C call", "limit", "S2/call", "call/lim", "noise",
           "checksum");
  }

  // A way that has no such call has no work. `row.units` may be 0; then it is what `units` says after the work.
  void row(Row row, std::array<Side, WAYS> sides, const std::function<size_t()>& units = nullptr) {
    if (!wants(row.name)) return;
    std::array<Best, WAYS> best;
    for (int round = 0; round < rounds_; round++)
      for (int way = 0; way < WAYS; way++)
        if (sides[way].work) best[way].measure(sides[way]);
    if (units) row.units = units();
    std::array<double, WAYS> ns{};
    printf("%-34s", row.name);
    for (int way = 0; way < WAYS; way++) {
      if (sides[way].work) ns[way] = best[way].least() / row.units;
      number(10, ns[way]);
    }
    number(9, ratio(ns[PEER], ns[CALL]));
    number(9, ratio(ns[CALL], ns[LIMIT]));
    double noise = 0;
    for (int way = 0; way < WAYS; way++)
      if (sides[way].work) noise = std::max(noise, best[way].noise());
    printf(" %5.0f%%", 100 * noise);
    compare(row.name, sides);
    fflush(stdout);
  }

 private:
  static double ratio(double a, double b) { return b == 0 ? 0 : a / b; }

  static void number(int width, double value) {
    if (value == 0) {
      printf(" %*s", width, "-");
    } else {
      printf(" %*.*f", width, value < 1 ? 4 : 2, value);
    }
  }

  void compare(const char* name, const std::array<Side, WAYS>& sides) {
    u64 sum = sides[PEER].sum();
    bool is_equal = known_[name] == sum;
    for (const Side& side : sides) is_equal = is_equal && (!side.work || side.sum() == sum);
    printf("  %016llx%s\n", static_cast<unsigned long long>(sum), is_equal ? "" : "  DIFFERS");
    judge(is_equal);
  }

  std::map<std::string, u64> known_;
  int rounds_;
};
