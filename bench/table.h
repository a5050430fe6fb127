// Times two sides in turn, compares their checksums, and prints a line of the table for each row.
#pragma once
#include <chrono>
#include <cstdio>
#include <cstring>
#include <functional>
#include <string>

#include "workload.h"

// One side of a row. `work` does its work once; `sum` is the checksum of what the last time made.
struct Side {
  std::function<void()> work;
  std::function<u64()> sum;
};

// The milliseconds that it takes to do some work.
template <typename Work>
double milliseconds_of(Work work) {
  auto start = std::chrono::steady_clock::now();
  work();
  return std::chrono::duration<double, std::milli>(std::chrono::steady_clock::now() - start).count();
}

struct Row {
  const char* name;
  size_t units;
  u64 sum;
};

// The least time of the rounds, in nanoseconds. A round repeats the work so often that it takes 20 ms.
class Best {
 public:
  void measure(const Side& side) {
    if (times_.empty()) {
      side.work();
      while (turns_ < 1000000 && time_of(side) < 20) turns_ *= 2;
    }
    times_.push_back(1e6 * time_of(side) / turns_);
  }

  double least() const { return *std::min_element(times_.begin(), times_.end()); }

  // How much more than the least time the middle one is, as a part of it.
  double noise() const {
    std::vector<double> times = times_;
    std::nth_element(times.begin(), times.begin() + times.size() / 2, times.end());
    return times[times.size() / 2] / least() - 1;
  }

 private:
  double time_of(const Side& side) const {
    return milliseconds_of([&] {
      for (uint32_t k = 0; k < turns_; k++) side.work();
    });
  }

  std::vector<double> times_;
  uint32_t turns_ = 1;
};

// Which rows a word asks for, and whether the sides of each agreed.
class Rows {
 public:
  explicit Rows(const char* only) : only_(only) {}

  // A word with a minus sign before it: the rows whose names don't contain it.
  bool wants(const char* name) {
    bool is = *only_ == '-' ? strstr(name, only_ + 1) == nullptr : strstr(name, only_) != nullptr;
    some_ = some_ || is;
    return is;
  }

  // The status of the program: 1 if sides differ, or if nothing was asked for.
  int status() const {
    if (!some_) fprintf(stderr, "no row's name contains %s\n", only_);
    if (!all_equal_) fprintf(stderr, "some checksums differ\n");
    return some_ && all_equal_ ? 0 : 1;
  }

 protected:
  void judge(bool is_equal) { all_equal_ = all_equal_ && is_equal; }

 private:
  const char* only_;
  bool some_ = false, all_equal_ = true;
};

class Table : public Rows {
 public:
  Table(const char* only, int rounds) : Rows(only), rounds_(rounds) {
    printf("%-30s %10s %10s %8s  %s\n", "", "S2", "proved", "S2/it", "checksum");
  }

  // `units` of the row may be 0; then it is what `units` says after the work is done.
  void row(Row row, const Side& peer, const Side& proved, const std::function<size_t()>& units = nullptr) {
    if (!wants(row.name)) return;
    Best peer_best, proved_best;
    for (int round = 0; round < rounds_; round++) {
      peer_best.measure(peer);
      proved_best.measure(proved);
    }
    if (units) row.units = units();
    double peer_ns = peer_best.least() / row.units, proved_ns = proved_best.least() / row.units;
    u64 peer_sum = peer.sum(), proved_sum = proved.sum();
    bool is_equal = peer_sum == proved_sum && (row.sum == 0 || row.sum == proved_sum);
    judge(is_equal);
    printf("%-30s %10.2f %10.2f %8.2f  ", row.name, peer_ns, proved_ns, peer_ns / proved_ns);
    printf("%016llx", static_cast<unsigned long long>(proved_sum));
    if (proved_ns > peer_ns) printf("  S2 is ahead");
    if (peer_sum != proved_sum) printf("  DIFFERS from S2's %016llx", static_cast<unsigned long long>(peer_sum));
    if (row.sum != 0 && row.sum != proved_sum)
      printf("  DIFFERS from the known %016llx", static_cast<unsigned long long>(row.sum));
    printf("\n");
    fflush(stdout);
  }

 private:
  int rounds_;
};
