// S2's own answers: cell_index CELLS OWNERS POINTS, files of 64-bit numbers: the cells of all regions, the region of
// each, and leaves. Writes 'prepared SECONDS', 'which SECONDS PAIRS' and 'any SECONDS POINTS'.
#include <s2/s2cell_index.h>
#include <s2/s2cell_union.h>
#include <chrono>
#include <fstream>
#include <iostream>
#include <iterator>
#include <vector>

std::vector<uint64_t> Numbers(const char* name) {
  std::ifstream file(name, std::ios::binary);
  const std::string bytes((std::istreambuf_iterator<char>(file)), {});
  const uint64_t* numbers = reinterpret_cast<const uint64_t*>(bytes.data());
  return {numbers, numbers + bytes.size() / 8};
}

double Seconds() {
  return std::chrono::duration<double>(std::chrono::steady_clock::now().time_since_epoch()).count();
}

int main(int, char** argv) {
  const std::vector<uint64_t> cells = Numbers(argv[1]), owners = Numbers(argv[2]), points = Numbers(argv[3]);
  double begun = Seconds();
  S2CellIndex index;
  for (size_t k = 0; k < cells.size(); k++) index.Add(S2CellId(cells[k]), owners[k]);
  index.Build();
  std::cout << "prepared " << Seconds() - begun << "\n";

  begun = Seconds();
  size_t pairs = 0, within = 0;
  S2CellIndex::RangeIterator range(&index);
  S2CellIndex::ContentsIterator contents(&index);
  for (const uint64_t point : points) {
    range.Seek(S2CellId(point));
    contents.Clear();
    for (contents.StartUnion(range); !contents.done(); contents.Next()) pairs++;
  }
  std::cout << "which " << Seconds() - begun << " " << pairs << "\n";

  std::vector<S2CellId> ids;
  for (const uint64_t cell : cells) ids.emplace_back(cell);
  const S2CellUnion all(std::move(ids));
  begun = Seconds();
  for (const uint64_t point : points) within += all.Contains(S2CellId(point));
  std::cout << "any " << Seconds() - begun << " " << within << "\n";
}
