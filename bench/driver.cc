// Times whole workloads of this library, LevelDB and RocksDB, and compares their results. `run` in
// this folder builds and starts it.
//
// Each figure is the least of several rounds, in which the stores take turns. It is the processor
// time of this thread or, for several threads, elapsed time. A workload of the library opens its
// tables anew, so the time of a call that only opens them is subtracted.
#include <malloc.h>

#include <climits>
#include <cstdio>
#include <string>
#include <vector>

#include "chart.h"
#include "growth.h"
#include "packing.h"
#include "tables.h"

namespace {

// The bits a key of the other stores' filters, unless an option sets them: as in our tables.
constexpr int kFilterBits = 10;

std::string FilterWords(int bits) {
  return "filters: ours of 10 bits a key, the others' " +
         (bits > 0 ? "of " + std::to_string(bits) : std::string("none"));
}

}  // namespace

int main(int argc, char** argv) {
  int rounds = 5;
  int filter_bits = kFilterBits;
  std::string chart_path;
  std::vector<size_t> counts;
  bool grows = false;
  for (int i = 1; i < argc; i++) {
    std::string word = argv[i];
    if (word == "--rounds" && i + 1 < argc) {
      rounds = atoi(argv[++i]);
    } else if (word == "--chart" && i + 1 < argc) {
      chart_path = argv[++i];
    } else if (word == "--filter-bits" && i + 1 < argc) {
      filter_bits = atoi(argv[++i]);
    } else if (word == "--growth") {
      grows = true;
    } else if (atoll(word.c_str()) >= 1000) {
      counts.push_back(atoll(word.c_str()));
    } else {
      Fail("usage: driver [--rounds N] [--filter-bits N] [--chart FILE] [--growth] [ENTRIES..], "
           "from 1000 entries on");
    }
  }
  Require(rounds > 0, "no rounds");
  if (grows) {
    PrintGrowth(counts.empty() ? std::vector<size_t>{10000, 100000, 1000000, 10000000} : counts);
    return 0;
  }
  if (counts.empty()) counts = {10000, 1000000};
  // Freed memory is kept, so that no store's time includes that of getting pages anew.
  Require(mallopt(M_MMAP_MAX, 0) == 1 && mallopt(M_TRIM_THRESHOLD, INT_MAX) == 1, "no mallopt");
  double cycle = CycleSeconds();
  printf("\na cycle takes %.3f ns: a byte of FNV-1a takes four\n", cycle * 1e9);
  std::vector<Row> rows;
  for (size_t count : counts) {
    TableBench bench(count, count < 100000 ? rounds * 4 : rounds, filter_bits, cycle);
    rows = bench.Run();
    std::string entries = std::to_string(count) + " entries of 16 + 100 bytes; ";
    PrintTable("Tables of " + entries + FilterWords(filter_bits), StoreNames(), rows);
    PrintTable("One table by several threads at once, " + entries +
                   "time of the clock over the operations of all threads together",
               StoreNames(), bench.RunThreads(rounds));
  }
  PrintTable("Runs of tables", {}, PackingRows(rounds));
  if (!chart_path.empty()) {
    Chart chart(chart_path);
    Require(chart.IsOpen(), "cannot write " + chart_path);
    chart.Draw("Time of ours, where the other store without a cache takes 1: " +
                   std::to_string(counts.back()) + " entries",
               StoreNames(), rows, 0, 1);
  }
  return 0;
}
