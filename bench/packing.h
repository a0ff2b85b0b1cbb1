// Packing runs of tables, beside a plain loop over all tables.
#pragma once

#include <algorithm>
#include <cstdio>
#include <string>
#include <vector>

#include "chart.h"
#include "entries.h"
#include "times.h"

constexpr size_t kTables = 10000;

struct Span {
  std::string least, greatest;
  uint64_t number;
};

// The rule of packing, without a search: each table goes into the run after the last new run that
// has a table overlapping it, or into the first.
inline Packed PackedPlainly(const std::vector<Span>& spans) {
  std::vector<std::vector<const Span*>> runs;
  for (const Span& span : spans) {
    size_t to = runs.size();
    auto overlaps = [&](const Span* other) {
      return other->least <= span.greatest && span.least <= other->greatest;
    };
    while (to > 0 && std::none_of(runs[to - 1].begin(), runs[to - 1].end(), overlaps)) to--;
    if (to == runs.size()) runs.emplace_back();
    auto behind = [](const Span* a, const Span* b) { return a->least < b->least; };
    auto& run = runs[to];
    run.insert(std::upper_bound(run.begin(), run.end(), &span, behind), &span);
  }
  Packed packed{};
  for (const auto& run : runs) {
    packed.runs += 1;
    for (const Span* span : run) {
      packed.tables += 1;
      packed.sum = packed.sum * 0x100000001b3u + (span->number ^ packed.runs);
    }
  }
  return packed;
}

inline std::vector<Row> PackingRows(int rounds) {
  Random random(11);
  std::vector<Span> spans;
  std::string keys;
  for (uint64_t number = 0; number < kTables; number++) {
    uint64_t from = random.Next() % 1000000;
    spans.push_back({KeyOf(from), KeyOf(from + random.Next() % 2000), number});
    keys += spans.back().least + spans.back().greatest;
  }
  Packed wanted = PackedPlainly(spans);
  Times times;
  for (int round = 0; round < rounds; round++) {
    for (uint64_t passes : {uint64_t{0}, uint64_t{1}}) {
      Packed packed{};
      times.Take(std::to_string(passes), [&] {
        Answered(tool_bench_optimize_runs(Bytes(keys), keys.size(), kKeyLen, passes, &packed));
      });
      Require(passes == 0 || (packed.runs == wanted.runs && packed.tables == wanted.tables &&
                              packed.sum == wanted.sum),
              "packing: other runs");
    }
  }
  printf("\n%zu tables are packed into %llu runs.\n", kTables,
         static_cast<unsigned long long>(wanted.runs));
  return {{"optimize_runs, a table", (times["1"] - times["0"]) / kTables * 1e9, 0, {}}};
}
