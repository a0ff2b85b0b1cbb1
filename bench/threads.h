// Reads of one table by several threads at once, each by a handle or an iterator of its own.
#pragma once

#include <atomic>
#include <functional>
#include <future>
#include <string>
#include <thread>
#include <vector>

#include "calls.h"
#include "chart.h"
#include "entries.h"
#include "keys.h"
#include "rivals.h"
#include "scans.h"
#include "times.h"

constexpr int kThreadCounts[] = {1, 2, 4};
constexpr int kMostThreads = 4;

// The elapsed time of this many threads, each with its call of `work`, from when all are ready
// until the last is done. A thread that waits for another takes no processor time.
template <class Work>
double SecondsAtOnce(int threads, Work work) {
  std::promise<void> start;
  std::shared_future<void> started = start.get_future().share();
  std::atomic<int> ready{0};
  std::vector<std::thread> running;
  for (int thread = 0; thread < threads; thread++) {
    running.emplace_back([&, started, thread] {
      ready++;
      started.wait();
      work(thread);
    });
  }
  while (ready < threads) std::this_thread::yield();
  double from = ClockSeconds();
  start.set_value();
  for (std::thread& thread : running) thread.join();
  return ClockSeconds() - from;
}

// The keys of one thread and its results. All read the same keys, each starting at another.
struct Part {
  Keys present, absent;
  Digest none, found, whole, ranges;
};

// A handle of its own for one thread. Each call writes to its handle, so two in one line of the
// processor's cache would slow each other.
struct alignas(128) OwnHandle {
  Call call;
};

// A kind of read, as each store does it.
struct ThreadWork {
  std::string title, unit;
  uint64_t operations;  // in one pass
  uint64_t passes;      // for a time that can be measured
  Digest Part::*wanted;
  // One pass through the calls of sst.h, and the same in bulk, if there are such calls.
  std::function<uint32_t(sst_handle*, const Part&, Digest*)> call, bulk;
  // The library's own call, which opens a copy of the table first.
  std::function<uint32_t(const Part&, uint64_t passes, Digest*)> library;
  std::function<Digest(const Peer&, const Part&, uint64_t passes)> theirs;
};

class ThreadBench {
 public:
  ThreadBench(const Entries& entries, const std::string& table, const std::vector<Rival>& rivals)
      : table_(table), rivals_(rivals) {
    for (int thread = 0; thread < kMostThreads; thread++) parts_.push_back(PartOf(entries, thread));
    uint64_t keys = parts_[0].present.each.size();
    works_ = {GetWork(keys), AbsentWork(keys), ScanWork(entries.size()), RangeWork(keys)};
    OpenHandles();
    for (const Rival& rival : rivals) rival.peer->Keep({"/single"});
  }

  std::vector<Row> Run(int rounds) {
    for (int round = 0; round < rounds; round++) {
      for (const ThreadWork& work : works_) {
        for (int threads : kThreadCounts) Once(work, threads);
      }
    }
    return Rows();
  }

 private:
  static Part PartOf(const Entries& entries, int thread) {
    auto turned = [&](uint64_t behind) {
      std::vector<uint64_t> numbers = Numbers(entries.size(), kStride, behind);
      std::rotate(numbers.begin(), numbers.begin() + numbers.size() * thread / kMostThreads,
                  numbers.end());
      return Keys(numbers);
    };
    Part part{turned(0), turned(1), {}, {}, WholeOf(entries), {}};
    part.found = FoundOf(entries, part.present);
    part.ranges = RangesOf(entries, part.present);
    return part;
  }

  // The blocks are compared before anything is timed.
  void OpenHandles() {
    Answered(sst_table_open(Bytes(table_), table_.size(), 0, true, true, Handle(0)));
    for (int thread = 1; thread < kMostThreads; thread++) {
      Answered(sst_table_share(Handle(0), Handle(thread)));
    }
    Digest digest{};
    Answered(ScanSingly(Handle(0), &digest));
    Require(digest == parts_[0].whole, "a scan before the threads: another answer");
  }

  sst_handle* Handle(int thread) { return handles_[thread].call.words(); }

  // ---- the kinds of reads

  static uint64_t PassesFor(uint64_t operations, uint64_t wanted) {
    return std::max<uint64_t>(1, wanted / operations);
  }

  ThreadWork GetWork(uint64_t keys) const {
    return KeysWork("get", keys, PassesFor(keys, 50000), &Part::present, &Part::found);
  }

  ThreadWork AbsentWork(uint64_t keys) const {
    return KeysWork("get of an absent key", keys, PassesFor(keys, 200000), &Part::absent,
                    &Part::none);
  }

  ThreadWork KeysWork(const std::string& title, uint64_t count, uint64_t passes, Keys Part::*keys,
                      Digest Part::*wanted) const {
    return {title, "", count, passes, wanted,
            [=](sst_handle* table, const Part& part, Digest* digest) {
              const std::string& joined = (part.*keys).joined;
              return CallGetEach(table, Bytes(joined), joined.size(), kKeyLen, digest);
            },
            nullptr,
            [=](const Part& part, uint64_t times, Digest* digest) {
              const std::string& joined = (part.*keys).joined;
              return tool_bench_get(Bytes(table_), table_.size(), Bytes(joined), joined.size(),
                                    kKeyLen, times, digest);
            },
            [=](const Peer& peer, const Part& part, uint64_t times) {
              return peer.GetEach((part.*keys).each, times);
            }};
  }

  ThreadWork ScanWork(uint64_t entries) const {
    return {"scan", ", an entry", entries, PassesFor(entries, 1000000), &Part::whole,
            [](sst_handle* table, const Part&, Digest* digest) {
              return ScanSingly(table, digest);
            },
            [](sst_handle* table, const Part&, Digest* digest) {
              return ScanInBulk(table, digest);
            },
            [this](const Part&, uint64_t times, Digest* digest) {
              return tool_bench_scan_lent(Bytes(table_), table_.size(), times, digest);
            },
            [](const Peer& peer, const Part&, uint64_t times) {
              Digest digest{};
              for (uint64_t pass = 0; pass < times; pass++) digest = peer.Scan();
              return digest;
            }};
  }

  ThreadWork RangeWork(uint64_t keys) const {
    auto by = [](TakeEntries take) {
      return [take](sst_handle* table, const Part& part, Digest* digest) {
        const std::string& joined = part.present.joined;
        return RangeEach(table, Bytes(joined), joined.size(), kKeyLen, kRange, take, digest);
      };
    };
    return {"range of 50 entries", "", keys, PassesFor(keys, 10000), &Part::ranges,
            by(TakeSingly), by(TakeInBulk),
            [this](const Part& part, uint64_t times, Digest* digest) {
              const std::string& joined = part.present.joined;
              return tool_bench_range_lent(Bytes(table_), table_.size(), Bytes(joined),
                                           joined.size(), kKeyLen, kRange, times, digest);
            },
            [](const Peer& peer, const Part& part, uint64_t times) {
              return peer.RangeEach(part.present.each, kRange, times);
            }};
  }

  // ---- one round of a kind of read

  void Once(const ThreadWork& work, int threads) {
    Time("calls", work, threads, [&](int thread, Digest* digest) {
      Answered(Passes(work.call, work.passes, thread, digest));
    });
    if (work.bulk) {
      Time("bulk", work, threads, [&](int thread, Digest* digest) {
        Answered(Passes(work.bulk, work.passes, thread, digest));
      });
    }
    for (uint64_t more : {uint64_t{0}, work.passes}) {
      Time(more == 0 ? "library once" : "library", work, threads, [&](int thread, Digest* digest) {
        Answered(work.library(parts_[thread], 1 + more, digest));
      });
    }
    for (const Rival& rival : rivals_) {
      const Peer& peer = *rival.peer;
      if (rival.store.warm) work.theirs(peer, parts_[0], 1);
      Time(rival.store.name, work, threads, [&](int thread, Digest* digest) {
        *digest = work.theirs(peer, parts_[thread], work.passes);
      });
    }
  }

  template <class Call>
  uint32_t Passes(const Call& call, uint64_t passes, int thread, Digest* digest) {
    uint32_t code = 0;
    for (; code == 0 && passes > 0; passes--) {
      *digest = Digest{};
      code = call(Handle(thread), parts_[thread], digest);
    }
    return code;
  }

  template <class Read>
  void Time(const std::string& reader, const ThreadWork& work, int threads, Read read) {
    Digest found[kMostThreads] = {};
    double took = SecondsAtOnce(threads, [&](int thread) {
      Digest digest{};
      read(thread, &digest);
      found[thread] = digest;
    });
    for (int thread = 0; thread < threads; thread++) {
      Require(found[thread] == parts_[thread].*work.wanted,
              reader + ", " + work.title + " by several threads: another answer");
    }
    times_.Keep(NameOf(reader, work, threads), took);
  }

  static std::string NameOf(const std::string& reader, const ThreadWork& work, int threads) {
    return reader + " " + work.title + " " + std::to_string(threads);
  }

  // ---- the table

  Row RowOf(const std::string& title, const ThreadWork& work, int threads, double ours) const {
    double operations = static_cast<double>(work.operations) * work.passes * threads;
    std::string by = threads == 1 ? ", 1 thread" : ", " + std::to_string(threads) + " threads";
    Row row{title + by + work.unit, ours / operations * 1e9, 0, {}};
    for (const Rival& rival : rivals_) {
      row.theirs.push_back(times_[NameOf(rival.store.name, work, threads)] / operations * 1e9);
    }
    return row;
  }

  std::vector<Row> Rows() const {
    std::vector<Row> rows;
    for (const ThreadWork& work : works_) {
      auto took = [&](const std::string& reader, int threads) {
        return times_[NameOf(reader, work, threads)];
      };
      for (int threads : kThreadCounts) {
        rows.push_back(RowOf(work.title + " from C", work, threads, took("calls", threads)));
      }
      for (int threads : kThreadCounts) {
        if (!work.bulk) break;
        rows.push_back(
            RowOf(work.title + " from C, in bulk", work, threads, took("bulk", threads)));
      }
      for (int threads : kThreadCounts) {
        rows.push_back(RowOf(work.title + ", a table each", work, threads,
                             took("library", threads) - took("library once", threads)));
      }
    }
    return rows;
  }

  const std::string& table_;
  const std::vector<Rival>& rivals_;
  std::vector<Part> parts_;
  std::vector<ThreadWork> works_;
  OwnHandle handles_[kMostThreads];
  Times times_;
};
