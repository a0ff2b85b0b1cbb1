// The workloads over tables.
#pragma once

#include <algorithm>
#include <memory>
#include <string>
#include <vector>

#include "calls.h"
#include "chart.h"
#include "entries.h"
#include "hashing.h"
#include "keys.h"
#include "rivals.h"
#include "scans.h"
#include "threads.h"
#include "times.h"

constexpr size_t kSources = 8;
constexpr size_t kBatch = 1000;  // how many keys are read at once

// The workloads of tables with `count` entries.
class TableBench {
 public:
  TableBench(size_t count, int rounds, int filter_bits, double cycle)
      : count_(count),
        rounds_(rounds),
        cycle_(cycle),
        again_(Again(count)),
        present_(Numbers(count, kStride, 0)),
        absent_(Numbers(count, kStride, 1)),
        batch_(Numbers(count / kBatch * kBatch, count / kBatch, 0)) {
    MakeEntries();
    MakeTables();
    for (const Store& store : Stores()) MakeRival(store, filter_bits);
  }

  std::vector<Row> Run() {
    for (int round = 0; round < rounds_; round++) {
      Ours();
      for (Rival& rival : rivals_) Theirs(rival);
    }
    return Rows();
  }

  // The same table's reads by several threads at once.
  std::vector<Row> RunThreads(int rounds) { return ThreadBench(single_, table_, rivals_).Run(rounds); }

 private:
  // How often a second pass is made, for a time that can be measured.
  static uint64_t Again(size_t count) { return std::max<uint64_t>(1, 100000 / count); }

  // One table has each even number up to twice the count. Each of eight tables has every eighth of
  // these, except that every fourth number is in two of them.
  void MakeEntries() {
    single_.Reserve(count_);
    for (uint64_t i = 0; i < count_; i++) single_.Append(2 * i, 0);
    whole_ = WholeOf(single_);
    for (size_t i = count_; i > 0; i--) Add(&back_, single_.Key(i - 1), single_.Value(i - 1));
    parts_.resize(kSources);
    for (uint64_t at = 0; at < count_ / kSources; at++) {
      for (uint64_t source = 0; source < kSources; source++) {
        uint64_t place = at % 4 == 0 ? source & 6 : source;
        parts_[source].Append(kSources * at + place, source);
        if (place == source) Add(&newest_, parts_[source].Key(at), parts_[source].Value(at));
      }
    }
    found_ = FoundOf(single_, present_);
    ranges_ = RangesOf(single_, present_);
    batch_found_ = FoundOf(single_, batch_);
  }

  using Build = decltype(&tool_bench_build);

  // A table's bytes.
  static std::string TableOf(const Entries& entries, uint64_t seqno, Build build) {
    std::string out(entries.bytes().size() * 3 / 2 + 100000, '\0');
    Written written{};
    Answered(build(Bytes(entries.bytes()), entries.bytes().size(), kKeyLen, kValueLen, seqno,
                   reinterpret_cast<uint8_t*>(out.data()), out.size(), &written));
    Require(written.tables == 1 && written.bytes <= out.size(), "no room for a table");
    out.resize(written.bytes);
    return out;
  }

  void MakeTables() {
    table_ = TableOf(single_, 1, tool_bench_build);
    partitioned_ = TableOf(single_, 1, tool_bench_build_partitioned);
    for (size_t source = 0; source < kSources; source++) {
      std::string part = TableOf(parts_[source], kSources - source, tool_bench_build);
      files_ += part;
      lens_.push_back(part.size());
      read_ += Sum(Parts(part).Data());
      lists_ += parts_[source].bytes();
      list_lens_.push_back(parts_[source].bytes().size());
      paths_.push_back("/part" + std::to_string(source));
    }
    Digest digest{};
    Answered(tool_bench_compact_and_scan(Bytes(files_), files_.size(), lens_.data(), lens_.size(),
                                        Target(), &compacted_, &digest));
    Require(digest == newest_, "compaction wrote other entries");
  }

  void MakeRival(const Store& store, int filter_bits) {
    Rival rival{store, store.make({store.warm, filter_bits, false}), nullptr};
    rival.peer->OpenDatabase(single_);
    rival.peer->Build("/single", single_);
    for (size_t source = 0; source < kSources; source++) {
      rival.peer->Build(paths_[source], parts_[source]);
    }
    CheckCompaction(rival);
    if (store.has_partitions) {
      rival.partitioned = store.make({store.warm, filter_bits, true});
      rival.partitioned->OpenDatabase(single_);
      rival.partitioned->Build("/single", single_);
    }
    rivals_.push_back(std::move(rival));
  }

  // The tables that compaction writes are scanned once.
  void CheckCompaction(const Rival& rival) {
    rival.peer->Keep(paths_);
    Digest digest{};
    for (const std::string& path : rival.peer->Compact(Target())) {
      rival.peer->Keep({path});
      Digest part = rival.peer->Scan();
      digest.entries += part.entries;
      digest.bytes += part.bytes;
    }
    Require(digest.entries == newest_.entries && digest.bytes == newest_.bytes,
            rival.store.name + ": compaction wrote other entries");
  }

  uint64_t Target() const { return count_ * 30; }

  // ---- ours

  void Ours() {
    Written written{};
    times_.Take("build", [&] {
      Answered(tool_bench_build(Bytes(single_.bytes()), single_.bytes().size(), kKeyLen, kValueLen,
                               1, nullptr, 0, &written));
    });
    Require(written.bytes == table_.size(), "another table was built");
    Written by_reference{};
    times_.Take("build_ref", [&] {
      Answered(tool_bench_build_ref(Bytes(single_.bytes()), single_.bytes().size(), kKeyLen,
                                    kValueLen, 1, &by_reference));
    });
    Require(by_reference.checksum == written.checksum, "by reference another table was built");
    OfOneTable("", table_);
    OfOneTable(", partitions", partitioned_);
    for (uint64_t passes : Passes()) {
      CheckTable("scan", tool_bench_scan, passes, whole_);
      CheckTable("scan_lent", tool_bench_scan_lent, passes, whole_);
      CheckTable("iter", tool_bench_iter, passes, whole_);
      CheckTable("back", tool_bench_iter_back, passes, back_);
      CheckKeys("batch", table_, tool_bench_get_many, batch_, passes, batch_found_);
      CheckKeys("singly", table_, tool_bench_get, batch_, passes, batch_found_);
      CheckKeys("calls", table_, CallGet, present_, passes, found_);
      CheckKeys("calls absent", table_, CallGet, absent_, passes, Digest{});
      CheckKeys("calls batch", table_, CallGetMany, batch_, passes, batch_found_);
      CheckTable("calls scan", CallScan, passes, whole_);
      CheckTable("calls scan bulk", CallScanBulk, passes, whole_);
      CheckTable("calls verify", CallVerify, passes, Digest{count_, 0, 0});
      CheckTable("calls verify steps", CallVerifySteps, passes, Digest{count_, 0, 0});
      CheckFiles("runs", tool_bench_range_runs, passes);
      CheckFiles("runs_lent", tool_bench_range_runs_lent, passes);
      CheckFiles("merge", tool_bench_merge, passes);
      CheckFiles("merge_lent", tool_bench_merge_lent, passes);
      CheckRanges("range", tool_bench_range, passes);
      CheckRanges("range_lent", tool_bench_range_lent, passes);
      CheckRanges("calls range", CallRange, passes);
      CheckRanges("calls range bulk", CallRangeBulk, passes);
    }
    for (uint64_t passes : {uint64_t{0}, uint64_t{0}, uint64_t{1}}) {
      Compact(passes);
      CompactRuns("compact_runs", tool_bench_compact_runs, passes);
      CompactRuns("compact_each", tool_bench_compact_each, passes);
    }
  }

  // Opening a table, and point reads of it.
  void OfOneTable(const std::string& kind, const std::string& table) {
    for (uint64_t times : {uint64_t{0}, uint64_t{0}, Opens()}) {
      uint64_t id = 1;
      times_.Take("open" + kind + " " + std::to_string(times), [&] {
        Answered(tool_bench_open(Bytes(table), table.size(), times, &id));
      });
      Require(id == 1, "another table was opened");
    }
    for (uint64_t passes : Passes()) {
      CheckKeys("present" + kind, table, tool_bench_get, present_, passes, found_);
    }
    for (uint64_t passes : Passes()) {
      CheckKeys("absent" + kind, table, tool_bench_get, absent_, passes, Digest{});
    }
  }

  template <class Call>
  void Check(const std::string& name, uint64_t passes, const Digest& wanted, Call call) {
    Digest digest{};
    times_.Take(name + " " + std::to_string(passes), [&] { Answered(call(&digest)); });
    Require(passes == 0 || digest == wanted, name + ": another answer");
  }

  void CheckTable(const std::string& name, decltype(&tool_bench_scan) call, uint64_t passes,
                  const Digest& wanted) {
    Check(name, passes, wanted, [&](Digest* digest) {
      return call(Bytes(table_), table_.size(), passes, digest);
    });
  }

  void CheckKeys(const std::string& name, const std::string& table, decltype(&tool_bench_get) call,
                 const Keys& keys, uint64_t passes, const Digest& wanted) {
    Check(name, passes, wanted, [&](Digest* digest) {
      return call(Bytes(table), table.size(), Bytes(keys.joined), keys.joined.size(), kKeyLen,
                  passes, digest);
    });
  }

  void CheckRanges(const std::string& name, decltype(&tool_bench_range) call, uint64_t passes) {
    Check(name, passes, ranges_, [&](Digest* digest) {
      return call(Bytes(table_), table_.size(), Bytes(present_.joined), present_.joined.size(),
                  kKeyLen, kRange, passes, digest);
    });
  }

  void CheckFiles(const std::string& name, decltype(&tool_bench_merge) call, uint64_t passes) {
    Check(name, passes, newest_, [&](Digest* digest) {
      return call(Bytes(files_), files_.size(), lens_.data(), lens_.size(), passes, digest);
    });
  }

  void Compact(uint64_t passes) {
    Written written{};
    times_.Take("compact " + std::to_string(passes), [&] {
      Answered(tool_bench_compact(Bytes(files_), files_.size(), lens_.data(), lens_.size(),
                                  Target(), passes, &written));
    });
    RequireCompacted(passes, written);
  }

  void CompactRuns(const std::string& name, decltype(&tool_bench_compact_runs) call,
                   uint64_t passes) {
    Written written{};
    times_.Take(name + " " + std::to_string(passes), [&] {
      Answered(call(Bytes(lists_), lists_.size(), list_lens_.data(), list_lens_.size(), kKeyLen,
                    kValueLen, Target(), passes, &written));
    });
    RequireCompacted(passes, written);
  }

  void RequireCompacted(uint64_t passes, const Written& written) const {
    Require(passes == 0 || (written.tables == compacted_.tables &&
                            written.bytes == compacted_.bytes &&
                            written.checksum == compacted_.checksum),
            "compaction wrote other tables");
  }

  // The call without a pass is made twice: only the second finds the table in the processor's
  // caches, as the calls after it do.
  std::vector<uint64_t> Passes() const { return {0, 0, 1, 1 + again_}; }
  // How often a table is opened, for a time that can be measured beside that of copying it.
  uint64_t Opens() const { return std::max<uint64_t>(10, 10000000 / count_); }

  // The time of the first pass, and of each pass after it.
  double First(const std::string& name) const { return times_[name + " 1"] - times_[name + " 0"]; }
  double Second(const std::string& name) const {
    return (times_[name + " " + std::to_string(1 + again_)] - times_[name + " 1"]) / again_;
  }
  double Opened(const std::string& name) const {
    return times_[name + " " + std::to_string(Opens())] - times_[name + " 0"];
  }

  // ---- theirs

  void Theirs(const Rival& rival) {
    Peer* peer = rival.peer.get();
    if (!rival.store.warm) {
      times_.Take(rival.store.name + " build", [&] { peer->Build("/again", single_); });
    }
    OfOneTableOf(rival, "", peer);
    if (rival.partitioned) OfOneTableOf(rival, ", partitions", rival.partitioned.get());
    CheckOf(rival, "batch", batch_found_, [&] { return peer->GetMany(batch_.each, again_); });
    CheckOf(rival, "singly", batch_found_, [&] { return peer->GetEach(batch_.each, again_); });
    peer->Keep({"/single"});
    CheckOf(rival, "scan", whole_, [&] { return peer->Scan(); });
    CheckOf(rival, "back", back_, [&] { return peer->ScanBack(); });
    CheckOf(rival, "range", ranges_,
            [&] { return peer->RangeEach(present_.each, kRange, again_); });
    peer->Keep(paths_);
    CheckOf(rival, "merge", newest_, [&] { return peer->Merge(); });
    times_.Take(rival.store.name + " compact", [&] { peer->Compact(Target()); });
  }

  void OfOneTableOf(const Rival& rival, const std::string& kind, Peer* peer) {
    times_.Take(rival.store.name + " open" + kind, [&] { peer->OpenTimes("/single", Opens()); });
    CheckOf(rival, "present" + kind, found_,
            [&] { return peer->GetEach(present_.each, again_); });
    CheckOf(rival, "absent" + kind, Digest{},
            [&] { return peer->GetEach(absent_.each, again_); });
  }

  // A warm cache has what the work needs before it is timed.
  template <class Work>
  void CheckOf(const Rival& rival, const std::string& work, const Digest& wanted, Work call) {
    if (rival.store.warm) call();
    Digest digest{};
    times_.Take(rival.store.name + " " + work, [&] { digest = call(); });
    Require(digest == wanted, rival.store.name + ", " + work + ": another answer");
  }

  // ---- the table

  // A row of `count` operations, with our time and the cycles of the hashing that they need. The
  // other stores repeat the work `passes` times in one call.
  Row RowOf(const std::string& title, const std::string& work, double ours, double cycles,
            double count, double passes) const {
    Row row{title, ours / count * 1e9, cycles * cycle_ / count * 1e9, {}};
    for (const Rival& rival : rivals_) {
      double theirs = TimeOf(rival.store, work);
      row.theirs.push_back(theirs / passes / count * 1e9);
    }
    return row;
  }

  // The figures of a store without partitions are repeated for both kinds of our tables.
  double TimeOf(const Store& store, const std::string& work) const {
    size_t kind = work.find(", partitions");
    bool other = kind != std::string::npos && !store.has_partitions;
    return times_[store.name + " " + (other ? work.substr(0, kind) : work)];
  }

  // Opening a table compares these blocks in one loop, no faster than the longest of them alone.
  static double OpenCycles(std::vector<size_t> blocks, const std::vector<size_t>& more) {
    blocks.insert(blocks.end(), more.begin(), more.end());
    double longest = *std::max_element(blocks.begin(), blocks.end());
    return std::max(Sum(blocks) * kBeside, longest * kCompared);
  }

  void PointRows(const std::string& kind, const Parts& parts, std::vector<Row>* rows) const {
    double keys = present_.each.size(), again = again_;
    std::vector<size_t> blocks = parts.TopIndex(), filter = parts.TopFilter();
    double first = Sum(parts.Data()) / parts.Data().size() * keys;
    if (filter.empty()) {
      filter = parts.Filter();
    } else {
      first += Sum(parts.Index()) + Sum(parts.Filter());
    }
    blocks.insert(blocks.end(), filter.begin(), filter.end());
    rows->push_back(RowOf("open" + kind, "open" + kind, Opened("open" + kind) / Opens(),
                          OpenCycles(blocks, parts.Meta()), 1, Opens()));
    rows->push_back(RowOf("get, first pass" + kind, "present" + kind, First("present" + kind),
                          first * kCompared, keys, again));
    rows->push_back(RowOf("get, second pass" + kind, "present" + kind, Second("present" + kind), 0,
                          keys, again));
    rows->push_back(RowOf("get of an absent key" + kind, "absent" + kind, Second("absent" + kind),
                          0, keys, again));
  }

  // Point reads through the calls for C, of the table whose index and filter are in one block each.
  void CallRows(const Parts& parts, std::vector<Row>* rows) const {
    double keys = present_.each.size(), again = again_;
    double first = Sum(parts.Data()) / parts.Data().size() * keys;
    rows->push_back(RowOf("get from C, first pass", "present", First("calls"), first * kCompared,
                          keys, again));
    rows->push_back(RowOf("get from C, second pass", "present", Second("calls"), 0, keys, again));
    rows->push_back(RowOf("get of an absent key from C", "absent", Second("calls absent"), 0, keys,
                          again));
  }

  // A workload's two passes. The second does not compare a block again.
  void PassRows(const std::string& title, const std::string& unit, const std::string& name,
                const std::string& theirs, double cycles, double count, double passes,
                std::vector<Row>* rows) const {
    rows->push_back(
        RowOf(title + ", first pass" + unit, theirs, First(name), cycles, count, passes));
    rows->push_back(RowOf(title + ", second pass" + unit, theirs, Second(name), 0, count, passes));
  }

  std::vector<Row> Rows() const {
    const std::string an_entry = ", an entry", a_key = ", a key";
    double entries = count_, keys = present_.each.size(), batch = batch_.each.size();
    double merged = count_ / kSources * kSources, again = again_;
    Parts parts(table_);
    double data = Sum(parts.Data());
    // At most a block for each key of a batch.
    double touched = std::min(data, data / parts.Data().size() * batch);
    double written = read_ * kBeside + compacted_.bytes * kMade;
    std::vector<Row> rows = {RowOf("build, an entry", "build", times_["build"],
                                   parts.table() * kMade, entries, 1)};
    rows.push_back(RowOf("build by reference, an entry", "build", times_["build_ref"],
                         parts.table() * kMade, entries, 1));
    PointRows("", parts, &rows);
    PointRows(", partitions", Parts(partitioned_), &rows);
    CallRows(Parts(table_), &rows);
    PassRows("1,000 keys at once", a_key, "batch", "batch", touched * kBeside, batch, again, &rows);
    PassRows("1,000 keys at once, from C", a_key, "calls batch", "batch", touched * kBeside, batch,
             again, &rows);
    PassRows("the same one by one", a_key, "singly", "singly", touched * kCompared, batch, again,
             &rows);
    PassRows("scan", an_entry, "scan", "scan", data * kBeside, entries, 1, &rows);
    PassRows("scan, lent", an_entry, "scan_lent", "scan", data * kBeside, entries, 1, &rows);
    PassRows("scan from C", an_entry, "calls scan", "scan", data * kBeside, entries, 1, &rows);
    PassRows("scan from C, in bulk", an_entry, "calls scan bulk", "scan", data * kBeside, entries,
             1, &rows);
    PassRows("verify", an_entry, "calls verify", "none", data * kBeside, entries, 1, &rows);
    PassRows("verify by steps", an_entry, "calls verify steps", "none", data * kBeside, entries, 1,
             &rows);
    PassRows("iterator from the front", an_entry, "iter", "scan", data * kBeside, entries, 1,
             &rows);
    PassRows("iterator from the back", an_entry, "back", "back", data * kBeside, entries, 1, &rows);
    PassRows("range of 50 entries", "", "range", "range", data * kBeside, keys, again, &rows);
    PassRows("range of 50 entries, lent", "", "range_lent", "range", data * kBeside, keys, again,
             &rows);
    PassRows("range of 50 entries from C", "", "calls range", "range", data * kBeside, keys, again,
             &rows);
    PassRows("range of 50 entries from C, in bulk", "", "calls range bulk", "range",
             data * kBeside, keys, again, &rows);
    PassRows("merge of 8", an_entry, "merge", "merge", read_ * kBeside, merged, 1, &rows);
    PassRows("merge of 8, lent", an_entry, "merge_lent", "merge", read_ * kBeside, merged, 1,
             &rows);
    PassRows("range of 8 runs", an_entry, "runs", "merge", read_ * kBeside, merged, 1, &rows);
    PassRows("range of 8 runs, lent", an_entry, "runs_lent", "merge", read_ * kBeside, merged, 1,
             &rows);
    rows.push_back(RowOf("compact 8, an entry", "compact", First("compact"), written, merged, 1));
    rows.push_back(
        RowOf("compact_runs of 8, an entry", "compact", First("compact_runs"), written, merged, 1));
    rows.push_back(
        RowOf("compact_each of 8, an entry", "compact", First("compact_each"), written, merged, 1));
    return rows;
  }

  size_t count_;
  int rounds_;
  double cycle_;
  uint64_t again_;
  Keys present_, absent_, batch_;
  Times times_;
  Entries single_;
  std::vector<Entries> parts_;
  Digest whole_{}, back_{}, newest_{}, found_{}, ranges_{}, batch_found_{};
  std::string table_, partitioned_, files_, lists_;
  std::vector<uint64_t> lens_, list_lens_;
  std::vector<std::string> paths_;
  double read_ = 0;  // the bytes of blocks in the eight tables
  Written compacted_{};
  std::vector<Rival> rivals_;
};
