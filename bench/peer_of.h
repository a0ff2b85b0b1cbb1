// The code that LevelDB and RocksDB share.
#pragma once

#include <queue>
#include <string_view>

#include "peer.h"

constexpr size_t kWarmCache = size_t{4} << 30;

template <class Status>
void Ok(const Status& status) {
  if (!status.ok()) Fail(status.ToString());
}

template <class Slice>
std::string_view View(const Slice& slice) {
  return std::string_view(slice.data(), slice.size());
}

// Several iterators as one, by a plain priority queue: for each key, the entry of the first
// iterator that has it.
template <class Iterator, class Take>
void MergeNewest(const std::vector<std::unique_ptr<Iterator>>& sources, Take take) {
  auto after = [&](size_t a, size_t b) {
    int order = sources[a]->key().compare(sources[b]->key());
    return order > 0 || (order == 0 && a > b);
  };
  std::priority_queue<size_t, std::vector<size_t>, decltype(after)> queue(after);
  for (size_t i = 0; i < sources.size(); i++) {
    sources[i]->SeekToFirst();
    if (sources[i]->Valid()) queue.push(i);
  }
  std::string last;
  bool has_last = false;
  while (!queue.empty()) {
    size_t i = queue.top();
    queue.pop();
    std::string_view key = View(sources[i]->key());
    if (!has_last || key != last) {
      last.assign(key);
      has_last = true;
      take(key, View(sources[i]->value()));
    }
    sources[i]->Next();
    if (sources[i]->Valid()) queue.push(i);
  }
  for (const auto& source : sources) Ok(source->status());
}

template <class Store>
class PeerOf : public Peer {
 public:
  explicit PeerOf(const Setup& setup) : store_(setup) {}

  void OpenDatabase(const Entries& entries) override { store_.OpenDatabase(entries); }

  Digest GetEach(const std::vector<std::string>& keys, uint64_t passes) const override {
    Digest digest{};
    typename Store::Value value;
    for (uint64_t pass = 0; pass < passes; pass++) {
      digest = Digest{};
      for (const std::string& key : keys) store_.Get(key, &value, &digest);
    }
    return digest;
  }

  Digest GetMany(const std::vector<std::string>& keys, uint64_t passes) const override {
    Digest digest{};
    for (uint64_t pass = 0; pass < passes; pass++) {
      digest = Digest{};
      store_.GetMany(keys, &digest);
    }
    return digest;
  }

  void Build(const std::string& path, const Entries& entries) override {
    typename Store::Builder builder(&store_, path);
    for (size_t i = 0; i < entries.size(); i++) builder.Add(entries.Key(i), entries.Value(i));
    builder.Finish();
  }

  void OpenTimes(const std::string& path, uint64_t times) override {
    for (uint64_t i = 0; i < times; i++) typename Store::Table table(&store_, path);
  }

  void Keep(const std::vector<std::string>& paths) override {
    kept_.clear();
    for (const std::string& path : paths) {
      kept_.emplace_back(new typename Store::Table(&store_, path));
    }
  }

  Digest Scan() const override {
    Digest digest{};
    std::unique_ptr<Iterator> entries(kept_[0]->NewIterator());
    for (entries->SeekToFirst(); entries->Valid(); entries->Next()) {
      Add(&digest, View(entries->key()), View(entries->value()));
    }
    Ok(entries->status());
    return digest;
  }

  Digest ScanBack() const override {
    Digest digest{};
    std::unique_ptr<Iterator> entries(kept_[0]->NewIterator());
    for (entries->SeekToLast(); entries->Valid(); entries->Prev()) {
      Add(&digest, View(entries->key()), View(entries->value()));
    }
    Ok(entries->status());
    return digest;
  }

  Digest RangeEach(const std::vector<std::string>& keys, uint64_t count,
                   uint64_t passes) const override {
    Digest digest{};
    for (uint64_t pass = 0; pass < passes; pass++) {
      digest = Digest{};
      for (const std::string& key : keys) {
        std::unique_ptr<Iterator> entries(kept_[0]->NewIterator());
        uint64_t left = count;
        for (entries->Seek(key); left > 0 && entries->Valid(); entries->Next(), left--) {
          Add(&digest, View(entries->key()), View(entries->value()));
        }
        Ok(entries->status());
      }
    }
    return digest;
  }

  Digest Merge() const override {
    Digest digest{};
    MergeNewest(Iterators(), [&](std::string_view key, std::string_view value) {
      Add(&digest, key, value);
    });
    return digest;
  }

  std::vector<std::string> Compact(uint64_t target) override {
    std::vector<std::string> paths;
    std::unique_ptr<typename Store::Builder> builder;
    MergeNewest(Iterators(), [&](std::string_view key, std::string_view value) {
      if (builder && builder->FileSize() >= target) {
        builder->Finish();
        builder.reset();
      }
      if (!builder) {
        paths.push_back("/compacted" + std::to_string(paths.size()));
        builder.reset(new typename Store::Builder(&store_, paths.back()));
      }
      builder->Add(key, value);
    });
    if (builder) builder->Finish();
    return paths;
  }

 private:
  using Iterator = typename Store::Iterator;

  std::vector<std::unique_ptr<Iterator>> Iterators() const {
    std::vector<std::unique_ptr<Iterator>> iterators;
    for (const auto& table : kept_) iterators.emplace_back(table->NewIterator());
    return iterators;
  }

  Store store_;
  std::vector<std::unique_ptr<typename Store::Table>> kept_;
};
