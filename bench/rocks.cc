// RocksDB by its public headers. `run` compiles this once for each build of RocksDB, and defines
// MAKE_PEER as the build's function.
#include <rocksdb/cache.h>
#include <rocksdb/db.h>
#include <rocksdb/env.h>
#include <rocksdb/filter_policy.h>
#include <rocksdb/sst_file_reader.h>
#include <rocksdb/sst_file_writer.h>
#include <rocksdb/table.h>

#include "peer_of.h"

namespace {

namespace store = ROCKSDB_NAMESPACE;

class RocksDb {
 public:
  using Iterator = store::Iterator;
  using Value = store::PinnableSlice;

  explicit RocksDb(const Setup& setup) : env_(store::NewMemEnv(store::Env::Default())) {
    store::BlockBasedTableOptions table;
    if (setup.filter_bits > 0) {
      table.filter_policy.reset(store::NewBloomFilterPolicy(setup.filter_bits));
    }
    table.no_block_cache = !setup.warm;
    if (setup.warm) table.block_cache = store::NewLRUCache(kWarmCache);
    if (setup.partitioned) {
      table.index_type = store::BlockBasedTableOptions::kTwoLevelIndexSearch;
      table.partition_filters = setup.filter_bits > 0;
    }
    options_.table_factory.reset(store::NewBlockBasedTableFactory(table));
    options_.env = env_.get();
    options_.compression = store::kNoCompression;
    options_.create_if_missing = true;
    options_.stats_dump_period_sec = 0;
    read_.verify_checksums = true;
    read_.fill_cache = setup.warm;
  }

  class Builder {
   public:
    Builder(RocksDb* store, const std::string& path)
        : writer_(store::EnvOptions(), store->options_) {
      Ok(writer_.Open(path));
    }
    void Add(std::string_view key, std::string_view value) {
      Ok(writer_.Put(store::Slice(key), store::Slice(value)));
    }
    uint64_t FileSize() { return writer_.FileSize(); }
    void Finish() { Ok(writer_.Finish()); }

   private:
    store::SstFileWriter writer_;
  };

  class Table {
   public:
    Table(RocksDb* store, const std::string& path)
        : read_(store->read_), reader_(store->options_) {
      Ok(reader_.Open(path));
    }
    Iterator* NewIterator() { return reader_.NewIterator(read_); }

   private:
    store::ReadOptions read_;
    store::SstFileReader reader_;
  };

  // A database of one table, which has these entries.
  void OpenDatabase(const Entries& entries) {
    Builder builder(this, "/ingested");
    for (size_t i = 0; i < entries.size(); i++) builder.Add(entries.Key(i), entries.Value(i));
    builder.Finish();
    store::DB* db;
    Ok(store::DB::Open(options_, "/rocks", &db));
    db_.reset(db);
    Ok(db_->IngestExternalFile({"/ingested"}, store::IngestExternalFileOptions()));
  }

  void Get(std::string_view key, Value* value, Digest* digest) const {
    value->Reset();
    store::Status status = db_->Get(read_, db_->DefaultColumnFamily(), store::Slice(key), value);
    if (status.ok()) {
      Add(digest, key, View(*value));
    } else {
      Require(status.IsNotFound(), status.ToString());
    }
  }

  void GetMany(const std::vector<std::string>& keys, Digest* digest) const {
    std::vector<store::Slice> slices(keys.begin(), keys.end());
    std::vector<Value> values(keys.size());
    std::vector<store::Status> statuses(keys.size());
    db_->MultiGet(read_, db_->DefaultColumnFamily(), keys.size(), slices.data(), values.data(),
                  statuses.data());
    for (size_t i = 0; i < keys.size(); i++) {
      if (statuses[i].ok()) {
        Add(digest, keys[i], View(values[i]));
      } else {
        Require(statuses[i].IsNotFound(), statuses[i].ToString());
      }
    }
  }

 private:
  std::unique_ptr<store::Env> env_;
  store::Options options_;
  store::ReadOptions read_;
  std::unique_ptr<store::DB> db_;
};

}  // namespace

std::unique_ptr<Peer> MAKE_PEER(const Setup& setup) {
  return std::make_unique<PeerOf<RocksDb>>(setup);
}
