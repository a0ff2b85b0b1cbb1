// LevelDB by its public headers. `run` compiles this once for each build of LevelDB, and defines
// MAKE_PEER as the build's function. For the build in a namespace of its own, it defines `leveldb`
// as that namespace.
#include <leveldb/cache.h>
#include <leveldb/db.h>
#include <leveldb/env.h>
#include <leveldb/filter_policy.h>
#include <leveldb/helpers/memenv.h>
#include <leveldb/table.h>
#include <leveldb/table_builder.h>
#include <leveldb/write_batch.h>

#include "peer_of.h"

namespace {

class LevelDb {
 public:
  using Iterator = leveldb::Iterator;
  using Value = std::string;

  explicit LevelDb(const Setup& setup)
      : env_(leveldb::NewMemEnv(leveldb::Env::Default())),
        cache_(leveldb::NewLRUCache(setup.warm ? kWarmCache : 0)) {
    if (setup.filter_bits > 0) filter_.reset(leveldb::NewBloomFilterPolicy(setup.filter_bits));
    options_.env = env_.get();
    options_.filter_policy = filter_.get();
    options_.block_cache = cache_.get();
    options_.compression = leveldb::kNoCompression;
    options_.create_if_missing = true;
    options_.paranoid_checks = true;  // else opening does not compare an index's checksum
    options_.write_buffer_size = size_t{1} << 30;
    options_.max_file_size = size_t{1} << 30;
    read_.verify_checksums = true;
    read_.fill_cache = setup.warm;
  }

  class Builder {
   public:
    Builder(LevelDb* store, const std::string& path) {
      leveldb::WritableFile* file;
      Ok(store->env_->NewWritableFile(path, &file));
      file_.reset(file);
      builder_.reset(new leveldb::TableBuilder(store->options_, file));
    }
    void Add(std::string_view key, std::string_view value) {
      builder_->Add(leveldb::Slice(key.data(), key.size()),
                    leveldb::Slice(value.data(), value.size()));
    }
    uint64_t FileSize() { return builder_->FileSize(); }
    void Finish() {
      Ok(builder_->Finish());
      Ok(file_->Close());
    }

   private:
    std::unique_ptr<leveldb::WritableFile> file_;
    std::unique_ptr<leveldb::TableBuilder> builder_;
  };

  class Table {
   public:
    Table(LevelDb* store, const std::string& path) : read_(store->read_) {
      leveldb::RandomAccessFile* file;
      Ok(store->env_->NewRandomAccessFile(path, &file));
      file_.reset(file);
      uint64_t size;
      Ok(store->env_->GetFileSize(path, &size));
      leveldb::Table* table;
      Ok(leveldb::Table::Open(store->options_, file, size, &table));
      table_.reset(table);
    }
    Iterator* NewIterator() { return table_->NewIterator(read_); }

   private:
    leveldb::ReadOptions read_;
    std::unique_ptr<leveldb::RandomAccessFile> file_;
    std::unique_ptr<leveldb::Table> table_;
  };

  // A database of one table, which has these entries.
  void OpenDatabase(const Entries& entries) {
    leveldb::DB* db;
    Ok(leveldb::DB::Open(options_, "/level", &db));
    db_.reset(db);
    leveldb::WriteBatch batch;
    for (size_t i = 0; i < entries.size(); i++) {
      std::string_view key = entries.Key(i), value = entries.Value(i);
      batch.Put(leveldb::Slice(key.data(), key.size()),
                leveldb::Slice(value.data(), value.size()));
      if (i % 1000 == 999 || i + 1 == entries.size()) {
        Ok(db_->Write(leveldb::WriteOptions(), &batch));
        batch.Clear();
      }
    }
    db_->CompactRange(nullptr, nullptr);
    int tables = 0;
    for (char level = '0'; level <= '6'; level++) {
      std::string count;
      db_->GetProperty(std::string("leveldb.num-files-at-level") + level, &count);
      tables += atoi(count.c_str());
    }
    Require(tables == 1, "LevelDB: not one table");
  }

  void Get(std::string_view key, Value* value, Digest* digest) const {
    leveldb::Status status = db_->Get(read_, leveldb::Slice(key.data(), key.size()), value);
    if (status.ok()) {
      Add(digest, key, *value);
    } else {
      Require(status.IsNotFound(), status.ToString());
    }
  }

  void GetMany(const std::vector<std::string>& keys, Digest* digest) const {
    Value value;
    for (const std::string& key : keys) Get(key, &value, digest);
  }

 private:
  std::unique_ptr<leveldb::Env> env_;
  std::unique_ptr<const leveldb::FilterPolicy> filter_;
  std::unique_ptr<leveldb::Cache> cache_;
  leveldb::Options options_;
  leveldb::ReadOptions read_;
  std::unique_ptr<leveldb::DB> db_;
};

}  // namespace

std::unique_ptr<Peer> MAKE_PEER(const Setup& setup) {
  return std::make_unique<PeerOf<LevelDb>>(setup);
}
