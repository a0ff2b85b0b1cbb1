// The list of the other stores, and one instance of each.
#pragma once

#include <memory>
#include <string>
#include <vector>

#include "peer.h"

// Another store. Its figures have a column of their own.
struct Store {
  std::string name;
  MakePeer make;
  bool warm;
  bool has_partitions;
};

#ifdef BUILT_LEVELDB
constexpr MakePeer kLevel = BuiltLevelDb;
#else
constexpr MakePeer kLevel = PackagedLevelDb;
#endif
#ifdef BUILT_ROCKSDB
constexpr MakePeer kRocks = BuiltRocksDb;
#else
constexpr MakePeer kRocks = PackagedRocksDb;
#endif

// Each store as built from its sources, if it was, and as packaged.
inline std::vector<Store> Stores() {
  std::vector<Store> stores = {{"LevelDB", kLevel, false, false}, {"RocksDB", kRocks, false, true}};
  if (kLevel != PackagedLevelDb) {
    stores.push_back({"LevelDB, packaged", PackagedLevelDb, false, false});
  }
  if (kRocks != PackagedRocksDb) {
    stores.push_back({"RocksDB, packaged", PackagedRocksDb, false, true});
  }
  stores.push_back({"LevelDB, warm", kLevel, true, false});
  stores.push_back({"RocksDB, warm", kRocks, true, true});
  return stores;
}

inline std::vector<std::string> StoreNames() {
  std::vector<std::string> names;
  for (const Store& store : Stores()) names.push_back(store.name);
  return names;
}

// A store that was set up.
struct Rival {
  Store store;
  std::unique_ptr<Peer> peer;
  std::unique_ptr<Peer> partitioned;  // with index and filter in partitions, if it has these
};
