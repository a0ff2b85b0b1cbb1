// Another store, and its side of the workloads. Its tables are in memory, without compression, and
// each block's checksum is compared.
#pragma once

#include <memory>
#include <string>
#include <vector>

#include "entries.h"

// How a store is set up.
struct Setup {
  bool warm;         // whether it has a cache, with room for all
  int filter_bits;   // bits a key of its tables' filters; 0 is no filter
  bool partitioned;  // whether index and filter are in partitions, if the store has these
};

// Several threads may read at once.
class Peer {
 public:
  virtual ~Peer() = default;

  // Makes a database of one table with these entries. Point reads use it.
  virtual void OpenDatabase(const Entries& entries) = 0;
  virtual Digest GetEach(const std::vector<std::string>& keys, uint64_t passes) const = 0;
  // The same in one call, if the store has such a call.
  virtual Digest GetMany(const std::vector<std::string>& keys, uint64_t passes) const = 0;

  // Writes a table, and opens one so many times.
  virtual void Build(const std::string& path, const Entries& entries) = 0;
  virtual void OpenTimes(const std::string& path, uint64_t times) = 0;

  // Opens tables, in place of those that were open. The calls below read the first, or all.
  virtual void Keep(const std::vector<std::string>& paths) = 0;
  virtual Digest Scan() const = 0;
  virtual Digest ScanBack() const = 0;
  // From each key on, so many entries.
  virtual Digest RangeEach(const std::vector<std::string>& keys, uint64_t count,
                           uint64_t passes) const = 0;
  virtual Digest Merge() const = 0;
  // Writes the newest versions into tables of about the target's size.
  virtual std::vector<std::string> Compact(uint64_t target) = 0;
};

using MakePeer = std::unique_ptr<Peer> (*)(const Setup& setup);

// The builds of the other stores. `run` defines which of them the driver has.
std::unique_ptr<Peer> PackagedLevelDb(const Setup& setup);
std::unique_ptr<Peer> BuiltLevelDb(const Setup& setup);
std::unique_ptr<Peer> PackagedRocksDb(const Setup& setup);
std::unique_ptr<Peer> BuiltRocksDb(const Setup& setup);
