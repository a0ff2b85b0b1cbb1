// Scans and ranges through the calls of sst.h, one entry a call and in bulk. One entry is borrowed
// from the table (`sst_found_lend`); many are copied into a buffer.
#pragma once

#include "calls.h"

// The buffers of a bulk call: small enough to stay in the processor's first cache.
struct Bulk {
  static constexpr size_t kEntries = 64, kBytes = 16384;

  sst_entry entries[kEntries];
  uint8_t bytes[kBytes];
  uint64_t count;
  sst_entry found;  // an entry that did not fit
};

// Adds what a bulk call copied, and the entry that did not fit, if there is one.
inline uint32_t AddBulk(sst_handle* handle, const Bulk& bulk, Digest* digest) {
  const char* at = reinterpret_cast<const char*>(bulk.bytes);
  for (uint64_t i = 0; i < bulk.count; i++) {
    const sst_entry& entry = bulk.entries[i];
    Add(digest, {at, entry.key_len}, {at + entry.key_len, entry.value_len});
    at += entry.key_len + entry.value_len;
  }
  if (bulk.found.kind == SST_NO_ENTRY) return 0;
  sst_lent lent;
  uint32_t code = sst_found_lend(handle, &lent);
  if (code == 0) AddLent(digest, lent);
  return code;
}

// All entries of a scan, one a call.
inline uint32_t ScanSingly(sst_handle* table, Digest* digest) {
  Call scan;
  sst_entry entry;
  sst_lent lent;
  uint32_t code = sst_scan_open(table, scan.words());
  while (code == 0) {
    code = sst_scan_next(scan.words(), &entry);
    if (code != 0 || entry.kind == SST_NO_ENTRY) break;
    code = sst_found_lend(scan.words(), &lent);
    if (code == 0) AddLent(digest, lent);
  }
  return code;
}

inline uint32_t ScanInBulk(sst_handle* table, Digest* digest) {
  Call scan;
  Bulk bulk;
  uint32_t code = sst_scan_open(table, scan.words());
  for (bool more = true; code == 0 && more;) {
    code = sst_scan_take(scan.words(), bulk.entries, Bulk::kEntries, bulk.bytes, Bulk::kBytes,
                         &bulk.count, &bulk.found);
    if (code == 0) code = AddBulk(scan.words(), bulk, digest);
    more = bulk.count == Bulk::kEntries || bulk.found.kind != SST_NO_ENTRY;
  }
  return code;
}

using ScanTable = decltype(&ScanSingly);

// Scans a table this many times.
template <ScanTable scan>
uint32_t CallScanBy(const uint8_t* file, size_t file_len, uint64_t passes, Digest* digest) {
  Call table;
  uint32_t code = sst_table_open(file, file_len, 0, true, true, table.words());
  for (; code == 0 && passes > 0; passes--) {
    *digest = Digest{};
    code = scan(table.words(), digest);
  }
  return code;
}

constexpr auto CallScan = CallScanBy<ScanSingly>;
constexpr auto CallScanBulk = CallScanBy<ScanInBulk>;

// The first entries of an open range, one a call.
inline uint32_t TakeSingly(sst_handle* range, size_t count, Digest* digest) {
  sst_entry entry;
  sst_lent lent;
  uint32_t code = 0;
  for (; code == 0 && count > 0; count--) {
    code = sst_range_next(range, false, &entry);
    if (code != 0 || entry.kind == SST_NO_ENTRY) break;
    code = sst_found_lend(range, &lent);
    if (code == 0) AddLent(digest, lent);
  }
  return code;
}

inline uint32_t TakeInBulk(sst_handle* range, size_t count, Digest* digest) {
  Bulk bulk;
  uint32_t code = 0;
  while (code == 0 && count > 0) {
    size_t room = std::min(count, Bulk::kEntries);
    code = sst_range_take(range, false, bulk.entries, room, bulk.bytes, Bulk::kBytes, &bulk.count,
                          &bulk.found);
    if (code == 0) code = AddBulk(range, bulk, digest);
    size_t taken = bulk.count + (bulk.found.kind != SST_NO_ENTRY);
    if (taken == 0) break;
    count -= taken;
  }
  return code;
}

using TakeEntries = decltype(&TakeSingly);

// Reads the first entries from each key on.
inline uint32_t RangeEach(sst_handle* table, const uint8_t* keys, size_t keys_len, size_t key_len,
                          size_t count, TakeEntries take, Digest* digest) {
  uint32_t code = 0;
  for (size_t at = 0; code == 0 && at + key_len <= keys_len; at += key_len) {
    Call range;
    code = sst_range_open(table, SST_INCLUDED, keys + at, key_len, SST_UNBOUNDED, keys, 0,
                          range.words());
    if (code == 0) code = take(range.words(), count, digest);
  }
  return code;
}

template <TakeEntries take>
uint32_t CallRangeBy(const uint8_t* file, size_t file_len, const uint8_t* keys, size_t keys_len,
                     size_t key_len, size_t count, uint64_t passes, Digest* digest) {
  Call table;
  uint32_t code = sst_table_open(file, file_len, 0, true, true, table.words());
  for (; code == 0 && passes > 0; passes--) {
    *digest = Digest{};
    code = RangeEach(table.words(), keys, keys_len, key_len, count, take, digest);
  }
  return code;
}

constexpr auto CallRange = CallRangeBy<TakeSingly>;
constexpr auto CallRangeBulk = CallRangeBy<TakeInBulk>;
