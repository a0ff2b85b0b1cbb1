// The bytes that the format makes a reader or a writer hash, and the least time this takes.
//
// FNV-1a takes four cycles a byte, since each byte waits for the multiplication before it. A sum
// that is only compared can be computed from both ends at once, two bytes in four cycles. If
// several blocks are compared, four chains in one loop take four bytes in four cycles.
#pragma once

#include <time.h>

#include <algorithm>
#include <cstdint>
#include <cstring>
#include <string_view>
#include <vector>

constexpr double kMade = 4, kCompared = 2, kBeside = 1;  // cycles a byte

inline double ThreadSeconds() {
  timespec now;
  clock_gettime(CLOCK_THREAD_CPUTIME_ID, &now);
  return now.tv_sec + now.tv_nsec * 1e-9;
}

// The length of a cycle of this processor: a byte of one chain takes four cycles.
inline double CycleSeconds() {
  constexpr uint64_t kBytes = 1 << 22;
  double least = 1;
  for (int round = 0; round < 10; round++) {
    uint64_t hash = 0xcbf29ce484222325u;
    double start = ThreadSeconds();
    for (uint64_t i = 0; i < kBytes; i++) {
      hash = (hash ^ (i & 255)) * 0x100000001b3u;
      asm volatile("" : "+r"(hash));  // else the compiler may compute several bytes at once
    }
    least = std::min(least, ThreadSeconds() - start);
  }
  return least / kBytes / 4;
}

// The lengths of a table's parts, from its trailer.
class Parts {
 public:
  explicit Parts(std::string_view table) : table_(table) {}

  size_t table() const { return table_.size(); }
  // The payloads of a section's blocks. Only these are hashed.
  std::vector<size_t> Data() const { return Payloads(0); }
  std::vector<size_t> Index() const { return Payloads(1); }
  std::vector<size_t> TopIndex() const { return Payloads(2); }
  std::vector<size_t> Filter() const { return Payloads(3); }
  std::vector<size_t> TopFilter() const { return Payloads(4); }
  std::vector<size_t> Meta() const { return Payloads(6); }

 private:
  template <class Number>
  Number At(size_t place) const {
    Number number;
    memcpy(&number, table_.data() + place, sizeof number);
    return number;
  }

  std::vector<size_t> Payloads(size_t slot) const {
    constexpr size_t kTrailer = 120, kSlot = 16, kHeader = 24, kLength = 8;
    std::vector<size_t> payloads;
    size_t at = At<uint64_t>(table_.size() - kTrailer + slot * kSlot);
    if (at == ~size_t{0}) return payloads;  // there is no such section
    size_t end = at + At<uint64_t>(table_.size() - kTrailer + slot * kSlot + 8);
    for (; at < end; at += kHeader + payloads.back()) {
      payloads.push_back(At<uint32_t>(at + kLength));
    }
    return payloads;
  }

  std::string_view table_;
};

inline double Sum(const std::vector<size_t>& lengths) {
  double sum = 0;
  for (size_t length : lengths) sum += length;
  return sum;
}
