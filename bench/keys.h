// The keys that are read.
#pragma once

#include <algorithm>
#include <cstdlib>
#include <string>
#include <utility>
#include <vector>

#include "entries.h"

constexpr uint64_t kStride = 40;  // more than the entries of a block
constexpr size_t kRange = 50;     // how many entries a short range takes

// Keys of one length, one after another, and each alone.
struct Keys {
  std::string joined;
  std::vector<std::string> each;

  explicit Keys(const std::vector<uint64_t>& numbers) {
    for (uint64_t number : numbers) {
      each.push_back(KeyOf(number));
      joined += each.back();
    }
  }
};

// Numbers of entries with this stride, in random order; or of keys directly after them.
inline std::vector<uint64_t> Numbers(size_t count, size_t stride, uint64_t behind) {
  std::vector<uint64_t> numbers;
  for (uint64_t i = stride / 2; i < count; i += stride) numbers.push_back(2 * i + behind);
  Random(7).Shuffle(&numbers);
  return numbers;
}

// The number of the entry with a key.
inline size_t Place(const std::string& key) { return strtoull(key.c_str(), nullptr, 10) / 2; }

// The results of point reads of these keys, in their order, from a list that has them.
inline Digest FoundOf(const Entries& entries, const Keys& keys) {
  Digest found{};
  for (const std::string& key : keys.each) {
    Add(&found, entries.Key(Place(key)), entries.Value(Place(key)));
  }
  return found;
}

// The entries of short ranges that start at these keys.
inline Digest RangesOf(const Entries& entries, const Keys& keys) {
  Digest ranges{};
  for (const std::string& key : keys.each) {
    size_t end = std::min(Place(key) + kRange, entries.size());
    for (size_t i = Place(key); i < end; i++) Add(&ranges, entries.Key(i), entries.Value(i));
  }
  return ranges;
}

inline Digest WholeOf(const Entries& entries) {
  Digest whole{};
  for (size_t i = 0; i < entries.size(); i++) Add(&whole, entries.Key(i), entries.Value(i));
  return whole;
}
