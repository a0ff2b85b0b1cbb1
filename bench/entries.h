// The entries of the workloads, and the digest of the entries that a store returns.
#pragma once

#include <cstdint>
#include <cstdio>
#include <cstdlib>
#include <cstring>
#include <string>
#include <string_view>
#include <vector>

#include "library.h"

constexpr size_t kKeyLen = 16;
constexpr size_t kValueLen = 100;
constexpr size_t kEntryLen = kKeyLen + kValueLen;

[[noreturn]] inline void Fail(const std::string& what) {
  fprintf(stderr, "bench: %s\n", what.c_str());
  exit(1);
}

inline void Require(bool holds, const std::string& what) {
  if (!holds) Fail(what);
}

// The library's own `Digest::add`.
inline uint64_t Tail(std::string_view bytes) {
  if (bytes.size() < 8) return 0;
  uint64_t number;
  memcpy(&number, bytes.data() + bytes.size() - 8, 8);
  return number;
}

inline void Add(Digest* digest, std::string_view key, std::string_view value) {
  digest->entries += 1;
  digest->bytes += key.size() + value.size();
  digest->sum = digest->sum * 0x100000001b3u + (Tail(key) * 0x9e3779b97f4a7c15u ^ Tail(value));
}

inline bool operator==(const Digest& a, const Digest& b) {
  return a.entries == b.entries && a.bytes == b.bytes && a.sum == b.sum;
}

// Numbers without a pattern, the same in each run.
class Random {
 public:
  explicit Random(uint64_t seed) : state_(seed * 0x9e3779b97f4a7c15u + 1) {}

  uint64_t Next() {
    state_ ^= state_ << 13;
    state_ ^= state_ >> 7;
    state_ ^= state_ << 17;
    return state_;
  }

  template <class T>
  void Shuffle(std::vector<T>* items) {
    for (size_t i = items->size(); i > 1; i--) std::swap((*items)[i - 1], (*items)[Next() % i]);
  }

 private:
  uint64_t state_;
};

inline std::string KeyOf(uint64_t number) {
  char text[32];
  snprintf(text, sizeof text, "%016llu", static_cast<unsigned long long>(number));
  return std::string(text, kKeyLen);
}

// Entries in order of their keys. Keys and values are stored one after another.
class Entries {
 public:
  // The value depends on the key and on the version.
  void Append(uint64_t number, uint64_t version) {
    bytes_ += KeyOf(number);
    Random random(number * 16 + version);
    char value[104];
    for (size_t i = 0; i < sizeof value; i += 8) {
      uint64_t word = random.Next();
      memcpy(value + i, &word, 8);
    }
    bytes_.append(value, kValueLen);
  }

  void Reserve(size_t count) { bytes_.reserve(count * kEntryLen); }
  size_t size() const { return bytes_.size() / kEntryLen; }
  const std::string& bytes() const { return bytes_; }

  std::string_view Key(size_t i) const {
    return std::string_view(bytes_).substr(i * kEntryLen, kKeyLen);
  }
  std::string_view Value(size_t i) const {
    return std::string_view(bytes_).substr(i * kEntryLen + kKeyLen, kValueLen);
  }

 private:
  std::string bytes_;
};
