// CRC-32C by the processor's instruction, under the name that LevelDB expects of a library. The
// instruction takes eight bytes and waits three cycles for the one before it, so three chains run
// side by side.
#pragma once

#include <nmmintrin.h>

#include <cstddef>
#include <cstdint>
#include <cstring>

namespace crc32c {

inline uint64_t Word(const uint8_t* data) {
  uint64_t word;
  memcpy(&word, data, sizeof word);
  return word;
}

// The sum after this many zero bytes, a multiple of 8. It is linear in the sum's bits, so it is
// looked up in one table for each of the sum's bytes.
template <size_t kBytes>
class Zeros {
 public:
  Zeros() {
    for (uint32_t place = 0; place < 4; place++) {
      for (uint64_t byte = 0; byte < 256; byte++) {
        uint64_t sum = byte << (8 * place);
        for (size_t at = 0; at < kBytes; at += 8) sum = _mm_crc32_u64(sum, 0);
        behind_[place][byte] = static_cast<uint32_t>(sum);
      }
    }
  }

  uint64_t Behind(uint64_t sum) const {
    return behind_[0][sum & 255] ^ behind_[1][sum >> 8 & 255] ^ behind_[2][sum >> 16 & 255] ^
           behind_[3][sum >> 24 & 255];
  }

 private:
  uint32_t behind_[4][256];
};

// Takes three times this many bytes, a multiple of 8, as long as enough are left.
template <size_t kBytes>
uint64_t Threefold(uint64_t sum, const uint8_t** data, size_t* count) {
  static const Zeros<kBytes> zeros;
  for (; *count >= 3 * kBytes; *data += 3 * kBytes, *count -= 3 * kBytes) {
    uint64_t second = 0, third = 0;
    for (size_t at = 0; at < kBytes; at += 8) {
      sum = _mm_crc32_u64(sum, Word(*data + at));
      second = _mm_crc32_u64(second, Word(*data + kBytes + at));
      third = _mm_crc32_u64(third, Word(*data + 2 * kBytes + at));
    }
    sum = zeros.Behind(zeros.Behind(sum) ^ second) ^ third;
  }
  return sum;
}

// The sum after more bytes, if `crc` is the sum of those before them; 0 is that of none.
inline uint32_t Extend(uint32_t crc, const uint8_t* data, size_t count) {
  uint64_t sum = ~crc;
  sum = Threefold<1344>(sum, &data, &count);
  sum = Threefold<128>(sum, &data, &count);
  for (; count >= 8; data += 8, count -= 8) sum = _mm_crc32_u64(sum, Word(data));
  for (; count > 0; data++, count--) sum = _mm_crc32_u8(static_cast<uint32_t>(sum), *data);
  return ~static_cast<uint32_t>(sum);
}

}  // namespace crc32c
