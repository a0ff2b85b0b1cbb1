// Compares `crc32c::Extend` with a CRC-32C that is computed bit by bit, for all lengths beyond two
// of its widest steps.
#include "crc32c.h"

#include <cstdio>
#include <vector>

static uint32_t Plainly(uint32_t crc, uint8_t byte) {
  crc = ~crc ^ byte;
  for (int bit = 0; bit < 8; bit++) crc = crc >> 1 ^ (crc & 1 ? 0x82f63b78u : 0);
  return ~crc;
}

int main() {
  std::vector<uint8_t> bytes;
  uint32_t plain = 0;
  for (uint32_t i = 0; i < 9000; i++) {
    if (crc32c::Extend(0, bytes.data(), bytes.size()) != plain ||
        crc32c::Extend(crc32c::Extend(0, bytes.data(), i / 3), bytes.data() + i / 3, i - i / 3) !=
            plain) {
      fprintf(stderr, "crc32c: another sum of %u bytes\n", i);
      return 1;
    }
    bytes.push_back(static_cast<uint8_t>(i * 2654435761u >> 23));
    plain = Plainly(plain, bytes.back());
  }
  return 0;
}
