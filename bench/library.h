// The exports of the static library `bench_library`. A slice is passed as a pointer and a length.
// The library uses the C library's allocator, which is passed as no bytes.
#pragma once

#include <cstddef>
#include <cstdint>

extern "C" {

struct Digest {
  uint64_t entries;
  uint64_t bytes;
  uint64_t sum;
};

struct Written {
  uint64_t tables;
  uint64_t bytes;
  uint64_t checksum;
};

struct Packed {
  uint64_t runs;
  uint64_t tables;
  uint64_t sum;
};

uint32_t tool_bench_build(const uint8_t* store, size_t store_len, size_t key_len, size_t value_len,
                         uint64_t seqno, uint8_t* out, size_t out_len, Written* written);
uint32_t tool_bench_build_ref(const uint8_t* store, size_t store_len, size_t key_len,
                              size_t value_len, uint64_t seqno, Written* written);
uint32_t tool_bench_build_partitioned(const uint8_t* store, size_t store_len, size_t key_len,
                                     size_t value_len, uint64_t seqno, uint8_t* out, size_t out_len,
                                     Written* written);
uint32_t tool_bench_open(const uint8_t* file, size_t file_len, uint64_t times, uint64_t* last_id);
uint32_t tool_bench_get(const uint8_t* file, size_t file_len, const uint8_t* keys, size_t keys_len,
                       size_t key_len, uint64_t passes, Digest* digest);
uint32_t tool_bench_get_many(const uint8_t* file, size_t file_len, const uint8_t* keys,
                            size_t keys_len, size_t key_len, uint64_t passes, Digest* digest);
uint32_t tool_bench_scan(const uint8_t* file, size_t file_len, uint64_t passes, Digest* digest);
uint32_t tool_bench_scan_lent(const uint8_t* file, size_t file_len, uint64_t passes,
                              Digest* digest);
uint32_t tool_bench_iter(const uint8_t* file, size_t file_len, uint64_t passes, Digest* digest);
uint32_t tool_bench_iter_back(const uint8_t* file, size_t file_len, uint64_t passes,
                              Digest* digest);
uint32_t tool_bench_merge(const uint8_t* files, size_t files_len, const uint64_t* lens,
                         size_t lens_len, uint64_t passes, Digest* digest);
uint32_t tool_bench_merge_lent(const uint8_t* files, size_t files_len, const uint64_t* lens,
                         size_t lens_len, uint64_t passes, Digest* digest);
uint32_t tool_bench_range(const uint8_t* file, size_t file_len, const uint8_t* keys,
                          size_t keys_len, size_t key_len, size_t count, uint64_t passes,
                          Digest* digest);
uint32_t tool_bench_range_lent(const uint8_t* file, size_t file_len, const uint8_t* keys,
                               size_t keys_len, size_t key_len, size_t count, uint64_t passes,
                               Digest* digest);
uint32_t tool_bench_range_runs(const uint8_t* files, size_t files_len, const uint64_t* lens,
                              size_t lens_len, uint64_t passes, Digest* digest);
uint32_t tool_bench_range_runs_lent(const uint8_t* files, size_t files_len, const uint64_t* lens,
                                    size_t lens_len, uint64_t passes, Digest* digest);
uint32_t tool_bench_compact(const uint8_t* files, size_t files_len, const uint64_t* lens,
                           size_t lens_len, uint64_t target, uint64_t passes, Written* written);
uint32_t tool_bench_compact_and_scan(const uint8_t* files, size_t files_len, const uint64_t* lens,
                                    size_t lens_len, uint64_t target, Written* written,
                                    Digest* digest);
uint32_t tool_bench_compact_runs(const uint8_t* lists, size_t lists_len, const uint64_t* lens,
                                size_t lens_len, size_t key_len, size_t value_len, uint64_t target,
                                uint64_t passes, Written* written);
uint32_t tool_bench_compact_each(const uint8_t* lists, size_t lists_len, const uint64_t* lens,
                                size_t lens_len, size_t key_len, size_t value_len, uint64_t target,
                                uint64_t passes, Written* written);
uint32_t tool_bench_optimize_runs(const uint8_t* keys, size_t keys_len, size_t key_len,
                                 uint64_t passes, Packed* packed);
}
