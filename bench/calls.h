// Reads through the calls of sst.h, as a program in C makes them. They have the signatures of
// `bench_library`, so the same code times both and subtracts the time of a call without a pass.
#pragma once

#include <vector>

#include "../include/sst.h"
#include "entries.h"

// A handle that is closed at the end.
class Call {
 public:
  Call() = default;
  Call(const Call&) = delete;
  Call& operator=(const Call&) = delete;
  ~Call() { sst_close(&words_); }

  sst_handle* words() { return &words_; }

 private:
  sst_handle words_ = {};
};

inline void AddLent(Digest* digest, const sst_lent& lent) {
  Add(digest, {reinterpret_cast<const char*>(lent.key), lent.key_len},
      {reinterpret_cast<const char*>(lent.value), lent.value_len});
}

// Reads each key once. A found entry is borrowed, not copied.
inline uint32_t CallGetEach(sst_handle* table, const uint8_t* keys, size_t keys_len, size_t key_len,
                            Digest* digest) {
  sst_entry entry;
  sst_lent lent;
  for (size_t at = 0; at + key_len <= keys_len; at += key_len) {
    uint32_t code = sst_table_get(table, keys + at, key_len, SST_NEWEST, &entry);
    if (code != 0) return code;
    if (entry.kind == SST_NO_ENTRY) continue;
    code = sst_found_lend(table, &lent);
    if (code != 0) return code;
    AddLent(digest, lent);
  }
  return 0;
}

inline uint32_t CallGet(const uint8_t* file, size_t file_len, const uint8_t* keys, size_t keys_len,
                        size_t key_len, uint64_t passes, Digest* digest) {
  Call table;
  uint32_t code = sst_table_open(file, file_len, 0, true, true, table.words());
  for (; code == 0 && passes > 0; passes--) {
    *digest = Digest{};
    code = CallGetEach(table.words(), keys, keys_len, key_len, digest);
  }
  return code;
}

// All keys in one call.
inline uint32_t CallGetAll(sst_handle* table, const uint8_t* keys, size_t keys_len,
                           const std::vector<uint64_t>& lens, std::vector<sst_entry>* entries,
                           Digest* digest) {
  Call answers;
  sst_lent lent;
  uint32_t code = sst_table_get_many(table, keys, keys_len, lens.data(), lens.size(), SST_NEWEST,
                                     entries->data(), entries->size(), answers.words());
  for (size_t i = 0; code == 0 && i < lens.size(); i++) {
    if ((*entries)[i].kind == SST_NO_ENTRY) continue;
    code = sst_answers_lend(answers.words(), i, &lent);
    if (code == 0) AddLent(digest, lent);
  }
  return code;
}

inline uint32_t CallGetMany(const uint8_t* file, size_t file_len, const uint8_t* keys,
                            size_t keys_len, size_t key_len, uint64_t passes, Digest* digest) {
  Call table;
  std::vector<uint64_t> lens(keys_len / key_len, key_len);
  std::vector<sst_entry> entries(lens.size());
  uint32_t code = sst_table_open(file, file_len, 0, true, true, table.words());
  for (; code == 0 && passes > 0; passes--) {
    *digest = Digest{};
    code = CallGetAll(table.words(), keys, keys_len, lens, &entries, digest);
  }
  return code;
}

// A whole verification, at once or by steps. The digest has the number of entries it reported.
inline uint32_t CallVerify(const uint8_t* file, size_t file_len, uint64_t passes, Digest* digest) {
  Call table;
  sst_verified verified{};
  uint32_t code = sst_table_open(file, file_len, 0, true, true, table.words());
  for (; code == 0 && passes > 0; passes--) {
    code = sst_table_verify(table.words(), &verified);
    *digest = Digest{verified.item_count, 0, 0};
  }
  return code;
}

inline uint32_t CallVerifySteps(const uint8_t* file, size_t file_len, uint64_t passes,
                                Digest* digest) {
  Call table;
  uint32_t code = sst_table_open(file, file_len, 0, true, true, table.words());
  for (; code == 0 && passes > 0; passes--) {
    Call verification;
    sst_progress progress{};
    sst_verified verified{};
    code = sst_verification_open(table.words(), verification.words());
    while (code == 0 && progress.at_end == 0) {
      code = sst_verification_step(verification.words(), &progress, &verified);
    }
    *digest = Digest{verified.item_count, 0, 0};
  }
  return code;
}
