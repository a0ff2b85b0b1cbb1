/* Tests the verification of a table: by steps, and with a checksum of its file. `test.c` runs the
 * tests.
 */
#ifndef VERIFY_H
#define VERIFY_H

#include "made.h"

/* Verifies a table by steps. The number of bytes read never descends, and never exceeds the size.
 * Returns the last code.
 */
static uint32_t verify_by_steps(sst_handle *verification, sst_progress *progress,
                                sst_verified *verified) {
  uint64_t before = 0;
  uint32_t code = 0;
  progress->at_end = 0;
  while (code == 0 && progress->at_end == 0) {
    memset(verified, 7, sizeof *verified);
    code = sst_verification_step(verification, progress, verified);
    CHECK(progress->bytes_read >= before && progress->bytes_read <= progress->data_size);
    CHECK(code != 0 || progress->at_end == 1 || verified->item_count == 0);
    before = progress->bytes_read;
  }
  return code;
}

static void test_verification(const uint8_t *file, size_t len, uint64_t items) {
  sst_handle table = {0}, steps = {0}, closed = {0};
  sst_progress progress = {7, 7, 7};
  sst_verified verified, again, at_once;
  sst_facts facts;
  sst_entry entry;
  sst_lent lent;
  CHECK(sst_verification_open(&closed, &steps) == SST_CLOSED);
  CHECK(sst_verification_step(&steps, &progress, &verified) == SST_CLOSED);
  CHECK(progress.bytes_read == 0 && progress.at_end == 0 && verified.item_count == 0);
  CHECK(sst_table_open_kept(file, len, 0, true, true, &table) == 0);
  CHECK(sst_verification_open(&table, &table) == SST_OPEN);
  progress.at_end = 7;
  CHECK(sst_verification_step(&table, &progress, &verified) == SST_OTHER_KIND);
  CHECK(progress.at_end == 0);
  CHECK(sst_verification_open(&table, &steps) == 0);
  CHECK(sst_verification_open(&table, &steps) == SST_OPEN);
  CHECK(sst_verification_open(&steps, &closed) == SST_OTHER_KIND);
  CHECK(sst_table_get(&steps, file, 0, 1, &entry) == SST_OTHER_KIND);
  CHECK(sst_range_next(&steps, false, &entry) == SST_OTHER_KIND);
  CHECK(sst_found_lend(&steps, &lent) == SST_NOTHING);
  CHECK(sst_table_facts(&table, &facts) == 0);
  CHECK(sst_table_verify(&table, &at_once) == 0);
  sst_close(&table); /* the verification has a share */
  CHECK(sst_verification_step(&steps, &progress, &verified) == 0);
  CHECK(progress.bytes_read == 0 && progress.data_size == facts.data_size);
  CHECK(verify_by_steps(&steps, &progress, &verified) == 0);
  CHECK(progress.bytes_read == facts.data_size && verified.item_count == items);
  CHECK(memcmp(&verified, &at_once, sizeof verified) == 0);
  CHECK(sst_verification_step(&steps, &progress, &again) == 0 && progress.at_end == 1);
  CHECK(memcmp(&verified, &again, sizeof verified) == 0);
  sst_close(&steps);
  CHECK(sst_verification_step(&steps, &progress, &verified) == SST_CLOSED);
}

/* Steps find the same as one call, and a further step finds it again. */
static void verify_damaged(sst_handle *table, uint32_t code, const sst_verified *at_once) {
  sst_handle steps = {0};
  sst_progress progress;
  sst_verified verified;
  CHECK(sst_verification_open(table, &steps) == 0);
  CHECK(verify_by_steps(&steps, &progress, &verified) == code);
  CHECK(memcmp(&verified, at_once, sizeof verified) == 0);
  CHECK(sst_verification_step(&steps, &progress, &verified) == code);
  CHECK(memcmp(&verified, at_once, sizeof verified) == 0 && progress.at_end == (code == 0));
  sst_close(&steps);
}

/* With the checksum of its bytes a table is verified as without one. Another one is reported. */
static void verify_with(sst_handle *table, uint64_t checksum, uint64_t other, uint32_t code,
                        const sst_verified *at_once) {
  sst_verified verified, told = {0};
  CHECK(sst_table_verify_with(table, checksum, &verified) == code);
  CHECK(memcmp(&verified, at_once, sizeof verified) == 0);
  told.section = SST_SECTION_DATA;
  told.fault = SST_FAULT_OTHER_CHECKSUM;
  CHECK(sst_table_verify_with(table, other, &verified) == SST_FAULTY);
  CHECK(memcmp(&verified, &told, sizeof verified) == 0);
}

static void test_checksum(const uint8_t *file, size_t len) {
  sst_handle table = {0}, runs = {0};
  sst_verified verified, at_once, zeros = {0};
  uint64_t checksum = hash_of(file, len);
  memset(&verified, 7, sizeof verified);
  CHECK(sst_table_verify_with(&table, checksum, &verified) == SST_CLOSED);
  CHECK(memcmp(&verified, &zeros, sizeof verified) == 0);
  CHECK(sst_runs_open(&runs) == 0);
  memset(&verified, 7, sizeof verified);
  CHECK(sst_table_verify_with(&runs, checksum, &verified) == SST_OTHER_KIND);
  CHECK(memcmp(&verified, &zeros, sizeof verified) == 0);
  CHECK(sst_table_open(file, len, 9, true, true, &table) == 0); /* the bytes stay as they are */
  CHECK(sst_table_verify(&table, &at_once) == 0);
  verify_with(&table, checksum, checksum - 1, 0, &at_once);
  verify_with(&table, checksum, 0, 0, &at_once);
  verify_with(&table, checksum, UINT64_MAX, 0, &at_once);
  sst_close(&table);
  sst_close(&runs);
}

#endif
