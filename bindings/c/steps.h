/* Tests compactions that hand out each table at once. `test.c` runs the tests. */
#ifndef STEPS_H
#define STEPS_H

#include "made.h"

/* Returns the bytes of the finished table at an index. */
static uint8_t *file_at(sst_handle *files, uint64_t index, sst_file *told) {
  uint64_t count;
  CHECK(sst_files_tell(files, index, told) == 0);
  uint8_t *file = malloc(told->len);
  CHECK(sst_files_copy(files, index, 0, file, told->len, &count) == 0 && count == told->len);
  return file;
}

/* Compares two finished tables. */
static bool is_same_file(sst_handle *files, uint64_t index, sst_handle *others, uint64_t other) {
  sst_file told, others_told;
  uint8_t *file = file_at(files, index, &told);
  uint8_t *others_file = file_at(others, other, &others_told);
  bool is_same = told.id == others_told.id && told.checksum == others_told.checksum &&
                 told.len == others_told.len && memcmp(file, others_file, told.len) == 0;
  free(file);
  free(others_file);
  return is_same;
}

/* Takes the tables of a compaction, and compares them with finished ones. Returns the code of the
 * first call without a table. The same call then finds nothing.
 */
static uint32_t take_each(sst_handle *compaction, sst_handle *all, uint64_t *taken,
                          uint64_t *next_id) {
  sst_handle files = {0};
  uint64_t count, before = *next_id;
  uint32_t code;
  *taken = 0;
  while ((code = sst_compaction_next(compaction, &files, next_id)) == 0) {
    CHECK(sst_files_count(&files, &count) == 0 && count == 1);
    CHECK(all == NULL || is_same_file(&files, 0, all, *taken));
    CHECK(sst_compaction_next(compaction, &files, next_id) == SST_OPEN);
    sst_close(&files);
    before = *next_id;
    ++*taken;
  }
  CHECK(sst_compaction_next(compaction, &files, next_id) == SST_NOTHING);
  CHECK(*next_id == before && sst_files_count(&files, &count) == SST_CLOSED);
  return code;
}

/* Compacts runs at once and by steps: the results are the same. */
static void compact_by_steps(sst_handle *runs, const sst_options *options, uint64_t watermark,
                             uint64_t target_size) {
  sst_handle all = {0}, compaction = {0};
  uint64_t count, taken, all_next = 7, next_id = 7;
  bool evict = watermark > 9;
  CHECK(sst_compact(runs, options, watermark, evict, evict, target_size, &all, &all_next) == 0);
  CHECK(sst_files_count(&all, &count) == 0);
  CHECK(sst_compaction_open(runs, options, watermark, evict, evict, target_size, &compaction) ==
        0);
  CHECK(take_each(&compaction, &all, &taken, &next_id) == SST_NOTHING);
  CHECK(taken == count && next_id == (count > 0 ? all_next : 7));
  sst_close(&compaction);
  sst_close(&all);
}

/* Passes closed handles, handles in use, and handles of other kinds. */
static void test_steps_misuse(sst_handle *runs, const sst_options *options) {
  sst_handle closed = {0}, files = {0}, compaction = {0};
  sst_options wrong = *options;
  sst_entry entry;
  uint64_t next_id = 7;
  wrong.level = 256;
  CHECK(sst_compaction_open(&closed, &wrong, 0, false, false, 0, runs) == SST_OPEN);
  CHECK(sst_compaction_open(&closed, &wrong, 0, false, false, 0, &compaction) == SST_CLOSED);
  CHECK(sst_compaction_open(runs, &wrong, 0, false, false, 0, &compaction) == SST_NO_SUCH);
  CHECK(sst_compaction_next(&compaction, &files, &next_id) == SST_CLOSED);
  CHECK(sst_compaction_next(&compaction, runs, &next_id) == SST_OPEN);
  CHECK(sst_compaction_next(runs, &files, &next_id) == SST_OTHER_KIND);
  CHECK(sst_compaction_open(runs, options, 0, false, false, 0, &compaction) == 0);
  CHECK(sst_compaction_open(&compaction, &wrong, 0, false, false, 0, &files) == SST_OTHER_KIND);
  CHECK(sst_compaction_next(&compaction, &compaction, &next_id) == SST_OPEN && next_id == 7);
  CHECK(sst_range_next(&compaction, false, &entry) == SST_OTHER_KIND);
  CHECK(sst_compaction_next(&compaction, &files, &next_id) == 0);
  CHECK(sst_compaction_next(&files, &closed, &next_id) == SST_OTHER_KIND);
  sst_close(&files);
  sst_close(&compaction); /* it is not at its end */
  CHECK(sst_compaction_next(&compaction, &files, &next_id) == SST_CLOSED);
}

/* Compacts a list of two runs, which is closed in the middle. */
static void test_steps(sst_handle *runs, const sst_options *options) {
  sst_handle files = {0}, compaction = {0}, empty = {0};
  uint64_t next_id = 7, taken;
  const uint64_t sizes[] = {0, 1, 40, UINT64_MAX};
  for (int i = 0; i < 4; i++) {
    compact_by_steps(runs, options, 0, sizes[i]);
    compact_by_steps(runs, options, 9, sizes[i]);
    compact_by_steps(runs, options, SST_NEWEST, sizes[i]);
  }
  CHECK(sst_runs_open(&empty) == 0);
  compact_by_steps(&empty, options, 9, 0);
  sst_close(&empty);
  test_steps_misuse(runs, options);
  CHECK(sst_compaction_open(runs, options, 0, false, false, 0, &compaction) == 0);
  CHECK(sst_compaction_next(&compaction, &files, &next_id) == 0);
  /* the first table has the id after that of the options, and the second one is being written */
  CHECK(next_id == options->id + 3);
  sst_close(&files);
  sst_close(runs); /* the compaction has shares */
  CHECK(take_each(&compaction, NULL, &taken, &next_id) == SST_NOTHING && taken > 0);
  sst_close(&compaction);
}

/* Adds a run of one table with one key. */
static void add_key(sst_handle *runs, const sst_options *options, const char *key) {
  sst_handle files = {0}, table = {0};
  size_t len;
  CHECK(sst_writer_open(options, &files) == 0);
  CHECK(sst_writer_add(&files, bytes(key), strlen(key), 1, SST_VALUE, bytes("1"), 1) == 0);
  CHECK(sst_writer_finish(&files) == 0);
  uint8_t *file = file_of(&files, SIZE_MAX, &len);
  CHECK(sst_table_open(file, len, 0, false, false, &table) == 0);
  CHECK(sst_runs_add(runs, &table) == 0);
  sst_close(&table);
  sst_close(&files);
  free(file);
}

/* The table of the first key is handed out before the second key is found to be there twice. */
static void test_steps_out_of_order(const sst_options *options) {
  sst_handle runs = {0}, compaction = {0};
  uint64_t next_id = 7, taken;
  CHECK(sst_runs_open(&runs) == 0);
  add_key(&runs, options, "a");
  add_key(&runs, options, "b");
  add_key(&runs, options, "b");
  CHECK(sst_compaction_open(&runs, options, 0, false, false, 0, &compaction) == 0);
  CHECK(take_each(&compaction, NULL, &taken, &next_id) == SST_OUT_OF_ORDER && taken == 1);
  CHECK(next_id == options->id + 3);
  sst_close(&compaction);
  sst_close(&runs);
}

/* Runs of a damaged table: a compaction at once and one by steps end with the same code. */
static void compact_damaged(sst_handle *runs, const sst_options *options) {
  sst_handle files = {0}, compaction = {0};
  uint64_t next_id, taken;
  uint32_t at_once = sst_compact(runs, options, 0, false, false, 0, &files, &next_id);
  uint32_t code = sst_compaction_open(runs, options, 0, false, false, 0, &compaction);
  if (code == 0) {
    code = take_each(&compaction, at_once == 0 ? &files : NULL, &taken, &next_id);
    if (code == SST_NOTHING) code = 0;
  }
  CHECK(code == at_once);
  sst_close(&compaction);
  sst_close(&files);
}

#endif
