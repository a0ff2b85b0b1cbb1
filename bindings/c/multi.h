/* Tests writers of several tables. `test.c` runs the tests. */
#ifndef MULTI_H
#define MULTI_H

#include "steps.h"

/* Takes each finished table, and compares it with those of `all`. */
static void take_finished(sst_handle *writer, sst_handle *all, uint64_t *taken) {
  sst_handle files = {0};
  uint64_t count, next_id = 7, before = 7;
  while (sst_multi_writer_take(writer, &files, &next_id) == 0) {
    CHECK(sst_files_count(&files, &count) == 0 && count == 1);
    CHECK(is_same_file(&files, 0, all, *taken));
    CHECK(sst_multi_writer_take(writer, &files, &next_id) == SST_OPEN);
    sst_close(&files);
    before = next_id;
    ++*taken;
  }
  CHECK(sst_multi_writer_take(writer, &files, &next_id) == SST_NOTHING);
  CHECK(next_id == before && sst_files_count(&files, &count) == SST_CLOSED);
}

/* Writes what `write_entries` does. With `all` it takes each table at once. */
static void write_multi(sst_handle *writer, int n, sst_handle *all, uint64_t *taken) {
  char key[16], value[32];
  for (int i = 0; i < n; i++) {
    key_of(i, key);
    if (i % 7 == 0) {
      CHECK(sst_multi_writer_add(writer, bytes(key), strlen(key), 9, SST_TOMBSTONE, bytes(""),
                                 0) == 0);
    }
    for (int version = 2; version > 0; version--) {
      value_of(i, version, value);
      CHECK(sst_multi_writer_add(writer, bytes(key), strlen(key), (uint64_t)version, SST_VALUE,
                                 bytes(value), strlen(value)) == 0);
    }
    if (all != NULL) take_finished(writer, all, taken);
  }
}

/* The tables are the same if some are taken early. They are those of a compaction that keeps all
 * entries. */
static void test_multi_size(sst_handle *runs, const sst_options *options, int n,
                            uint64_t target_size) {
  sst_handle writer = {0}, all = {0}, rest = {0};
  uint64_t count, rest_count, next_id = 7, all_next = 7, taken = 0;
  CHECK(sst_compact(runs, options, 0, false, false, target_size, &all, &all_next) == 0);
  CHECK(sst_multi_writer_open(options, target_size, &writer) == 0);
  write_multi(&writer, n, NULL, &taken);
  CHECK(sst_multi_writer_finish(&writer, &rest, &next_id) == 0 && next_id == all_next);
  CHECK(sst_files_count(&all, &count) == 0);
  CHECK(sst_files_count(&rest, &rest_count) == 0 && rest_count == count);
  for (uint64_t i = 0; i < count; i++) CHECK(is_same_file(&rest, i, &all, i));
  sst_close(&rest);
  sst_close(&writer);
  CHECK(sst_multi_writer_open(options, target_size, &writer) == 0);
  write_multi(&writer, n, &all, &taken);
  CHECK(sst_multi_writer_finish(&writer, &rest, &next_id) == 0 && next_id == all_next);
  CHECK(sst_files_count(&rest, &rest_count) == 0 && taken + rest_count == count);
  for (uint64_t i = taken; i < count; i++) CHECK(is_same_file(&rest, i - taken, &all, i));
  sst_close(&rest);
  sst_close(&writer);
  sst_close(&all);
}

/* Passes closed handles, handles in use, handles of other kinds, and entries out of order. */
static void test_multi_misuse(const sst_options *options) {
  sst_handle writer = {0}, files = {0}, closed = {0};
  sst_options wrong = *options;
  uint64_t next_id = 7, count;
  wrong.level = 256;
  CHECK(sst_multi_writer_open(&wrong, 0, &writer) == SST_NO_SUCH);
  CHECK(sst_multi_writer_add(&writer, bytes("b"), 1, 1, 4, bytes(""), 0) == SST_CLOSED);
  CHECK(sst_multi_writer_take(&writer, &files, &next_id) == SST_CLOSED);
  CHECK(sst_multi_writer_finish(&writer, &files, &next_id) == SST_CLOSED);
  CHECK(sst_multi_writer_open(options, 0, &writer) == 0);
  CHECK(sst_multi_writer_open(&wrong, 0, &writer) == SST_OPEN);
  CHECK(sst_multi_writer_add(&writer, bytes("b"), 1, 1, 4, bytes(""), 0) == SST_NO_SUCH);
  CHECK(sst_multi_writer_add(&writer, bytes("b"), 1, 1, SST_VALUE, bytes(""), 0) == 0);
  CHECK(sst_multi_writer_add(&writer, bytes("a"), 1, 1, SST_VALUE, bytes(""), 0) ==
        SST_OUT_OF_ORDER);
  CHECK(sst_multi_writer_add(&writer, bytes("c"), 1, SST_NEWEST, SST_VALUE, bytes(""), 0) ==
        SST_OUT_OF_ORDER);
  CHECK(sst_writer_add(&writer, bytes("c"), 1, 1, SST_VALUE, bytes(""), 0) == SST_OTHER_KIND);
  CHECK(sst_files_count(&writer, &count) == SST_OTHER_KIND);
  CHECK(sst_multi_writer_take(&writer, &files, &next_id) == SST_NOTHING);
  CHECK(sst_multi_writer_take(&writer, &writer, &next_id) == SST_OPEN);
  CHECK(sst_multi_writer_finish(&writer, &writer, &next_id) == SST_OPEN && next_id == 7);
  CHECK(sst_multi_writer_finish(&writer, &files, &next_id) == 0);
  CHECK(sst_files_count(&files, &count) == 0 && count == 1 && next_id == options->id + 2);
  CHECK(sst_multi_writer_finish(&writer, &files, &next_id) == SST_OPEN);
  CHECK(sst_multi_writer_finish(&files, &closed, &next_id) == SST_OTHER_KIND);
  CHECK(sst_multi_writer_take(&files, &closed, &next_id) == SST_OTHER_KIND);
  sst_close(&files);
  CHECK(sst_multi_writer_add(&writer, bytes("d"), 1, 1, SST_VALUE, bytes(""), 0) ==
        SST_OTHER_KIND);
  CHECK(sst_multi_writer_finish(&writer, &files, &next_id) == SST_OTHER_KIND);
  sst_close(&writer);
}

/* The ids end after the second table. The first one can still be taken after the error. */
static void test_multi_failed(const sst_options *options) {
  sst_handle writer = {0}, files = {0};
  sst_options last = *options;
  sst_file told;
  uint64_t next_id = 7;
  last.id = UINT64_MAX - 2;
  CHECK(sst_multi_writer_open(&last, 0, &writer) == 0);
  CHECK(sst_multi_writer_add(&writer, bytes("a"), 1, 1, SST_VALUE, bytes(""), 0) == 0);
  CHECK(sst_multi_writer_add(&writer, bytes("b"), 1, 1, SST_VALUE, bytes(""), 0) == 0);
  CHECK(sst_multi_writer_add(&writer, bytes("c"), 1, 1, SST_VALUE, bytes(""), 0) ==
        SST_TABLE_IDS_SPENT);
  CHECK(sst_multi_writer_add(&writer, bytes("c"), 1, 1, SST_VALUE, bytes(""), 0) ==
        SST_WRITER_FAILED);
  CHECK(sst_multi_writer_take(&writer, &files, &next_id) == 0 && next_id == 0);
  CHECK(sst_files_tell(&files, 0, &told) == 0 && told.id == UINT64_MAX - 1);
  sst_close(&files);
  CHECK(sst_multi_writer_take(&writer, &files, &next_id) == SST_NOTHING);
  CHECK(sst_multi_writer_finish(&writer, &files, &next_id) == SST_WRITER_FAILED);
  CHECK(sst_multi_writer_take(&writer, &files, &next_id) == SST_OTHER_KIND);
  sst_close(&writer);
}

/* A writer without an entry has no table. */
static void test_multi_empty(const sst_options *options) {
  sst_handle writer = {0}, files = {0};
  uint64_t next_id = 7, count = 7;
  CHECK(sst_multi_writer_open(options, UINT64_MAX, &writer) == 0);
  CHECK(sst_multi_writer_finish(&writer, &files, &next_id) == 0);
  CHECK(sst_files_count(&files, &count) == 0 && count == 0 && next_id == options->id + 1);
  sst_close(&files);
  sst_close(&writer);
}

/* Writes the entries of `write_entries` into several tables. */
static void test_multi(const sst_options *options, int n) {
  sst_handle table = {0}, runs = {0};
  const uint64_t sizes[] = {0, 1, 4096, UINT64_MAX};
  size_t len;
  uint8_t *file = write_table(options, n, SIZE_MAX, &len);
  CHECK(sst_table_open(file, len, 0, false, false, &table) == 0);
  CHECK(sst_runs_open(&runs) == 0 && sst_runs_add(&runs, &table) == 0);
  for (int i = 0; i < 4; i++) test_multi_size(&runs, options, n, sizes[i]);
  sst_close(&runs);
  sst_close(&table);
  free(file);
  test_multi_misuse(options);
  test_multi_failed(options);
  test_multi_empty(options);
}

#endif
