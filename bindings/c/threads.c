/* Several threads read one table at once, each by handles of its own. `bindings/test` builds it and
 * runs it, under helgrind too if valgrind is installed. It returns 1 if a read is wrong.
 */
#include "sst.h"

#include <pthread.h>
#include <stdbool.h>
#include <stdio.h>
#include <stdlib.h>
#include <string.h>

enum { THREADS = 4, KEYS = 300 };

static void key_of(int i, uint8_t key[9]) {
  char text[16];
  snprintf(text, sizeof text, "key%06d", i);
  memcpy(key, text, 9);
}

static uint8_t *write_table(size_t *len) {
  sst_options options;
  sst_handle writer = {0};
  sst_file told;
  uint64_t count;
  uint8_t key[9];
  sst_options_default(&options);
  options.data_block_size = 300;
  if (sst_writer_open(&options, &writer) != 0) return NULL;
  for (int i = 0; i < KEYS; i++) {
    key_of(i, key);
    if (sst_writer_add(&writer, key, 9, 1, SST_VALUE, key, 9) != 0) return NULL;
  }
  if (sst_writer_finish(&writer) != 0 || sst_files_tell(&writer, 0, &told) != 0) return NULL;
  uint8_t *file = malloc(told.len);
  if (file == NULL || sst_files_copy(&writer, 0, 0, file, told.len, &count) != 0) return NULL;
  sst_close(&writer);
  *len = told.len;
  return file;
}

/* Returns whether the next entry of a scan is that of the key at an index. */
static bool is_key(sst_handle *scan, int i) {
  sst_entry entry;
  uint8_t key[9], found[9], value[9];
  key_of(i, key);
  return sst_scan_next(scan, &entry) == 0 && sst_found_copy(scan, found, 9, value, 9) == 0 &&
         memcmp(key, found, 9) == 0;
}

/* Reads every key by a scan of a table, and by a scan of the table as a list of runs, twice. */
static size_t scan_all(sst_handle *table) {
  sst_handle runs = {0}, scan = {0}, merged = {0};
  uint8_t none = 0;
  size_t wrong = 0;
  if (sst_scan_open(table, &scan) != 0 || sst_runs_open(&runs) != 0) wrong++;
  if (sst_runs_add(&runs, table) != 0 || sst_runs_add(&runs, table) != 0) wrong++;
  if (sst_runs_scan_open(&runs, 0, &none, 0, 0, &none, 0, SST_NEWEST, &merged) != 0) wrong++;
  sst_close(&runs);
  for (int i = 0; i < KEYS; i++) {
    if (!is_key(&scan, i) || !is_key(&merged, i)) wrong++;
  }
  sst_close(&scan);
  sst_close(&merged);
  return wrong;
}

/* Reads every key by a point read, by a range and by scans. It makes shares of the given handle and
 * closes them, and then the handle.
 */
static void *read_all(void *handle) {
  sst_handle *table = handle, share = {0}, range = {0};
  sst_entry entry;
  uint8_t key[9], found[9], value[9];
  size_t wrong = 0;
  for (int i = 0; i < KEYS; i++) {
    key_of(i, key);
    if (sst_table_get(table, key, 9, SST_NEWEST, &entry) != 0 ||
        sst_found_copy(table, found, 9, value, 9) != 0 || memcmp(key, value, 9) != 0) {
      wrong++;
    }
    if (i % 16 == 0) {
      if (sst_table_share(table, &share) != 0) wrong++;
      sst_close(&share);
    }
  }
  if (sst_range_open(table, 0, key, 0, 0, key, 0, &range) != 0) wrong++;
  for (int i = 0; i < KEYS; i++) {
    if (sst_range_next(&range, i % 2 == 1, &entry) != 0 || entry.kind != SST_VALUE) wrong++;
  }
  sst_close(&range);
  wrong += scan_all(table);
  sst_close(table);
  return (void *)wrong;
}

/* Lets the threads read shares of a table at once, which is closed while they read. */
static int read_at_once(sst_handle *table, size_t *wrong) {
  sst_handle shares[THREADS] = {{{0}}};
  pthread_t threads[THREADS];
  for (int i = 0; i < THREADS; i++) {
    if (sst_table_share(table, &shares[i]) != 0) return 1;
  }
  for (int i = 0; i < THREADS; i++) {
    if (pthread_create(&threads[i], NULL, read_all, &shares[i]) != 0) return 1;
  }
  sst_close(table);
  for (int i = 0; i < THREADS; i++) {
    void *result;
    if (pthread_join(threads[i], &result) != 0) return 1;
    *wrong += (size_t)result;
  }
  return 0;
}

int main(void) {
  size_t len, wrong = 0;
  sst_handle table = {0}, kept = {0};
  uint8_t *file = write_table(&len);
  if (file == NULL || sst_table_open(file, len, 0, false, false, &table) != 0) return 1;
  if (read_at_once(&table, &wrong) != 0) return 1;
  if (sst_table_open_kept(file, len, 0, false, false, &kept) != 0) return 1;
  if (read_at_once(&kept, &wrong) != 0) return 1;
  free(file); /* everything that reads it is closed */
  printf(wrong == 0 ? "all as it should be\n" : "threads read wrongly\n");
  return wrong > 0;
}
