/* Writes two tables, opens them, and reads keys and ranges of one and of both together. Then it
 * compacts them into one and verifies it. docs/C.md shows the program, and `bindings/test` builds
 * and runs it as C99 and as C++.
 */
#include "sst.h"

#include <stdio.h>
#include <stdlib.h>
#include <string.h>

static const uint8_t *bytes(const char *text) { return (const uint8_t *)text; }

/* Ends the program if a call failed. */
static void test(uint32_t code) {
  if (code == 0) return;
  fprintf(stderr, "refused %u: %s\n", code, sst_strerror(code));
  exit(1);
}

static void add(sst_handle *writer, const char *key, uint64_t seqno, uint32_t kind,
                const char *value) {
  test(sst_writer_add(writer, bytes(key), strlen(key), seqno, kind, bytes(value), strlen(value)));
}

/* Opens the first finished table of a handle, and closes the handle. */
static void open_first(sst_handle *files, sst_handle *table) {
  sst_file told;
  uint64_t count;
  test(sst_files_tell(files, 0, &told));
  uint8_t *bytes = (uint8_t *)malloc(told.len);
  if (bytes == NULL) test(SST_OUT_OF_MEMORY);
  test(sst_files_copy(files, 0, 0, bytes, told.len, &count)); /* or into a file, piece by piece */
  test(sst_table_open(bytes, told.len, 0, true, true, table));
  free(bytes); /* the table has a copy */
  sst_close(files);
}

static void write_older(sst_handle *table) {
  sst_options options;
  sst_handle writer = {0};
  sst_options_default(&options);
  options.id = 1;
  test(sst_writer_open(&options, &writer));
  add(&writer, "apple", 7, SST_VALUE, "red"); /* keys ascend, and the newest of a key is first */
  add(&writer, "apple", 3, SST_VALUE, "green");
  add(&writer, "pear", 5, SST_VALUE, "yellow");
  add(&writer, "plum", 6, SST_TOMBSTONE, "");
  test(sst_writer_finish(&writer));
  open_first(&writer, table);
}

static void write_newer(sst_handle *table) {
  sst_options options;
  sst_handle writer = {0};
  sst_options_default(&options);
  options.id = 2;
  test(sst_writer_open(&options, &writer));
  add(&writer, "fig", 9, SST_VALUE, "violet");
  add(&writer, "pear", 8, SST_TOMBSTONE, "");
  test(sst_writer_finish(&writer));
  open_first(&writer, table);
}

static void print(const char *what, const sst_entry *entry, const sst_lent *lent) {
  printf("%s %.*s %u %u %.*s\n", what, (int)lent->key_len, (const char *)lent->key,
         (unsigned)entry->seqno, (unsigned)entry->kind, (int)lent->value_len,
         (const char *)lent->value);
}

/* Prints the version of a key that is visible at a snapshot. */
static void read_key(sst_handle *table, const char *key, uint64_t seqno) {
  sst_entry entry;
  sst_lent lent;
  test(sst_table_get(table, bytes(key), strlen(key), seqno, &entry));
  if (entry.kind == SST_NO_ENTRY) {
    printf("none %s\n", key);
    return;
  }
  test(sst_found_lend(table, &lent));
  print("found", &entry, &lent);
}

/* Prints the entries of a range, from the front or from the back, and closes it. */
static void walk(sst_handle *range, bool back) {
  sst_entry entry;
  sst_lent lent;
  for (;;) {
    test(sst_range_next(range, back, &entry));
    if (entry.kind == SST_NO_ENTRY) break;
    test(sst_found_lend(range, &lent));
    print("walked", &entry, &lent);
  }
  sst_close(range);
}

/* Compacts the tables of a list into a new one. Nobody reads older versions. */
static void compact(sst_handle *runs, sst_handle *table) {
  sst_options options;
  sst_handle files = {0};
  uint64_t next_id;
  sst_options_default(&options);
  options.id = 3;
  test(sst_compact(runs, &options, SST_NEWEST, true, false, UINT64_MAX, &files, &next_id));
  open_first(&files, table);
}

int main(void) {
  sst_handle older = {0}, newer = {0}, runs = {0}, range = {0}, table = {0};
  sst_verified verified;
  write_older(&older);
  write_newer(&newer);
  read_key(&older, "apple", SST_NEWEST);
  read_key(&older, "apple", 5); /* sees versions below 5 */
  read_key(&older, "fig", SST_NEWEST);
  test(sst_range_open(&older, SST_INCLUDED, bytes("pear"), 4, SST_UNBOUNDED, bytes(""), 0, &range));
  walk(&range, true);
  test(sst_runs_open(&runs));
  test(sst_runs_add(&runs, &newer)); /* the newest first */
  test(sst_runs_add(&runs, &older));
  sst_close(&newer); /* the list has shares */
  sst_close(&older);
  test(sst_runs_range_open(&runs, SST_UNBOUNDED, bytes(""), 0, SST_UNBOUNDED, bytes(""), 0,
                           SST_NEWEST, &range));
  walk(&range, false);
  compact(&runs, &table);
  sst_close(&runs);
  test(sst_table_verify(&table, &verified));
  printf("verified %u\n", (unsigned)verified.item_count);
  sst_close(&table);
  return 0;
}
