/* Tests the calls of sst.h, as a caller in C makes them. `bindings/test` builds it and runs it
 * under valgrind. It prints what failed, and returns 1 then.
 */
#include "bulk.h"
#include "multi.h"
#include "steps.h"
#include "verify.h"

static void test_gets(sst_handle *table, int n) {
  char key[16], value[32];
  sst_entry entry;
  for (int i = 0; i < n; i++) {
    key_of(i, key);
    CHECK(sst_table_get(table, bytes(key), strlen(key), SST_NEWEST, &entry) == 0);
    if (i % 7 == 0) {
      CHECK(entry.kind == SST_TOMBSTONE && entry.seqno == 9 && has_found(table, &entry, key, ""));
    } else {
      value_of(i, 2, value);
      CHECK(entry.kind == SST_VALUE && entry.seqno == 2 && has_found(table, &entry, key, value));
    }
    value_of(i, 1, value);
    CHECK(sst_table_get(table, bytes(key), strlen(key), 2, &entry) == 0);
    CHECK(entry.kind == SST_VALUE && entry.seqno == 1 && has_found(table, &entry, key, value));
    CHECK(sst_table_get(table, bytes(key), strlen(key), 1, &entry) == 0 && entry.kind == 0);
    CHECK(sst_found_copy(table, (uint8_t *)key, 1, (uint8_t *)value, 1) == SST_NOTHING);
  }
  CHECK(sst_table_get(table, bytes("nothing"), 7, SST_NEWEST, &entry) == 0 && entry.kind == 0);
}

/* A buffer that is too small loses nothing. */
static void test_rooms(sst_handle *table) {
  sst_entry entry;
  uint8_t key[9], value[32];
  memset(value, '.', sizeof value);
  CHECK(sst_table_get(table, bytes("key000001"), 9, SST_NEWEST, &entry) == 0);
  CHECK(sst_found_copy(table, key, 8, value, sizeof value) == SST_NO_ROOM && value[0] == '.');
  CHECK(sst_found_copy(table, key, 9, value, entry.value_len - 1) == SST_NO_ROOM);
  CHECK(value[0] == '.');
  CHECK(sst_found_copy(table, key, 9, value, entry.value_len) == 0);
  CHECK(memcmp(key, "key000001", 9) == 0 && memcmp(value, "value 2 of 1.", 13) == 0);
}

/* Reads all entries, from both ends in turn. The table is closed in the middle. */
static void test_range(sst_handle *table, int n) {
  sst_handle range = {0};
  sst_entry entry;
  int count = 0;
  CHECK(sst_range_open(table, 3, bytes(""), 0, SST_UNBOUNDED, bytes(""), 0, &range) ==
        SST_NO_SUCH);
  CHECK(sst_range_open(table, SST_UNBOUNDED, bytes(""), 0, SST_UNBOUNDED, bytes(""), 0, &range) ==
        0);
  CHECK(sst_range_open(table, SST_UNBOUNDED, bytes(""), 0, SST_UNBOUNDED, bytes(""), 0, &range) ==
        SST_OPEN);
  for (;;) {
    CHECK(sst_range_next(&range, count % 2 == 1, &entry) == 0);
    if (entry.kind == SST_NO_ENTRY) break;
    if (count == 0) CHECK(has_found(&range, &entry, "key000000", "") && entry.seqno == 9);
    if (count == 1) CHECK(entry.seqno == 1);
    if (count++ == n / 2) sst_close(table);
  }
  CHECK(count == 2 * n + (n + 6) / 7);
  CHECK(sst_table_get(&range, bytes("x"), 1, SST_NEWEST, &entry) == SST_OTHER_KIND);
  sst_close(&range);
  sst_close(&range);
  CHECK(sst_range_next(&range, false, &entry) == SST_CLOSED);
}

/* Two scans yield all entries as a range does from the front. The table is closed meanwhile. */
static void test_scan(const uint8_t *file, size_t len, bool pin) {
  sst_handle table = {0}, scan = {0}, other = {0}, range = {0};
  sst_entry entry, same;
  sst_lent one, two;
  CHECK(sst_scan_open(&table, &scan) == SST_CLOSED && sst_scan_open(&scan, &scan) == SST_CLOSED);
  CHECK(sst_scan_next(&scan, &entry) == SST_CLOSED && entry.kind == SST_NO_ENTRY);
  CHECK(sst_table_open_kept(file, len, 7, pin, pin, &table) == 0);
  CHECK(sst_scan_open(&table, &table) == SST_OPEN);
  CHECK(sst_scan_open(&table, &scan) == 0 && sst_scan_open(&table, &scan) == SST_OPEN);
  CHECK(sst_scan_open(&table, &other) == 0);
  CHECK(sst_range_open(&table, 0, file, 0, 0, file, 0, &range) == 0);
  sst_close(&table); /* the scans have shares */
  do {
    CHECK(sst_scan_next(&scan, &entry) == 0 && sst_range_next(&range, false, &same) == 0);
    CHECK(memcmp(&entry, &same, sizeof entry) == 0);
    if (entry.kind == SST_NO_ENTRY) break;
    CHECK(sst_found_lend(&scan, &one) == 0 && sst_found_lend(&range, &two) == 0);
    CHECK(memcmp(one.key, two.key, one.key_len) == 0);
    CHECK(memcmp(one.value, two.value, one.value_len) == 0);
  } while (true);
  CHECK(sst_found_lend(&scan, &one) == SST_NOTHING);
  CHECK(sst_scan_next(&scan, &entry) == 0 && entry.kind == SST_NO_ENTRY);
  CHECK(sst_scan_next(&other, &entry) == 0 && has_found(&other, &entry, "key000000", ""));
  CHECK(sst_range_next(&other, false, &entry) == SST_OTHER_KIND && entry.kind == SST_NO_ENTRY);
  CHECK(sst_scan_next(&range, &entry) == SST_OTHER_KIND && entry.kind == SST_NO_ENTRY);
  CHECK(sst_scan_open(&other, &table) == SST_OTHER_KIND);
  CHECK(sst_table_get(&other, file, 0, 1, &entry) == SST_OTHER_KIND);
  sst_close(&scan);
  sst_close(&scan);
  sst_close(&other);
  sst_close(&range);
}

/* A scan reads no index: it continues past a damaged partition, which a range needs. */
static void test_scan_alone(const uint8_t *file, size_t len, uint64_t items) {
  sst_handle table = {0}, range = {0};
  sst_facts facts;
  sst_entry entry;
  uint8_t *damaged = malloc(len);
  uint32_t code;
  memcpy(damaged, file, len);
  CHECK(sst_table_open(file, len, 0, true, true, &table) == 0);
  CHECK(sst_table_facts(&table, &facts) == 0);
  sst_close(&table);
  damaged[facts.data_size + 50] ^= 1; /* the index is after the data */
  CHECK(sst_table_open(damaged, len, 0, true, true, &table) == 0);
  CHECK(sst_range_open(&table, 0, file, 0, 0, file, 0, &range) == 0);
  while ((code = sst_range_next(&range, false, &entry)) == 0 && entry.kind != SST_NO_ENTRY) {
  }
  CHECK(code == 5);
  sst_close(&range);
  scan_damaged(&table, true, items);
  sst_close(&table);
  free(damaged);
}

static void test_bounds(sst_handle *table) {
  sst_handle range = {0};
  sst_entry entry;
  CHECK(sst_range_open(table, SST_INCLUDED, bytes("key000001"), 9, SST_EXCLUDED,
                       bytes("key000003"), 9, &range) == 0);
  CHECK(sst_range_next(&range, false, &entry) == 0);
  CHECK(has_found(&range, &entry, "key000001", "value 2 of 1"));
  CHECK(sst_range_next(&range, true, &entry) == 0);
  CHECK(has_found(&range, &entry, "key000002", "value 1 of 2"));
  sst_close(&range);
}

/* Returns whether the key and the value of a found entry are in these bytes. */
static bool is_found_within(sst_handle *handle, const uint8_t *file, size_t len) {
  sst_lent lent;
  return sst_found_lend(handle, &lent) == 0 && lent.key >= file && lent.value >= file &&
         lent.key + lent.key_len <= file + len && lent.value + lent.value_len <= file + len;
}

/* An entry found by a point read, a scan, or a range from either end is in the caller's bytes. It
 * stays there until the next read by that handle, whatever other handles read.
 */
static void test_found(const uint8_t *file, size_t len) {
  sst_handle table = {0}, range = {0}, scan = {0}, runs = {0}, merged = {0};
  sst_entry entry, told;
  char key[16], value[32];
  sst_lent lent;
  CHECK(sst_table_open_kept(file, len, 0, true, true, &table) == 0);
  CHECK(sst_range_open(&table, SST_EXCLUDED, bytes("key000000"), 9, 0, file, 0, &range) == 0);
  CHECK(sst_scan_open(&table, &scan) == 0 && sst_scan_next(&scan, &entry) == 0);
  CHECK(sst_table_get(&table, bytes("key000003"), 9, SST_NEWEST, &told) == 0);
  for (int i = 1; i < 3; i++) { /* a key's two versions from the front, and one from the back */
    key_of(i, key);
    for (int version = 2; version > 0; version--) {
      value_of(i, version, value);
      CHECK(sst_range_next(&range, false, &entry) == 0 && has_found(&range, &entry, key, value));
      CHECK(has_found(&range, &entry, key, value) && is_found_within(&range, file, len));
    }
    CHECK(sst_range_next(&range, true, &entry) == 0 && entry.kind != SST_NO_ENTRY);
    CHECK(sst_found_lend(&range, &lent) == 0 && memcmp(lent.key, key, 9) > 0);
    CHECK(is_found_within(&range, file, len) && is_found_within(&scan, file, len));
    CHECK(has_found(&table, &told, "key000003", "value 2 of 3"));
    CHECK(is_found_within(&table, file, len));
  }
  CHECK(sst_table_get(&table, bytes("nothing"), 7, SST_NEWEST, &entry) == 0);
  CHECK(sst_found_lend(&table, &lent) == SST_NOTHING);
  CHECK(sst_runs_open(&runs) == 0 && sst_runs_add(&runs, &table) == 0);
  CHECK(sst_runs_get(&runs, bytes("key000004"), 9, 2, &told) == 0);
  CHECK(has_found(&runs, &told, "key000004", "value 1 of 4"));
  CHECK(is_found_within(&runs, file, len));
  CHECK(sst_runs_scan_open(&runs, SST_INCLUDED, bytes("key000004"), 9, 0, file, 0, 2, &merged) ==
        0);
  CHECK(sst_scan_next(&merged, &told) == 0);
  CHECK(sst_runs_get(&runs, bytes("key000001"), 9, 2, &entry) == 0); /* another handle's read */
  CHECK(has_found(&merged, &told, "key000004", "value 1 of 4"));
  CHECK(is_found_within(&merged, file, len));
  sst_close(&runs);
  sst_close(&table);
  CHECK(is_found_within(&merged, file, len));
  sst_close(&merged);
  CHECK(is_found_within(&range, file, len) && is_found_within(&scan, file, len));
  while (sst_range_next(&range, false, &entry) == 0 && entry.kind != SST_NO_ENTRY) {
  }
  CHECK(sst_found_lend(&range, &lent) == SST_NOTHING);
  sst_close(&range);
  sst_close(&scan);
}

/* Two handles of one table read independently, and are closed in any order. */
static void test_shares(const uint8_t *file, size_t len) {
  sst_handle table = {0}, other = {0}, range = {0}, closed = {0};
  sst_entry entry;
  CHECK(sst_table_open(file, len, 0, true, true, &table) == 0);
  CHECK(sst_table_share(&closed, &other) == SST_CLOSED);
  CHECK(sst_table_share(&table, &table) == SST_OPEN);
  CHECK(sst_table_share(&table, &other) == 0 && sst_table_share(&table, &other) == SST_OPEN);
  CHECK(sst_table_get(&table, bytes("key000001"), 9, SST_NEWEST, &entry) == 0);
  CHECK(sst_table_get(&other, bytes("key000002"), 9, SST_NEWEST, &entry) == 0);
  CHECK(has_found(&other, &entry, "key000002", "value 2 of 2"));
  CHECK(sst_table_get(&table, bytes("key000001"), 9, SST_NEWEST, &entry) == 0);
  CHECK(has_found(&table, &entry, "key000001", "value 2 of 1"));
  sst_close(&table);
  CHECK(sst_table_get(&other, bytes("key000003"), 9, SST_NEWEST, &entry) == 0);
  CHECK(has_found(&other, &entry, "key000003", "value 2 of 3"));
  CHECK(sst_range_open(&other, 0, file, 0, 0, file, 0, &range) == 0);
  CHECK(sst_table_share(&range, &table) == SST_OTHER_KIND);
  sst_close(&other);
  sst_close(&range);
}

/* Reads keys of which nothing is found, one of them twice. */
static void test_absent(sst_handle *table) {
  sst_handle answers = {0};
  uint64_t lens[] = {7, 3, 7}, count = 0;
  sst_entry entries[3];
  sst_lent lent;
  uint8_t key[7], room = 5;
  memset(entries, 7, sizeof entries);
  CHECK(sst_table_get_many(table, bytes("nothingkeynothing"), 17, lens, 3, SST_NEWEST, entries, 3,
                           &answers) == 0);
  for (size_t i = 0; i < 3; i++) {
    CHECK(entries[i].kind == SST_NO_ENTRY && entries[i].seqno == 0);
    CHECK(entries[i].key_len == 0 && entries[i].value_len == 0);
    CHECK(sst_answers_lend(&answers, i, &lent) == SST_NOTHING);
    CHECK(sst_answers_copy(&answers, i, key, 7, key, 0) == SST_NOTHING);
  }
  CHECK(sst_answers_take(&answers, 0, &room, 1, &count) == 0 && count == 3 && room == 5);
  CHECK(sst_answers_take(&answers, 2, &room, 0, &count) == 0 && count == 1);
  CHECK(sst_answers_take(&answers, 3, &room, 0, &count) == 0 && count == 0);
  CHECK(sst_answers_take(&answers, 4, &room, 0, &count) == SST_NO_SUCH);
  sst_close(&answers);
}

/* Reads many keys at once: present, deleted, absent, repeated and empty ones. */
static void test_many(const uint8_t *file, size_t len) {
  sst_handle table = {0}, answers = {0}, closed = {0}, writer = {0};
  const char *keys = "key000004nothingkey000000key000004";
  uint64_t lens[] = {9, 7, 9, 0, 9}, wrong[] = {9, 7, 9, 0, 8}, large[] = {9, UINT64_MAX};
  sst_entry entries[6], one;
  sst_lent lent;
  sst_options options;
  uint8_t key[9], value[12], none = 0;
  memset(entries, 7, sizeof entries);
  CHECK(sst_table_open(file, len, 0, false, false, &table) == 0);
  CHECK(sst_table_get_many(&closed, bytes(keys), 34, lens, 5, SST_NEWEST, entries, 6, &answers) ==
        SST_CLOSED);
  CHECK(sst_table_get_many(&table, bytes(keys), 34, lens, 5, SST_NEWEST, entries, 6, &table) ==
        SST_OPEN);
  CHECK(sst_table_get_many(&table, bytes(keys), 34, wrong, 5, SST_NEWEST, entries, 6, &answers) ==
        SST_NO_SUCH);
  CHECK(sst_table_get_many(&table, bytes(keys), 34, lens, 4, SST_NEWEST, entries, 6, &answers) ==
        SST_NO_SUCH);
  CHECK(sst_table_get_many(&table, bytes(keys), 8, large, 2, SST_NEWEST, entries, 6, &answers) ==
        SST_NO_SUCH);
  CHECK(sst_table_get_many(&table, bytes(keys), 34, lens, 5, SST_NEWEST, entries, 4, &answers) ==
        SST_NO_ROOM);
  CHECK(entries[0].kind == 0x0707070707070707);
  CHECK(sst_table_get_many(&table, bytes(keys), 34, lens, 5, SST_NEWEST, entries, 6, &answers) ==
        0);
  CHECK(entries[0].kind == SST_VALUE && entries[0].seqno == 2 && entries[0].value_len == 12);
  CHECK(entries[1].kind == SST_NO_ENTRY && entries[3].kind == SST_NO_ENTRY);
  CHECK(entries[2].kind == SST_TOMBSTONE && entries[2].seqno == 9 && entries[2].key_len == 9);
  CHECK(memcmp(&entries[4], &entries[0], sizeof entries[0]) == 0);
  CHECK(entries[5].kind == 0x0707070707070707);
  sst_close(&table); /* the answers stay */
  CHECK(sst_answers_lend(&answers, 4, &lent) == 0 && lent.key_len == 9 && lent.value_len == 12);
  CHECK(memcmp(lent.key, "key000004", 9) == 0 && memcmp(lent.value, "value 2 of 4", 12) == 0);
  CHECK(sst_answers_lend(&answers, 1, &lent) == SST_NOTHING);
  CHECK(sst_answers_lend(&answers, 5, &lent) == SST_NO_SUCH);
  CHECK(sst_answers_lend(&answers, UINT64_MAX, &lent) == SST_NO_SUCH);
  CHECK(sst_answers_copy(&answers, 0, key, 9, value, 11) == SST_NO_ROOM);
  CHECK(sst_answers_copy(&answers, 0, key, 9, value, 12) == 0);
  CHECK(memcmp(key, "key000004", 9) == 0 && memcmp(value, "value 2 of 4", 12) == 0);
  CHECK(sst_answers_copy(&answers, 2, key, 9, value, 0) == 0);
  CHECK(memcmp(key, "key000000", 9) == 0);
  CHECK(sst_answers_copy(&answers, 3, key, 9, value, 12) == SST_NOTHING);
  CHECK(sst_answers_copy(&answers, 5, key, 9, value, 12) == SST_NO_SUCH);
  test_answers_take(&answers);
  CHECK(sst_found_lend(&answers, &lent) == SST_NOTHING);
  CHECK(sst_table_get(&answers, &none, 0, 1, &one) == SST_OTHER_KIND);
  sst_close(&answers);
  CHECK(sst_answers_lend(&answers, 0, &lent) == SST_CLOSED);
  CHECK(sst_answers_copy(&answers, 0, key, 9, value, 12) == SST_CLOSED);
  CHECK(sst_answers_take(&answers, 0, key, 9, &lens[0]) == SST_CLOSED && lens[0] == 9);
  CHECK(sst_table_open(file, len, 0, false, false, &table) == 0);
  CHECK(sst_answers_lend(&table, 0, &lent) == SST_OTHER_KIND);
  CHECK(sst_answers_copy(&table, 0, key, 9, value, 12) == SST_OTHER_KIND);
  CHECK(sst_answers_take(&table, 0, key, 9, &lens[0]) == SST_OTHER_KIND);
  CHECK(sst_table_get_many(&table, &none, 0, lens, 0, SST_NEWEST, entries, 0, &answers) == 0);
  CHECK(sst_answers_lend(&answers, 0, &lent) == SST_NO_SUCH);
  sst_close(&answers);
  test_absent(&table);
  sst_options_default(&options);
  CHECK(sst_writer_open(&options, &writer) == 0);
  CHECK(sst_table_get_many(&writer, &none, 0, lens, 0, 1, entries, 0, &closed) == SST_OTHER_KIND);
  sst_close(&writer);
  sst_close(&answers);
  sst_close(&table);
}

/* Takes the next entry of a range, and compares it with this one. */
static bool is_next(sst_handle *range, bool back, const char *key, const char *value,
                    uint64_t seqno) {
  sst_entry entry;
  return sst_range_next(range, back, &entry) == 0 && entry.seqno == seqno &&
         has_found(range, &entry, key, value);
}

/* Reads a table over the caller's bytes. Handles opened from it read them after it is closed. A
 * borrowed value that is whole in the bytes points into them.
 */
static void test_kept(const uint8_t *file, size_t len, int n) {
  sst_handle table = {0}, copied = {0}, other = {0}, runs = {0}, range = {0}, answers = {0};
  sst_handle scan = {0};
  sst_entry entry;
  sst_lent lent;
  uint64_t key_len = 9;
  uint32_t fault = sst_table_open(file, len - 1, 0, true, true, &table);
  CHECK(sst_table_open_kept(file, len - 1, 0, true, true, &table) == fault && fault != 0);
  CHECK(sst_table_open_kept(file, len, 0, true, true, &table) == 0);
  CHECK(sst_table_open_kept(file, len, 0, true, true, &table) == SST_OPEN);
  CHECK(sst_table_open(file, len, 0, true, true, &copied) == 0);
  test_gets(&table, n);
  CHECK(sst_table_get(&table, bytes("key000001"), 9, SST_NEWEST, &entry) == 0);
  CHECK(sst_found_lend(&table, &lent) == 0);
  CHECK(lent.value >= file && lent.value + lent.value_len <= file + len);
  CHECK(sst_table_get(&copied, bytes("key000001"), 9, SST_NEWEST, &entry) == 0);
  CHECK(sst_found_lend(&copied, &lent) == 0 && (lent.value < file || lent.value >= file + len));
  sst_close(&copied);
  CHECK(sst_table_share(&table, &other) == 0);
  CHECK(sst_runs_open(&runs) == 0 && sst_runs_add(&runs, &table) == 0);
  CHECK(sst_range_open(&table, 0, file, 0, 0, file, 0, &range) == 0);
  CHECK(sst_scan_open(&table, &scan) == 0);
  CHECK(sst_table_get_many(&table, bytes("key000001"), 9, &key_len, 1, 9, &entry, 1, &answers) ==
        0);
  sst_close(&table);
  CHECK(sst_table_get(&other, bytes("key000001"), 9, SST_NEWEST, &entry) == 0);
  CHECK(has_found(&other, &entry, "key000001", "value 2 of 1"));
  CHECK(sst_runs_get(&runs, bytes("key000002"), 9, SST_NEWEST, &entry) == 0);
  CHECK(has_found(&runs, &entry, "key000002", "value 2 of 2"));
  sst_close(&other);
  sst_close(&runs);
  CHECK(sst_range_next(&range, false, &entry) == 0 && has_found(&range, &entry, "key000000", ""));
  sst_close(&range);
  CHECK(sst_scan_next(&scan, &entry) == 0 && has_found(&scan, &entry, "key000000", ""));
  sst_close(&scan);
  CHECK(sst_answers_lend(&answers, 0, &lent) == 0 && lent.value_len == 12);
  CHECK(memcmp(lent.value, "value 2 of 1", 12) == 0);
  sst_close(&answers);
  CHECK(sst_table_open_kept(file, len, UINT64_MAX, true, true, &table) == 20);
  sst_close(&table);
}

/* Makes a table of one entry for each of some keys of one letter. */
static void open_letters(const sst_options *options, const char *letters, uint64_t seqno,
                         sst_handle *table) {
  sst_handle writer = {0};
  size_t len;
  CHECK(sst_writer_open(options, &writer) == 0);
  for (; *letters; letters++) {
    CHECK(sst_writer_add(&writer, bytes(letters), 1, seqno, SST_VALUE, bytes(letters), 1) == 0);
  }
  CHECK(sst_writer_finish(&writer) == 0);
  uint8_t *file = file_of(&writer, SIZE_MAX, &len);
  CHECK(sst_table_open(file, len, 0, true, true, table) == 0);
  free(file);
  sst_close(&writer);
}

/* Returns whether a packed run has these tables, in this order. */
static bool has_tables(sst_handle *packing, uint64_t run, const uint64_t *tables, uint64_t count) {
  uint64_t told = 7, table = 7;
  if (sst_packing_run(packing, run, &told) != 0 || told != count) return false;
  for (uint64_t place = 0; place < count; place++) {
    if (sst_packing_table(packing, run, place, &table) != 0 || table != tables[place]) return false;
  }
  return sst_packing_table(packing, run, count, &table) == SST_NO_SUCH;
}

/* Both lists find the same: each letter at each sequence number, and all letters from both ends. A
 * scan of one finds what a range of the other has from the front.
 */
static void compare_runs(sst_handle *runs, sst_handle *packed) {
  sst_handle one = {0}, other = {0};
  sst_entry entry, same;
  for (char key = 'a'; key <= 'z'; key++) {
    for (uint64_t seqno = 0; seqno < 9; seqno++) {
      CHECK(sst_runs_get(runs, (const uint8_t *)&key, 1, seqno, &entry) == 0);
      CHECK(sst_runs_get(packed, (const uint8_t *)&key, 1, seqno, &same) == 0);
      CHECK(memcmp(&entry, &same, sizeof entry) == 0);
    }
  }
  CHECK(sst_runs_range_open(runs, 0, bytes(""), 0, 0, bytes(""), 0, SST_NEWEST, &one) == 0);
  CHECK(sst_runs_range_open(packed, 0, bytes(""), 0, 0, bytes(""), 0, SST_NEWEST, &other) == 0);
  for (int i = 0; i == 0 || entry.kind != 0; i++) {
    CHECK(sst_range_next(&one, i % 3 == 1, &entry) == 0);
    CHECK(sst_range_next(&other, i % 3 == 1, &same) == 0);
    CHECK(memcmp(&entry, &same, sizeof entry) == 0);
  }
  sst_close(&one);
  sst_close(&other);
  CHECK(sst_runs_scan_open(runs, 0, bytes(""), 0, 0, bytes(""), 0, SST_NEWEST, &one) == 0);
  CHECK(sst_runs_range_open(packed, 0, bytes(""), 0, 0, bytes(""), 0, SST_NEWEST, &other) == 0);
  do {
    CHECK(sst_scan_next(&one, &entry) == 0 && sst_range_next(&other, false, &same) == 0);
    CHECK(memcmp(&entry, &same, sizeof entry) == 0);
  } while (entry.kind != SST_NO_ENTRY);
  sst_close(&one);
  sst_close(&other);
}

/* Packs five tables. Two pairs do not overlap: `x..z` is after `c..e`, and `a` is beside `c..e`. */
static void test_packing(const sst_options *options) {
  const char *letters[] = {"cde", "a", "d", "xyz", "abcd"};
  const uint64_t first[] = {1, 0, 3}, second[] = {2}, third[] = {4};
  sst_handle runs = {0}, packing = {0}, packed = {0}, again = {0}, table = {0};
  sst_entry entry;
  uint64_t count = 7, told = 7;
  CHECK(sst_packing_open(&runs, &packing) == SST_CLOSED);
  CHECK(sst_runs_pack(&runs, &packed) == SST_CLOSED);
  CHECK(sst_runs_open(&runs) == 0);
  CHECK(sst_packing_open(&runs, &packing) == 0);
  CHECK(sst_packing_count(&packing, &count) == 0 && count == 0);
  CHECK(sst_packing_chain(&packing, 0, &told) == SST_NO_SUCH && told == 7);
  CHECK(sst_packing_open(&runs, &packing) == SST_OPEN);
  sst_close(&packing);
  for (unsigned i = 0; i < 5; i++) {
    open_letters(options, letters[i], 7 - i, &table);
    CHECK(sst_runs_add(&runs, &table) == 0);
    CHECK(sst_packing_open(&table, &packing) == SST_OTHER_KIND);
    CHECK(sst_runs_pack(&table, &packed) == SST_OTHER_KIND);
    CHECK(sst_packing_count(&table, &count) == SST_OTHER_KIND);
    CHECK(sst_packing_run(&table, 0, &count) == SST_OTHER_KIND);
    CHECK(sst_packing_table(&table, 0, 0, &count) == SST_OTHER_KIND);
    CHECK(sst_packing_chain(&table, 0, &count) == SST_OTHER_KIND && count == 0);
    sst_close(&table);
  }
  CHECK(sst_packing_open(&runs, &packing) == 0);
  CHECK(sst_packing_count(&packing, &count) == 0 && count == 3);
  CHECK(has_tables(&packing, 0, first, 3) && has_tables(&packing, 1, second, 1));
  CHECK(has_tables(&packing, 2, third, 1));
  CHECK(sst_packing_run(&packing, 3, &told) == SST_NO_SUCH);
  CHECK(sst_packing_run(&packing, UINT64_MAX, &told) == SST_NO_SUCH);
  CHECK(sst_packing_table(&packing, 3, 0, &told) == SST_NO_SUCH && told == 7);
  CHECK(sst_packing_chain(&packing, 0, &told) == 0 && told == 0);
  CHECK(sst_packing_chain(&packing, 1, &told) == 0 && told == 2);
  CHECK(sst_packing_chain(&packing, 2, &told) == 0 && told == 4);
  CHECK(sst_packing_chain(&packing, 3, &told) == SST_NO_SUCH);
  CHECK(sst_runs_pack(&runs, &packing) == SST_OPEN);
  CHECK(sst_runs_pack(&runs, &packed) == 0);
  compare_runs(&runs, &packed);
  sst_close(&runs);
  sst_close(&packing);
  CHECK(sst_packing_count(&packing, &count) == SST_CLOSED);
  CHECK(sst_packing_run(&packing, 0, &count) == SST_CLOSED);
  CHECK(sst_packing_table(&packing, 0, 0, &count) == SST_CLOSED);
  CHECK(sst_packing_chain(&packing, 0, &count) == SST_CLOSED);
  /* packed runs stay as they are if packed again, and take another table */
  CHECK(sst_runs_pack(&packed, &again) == 0 && sst_packing_open(&packed, &packing) == 0);
  CHECK(sst_packing_count(&packing, &count) == 0 && count == 3);
  compare_runs(&packed, &again);
  open_letters(options, "m", 1, &table);
  CHECK(sst_runs_add(&packed, &table) == 0);
  CHECK(sst_runs_get(&packed, bytes("m"), 1, SST_NEWEST, &entry) == 0 && entry.seqno == 1);
  sst_close(&table);
  sst_close(&again);
  sst_close(&packing);
  sst_close(&packed);
}

/* Takes the next entry of a scan, and compares it with this one. */
static bool is_next_scanned(sst_handle *scan, const char *key, const char *value,
                            uint64_t seqno) {
  sst_entry entry;
  return sst_scan_next(scan, &entry) == 0 && entry.seqno == seqno &&
         has_found(scan, &entry, key, value);
}

/* Returns whether a scan is at its end, and stays there. */
static bool is_scanned(sst_handle *scan) {
  sst_entry entry;
  sst_lent lent;
  for (int i = 0; i < 2; i++) {
    if (sst_scan_next(scan, &entry) != 0 || entry.kind != SST_NO_ENTRY) return false;
    if (sst_found_lend(scan, &lent) != SST_NOTHING) return false;
  }
  return true;
}

/* Scans a list of two runs, which is closed before the scan. */
static void test_runs_scan(sst_handle *runs) {
  sst_handle scan = {0}, later = {0}, closed = {0}, table = {0};
  sst_entry entry;
  uint8_t none = 0;
  CHECK(sst_runs_scan_open(&closed, 0, &none, 0, 0, &none, 0, 1, &scan) == SST_CLOSED);
  CHECK(sst_runs_scan_open(&closed, 3, &none, 0, 0, &none, 0, 1, runs) == SST_OPEN);
  CHECK(sst_runs_scan_open(runs, 3, &none, 0, 0, &none, 0, 1, &scan) == SST_NO_SUCH);
  CHECK(sst_runs_scan_open(runs, 0, &none, 0, 3, &none, 0, 1, &scan) == SST_NO_SUCH);
  CHECK(sst_scan_next(&scan, &entry) == SST_CLOSED && entry.kind == SST_NO_ENTRY);
  CHECK(sst_runs_scan_open(runs, SST_EXCLUDED, bytes("key000000"), 9, SST_INCLUDED,
                           bytes("key000003"), 9, SST_NEWEST, &scan) == 0);
  CHECK(sst_runs_scan_open(runs, 0, &none, 0, SST_EXCLUDED, bytes("key000002"), 9, 9, &later) ==
        0);
  CHECK(sst_runs_scan_open(&later, 0, &none, 0, 0, &none, 0, 1, &closed) == SST_OTHER_KIND);
  CHECK(sst_runs_scan_open(runs, SST_INCLUDED, bytes("key000003"), 9, SST_EXCLUDED,
                           bytes("key000003"), 9, SST_NEWEST, &closed) == 0);
  CHECK(is_scanned(&closed));
  sst_close(&closed);
  CHECK(sst_runs_scan_open(runs, SST_INCLUDED, bytes("key000004"), 9, 0, &none, 0, SST_NEWEST,
                           &table) == 0);
  sst_close(runs); /* the scans have shares */
  CHECK(is_next_scanned(&scan, "key000001", "new", 20));
  CHECK(is_next_scanned(&later, "key000000", "value 2 of 0", 2));
  CHECK(sst_runs_get(&scan, &none, 0, 1, &entry) == SST_OTHER_KIND);
  CHECK(is_next_scanned(&scan, "key000002", "value 2 of 2", 2));
  CHECK(is_next_scanned(&later, "key000001", "value 2 of 1", 2) && is_scanned(&later));
  CHECK(sst_range_next(&scan, false, &entry) == SST_OTHER_KIND && entry.kind == SST_NO_ENTRY);
  CHECK(is_next_scanned(&scan, "key000003", "value 2 of 3", 2) && is_scanned(&scan));
  CHECK(is_next_scanned(&table, "key000004", "value 2 of 4", 2));
  CHECK(is_next_scanned(&table, "other", "more", 21) && is_scanned(&table));
  sst_close(&scan);
  sst_close(&scan);
  CHECK(sst_scan_next(&scan, &entry) == SST_CLOSED);
  sst_close(&later);
  sst_close(&table);
}

/* Reads a list of two runs as one range, and compacts it. */
static void test_merged(sst_handle *runs, const sst_options *options) {
  sst_handle range = {0}, files = {0}, table = {0}, closed = {0};
  sst_entry entry;
  sst_file told;
  sst_verified verified;
  uint64_t count = 7, next_id = 7;
  sst_options wrong = *options;
  uint8_t none = 0;
  wrong.level = 256;
  CHECK(sst_runs_range_open(&closed, 0, &none, 0, 0, &none, 0, 1, &range) == SST_CLOSED);
  CHECK(sst_runs_range_open(runs, 0, &none, 0, 3, &none, 0, 1, &range) == SST_NO_SUCH);
  CHECK(sst_runs_range_open(runs, 0, &none, 0, 0, &none, 0, 1, runs) == SST_OPEN);
  CHECK(sst_runs_range_open(runs, SST_EXCLUDED, bytes("key000000"), 9, SST_UNBOUNDED, &none, 0,
                            SST_NEWEST, &range) == 0);
  CHECK(is_next(&range, false, "key000001", "new", 20));
  CHECK(is_next(&range, true, "other", "more", 21));
  CHECK(is_next(&range, true, "key000004", "value 2 of 4", 2));
  CHECK(is_next(&range, false, "key000002", "value 2 of 2", 2));
  CHECK(is_next(&range, false, "key000003", "value 2 of 3", 2));
  CHECK(sst_range_next(&range, false, &entry) == 0 && entry.kind == SST_NO_ENTRY);
  CHECK(sst_range_next(&range, true, &entry) == 0 && entry.kind == SST_NO_ENTRY);
  CHECK(sst_runs_get(&range, &none, 0, 1, &entry) == SST_OTHER_KIND);
  sst_close(&range);
  CHECK(sst_runs_range_open(runs, 0, &none, 0, SST_EXCLUDED, bytes("key000002"), 9, 9, &range) ==
        0);
  CHECK(is_next(&range, false, "key000000", "value 2 of 0", 2));
  CHECK(is_next(&range, false, "key000001", "value 2 of 1", 2));
  CHECK(sst_range_next(&range, false, &entry) == 0 && entry.kind == SST_NO_ENTRY);
  CHECK(sst_runs_range_open(&range, 0, &none, 0, 0, &none, 0, 1, &closed) == SST_OTHER_KIND);
  CHECK(sst_compact(&closed, options, 0, false, false, 0, &files, &next_id) == SST_CLOSED);
  CHECK(sst_compact(&range, options, 0, false, false, 0, &files, &next_id) == SST_OTHER_KIND);
  CHECK(sst_compact(runs, options, 0, false, false, 0, &range, &next_id) == SST_OPEN);
  CHECK(sst_compact(runs, &wrong, 0, false, false, 0, &files, &next_id) == SST_NO_SUCH);
  CHECK(next_id == 7);
  sst_close(&range);
  CHECK(sst_compact(runs, options, SST_NEWEST, true, false, UINT64_MAX, &files, &next_id) == 0);
  CHECK(next_id == options->id + 1);
  CHECK(sst_files_count(&files, &count) == 0 && count == 1);
  CHECK(sst_files_tell(&files, 0, &told) == 0 && told.id == options->id);
  CHECK(sst_writer_add(&files, &none, 0, 1, SST_VALUE, &none, 0) == SST_OTHER_KIND);
  size_t len;
  uint8_t *file = file_of(&files, SIZE_MAX, &len);
  CHECK(sst_table_open(file, len, 0, true, true, &table) == 0);
  CHECK(sst_table_verify(&table, &verified) == 0 && verified.item_count == 5);
  CHECK(sst_table_get(&table, bytes("key000000"), 9, SST_NEWEST, &entry) == 0 && entry.kind == 0);
  CHECK(sst_table_get(&table, bytes("key000001"), 9, SST_NEWEST, &entry) == 0);
  CHECK(entry.seqno == 20 && has_found(&table, &entry, "key000001", "new"));
  sst_close(&table);
  sst_close(&files);
  free(file);
  /* a table for each key, with ascending ids */
  CHECK(sst_compact(runs, options, SST_NEWEST, true, true, 0, &files, &next_id) == 0);
  CHECK(sst_files_count(&files, &count) == 0 && count == 5);
  CHECK(sst_files_tell(&files, 4, &told) == 0 && told.id + 1 == next_id);
  sst_close(&files);
}

/* A table that is twice in a list has each key twice with one sequence number. It cannot be
 * compacted.
 */
static void test_out_of_order(const sst_options *options, const uint8_t *file, size_t len) {
  sst_handle table = {0}, runs = {0}, files = {0};
  uint64_t next_id = 7, count;
  CHECK(sst_table_open(file, len, 0, true, true, &table) == 0);
  CHECK(sst_runs_open(&runs) == 0);
  CHECK(sst_compact(&runs, options, 0, false, false, 1, &files, &next_id) == 0);
  CHECK(sst_files_count(&files, &count) == 0 && count == 0 && next_id == options->id + 1);
  sst_close(&files);
  CHECK(sst_runs_add(&runs, &table) == 0 && sst_runs_add(&runs, &table) == 0);
  next_id = 7;
  CHECK(sst_compact(&runs, options, 0, false, false, 1, &files, &next_id) == SST_OUT_OF_ORDER);
  CHECK(next_id == 7 && sst_files_count(&files, &count) == SST_CLOSED);
  sst_close(&runs);
  sst_close(&table);
}

/* Two tables have the same keys: the newer version is found, wherever its table is. */
static void test_runs(const sst_options *options, const uint8_t *file, size_t len) {
  sst_handle writer = {0}, older = {0}, newer = {0}, runs = {0}, packed = {0};
  sst_entry entry;
  CHECK(sst_writer_open(options, &writer) == 0);
  CHECK(sst_writer_add(&writer, bytes("key000001"), 9, 20, SST_VALUE, bytes("new"), 3) == 0);
  CHECK(sst_writer_add(&writer, bytes("other"), 5, 21, SST_VALUE, bytes("more"), 4) == 0);
  CHECK(sst_writer_finish(&writer) == 0);
  size_t newer_len;
  uint8_t *newer_file = file_of(&writer, SIZE_MAX, &newer_len);
  CHECK(sst_table_open(newer_file, newer_len, 0, false, false, &newer) == 0);
  CHECK(sst_table_open(file, len, 0, true, true, &older) == 0);
  CHECK(sst_runs_add(&runs, &newer) == SST_CLOSED);
  memset(&entry, 7, sizeof entry);
  CHECK(sst_runs_get(&runs, bytes("other"), 5, SST_NEWEST, &entry) == SST_CLOSED);
  CHECK(entry.kind == SST_NO_ENTRY && entry.key_len == 0);
  CHECK(sst_runs_open(&runs) == 0 && sst_runs_open(&runs) == SST_OPEN);
  CHECK(sst_runs_get(&runs, bytes("other"), 5, SST_NEWEST, &entry) == 0 && entry.kind == 0);
  CHECK(sst_runs_add(&runs, &writer) == SST_OTHER_KIND);
  CHECK(sst_runs_add(&newer, &older) == SST_OTHER_KIND);
  CHECK(sst_runs_add(&runs, &newer) == 0);
  CHECK(sst_runs_get(&runs, bytes("other"), 5, SST_NEWEST, &entry) == 0);
  CHECK(sst_runs_add(&runs, &older) == 0 && has_found(&runs, &entry, "other", "more"));
  sst_close(&newer);
  sst_close(&older);
  CHECK(sst_runs_get(&runs, bytes("key000001"), 9, SST_NEWEST, &entry) == 0);
  CHECK(entry.seqno == 20 && has_found(&runs, &entry, "key000001", "new"));
  CHECK(sst_runs_get(&runs, bytes("key000001"), 9, 20, &entry) == 0);
  CHECK(entry.seqno == 2 && has_found(&runs, &entry, "key000001", "value 2 of 1"));
  CHECK(sst_runs_get(&runs, bytes("other"), 5, SST_NEWEST, &entry) == 0);
  CHECK(has_found(&runs, &entry, "other", "more"));
  CHECK(sst_table_get(&runs, bytes("other"), 5, SST_NEWEST, &entry) == SST_OTHER_KIND);
  CHECK(sst_runs_get(&writer, bytes("other"), 5, SST_NEWEST, &entry) == SST_OTHER_KIND);
  test_merged(&runs, options);
  CHECK(sst_runs_pack(&runs, &packed) == 0);
  test_steps(&packed, options);
  test_runs_scan(&runs);
  free(newer_file);
  sst_close(&runs);
  sst_close(&writer);
}

/* Passes closed handles, handles in use, and handles of other kinds to calls that fail with them.
 * It also writes entries that a writer does not take.
 */
static void test_misuse(const sst_options *options, const uint8_t *file, size_t len) {
  sst_handle closed = {0}, writer = {0}, table = {0};
  sst_options wrong = *options;
  sst_entry entry;
  sst_facts facts;
  sst_memory memory;
  sst_file told;
  sst_lent lent;
  sst_verified verified;
  uint64_t count;
  uint8_t room[4];
  wrong.data_block_restart_interval = 0;
  CHECK(sst_writer_open(&wrong, &writer) == SST_NO_SUCH);
  CHECK(sst_writer_open(options, &writer) == 0);
  CHECK(sst_writer_open(options, &writer) == SST_OPEN);
  CHECK(sst_table_open(file, len, 0, true, true, &writer) == SST_OPEN);
  CHECK(sst_table_open(file, len, 0, true, true, &table) == 0);
  CHECK(sst_table_get(&closed, room, 0, 1, &entry) == SST_CLOSED);
  CHECK(sst_table_facts(&closed, &facts) == SST_CLOSED);
  memset(&memory, 7, sizeof memory);
  CHECK(sst_table_memory(&closed, &memory) == SST_CLOSED);
  CHECK(sst_table_memory(&writer, &memory) == SST_OTHER_KIND);
  CHECK(memory.file_len == 0x0707070707070707 && memory.marks_size == memory.file_len);
  CHECK(sst_table_verify(&closed, &verified) == SST_CLOSED);
  CHECK(sst_writer_add(&closed, room, 0, 1, SST_VALUE, room, 0) == SST_CLOSED);
  CHECK(sst_writer_finish(&closed) == SST_CLOSED);
  CHECK(sst_files_count(&closed, &count) == SST_CLOSED);
  CHECK(sst_files_tell(&closed, 0, &told) == SST_CLOSED);
  CHECK(sst_files_copy(&closed, 0, 0, room, 4, &count) == SST_CLOSED);
  CHECK(sst_found_copy(&closed, room, 4, room, 4) == SST_CLOSED);
  CHECK(sst_found_lend(&closed, &lent) == SST_CLOSED);
  CHECK(sst_range_open(&closed, 0, room, 0, 0, room, 0, &writer) == SST_OPEN);
  CHECK(sst_table_get(&writer, room, 0, 1, &entry) == SST_OTHER_KIND);
  CHECK(sst_table_facts(&writer, &facts) == SST_OTHER_KIND);
  CHECK(sst_table_verify(&writer, &verified) == SST_OTHER_KIND);
  CHECK(sst_range_next(&writer, false, &entry) == SST_OTHER_KIND);
  CHECK(sst_range_open(&writer, 0, room, 0, 0, room, 0, &closed) == SST_OTHER_KIND);
  CHECK(sst_writer_add(&table, room, 0, 1, SST_VALUE, room, 0) == SST_OTHER_KIND);
  CHECK(sst_writer_finish(&table) == SST_OTHER_KIND);
  CHECK(sst_files_count(&table, &count) == SST_OTHER_KIND);
  CHECK(sst_files_tell(&table, 0, &told) == SST_OTHER_KIND);
  CHECK(sst_files_copy(&table, 0, 0, room, 4, &count) == SST_OTHER_KIND);
  CHECK(sst_found_lend(&table, &lent) == SST_NOTHING);
  CHECK(sst_writer_add(&writer, bytes("b"), 1, 4, 4, room, 0) == SST_NO_SUCH);
  CHECK(sst_writer_add(&writer, bytes("b"), 1, 4, SST_VALUE, room, 0) == 0);
  CHECK(sst_writer_add(&writer, bytes("b"), 1, 4, SST_VALUE, room, 0) == SST_OUT_OF_ORDER);
  CHECK(sst_writer_add(&writer, bytes("a"), 1, 3, SST_VALUE, room, 0) == SST_OUT_OF_ORDER);
  CHECK(sst_writer_add(&writer, bytes("c"), 1, UINT64_MAX, SST_VALUE, room, 0) ==
        SST_OUT_OF_ORDER);
  CHECK(sst_writer_add(&writer, bytes("b"), 1, 3, SST_WEAK_TOMBSTONE, room, 0) == 0);
  CHECK(sst_writer_finish(&writer) == 0);
  CHECK(sst_writer_finish(&writer) == SST_OTHER_KIND);
  CHECK(sst_writer_add(&writer, bytes("d"), 1, 3, SST_VALUE, room, 0) == SST_OTHER_KIND);
  CHECK(sst_files_tell(&writer, 1, &told) == SST_NO_SUCH);
  CHECK(sst_files_tell(&writer, 0, &told) == 0);
  CHECK(sst_files_copy(&writer, 0, told.len + 1, room, 4, &count) == SST_NO_SUCH);
  CHECK(sst_files_copy(&writer, 0, told.len, room, 4, &count) == 0 && count == 0);
  sst_close(&writer);
  sst_close(&table);
}

/* Passes one handle twice to calls that fill one: nothing is filled, and the handle stays. */
static void fill_from_itself(sst_handle *handle, const sst_options *options, uint32_t code) {
  sst_handle before = *handle;
  sst_entry entry;
  uint64_t len = 1, next_id = 7;
  uint8_t key = 'a';
  CHECK(sst_table_share(handle, handle) == code);
  CHECK(sst_table_get_many(handle, &key, 1, &len, 1, 9, &entry, 1, handle) == code);
  CHECK(sst_verification_open(handle, handle) == code);
  CHECK(sst_range_open(handle, 0, &key, 0, 0, &key, 0, handle) == code);
  CHECK(sst_scan_open(handle, handle) == code);
  CHECK(sst_runs_range_open(handle, 0, &key, 0, 0, &key, 0, 9, handle) == code);
  CHECK(sst_runs_scan_open(handle, 0, &key, 0, 0, &key, 0, 9, handle) == code);
  CHECK(sst_runs_pack(handle, handle) == code);
  CHECK(sst_packing_open(handle, handle) == code);
  CHECK(sst_compact(handle, options, 9, false, false, 1, handle, &next_id) == code);
  CHECK(sst_compaction_open(handle, options, 9, false, false, 1, handle) == code);
  CHECK(sst_compaction_next(handle, handle, &next_id) == code);
  CHECK(next_id == 7 && memcmp(&before, handle, sizeof before) == 0);
}

static void test_one_handle_twice(const sst_options *options, const uint8_t *file, size_t len) {
  sst_handle closed = {0}, table = {0}, runs = {0};
  CHECK(sst_table_open(file, len, 0, true, true, &table) == 0);
  CHECK(sst_runs_open(&runs) == 0 && sst_runs_add(&runs, &table) == 0);
  fill_from_itself(&closed, options, SST_CLOSED);
  fill_from_itself(&table, options, SST_OPEN);
  fill_from_itself(&runs, options, SST_OPEN);
  sst_close(&table);
  sst_close(&runs);
}

/* A writer without entries finishes without a table. */
static void test_no_entry(const sst_options *options) {
  sst_handle writer = {0};
  uint64_t count = 7;
  CHECK(sst_writer_open(options, &writer) == 0);
  CHECK(sst_writer_finish(&writer) == 0);
  CHECK(sst_files_count(&writer, &count) == 0 && count == 0);
  sst_close(&writer);
}

/* Damages each byte of a table in turn. Bytes that open may be read; those that verify are the same
 * table.
 */
static void test_damage(const uint8_t *file, size_t len, uint64_t items) {
  uint8_t *damaged = malloc(len);
  uint64_t checksum = hash_of(file, len);
  sst_options defaults;
  sst_verified verified;
  sst_entry entry;
  sst_options_default(&defaults);
  for (size_t i = 0; i < len; i++) {
    sst_handle table = {0}, range = {0}, runs = {0}, scan = {0};
    memcpy(damaged, file, len);
    damaged[i] = (uint8_t)~damaged[i];
    uint32_t opened = sst_table_open(damaged, len, 0, i % 2 == 0, i % 3 == 0, &table);
    CHECK(opened <= 24);
    if (opened != 0) continue;
    uint32_t code = sst_table_verify(&table, &verified);
    CHECK(code == SST_FAULTY || (code == 0 && verified.item_count == items));
    CHECK(code == 0 || (verified.fault >= 1 && verified.section >= 1 && verified.section <= 7));
    verify_damaged(&table, code, &verified);
    verify_with(&table, hash_of(damaged, len), checksum, code, &verified);
    scan_damaged(&table, code == 0, items);
    CHECK(sst_range_open(&table, 0, file, 0, 0, file, 0, &range) == 0);
    while ((code = sst_range_next(&range, i % 2 == 1, &entry)) == 0 && entry.kind != 0) {
    }
    CHECK(code <= 24);
    CHECK(sst_runs_open(&runs) == 0);
    code = sst_runs_add(&runs, &table);
    CHECK(code == 0 || code == SST_OUT_OF_ORDER);
    CHECK(sst_runs_scan_open(&runs, 0, file, 0, 0, file, 0, SST_NEWEST, &scan) == 0);
    while ((code = sst_scan_next(&scan, &entry)) == 0 && entry.kind != 0) {
    }
    CHECK(code <= 24 && is_scanned(&scan)); /* no entry follows an error */
    compact_damaged(&runs, &defaults);
    sst_close(&table);
    sst_close(&range);
    sst_close(&runs);
    sst_close(&scan);
  }
  free(damaged);
}

static void test_facts(sst_handle *table, const sst_options *options, int n) {
  sst_facts facts;
  sst_verified verified;
  uint64_t items = count_of(n);
  CHECK(sst_table_facts(table, &facts) == 0);
  CHECK(facts.id == options->id && facts.version == 4 && facts.item_count == items);
  CHECK(facts.tombstone_count == (uint64_t)(n + 6) / 7 && facts.weak_tombstone_count == 0);
  CHECK(facts.lowest_seqno == 1 && facts.highest_seqno == 9 && facts.global_seqno == 0);
  CHECK(sst_table_verify(table, &verified) == 0);
  CHECK(verified.item_count == items && verified.data_block_count == facts.data_block_count);
}

/* Pinned blocks count, and the verified-block cache is a word for each 2,048 bytes and one more. */
static void test_memory(sst_handle *table, const sst_options *options, size_t len, bool pin) {
  sst_handle other = {0};
  sst_memory memory, same;
  bool has_filter = pin && options->filter_partition_size == 0;
  bool has_index = pin || options->index_partition_size > 0; /* the top level is pinned */
  CHECK(sst_table_memory(table, &memory) == 0);
  CHECK(memory.file_len == len && memory.marks_size == 8 * (len / 2048 + 1));
  CHECK((memory.pinned_filter_size > 0) == has_filter);
  CHECK((memory.pinned_index_size > 0) == has_index);
  CHECK(memory.pinned_filter_size + memory.pinned_index_size < len);
  CHECK(sst_table_share(table, &other) == 0 && sst_table_memory(&other, &same) == 0);
  CHECK(memcmp(&memory, &same, sizeof memory) == 0);
  sst_close(&other);
}

static void test_table(const sst_options *options, int n, size_t piece, bool pin) {
  sst_handle table = {0};
  size_t len;
  uint8_t *file = write_table(options, n, piece, &len);
  CHECK(sst_table_open(file, len - 1, 0, pin, pin, &table) == 11);
  CHECK(sst_table_open(file, len, 0, pin, pin, &table) == 0);
  test_facts(&table, options, n);
  test_memory(&table, options, len, pin);
  test_gets(&table, n);
  test_rooms(&table);
  test_bounds(&table);
  test_scan(file, len, pin);
  if (options->index_partition_size > 0) test_scan_alone(file, len, count_of(n));
  test_verification(file, len, count_of(n));
  test_checksum(file, len);
  if (n < 10) {
    test_misuse(options, file, len);
    test_one_handle_twice(options, file, len);
    test_found(file, len);
    test_shares(file, len);
    test_kept(file, len, n);
    test_many(file, len);
    test_takes(file, len);
    test_takes_refused(file, len);
    test_add_many(options);
    test_packing(options);
    test_runs(options, file, len);
    test_out_of_order(options, file, len);
    test_steps_out_of_order(options);
    test_damage(file, len, count_of(n));
  }
  test_multi(options, n);
  free(file); /* the table has a copy of its own */
  test_range(&table, n);
  sst_close(&table);
}

/* `sst_strerror_copy` returns the sentences of the header. */
static void test_sentences(void) {
  char room[64];
  for (uint32_t code = 0; code < 200; code++) {
    const char *text = sst_strerror(code);
    memset(room, '.', sizeof room);
    CHECK(sst_strerror_copy(code, (uint8_t *)room, sizeof room) == strlen(text));
    CHECK(memcmp(room, text, strlen(text)) == 0 && room[strlen(text)] == '.');
    CHECK(sst_strerror_copy(code, (uint8_t *)room + 1, 2) == strlen(text));
    CHECK(memcmp(room + 1, text, 2) == 0 && room[3] == text[3]);
  }
}

int main(void) {
  sst_options options;
  sst_options_default(&options);
  options.id = 42;
  CHECK(sst_version() == SST_VERSION);
  test_no_entry(&options);
  test_table(&options, 5, 1, true);
  test_table(&options, 1000, 1000, false);
  options.data_block_size = 200;
  options.index_partition_size = 300;
  options.filter_partition_size = 100;
  options.data_block_hash_ratio = 1000;
  test_table(&options, 1000, SIZE_MAX, true);
  test_table(&options, 5, SIZE_MAX, false);
  test_sentences();
  CHECK(strcmp(sst_strerror(SST_CHECKSUM_MISMATCH), "checksum mismatch") == 0);
  CHECK(strcmp(sst_strerror(SST_SOURCE_ERROR), "source error") == 0 && SST_SOURCE_ERROR == 24);
  CHECK(strcmp(sst_strerror(SST_FAULTY), "the table is not sound") == 0);
  CHECK(strcmp(sst_strerror(99), "unknown refusal") == 0);
  if (failures == 0) printf("all as it should be\n");
  return failures > 0;
}
