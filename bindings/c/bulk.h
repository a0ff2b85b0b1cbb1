/* Tests the calls that read and write many entries at once: each does what the single call does,
 * repeated. `test.c` runs them.
 */
#ifndef BULK_H
#define BULK_H

#include "made.h"

static uint32_t take(sst_handle *bulk, bool is_scan, bool back, sst_entry *entries,
                     size_t entry_room, uint8_t *room, size_t byte_room, uint64_t *count,
                     sst_entry *found) {
  if (is_scan) return sst_scan_take(bulk, entries, entry_room, room, byte_room, count, found);
  return sst_range_take(bulk, back, entries, entry_room, room, byte_room, count, found);
}

/* Returns whether the next single read reports this entry, and finds its key and value at `at`, one
 * after the other. If there is no entry, both report zeros.
 */
static bool is_told_next(sst_handle *single, bool back, const sst_entry *told, const uint8_t *at) {
  sst_entry entry;
  sst_lent lent;
  if (sst_range_next(single, back, &entry) != 0 || memcmp(&entry, told, sizeof entry) != 0) {
    return false;
  }
  if (entry.kind == SST_NO_ENTRY) return sst_found_lend(single, &lent) == SST_NOTHING;
  return sst_found_lend(single, &lent) == 0 && memcmp(at, lent.key, lent.key_len) == 0 &&
         memcmp(at + lent.key_len, lent.value, lent.value_len) == 0;
}

/* Checks which entry a bulk read found that did not fit, or that it found nothing. */
static void check_found(sst_handle *bulk, sst_handle *single, bool back, const sst_entry *found,
                        size_t left) {
  sst_lent lent;
  uint8_t both[64];
  if (found->kind == SST_NO_ENTRY) {
    CHECK(found->seqno == 0 && found->key_len == 0 && found->value_len == 0);
    CHECK(sst_found_lend(bulk, &lent) == SST_NOTHING);
    return;
  }
  CHECK(found->key_len + found->value_len > left);
  CHECK(sst_found_copy(bulk, both, 32, both + found->key_len, 32) == 0);
  CHECK(is_told_next(single, back, found, both));
  CHECK(sst_found_lend(bulk, &lent) == 0 && memcmp(lent.key, both, lent.key_len) == 0);
}

/* Reads to the end in bulk, with room for some entries and bytes, beside single reads. */
static void read_beside(sst_handle *bulk, bool is_scan, sst_handle *single, bool back,
                        size_t entry_room, size_t byte_room) {
  sst_entry entries[8], found;
  uint8_t room[128];
  uint64_t count;
  do {
    size_t at = 0;
    memset(entries, 7, sizeof entries);
    memset(room, '.', sizeof room);
    CHECK(take(bulk, is_scan, back, entries, entry_room, room, byte_room, &count, &found) == 0);
    CHECK(count <= entry_room);
    for (uint64_t i = 0; i < count; i++) {
      CHECK(is_told_next(single, back, &entries[i], room + at));
      at += entries[i].key_len + entries[i].value_len;
    }
    CHECK(at <= byte_room && room[at] == '.');
    CHECK(count == 8 || entries[count].kind == 0x0707070707070707);
    check_found(bulk, single, back, &found, byte_room - at);
  } while (count == entry_room || found.kind != SST_NO_ENTRY);
  memset(&found, 0, sizeof found);
  CHECK(is_told_next(single, back, &found, room));
}

/* Reads with room for one entry or several, for tombstones only, and for no byte. */
static void test_takes(const uint8_t *file, size_t len) {
  const size_t rooms[][2] = {{8, 127}, {1, 127}, {3, 50}, {8, 21}, {8, 10}, {8, 0}};
  sst_handle table = {0}, runs = {0}, bulk = {0}, single = {0};
  CHECK(sst_table_open_kept(file, len, 0, true, true, &table) == 0);
  CHECK(sst_runs_open(&runs) == 0 && sst_runs_add(&runs, &table) == 0);
  for (int i = 0; i < 6; i++) {
    CHECK(sst_scan_open(&table, &bulk) == 0);
    CHECK(sst_range_open(&table, 0, file, 0, 0, file, 0, &single) == 0);
    read_beside(&bulk, true, &single, false, rooms[i][0], rooms[i][1]);
    sst_close(&bulk);
    sst_close(&single);
    for (int back = 0; back < 2; back++) {
      CHECK(sst_range_open(&table, 0, file, 0, 0, file, 0, &bulk) == 0);
      CHECK(sst_range_open(&table, 0, file, 0, 0, file, 0, &single) == 0);
      read_beside(&bulk, false, &single, back, rooms[i][0], rooms[i][1]);
      sst_close(&bulk);
      sst_close(&single);
      CHECK(sst_runs_range_open(&runs, 0, file, 0, 0, file, 0, SST_NEWEST, &bulk) == 0);
      CHECK(sst_runs_range_open(&runs, 0, file, 0, 0, file, 0, SST_NEWEST, &single) == 0);
      read_beside(&bulk, false, &single, back, rooms[i][0], rooms[i][1]);
      sst_close(&bulk);
      sst_close(&single);
    }
    CHECK(sst_runs_scan_open(&runs, 0, file, 0, 0, file, 0, SST_NEWEST, &bulk) == 0);
    CHECK(sst_runs_range_open(&runs, 0, file, 0, 0, file, 0, SST_NEWEST, &single) == 0);
    read_beside(&bulk, true, &single, false, rooms[i][0], rooms[i][1]);
    sst_close(&bulk);
    sst_close(&single);
  }
  sst_close(&table);
  sst_close(&runs);
}

/* A bulk read of a scan of several runs stops at an entry that does not fit, which may be borrowed
 * then. The scan continues after it. A read of another kind clears the found entry.
 */
static void test_runs_scan_refused(const uint8_t *file, sst_handle *table) {
  sst_handle runs = {0}, scan = {0};
  sst_entry entries[2], found;
  sst_lent lent;
  uint8_t room[64];
  uint64_t count = 7;
  CHECK(sst_runs_open(&runs) == 0 && sst_runs_add(&runs, table) == 0);
  CHECK(sst_runs_scan_open(&runs, 0, file, 0, 0, file, 0, 2, &scan) == 0);
  CHECK(sst_scan_take(&scan, entries, 0, room, 64, &count, &found) == 0 && count == 0);
  CHECK(sst_scan_take(&scan, entries, 2, room, 22, &count, &found) == 0 && count == 1);
  CHECK(memcmp(room, "key000000value 1 of 0", 21) == 0 && entries[0].seqno == 1);
  CHECK(found.kind == SST_VALUE && sst_found_lend(&scan, &lent) == 0 && lent.value_len == 12);
  CHECK(memcmp(lent.key, "key000001", 9) == 0);
  CHECK(sst_range_take(&scan, false, entries, 2, room, 64, &count, &found) == SST_OTHER_KIND);
  CHECK(count == 0 && found.kind == SST_NO_ENTRY && sst_found_lend(&scan, &lent) == SST_NOTHING);
  CHECK(sst_scan_take(&scan, entries, 2, room, 64, &count, &found) == 0 && count == 2);
  CHECK(memcmp(room, "key000002value 1 of 2key000003", 30) == 0);
  sst_close(&runs);
  sst_close(&scan);
}

/* Without room for an entry nothing is read. Closed handles, and those of another kind, report
 * nothing. A read of another kind clears the entry that a scan found.
 */
static void test_takes_refused(const uint8_t *file, size_t len) {
  sst_handle table = {0}, scan = {0}, range = {0}, closed = {0};
  sst_entry entries[2], found;
  sst_lent lent;
  uint8_t room[64];
  uint64_t count = 7;
  CHECK(sst_table_open_kept(file, len, 0, true, true, &table) == 0);
  CHECK(sst_scan_open(&table, &scan) == 0);
  CHECK(sst_range_open(&table, 0, file, 0, 0, file, 0, &range) == 0);
  CHECK(sst_scan_take(&closed, entries, 2, room, 64, &count, &found) == SST_CLOSED && count == 0);
  CHECK(found.kind == SST_NO_ENTRY && found.key_len == 0);
  CHECK(sst_range_take(&closed, false, entries, 2, room, 64, &count, &found) == SST_CLOSED);
  CHECK(sst_scan_take(&scan, entries, 0, room, 64, &count, &found) == 0 && count == 0);
  CHECK(sst_scan_take(&scan, entries, 2, room, 20, &count, &found) == 0 && count == 1);
  CHECK(found.kind == SST_VALUE && sst_found_lend(&scan, &lent) == 0 && lent.value_len == 12);
  CHECK(sst_range_take(&scan, false, entries, 2, room, 64, &count, &found) == SST_OTHER_KIND);
  CHECK(count == 0 && found.kind == SST_NO_ENTRY && sst_found_lend(&scan, &lent) == SST_NOTHING);
  CHECK(sst_scan_next(&scan, &found) == 0 && found.seqno == 1);
  CHECK(sst_table_get(&scan, file, 0, 1, &found) == SST_OTHER_KIND && found.kind == SST_NO_ENTRY);
  CHECK(sst_found_lend(&scan, &lent) == SST_NOTHING);
  CHECK(sst_scan_take(&range, entries, 2, room, 64, &count, &found) == SST_OTHER_KIND);
  CHECK(sst_range_take(&range, false, entries, 2, room, 64, &count, &found) == 0 && count == 2);
  test_runs_scan_refused(file, &table);
  sst_close(&table);
  sst_close(&scan);
  sst_close(&range);
}

/* Compares single and bulk reads of a scan, of any bytes. */
static void scan_in_bulk(sst_handle *table, uint32_t code, uint64_t items) {
  sst_handle scan = {0};
  sst_entry entries[3], found;
  uint8_t room[40];
  uint64_t count, all = 0;
  uint32_t met;
  if (sst_scan_open(table, &scan) != 0) return;
  do {
    met = sst_scan_take(&scan, entries, 3, room, 40, &count, &found);
    all += count + (found.kind != SST_NO_ENTRY);
  } while (met == 0 && (count == 3 || found.kind != SST_NO_ENTRY));
  CHECK(met == code && all == items);
  CHECK(sst_scan_take(&scan, entries, 3, room, 40, &count, &found) == 0 && count == 0);
  sst_close(&scan);
}

/* A scan of damaged bytes yields the entries before the fault, and none after it. If the table
 * opens and each data block loads, it yields all.
 */
static void scan_damaged(sst_handle *table, bool is_sound, uint64_t items) {
  sst_handle scan = {0};
  sst_entry entry;
  uint64_t count = 0;
  uint32_t code = sst_scan_open(table, &scan);
  if (code != 0) {
    CHECK(!is_sound && code <= 24 && sst_scan_next(&scan, &entry) == SST_CLOSED);
    return;
  }
  while ((code = sst_scan_next(&scan, &entry)) == 0 && entry.kind != SST_NO_ENTRY) count++;
  CHECK(code <= 24 && count <= items && (!is_sound || (code == 0 && count == items)));
  CHECK(entry.kind == SST_NO_ENTRY && entry.key_len == 0);
  CHECK(sst_scan_next(&scan, &entry) == 0 && entry.kind == SST_NO_ENTRY);
  sst_close(&scan);
  scan_in_bulk(table, code, count);
}

/* Copies what was found of several keys, from one of them on. */
static void test_answers_take(sst_handle *answers) {
  uint8_t room[64];
  uint64_t count = 7;
  memset(room, '.', sizeof room);
  CHECK(sst_answers_take(answers, 0, room, 64, &count) == 0 && count == 5);
  CHECK(memcmp(room, "key000004value 2 of 4key000000key000004value 2 of 4.", 52) == 0);
  CHECK(sst_answers_take(answers, 0, room, 50, &count) == 0 && count == 4);
  CHECK(sst_answers_take(answers, 4, room, 20, &count) == 0 && count == 0);
  CHECK(sst_answers_take(answers, 2, room, 9, &count) == 0 && count == 2);
  CHECK(memcmp(room, "key000000value", 14) == 0);
  CHECK(sst_answers_take(answers, 5, room, 64, &count) == 0 && count == 0);
  count = 7;
  CHECK(sst_answers_take(answers, 6, room, 64, &count) == SST_NO_SUCH && count == 7);
}

/* Entries that are written in bulk are the same as those written one by one. */
static void test_add_many(const sst_options *options) {
  const char *both = "bkeya1akeycdef"; /* the second key does not follow the first */
  sst_entry entries[] = {{SST_VALUE, 7, 4, 2}, {SST_TOMBSTONE, 6, 4, 0}, {SST_VALUE, 5, 1, 3}};
  sst_handle many = {0}, single = {0}, closed = {0}, table = {0};
  uint64_t count = 7;
  size_t len, same_len;
  CHECK(sst_writer_add_many(&closed, entries, 3, bytes(both), 14, &count) == SST_CLOSED);
  CHECK(count == 0 && sst_writer_open(options, &many) == 0);
  CHECK(sst_writer_add_many(&many, entries, 3, bytes(both), 13, &count) == SST_NO_SUCH);
  CHECK(sst_writer_add_many(&many, entries, 2, bytes(both), 14, &count) == SST_NO_SUCH);
  entries[2].value_len = UINT64_MAX;
  CHECK(sst_writer_add_many(&many, entries, 3, bytes(both), 14, &count) == SST_NO_SUCH);
  entries[2].value_len = 3;
  CHECK(count == 0 && sst_writer_add_many(&many, entries, 0, bytes(both), 0, &count) == 0);
  CHECK(sst_writer_add_many(&many, entries, 3, bytes(both), 14, &count) == SST_OUT_OF_ORDER);
  CHECK(count == 1);
  sst_close(&many);
  both = "akeya1bkeycdef";
  CHECK(sst_writer_open(options, &many) == 0 && sst_writer_open(options, &single) == 0);
  CHECK(sst_writer_add_many(&many, entries, 3, bytes(both), 14, &count) == 0 && count == 3);
  entries[0].kind = 4;
  CHECK(sst_writer_add_many(&many, entries, 1, bytes(both), 6, &count) == SST_NO_SUCH);
  CHECK(sst_writer_add(&single, bytes("akey"), 4, 7, SST_VALUE, bytes("a1"), 2) == 0);
  CHECK(sst_writer_add(&single, bytes("bkey"), 4, 6, SST_TOMBSTONE, bytes(""), 0) == 0);
  CHECK(sst_writer_add(&single, bytes("c"), 1, 5, SST_VALUE, bytes("def"), 3) == 0);
  CHECK(sst_writer_finish(&many) == 0 && sst_writer_finish(&single) == 0);
  uint8_t *file = file_of(&many, SIZE_MAX, &len), *same = file_of(&single, SIZE_MAX, &same_len);
  CHECK(len == same_len && memcmp(file, same, len) == 0);
  CHECK(sst_table_open(file, len, 0, true, true, &table) == 0);
  CHECK(sst_writer_add_many(&table, entries, 3, bytes(both), 14, &count) == SST_OTHER_KIND);
  CHECK(sst_writer_add_many(&many, entries, 3, bytes(both), 14, &count) == SST_OTHER_KIND);
  free(file);
  free(same);
  sst_close(&many);
  sst_close(&single);
  sst_close(&table);
}

#endif
