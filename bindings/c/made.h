/* Shared by the tests in C: checks that continue after a failure, written tables, and found
 * entries.
 */
#ifndef MADE_H
#define MADE_H

#include "sst.h"

#include <stdio.h>
#include <stdlib.h>
#include <string.h>

static int failures;

#define CHECK(holds) check((holds), #holds, __FILE__, __LINE__)

static void check(bool holds, const char *text, const char *file, int line) {
  if (holds) return;
  fprintf(stderr, "%s:%d: %s\n", file, line, text);
  failures++;
}

static const uint8_t *bytes(const char *text) { return (const uint8_t *)text; }

/* Keys ascend, each with two versions, and each seventh is deleted. */
static void key_of(int i, char key[16]) { snprintf(key, 16, "key%06d", i); }

static void value_of(int i, int version, char value[32]) {
  snprintf(value, 32, "value %d of %d", version, i);
}

static void write_entries(sst_handle *writer, int n) {
  char key[16], value[32];
  for (int i = 0; i < n; i++) {
    key_of(i, key);
    if (i % 7 == 0) {
      CHECK(sst_writer_add(writer, bytes(key), strlen(key), 9, SST_TOMBSTONE, bytes(""), 0) == 0);
    }
    for (int version = 2; version > 0; version--) {
      value_of(i, version, value);
      CHECK(sst_writer_add(writer, bytes(key), strlen(key), (uint64_t)version, SST_VALUE,
                           bytes(value), strlen(value)) == 0);
    }
  }
}

/* How many entries these are. */
static uint64_t count_of(int n) { return (uint64_t)(2 * n + (n + 6) / 7); }

/* Returns the FNV-1a hash of some bytes. */
static uint64_t hash_of(const uint8_t *bytes, size_t len) {
  uint64_t hash = 0xcbf29ce484222325;
  for (size_t i = 0; i < len; i++) hash = (hash ^ bytes[i]) * 0x100000001b3;
  return hash;
}

/* Copies the bytes of a finished table, at most `piece` bytes a call. */
static uint8_t *file_of(sst_handle *files, size_t piece, size_t *len) {
  sst_file told;
  CHECK(sst_files_tell(files, 0, &told) == 0);
  uint8_t *file = malloc(told.len);
  uint64_t at = 0, count = 1;
  while (count > 0) {
    size_t room = told.len - at < piece ? told.len - at : piece;
    uint8_t none;
    CHECK(sst_files_copy(files, 0, at, room > 0 ? file + at : &none, room, &count) == 0);
    at += count;
  }
  CHECK(at == told.len && told.checksum == hash_of(file, told.len));
  *len = told.len;
  return file;
}

static uint8_t *write_table(const sst_options *options, int n, size_t piece, size_t *len) {
  sst_handle writer = {0};
  uint64_t count = 7;
  CHECK(sst_writer_open(options, &writer) == 0);
  write_entries(&writer, n);
  CHECK(sst_writer_finish(&writer) == 0);
  CHECK(sst_files_count(&writer, &count) == 0 && count == 1);
  uint8_t *file = file_of(&writer, piece, len);
  sst_close(&writer);
  return file;
}

/* Returns whether a read found this entry, both copied and borrowed. */
static bool has_found(sst_handle *handle, const sst_entry *entry, const char *key,
                      const char *value) {
  uint8_t key_room[32], value_room[64];
  sst_lent lent;
  size_t key_len = strlen(key), value_len = strlen(value);
  if (entry->key_len != key_len || entry->value_len != value_len) return false;
  if (sst_found_copy(handle, key_room, sizeof key_room, value_room, sizeof value_room) != 0 ||
      memcmp(key_room, key, key_len) != 0 || memcmp(value_room, value, value_len) != 0) {
    return false;
  }
  return sst_found_lend(handle, &lent) == 0 && lent.key_len == key_len &&
         lent.value_len == value_len && memcmp(lent.key, key, key_len) == 0 &&
         memcmp(lent.value, value, value_len) == 0;
}

#endif
