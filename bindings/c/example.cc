// The program of example.c in C++. A destructor closes the handle, which can be moved and not
// copied, and an error is an exception. `bindings/test` builds and runs it.
#include "sst.h"

#include <cstdio>
#include <cstring>
#include <stdexcept>
#include <string>
#include <utility>
#include <vector>

// Throws if a call failed.
static void test(uint32_t code) {
  if (code != 0) throw std::runtime_error(sst_strerror(code));
}

// A handle that a call fills. A move takes its words along, so that no copy of them is used.
class Handle {
 public:
  Handle() = default;
  Handle(Handle &&other) noexcept { std::swap(words_, other.words_); }
  Handle &operator=(Handle &&other) noexcept {
    std::swap(words_, other.words_);
    return *this;
  }
  ~Handle() { sst_close(&words_); }

  sst_handle *words() { return &words_; }

 private:
  sst_handle words_ = {};
};

static const uint8_t *bytes(const std::string &text) {
  return reinterpret_cast<const uint8_t *>(text.data());
}

static std::string text(const uint8_t *at, uint64_t len) {
  return std::string(reinterpret_cast<const char *>(at), len);
}

static void add(Handle &writer, const std::string &key, uint64_t seqno, uint32_t kind,
                const std::string &value) {
  test(sst_writer_add(writer.words(), bytes(key), key.size(), seqno, kind, bytes(value),
                      value.size()));
}

// Opens the first finished table of a handle.
static Handle open_first(Handle files) {
  Handle table;
  sst_file told;
  uint64_t count;
  test(sst_files_tell(files.words(), 0, &told));
  std::vector<uint8_t> file(told.len);
  test(sst_files_copy(files.words(), 0, 0, file.data(), file.size(), &count));
  test(sst_table_open(file.data(), file.size(), 0, true, true, table.words()));
  return table;
}

static Handle begin(uint64_t id) {
  sst_options options;
  Handle writer;
  sst_options_default(&options);
  options.id = id;
  test(sst_writer_open(&options, writer.words()));
  return writer;
}

static Handle finish(Handle writer) {
  test(sst_writer_finish(writer.words()));
  return open_first(std::move(writer));
}

static Handle write_older() {
  Handle writer = begin(1);
  add(writer, "apple", 7, SST_VALUE, "red");
  add(writer, "apple", 3, SST_VALUE, "green");
  add(writer, "pear", 5, SST_VALUE, "yellow");
  add(writer, "plum", 6, SST_TOMBSTONE, "");
  return finish(std::move(writer));
}

static Handle write_newer() {
  Handle writer = begin(2);
  add(writer, "fig", 9, SST_VALUE, "violet");
  add(writer, "pear", 8, SST_TOMBSTONE, "");
  return finish(std::move(writer));
}

// The entry that a handle's last read found, copied into strings.
static void print(const char *what, Handle &handle, const sst_entry &entry) {
  sst_lent lent;
  test(sst_found_lend(handle.words(), &lent));
  std::string key = text(lent.key, lent.key_len), value = text(lent.value, lent.value_len);
  std::printf("%s %s %u %u %s\n", what, key.c_str(), unsigned(entry.seqno), unsigned(entry.kind),
              value.c_str());
}

static void read_key(Handle &table, const std::string &key, uint64_t seqno) {
  sst_entry entry;
  test(sst_table_get(table.words(), bytes(key), key.size(), seqno, &entry));
  if (entry.kind == SST_NO_ENTRY) {
    std::printf("none %s\n", key.c_str());
  } else {
    print("found", table, entry);
  }
}

static void walk(Handle range, bool back) {
  sst_entry entry;
  for (;;) {
    test(sst_range_next(range.words(), back, &entry));
    if (entry.kind == SST_NO_ENTRY) return;
    print("walked", range, entry);
  }
}

static Handle range_from(Handle &table, const std::string &from) {
  Handle range;
  test(sst_range_open(table.words(), SST_INCLUDED, bytes(from), from.size(), SST_UNBOUNDED,
                      bytes(""), 0, range.words()));
  return range;
}

static Handle range_of_all(Handle &runs) {
  Handle range;
  test(sst_runs_range_open(runs.words(), SST_UNBOUNDED, bytes(""), 0, SST_UNBOUNDED, bytes(""), 0,
                           SST_NEWEST, range.words()));
  return range;
}

static Handle compact(Handle &runs) {
  sst_options options;
  Handle files;
  uint64_t next_id;
  sst_options_default(&options);
  options.id = 3;
  test(sst_compact(runs.words(), &options, SST_NEWEST, true, false, UINT64_MAX, files.words(),
                   &next_id));
  return open_first(std::move(files));
}

int main() {
  sst_verified verified;
  Handle older = write_older(), newer = write_newer(), runs;
  read_key(older, "apple", SST_NEWEST);
  read_key(older, "apple", 5);
  read_key(older, "fig", SST_NEWEST);
  walk(range_from(older, "pear"), true);
  test(sst_runs_open(runs.words()));
  test(sst_runs_add(runs.words(), newer.words()));
  test(sst_runs_add(runs.words(), older.words()));
  walk(range_of_all(runs), false);
  Handle table = compact(runs);
  test(sst_table_verify(table.words(), &verified));
  std::printf("verified %u\n", unsigned(verified.item_count));
}
