// Measures the memory of a compaction, by what it allocates beside its sources: table by table
// (`sst_compaction_next`, where each table is dropped before the next), and with all tables at the
// end (`sst_compact`). `run --growth` builds and starts it.
#include <malloc.h>

#include <atomic>
#include <cstdint>
#include <cstdio>
#include <cstdlib>
#include <cstring>
#include <string>
#include <vector>

#include "sst.h"

namespace {

std::atomic<size_t> allocated{0};
std::atomic<size_t> most{0};

void* Counted(void* place) {
  if (place == nullptr) return nullptr;
  size_t now = allocated += malloc_usable_size(place);
  if (now > most) most = now;
  return place;
}

void Uncount(void* place) {
  if (place != nullptr) allocated -= malloc_usable_size(place);
}

}  // namespace

// These take the place of the C library's, in the library that is measured as well.
extern "C" {
void* __libc_malloc(size_t size);
void* __libc_calloc(size_t count, size_t size);
void* __libc_realloc(void* place, size_t size);
void* __libc_memalign(size_t alignment, size_t size);
void __libc_free(void* place);

void* malloc(size_t size) { return Counted(__libc_malloc(size)); }
void* calloc(size_t count, size_t size) { return Counted(__libc_calloc(count, size)); }
void* aligned_alloc(size_t alignment, size_t size) {
  return Counted(__libc_memalign(alignment, size));
}
int posix_memalign(void** place, size_t alignment, size_t size) {
  *place = Counted(__libc_memalign(alignment, size));
  return *place == nullptr && size != 0 ? 12 : 0;
}
void* realloc(void* place, size_t size) {
  size_t before = place == nullptr ? 0 : malloc_usable_size(place);
  void* moved = __libc_realloc(place, size);
  if (moved == nullptr && size != 0) return nullptr;
  allocated -= before;
  return Counted(moved);
}
void free(void* place) {
  Uncount(place);
  __libc_free(place);
}
}

namespace {

constexpr size_t kKeyLen = 16, kValueLen = 100;
constexpr uint64_t kTarget = 1 << 20;

void Must(uint32_t code, const char* what) {
  if (code == 0) return;
  fprintf(stderr, "bench: %s: %s\n", what, sst_strerror(code));
  exit(1);
}

// The bytes of a table of the keys from `first` on, each the one before it plus two.
std::string TableOf(uint64_t first, size_t count, uint64_t seqno) {
  sst_options options;
  sst_options_default(&options);
  sst_handle writer = {};
  Must(sst_writer_open(&options, &writer), "sst_writer_open");
  uint64_t random = first + 1;
  char key[32], value[kValueLen];
  for (size_t i = 0; i < count; i++) {
    snprintf(key, sizeof key, "%016llu", static_cast<unsigned long long>(first + 2 * i));
    for (char& byte : value) {
      random = random * 6364136223846793005u + 1442695040888963407u;
      byte = static_cast<char>(random >> 56);
    }
    Must(sst_writer_add(&writer, reinterpret_cast<uint8_t*>(key), kKeyLen, seqno, SST_VALUE,
                        reinterpret_cast<uint8_t*>(value), kValueLen),
         "sst_writer_add");
  }
  Must(sst_writer_finish(&writer), "sst_writer_finish");
  sst_file file;
  Must(sst_files_tell(&writer, 0, &file), "sst_files_tell");
  std::string bytes(file.len, '\0');
  uint64_t copied;
  Must(sst_files_copy(&writer, 0, 0, reinterpret_cast<uint8_t*>(bytes.data()), bytes.size(), &copied),
       "sst_files_copy");
  sst_close(&writer);
  return bytes;
}

double Megabytes(size_t bytes) { return static_cast<double>(bytes) / (1 << 20); }

void PrintFor(size_t times) {
  size_t count = times * kTarget / (kKeyLen + kValueLen) / 2;
  std::vector<std::string> files = {TableOf(0, count, 2), TableOf(1, count, 1)};
  sst_handle runs = {};
  Must(sst_runs_open(&runs), "sst_runs_open");
  for (const std::string& file : files) {
    sst_handle table = {};
    Must(sst_table_open_kept(reinterpret_cast<const uint8_t*>(file.data()), file.size(), 0, true,
                             true, &table),
         "sst_table_open_kept");
    Must(sst_runs_add(&runs, &table), "sst_runs_add");
    sst_close(&table);
  }
  sst_options options;
  sst_options_default(&options);
  size_t before = allocated;
  most = before;
  sst_handle compaction = {};
  Must(sst_compaction_open(&runs, &options, UINT64_MAX, false, false, kTarget, &compaction),
       "sst_compaction_open");
  size_t tables = 0;
  for (;;) {
    sst_handle made = {};
    uint64_t next_id;
    uint32_t code = sst_compaction_next(&compaction, &made, &next_id);
    if (code == SST_NOTHING) break;
    Must(code, "sst_compaction_next");
    tables++;
    sst_close(&made);
  }
  sst_close(&compaction);
  size_t each = most - before;
  most = before = allocated;
  sst_handle made = {};
  uint64_t next_id;
  Must(sst_compact(&runs, &options, UINT64_MAX, false, false, kTarget, &made, &next_id),
       "sst_compact");
  size_t all = most - before;
  sst_close(&made);
  sst_close(&runs);
  printf("| %zu | %.1f | %zu | %.2f | %.1f |\n", 2 * count,
         Megabytes(files[0].size() + files[1].size()), tables, Megabytes(each), Megabytes(all));
  fflush(stdout);
}

}  // namespace

int main() {
  printf(
      "\n| Entries | two source tables, MiB | new tables of 1 MiB | allocated at most beside the "
      "sources, table by table, MiB | with all tables at the end, MiB |\n|---|---|---|---|---|\n");
  for (size_t times : {1, 10, 100}) PrintFor(times);
}
