// Measures how the library's time and memory grow with a table's entries. Each call runs in a
// process of its own. It reports the process's peak resident memory and that at its start.
#pragma once

#include <malloc.h>
#include <sys/resource.h>
#include <sys/wait.h>
#include <time.h>
#include <unistd.h>

#include <algorithm>
#include <functional>
#include <string>
#include <vector>

#include "entries.h"

struct Spent {
  double seconds;
  double bytes;
};

inline double ResidentBytes() {
  long pages = 0, resident = 0;
  FILE* file = fopen("/proc/self/statm", "r");
  if (file == nullptr || fscanf(file, "%ld %ld", &pages, &resident) != 2) Fail("no statm");
  fclose(file);
  return static_cast<double>(resident) * sysconf(_SC_PAGESIZE);
}

inline Spent SpentOn(const std::function<uint32_t()>& call) {
  int ends[2];
  Require(pipe(ends) == 0, "no pipe");
  pid_t child = fork();
  Require(child >= 0, "no process");
  if (child == 0) {
    malloc_trim(0);  // else the call reuses memory that was freed before
    double before = ResidentBytes();
    timespec start, end;
    clock_gettime(CLOCK_THREAD_CPUTIME_ID, &start);
    uint32_t code = call();
    clock_gettime(CLOCK_THREAD_CPUTIME_ID, &end);
    rusage usage;
    getrusage(RUSAGE_SELF, &usage);
    Spent spent{(end.tv_sec - start.tv_sec) + (end.tv_nsec - start.tv_nsec) * 1e-9,
                usage.ru_maxrss * 1024.0 - before};
    bool told = write(ends[1], &spent, sizeof spent) == sizeof spent;
    _exit(code == 0 && told ? 0 : 1);
  }
  Spent spent{};
  bool told = read(ends[0], &spent, sizeof spent) == sizeof spent;
  int status = 0;
  waitpid(child, &status, 0);
  close(ends[0]);
  close(ends[1]);
  Require(told && WIFEXITED(status) && WEXITSTATUS(status) == 0,
          "a call of the growth was refused");
  return spent;
}

// The table of a list that counts up by twos.
inline std::string GrowthTable(const Entries& entries) {
  auto bytes = reinterpret_cast<const uint8_t*>(entries.bytes().data());
  std::string table(entries.bytes().size() * 3 / 2 + 100000, '\0');
  Written written{};
  uint32_t code =
      tool_bench_build(bytes, entries.bytes().size(), kKeyLen, kValueLen, 1,
                      reinterpret_cast<uint8_t*>(table.data()), table.size(), &written);
  Require(code == 0 && written.bytes <= table.size(), "no table");
  table.resize(written.bytes);
  return table;
}

// The least time of several calls, and the memory of the last.
inline Spent LeastOf(const std::function<uint32_t()>& call) {
  Spent least = SpentOn(call);
  for (int round = 1; round < 3; round++) {
    Spent spent = SpentOn(call);
    least = {std::min(least.seconds, spent.seconds), spent.bytes};
  }
  return least;
}

inline void PrintGrowthOf(size_t count) {
  Entries entries;
  entries.Reserve(count);
  for (uint64_t i = 0; i < count; i++) entries.Append(2 * i, 0);
  auto store = reinterpret_cast<const uint8_t*>(entries.bytes().data());
  Written written{};
  Spent build = LeastOf([&] {
    return tool_bench_build(store, entries.bytes().size(), kKeyLen, kValueLen, 1, nullptr, 0,
                           &written);
  });
  std::string file = GrowthTable(entries);
  auto table = reinterpret_cast<const uint8_t*>(file.data());
  std::string keys;
  Random random(3);
  constexpr uint64_t kGets = 50000;
  for (uint64_t i = 0; i < kGets; i++) keys += KeyOf(2 * (random.Next() % count));
  auto wanted = reinterpret_cast<const uint8_t*>(keys.data());
  const uint64_t opens = std::max<uint64_t>(10, 10000000 / count);
  uint64_t id = 0;
  Digest digest{};
  Spent copy = LeastOf([&] { return tool_bench_open(table, file.size(), 0, &id); });
  Spent open = LeastOf([&] { return tool_bench_open(table, file.size(), opens, &id); });
  Spent get = LeastOf([&] {
    return tool_bench_get(table, file.size(), wanted, keys.size(), kKeyLen, 1, &digest);
  });
  Spent scan = LeastOf([&] { return tool_bench_scan(table, file.size(), 1, &digest); });
  // Before its work, a call copies the table and opens it once.
  double opening = (open.seconds - copy.seconds) / opens;
  double before = copy.seconds + opening;
  constexpr double kMegabyte = 1 << 20;
  printf("| %zu | %.1f | %.0f | %.3f | %.2f | %.0f | %.0f | %.1f | %.2f |\n", count,
         file.size() / kMegabyte, build.seconds / count * 1e9, opening * 1e3,
         (open.bytes - copy.bytes) / kMegabyte, (get.seconds - before) / kGets * 1e9,
         (scan.seconds - before) / count * 1e9, build.bytes / kMegabyte,
         (scan.bytes - copy.bytes) / kMegabyte);
  fflush(stdout);
}

inline void PrintGrowth(const std::vector<size_t>& counts) {
  printf(
      "\n| Entries | table, MiB | build, ns an entry | open, ms | memory of an open table beside "
      "its bytes, MiB | get, ns | scan, ns an entry | memory of building, MiB | memory of a scan "
      "beside the bytes, MiB |\n|---|---|---|---|---|---|---|---|---|\n");
  for (size_t count : counts) PrintGrowthOf(count);
}
