// The least time of each kind of call.
#pragma once

#include <algorithm>
#include <map>
#include <string>

#include "entries.h"
#include "hashing.h"

inline const uint8_t* Bytes(std::string_view text) {
  return reinterpret_cast<const uint8_t*>(text.data());
}

inline void Answered(uint32_t code) { Require(code == 0, "refused: " + std::to_string(code)); }

inline double ClockSeconds() {
  timespec now;
  clock_gettime(CLOCK_MONOTONIC, &now);
  return now.tv_sec + now.tv_nsec * 1e-9;
}

class Times {
 public:
  // By the processor time of this thread.
  template <class Work>
  void Take(const std::string& call, Work work) {
    double start = ThreadSeconds();
    work();
    Keep(call, ThreadSeconds() - start);
  }

  void Keep(const std::string& call, double took) {
    auto [place, is_new] = least_.try_emplace(call, took);
    if (!is_new) place->second = std::min(place->second, took);
  }

  double operator[](const std::string& call) const {
    auto place = least_.find(call);
    return place == least_.end() ? 0 : place->second;
  }

 private:
  std::map<std::string, double> least_;
};
