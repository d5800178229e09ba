// What counts keys, for bench/peers.cc.

#pragma once

#include <cerrno>
#include <cstdint>
#include <system_error>
#include <vector>

using Keys = std::vector<std::uint64_t>;

inline std::system_error system_fault(const char* what) { return {errno, std::generic_category(), what}; }

class Counter {
 public:
  virtual ~Counter() = default;

  // Counts the keys, and returns once that is on the disk: those keys whose counts came to the threshold.
  virtual Keys count(const Keys& keys) = 0;

  // Ends with all counts on the disk. Nothing is counted behind it.
  virtual void close() = 0;
};
