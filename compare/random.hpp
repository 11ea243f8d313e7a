// Random numbers that are the same on every machine, and the command line that all comparing programs share.
#pragma once
#include <chrono>
#include <cstdint>
#include <cstdio>
#include <cstdlib>
#include <cstring>

struct Random {
  std::uint64_t state;

  explicit Random(std::uint64_t seed) : state(seed) {}

  std::uint64_t next() {  // splitmix64
    std::uint64_t z = state += 0x9e3779b97f4a7c15u;
    z = (z ^ z >> 30) * 0xbf58476d1ce4e5b9u;
    z = (z ^ z >> 27) * 0x94d049bb133111ebu;
    return z ^ z >> 31;
  }

  // A whole number from `low` to `high`, both included.
  std::int64_t from_to(std::int64_t low, std::int64_t high) { return low + std::int64_t(next() % std::uint64_t(high - low + 1)); }
  std::uint32_t below(std::uint32_t end) { return std::uint32_t(next() % end); }
  bool one_in(std::uint32_t times) { return below(times) == 0; }

  template <class List>
  const typename List::value_type &any_of(const List &list) {
    return list[below(std::uint32_t(list.size()))];
  }
};

// `count N`, `seconds S`, `seed K` in any order. Each round of a program has its own seed, so a difference is found again by `seed` and `count`.
struct Budget {
  std::uint64_t count, seed = 1, done = 0;
  double seconds = 0;
  std::chrono::steady_clock::time_point started = std::chrono::steady_clock::now();

  Budget(int words, char **word, std::uint64_t default_count) : count(default_count) {
    for (int i = 1; i + 1 < words; i += 2) {
      if (!std::strcmp(word[i], "count")) count = std::strtoull(word[i + 1], nullptr, 10);
      else if (!std::strcmp(word[i], "seconds")) seconds = std::strtod(word[i + 1], nullptr);
      else if (!std::strcmp(word[i], "seed")) seed = std::strtoull(word[i + 1], nullptr, 10);
      else words = 0;
    }
    if (words % 2 == 0) {
      std::fprintf(stderr, "usage: %s [count N | seconds S] [seed K]\n", word[0]);
      std::exit(2);
    }
  }

  double spent() const { return std::chrono::duration<double>(std::chrono::steady_clock::now() - started).count(); }

  bool more() {
    if (seconds > 0 ? (done % 16 == 0 && spent() >= seconds) : done >= count) return false;
    ++done;
    return true;
  }

  // The last line on a difference, and the end. Without destructors: a call that was stopped may have left anything.
  [[noreturn]] void found() const {
    std::printf("  found with seed %llu in round %llu\n", static_cast<unsigned long long>(seed), static_cast<unsigned long long>(done));
    std::fflush(stdout);
    std::_Exit(1);
  }

  Random round() const { return Random(seed * 0x2545f4914f6cdd1du + done); }
};
