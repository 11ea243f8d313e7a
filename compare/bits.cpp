// Reach words as a C++ programmer would write them for speed, apart from words.cpp and sharing nothing with it.
#include "sweep.hpp"

namespace sweep {

std::uint64_t reach(std::uint32_t n, const std::int32_t *strict, std::size_t strict_len, std::uint64_t *words, std::size_t words_len) {
  if (n - 1 >= 64) return 3;
  if (strict_len < std::size_t(n) * n || words_len < n) return 9;
  for (std::size_t x = 0; x < n; ++x) {
    const std::int32_t *const row = strict + x * n;
    std::uint64_t word = 0;
    for (std::size_t y = 0; y < n; ++y) word |= std::uint64_t(row[y] != POST_MARK) << y;
    words[x] = word;
  }
  return 0;
}

std::uint64_t bounded(std::uint32_t n, const std::uint64_t *words, std::size_t words_len, std::uint32_t x, std::uint32_t *out, std::size_t out_len) {
  if (n - 1 >= 64 || x >= n) return 3;
  if (words_len < n || out_len < 3) return 9;
  const std::uint64_t word = words[x];
  out[0] = std::uint32_t(__builtin_popcountll(word));
  out[1] = word == 0 ? 64 : std::uint32_t(__builtin_ctzll(word));
  out[2] = word == 0 ? 64 : 63 - std::uint32_t(__builtin_clzll(word));
  return 0;
}

std::uint64_t both(std::uint32_t n, const std::uint64_t *words, std::size_t words_len, std::uint32_t x, std::uint32_t y, std::uint64_t *out,
                   std::size_t out_len) {
  if (n - 1 >= 64 || x >= n || y >= n) return 3;
  if (words_len < n || out_len < 1) return 9;
  out[0] = words[x] & words[y];
  return 0;
}

std::uint64_t reach_add(std::uint32_t n, std::uint32_t x, std::uint32_t y, std::uint64_t *words, std::size_t words_len) {
  if (n - 1 >= 64 || x >= n || y >= n) return 3;
  if (words_len < n) return 9;
  const std::uint64_t more = words[y];
  for (std::size_t z = 0; z < n; ++z)
    if (words[z] >> x & 1) words[z] |= more;
  return 0;
}

}  // namespace sweep
