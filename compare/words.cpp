// Item 6 by points, one after the other: a word is taken apart into the points it stands for and put together from them, by halving and doubling, and
// everything that is asked is asked of the points.
#include "words.hpp"

#include <algorithm>
#include <array>
#include <initializer_list>

namespace reference {
namespace {

using Points = std::array<bool, 64>;  // whether each point is one of them

Points points_of(std::uint64_t word) {
  Points points{};
  for (bool &there : points) there = word % 2 == 1, word /= 2;
  return points;
}

std::uint64_t word_of(const Points &points) {
  std::uint64_t word = 0;
  for (std::size_t y = points.size(); y > 0; --y) word = 2 * word + (points[y - 1] ? 1 : 0);
  return word;
}

struct Slice {
  std::size_t length, needed;
};

// "n out of range, or a point at or above n, gets 3; then short slices get 9"
std::uint64_t refusal(std::uint32_t n, std::initializer_list<std::uint32_t> points, std::initializer_list<Slice> slices) {
  if (n < 1 || n > 64) return 3;
  for (std::uint32_t point : points)
    if (point >= n) return 3;
  for (const Slice &slice : slices)
    if (slice.length < slice.needed) return 9;
  return 0;
}

}  // namespace

// "bit Y of word X is set exactly when the cell from X to Y isn't the no-path mark"
std::uint64_t reach(std::uint32_t n, const std::int32_t *strict, std::size_t strict_len, std::uint64_t *words, std::size_t words_len) {
  if (const auto code = refusal(n, {}, {{strict_len, std::size_t(n) * n}, {words_len, n}})) return code;
  for (std::uint32_t x = 0; x < n; ++x) {
    Points bounded{};
    for (std::uint32_t y = 0; y < n; ++y) bounded[y] = strict[x * n + y] != mark;
    words[x] = word_of(bounded);
  }
  return 0;
}

// "the number of bounded points, the lowest and the highest bounded point"; "A word of 0 answers a count of 0, and 64 as lowest and highest."
std::uint64_t bounded(std::uint32_t n, const std::uint64_t *words, std::size_t words_len, std::uint32_t x, std::uint32_t *out, std::size_t out_len) {
  if (const auto code = refusal(n, {x}, {{words_len, n}, {out_len, 3}})) return code;
  const Points points = points_of(words[x]);
  std::uint32_t number = 0, lowest = 64, highest = 64;
  for (std::uint32_t y = 0; y < points.size(); ++y) {
    if (!points[y]) continue;
    if (number == 0) lowest = y;
    highest = y;
    ++number;
  }
  out[0] = number, out[1] = lowest, out[2] = highest;
  return 0;
}

// "the points that two points both bound"
std::uint64_t both(std::uint32_t n, const std::uint64_t *words, std::size_t words_len, std::uint32_t x, std::uint32_t y, std::uint64_t *out,
                   std::size_t out_len) {
  if (const auto code = refusal(n, {x, y}, {{words_len, n}, {out_len, 1}})) return code;
  const Points of_x = points_of(words[x]), of_y = points_of(words[y]);
  Points common{};
  for (std::size_t z = 0; z < common.size(); ++z) common[z] = of_x[z] && of_y[z];
  out[0] = word_of(common);
  return 0;
}

// "updated from the one new limit": whatever bounds x now bounds all that y bounds.
std::uint64_t reach_add(std::uint32_t n, std::uint32_t x, std::uint32_t y, std::uint64_t *words, std::size_t words_len) {
  if (const auto code = refusal(n, {x, y}, {{words_len, n}})) return code;
  const Points more = points_of(words[y]);
  for (std::uint32_t z = 0; z < n; ++z) {
    Points points = points_of(words[z]);
    if (!points[x]) continue;
    for (std::size_t point = 0; point < points.size(); ++point)
      if (more[point]) points[point] = true;
    words[z] = word_of(points);
  }
  return 0;
}

}  // namespace reference
