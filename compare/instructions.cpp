// The calls whose instructions compare/instructions counts, on the plan file that standard input is, in the order of that script's rows. What runs
// between two calls of `next` is the call that stands there, and main's own steps, which the script leaves out.
#include <unistd.h>

#include <cstdio>

#include "plan.hpp"
#include "post.h"

extern "C" std::int32_t read_signed(const std::uint8_t *file, std::size_t file_len, std::size_t at);  // fields::signed_at

extern "C" [[gnu::noinline]] void next() { asm volatile(""); }

namespace {

std::uint8_t file[24 + 12 * most_limits + 16 * most_links + 1];
std::int32_t strict[most_points * most_points], open_cells[most_points * most_points], times[most_points];

// At every position of the file, at some past its end and at the last positions there are, the signed read gives the field's number; 0 past the end.
bool reads_right(std::size_t size) {
  const std::vector<std::uint8_t> bytes(file, file + size);
  for (std::size_t i = 0; i < size + 8; ++i)
    if (read_signed(file, size, i) != std::int32_t(field_at(bytes, i)) || read_signed(file, size, SIZE_MAX - i) != 0) return false;
  return true;
}

}  // namespace

int main() {
  const ssize_t got = read(0, file, sizeof file);
  if (got < 36) return 2;
  const auto size = std::size_t(got);
  next();
  const std::int32_t whole = read_signed(file, size, 32);  // the first limit's weight
  next();
  const std::int32_t cut = read_signed(file, size, size - 2);  // the last two bytes, and two past the end
  next();
  const std::uint64_t no_room = post_check(file, size, strict, 0, open_cells, 0);  // the file is read, and nothing else happens
  next();
  const std::uint64_t judged = post_judge(file, size, strict, most_points * most_points, open_cells, most_points * most_points);
  next();
  const std::uint64_t checked = post_check(file, size, strict, most_points * most_points, open_cells, most_points * most_points);
  next();
  const std::uint64_t earliest = post_earliest(file, size, strict, most_points * most_points, open_cells, most_points * most_points, times, most_points);
  next();
  const bool with_links = field_at({file, file + size}, 12) > 0;
  const bool right = whole == std::int32_t(field_at({file, file + size}, 32)) && cut == std::int32_t(field_at({file, file + size}, size - 2)) &&
                     no_room == POST_SHORT_ROOM && judged == POST_DONE && checked == POST_DONE &&
                     earliest == (with_links ? POST_HAS_LINKS : POST_DONE) && reads_right(size);
  std::puts(right ? "right" : "wrong");
  return right ? 0 : 1;
}
