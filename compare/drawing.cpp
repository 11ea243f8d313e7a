// drawing N K: writes the first of the benchmark's plans of N points and K links, as a plan file.
#include "drawn.hpp"

int main(int words, char **word) {
  if (words != 3) {
    std::fprintf(stderr, "usage: %s N K\n", word[0]);
    return 2;
  }
  const auto n = std::uint32_t(std::strtoul(word[1], nullptr, 10)), k = std::uint32_t(std::strtoul(word[2], nullptr, 10));
  Random random = row_of(1, n, k);
  const auto file = file_of(draw(random, n, k));
  return std::fwrite(file.data(), 1, file.size(), stdout) == file.size() ? 0 : 1;
}
