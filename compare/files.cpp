// Writes plan files, sound and damaged, into a folder, and beside them what the small program must write for each: `files FOLDER COUNT SEED`.
// compare/run gives them to the program on its standard input.
#include <algorithm>
#include <fstream>
#include <string>

#include "random.hpp"
#include "reference.hpp"
#include "shapes.hpp"

namespace {

// The file is asked after first, then the plan.
std::string expected(const std::vector<std::uint8_t> &file) {
  std::vector<std::int32_t> strict(64 * 64), open(strict);
  std::uint64_t answer = reference::sound(file.data(), file.size());
  if (answer == 0) answer = reference::judge(file.data(), file.size(), strict.data(), strict.size(), open.data(), open.size());
  if (answer == 0) return "controllable\n";
  return "refused " + std::to_string(std::uint32_t(answer)) + " " + std::to_string(answer >> 32) + "\n";
}

std::vector<std::uint8_t> some_file(Random &random, std::uint64_t index) {
  if (index == 0) return {};
  Plan plan = random_plan(random, 20);
  if (index <= 4) {  // the largest file, and lengths about it
    plan = {64, std::vector<Limit>(most_limits, {0, 1, 5}), {}};
    for (std::uint32_t c = 1; c <= most_links; ++c) plan.links.push_back({0, c, 1, 9});
    plan.limits[7] = {1, 2, 20};
  }
  auto file = file_of(plan);
  if (index == 2) file.push_back(0);
  if (index == 3) file.resize(file.size() + 5000);
  if (index == 4) file.pop_back();
  if (index > 4 && random.one_in(3)) file[random.below(std::uint32_t(file.size()))] = std::uint8_t(random.next());
  if (index > 4 && random.one_in(8)) file.resize(random.below(std::uint32_t(file.size())));
  return file;
}

}  // namespace

int main(int words, char **word) {
  if (words != 4) return 2;
  const std::string folder = word[1];
  const std::uint64_t count = std::strtoull(word[2], nullptr, 10), seed = std::strtoull(word[3], nullptr, 10);
  for (std::uint64_t i = 0; i < count; ++i) {
    Random random(seed * 0x2545f4914f6cdd1du + i);
    const auto file = some_file(random, i);
    std::ofstream(folder + "/" + std::to_string(i) + ".plan", std::ios::binary).write(reinterpret_cast<const char *>(file.data()), std::streamsize(file.size()));
    std::ofstream(folder + "/" + std::to_string(i) + ".says") << expected(file);
  }
}
