#include "drawn.hpp"

#include <algorithm>

#include "sweep.hpp"

Plan draw(Random &random, std::uint32_t n, std::uint32_t k) {
  std::vector<std::int32_t> strict(std::size_t(n) * n), open(strict.size());
  for (Wide slack = 20;; slack += 1 + slack / 50) {
    Plan plan;
    plan.points = n;
    std::vector<Wide> hidden(n, 0);
    std::vector<std::uint32_t> ends;
    for (std::uint32_t x = 1; x < n; ++x) ends.push_back(x);
    for (std::uint32_t i = n - 1; i > 1; --i) std::swap(ends[i - 1], ends[random.below(i)]);
    ends.resize(k);
    std::sort(ends.begin(), ends.end());
    for (std::uint32_t x = 1; x < n; ++x) {
      const std::uint32_t before = random.below(x);
      const Wide shortest = random.from_to(1, 60), longest = shortest + random.from_to(1, 60);
      hidden[x] = hidden[before] + shortest;
      if (std::binary_search(ends.begin(), ends.end(), x)) plan.links.push_back({before, x, std::uint32_t(shortest), std::uint32_t(longest)});
    }
    while (plan.limits.size() < 3 * n) {
      const std::uint32_t from = random.below(n), to = random.below(n);
      plan.limits.push_back({from, to, hidden[to] - hidden[from] + random.from_to(slack / 4, slack)});
    }
    const auto file = file_of(plan);
    if (sweep::sound(file.data(), file.size()) != 0) continue;
    if (sweep::judge(file.data(), file.size(), strict.data(), strict.size(), open.data(), open.size()) == 0) return plan;
  }
}
