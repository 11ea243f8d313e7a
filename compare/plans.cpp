// Random sound plans of all shapes through every call: Sound and Judge, Earliest, Check on the tables that Judge left, Add of a random limit to them.
#include <algorithm>

#include "fixed.hpp"
#include "hold.hpp"
#include "shapes.hpp"

namespace {

// Where every link is of fixed length, each lower-case edge weighs what an ordinary one does, so Judge's tables are the same.
void must_be_one_table(const Plan &plan, const Case &judged, const Budget &budget) {
  if (judged.strict == judged.open) return;
  std::printf("DIFFERENCE in Judge: every link is of fixed length, and the tables are not the same\n  plan: %s\n  strict %s, open %s\n",
              notation(plan).c_str(), notation(judged.strict, plan.points).c_str(), notation(judged.open, plan.points).c_str());
  budget.found();
}

}  // namespace

int main(int words, char **word) {
  Budget budget(words, word, 20000);
  Tally tally;
  std::uint64_t by_links[2][4] = {};  // verdicts by number of links: 0, 1, 2 to 4, more
  std::uint64_t large = 0, fixed = 0, one_table = 0;
  while (budget.more()) {
    Random random = budget.round();
    const Plan plan = random_plan(random);
    const auto file = file_of(plan);
    const std::size_t n = plan.points, k = plan.links.size();
    large += n > 12;
    fixed += some_link_fixed(plan);

    Case lent = lend(random, Call::judge, file, n);
    tally.count(hold_pair(lent, budget));
    if (k == 0 || random.one_in(8)) {
      lent = lend(random, Call::earliest, file, n);
      tally.count(Call::earliest, hold(lent, budget));
    }

    lent = lend(random, Call::judge, file, n, true);
    const std::uint64_t answer = hold_pair(lent, budget).judged;
    ++by_links[code_of(answer) == 0 ? 0 : 1][k == 0 ? 0 : k == 1 ? 1 : k < 5 ? 2 : 3];
    if (answer == 0 && all_links_fixed(plan)) must_be_one_table(plan, lent, budget), ++one_table;
    const auto with_tables = [&](Call call) {  // tables as Judge left them; rooms may be short or long
      Case next = lend(random, call, file, n);
      std::copy_n(lent.strict.begin(), std::min(lent.strict.size(), next.strict.size()), next.strict.begin());
      std::copy_n(lent.open.begin(), std::min(lent.open.size(), next.open.size()), next.open.begin());
      next.added = random_limit(random, plan);
      return next;
    };
    if (answer != 0 && !random.one_in(8)) continue;  // tables full of marks are never closed: a few of them will do
    Case next = with_tables(Call::check);
    tally.count(Call::check, hold(next, budget));
    next = with_tables(Call::add);
    tally.count(Call::add, hold(next, budget));
  }
  std::printf("plans: %llu random plans, %llu of them of more than 12 points, %.1f s, no difference\n",
              static_cast<unsigned long long>(budget.done), static_cast<unsigned long long>(large), budget.spent());
  std::printf("  links                          0         1    2 to 4    5 or more\n");
  for (int verdict = 0; verdict < 2; ++verdict)
    std::printf("  %-15s        %9llu %9llu %9llu %9llu\n", verdict ? "uncontrollable" : "controllable",
                static_cast<unsigned long long>(by_links[verdict][0]), static_cast<unsigned long long>(by_links[verdict][1]),
                static_cast<unsigned long long>(by_links[verdict][2]), static_cast<unsigned long long>(by_links[verdict][3]));
  std::printf("  with a link of fixed length: %llu plans; controllable with fixed links only, and both tables the same: %llu\n",
              static_cast<unsigned long long>(fixed), static_cast<unsigned long long>(one_table));
  tally.print();
  if (one_table > 0) return 0;
  std::printf("plans: none of %llu random plans had fixed links only and was controllable\n", static_cast<unsigned long long>(budget.done));
  return 1;
}
