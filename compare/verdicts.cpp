// The RUL- algorithm's verdict, and verdict and tables by spreading, held against the reference over random plans: other roads to the same
// verdict, and what shows that the benchmark measures working ones. And another plan with the same verdict: two limits in the place of a link of fixed
// length, at any size, where strategies.cpp reaches tiny plans only. Also counts on how many plans the edges that RUL- leaves already give document 01's
// tables.
#include "fixed.hpp"
#include "random.hpp"
#include "reference.hpp"
#include "rul.hpp"
#include "shapes.hpp"
#include "sweep.hpp"

namespace {

bool by_rul(const Plan &plan) {
  const auto file = file_of(plan);
  return rul::controllable(file.data(), file.size());
}

bool same(const std::vector<Wide> &table, const std::vector<std::int32_t> &cells) {
  for (std::size_t i = 0; i < table.size(); ++i)
    if ((table[i] == reference::none ? Wide(mark) : table[i]) != cells[i]) return false;
  return true;
}

// Spreading must give the verdict and both tables.
bool spreads(const Plan &plan, const reference::Settled &settled) {
  const auto file = file_of(plan);
  std::vector<std::int32_t> strict(plan.points * plan.points), open(strict);
  if (sweep::sound(file.data(), file.size()) != 0) return false;
  const auto answer = sweep::judge_by_spreading(file.data(), file.size(), strict.data(), strict.size(), open.data(), open.size());
  return settled.controllable ? answer == 0 && same(settled.strict, strict) && same(settled.open, open) : answer == 11;
}

// Limits in the place of fixed links must leave the verdict, for the reference and for RUL-. Tables are not compared, and fixed.hpp says why.
bool keeps_verdict(const Plan &plan, Ends replaced, bool controllable) {
  const Plan limits_for = with_limits_for_fixed(plan, replaced);
  return reference::settle(limits_for, most_weight).controllable == controllable && by_rul(limits_for) == controllable;
}

bool differs(const Plan &plan, Ends replaced) {
  const reference::Settled settled = reference::settle(plan, most_weight);
  if (by_rul(plan) != settled.controllable || !spreads(plan, settled)) return true;
  return some_link_fixed(plan) && !keeps_verdict(plan, replaced, settled.controllable);
}

const char *verdict(bool controllable) { return controllable ? "controllable" : "uncontrollable"; }

[[noreturn]] void report(Plan plan, Ends replaced, const Budget &budget) {
  for (bool smaller = true; smaller;) {
    smaller = false;
    const auto try_without = [&](auto &list) {
      for (std::size_t i = list.size(); i > 0; --i) {
        const auto whole = list;
        list.erase(list.begin() + i - 1);
        if (!differs(plan, replaced)) list = whole;
        else smaller = true;
      }
    };
    try_without(plan.limits);
    try_without(plan.links);
  }
  const reference::Settled settled = reference::settle(plan, most_weight);
  std::printf("DIFFERENCE: %s\n  RUL- says %s, the reference %s, spreading %s\n", notation(plan).c_str(), verdict(by_rul(plan)),
              verdict(settled.controllable), spreads(plan, settled) ? "the same with its tables" : "something else");
  const Plan limits_for = with_limits_for_fixed(plan, replaced);
  if (limits_for.links.size() < plan.links.size())
    std::printf("  %s\n  with limits for fixed links: RUL- says %s, the reference %s\n", notation(limits_for).c_str(), verdict(by_rul(limits_for)),
                verdict(reference::settle(limits_for, most_weight).controllable));
  budget.found();
}

}  // namespace

int main(int words, char **word) {
  Budget budget(words, word, 20000);
  std::uint64_t controllable = 0, strict_same = 0, open_same = 0, fixed[2] = {};  // `fixed`: with a link of fixed length, by verdict
  while (budget.more()) {
    Random random = budget.round();
    const Plan plan = random_plan(random);
    if (differs(plan, every_end)) report(plan, every_end, budget);
    const reference::Settled settled = reference::settle(plan, most_weight);
    if (some_link_fixed(plan)) {
      const Ends some = random.next();
      if (!keeps_verdict(plan, some, settled.controllable)) report(plan, some, budget);
      ++fixed[settled.controllable];
    }
    if (!settled.controllable || plan.links.empty()) continue;
    const auto file = file_of(plan);
    std::vector<std::int32_t> strict(plan.points * plan.points), open(strict);
    rul::controllable_with_tables(file.data(), file.size(), strict.data(), open.data());
    ++controllable, strict_same += same(settled.strict, strict), open_same += same(settled.open, open);
  }
  std::printf("verdicts: %llu random plans, RUL-, spreading and the reference agree, %.1f s\n", static_cast<unsigned long long>(budget.done), budget.spent());
  std::printf("  of %llu controllable plans with links its edges give the strict table of %llu and the open table of %llu\n",
              static_cast<unsigned long long>(controllable), static_cast<unsigned long long>(strict_same), static_cast<unsigned long long>(open_same));
  std::printf("  with limits in the place of some and of all fixed links the same verdict: %llu controllable plans, %llu uncontrollable\n",
              static_cast<unsigned long long>(fixed[true]), static_cast<unsigned long long>(fixed[false]));
  if (fixed[true] > 0 && fixed[false] > 0) return 0;
  std::printf("verdicts: of %llu random plans no controllable one, or no uncontrollable one, had a link of fixed length\n",
              static_cast<unsigned long long>(budget.done));
  return 1;
}
