// Sequences of additions in random orders with repeats, against one file with all that were taken (demand 3 of the library). Each Add is also held
// against the reference as it comes.
#include <algorithm>

#include "hold.hpp"
#include "shapes.hpp"

namespace {

// Every file here is a sound one, whether its plan is controllable or not.
Judged judge(const Calls &calls, const Plan &plan) { return judge_pair(calls, file_of(plan), plan.points); }

bool same_tables(const Judged &one, const Judged &other) { return one.answer == other.answer && one.strict == other.strict && one.open == other.open; }

std::uint64_t add(const Calls &calls, const std::vector<std::uint8_t> &file, const Limit &limit, Judged &tables) {
  std::vector<std::int64_t> scratch(2 * tables.strict.size());
  return calls.add(file.data(), file.size(), limit.from, limit.to, std::int32_t(limit.weight), tables.strict.data(), tables.strict.size(),
                   tables.open.data(), tables.open.size(), scratch.data(), scratch.size());
}

Plan with(Plan plan, const std::vector<Limit> &more) {
  plan.limits.insert(plan.limits.end(), more.begin(), more.end());
  return plan;
}

// What is wrong with the additions in this order, or nothing.
std::string trouble(const Calls &calls, const Plan &plan, const std::vector<Limit> &order) {
  Judged tables = judge(calls, plan);
  if (!tables.broken.empty() || tables.sound != 0) return "of the plan Sound says " + said(tables.sound) + ", Judge " + said(tables.answer);
  if (tables.answer != 0) return "";
  const auto file = file_of(plan);
  std::vector<Limit> taken;
  for (const Limit &limit : order) {
    const Judged before = tables;
    const std::uint64_t answer = add(calls, file, limit, tables);
    if (answer == 11) {
      if (!same_tables(tables, before)) return "a refused addition, " + notation(limit) + ", changed the tables";
      if (judge(calls, with(with(plan, taken), {limit})).answer != 11) return "the addition of " + notation(limit) + " is refused, the file with it is not";
    } else if (answer == 0) {
      taken.push_back(limit);
    } else {
      return "the addition of " + notation(limit) + " answers " + std::to_string(code_of(answer));
    }
  }
  if (!same_tables(judge(calls, with(plan, taken)), tables)) return "the tables are not those of the file with the limits that were taken";
  if ((judge(calls, with(plan, order)).answer == 0) != (taken.size() == order.size())) return "all were taken and the file with all is refused, or the other way round";
  Judged again = judge(calls, plan);
  for (std::size_t i = taken.size(); i > 0; --i)
    for (int repeat = 0; repeat < 2; ++repeat)
      if (add(calls, file, taken[i - 1], again) != 0) return "in the other order " + notation(taken[i - 1]) + " is refused";
  if (!same_tables(again, tables)) return "the other order, with repeats, ends in other tables";
  return "";
}

[[noreturn]] void report(Plan plan, std::vector<Limit> order, const Budget &budget) {
  bool smaller = true;
  while (smaller) {
    smaller = false;
    const auto try_without = [&](auto &list) {
      for (std::size_t i = list.size(); i > 0; --i) {
        const auto whole = list;
        list.erase(list.begin() + i - 1);
        if (trouble(linked_calls, plan, order).empty()) list = whole;
        else smaller = true;
      }
    };
    try_without(order);
    try_without(plan.limits);
    try_without(plan.links);
  }
  std::printf("DIFFERENCE in a sequence of additions: %s\n  plan: %s\n  added:", trouble(linked_calls, plan, order).c_str(), notation(plan).c_str());
  for (const Limit &limit : order) std::printf(" %s;", notation(limit).c_str());
  std::printf("\n");
  budget.found();
}

}  // namespace

int main(int words, char **word) {
  Budget budget(words, word, 5000);
  Tally tally;
  std::uint64_t sequences = 0, whole = 0;
  while (budget.more()) {
    Random random = budget.round();
    const Plan plan = random_plan(random, random.one_in(40) ? most_points : 10, most_limits - 40);
    const Judged judged = judge(linked_calls, plan);
    if (judged.answer == 11 && judged.sound == 0) continue;
    std::vector<Limit> some, order;
    for (std::uint32_t i = 1 + random.below(6); i > 0; --i) some.push_back(random_limit(random, plan));
    for (std::uint32_t i = 1 + random.below(2 * std::uint32_t(some.size())); i > 0; --i) order.push_back(random.any_of(some));
    if (!trouble(linked_calls, plan, order).empty()) report(plan, order, budget);
    ++sequences;

    // The same steps held against the reference.
    Case lent = lend(random, Call::judge, file_of(plan), plan.points, true);
    tally.count(hold_pair(lent, budget));
    bool all = true;
    for (const Limit &limit : order) {
      Case next = lend(random, Call::add, lent.file, plan.points, true);
      next.strict = lent.strict, next.open = lent.open, next.added = limit;
      const std::uint64_t answer = hold(next, budget);
      tally.count(Call::add, answer);
      all &= answer == 0;
      lent.strict = next.strict, lent.open = next.open;
    }
    whole += all;
  }
  std::printf("sequences: %llu of additions, %llu of them taken whole, from %llu plans, %.1f s, no difference\n",
              static_cast<unsigned long long>(sequences), static_cast<unsigned long long>(whole), static_cast<unsigned long long>(budget.done),
              budget.spent());
  tally.print();
}
