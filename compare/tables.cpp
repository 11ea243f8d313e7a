// Tables of all sorts for Check and Add: closed ones that are a plan's own, closed ones of a stricter plan or with cells up to 63,000,000,
// closed ones with a cell or two moved, random ones, and those of a plan with two limits in the place of each link of fixed length.
#include <algorithm>

#include "fixed.hpp"
#include "hold.hpp"
#include "shapes.hpp"

namespace {

using Cells = std::vector<std::int32_t>;

struct Pair {
  bool there = false;
  Cells strict, open;
  Limit last = {0, 0, 0};  // the last limit that went in
};

Cells narrow(const std::vector<Wide> &table) {
  Cells cells;
  for (Wide cell : table) cells.push_back(cell == reference::none ? mark : std::int32_t(cell));
  return cells;
}

Pair tables_of(const Plan &plan, Wide heaviest) {
  const reference::Settled settled = reference::settle(plan, heaviest);
  Pair pair;
  if (!settled.controllable) return pair;
  for (const auto *table : {&settled.strict, &settled.open})
    for (Wide cell : *table)
      if (cell != reference::none && std::abs(cell) > closed_range) return pair;
  pair = {true, narrow(settled.strict), narrow(settled.open), {0, 0, 0}};
  return pair;
}

// The plan with more limits than its file has: its tables are closed for the file and are not the file's own. With `heavy` the limits go
// as far as cells may, so that sums of two of them leave the closed range.
Pair stricter_tables(Random &random, Plan plan, bool heavy) {
  for (std::uint32_t i = 1 + random.below(heavy ? 3 : plan.points + 1); i > 0; --i) {
    Limit limit = random_limit(random, plan);
    if (heavy) {
      limit.weight = closed_range - (random.one_in(2) ? 0 : random.from_to(0, random.one_in(2) ? most_weight : closed_range));
      if (random.one_in(2)) limit.from = 0;
      if (random.one_in(3)) limit = {limit.to, 0, -limit.weight};
    }
    plan.limits.push_back(limit);
  }
  Pair pair = tables_of(plan, heavy ? closed_range : most_weight);
  pair.last = plan.limits.back();
  return pair;
}

// A limit that goes on from a heavy one, forwards from a late end or back to an early one: its sum is apt to leave the range.
Limit further(Random &random, const Plan &plan, const Limit &heavy) {
  const std::uint32_t other = random.below(plan.points);
  const Wide weight = random.one_in(2) ? most_weight : random.from_to(0, most_weight);
  return heavy.weight > 0 ? Limit{heavy.to, other, weight} : Limit{other, heavy.from, -weight};
}

std::int32_t moved(Random &random, std::int32_t cell) {
  static const std::vector<std::int32_t> named = {mark,          mark - 1,          0,           -1,         1, closed_range, closed_range + 1, -closed_range,
                                                  -closed_range - 1, -2147483647 - 1, 1000000, -1000000};
  switch (random.below(4)) {
    case 0: return random.any_of(named);
    case 1: return cell == mark ? std::int32_t(random.from_to(-10, 10)) : std::int32_t(cell + random.from_to(-3, 3));
    default: return cell == mark ? closed_range : std::int32_t(random.one_in(2) ? cell + 1 : cell - 1);
  }
}

// Of the plan with limits in the place of its fixed links. Joins over these limits yield all that the links would but for Lower to their ends: the tables are
// closed unless that lowers a cell. Moving cells of closed tables hardly ever leads to such ones, for a fixed link's two points move together. So that there
// is something to lower, a link of the plan becomes one of fixed length and must end before another does.
Pair without_lower_to_fixed(Random &random, Plan &plan) {
  if (plan.links.size() > 1 && plan.limits.size() < most_limits) {
    Link &one = plan.links[random.below(std::uint32_t(plan.links.size()))];
    one.longest = one.shortest;
    const Link other = random.any_of(plan.links);
    if (other.contingent != one.contingent) plan.limits.push_back({other.contingent, one.contingent, -random.from_to(1, other.shortest)});
  }
  return tables_of(with_limits_for_fixed(plan), most_weight);
}

Pair random_tables(Random &random, std::size_t n) {
  Pair pair{true, Cells(n * n), Cells(n * n), {0, 0, 0}};
  const Wide scale = random.one_in(3) ? 3 : random.one_in(2) ? closed_range : 2147483647;
  for (Cells *cells : {&pair.strict, &pair.open})
    for (std::size_t i = 0; i < n * n; ++i) (*cells)[i] = i % (n + 1) == 0 ? 0 : random.one_in(3) ? mark : std::int32_t(random.from_to(-scale, scale));
  if (random.one_in(2)) pair.open = pair.strict;
  return pair;
}

}  // namespace

int main(int words, char **word) {
  Budget budget(words, word, 30000);
  Tally tally;
  std::uint64_t beyond = 0, by_lower_to_fixed = 0, kinds[6] = {};
  while (budget.more()) {
    Random random = budget.round();
    const bool large = random.one_in(60);
    Plan plan = random_plan(random, large ? most_points : 8);
    while (plan.limits.size() > 2 && random.one_in(2)) plan.limits.pop_back();  // fewer limits leave more room for other tables
    const std::uint32_t kind = random.below(6);
    if ((kind == 2 || kind == 3) && random.one_in(2)) plan.limits.resize(std::min<std::size_t>(plan.limits.size(), random.below(2)));
    Pair pair = kind == 0   ? tables_of(plan, most_weight)
                : kind == 1 ? stricter_tables(random, plan, false)
                : kind == 4 ? random_tables(random, plan.points)
                : kind == 5 ? without_lower_to_fixed(random, plan)
                            : stricter_tables(random, plan, true);
    if (kind == 1 && pair.there && random.one_in(2)) pair.strict = tables_of(plan, most_weight).strict;  // closed, and open lower than least
    if (!pair.there) pair = tables_of(plan, most_weight);
    if (!pair.there) continue;
    ++kinds[kind];
    bool as_made = true;
    if (random.one_in(2))
      for (std::uint32_t i = 1 + random.below(2); i > 0; --i, as_made = false) {
        Cells &cells = random.one_in(2) ? pair.strict : pair.open;
        std::int32_t &cell = cells[random.below(std::uint32_t(cells.size()))];
        cell = moved(random, cell);
      }
    const auto file = file_of(plan);
    for (Call call : {Call::check, Call::add}) {
      Case lent = lend(random, call, file, plan.points);
      std::copy_n(pair.strict.begin(), std::min(pair.strict.size(), lent.strict.size()), lent.strict.begin());
      std::copy_n(pair.open.begin(), std::min(pair.open.size(), lent.open.size()), lent.open.begin());
      lent.added = random_limit(random, plan);
      if (std::abs(pair.last.weight) > most_weight && random.one_in(2)) lent.added = further(random, plan, pair.last);
      else if (random.one_in(3)) lent.added.weight = random.one_in(2) ? most_weight : -most_weight;
      const std::uint64_t answer = hold(lent, budget);
      tally.count(call, answer);
      const bool refused = as_made && code_of(answer) == 12;
      beyond += call == Call::add && kind < 4 && refused;  // closed tables, so the result left the range
      by_lower_to_fixed += call == Call::check && kind == 5 && refused;
    }
  }
  std::printf("tables: %llu rounds, %.1f s, no difference; %llu results of Add beyond the range\n", static_cast<unsigned long long>(budget.done),
              budget.spent(), static_cast<unsigned long long>(beyond));
  std::printf("  tables: %llu a plan's own, %llu of a stricter plan, %llu with cells to the end of the range, %llu random\n",
              static_cast<unsigned long long>(kinds[0]), static_cast<unsigned long long>(kinds[1]),
              static_cast<unsigned long long>(kinds[2] + kinds[3]), static_cast<unsigned long long>(kinds[4]));
  std::printf("  and %llu of a plan with limits for its fixed links; %llu of these refused for Lower to the end of a fixed link alone\n",
              static_cast<unsigned long long>(kinds[5]), static_cast<unsigned long long>(by_lower_to_fixed));
  tally.print();
  if (by_lower_to_fixed > 0) return 0;
  std::printf("tables: in %llu rounds none were refused for Lower to the end of a fixed link alone\n", static_cast<unsigned long long>(budget.done));
  return 1;
}
