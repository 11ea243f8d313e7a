// What the verdict means, by brute force: for tiny plans a search through every way to run the night, from source document 001, section 2.1, with
// instantaneous reaction, held against the reference's verdict. Nothing of the rules is used in the search.
//
// The search is a game over whole-number times. At each time the surroundings first say which running links end now: any that has run for its
// shortest duration may, one that has run for its longest must. Then the plan's side, having seen that, puts any of the points that are its own at this
// same time. A link runs from when its activation is put, its shortest is at least 1, so nothing that is put now ends a link now and one
// such step a time is enough, zero-time reactions included. A dynamic strategy that is viable is exactly a way to win: what is put at a time
// depends on the links that ended at or before that time and on nothing else, and every limit must hold whatever the durations are.
//
// Point 0 is put at 0 (no link can have ended before it, so no strategy could place it by observation, and all the rest can be shifted).
// How late must be looked at: where no link runs, a wait longer than the heaviest number W in the plan can be cut to W: limits that ask for a
// distance ask for at most W, and the others only get looser. Where one runs, it ends within W. So with n points nothing happens after W (n - 1).
#include <algorithm>
#include <functional>

#include "fixed.hpp"
#include "random.hpp"
#include "reference.hpp"

namespace {

constexpr int heaviest = 4, most = 4, unset = -1, no_limit = 1000;

struct Tiny {  // a plan of at most four points, by point
  int n = 0;
  int limit[most][most];
  int activation[most], shortest[most], longest[most];

  explicit Tiny(const Plan &plan) : n(int(plan.points)) {
    for (auto &row : limit) std::fill_n(row, most, no_limit);
    std::fill_n(activation, most, unset);
    std::fill_n(shortest, most, 0);
    std::fill_n(longest, most, 0);
    for (const Limit &one : plan.limits) limit[one.from][one.to] = std::min(limit[one.from][one.to], int(one.weight));
    for (const Link &link : plan.links) {
      activation[link.contingent] = int(link.activation);
      shortest[link.contingent] = int(link.shortest);
      longest[link.contingent] = int(link.longest);
    }
  }

  bool contingent(int point) const { return activation[point] != unset; }

  bool limits_hold(const int *time) const {
    for (int x = 0; x < n; ++x)
      for (int y = 0; y < n; ++y)
        if (time[x] != unset && time[y] != unset && time[y] > time[x] + limit[x][y]) return false;
    return true;
  }
};

struct Night {
  const Tiny &plan;
  const bool reacts_at_once;  // false: what is put at a time may depend only on links that ended before it ("<" for "<=" in section 2.1)
  const int end;
  int time[most] = {unset, unset, unset, unset};

  Night(const Tiny &plan, bool reacts_at_once) : plan(plan), reacts_at_once(reacts_at_once), end((heaviest + !reacts_at_once) * (plan.n - 1)) {}

  bool won() { return reacts_at_once ? surroundings(0) : planner(0); }

  bool all_put() const { return std::count(time, time + plan.n, unset) == 0; }

  // A point not yet put comes after now; if a limit to it from a point that is put has run out by then, the night is lost.
  bool too_late(int now) const {
    for (int x = 0; x < plan.n; ++x)
      for (int y = 0; y < plan.n; ++y)
        if (time[x] != unset && time[y] == unset && time[x] + plan.limit[x][y] <= now) return true;
    return false;
  }

  bool won_by_waiting(int now) {
    if (all_put()) return true;
    return now < end && !too_late(now) && (reacts_at_once ? surroundings(now + 1) : planner(now + 1));
  }

  // Won whichever links end now?
  bool surroundings(int now) {
    unsigned may = 0, must = 0;
    for (int c = 0; c < plan.n; ++c) {
      if (!plan.contingent(c) || time[c] != unset || time[plan.activation[c]] == unset) continue;
      const int run = now - time[plan.activation[c]];
      if (run >= plan.shortest[c]) may |= 1u << c;
      if (run >= plan.longest[c]) must |= 1u << c;
    }
    for (unsigned ending = may;; ending = (ending - 1) & may) {
      if ((ending & must) == must) {
        put(ending, now);
        const bool won = plan.limits_hold(time) && (reacts_at_once ? planner(now) : won_by_waiting(now));
        put(ending, unset);
        if (!won) return false;
      }
      if (ending == 0) return true;
    }
  }

  // Won by putting some of the plan's own points now?
  bool planner(int now) {
    unsigned own = 0;
    for (int x = 0; x < plan.n; ++x)
      if (!plan.contingent(x) && time[x] == unset) own |= 1u << x;
    for (unsigned chosen = own;; chosen = (chosen - 1) & own) {
      if (now > 0 || (chosen & 1)) {
        put(chosen, now);
        const bool won = plan.limits_hold(time) && (reacts_at_once ? won_by_waiting(now) : surroundings(now));
        put(chosen, unset);
        if (won) return true;
      }
      if (chosen == 0) return false;
    }
  }

  void put(unsigned points, int at) {
    for (int x = 0; x < plan.n; ++x)
      if (points >> x & 1) time[x] = at;
  }
};

bool strategy_exists(const Plan &plan, bool reacts_at_once = true) {
  const Tiny tiny(plan);
  return Night(tiny, reacts_at_once).won();
}

// Calls `each` with every choice of durations until it answers false; says whether it never did.
bool for_all_durations(const Plan &plan, const std::function<bool(const std::vector<int> &)> &each, std::vector<int> chosen = {}) {
  if (chosen.size() == plan.links.size()) return each(chosen);
  const Link &link = plan.links[chosen.size()];
  for (std::uint32_t duration = link.shortest; duration <= link.longest; ++duration) {
    chosen.push_back(int(duration));
    if (!for_all_durations(plan, each, chosen)) return false;
    chosen.pop_back();
  }
  return true;
}

// Does every single choice of durations, known beforehand, leave a timetable?
bool every_choice_consistent(const Plan &plan) {
  return for_all_durations(plan, [&](const std::vector<int> &durations) {
    Plan known = {plan.points, plan.limits, {}};
    for (std::size_t i = 0; i < durations.size(); ++i) {
      known.limits.push_back({plan.links[i].activation, plan.links[i].contingent, durations[i]});
      known.limits.push_back({plan.links[i].contingent, plan.links[i].activation, -durations[i]});
    }
    return strategy_exists(known);
  });
}

// Is there one timetable of the plan's own points that does for all durations?
bool fixed_timetable_exists(const Plan &plan) {
  const Tiny tiny(plan);
  const int end = 2 * heaviest * (tiny.n - 1);  // distances asked for between own points: a limit's and a duration's
  std::vector<int> own;
  for (int x = 1; x < tiny.n; ++x)
    if (!tiny.contingent(x)) own.push_back(x);
  std::vector<int> at(own.size(), 0);
  for (;;) {
    const bool good = for_all_durations(plan, [&](const std::vector<int> &durations) {
      int time[most] = {0, unset, unset, unset};
      for (std::size_t i = 0; i < own.size(); ++i) time[own[i]] = at[i];
      for (int round = 0; round < tiny.n; ++round)  // links may hang on links
        for (std::size_t i = 0; i < durations.size(); ++i)
          if (time[plan.links[i].activation] != unset) time[plan.links[i].contingent] = time[plan.links[i].activation] + durations[i];
      return std::count(time, time + tiny.n, unset) == 0 && tiny.limits_hold(time);
    });
    if (good) return true;
    std::size_t i = 0;
    while (i < at.size() && at[i] == end) at[i++] = 0;
    if (i == at.size()) return false;
    ++at[i];
  }
}

bool contingent_activation(const Plan &plan) {
  for (const Link &link : plan.links)
    for (const Link &other : plan.links)
      if (link.activation == other.contingent) return true;
  return false;
}

// ---- the plans ----

// Limits anywhere, and limits about a link's end that a point of the plan's own can only meet, or just not meet, by reacting.
Plan random_tiny(Random &random) {
  Plan plan;
  plan.points = random.one_in(12) ? 2 : random.one_in(3) ? 3 : 4;
  const std::uint32_t links = random.one_in(10) ? 0 : 1 + random.below(plan.points == 4 ? 3 : 2);
  for (std::uint32_t i = 0; i < links; ++i) {
    const std::uint32_t a = random.below(plan.points), c = 1 + random.below(plan.points - 1);
    const bool taken = std::any_of(plan.links.begin(), plan.links.end(), [c](const Link &link) { return link.contingent == c; });
    if (a == c || taken) continue;
    const bool fixed = random.one_in(4);
    const std::uint32_t l = 1 + random.below(fixed ? heaviest : heaviest - 1), u = fixed ? l : l + 1 + random.below(heaviest - l);
    plan.links.push_back({a, c, l, u});
  }
  const auto limit = [&](std::uint32_t x, std::uint32_t y, Wide weight) {
    plan.limits.push_back({x, y, std::clamp<Wide>(weight, -heaviest, heaviest)});
  };
  for (std::uint32_t i = random.below(3); i > 0 && !plan.links.empty(); --i) {
    const std::uint32_t c = random.any_of(plan.links).contingent, x = 1 + random.below(plan.points - 1);
    const Wide after = random.from_to(-2, 2);
    if (x == c) continue;
    limit(c, x, after);
    limit(x, c, -after + random.from_to(0, 3));
  }
  for (std::uint32_t i = random.below(plan.points); i > 0; --i) {
    const std::uint32_t x = random.below(plan.points), y = random.below(plan.points);
    const Wide low = y == 0 || random.one_in(3) ? -heaviest : -1;
    if (x != y || random.one_in(20)) limit(x, y, random.from_to(x == y ? -1 : low, heaviest));
  }
  return plan;
}

// Every plan of two or three points with limits up to `up_to` either way and the given links, up to limits that change nothing or refuse every plan: at most
// one limit from a point to another, none looser than 0 to point 0, none from a point to itself.
template <class Each>
void every_plan(const std::vector<Link> &links, std::uint32_t points, int up_to, Each each) {
  std::vector<Limit> slots;
  for (std::uint32_t x = 0; x < points; ++x)
    for (std::uint32_t y = 0; y < points; ++y)
      if (x != y) slots.push_back({x, y, 0});
  std::vector<int> at(slots.size(), 0);  // 0: no limit there
  for (;;) {
    Plan plan = {points, {}, links};
    for (std::size_t i = 0; i < slots.size(); ++i)
      if (at[i] > 0) plan.limits.push_back({slots[i].from, slots[i].to, at[i] - 1 - up_to});
    each(plan);
    std::size_t i = 0;
    while (i < at.size() && at[i] == (slots[i].to == 0 ? up_to : 2 * up_to + 1)) at[i++] = 0;
    if (i == at.size()) return;
    ++at[i];
  }
}

// ---- counting ----

using reference::Altered;
const std::vector<std::pair<const char *, bool Altered::*>> alterations = {
    {"only the longest durations", &Altered::only_longest},
    {"only the shortest durations", &Altered::only_shortest},
    {"Upper reads the open table", &Altered::upper_reads_open},
    {"Upper without -l", &Altered::upper_without_shortest},
    {"Lower with R = C too", &Altered::lower_at_own_point},
    {"without Lower", &Altered::without_lower},
    {"Lower and Upper once, before the joins", &Altered::rules_once},
    {"Lower at any weight", &Altered::lower_at_any_weight},
    {"without Upper", &Altered::without_upper},
    {"without lower-case edges", &Altered::without_lower_case},
};

struct Counts {
  std::uint64_t plans = 0, controllable = 0, only_by_reacting = 0, uncontrollable = 0, though_consistent = 0;
  std::uint64_t chained_controllable = 0, chained_uncontrollable = 0, chained_only_by_reacting = 0, chained_though_consistent = 0;
  std::uint64_t fixed = 0, fixed_only_by_reacting = 0, fixed_uncontrollable = 0;  // plans with a link of fixed length
};

struct Found {
  std::uint64_t differences = 0;
  Plan plan;
};

[[noreturn]] void report(Plan plan, bool exists) {
  for (std::size_t i = plan.limits.size(); i > 0; --i) {
    Plan fewer = plan;
    fewer.limits.erase(fewer.limits.begin() + i - 1);
    if (strategy_exists(fewer) != reference::settle(fewer, most_weight).controllable) plan = fewer;
  }
  exists = strategy_exists(plan);
  std::printf("DIFFERENCE: %s\n  %s, the rules say %s\n", notation(plan).c_str(), exists ? "a strategy exists" : "no strategy exists",
              exists ? "uncontrollable" : "controllable");
  std::exit(1);
}

// Holds one plan; `exists` is what the search says.
bool held(const Plan &plan) {
  const bool exists = strategy_exists(plan);
  if (exists != reference::settle(plan, most_weight).controllable) report(plan, exists);
  return exists;
}

void count(Counts &counts, const Plan &plan, bool exists) {
  ++counts.plans;
  const bool chained = contingent_activation(plan), fixed = some_link_fixed(plan);
  counts.fixed += fixed;
  if (exists) {
    const bool reacting = !plan.links.empty() && !fixed_timetable_exists(plan);
    ++counts.controllable, counts.only_by_reacting += reacting;
    counts.chained_controllable += chained, counts.chained_only_by_reacting += chained && reacting;
    counts.fixed_only_by_reacting += fixed && reacting;
  } else {
    const bool consistent = every_choice_consistent(plan);
    ++counts.uncontrollable, counts.though_consistent += consistent;
    counts.chained_uncontrollable += chained, counts.chained_though_consistent += chained && consistent;
    counts.fixed_uncontrollable += fixed;
  }
}

unsigned long long figure(std::uint64_t number) { return number; }

struct Exhausted {
  std::uint64_t plans = 0, fixed = 0;  // `fixed`: with a link of fixed length
  void operator()(const Plan &plan) {
    held(plan);
    ++plans;
    fixed += some_link_fixed(plan);
  }
};

// Every link's durations with numbers up to `up_to`, fixed ones too.
template <class Each>
void every_span(std::uint32_t up_to, Each each) {
  for (std::uint32_t l = 1; l <= up_to; ++l)
    for (std::uint32_t u = l; u <= up_to; ++u) each(l, u);
}

void at_most_one_link(Exhausted &all) {
  for (std::uint32_t points : {2u, 3u}) every_plan({}, points, heaviest, std::ref(all));
  every_span(heaviest, [&](std::uint32_t l, std::uint32_t u) {
    every_plan({{0, 1, l, u}}, 2, heaviest, std::ref(all));
    for (std::uint32_t a : {0u, 2u}) every_plan({{a, 1, l, u}}, 3, heaviest, std::ref(all));
  });
}

// Two links from point 0, or the second from the first one's end; with `one_fixed` only where one of them or both are of fixed length.
// Two links in a ring are not looked at: neither can begin, and every such plan is refused.
void two_links(Exhausted &all, std::uint32_t up_to, bool one_fixed) {
  every_span(up_to, [&](std::uint32_t l, std::uint32_t u) {
    every_span(up_to, [&](std::uint32_t second_l, std::uint32_t second_u) {
      if (one_fixed && l < u && second_l < second_u) return;
      for (std::uint32_t a : {0u, 1u}) every_plan({{0, 1, l, u}, {a, 2, second_l, second_u}}, 3, int(up_to), std::ref(all));
    });
  });
}

int exhaust(bool long_pass) {
  Exhausted all;
  at_most_one_link(all);
  if (long_pass) two_links(all, heaviest, false);
  else two_links(all, 3, true);
  const char *what = long_pass ? "two links and numbers up to 4"
                               : "one link and numbers up to 4, and with two links, one of them or both of fixed length, and numbers up to 3";
  std::printf("strategies: every plan of two and three points with at most %s, up to names: %llu plans, %llu of them with a link of fixed length, no "
              "difference\n",
              what, figure(all.plans), figure(all.fixed));
  if (all.fixed == 0) std::printf("DIFFERENCE: no plan had a link of fixed length\n");
  return all.fixed == 0;
}

}  // namespace

// Arguments as the other programs'; or `exhaust short`, every plan of two and three points with at most one link, and those with two of which one or both
// are of fixed length, with smaller numbers; or `exhaust long`, with any two.
int main(int words, char **word) {
  if (words == 3 && !std::strcmp(word[1], "exhaust")) return exhaust(!std::strcmp(word[2], "long"));
  Budget budget(words, word, 20000);
  Counts counts;
  std::vector<Found> found(alterations.size());
  std::uint64_t lost_by_reacting_late = 0;
  while (budget.more()) {
    Random random = budget.round();
    const Plan plan = random_tiny(random);
    const bool exists = held(plan);
    count(counts, plan, exists);
    lost_by_reacting_late += exists && !strategy_exists(plan, false);
    for (std::size_t i = 0; i < alterations.size(); ++i) {
      Altered altered;
      altered.*alterations[i].second = true;
      // A floor well below what the rules reach here, so that the altered rules are judged and not the floor.
      if (reference::settle(plan, 1000, altered).controllable == exists) continue;
      Found &one = found[i];
      const auto size = [](const Plan &p) { return p.points * 10 + p.links.size() + p.limits.size(); };
      if (one.differences == 0 || size(plan) < size(one.plan)) one.plan = plan;
      ++one.differences;
    }
  }
  std::printf("strategies: %llu tiny plans searched, %.1f s, no difference from the rules\n", figure(counts.plans), budget.spent());
  std::printf("  controllable %llu, of these only by reacting %llu\n", figure(counts.controllable), figure(counts.only_by_reacting));
  std::printf("  uncontrollable %llu, of these though every choice of durations is consistent %llu\n", figure(counts.uncontrollable),
              figure(counts.though_consistent));
  std::printf("  with a contingent activation: controllable %llu (only by reacting %llu), uncontrollable %llu (though consistent %llu)\n",
              figure(counts.chained_controllable), figure(counts.chained_only_by_reacting), figure(counts.chained_uncontrollable),
              figure(counts.chained_though_consistent));
  std::printf("  with a link of fixed length: %llu plans, of these controllable only by reacting %llu, uncontrollable %llu\n", figure(counts.fixed),
              figure(counts.fixed_only_by_reacting), figure(counts.fixed_uncontrollable));
  std::printf("  controllable, but not for a side that reacts a second late: %llu\n", figure(lost_by_reacting_late));
  bool all = lost_by_reacting_late > 0 && counts.fixed_only_by_reacting > 0 && counts.fixed_uncontrollable > 0;
  for (std::size_t i = 0; i < alterations.size(); ++i) {
    std::printf("  rules altered, %-40s %7llu differences", alterations[i].first, figure(found[i].differences));
    if (found[i].differences > 0) std::printf(", as %s", notation(found[i].plan).c_str());
    std::printf("\n");
    all &= found[i].differences > 0;
  }
  if (!all)
    std::printf("DIFFERENCE: an alteration was not found out, or nothing hung on reacting at once, or with a fixed link no plan was controllable only by "
                "reacting or none uncontrollable\n");
  return all ? 0 : 1;
}
