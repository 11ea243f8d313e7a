// How many rounds of spreading Judge needs, and how many full sweeps it would need, counted by the plain C++ of both: of the plans that docs/SPEED.md names,
// which must need what it says, then over random plans of up to 12 points and 5 links, then of any size, and then by climbing, which changes a plan a little
// and keeps the change if it needs no fewer.
#include <algorithm>

#include "random.hpp"
#include "reference.hpp"
#include "shapes.hpp"
#include "sweep.hpp"

namespace {

struct Way {
  const char *counted;
  decltype(&sweep::judge) judge;
};
const Way by_rounds = {"rounds", sweep::judge_by_spreading}, by_sweeps = {"sweeps", sweep::judge};

struct Judged {
  unsigned sweeps;
  bool controllable;
};

Judged judge(const Way &way, const Plan &plan) {
  static std::int32_t strict[64 * 64], open[64 * 64];
  const auto file = file_of(plan);
  if (sweep::sound(file.data(), file.size()) != 0) {  // a climb would take it for a plan of no sweeps
    std::printf("sweeps: a plan was drawn whose file is not sound\n  plan: %s\n", notation(plan).c_str());
    std::exit(1);
  }
  const std::uint64_t answer = way.judge(file.data(), file.size(), strict, 64 * 64, open, 64 * 64);
  return {sweep::sweeps_of_last(), answer == 0};
}

struct Most {
  const Way &way;
  unsigned sweeps[2] = {0, 0};  // refused, controllable
  std::uint64_t plans[2] = {0, 0}, total[2] = {0, 0};
  Plan plan[2] = {};
  void see(const Plan &seen) {
    const Judged judged = judge(way, seen);
    const int verdict = judged.controllable;
    ++plans[verdict];
    total[verdict] += judged.sweeps;
    if (judged.sweeps > sweeps[verdict]) sweeps[verdict] = judged.sweeps, plan[verdict] = seen;
  }
  void print(const char *what) const {
    for (int verdict : {1, 0}) {
      std::printf("  %s, %s: %llu plans, most %s %u, on average %.2f\n", what, verdict ? "controllable" : "uncontrollable",
                  static_cast<unsigned long long>(plans[verdict]), way.counted, sweeps[verdict],
                  plans[verdict] ? double(total[verdict]) / double(plans[verdict]) : 0.0);
      if (plan[verdict].points <= 12) std::printf("    %s\n", notation(plan[verdict]).c_str());
    }
  }
};

// One small change that keeps the plan sound.
Plan changed(Random &random, Plan plan) {
  const auto point = [&] { return random.below(plan.points); };
  const Wide step = random.one_in(2) ? 1 : random.from_to(1, 20);
  switch (random.below(6)) {
    case 0:
      if (plan.limits.size() < 40) plan.limits.push_back({point(), point(), random.from_to(-12, 24)});
      break;
    case 1:
      if (!plan.limits.empty()) plan.limits.erase(plan.limits.begin() + random.below(std::uint32_t(plan.limits.size())));
      break;
    case 2: case 3:
      if (!plan.limits.empty()) {
        Wide &weight = plan.limits[random.below(std::uint32_t(plan.limits.size()))].weight;
        weight = std::clamp(weight + (random.one_in(2) ? step : -step), -most_weight, most_weight);
      }
      break;
    case 4:
      if (!plan.links.empty()) {
        Link &link = plan.links[random.below(std::uint32_t(plan.links.size()))];
        const Wide shortest = std::max<Wide>(1, link.shortest + random.from_to(-2, 2));
        const Wide longest = std::max(shortest, link.longest + random.from_to(-step, step));
        link.shortest = std::uint32_t(std::min(shortest, most_weight)), link.longest = std::uint32_t(std::min(longest, most_weight));
      }
      break;
    default:
      if (!plan.links.empty()) {
        Link &link = plan.links[random.below(std::uint32_t(plan.links.size()))];
        const std::uint32_t activation = point();
        if (activation != link.contingent) link.activation = activation;
      }
  }
  return plan;
}

Plan start(Random &random, std::uint32_t n, std::uint32_t k) {
  Plan plan;
  plan.points = n;
  for (std::uint32_t i = 0; i < k; ++i) {
    const std::uint32_t end = n - 1 - i, shortest = 1 + random.below(5), spread = random.one_in(6) ? 0 : 1 + random.below(20);
    plan.links.push_back({random.below(n - k), end, shortest, shortest + spread});
  }
  for (std::uint32_t i = 0; i < 2 * k; ++i) plan.limits.push_back({random.below(n), random.below(n), random.from_to(-6, 24)});
  return plan;
}

// The most that climbing finds for a verdict.
void climb(const Way &way, const Budget &budget, std::uint32_t n, std::uint32_t k, bool controllable, int starts, int steps) {
  Plan best;
  unsigned most = 0;
  Random random(budget.seed * 7919 + n * 64 + k * 2 + controllable);
  for (int i = 0; i < starts; ++i) {
    Plan plan = start(random, n, k);
    unsigned here = judge(way, plan).controllable == controllable ? judge(way, plan).sweeps : 0;
    for (int step = 0; step < steps; ++step) {
      Plan next = changed(random, plan);
      for (int more = random.below(3); more > 0; --more) next = changed(random, next);
      const Judged judged = judge(way, next);
      const unsigned there = judged.controllable == controllable ? judged.sweeps : 0;
      if (there >= here) plan = next, here = there;
    }
    if (here > most) most = here, best = plan;
  }
  std::printf("  climbing, %2u points and %u links, %s: most %s %u\n    %s\n", n, k, controllable ? "controllable" : "uncontrollable", way.counted, most,
              notation(best).c_str());
  if (reference::settle(best, most_weight).controllable != controllable) {
    std::printf("DIFFERENCE: the reference has another verdict on this plan\n");
    std::exit(1);
  }
}

// Plans of which docs/SPEED.md says how many rounds and sweeps they take.
struct Named {
  const char *what;
  Plan plan;
  bool controllable;
  unsigned rounds, sweeps;
};
const Named named[] = {
    // Climbing stops at one round above the number of links; nothing in the rules does.
    {"two rounds above its 4 links", {9, {{1, 4, 70}, {4, 1, -52}, {2, 6, 5}, {5, 8, 40}}, {{5, 6, 3, 40}, {2, 3, 1, 10}, {3, 4, 1, 10}, {7, 8, 3, 103}}}, true, 6, 6},
    {"strict cells that fall for ever", {4, {{2, 3, -3}}, {{3, 2, 1, 7}, {0, 1, 2, 7}}}, false, 0, 1},
};

void count_named() {
  for (const Named &one : named) {
    const Judged rounds = judge(by_rounds, one.plan), sweeps = judge(by_sweeps, one.plan);
    std::printf("  %s: %s, rounds %u, sweeps %u\n    %s\n", one.what, rounds.controllable ? "controllable" : "uncontrollable", rounds.sweeps, sweeps.sweeps,
                notation(one.plan).c_str());
    const bool verdict = reference::settle(one.plan, most_weight).controllable;
    if (rounds.sweeps == one.rounds && sweeps.sweeps == one.sweeps && rounds.controllable == one.controllable && sweeps.controllable == one.controllable &&
        verdict == one.controllable)
      continue;
    std::printf("DIFFERENCE: docs/SPEED.md has %s, rounds %u, sweeps %u of this plan\n", one.controllable ? "controllable" : "uncontrollable", one.rounds, one.sweeps);
    std::exit(1);
  }
}

}  // namespace

int main(int words, char **word) {
  Budget budget(words, word, 30000);
  count_named();
  Most small[] = {{by_rounds}, {by_sweeps}}, any[] = {{by_rounds}, {by_sweeps}};
  while (budget.more()) {
    Random random = budget.round();
    Plan plan = random_plan(random, 12, most_limits, 5);
    for (Most &most : small) most.see(plan);
    if (budget.done % 10 != 0) continue;
    plan = random_plan(random);
    for (Most &most : any) most.see(plan);
    for (int i = 0; i < 20 && plan.points < 30; ++i) plan = random_plan(random);  // large ones are rare among the shapes
    for (Most &most : any) most.see(plan);
  }
  std::printf("sweeps: %.1f s\n", budget.spent());
  for (const Most &most : small) most.print("up to 12 points and 5 links");
  for (const Most &most : any) most.print("up to 64 points and 32 links");
  const int starts = int(std::min<std::uint64_t>(40, 2 + budget.done / 10000)), steps = 4000;
  for (std::uint32_t k : {2u, 3u, 4u, 5u, 6u})
    for (bool controllable : {true, false})
      for (const Way *way : {&by_rounds, &by_sweeps}) climb(*way, budget, 2 * k + 2, k, controllable, starts, steps);
}
