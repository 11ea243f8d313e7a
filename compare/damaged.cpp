// Damaged files through every call, Judge behind Sound and Sound also by itself: each header field, each length, each record's fields, several damages at
// once, random bytes; with rooms short, needed and long, and with Add's own limit in and out of range, so that the order of the codes is held too.
#include <algorithm>

#include "hold.hpp"
#include "shapes.hpp"

namespace {

using File = std::vector<std::uint8_t>;

// Limits now and then far more than small plans have, so that a fault may lie deep in the file.
File base_file(Random &random, Plan &plan) {
  plan = random_plan(random, 6, 8, 4);
  if (random.one_in(50))
    for (std::uint32_t i = random.below(most_limits - 8); i > 0; --i) plan.limits.push_back({0, random.below(plan.points), most_weight});
  return file_of(plan);
}

// A field of Add's limit, which may be at the end of its range too.
void damage_added(Random &random, Limit &limit, std::uint32_t n) {
  switch (random.below(4)) {
    case 0: limit.from = edge_number(random, n); break;
    case 1: limit.to = edge_number(random, n); break;
    default: limit.weight = std::int32_t(edge_number(random, random.one_in(2) ? 1000000u : std::uint32_t(-1000000)));
  }
}

}  // namespace

int main(int words, char **word) {
  Budget budget(words, word, 100000);
  Tally tally;
  Fields fields;
  std::uint64_t refused = 0;
  while (budget.more()) {
    Random random = budget.round();
    Plan plan;
    File file = base_file(random, plan);
    for (std::uint32_t times = 1 + random.below(3); times > 0; --times) damage(random, file, plan.points);
    const Call call = static_cast<Call>(random.below(call_count));
    Case lent = lend(random, call, file, random.one_in(40) ? 64 : plan.points);
    lent.added = random_limit(random, plan);
    for (std::uint32_t times = random.one_in(4) ? 1 + random.below(3) : 0; times > 0; --times) damage_added(random, lent.added, plan.points);
    std::uint64_t answer;
    if (call == Call::judge) {
      const TwoAnswers answers = hold_pair(lent, budget);
      tally.count(answers);
      answer = answers.judged;
    } else {
      answer = hold(lent, budget);
      tally.count(call, answer);
    }
    fields.count(answer, field_at(file, 8));
    const std::uint32_t code = code_of(answer);
    refused += code >= 1 && code <= 8;
  }
  std::printf("damaged: %llu files, %llu of them refused as files, %.1f s, no difference\n", static_cast<unsigned long long>(budget.done),
              static_cast<unsigned long long>(refused), budget.spent());
  tally.print();
  const bool fields_came = fields.all_came("damaged files", true);
  return !(tally.calls[std::size_t(Call::sound)].all_came("damaged files, Sound", 8) && fields_came);
}
