// How long reason lists are, what lies under their last line, and how long they take beside Judge: by the library (where linked) and in plain C++, on the same
// plans in one run. The plans are drawn about a hidden timetable, as the benchmark's are, and refused: barely, with the most slack with which they are, and
// plainly, with half of that.
#include <time.h>

#include <algorithm>
#include <functional>

#include "random.hpp"
#include "reasons.hpp"
#include "stack.hpp"
#include "sweep.hpp"

namespace {

constexpr std::size_t most_cells = 64 * 64;
std::int32_t strict[most_cells], open_cells[most_cells];
std::int64_t work[4 * most_cells];

// Time of this thread alone, so that other programs' turns do not count.
double microseconds_now() {
  timespec now;
  clock_gettime(CLOCK_THREAD_CPUTIME_ID, &now);
  return double(now.tv_sec) * 1e6 + double(now.tv_nsec) / 1e3;
}

// A plan of n points, k links and three limits a point, each limit the hidden difference and 250 to 1,000 thousandths of the slack. More slack never makes a
// controllable plan refused.
Plan plan_with(Random random, std::uint32_t n, std::uint32_t k, Wide slack) {
  Plan plan;
  plan.points = n;
  std::vector<Wide> hidden(n, 0);
  std::vector<std::uint32_t> ends;
  for (std::uint32_t x = 1; x < n; ++x) ends.push_back(x);
  for (std::uint32_t i = n - 1; i > 1; --i) std::swap(ends[i - 1], ends[random.below(i)]);
  ends.resize(k);
  for (std::uint32_t x = 1; x < n; ++x) {
    const std::uint32_t before = random.below(x);
    const Wide shortest = random.from_to(1, 60), longest = shortest + random.from_to(1, 60);
    hidden[x] = hidden[before] + shortest;
    if (std::find(ends.begin(), ends.end(), x) != ends.end()) plan.links.push_back({before, x, std::uint32_t(shortest), std::uint32_t(longest)});
  }
  while (plan.limits.size() < 3 * n) {
    const std::uint32_t from = random.below(n), to = random.below(n);
    plan.limits.push_back({from, to, hidden[to] - hidden[from] + slack * random.from_to(250, 1000) / 1000});
  }
  return plan;
}

bool is_refused(const Plan &plan) {
  const auto file = file_of(plan);
  return sweep::sound(file.data(), file.size()) == 0 && sweep::judge(file.data(), file.size(), strict, most_cells, open_cells, most_cells) == 11;
}

// The most slack with which this drawing is refused, or -1 where it never is.
Wide most_slack(const Random &random, std::uint32_t n, std::uint32_t k) {
  Wide refused = -1, taken = 100000;
  if (!is_refused(plan_with(random, n, k, 0))) return refused;
  for (refused = 0; taken - refused > 1;) {
    const Wide slack = (refused + taken) / 2;
    (is_refused(plan_with(random, n, k, slack)) ? refused : taken) = slack;
  }
  return refused;
}

struct Column {
  std::vector<double> numbers;
  void see(double number) { numbers.push_back(number); }
  double median() { return std::sort(numbers.begin(), numbers.end()), numbers[numbers.size() / 2]; }
  double most() const { return *std::max_element(numbers.begin(), numbers.end()); }
};

double time_of(const std::function<void()> &call) {  // the best of five
  double least = 0;
  for (int i = 0; i < 5; ++i) {
    const double began = microseconds_now();
    call();
    const double took = microseconds_now() - began;
    if (i == 0 || took < least) least = took;
  }
  return least;
}

struct Way {
  const char *name;
  decltype(&post_sound) sound;
  decltype(&post_judge) judge;
  decltype(&post_reasons) reasons;
};
const Way ways[] = {{"plain C++", sweep::sound, sweep::judge, sweep::reasons},
#ifdef WITH_LIBRARY
                    {"library", post_sound, post_judge, post_reasons},
#endif
};
constexpr std::size_t way_count = sizeof ways / sizeof ways[0];

struct Row {
  Column lines, sweeps, under, depth, judge[way_count], reasons[way_count];

  void see(const Plan &plan) {
    const reference::Reasons found = reference::reasons_of(plan);
    const std::size_t count = found.lines.size();
    std::vector<std::uint32_t> kinds(count), froms(count), tos(count), firsts(count), seconds(count), depths(count);
    std::vector<std::int64_t> weights(count);
    const auto file = file_of(plan);
    for (std::size_t way = 0; way < way_count; ++way) {
      std::uint64_t answer = 0;
      judge[way].see(time_of([&] { ways[way].judge(file.data(), file.size(), strict, most_cells, open_cells, most_cells); }));
      reasons[way].see(time_of([&] {
        answer = ways[way].reasons(file.data(), file.size(), kinds.data(), count, froms.data(), count, tos.data(), count, weights.data(), count,
                                   firsts.data(), count, seconds.data(), count, work, 4 * most_cells);
      }));
      const bool sound = ways[way].sound(file.data(), file.size()) == 0;  // the afternoon; how long it takes is for the benchmark
      if (!sound || answer != (std::uint64_t(count) << 32 | 11)) {
        std::printf("DIFFERENCE in %s, %s\n  plan: %s\n", sound ? "Reasons: not the reference's number of lines" : "Sound: a plan is refused", ways[way].name,
                    notation(plan).c_str());
        std::exit(1);
      }
    }
    for (std::size_t i = 0; i < count; ++i)
      depths[i] = kinds[i] < reference::strict_join ? 0 : 1 + std::max(depths[firsts[i]], depths[seconds[i]]);
    lines.see(double(count)), sweeps.see(found.sweeps), depth.see(depths.back());
    under.see(sweep::rests(kinds.data(), count, firsts.data(), count, seconds.data(), count, std::uint32_t(count - 1)));
  }
};

#ifdef WITH_LIBRARY
// Stack of Reasons for a refused plan of 64 points, of Rests for a line that rests on nothing, and for each line of a chain of first references: calls nest there.
void print_stack(std::uint64_t seed) {
  constexpr std::uint32_t most_lines = 65536, chain = 1000;
  static std::uint32_t kinds[most_lines], froms[most_lines], tos[most_lines], firsts[most_lines], seconds[most_lines];
  static std::int64_t weights[most_lines];
  const Random random(seed * 1000003 + 64 * 100000);
  const std::vector<std::uint8_t> file = file_of(plan_with(random, 64, 32, most_slack(random, 64, 32)));
  const std::size_t reasons = stack_of([&] {
    post_reasons(file.data(), file.size(), kinds, most_lines, froms, most_lines, tos, most_lines, weights, most_lines, firsts, most_lines, seconds,
                 most_lines, work, 4 * most_cells);
  });
  // By turns a strict join and an Upper, each naming the line before it: the two functions call each other at every line.
  for (std::uint32_t line = 0; line <= chain; ++line) kinds[line] = line % 2 ? 6 : 8, firsts[line] = line ? line - 1 : 0, seconds[line] = line;
  const auto rests = [&](std::uint32_t line) { return stack_of([&] { post_rests(kinds, chain + 1, firsts, chain + 1, seconds, chain + 1, line); }); };
  const std::size_t one = rests(0), all = rests(chain);
  std::printf("stack of the library, bytes: Reasons %zu; Rests %zu, and %zu for each line of a chain\n", reasons, one, (all - one) / chain);
}
#endif

}  // namespace

int main(int words, char **word) {
  Budget budget(words, word, 60);
  std::printf("reason lists of %llu refused plans a row; microseconds, the medians\n", static_cast<unsigned long long>(budget.count));
  std::printf("   n   k  refused       lines            sweeps  under the last line      depth ");
  for (const Way &way : ways) std::printf("  %-30s", way.name);
  std::printf("\n                       median    most     most     median    most       most ");
  for (std::size_t way = 0; way < way_count; ++way) std::printf("     Judge   Reasons    ratio  ");
  std::printf("\n");
  for (std::uint32_t n : {8u, 16u, 32u, 64u})
    for (bool barely : {true, false}) {
      Row row;
      for (std::uint64_t plan = 0, drawn = 0; drawn < budget.count; ++plan) {
        const Random random(budget.seed * 1000003 + n * 100000 + plan);
        const Wide slack = most_slack(random, n, n / 2);
        if (slack < 0) continue;
        row.see(plan_with(random, n, n / 2, barely ? slack : slack / 2));
        ++drawn;
      }
      std::printf("  %2u  %2u  %-8s  %7.0f %7.0f   %6.0f    %7.0f %7.0f    %7.0f ", n, n / 2, barely ? "barely" : "plainly", row.lines.median(),
                  row.lines.most(), row.sweeps.most(), row.under.median(), row.under.most(), row.depth.most());
      for (std::size_t way = 0; way < way_count; ++way)
        std::printf("  %8.1f  %8.1f  %7.1f  ", row.judge[way].median(), row.reasons[way].median(), row.reasons[way].median() / row.judge[way].median());
      std::printf("\n");
    }
#ifdef WITH_LIBRARY
  print_stack(budget.seed);
#endif
}
