// How long Judge, Check, Add and Write take, on the same plans in one run: the library (where linked), the sweep, the library's own way and a writer
// in plain C++, source document 001's RUL- algorithm for the verdict alone and with the two tables that a post would still need, and Boost's
// Floyd-Warshall on plans without links. Sound, and what it adds to Judge where both are asked; Earliest. And reach words: the update after Add beside
// building them afresh.
// A repeat times every contestant once, one after the other, so that a slow moment falls on all; ratios are taken within a repeat.
#include <time.h>

#include <algorithm>
#include <boost/graph/adjacency_list.hpp>
#include <boost/graph/floyd_warshall_shortest.hpp>
#include <functional>
#include <string>
#include <utility>

#include "drawn.hpp"
#include "lists.hpp"
#include "plan.hpp"
#include "post.h"
#include "random.hpp"
#include "rul.hpp"
#include "stack.hpp"
#include "sweep.hpp"

namespace {

constexpr std::size_t most_cells = 64 * 64;

// Time of this thread alone, so that other programs' turns do not count.
double microseconds_now() {
  timespec now;
  clock_gettime(CLOCK_THREAD_CPUTIME_ID, &now);
  return double(now.tv_sec) * 1e6 + double(now.tv_nsec) / 1e3;
}

struct Prepared {
  std::vector<std::uint8_t> file;
  std::size_t cells;
  std::vector<std::int32_t> strict, open;  // as Judge leaves them
  Limit added;                             // a limit that Add takes
  Lists lists;
  Places at;  // of the lists, so that what is timed is the call alone; a Prepared is moved and never copied
  mutable std::vector<std::uint64_t> words;  // updated where they stand, so that no copy is timed: after the first update they stay as they are
};

std::int32_t strict[most_cells], open_cells[most_cells], times[most_points];
std::int64_t scratch[2 * most_cells];
std::uint8_t buffer[24 + 12 * most_limits + 16 * most_links];
std::uint64_t built[most_points];
volatile std::uint64_t seen;  // keeps the calls from being left out

// ---- plans ----

// The largest plan there is; only Write and Sound are timed on it, so nobody asks whether it is controllable.
Plan draw_largest(Random &random) {
  Plan plan;
  plan.points = most_points;
  while (plan.limits.size() < most_limits) {
    const std::uint32_t from = random.below(most_points), to = random.below(most_points);
    plan.limits.push_back({from, to, random.from_to(-most_weight, most_weight)});
  }
  for (std::uint32_t end = 1; end <= most_links; ++end) {
    const std::uint32_t shortest = 1 + random.below(1000), longest = shortest + 1 + random.below(1000);
    plan.links.push_back({random.below(end), end, shortest, longest});
  }
  return plan;
}

// As much of a plan as Write and Sound are lent.
Prepared prepare_lists(const Plan &plan) {
  Prepared prepared;
  prepared.file = file_of(plan);
  prepared.lists = lists_of(plan);
  prepared.at = places_of(prepared.lists);
  return prepared;
}

Prepared prepare(Random &random, const Plan &plan) {
  Prepared prepared = prepare_lists(plan);
  prepared.cells = std::size_t(plan.points) * plan.points;
  sweep::judge(prepared.file.data(), prepared.file.size(), strict, most_cells, open_cells, most_cells);
  prepared.strict.assign(strict, strict + prepared.cells);
  prepared.open.assign(open_cells, open_cells + prepared.cells);
  for (int tries = 0;; ++tries) {  // one that tightens something and is taken; any that is taken if none does
    const std::uint32_t from = random.below(plan.points), to = random.below(plan.points);
    const std::int32_t cell = prepared.strict[from * plan.points + to];
    if (from == to || cell == mark) continue;
    prepared.added = {from, to, std::clamp<Wide>(tries < 200 ? cell - 1 : cell, -most_weight, most_weight)};
    std::copy(prepared.strict.begin(), prepared.strict.end(), strict);
    std::copy(prepared.open.begin(), prepared.open.end(), open_cells);
    if (sweep::add(prepared.file.data(), prepared.file.size(), from, to, std::int32_t(prepared.added.weight), strict, prepared.cells, open_cells,
                   prepared.cells, scratch, 2 * prepared.cells) == 0)
      return prepared;
  }
}

// For reach words: n points and n limits, none of them below 0, so that the plan is controllable and not every point bounds every other; and a limit
// between points of which the first does not bound the second.
Prepared prepare_words(Random &random, std::uint32_t n) {
  Plan plan;
  plan.points = n;
  while (plan.limits.size() < n) {
    const std::uint32_t from = random.below(n), to = random.below(n);
    plan.limits.push_back({from, to, random.from_to(0, 1000)});
  }
  Prepared prepared;
  prepared.file = file_of(plan);
  prepared.cells = std::size_t(n) * n;
  sweep::judge(prepared.file.data(), prepared.file.size(), strict, most_cells, open_cells, most_cells);
  prepared.strict.assign(strict, strict + prepared.cells);
  prepared.words.resize(n);
  sweep::reach(n, strict, most_cells, prepared.words.data(), n);
  for (int tries = 0; tries < 1000; ++tries) {
    const std::uint32_t from = random.below(n), to = random.below(n);
    prepared.added = {from, to, 0};
    if (prepared.strict[from * n + to] == mark) break;
  }
  return prepared;
}

// ---- contestants ----

struct Contestant {
  std::string name;
  std::function<void(const Prepared &)> call;
};

template <class Judge>
Contestant judging(const char *name, Judge judge) {
  return {name, [judge](const Prepared &p) { seen = judge(p.file.data(), p.file.size(), strict, p.cells, open_cells, p.cells); }};
}

template <class Sound>
Contestant sounding(const char *name, Sound sound) {
  return {name, [sound](const Prepared &p) { seen = sound(p.file.data(), p.file.size()); }};
}

template <class Sound, class Judge>
Contestant sounding_and_judging(const char *name, Sound sound, Judge judge) {
  return {name, [sound, judge](const Prepared &p) {
            seen = sound(p.file.data(), p.file.size());
            seen = judge(p.file.data(), p.file.size(), strict, p.cells, open_cells, p.cells);
          }};
}

template <class Earliest>
Contestant timing(const char *name, Earliest earliest) {
  return {name, [earliest](const Prepared &p) {
            seen = earliest(p.file.data(), p.file.size(), strict, p.cells, open_cells, p.cells, times, most_points);
          }};
}

template <class Check>
Contestant checking(const char *name, Check check) {
  return {name, [check](const Prepared &p) { seen = check(p.file.data(), p.file.size(), p.strict.data(), p.cells, p.open.data(), p.cells); }};
}

template <class Add>
Contestant adding(const char *name, Add add) {
  return {name, [add](const Prepared &p) {
            std::copy(p.strict.begin(), p.strict.end(), strict);
            std::copy(p.open.begin(), p.open.end(), open_cells);
            seen = add(p.file.data(), p.file.size(), p.added.from, p.added.to, std::int32_t(p.added.weight), strict, p.cells, open_cells, p.cells,
                       scratch, 2 * p.cells);
          }};
}

template <class Write>
Contestant writing(const char *name, Write write) {
  return {name, [write](const Prepared &p) { seen = write_lists(write, p.lists, p.at, buffer, sizeof buffer); }};
}

template <class Reach>
Contestant building(const char *name, Reach reach) {
  return {name, [reach](const Prepared &p) { seen = reach(std::uint32_t(p.words.size()), p.strict.data(), p.cells, built, most_points); }};
}

template <class ReachAdd>
Contestant updating(const char *name, ReachAdd reach_add) {
  return {name, [reach_add](const Prepared &p) {
            seen = reach_add(std::uint32_t(p.words.size()), p.added.from, p.added.to, p.words.data(), p.words.size());
          }};
}

// Boost's Floyd-Warshall as its manual has it: an adjacency list with weights, built from the file, and a matrix of distances.
void boost_floyd_warshall(const Prepared &p) {
  using Graph = boost::adjacency_list<boost::vecS, boost::vecS, boost::directedS, boost::no_property, boost::property<boost::edge_weight_t, int>>;
  const std::size_t n = field_at(p.file, 4), m = field_at(p.file, 8);
  Graph graph(n);
  for (std::size_t i = 0; i < m; ++i)
    boost::add_edge(field_at(p.file, 24 + 12 * i), field_at(p.file, 28 + 12 * i), int(field_at(p.file, 32 + 12 * i)), graph);
  for (std::size_t x = 0; x < n; ++x) boost::add_edge(x, 0, 0, graph);
  static std::vector<std::vector<int>> distance(64, std::vector<int>(64));
  seen = boost::floyd_warshall_all_pairs_shortest_paths(graph, distance);
}

// ---- measuring ----

struct Figures {
  std::vector<double> microseconds;  // one a repeat
  double median() const {
    auto sorted = microseconds;
    std::sort(sorted.begin(), sorted.end());
    return sorted[sorted.size() / 2];
  }
};

double time_of(const Contestant &contestant, const std::vector<Prepared> &plans, int rounds) {
  const double began = microseconds_now();
  for (int i = 0; i < rounds; ++i)
    for (const Prepared &prepared : plans) contestant.call(prepared);
  return (microseconds_now() - began) / double(rounds) / double(plans.size());
}

// Microseconds or a ratio, with more digits where it is small.
std::string figure(double value) {
  char text[40];
  std::snprintf(text, sizeof text, value < 0.1 ? "%.4f" : "%.2f", value);
  return text;
}

// One table for each call, printed as Markdown at the end.
struct Report {
  std::string call;
  std::vector<std::string> columns;  // what a row says about its plans
  std::string rows;
  std::vector<std::string> names;
};

// Times the contestants, the first being the measure of the others, and adds a row. A contestant that sits a row out has no call.
void measure(Report &report, const std::string &plans_are, const std::vector<Contestant> &contestants, const std::vector<Prepared> &plans,
             int repeats) {
  std::vector<Figures> figures(contestants.size());
  std::vector<int> rounds(contestants.size());
  const auto plays = [&](std::size_t i) { return bool(contestants[i].call); };
  for (std::size_t i = 0; i < contestants.size(); ++i)
    if (plays(i)) rounds[i] = std::max(1, int(4000 / (time_of(contestants[i], plans, 1) * double(plans.size()))));
  for (int repeat = 0; repeat < repeats; ++repeat)
    for (std::size_t i = 0; i < contestants.size(); ++i)
      if (plays(i)) figures[i].microseconds.push_back(time_of(contestants[i], plans, rounds[i]));
  report.names.clear();
  report.rows += "| " + plans_are;
  for (std::size_t i = 0; i < contestants.size(); ++i) {
    report.names.push_back(contestants[i].name);
    std::string cell;
    if (plays(i)) {
      Figures ratio;
      for (std::size_t repeat = 0; repeat < figures[i].microseconds.size(); ++repeat)
        ratio.microseconds.push_back(figures[i].microseconds[repeat] / figures[0].microseconds[repeat]);
      const auto ends = std::minmax_element(ratio.microseconds.begin(), ratio.microseconds.end());
      cell = figure(figures[i].median());
      if (i > 0) cell += " x" + figure(ratio.median()) + " (" + figure(*ends.first) + "-" + figure(*ends.second) + ")";
    }
    report.rows += " | " + cell;
  }
  report.rows += " |\n";
}

void print(const Report &report) {
  std::printf("\n%s\n\n", report.call.c_str());
  for (const auto *names : {&report.columns, &report.names})
    for (const std::string &name : *names) std::printf("| %s ", name.c_str());
  std::printf("|\n");
  for (std::size_t i = 0; i < report.columns.size() + report.names.size(); ++i) std::printf("|--");
  std::printf("|\n%s", report.rows.c_str());
}

// ---- stack ----

// By the calls alone: a contestant has frames of its own.
void print_stack(const char *name, decltype(&post_sound) sound, decltype(&post_judge) judge, decltype(&post_check) check, decltype(&post_add) add,
                 decltype(&post_write) write, const Prepared &p) {
  const std::size_t sounding = stack_of([&] { seen = sound(p.file.data(), p.file.size()); });
  const std::size_t judging = stack_of([&] { seen = judge(p.file.data(), p.file.size(), strict, p.cells, open_cells, p.cells); });  // Add's tables
  std::printf("  %-10s Sound %zu, Judge %zu, Check %zu, Add %zu, Write %zu\n", name, sounding, judging,
              stack_of([&] { seen = check(p.file.data(), p.file.size(), p.strict.data(), p.cells, p.open.data(), p.cells); }), stack_of([&] {
                seen = add(p.file.data(), p.file.size(), p.added.from, p.added.to, std::int32_t(p.added.weight), strict, p.cells, open_cells, p.cells,
                           scratch, 2 * p.cells);
              }),
              stack_of([&] { seen = write_lists(write, p.lists, p.at, buffer, sizeof buffer); }));
}

void print_stacks(const Prepared &p) {
  std::printf("\nBytes of stack a call touches, at n 64 and k 32\n\n");
  print_stack("plain C++", sweep::sound, sweep::judge, sweep::check, sweep::add, sweep::write, p);
#ifdef WITH_LIBRARY
  print_stack("library", post_sound, post_judge, post_check, post_add, post_write, p);
#endif
}

// ---- the pair, and Earliest ----

// Twelve plans of n points and k links.
std::vector<Prepared> prepare_row(std::uint64_t seed, std::uint32_t n, std::uint32_t k) {
  Random random = row_of(seed, n, k);
  std::vector<Prepared> plans;
  for (int i = 0; i < 12; ++i) {
    const Plan plan = draw(random, n, k);
    plans.push_back(prepare(random, plan));
  }
  return plans;
}

std::vector<Prepared> prepare_largest(std::uint64_t seed) {
  Random random(seed);
  std::vector<Prepared> plans;
  for (int i = 0; i < 12; ++i) plans.push_back(prepare_lists(draw_largest(random)));
  return plans;
}

// Sound by itself, also on the largest files, and before Judge; and Earliest, where there are no links.
void measure_pair(const Budget &budget, int repeats) {
  std::vector<Contestant> sounds = {sounding("plain C++", sweep::sound)}, earliests = {timing("plain C++", sweep::earliest)}, pair;
#ifdef WITH_LIBRARY
  sounds.push_back(sounding("library", post_sound));
  earliests.push_back(timing("library", post_earliest));
  pair = {judging("Judge alone", post_judge), sounding_and_judging("Sound and then Judge", post_sound, post_judge)};
  const char *const by = "The pair beside Judge alone, by the library";
#else
  pair = {judging("Judge alone", sweep::judge), sounding_and_judging("Sound and then Judge", sweep::sound, sweep::judge)};
  const char *const by = "The pair beside Judge alone, in plain C++";
#endif
  const std::vector<std::string> columns = {"n", "m", "k"};
  Report sound_report{"Sound", columns, "", {}}, pair_report{by, columns, "", {}}, earliest_report{"Earliest", columns, "", {}};
  const auto row = [](std::uint32_t n, std::uint32_t m, std::uint32_t k) { return std::to_string(n) + " | " + std::to_string(m) + " | " + std::to_string(k); };
  std::vector<Prepared> last;
  for (std::uint32_t n : {8u, 16u, 32u, 64u})
    for (std::uint32_t k : {0u, n / 4, n / 2}) {
      const std::string plans_are = row(n, 3 * n, k);
      last = prepare_row(budget.seed, n, k);
      measure(sound_report, plans_are, sounds, last, repeats);
      measure(pair_report, plans_are, pair, last, repeats);
      if (k == 0) measure(earliest_report, plans_are, earliests, last, repeats);
    }
  measure(sound_report, row(most_points, most_limits, most_links), sounds, prepare_largest(budget.seed), repeats);
  std::printf("\nThe pair and Earliest: 12 controllable plans a row, and for Sound 12 of the most limits and links; x: the ratio to the first column of times in\n"
              "the same repeat.\n");
  for (const Report *report : {&sound_report, &pair_report, &earliest_report}) print(*report);
  print_stacks(last[0]);
}

// ---- reach words ----

void print_words_stack(const char *name, decltype(&post_reach) reach, decltype(&post_bounded) bounded, decltype(&post_both) both,
                       decltype(&post_reach_add) reach_add, const Prepared &p) {
  static std::uint32_t numbers[3];
  const auto n = std::uint32_t(p.words.size());
  std::printf("  %-10s Reach %zu, Bounded %zu, Both %zu, Reach after Add %zu\n", name,
              stack_of([&] { seen = reach(n, p.strict.data(), p.cells, built, most_points); }),
              stack_of([&] { seen = bounded(n, p.words.data(), n, n - 1, numbers, 3); }),
              stack_of([&] { seen = both(n, p.words.data(), n, 0, n - 1, built, 1); }),
              stack_of([&] { seen = reach_add(n, p.added.from, p.added.to, p.words.data(), n); }));
}

// The update after Add beside building afresh, by the library and in plain C++, and building by both.
void measure_words(const Budget &budget, int repeats) {
  const std::vector<std::string> columns = {"n", "points that a point bounds", "words that are updated"};
  std::vector<std::pair<Report, std::vector<Contestant>>> tables;
  std::vector<Contestant> builds = {building("plain C++", sweep::reach)};
#ifdef WITH_LIBRARY
  builds.push_back(building("library", post_reach));
  tables.push_back({{"Reach after Add by the library, beside building afresh", columns, "", {}}, {building("afresh", post_reach), updating("updated", post_reach_add)}});
#endif
  tables.push_back({{"Reach after Add in plain C++, beside building afresh", columns, "", {}}, {building("afresh", sweep::reach), updating("updated", sweep::reach_add)}});
  tables.push_back({{"Reach", columns, "", {}}, builds});
  std::vector<Prepared> largest;
  for (std::uint32_t n : {8u, 16u, 32u, 64u}) {
    Random random = row_of(budget.seed, n, 0);
    std::vector<Prepared> plans;
    unsigned bounded = 0, updated = 0;
    for (int i = 0; i < 12; ++i) {
      plans.push_back(prepare_words(random, n));
      for (std::uint64_t word : plans.back().words) {
        for (std::uint32_t y = 0; y < n; ++y) bounded += word >> y & 1;
        updated += word >> plans.back().added.from & 1;
      }
    }
    char plans_are[80];
    std::snprintf(plans_are, sizeof plans_are, "%u | %.1f | %.1f", n, bounded / 12.0 / n, updated / 12.0);
    for (auto &[report, contestants] : tables) measure(report, plans_are, contestants, plans, repeats);
    largest = std::move(plans);
  }
  std::printf("\nReach words: 12 plans of n limits a row; x: the ratio to the first column of times in the same repeat. The words take 8 n bytes.\n");
  for (const auto &[report, contestants] : tables) print(report);
  std::printf("\nBytes of stack that a call on words touches, at n 64\n\n");
  print_words_stack("plain C++", sweep::reach, sweep::bounded, sweep::both, sweep::reach_add, largest[0]);
#ifdef WITH_LIBRARY
  print_words_stack("library", post_reach, post_bounded, post_both, post_reach_add, largest[0]);
#endif
}

}  // namespace

int main(int words, char **word) {
  const std::string part = words > 1 ? word[1] : "";
  const bool alone = part == "words" || part == "pair";
  Budget budget(words - alone, word + alone, 15);  // count: repeats
  const int repeats = int(budget.count);
  if (alone) {
    std::printf("Microseconds of processor time a call, the median of %d repeats\n", repeats);
    (part == "words" ? measure_words : measure_pair)(budget, repeats);
    return 0;
  }
  std::vector<Contestant> judges = {judging("plain C++", sweep::judge)}, checks = {checking("plain C++", sweep::check)},
                          adds = {adding("plain C++", sweep::add)}, writes = {writing("plain C++", sweep::write)};
#ifdef WITH_LIBRARY
  judges.push_back(judging("library", post_judge));
  checks.push_back(checking("library", post_check));
  adds.push_back(adding("library", post_add));
  writes.push_back(writing("library", post_write));
#endif
  judges.push_back(judging("C++ by spreading", sweep::judge_by_spreading));
  judges.push_back({"RUL- verdict", [](const Prepared &p) { seen = rul::controllable(p.file.data(), p.file.size()); }});
  judges.push_back({"RUL- and two tables",
                    [](const Prepared &p) { seen = rul::controllable_with_tables(p.file.data(), p.file.size(), strict, open_cells); }});
  const std::vector<std::string> columns = {"n", "k", "sweeps", "rounds"};
  Report judge_report{"Judge", columns, "", {}}, check_report{"Check", columns, "", {}}, add_report{"Add", columns, "", {}},
      write_report{"Write", {"n", "m", "k"}, "", {}};
  const auto measure_write = [&](std::uint32_t n, std::uint32_t m, std::uint32_t k, const std::vector<Prepared> &plans) {
    measure(write_report, std::to_string(n) + " | " + std::to_string(m) + " | " + std::to_string(k), writes, plans, repeats);
  };
  for (std::uint32_t n : {8u, 16u, 32u, 64u})
    for (std::uint32_t k : {0u, n / 4, n / 2}) {
      const std::vector<Prepared> plans = prepare_row(budget.seed, n, k);
      unsigned sweeps = 0, most_sweeps = 0, rounds = 0, most_rounds = 0;
      for (const Prepared &p : plans) {
        sweep::judge(p.file.data(), p.file.size(), strict, most_cells, open_cells, most_cells);
        sweeps += sweep::sweeps_of_last(), most_sweeps = std::max(most_sweeps, sweep::sweeps_of_last());
        sweep::judge_by_spreading(p.file.data(), p.file.size(), strict, most_cells, open_cells, most_cells);
        rounds += sweep::sweeps_of_last(), most_rounds = std::max(most_rounds, sweep::sweeps_of_last());
      }
      char plans_are[80];
      std::snprintf(plans_are, sizeof plans_are, "%u | %u | %.1f, at most %u | %.1f, at most %u", n, k, sweeps / 12.0, most_sweeps, rounds / 12.0, most_rounds);
      std::vector<Contestant> with_boost = judges;
      with_boost.push_back({"Boost Floyd-Warshall", k == 0 ? boost_floyd_warshall : std::function<void(const Prepared &)>()});
      measure(judge_report, plans_are, with_boost, plans, repeats);
      measure(check_report, plans_are, checks, plans, repeats);
      measure(add_report, plans_are, adds, plans, repeats);
      measure_write(n, 3 * n, k, plans);
    }
  measure_write(most_points, most_limits, most_links, prepare_largest(budget.seed));
  std::printf("12 controllable plans of 3 n limits a row; Write's last row has 12 plans of the most limits and links.\n");
  std::printf("Microseconds of processor time a call, the median of %d repeats;\n", repeats);
  std::printf("x: the ratio to plain C++ in the same repeat, its median (least-most). Both tables take 8 n n bytes, Add's scratch 16 n n.\n");
  for (const Report *report : {&judge_report, &check_report, &add_report, &write_report}) print(*report);
  measure_pair(budget, repeats);
  measure_words(budget, repeats);
}
