// Reach words held against the reference: Reach, Bounded, Both and the update after Add. First calls whose answers are typed here: the papers' tables, single
// cells and bits at all ends, points and numbers of points at and beyond theirs, every slice too short, exact and longer. Then random calls on tables and
// words that hold anything. Then additions: words built after Judge and brought up to date after each Add that was taken are those built afresh.
#include <algorithm>

#include "ground.hpp"
#include "hold.hpp"
#include "kinds.hpp"
#include "shapes.hpp"
#include "shrink.hpp"

namespace {

using Cells = std::vector<std::int32_t>;
using Words = std::vector<std::uint64_t>;
using Numbers = std::vector<std::uint32_t>;

unsigned long long number(std::uint64_t value) { return value; }  // as printf has it

// ---- one call, run by both ----

enum Question : std::size_t { reach, bounded, both, reach_add, question_count };
constexpr const char *question_names[] = {"Reach", "Bounded", "Both", "Reach after Add"};

// One call and all that it is lent; `past` as in hold.hpp.
struct Asked {
  Question question;
  std::uint32_t n, x = 0, y = 0;
  Cells strict;     // Reach's table
  Words words;
  Numbers numbers;  // what Bounded writes to
  Words common;     // what Both writes to
  std::size_t past = 0;

  bool same_rooms(const Asked &other) const {
    return strict == other.strict && words == other.words && numbers == other.numbers && common == other.common;
  }
};

std::uint64_t run(const Calls &calls, const Asked &asked, const std::int32_t *strict, std::uint64_t *words, std::uint32_t *numbers, std::uint64_t *common) {
  switch (asked.question) {
    case reach: return calls.reach(asked.n, strict, asked.strict.size(), words, asked.words.size());
    case bounded: return calls.bounded(asked.n, words, asked.words.size(), asked.x, numbers, asked.numbers.size());
    case both: return calls.both(asked.n, words, asked.words.size(), asked.x, asked.y, common, asked.common.size());
    default: return calls.reach_add(asked.n, asked.x, asked.y, words, asked.words.size());
  }
}

struct Result {
  std::string difference;  // in a sentence, or nothing
  std::uint64_t wanted = 0;
  bool hung = false;
  Asked left;  // the rooms after the linked call
};

Result run_both(const Asked &asked) {
  static const Ground grounds[4];
  Result result;
  Asked expected = asked;
  result.wanted = run(reference_calls, asked, expected.strict.data(), expected.words.data(), expected.numbers.data(), expected.common.data());

  const Lent<std::int32_t> strict(grounds[0], asked.strict, asked.past, "strict table");
  const Lent<std::uint64_t> words(grounds[1], asked.words, asked.past, "words"), common(grounds[3], asked.common, asked.past, "word out");
  const Lent<std::uint32_t> numbers(grounds[2], asked.numbers, asked.past, "numbers out");
  const Ended ended = run_guarded([&] { return run(linked_calls, asked, strict.cells, words.cells, numbers.cells, common.cells); });
  result.hung = ended.hung;
  result.difference = ended.stopped;
  result.left = asked;
  if (!ended.stopped.empty()) return result;

  result.left.strict = strict.content(), result.left.words = words.content();
  result.left.numbers = numbers.content(), result.left.common = common.content();
  for (const std::string &found :
       {answers_differ(ended.answer, result.wanted), strict.touched_outside(), words.touched_outside(), numbers.touched_outside(), common.touched_outside(),
        strict.differs(asked.strict), words.differs(expected.words), numbers.differs(expected.numbers), common.differs(expected.common)})
    if (result.difference.empty()) result.difference = found;
  return result;
}

// ---- a difference ----

// Words with four bits to a digit.
std::string in_bits(const Words &words) {
  std::string text;
  for (std::uint64_t word : words) {
    char one[24];
    std::snprintf(one, sizeof one, " 0x%llx", number(word));
    text += one;
  }
  return text.empty() ? " none" : text;
}

[[noreturn]] void report(const std::string &difference, const Asked &asked, const Budget &budget) {
  std::printf("DIFFERENCE in %s: %s\n  plan: n %u", question_names[asked.question], difference.c_str(), asked.n);
  if (asked.question != reach) std::printf(", x %u", asked.x);
  if (asked.question == both || asked.question == reach_add) std::printf(", y %u", asked.y);
  if (asked.question == reach) std::printf("; %zu cells: %s", asked.strict.size(), notation(asked.strict, std::clamp<std::size_t>(asked.n, 1, 64)).c_str());
  std::printf("; %zu words:%s", asked.words.size(), in_bits(asked.words).c_str());
  if (asked.question == bounded) std::printf("; room for %zu numbers", asked.numbers.size());
  if (asked.question == both) std::printf("; room for %zu words", asked.common.size());
  std::printf("\n");
  budget.found();
}

// The same call with less: fewer points, shorter rooms, cells that are 0 or the mark, words with fewer bits. A step is kept if the calls still differ.
struct Shrink {
  Asked small;
  int tries = 6000;

  bool take(const Asked &smaller) {
    if (tries-- <= 0 || run_both(smaller).difference.empty()) return false;
    small = smaller;
    return true;
  }

  // The call without the last point: its row, its column and its word.
  bool fewer_points() {
    bool any = false;
    while (small.n > 1 && small.n <= most_points) {
      Asked fewer = small;
      const std::size_t n = fewer.n, last = --fewer.n;
      for (std::size_t cell = n * n; cell > 0; --cell)
        if (((cell - 1) / n == last || (cell - 1) % n == last) && cell <= fewer.strict.size()) fewer.strict.erase(fewer.strict.begin() + std::ptrdiff_t(cell - 1));
      if (last < fewer.words.size()) fewer.words.erase(fewer.words.begin() + std::ptrdiff_t(last));
      if (!take(fewer)) break;
      any = true;
    }
    return any;
  }

  bool smaller_points() {
    bool any = false;
    for (std::uint32_t Asked::*point : {&Asked::n, &Asked::x, &Asked::y})
      for (Wide less : smaller_numbers(small.*point)) {
        Asked smaller = small;
        smaller.*point = std::uint32_t(less);
        if (take(smaller)) { any = true; break; }
      }
    return any;
  }

  template <class Room>
  bool shorter(Room Asked::*room) {
    for (Wide length : smaller_numbers(Wide((small.*room).size()))) {
      Asked smaller = small;
      (smaller.*room).resize(std::size_t(length));
      if (take(smaller)) return true;
    }
    return false;
  }

  bool simpler_cells() {
    bool any = false;
    for (std::size_t i = 0; i < small.strict.size(); ++i)
      for (std::int32_t simple : {0, mark}) {
        if (small.strict[i] == 0 || small.strict[i] == simple) break;
        Asked smaller = small;
        smaller.strict[i] = simple;
        if (take(smaller)) { any = true; break; }
      }
    return any;
  }

  bool fewer_bits() {
    bool any = false;
    for (std::size_t i = 0; i < small.words.size(); ++i) {
      Asked smaller = small;
      smaller.words[i] = 0;
      if (small.words[i] != 0 && take(smaller)) { any = true; continue; }
      for (std::uint64_t bit = 1; bit != 0; bit += bit) {
        if (!(small.words[i] & bit)) continue;
        smaller = small;
        smaller.words[i] -= bit;
        any |= take(smaller);
      }
    }
    return any;
  }

  void shrink() {
    for (bool any = true; any && tries > 0;) {
      any = fewer_points();
      any |= smaller_points();
      any |= shorter(&Asked::strict);
      any |= shorter(&Asked::words);
      any |= shorter(&Asked::numbers);
      any |= shorter(&Asked::common);
      any |= simpler_cells();
      any |= fewer_bits();
    }
  }
};

// Runs the call and insists that there is no difference. The rooms of `asked` then hold what the call left. Returns the answer.
std::uint64_t hold(Asked &asked, const Budget &budget) {
  const Result result = run_both(asked);
  if (!result.difference.empty()) {
    Shrink shrink{asked};
    if (!result.hung) shrink.shrink();
    report(run_both(shrink.small).difference, shrink.small, budget);
  }
  asked = result.left;
  return result.wanted;
}

// Numbers of all sizes that differ from place to place.
template <class Room>
Room anything(Random &random, std::size_t length) {
  Room room(length);
  for (auto &one : room) one = typename Room::value_type(random.next());
  return room;
}

// ---- calls whose answers are typed here ----

struct Typed {
  static constexpr std::uint32_t top = 0xffffffff;
  static constexpr std::uint64_t all = 0xffffffffffffffff, last = 0x8000000000000000;
  const Budget &budget;
  Random random;
  std::array<Codes, question_count> codes;
  std::uint64_t calls = 0;

  explicit Typed(const Budget &budget) : budget(budget), random(budget.seed) {}

  // Code 0, and all rooms then as `left` has them; any other code, and all of them as they were.
  void must(Asked asked, std::uint64_t code, const std::function<void(Asked &)> &left = {}) {
    asked.past = random.one_in(2) ? 0 : 1 + random.below(8);
    const Asked lent = asked;
    Asked wanted = asked;
    if (left) left(wanted);
    const std::uint64_t answer = hold(asked, budget);
    if (answer != code) report("both answer " + said(answer) + ", and it must be " + said(code), lent, budget);
    if (!asked.same_rooms(wanted)) report("both leave something else than what is typed", lent, budget);
    codes[asked.question].count(answer);
    ++calls;
  }

  // A call with room for everything and some more; what stands in the rooms is not asked for.
  Asked roomy(Question question, std::uint32_t n, std::uint32_t x = 0, std::uint32_t y = 0) {
    Asked asked{question, n, x, y, {}, anything<Words>(random, 70), {}, {}, 0};
    if (question == reach) asked.strict = anything<Cells>(random, 70 * 70);
    if (question == bounded) asked.numbers = anything<Numbers>(random, 5);
    if (question == both) asked.common = anything<Words>(random, 3);
    return asked;
  }

  void builds(std::uint32_t n, const Cells &strict, const Words &words) {
    for (std::size_t more : {0, 3}) {
      Cells longer = strict;
      longer.resize(strict.size() + more, 5);
      must({reach, n, 0, 0, longer, anything<Words>(random, n + more), {}, {}, 0}, 0,
           [&](Asked &left) { std::copy(words.begin(), words.end(), left.words.begin()); });
    }
  }

  void bounds(std::uint32_t n, std::uint32_t x, std::uint64_t word, std::uint32_t count, std::uint32_t lowest, std::uint32_t highest) {
    Words words = anything<Words>(random, n + random.below(3));
    words[x] = word;
    must({bounded, n, x, 0, {}, words, anything<Numbers>(random, 3 + random.below(3)), {}, 0}, 0,
         [&](Asked &left) { left.numbers[0] = count, left.numbers[1] = lowest, left.numbers[2] = highest; });
  }

  void shares(std::uint32_t n, std::uint32_t x, std::uint64_t of_x, std::uint32_t y, std::uint64_t of_y, std::uint64_t word) {
    Words words = anything<Words>(random, n + random.below(3));
    words[x] = of_x, words[y] = of_y;
    must({both, n, x, y, {}, words, {}, anything<Words>(random, 1 + random.below(3)), 0}, 0, [&](Asked &left) { left.common[0] = word; });
  }

  // All the words that are lent, also those beyond n.
  void updates(std::uint32_t n, std::uint32_t x, std::uint32_t y, const Words &before, const Words &after) {
    must({reach_add, n, x, y, {}, before, {}, {}, 0}, 0, [&](Asked &left) { left.words = after; });
  }

  // The strict tables of document 01's cases, of plans in which points stand apart, and tables that are no plan's.
  void tables() {
    builds(1, {0}, {1});                                    // a
    builds(2, {0, 10, 0, 0}, {3, 3});                       // b
    builds(2, {0, 10, -10, 0}, {3, 3});                     // c
    builds(2, {mark, mark, mark, mark}, {0, 0});            // c, refused
    builds(3, {0, 9, 12, -4, 0, 6, -7, -3, 0}, {7, 7, 7});  // d
    builds(2, {0, 5, -2, 0}, {3, 3});                       // e
    builds(3, {0, 5, 6, -2, 0, 1, -2, 0, 0}, {7, 7, 7});    // g
    builds(2, {0, 40, -40, 0}, {3, 3});                     // document 02, item 2
    builds(2, {0, mark, 0, 0}, {1, 3});
    builds(3, {0, mark, mark, 0, 0, 5, 0, mark, 0}, {1, 7, 5});
    builds(4, {0, mark, 3, mark, 0, 0, 3, mark, 0, mark, 0, mark, 0, mark, 3, 0}, {5, 7, 5, 13});
    builds(1, {mark}, {0});
    for (std::int32_t cell : {mark - 1, -mark - 1, -mark, -1, 1, 63000000, 63000001, -63000001}) builds(1, {cell}, {1});
    builds(2, {mark - 1, -mark - 1, mark, -1}, {3, 2});
    builds(2, {mark, 0, 0, mark}, {2, 1});
    builds(3, {mark, mark, mark, mark, mark, 0, 0, mark, mark}, {0, 4, 1});
  }

  // One cell alone a number, and one alone the mark, at the ends of rows and of half words.
  void single_cells() {
    const std::map<std::uint32_t, std::uint64_t> bit = {{0, 1}, {1, 2}, {30, 0x40000000}, {31, 0x80000000}, {32, 0x100000000}, {62, 0x4000000000000000}, {63, last}};
    const std::map<std::uint32_t, std::uint64_t> full = {{1, 1}, {2, 3}, {31, 0x7fffffff}, {32, 0xffffffff}, {33, 0x1ffffffff}, {63, 0x7fffffffffffffff}, {64, all}};
    for (const auto &[n, every] : full)
      for (const auto &[x, bit_of_x] : bit)
        for (const auto &[y, bit_of_y] : bit) {
          if (x >= n || y >= n) continue;
          Cells numbers(n * n, -7), marks(n * n, mark);
          numbers[x * n + y] = mark, marks[x * n + y] = -7;
          Words but_one(n, every), only_one(n, 0);
          but_one[x] = every - bit_of_y, only_one[x] = bit_of_y;
          builds(n, numbers, but_one);
          builds(n, marks, only_one);
        }
  }

  void bits() {
    struct Counted { std::uint64_t word; std::uint32_t count, lowest, highest; };
    const std::vector<Counted> counted = {{0, 0, 64, 64},           {1, 1, 0, 0},           {last, 1, 63, 63},        {all, 64, 0, 63},
                                          {2, 1, 1, 1},             {6, 2, 1, 2},           {0x80000000, 1, 31, 31},  {0x100000000, 1, 32, 32},
                                          {0xffffffff, 32, 0, 31},  {0x8000000000000001, 2, 0, 63},                   {0xffffffff00000000, 32, 32, 63},
                                          {0x5555555555555555, 32, 0, 62},                  {0xaaaaaaaaaaaaaaaa, 32, 1, 63},
                                          {0x7fffffffffffffff, 63, 0, 62},                  {0xfffffffffffffffe, 63, 1, 63},
                                          {0x0ff0, 8, 4, 11},       {0x180000000, 2, 31, 32}};
    const std::vector<std::pair<std::uint32_t, std::uint32_t>> points = {{1, 0}, {2, 0}, {2, 1}, {5, 0}, {5, 2}, {5, 4}, {64, 0}, {64, 31}, {64, 63}};
    for (const auto &[n, x] : points)
      for (const Counted &one : counted) bounds(n, x, one.word, one.count, one.lowest, one.highest);
    std::uint64_t word = 1;
    for (std::uint32_t place = 0; place < 64; ++place, word += word) bounds(3, 1, word, 1, place, place);
  }

  void common_points() {
    struct Shared { std::uint64_t one, other, word; };
    const std::vector<Shared> shared = {{3, 3, 3}, {1, 3, 1}, {1, 2, 0}, {7, 5, 5}, {0, all, 0}, {all, all, all}, {last, all, last}, {last, 1, 0},
                                        {0xff00, 0x0ff0, 0x0f00}, {0x5555555555555555, 0xaaaaaaaaaaaaaaaa, 0}, {0x180000000, 0x300000000, 0x100000000},
                                        {0x8000000000000001, 0xc000000000000003, 0x8000000000000001}};
    struct Two { std::uint32_t n, x, y; };
    for (const Two &two : {Two{2, 0, 1}, {3, 0, 2}, {3, 1, 2}, {64, 0, 63}, {64, 31, 32}, {64, 62, 63}})
      for (const Shared &each : shared) {
        shares(two.n, two.x, each.one, two.y, each.other, each.word);
        shares(two.n, two.y, each.one, two.x, each.other, each.word);
      }
    for (std::uint64_t word : {std::uint64_t(0), std::uint64_t(1), std::uint64_t(6), last, all})
      for (const Two &one : {Two{1, 0, 0}, {2, 1, 1}, {64, 63, 63}}) shares(one.n, one.x, word, one.y, word, word);
  }

  void additions() {
    updates(1, 0, 0, {1}, {1});
    updates(1, 0, 0, {0}, {0});
    updates(2, 0, 1, {1, 3}, {3, 3});  // case b, from the plan without its limit
    updates(2, 1, 0, {1, 3}, {1, 3});
    updates(2, 0, 1, {3, 3}, {3, 3});
    // Three points apart, then four.
    updates(3, 0, 1, {1, 3, 5}, {3, 3, 7});
    updates(3, 0, 2, {1, 3, 5}, {5, 7, 5});
    updates(3, 1, 0, {1, 3, 5}, {1, 3, 5});
    updates(3, 1, 2, {1, 3, 5}, {1, 7, 5});
    updates(3, 2, 1, {1, 3, 5}, {1, 3, 7});
    for (std::uint32_t x : {0, 1, 2}) updates(3, x, x, {1, 3, 5}, {1, 3, 5});
    updates(3, 2, 1, {1, 7, 5}, {1, 7, 7});
    updates(3, 0, 2, {1, 7, 5}, {5, 7, 5});
    updates(4, 1, 2, {1, 3, 5, 9}, {1, 7, 5, 9});
    updates(4, 2, 3, {1, 7, 5, 9}, {1, 15, 13, 9});
    updates(4, 0, 3, {1, 7, 5, 9}, {9, 15, 13, 9});
    updates(4, 3, 1, {1, 7, 5, 9}, {1, 7, 5, 15});
    // Words that no table gives: without a point's own bit, with bits from n on, nothing and everything.
    updates(2, 0, 1, {0, 3}, {0, 3});
    updates(2, 0, 1, {2, 1}, {2, 1});
    updates(2, 0, 0, {2, 1}, {2, 3});
    updates(2, 1, 1, {2, 1}, {3, 1});
    updates(2, 0, 1, {0xf1, 0xf00}, {0xff1, 0xf00});
    updates(2, 1, 0, {0xf0, 0xf02}, {0xf0, 0xff2});
    updates(2, 0, 1, {all, 0}, {all, 0});
    updates(2, 1, 0, {0, all}, {0, all});
    updates(2, 1, 0, {all, last + 2}, {all, all});
    updates(1, 0, 0, {last + 1}, {last + 1});
    updates(1, 0, 0, {last}, {last});
    // Words beyond n, which have the bit, stay.
    updates(2, 0, 1, {1, 3, 1, 3}, {3, 3, 1, 3});
    updates(1, 0, 0, {1, 3, 0, all}, {1, 3, 0, all});
    updates(3, 1, 2, {2, 2, 12, 2, all}, {14, 14, 12, 2, all});
    // At both ends of 64 points and of half words.
    const auto among_64 = [](const std::map<std::uint32_t, std::uint64_t> &some) {
      Words words(64, 0);
      for (const auto &[x, word] : some) words[x] = word;
      return words;
    };
    updates(64, 63, 0, among_64({{0, 1}, {63, last}}), among_64({{0, 1}, {63, last + 1}}));
    updates(64, 0, 63, among_64({{0, 1}, {63, last}}), among_64({{0, last + 1}, {63, last}}));
    updates(64, 63, 63, among_64({{5, last}, {63, last + 1}}), among_64({{5, last + 1}, {63, last + 1}}));
    updates(64, 32, 31, among_64({{0, 1}, {31, 0x80000000}, {32, 0x100000000}}), among_64({{0, 1}, {31, 0x80000000}, {32, 0x180000000}}));
    updates(64, 31, 32, among_64({{31, 0x80000000}, {32, 0x100000000}, {63, 0x80000000}}),
            among_64({{31, 0x180000000}, {32, 0x100000000}, {63, 0x180000000}}));
    updates(64, 63, 7, Words(64, all), Words(64, all));
    updates(64, 63, 7, Words(64, 0), Words(64, 0));
    Words every(64, 1), later(64, 3);
    every[1] = 2, later[1] = 2;
    updates(64, 0, 1, every, later);
  }

  // Words after Judge, and after one more limit that Add takes.
  void plans() {
    after(Plan{1, {}, {}}, {1}, {0, 0, 5}, {1});                                 // a
    after(Plan{2, {}, {}}, {1, 3}, {0, 1, 10}, {3, 3});                          // b, in two steps
    after(Plan{2, {{0, 1, 10}}, {}}, {3, 3}, {1, 0, -10}, {3, 3});               // c
    after(Plan{3, {{0, 2, 12}, {1, 0, -4}, {1, 2, 6}, {2, 1, -3}}, {}}, {7, 7, 7}, {0, 1, 8}, {7, 7, 7});  // d
    after(Plan{2, {}, {{0, 1, 2, 5}}}, {3, 3}, {0, 1, 5}, {3, 3});               // e and f
    after(Plan{3, {{1, 2, 5}}, {}}, {1, 7, 5}, {2, 1, 0}, {1, 7, 7});
    after(Plan{3, {{1, 2, 5}}, {}}, {1, 7, 5}, {0, 1, 3}, {7, 7, 7});
    after(Plan{4, {}, {{1, 2, 2, 5}}}, {1, 7, 7, 9}, {3, 1, 4}, {1, 7, 7, 15});  // a link bounds both ways
    after(Plan{4, {}, {{1, 2, 2, 5}}}, {1, 7, 7, 9}, {0, 3, 4}, {9, 15, 15, 9});
    after(Plan{4, {}, {{1, 2, 5, 5}}}, {1, 7, 7, 9}, {2, 3, 0}, {1, 15, 15, 9});
  }

  void after(const Plan &plan, const Words &judged, const Limit &added, const Words &then) {
    const auto file = file_of(plan);
    const std::size_t cells = std::size_t(plan.points) * plan.points;
    auto [sound, answer, strict, open, broken] = judge_pair(linked_calls, file, plan.points);
    std::vector<std::int64_t> scratch(2 * cells);
    if (sound != 0) wrong("Sound refuses", plan);
    if (answer != 0) wrong("Judge refuses", plan);
    builds(plan.points, strict, judged);
    if (post_add(file.data(), file.size(), added.from, added.to, std::int32_t(added.weight), strict.data(), cells, open.data(), cells, scratch.data(), 2 * cells) != 0)
      wrong("Add refuses", plan);
    builds(plan.points, strict, then);
    updates(plan.points, added.from, added.to, judged, then);
  }

  [[noreturn]] void wrong(const char *who, const Plan &plan) const {
    std::printf("DIFFERENCE in reach words: %s what it must take\n  plan: %s\n", who, notation(plan).c_str());
    budget.found();
  }

  // n and points beyond their ends, with rooms for all that would be touched and with none: 3, and nothing changes. Some are in range in fewer bits.
  void out_of_range() {
    const auto three = [&](Asked asked) {
      must(asked, 3);
      asked.strict.clear(), asked.words.clear(), asked.numbers.clear(), asked.common.clear();
      must(asked, 3);
    };
    for (std::size_t question = 0; question < question_count; ++question) {
      for (std::uint32_t n : {0u, 65u, 66u, 128u, 256u + 2, 65536u + 2, 0x80000002u, top}) three(roomy(Question(question), n));
      if (question == reach) continue;
      for (std::uint32_t n : {1u, 2u, 33u, 63u, 64u})
        for (std::uint32_t far : {n, n + 1, n + 64, n + 256, 65536u, 0x80000000u, top - 63, top}) {
          three(roomy(Question(question), n, far, n - 1));
          if (question == bounded) continue;
          three(roomy(Question(question), n, 0, far));
          three(roomy(Question(question), n, far, far));
        }
    }
    for (std::uint32_t n : {0u, 65u, top}) three(roomy(bounded, n, n)), three(roomy(both, n, n, n)), three(roomy(reach_add, n, n, n));
  }

  // Every slice empty, one short, exact, one longer, and so much longer that in fewer bits it would be short. The points asked for lie inside wherever they can.
  void lengths() {
    for (const auto &[n, full] : {std::pair{1u, std::uint64_t(1)}, {2u, std::uint64_t(3)}, {33u, std::uint64_t(0x1ffffffff)}, {64u, all}}) {
      const std::vector<std::size_t> of_words = {0, n - 1, n, n + 1, 256, 65536};
      for (std::size_t words : of_words) {
        const bool enough = words >= n;
        const Words lent = anything<Words>(random, words);
        for (std::size_t cells : {std::size_t(0), std::size_t(n) * n - 1, std::size_t(n) * n, std::size_t(n) * n + 1, std::size_t(65536)}) {
          Asked asked{reach, n, 0, 0, Cells(cells, mark), lent, {}, {}, 0};  // the mark beyond n x n cells
          std::fill_n(asked.strict.begin(), std::min(cells, std::size_t(n) * n), 0);
          if (enough && cells >= std::size_t(n) * n) must(asked, 0, [&, n = n, full = full](Asked &left) { std::fill_n(left.words.begin(), n, full); });
          else must(asked, 9);
        }
        const auto with_first = [&](std::uint64_t word) {
          Words first = lent;
          if (words > 0) first[0] = word;
          return first;
        };
        for (std::size_t out : {0, 1, 2, 3, 4, 256, 65536}) {
          const Asked asked{bounded, n, 0, 0, {}, with_first(0x30), anything<Numbers>(random, out), {}, 0};
          if (enough && out >= 3) must(asked, 0, [](Asked &left) { left.numbers[0] = 2, left.numbers[1] = 4, left.numbers[2] = 5; });
          else must(asked, 9);
        }
        for (std::size_t out : {0, 1, 2, 256, 65536}) {
          const Asked asked{both, n, 0, 0, {}, with_first(0x30), {}, anything<Words>(random, out), 0};
          if (enough && out >= 1) must(asked, 0, [](Asked &left) { left.common[0] = 0x30; });
          else must(asked, 9);
        }
        Asked asked{reach_add, n, 0, 0, {}, Words(words, 2), {}, {}, 0};
        if (words > 0) asked.words[0] = 5;
        must(asked, enough ? 0 : 9);
      }
    }
  }

  void everything() {
    tables();
    single_cells();
    bits();
    common_points();
    additions();
    plans();
    out_of_range();
    lengths();
  }
};

// ---- random calls ----

std::uint32_t draw_n(Random &random) {
  switch (random.below(12)) {
    case 0: return 64 - random.below(3);
    case 1: return 1 + random.below(64);
    case 2: return random.one_in(2) ? 65 + random.below(2) : random.one_in(2) ? 0 : edge_number(random, 64);
    default: return 1 + random.below(8);
  }
}

std::uint32_t draw_point(Random &random, std::uint32_t n) {
  switch (random.below(16)) {
    case 0: return n + random.below(2);
    case 1: return edge_number(random, n);
    case 2: return n - 1;
    default: return n == 0 ? 0 : random.below(n);
  }
}

Cells draw_cells(Random &random, std::size_t length) {
  static const std::vector<std::int32_t> named = {mark - 1, -mark - 1, -mark, -1, 0, 1, closed_range, -closed_range, 0x7fffffff - 0x100};
  const std::uint32_t marks = random.below(9);  // so many of eight are the mark, but for one or two anywhere
  Cells cells(length);
  for (std::int32_t &cell : cells) cell = random.below(8) < marks ? mark : random.one_in(2) ? random.any_of(named) : std::int32_t(random.next());
  for (std::uint32_t i = random.below(3); i > 0 && length > 0; --i) cells[random.below(std::uint32_t(length))] = random.one_in(2) ? mark : 0;
  return cells;
}

Words draw_words(Random &random, std::size_t length, std::uint32_t n) {
  const std::uint32_t style = random.below(6);
  Words words(length);
  for (std::uint64_t &word : words) {
    const std::uint64_t bit = std::uint64_t(1) << (random.one_in(6) ? 63 : random.below(64));
    const std::uint64_t near = std::uint64_t(1) << random.below(n - 1 < 64 ? n : 64);
    switch (style < 5 ? style : random.below(5)) {
      case 0: word = random.one_in(4) ? bit : 0; break;
      case 1: word = random.one_in(4) ? ~bit : ~std::uint64_t(0); break;
      case 2: word = near | (random.one_in(2) ? bit : near); break;
      case 3: word = random.next() & (near + near - 1); break;
      default: word = random.next();
    }
  }
  return words;
}

Asked draw(Random &random, Question question) {
  Asked asked{question, draw_n(random), 0, 0, {}, {}, {}, {}, 0};
  asked.x = draw_point(random, asked.n);
  asked.y = random.one_in(6) ? asked.x : draw_point(random, asked.n);
  const std::size_t n = std::min(asked.n, most_points + 2);  // beyond it nothing is needed
  const std::size_t words = room_about(random, n);
  asked.words = draw_words(random, words, asked.n);
  if (question == reach) {
    const std::size_t cells = room_about(random, n * n);
    asked.strict = draw_cells(random, cells);
  }
  if (question == bounded) asked.numbers = anything<Numbers>(random, room_about(random, 3));
  if (question == both) asked.common = anything<Words>(random, room_about(random, 1));
  asked.past = random.one_in(2) ? 0 : 1 + random.below(8);
  return asked;
}

// What came up, told from what was lent and what was left. The words are short of n in some refusals only.
void count_kinds(Kinds &kinds, const Asked &lent, std::uint64_t answer, const Asked &left) {
  const bool n_in = lent.n - 1 < most_points, x_in = lent.x < lent.n, y_in = lent.y < lent.n, words_in = lent.words.size() >= lent.n;
  if (answer == 0) {
    kinds.count("n 1", lent.n == 1);
    kinds.count("n 64", lent.n == 64);
    kinds.count("more words than n", lent.words.size() > lent.n);
  }
  switch (lent.question) {
    case reach: {
      const bool cells_in = lent.strict.size() >= std::size_t(lent.n) * lent.n;
      kinds.count("3 with room for all", answer == 3 && words_in && cells_in);
      kinds.count("9 for the table alone", answer == 9 && words_in);
      kinds.count("9 for the words alone", answer == 9 && cells_in);
      if (answer != 0) break;
      for (std::size_t x = 0; x < lent.n; ++x) {
        kinds.count("a word of 0", left.words[x] == 0);
        kinds.count("a word of all 64", left.words[x] == Typed::all);
        kinds.count("a mark on the diagonal", lent.strict[x * lent.n + x] == mark);
        kinds.count("a word that had bits from n on", lent.n < 64 && lent.words[x] >> lent.n > 0);
        kinds.count("a word that loses bits", (lent.words[x] & ~left.words[x]) != 0);
      }
      break;
    }
    case bounded:
      kinds.count("3 for n alone", answer == 3 && !n_in && x_in);
      kinds.count("3 for x alone", answer == 3 && n_in);
      kinds.count("9 for the words, and x inside", answer == 9 && lent.x < lent.words.size() && lent.numbers.size() >= 3);
      kinds.count("9 for the numbers alone", answer == 9 && words_in);
      if (answer != 0) break;
      kinds.count("x the last point", lent.n > 1 && lent.x == lent.n - 1);
      kinds.count("a word of 0", left.numbers[0] == 0);
      kinds.count("one bit", left.numbers[0] == 1);
      kinds.count("all 64 bits", left.numbers[0] == 64);
      kinds.count("lowest 63", left.numbers[1] == 63);
      kinds.count("highest 63", left.numbers[2] == 63);
      kinds.count("highest from n on", lent.n < 64 && left.numbers[2] >= lent.n && left.numbers[2] < 64);
      break;
    case both:
      kinds.count("3 for n alone", answer == 3 && !n_in && x_in && y_in);
      kinds.count("3 for x alone", answer == 3 && n_in && y_in);
      kinds.count("3 for y alone", answer == 3 && n_in && x_in);
      kinds.count("9 for the words, and both inside", answer == 9 && std::max(lent.x, lent.y) < lent.words.size() && !lent.common.empty());
      kinds.count("9 for the word out alone", answer == 9 && words_in);
      if (answer != 0) break;
      kinds.count("x and y one point", lent.x == lent.y);
      kinds.count("none of some", left.common[0] == 0 && lent.words[lent.x] != 0 && lent.words[lent.y] != 0);
      kinds.count("some, and neither's all", left.common[0] != 0 && left.common[0] != lent.words[lent.x] && left.common[0] != lent.words[lent.y]);
      kinds.count("bits from n on", lent.n < 64 && left.common[0] >> lent.n > 0);
      break;
    default: {
      kinds.count("3 for n alone", answer == 3 && !n_in && x_in && y_in);
      kinds.count("3 for x alone", answer == 3 && n_in && y_in);
      kinds.count("3 for y alone", answer == 3 && n_in && x_in);
      kinds.count("9, and both inside", answer == 9 && std::max(lent.x, lent.y) < lent.words.size());
      if (answer != 0) break;
      std::size_t had = 0, changed = 0, beyond = 0;
      for (std::size_t z = 0; z < lent.words.size(); ++z) {
        const bool has = lent.words[z] >> lent.x & 1;
        if (z >= lent.n) { beyond += has && (lent.words[lent.y] & ~lent.words[z]) != 0; continue; }
        had += has, changed += left.words[z] != lent.words[z];
      }
      kinds.count("no word has bit x", had == 0);
      kinds.count("some have it and none changes", had > 0 && changed == 0);
      kinds.count("one word changes", changed == 1);
      kinds.count("several change", changed > 1);
      kinds.count("all have bit x", had == lent.n);
      kinds.count("x and y one point and a change", lent.x == lent.y && changed > 0);
      kinds.count("word y has bit x", lent.words[lent.y] >> lent.x & 1);
      kinds.count("word x has not bit x and another changes", !(lent.words[lent.x] >> lent.x & 1) && changed > 0);
      kinds.count("bits from n on are taken", lent.n < 64 && changed > 0 && lent.words[lent.y] >> lent.n > 0);
      kinds.count("a word beyond n that would change", beyond > 0);
      break;
    }
  }
}

// ---- additions ----

// A plan whose tables are the first, and limits to add. The file that Add reads has the first limits and links of the plan: with fewer than all, the tables
// are closed for it and not its own. With a factor above 1 it has none, and every cell is so many times what Judge made it, as far as the closed range goes.
struct Story {
  Plan plan;
  std::size_t limits, links;
  Wide factor = 1;
  std::vector<Limit> order;
};

Judged begin(const Story &story) {
  Judged tables = judge_pair(linked_calls, file_of(story.plan), story.plan.points);
  Wide largest = 1;
  for (const Cells *table : {&tables.strict, &tables.open})
    for (std::int32_t cell : *table)
      if (cell != mark) largest = std::max(largest, std::abs(Wide(cell)));
  const std::int32_t factor = std::int32_t(std::max<Wide>(1, std::min(story.factor, closed_range / largest)));
  for (Cells *table : {&tables.strict, &tables.open})
    for (std::int32_t &cell : *table)
      if (cell != mark) cell *= factor;
  return tables;
}

std::vector<std::uint8_t> file_of(const Story &story) {
  Plan plan = story.plan;
  plan.limits.resize(story.factor > 1 ? 0 : std::min(story.limits, plan.limits.size()));
  plan.links.resize(story.factor > 1 ? 0 : std::min(story.links, plan.links.size()));
  return file_of(plan);
}

std::uint64_t add(const std::vector<std::uint8_t> &file, const Limit &limit, Judged &tables) {
  std::vector<std::int64_t> scratch(2 * tables.strict.size());
  return linked_calls.add(file.data(), file.size(), limit.from, limit.to, std::int32_t(limit.weight), tables.strict.data(), tables.strict.size(),
                          tables.open.data(), tables.open.size(), scratch.data(), scratch.size());
}

// The words of a story, each call of the linked ones held against the reference. `difference` is the first, in a sentence.
struct Kept {
  std::uint32_t n;
  std::string difference;

  void see(const std::string &found) {
    if (difference.empty()) difference = found;
  }

  Asked ask(const Asked &asked) {
    const Result result = run_both(asked);
    if (!result.difference.empty()) see(std::string(question_names[asked.question]) + ": " + result.difference);
    if (result.wanted != 0) see(std::string(question_names[asked.question]) + " answers " + said(result.wanted));
    return result.left;
  }

  Words built(const Cells &strict) { return ask({reach, n, 0, 0, strict, Words(n, 0x5a5a5a5a5a5a5a5a), {}, {}, 0}).words; }
  Words updated(const Words &words, const Limit &limit) { return ask({reach_add, n, limit.from, limit.to, {}, words, {}, {}, 0}).words; }

  // What a dispatcher asks of the words is what stands in the table.
  void asked_of(const Words &words, const Cells &strict) {
    for (std::uint32_t x = 0; x < n; ++x) {
      const std::uint32_t y = (5 * x + 3) % n;
      std::uint32_t count = 0, lowest = 64, highest = 64;
      for (std::uint32_t z = 0; z < n; ++z) {
        if (strict[x * n + z] == mark) continue;
        lowest = std::min(lowest, z), highest = z, ++count;
      }
      if (ask({bounded, n, x, 0, {}, words, Numbers(3), {}, 0}).numbers != Numbers{count, lowest, highest}) see("Bounded is not what stands in the table");
      const std::uint64_t common = ask({both, n, x, y, {}, words, {}, Words(1), 0}).common[0];
      for (std::uint32_t z = 0; z < n; ++z)
        if ((common >> z & 1) != (strict[x * n + z] != mark && strict[y * n + z] != mark)) see("Both is not what stands in the table");
    }
  }
};

std::size_t changes(const Words &before, const Words &after) {
  std::size_t changed = 0;
  for (std::size_t x = 0; x < before.size(); ++x) changed += before[x] != after[x];
  return changed;
}

// Two limits from the same tables, in either order: where all are taken, the words end the same.
void either_order(Kept &kept, const Story &story, const Limit &one, const Limit &other, Kinds &kinds) {
  const auto file = file_of(story);
  const Judged first = begin(story);
  Words ends[2];
  std::size_t changed = 0;
  for (std::size_t turn : {0, 1}) {
    Judged tables = first;
    Words words = kept.built(first.strict);
    for (const Limit &limit : {turn == 0 ? one : other, turn == 0 ? other : one}) {
      if (add(file, limit, tables) != 0) return;
      const Words before = words;
      words = kept.updated(words, limit);
      changed += changes(before, words) > 0;
    }
    ends[turn] = words;
  }
  if (ends[0] != ends[1]) kept.see("two limits in either order end in other words");
  kinds.count("pairs in either order", true);
  kinds.count("pairs of which each changes words", changed == 4);
  kinds.count("pairs of which one is needless behind the other", changed == 3);
}

// What is wrong with the words of this story, or nothing.
std::string trouble(const Story &story, Kinds &kinds) {
  Kept kept{story.plan.points, ""};
  Judged tables = begin(story);
  if (!tables.broken.empty() || tables.sound != 0) kept.see("of the plan Sound says " + said(tables.sound) + ", Judge " + said(tables.answer));
  Words words = kept.built(tables.strict);
  if (tables.answer != 0) {
    if (std::any_of(words.begin(), words.end(), [](std::uint64_t word) { return word != 0; })) kept.see("the plan is refused, and a word is not 0");
    kinds.count("refused plans", true);
    return kept.difference;
  }
  const auto file = file_of(story);
  for (const Limit &limit : story.order) {
    const Words before = words;
    const std::uint64_t answer = add(file, limit, tables);
    if (answer == 0) words = kept.updated(words, limit);
    if (kept.built(tables.strict) != words)
      kept.see(answer == 0 ? "after " + notation(limit) + " the words are not those built afresh" : "after a refused addition, " + notation(limit) + ", the words are not those built afresh");
    if (answer == 0 && kept.updated(words, limit) != words) kept.see("a second update by " + notation(limit) + " changes words");
    const std::size_t changed = changes(before, words);
    kinds.count("additions taken", answer == 0);
    kinds.count("refused with 11", answer == 11);
    kinds.count("refused with 12", answer == 12);
    kinds.count("taken and no word changes", answer == 0 && changed == 0);
    kinds.count("one word changes", changed == 1);
    kinds.count("several words change", changed > 1);
    kinds.count("all words but one change", changed > 1 && changed + 1 == words.size());
    kinds.count("a change, and links in the file", changed > 0 && story.factor == 1 && std::min(story.links, story.plan.links.size()) > 0);
    kinds.count("a change, and 64 points", changed > 0 && words.size() == 64);
    kinds.count("a change, and tables not of the file", changed > 0 && story.factor == 1 && (story.limits < story.plan.limits.size() || story.links < story.plan.links.size()));
    kinds.count("a change, and cells beyond a file's range", changed > 0 && story.factor > 1);
    kinds.count("a change of a word but that of from", changed > 0 && (changed > 1 || before[limit.from] == words[limit.from]));
  }
  kept.asked_of(words, tables.strict);
  if (story.order.size() > 1) either_order(kept, story, story.order[0], story.order[1], kinds);
  return kept.difference;
}

[[noreturn]] void report(Story story, const Budget &budget) {
  Kinds kinds;
  for (bool smaller = true; smaller;) {
    smaller = false;
    const auto try_without = [&](auto &list) {
      for (std::size_t i = list.size(); i > 0; --i) {
        const auto whole = list;
        list.erase(list.begin() + std::ptrdiff_t(i - 1));
        if (trouble(story, kinds).empty()) list = whole;
        else smaller = true;
      }
    };
    try_without(story.order);
    try_without(story.plan.limits);
    try_without(story.plan.links);
  }
  const reference::Reading lent = reference::read(file_of(story).data(), file_of(story).size());
  std::printf("DIFFERENCE in reach words and additions: %s\n  plan: %s\n  the file that Add reads: %s; cells times %lld\n  added:", trouble(story, kinds).c_str(),
              notation(story.plan).c_str(), notation(lent.plan).c_str(), static_cast<long long>(story.factor));
  for (const Limit &limit : story.order) std::printf(" %s;", notation(limit).c_str());
  std::printf("\n");
  budget.found();
}

// Plans in which points stand apart, for the words of others are full and stay so: fewer limits, and few from point 0, to which all points lead.
Story draw_story(Random &random) {
  const bool large = random.one_in(60);
  Plan plan = random_plan(random, large ? most_points : 9, most_limits - 40);
  if (!random.one_in(4)) {
    const std::uint32_t of_four = 1 + random.below(4);
    const auto dropped = [&](const Limit &limit) { return random.below(4) >= of_four || (limit.from == 0 && !random.one_in(8)); };
    plan.limits.erase(std::remove_if(plan.limits.begin(), plan.limits.end(), dropped), plan.limits.end());
    plan.links.erase(std::remove_if(plan.links.begin(), plan.links.end(), [&](const Link &link) { return link.activation == 0 && random.one_in(2); }), plan.links.end());
  }
  if (random.one_in(3)) plan.points = large ? most_points : std::min(most_points, plan.points + random.below(4));  // the new ones bound by nothing
  Story story{plan, plan.limits.size(), plan.links.size(), 1, {}};
  switch (random.below(6)) {
    case 0:
      story.limits = random.below(std::uint32_t(plan.limits.size()) + 1);
      story.links = random.below(std::uint32_t(plan.links.size()) + 1);
      break;
    case 1: story.factor = random.one_in(2) ? closed_range : 2 + random.below(1000); break;
    default: break;
  }
  for (std::uint32_t i = 1 + random.below(6); i > 0; --i) {
    Limit limit = !story.order.empty() && random.one_in(6) ? random.any_of(story.order) : random_limit(random, plan);
    if (limit.from == 0 && random.one_in(2)) limit.from = random.below(plan.points);
    story.order.push_back(limit);
  }
  return story;
}

}  // namespace

int main(int words, char **word) {
  Budget budget(words, word, 20000);
  Typed typed(budget);
  typed.everything();
  const double typed_seconds = budget.spent();
  std::array<Codes, question_count> codes;
  std::array<Kinds, question_count> kinds;
  Kinds story_kinds;
  while (budget.more()) {
    Random random = budget.round();
    for (std::size_t question = 0; question < question_count; ++question) {
      const Asked lent = draw(random, Question(question));
      Asked left = lent;
      const std::uint64_t answer = hold(left, budget);
      codes[question].count(answer);
      count_kinds(kinds[question], lent, answer, left);
    }
    const Story story = draw_story(random);
    if (!trouble(story, story_kinds).empty()) report(story, budget);
  }
  std::printf("reaching: %llu calls with typed answers, %.1f s\n", number(typed.calls), typed_seconds);
  std::printf("reaching: %llu random calls of each kind and %llu plans with additions, %.1f s, no difference\n", number(budget.done), number(budget.done),
              budget.spent() - typed_seconds);
  Codes::print_head();
  for (std::size_t question = 0; question < question_count; ++question) {
    typed.codes[question].print((std::string(question_names[question]) + ", typed").c_str());
    codes[question].print((std::string(question_names[question]) + ", random").c_str());
  }
  bool all_came = true;
  for (std::size_t question = 0; question < question_count; ++question) {
    all_came &= kinds[question].all_came("reaching", question_names[question]);
    for (std::uint32_t code : {0, 3, 9}) {
      if (codes[question].times[code] > 0) continue;
      std::printf("reaching: %s: code %u never came up\n", question_names[question], code);
      all_came = false;
    }
  }
  all_came &= story_kinds.all_came("reaching", "additions");
  return !all_came;
}
