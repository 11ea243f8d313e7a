// Document 01's plans a to l and the plan of document 02's item 2, typed in from the papers with the answers they give, run on the reference and then on the
// linked calls. Beside them plans about links of fixed length, with tables worked out by hand, and one plan whose strict cells fall for ever; and files
// with the fields at fault that document 02's item 5 blames, through every call. Each plan goes through Sound and then Judge (item 7). Also document 01's
// "Easy ways to be wrong" that name a case.
#include <algorithm>
#include <cstdio>

#include "calls.hpp"
#include "lists.hpp"
#include "pair.hpp"

namespace {

int wrong = 0, blamed_answers = 0, sound_answers = 0;

void expect(bool good, const char *calls, const char *what) {
  if (good) return;
  ++wrong;
  std::printf("%s: case %s is not as the papers have it\n", calls, what);
}

using Cells = std::vector<std::int32_t>;

Judged judge(const Calls &calls, const Plan &plan) { return judge_pair(calls, file_of(plan), plan.points); }

// Sound answers this of the plan's file, and Judge belongs to it.
void sounds(const Calls &calls, const char *name, const Judged &judged, std::uint64_t answer) {
  ++sound_answers;
  expect(judged.sound == answer && judged.broken.empty(), calls.name, (std::string(name) + ", in Sound, which answers " + said(judged.sound) + ",").c_str());
}

// Write answers this; with 0 the buffer begins with the file of the plan, and else, as past the file, it stays.
void writes(const Calls &calls, const char *name, const Plan &plan, std::uint64_t answer) {
  std::vector<std::uint8_t> left = file_of(plan);
  const std::size_t size = answer == 0 ? left.size() : 0;
  left.resize(left.size() + 3);
  std::fill(left.begin() + size, left.end(), 7);
  std::vector<std::uint8_t> buffer(left.size(), 7);
  const Lists lists = lists_of(plan);
  expect(write_lists(calls.write, lists, places_of(lists), buffer.data(), buffer.size()) == answer && buffer == left, calls.name, name);
}

// Judge gives these tables and Check accepts them; the plan is one that is written.
void gives(const Calls &calls, const char *name, const Plan &plan, const Cells &strict, const Cells &open) {
  const Judged judged = judge(calls, plan);
  sounds(calls, name, judged, 0);
  expect(judged.answer == 0 && judged.strict == strict && judged.open == open, calls.name, name);
  const auto file = file_of(plan);
  expect(calls.check(file.data(), file.size(), strict.data(), strict.size(), open.data(), open.size()) == 0, calls.name, name);
  writes(calls, name, plan, 0);
}

// Judge takes the plan, whatever its tables.
void takes(const Calls &calls, const char *name, const Plan &plan) {
  const Judged judged = judge(calls, plan);
  sounds(calls, name, judged, 0);
  expect(judged.answer == 0, calls.name, name);
}

// With 11 the file is sound.
void refuses(const Calls &calls, const char *name, const Plan &plan, std::uint32_t code, std::uint32_t place = 0) {
  const Judged judged = judge(calls, plan);
  sounds(calls, name, judged, code == 11 ? 0 : code | std::uint64_t(place) << 32);
  expect(code_of(judged.answer) == code && place_of(judged.answer) == place, calls.name, name);
  const Cells left(plan.points * plan.points, code == 11 ? mark : 7);
  expect(judged.strict == left && judged.open == left, calls.name, name);
  writes(calls, name, plan, code == 11 ? 0 : judged.answer);
}

void earliest(const Calls &calls, const char *name, const Plan &plan, const Cells &times) {
  const auto file = file_of(plan);
  const Judged judged = judge(calls, plan);
  Cells strict(plan.points * plan.points), open(strict), got(plan.points);
  const auto answer = calls.earliest(file.data(), file.size(), strict.data(), strict.size(), open.data(), open.size(), got.data(), got.size());
  expect(answer == 0 && got == times && strict == judged.strict && open == judged.open, calls.name, name);
}

// Add to the plan's own tables; with code 0 the tables must become those of the plan with the limit, else stay.
void adds(const Calls &calls, const char *name, Plan plan, Limit limit, std::uint32_t code) {
  const auto file = file_of(plan);
  Judged judged = judge(calls, plan);
  const Judged before = judged;
  std::vector<std::int64_t> scratch(2 * plan.points * plan.points, 7);
  const auto answer = calls.add(file.data(), file.size(), limit.from, limit.to, std::int32_t(limit.weight), judged.strict.data(),
                                judged.strict.size(), judged.open.data(), judged.open.size(), scratch.data(), scratch.size());
  plan.limits.push_back(limit);
  const Judged after = code == 0 ? judge(calls, plan) : before;
  expect(answer == code && judged.strict == after.strict && judged.open == after.open, calls.name, name);
  expect(scratch == std::vector<std::int64_t>(scratch.size(), 0), calls.name, name);
}

// The case of document 02, item 2, and what lies about it.
void fixed_lengths(const Calls &calls) {
  gives(calls, "of document 02, item 2", {2, {}, {{0, 1, 40, 40}}}, {0, 40, -40, 0}, {0, 40, -40, 0});
  gives(calls, "of document 02, item 2, with u 41", {2, {}, {{0, 1, 40, 41}}}, {0, 41, -40, 0}, {0, 40, -40, 0});
  refuses(calls, "of document 02, item 2, with l 41", {2, {}, {{0, 1, 41, 40}}}, 7, 36);
  gives(calls, "l = u = 1", {2, {}, {{0, 1, 1, 1}}}, {0, 1, -1, 0}, {0, 1, -1, 0});
  gives(calls, "l = u = 1,000,000", {2, {}, {{0, 1, 1000000, 1000000}}}, {0, 1000000, -1000000, 0}, {0, 1000000, -1000000, 0});
  refuses(calls, "l = u = 0", {2, {}, {{0, 1, 0, 0}}}, 7, 32);
  refuses(calls, "l = u = 1,000,001", {2, {}, {{0, 1, 1000001, 1000001}}}, 7, 36);

  // To the end of a fixed link Lower asks for w < 0. By 1>3 -1 it yields 0>3 4 - 1; joins alone yield 8 - 1, as they do with two limits for the link.
  // Everything else is joins: 0>2 is 0>3 and -2, 3>0 is -2 and the start edge, 3>1 is 3>0 and 0>1, and 3>1 stays above D(1), which is 4.
  const Link first = {0, 1, 4, 8}, second = {2, 3, 2, 2};
  const Cells open_below = {0, 4, 1, 3, -4, 0, -3, -1, 0, 4, 0, 2, -2, 2, -2, 0};
  gives(calls, "of Lower to a fixed end, 1>3 -1", {4, {{1, 3, -1}}, {first, second}}, {0, 8, 1, 3, -4, 0, -3, -1, 0, 8, 0, 2, -2, 6, -2, 0}, open_below);
  gives(calls, "of two limits for a fixed link, 1>3 -1", {4, {{1, 3, -1}, {2, 3, 2}, {3, 2, -2}}, {first}},
        {0, 8, 5, 7, -4, 0, -3, -1, 0, 8, 0, 2, -2, 6, -2, 0}, open_below);
  // At 1>3 0 it does not apply, and 0>3 stays 8.
  gives(calls, "of Lower to a fixed end, 1>3 0", {4, {{1, 3, 0}}, {first, second}}, {0, 8, 6, 8, -4, 0, -2, 0, 0, 8, 0, 2, -2, 6, -2, 0},
        {0, 4, 2, 4, -4, 0, -2, 0, 0, 4, 0, 2, -2, 2, -2, 0});
}

// ---- document 02, item 5 ----

using Bytes = std::vector<std::uint8_t>;

// Fields of a file that are given other numbers, each by its offset; and the answer, with the offset of the field at fault.
struct Blamed {
  std::vector<std::pair<std::uint32_t, std::uint32_t>> moved;
  std::uint32_t code, place;
};

// The file through every call: "Every caller passes it on." Add is handed this limit, Write the fields of the file's records as lists. No room is large
// enough for anything, so that a call that does not refuse the file answers 9.
void blames(const Calls &calls, Bytes file, const Blamed &blamed, const Limit &added = {0, 1, 5}, bool add_alone = false) {
  std::string name = "of item 5 with";
  for (const auto &[at, number] : blamed.moved) set_field(file, at, number), name += " " + std::to_string(number) + " at " + std::to_string(at) + ",";
  const auto must = [&](const char *call, std::uint64_t answer) {
    const bool good = code_of(answer) == blamed.code && place_of(answer) == blamed.place;
    ++blamed_answers;
    expect(good, calls.name, (name + " " + notation(added) + " for Add, in " + call + ", which answers " + said(answer) + ",").c_str());
  };
  const std::uint8_t *const at = file.data();
  const std::size_t length = file.size();
  std::int32_t strict[1] = {}, open[1] = {}, times[1] = {};
  std::int64_t scratch[1] = {}, weights[1] = {};
  std::uint32_t kinds[1] = {}, froms[1] = {}, tos[1] = {}, firsts[1] = {}, seconds[1] = {};
  std::uint8_t buffer[1] = {};
  must("Add", calls.add(at, length, added.from, added.to, std::int32_t(added.weight), strict, 1, open, 1, scratch, 1));
  if (add_alone) return;
  must("Sound", calls.sound(at, length));
  must("Judge", calls.judge(at, length, strict, 1, open, 1));
  must("Check", calls.check(at, length, strict, 1, open, 1));
  must("Earliest", calls.earliest(at, length, strict, 1, open, 1, times, 1));
  must("Reasons", calls.reasons(at, length, kinds, 1, froms, 1, tos, 1, weights, 1, firsts, 1, seconds, 1, scratch, 1));
  const Lists lists = lists_in(file);
  must("Write", write_lists(calls.write, lists, places_of(lists), buffer, 1));
}

void places(const Calls &calls) {
  constexpr std::uint32_t top = 0xffffffff, over = 1000001, under = std::uint32_t(-1000001);
  // Limits at 24 and 36, links (A, C, l, u) at 48, 64 and 80.
  const Bytes small = file_of({4, {{0, 1, 10}, {1, 0, -3}}, {{0, 1, 2, 5}, {0, 2, 1, 4}, {1, 3, 1, 1}}});
  const std::vector<Blamed> in_small = {
      // "for a limit the first bad one of from, to, weight": each alone, and beside those before it.
      {{{24, 4}}, 6, 24}, {{{28, 4}}, 6, 28}, {{{32, over}}, 6, 32}, {{{32, under}}, 6, 32}, {{{36, top}}, 6, 36}, {{{40, top}}, 6, 40},
      {{{44, over}}, 6, 44}, {{{24, 4}, {28, 4}}, 6, 24}, {{{28, 4}, {32, over}}, 6, 28}, {{{24, 4}, {32, under}}, 6, 24},
      {{{36, 4}, {40, 4}, {44, over}}, 6, 36},
      // The limits by their order, and all of them before the links.
      {{{32, over}, {36, 4}}, 6, 32}, {{{44, over}, {48, 4}}, 6, 44}, {{{44, under}, {68, 1}}, 6, 44},
      // A and C out of range; C that is 0; "A equal to C is blamed on C", 0 too; but A out of range before anything about C.
      {{{48, 4}}, 7, 48}, {{{48, top}}, 7, 48}, {{{52, 4}}, 7, 52}, {{{52, top}}, 7, 52}, {{{48, 2}, {52, 0}}, 7, 52},
      {{{48, 1}}, 7, 52}, {{{52, 0}}, 7, 52}, {{{48, 4}, {52, 4}}, 7, 48}, {{{48, 4}, {52, 5}}, 7, 48}, {{{48, 4}, {52, 0}}, 7, 48},
      // "l only when it is 0", whatever u is; C before it.
      {{{56, 0}}, 7, 56}, {{{56, 0}, {60, 0}}, 7, 56}, {{{56, 0}, {60, over}}, 7, 56}, {{{52, 0}, {56, 0}}, 7, 52}, {{{48, 1}, {56, 0}}, 7, 52},
      {{{48, 4}, {56, 0}}, 7, 48},
      // u too small, "a wrong order of l and u on u" wherever l lies, u too large; each field before it.
      {{{60, 0}}, 7, 60}, {{{60, 1}}, 7, 60}, {{{56, 6}}, 7, 60}, {{{56, 1000000}}, 7, 60}, {{{56, over}}, 7, 60}, {{{56, top}}, 7, 60},
      {{{60, over}}, 7, 60}, {{{60, top}}, 7, 60}, {{{56, over}, {60, over}}, 7, 60}, {{{56, top}, {60, top}}, 7, 60},
      {{{56, over + 1}, {60, over}}, 7, 60}, {{{52, 4}, {60, 0}}, 7, 52}, {{{48, 1}, {60, over}}, 7, 52}, {{{48, 4}, {60, 1}}, 7, 48},
      // The fields of later links.
      {{{64, 4}}, 7, 64}, {{{68, 0}}, 7, 68}, {{{72, 0}}, 7, 72}, {{{76, 0}}, 7, 76}, {{{80, 4}}, 7, 80}, {{{80, 3}}, 7, 84},
      {{{88, 0}}, 7, 88}, {{{88, 2}}, 7, 92},
      // "for code 8 the C field", of the later link.
      {{{68, 1}}, 8, 68}, {{{84, 2}}, 8, 84}, {{{52, 2}}, 8, 68}, {{{52, 3}}, 8, 84}, {{{68, 1}, {84, 1}}, 8, 68}, {{{68, 3}}, 8, 84},
      // 7 before 8 in one link, whichever field is the first; but the links by their order.
      {{{68, 1}, {64, 4}}, 7, 64}, {{{68, 1}, {64, 1}}, 7, 68}, {{{68, 1}, {72, 0}}, 7, 72}, {{{68, 1}, {76, 0}}, 7, 76},
      {{{84, 2}, {92, over}}, 7, 92}, {{{68, 1}, {80, 4}}, 8, 68}, {{{68, 1}, {60, 0}}, 7, 60}, {{{84, 1}, {76, 0}}, 7, 76}};
  for (const Blamed &blamed : in_small) blames(calls, small, blamed);

  // The largest file: its last limit at 12,300, its links from 12,312, the last of them at 12,808.
  Plan plan = {64, std::vector<Limit>(most_limits, {0, 1, 5}), {}};
  for (std::uint32_t c = 1; c <= most_links; ++c) plan.links.push_back({0, c, 1, 9});
  const Bytes largest = file_of(plan);
  const std::vector<Blamed> in_largest = {{{{12300, 64}}, 6, 12300}, {{{12304, 64}}, 6, 12304}, {{{12308, over}}, 6, 12308}, {{{12312, 64}}, 7, 12312},
                                          {{{12808, 64}}, 7, 12808}, {{{12812, 0}}, 7, 12812},  {{{12816, 0}}, 7, 12816},    {{{12820, 0}}, 7, 12820},
                                          {{{12812, 1}}, 8, 12812}};
  for (const Blamed &blamed : in_largest) blames(calls, largest, blamed);

  // "A bad limit handed to Add reports offset 24 + 12m plus the field's offset in a record": behind the file's limits, before its links.
  const auto adds = [&](const Bytes &file, const Limit &limit, const Blamed &blamed) { blames(calls, file, blamed, limit, true); };
  for (const auto &[file, end] : {std::pair{file_of({4, {}, {}}), 24u}, {file_of({4, {}, {{0, 1, 2, 5}}}), 24u}, {small, 48u}}) {
    for (std::uint32_t bad : {4u, top}) adds(file, {bad, 1, 5}, {{}, 6, end}), adds(file, {1, bad, 5}, {{}, 6, end + 4});
    for (std::uint32_t bad : {over, under}) adds(file, {0, 1, std::int32_t(bad)}, {{}, 6, end + 8});
    adds(file, {4, 4, 5}, {{}, 6, end}), adds(file, {0, 4, over}, {{}, 6, end + 4}), adds(file, {4, 0, over}, {{}, 6, end});
  }
  adds(largest, {64, 0, 5}, {{}, 6, 12312}), adds(largest, {0, 64, 5}, {{}, 6, 12316}), adds(largest, {0, 0, -1000001}, {{}, 6, 12320});
  adds(small, {4, 1, 5}, {{{44, over}}, 6, 44}), adds(small, {0, 1, over}, {{{48, 4}}, 6, 56}), adds(small, {0, 4, 5}, {{{68, 1}}, 6, 52});
}

void cases(const Calls &calls) {
  gives(calls, "a", {1, {}, {}}, {0}, {0});

  const Plan b = {2, {{0, 1, 10}}, {}};
  std::vector<std::uint8_t> typed;
  for (std::uint32_t field : {1, 2, 1, 0, 24, 36, 0, 1, 10}) put_field(typed, field);
  expect(file_of(b) == typed && typed.size() == 36, calls.name, "b");
  gives(calls, "b", b, {0, 10, 0, 0}, {0, 10, 0, 0});
  earliest(calls, "b", b, {0, 0});

  gives(calls, "c", {2, {{0, 1, 10}, {1, 0, -10}}, {}}, {0, 10, -10, 0}, {0, 10, -10, 0});
  refuses(calls, "c", {2, {{0, 1, 10}, {1, 0, -11}}, {}}, 11);

  const Plan d = {3, {{0, 2, 12}, {1, 0, -4}, {1, 2, 6}, {2, 1, -3}}, {}};
  gives(calls, "d", d, {0, 9, 12, -4, 0, 6, -7, -3, 0}, {0, 9, 12, -4, 0, 6, -7, -3, 0});
  earliest(calls, "d", d, {0, 4, 7});

  const Plan e = {2, {}, {{0, 1, 2, 5}}};
  gives(calls, "e", e, {0, 5, -2, 0}, {0, 2, -2, 0});
  adds(calls, "f", e, {0, 1, 5}, 0);
  Plan e_and_5 = e;
  e_and_5.limits.push_back({0, 1, 5});
  expect(judge(calls, e).strict == judge(calls, e_and_5).strict, calls.name, "f");
  adds(calls, "f", e, {0, 1, 4}, 11);
  adds(calls, "f", e, {1, 0, -3}, 11);

  gives(calls, "g", {3, {{2, 1, 0}, {1, 2, 1}}, {{0, 1, 2, 5}}}, {0, 5, 6, -2, 0, 1, -2, 0, 0}, {0, 2, 3, -2, 0, 1, -2, 0, 0});
  gives(calls, "h", {3, {{1, 2, -1}, {2, 1, 4}}, {{0, 1, 2, 5}}}, {0, 5, 4, -2, 0, -1, -1, 4, 0}, {0, 2, 1, -2, 0, -1, -1, 1, 0});
  refuses(calls, "i", {3, {{1, 2, -1}, {2, 1, 3}}, {{0, 1, 2, 5}}}, 11);
  const std::vector<Link> two = {{0, 1, 1, 3}, {0, 2, 1, 2}};
  refuses(calls, "j", {3, {{1, 2, 0}}, two}, 11);
  takes(calls, "j", {3, {{1, 2, 1}}, two});
  refuses(calls, "k", {2, {{1, 1, -1}}, {}}, 11);
  takes(calls, "k", {2, {{1, 1, 0}}, {}});

  refuses(calls, "l", {65, {}, {}}, 3);
  refuses(calls, "l", {2, {{0, 1, 1000001}}, {}}, 6, 32);
  takes(calls, "l", {2, {{0, 1, 1000000}}, {}});
  refuses(calls, "l", {2, {}, {{0, 1, 0, 5}}}, 7, 32);
  takes(calls, "l", {2, {}, {{0, 1, 1, 1000000}}});

  fixed_lengths(calls);
  places(calls);

  // Strict cells fall for ever and no strict diagonal turns negative; the open one does.
  refuses(calls, "of falling cells", {4, {{2, 3, -3}}, {{3, 2, 1, 7}, {0, 1, 2, 7}}}, 11);
}

// "Easy ways to be wrong": the paper says what each does to a case.
void ways_to_be_wrong() {
  const auto controllable = [](const Plan &plan, const reference::Altered &altered) {
    return reference::settle(plan, most_weight, altered).controllable;
  };
  reference::Altered longest, shortest, reads_open, no_shortest, own_point, no_lower;
  longest.only_longest = shortest.only_shortest = reads_open.upper_reads_open = true;
  no_shortest.upper_without_shortest = own_point.lower_at_own_point = no_lower.without_lower = true;
  const Plan e = {2, {}, {{0, 1, 2, 5}}};
  const Plan g = {3, {{2, 1, 0}, {1, 2, 1}}, {{0, 1, 2, 5}}};
  const Plan i = {3, {{1, 2, -1}, {2, 1, 3}}, {{0, 1, 2, 5}}};
  const Plan j = {3, {{1, 2, 0}}, {{0, 1, 1, 3}, {0, 2, 1, 2}}};
  expect(controllable(i, longest) && controllable(i, shortest), "altered", "i, one duration only");
  expect(!controllable(e, reads_open), "altered", "e, Upper from the open table");
  expect(!controllable(g, no_shortest), "altered", "g, Upper without -l");
  expect(!controllable(e, own_point), "altered", "e, Lower with R = C");
  expect(controllable(j, no_lower), "altered", "j, without Lower");
}

}  // namespace

int main() {
  cases(reference_calls);
  ways_to_be_wrong();
  if (wrong > 0) return 1;  // nothing below means anything while the reference is wrong
  blamed_answers = sound_answers = 0;
  cases(linked_calls);
  std::printf("cases a to l, document 02's item 2 and fixed lengths about it, %d of these plans through Sound first, %d answers with the field that item 5 "
              "blames: reference as the papers have them, linked calls %s\n", sound_answers, blamed_answers, wrong ? "NOT as the papers have them" : "as the papers have them");
  return wrong > 0;
}
