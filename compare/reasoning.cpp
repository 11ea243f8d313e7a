// Reasons and Rests held against the reference. First lists typed here, worked out by hand from document 02's item 4: document 01's refused plans and others
// about each sentence, with every room in turn too short, exact and longer; and what the lines of made lists rest on. Then random plans, refused ones favoured,
// damaged files, and lists that no plan gives. Every list that is written is also followed line by line, by a reader who does not know how it was made, and its
// verdict is that of the reference's Judge.
#include <algorithm>

#include "follows.hpp"
#include "ground.hpp"
#include "hold.hpp"
#include "shapes.hpp"
#include "shrink.hpp"

namespace {

using Bytes = std::vector<std::uint8_t>;
using Numbers = std::vector<std::uint32_t>;
using reference::Line;

// ---- Reasons, run by both ----

// What is lent beside the file, in the call's order.
enum Room : std::size_t { kinds, froms, tos, weights, firsts, seconds, work, room_count };
constexpr std::size_t list_count = work;
constexpr const char *room_names[] = {"kinds", "froms", "tos", "weights", "firsts", "seconds", "work room"};

// One call. `spare` is how much longer each room is than needed, and below 0 how much shorter, down to none: so it says the same of a smaller plan.
struct Asked {
  Bytes file;
  std::array<Wide, room_count> spare{};
  std::size_t past = 0;
  std::uint32_t content = 0;  // what the rooms are filled from
};
constexpr Wide none_at_all = -(Wide(1) << 40);

struct Rooms {
  std::array<Numbers, room_count> numbers;             // but for the two of 64 bits
  std::array<std::vector<std::int64_t>, room_count> wide;  // weights and work room only

  static bool is_wide(std::size_t room) { return room == weights || room == work; }
  std::size_t size(std::size_t room) const { return is_wide(room) ? wide[room].size() : numbers[room].size(); }

  std::vector<Line> lines(std::size_t count) const {
    std::vector<Line> lines;
    for (std::size_t i = 0; i < count; ++i)
      lines.push_back({numbers[kinds][i], numbers[froms][i], numbers[tos][i], wide[weights][i], numbers[firsts][i], numbers[seconds][i]});
    return lines;
  }
};

// A file that is refused needs no room; there are some lines and cells all the same, which must stay.
Rooms rooms_for(const Asked &asked) {
  const reference::Reading reading = reference::read(asked.file.data(), asked.file.size());
  Wide lines = 6, cells = 4 * 4 * 4;
  if (reading.code == 0) {
    const reference::Reasons found = reference::reasons_of(reading.plan);
    lines = found.refused ? Wide(found.lines.size()) : 0;
    cells = 4 * Wide(reading.plan.points) * reading.plan.points;
  }
  Rooms rooms;
  std::uint32_t number = asked.content;
  for (std::size_t room = 0; room < room_count; ++room) {
    const std::size_t size = std::size_t(std::max<Wide>(0, (room == work ? cells : lines) + asked.spare[room]));
    const auto fill = [&](auto &content) {
      content.resize(size);
      for (auto &cell : content) cell = std::int32_t(number += 0x9e3779b9u);
    };
    if (Rooms::is_wide(room)) fill(rooms.wide[room]);
    else fill(rooms.numbers[room]);
  }
  return rooms;
}

struct Places {
  const std::uint8_t *file;
  std::array<std::uint32_t *, room_count> numbers;
  std::array<std::int64_t *, room_count> wide;
};

std::uint64_t run(decltype(&post_reasons) reasons, const Places &at, std::size_t file_size, const Rooms &rooms) {
  return reasons(at.file, file_size, at.numbers[kinds], rooms.size(kinds), at.numbers[froms], rooms.size(froms), at.numbers[tos], rooms.size(tos),
                 at.wide[weights], rooms.size(weights), at.numbers[firsts], rooms.size(firsts), at.numbers[seconds], rooms.size(seconds), at.wide[work],
                 rooms.size(work));
}

struct Result {
  std::string difference;  // in a sentence, or nothing
  std::uint64_t wanted = 0;
  bool hung = false;
  Rooms lent, left;
};

Result run_both(const Asked &asked) {
  static const Ground grounds[room_count + 1];
  Result result;
  result.lent = rooms_for(asked);
  const Rooms &lent = result.lent;
  Rooms expected = lent;
  Places places = {asked.file.data(), {}, {}};
  for (std::size_t room = 0; room < room_count; ++room)
    places.numbers[room] = expected.numbers[room].data(), places.wide[room] = expected.wide[room].data();
  result.wanted = run(reference_calls.reasons, places, asked.file.size(), lent);

  const Lent<std::uint8_t> file(grounds[room_count], asked.file, asked.past, "file");
  places.file = file.cells;
  std::vector<Lent<std::uint32_t>> numbers;
  std::vector<Lent<std::int64_t>> wide;
  for (std::size_t room = 0; room < room_count; ++room)
    if (Rooms::is_wide(room)) wide.emplace_back(grounds[room], lent.wide[room], asked.past, room_names[room]), places.wide[room] = wide.back().cells;
    else numbers.emplace_back(grounds[room], lent.numbers[room], asked.past, room_names[room]), places.numbers[room] = numbers.back().cells;
  const Ended ended = run_guarded([&] { return run(linked_calls.reasons, places, asked.file.size(), lent); });
  result.hung = ended.hung;
  result.difference = ended.stopped;
  if (!ended.stopped.empty()) return result;

  const auto see = [&](const std::string &found) {
    if (result.difference.empty()) result.difference = found;
  };
  see(answers_differ(ended.answer, result.wanted));
  see(file.touched_outside());
  see(file.differs(asked.file));
  auto number = numbers.begin();
  auto wide_one = wide.begin();
  for (std::size_t room = 0; room < room_count; ++room) {
    const auto look = [&](const auto &lent_room, const auto &wanted, auto &left) {
      see(lent_room.touched_outside());
      see(lent_room.differs(wanted));
      left = lent_room.content();
    };
    if (Rooms::is_wide(room)) look(*wide_one++, expected.wide[room], result.left.wide[room]);
    else look(*number++, expected.numbers[room], result.left.numbers[room]);
  }
  return result;
}

// ---- a difference ----

[[noreturn]] void report(const std::string &difference, const Asked &asked, const Budget &budget) {
  const reference::Reading reading = reference::read(asked.file.data(), asked.file.size());
  const Rooms rooms = rooms_for(asked);
  std::printf("DIFFERENCE in Reasons: %s\n", difference.c_str());
  if (reading.code == 0) std::printf("  plan: %s\n", notation(reading.plan).c_str());
  else std::printf("  plan: a file of %zu bytes that the reference refuses with %u %u\n", asked.file.size(), reading.code, reading.place);
  std::printf("  rooms:");
  for (std::size_t room = 0; room < room_count; ++room) std::printf(" %s %zu%s", room_names[room], rooms.size(room), room + 1 < room_count ? "," : "\n");
  if (reading.code == 0) {
    const reference::Reasons found = reference::reasons_of(reading.plan);
    std::printf("  the reference's list%s\n", found.refused ? ":" : " does not close; it writes none of:");
    for (std::size_t i = 0; i < found.lines.size() && i < 60; ++i) std::printf("    %zu: %s\n", i, notation(found.lines[i]).c_str());
  }
  budget.found();
}

// The same call on a smaller plan: fewer records, fewer points, smaller numbers, rooms as needed. A step is kept if the calls still differ.
struct Shrink {
  Asked small;
  int tries = 2000;

  Plan plan() const { return reference::read(small.file.data(), small.file.size()).plan; }

  bool take(const Asked &smaller) {
    const reference::Reading reading = reference::read(smaller.file.data(), smaller.file.size());
    if (reading.code != 0 || tries-- <= 0 || run_both(smaller).difference.empty()) return false;
    small = smaller;
    return true;
  }

  bool take(const Plan &smaller) {
    Asked asked = small;
    asked.file = file_of(smaller);
    return take(asked);
  }

  bool fewer_records() {
    bool any = false;
    for (std::size_t step = std::max<std::size_t>(1, plan().limits.size() / 2); step > 0; step /= 2)
      for (std::size_t i = 0; i < plan().limits.size();) {
        Plan fewer = plan();
        fewer.limits.erase(fewer.limits.begin() + std::ptrdiff_t(i), fewer.limits.begin() + std::ptrdiff_t(std::min(i + step, fewer.limits.size())));
        if (take(fewer)) any = true;
        else i += step;
      }
    for (std::size_t i = 0; i < plan().links.size();) {
      Plan fewer = plan();
      fewer.links.erase(fewer.links.begin() + std::ptrdiff_t(i));
      if (take(fewer)) any = true;
      else ++i;
    }
    return any;
  }

  // Without a point that no record names.
  bool fewer_points() {
    bool any = false;
    for (std::uint32_t point = plan().points; --point > 0;) {
      Plan fewer = plan();
      bool named = false;
      const auto rename = [&](std::uint32_t &x) { named |= x == point, x -= x > point; };
      for (Limit &limit : fewer.limits) rename(limit.from), rename(limit.to);
      for (Link &link : fewer.links) rename(link.activation), rename(link.contingent);
      --fewer.points;
      if (!named && take(fewer)) any = true;
    }
    return any;
  }

  bool smaller_numbers_in_it() {
    bool any = false;
    for (std::size_t i = 0; i < plan().limits.size(); ++i)
      for (Wide number : smaller_numbers(plan().limits[i].weight)) {
        Plan smaller = plan();
        smaller.limits[i].weight = number;
        if (take(smaller)) { any = true; break; }
      }
    for (std::size_t i = 0; i < plan().links.size(); ++i)
      for (auto field : {&Link::shortest, &Link::longest})
        for (Wide number : smaller_numbers(plan().links[i].*field)) {
          Plan smaller = plan();
          smaller.links[i].*field = std::uint32_t(number);
          if (take(smaller)) { any = true; break; }
        }
    return any;
  }

  bool rooms_as_needed() {
    bool any = false;
    for (Wide &spare : small.spare)
      for (Wide number : smaller_numbers(spare)) {
        Asked asked = small;
        asked.spare[std::size_t(&spare - small.spare.data())] = number;
        if (take(asked)) { any = true; break; }
      }
    return any;
  }

  void shrink() {
    for (bool any = true; any && tries > 0;) {
      any = fewer_records();
      any |= fewer_points();
      any |= smaller_numbers_in_it();
      any |= rooms_as_needed();
    }
  }
};

// ---- Rests, run by both ----

struct Chain {
  Numbers kinds, firsts, seconds;
  std::size_t past = 0;

  void line(std::uint32_t kind, std::uint32_t first, std::uint32_t second) {
    kinds.push_back(kind), firsts.push_back(first), seconds.push_back(second);
  }
  std::size_t length() const { return std::min({kinds.size(), firsts.size(), seconds.size()}); }
};

[[noreturn]] void report_rests(const std::string &difference, const Chain &chain, std::uint32_t line, const Budget &budget) {
  std::printf("DIFFERENCE in Rests: %s\n  plan: none, lists of %zu, %zu and %zu lines, and line %u\n", difference.c_str(), chain.kinds.size(),
              chain.firsts.size(), chain.seconds.size(), line);
  for (std::size_t i = 0; i < chain.length() && i <= line && i < 60; ++i)
    std::printf("    %zu: kind %u by %u and %u\n", i, chain.kinds[i], chain.firsts[i], chain.seconds[i]);
  budget.found();
}

struct RestsSeen {
  std::uint64_t lists = 0, asked = 0, at_most = 0, past = 0, of_no_kind = 0;
  std::uint32_t most_below = 0;  // of those that were not cut to a million
};

// Every line of `lines` must rest on as many as the reference has, and the lists stay as they are. Returns what they rest on.
Numbers hold_rests(const Chain &chain, const Numbers &lines, RestsSeen &seen, const Budget &budget) {
  static const Ground grounds[3];
  const Lent<std::uint32_t> kinds(grounds[0], chain.kinds, chain.past, "kinds"), firsts(grounds[1], chain.firsts, chain.past, "firsts"),
      seconds(grounds[2], chain.seconds, chain.past, "seconds");
  const std::size_t length = chain.length();
  const Numbers all = reference::rests_of_all(chain.kinds.data(), chain.firsts.data(), chain.seconds.data(), length);
  Numbers on;
  for (const std::uint32_t line : lines) {
    const std::uint32_t wanted = line < length ? all[line] : 0;
    on.push_back(wanted);
    const Ended ended = run_guarded([&] {
      return linked_calls.rests(kinds.cells, chain.kinds.size(), firsts.cells, chain.firsts.size(), seconds.cells, chain.seconds.size(), line);
    });
    if (!ended.stopped.empty()) report_rests(ended.stopped, chain, line, budget);
    if (ended.answer != wanted)
      report_rests("it answers " + std::to_string(ended.answer) + ", the reference " + std::to_string(wanted), chain, line, budget);
    ++seen.asked;
    seen.at_most += wanted == reference::most_rests;
    seen.past += line >= length;
    seen.of_no_kind += line < length && (chain.kinds[line] < 1 || chain.kinds[line] > 9);
    if (wanted < reference::most_rests) seen.most_below = std::max(seen.most_below, wanted);
  }
  for (const auto *list : {&kinds, &firsts, &seconds}) {
    const Numbers &before = list == &kinds ? chain.kinds : list == &firsts ? chain.firsts : chain.seconds;
    for (const std::string &found : {list->touched_outside(), list->differs(before)})
      if (!found.empty()) report_rests(found, chain, lines.back(), budget);
  }
  ++seen.lists;
  return on;
}

Numbers lines_to(std::size_t end) {
  Numbers lines;
  for (std::size_t line = 0; line < end; ++line) lines.push_back(std::uint32_t(line));
  for (std::uint32_t beyond : {0x7fffffffu, 0x80000000u, 0xffffffffu}) lines.push_back(beyond);
  return lines;
}

// ---- what came up ----

struct Seen {
  Codes codes;
  Fields fields;
  std::array<std::uint64_t, 10> kinds{}, last_kinds{};
  std::array<std::uint64_t, list_count> only_short{};  // 9 for a list, by the list that was the only short one
  std::uint64_t calls = 0, short_work = 0, short_list = 0, no_room_and_done = 0, most_lines = 0, lines = 0;
  unsigned most_sweeps = 0;
  RestsSeen rests;
};

// Runs the call and insists that there is no difference; that what was written follows line by line; and that the verdict is Judge's. Returns the answer.
std::uint64_t hold(const Asked &asked, Seen &seen, const Budget &budget) {
  const Result result = run_both(asked);
  if (!result.difference.empty()) {
    Shrink shrink{asked};
    if (!result.hung) shrink.shrink();
    report(run_both(shrink.small).difference, shrink.small, budget);
  }
  const std::uint32_t code = code_of(result.wanted), place = place_of(result.wanted);
  seen.codes.count(result.wanted);
  seen.fields.count(result.wanted, field_at(asked.file, 8));
  ++seen.calls;
  const reference::Reading reading = reference::read(asked.file.data(), asked.file.size());
  if (reading.code != 0) return result.wanted;
  const bool enough_work = asked.spare[work] >= 0;
  if (!enough_work) {
    ++seen.short_work;
    if (code != 9) report("the work room is too short, and it answers " + said(result.wanted), asked, budget);
    return result.wanted;
  }
  if ((code == 0) != reference::settle(reading.plan, most_weight).controllable)
    report("it answers " + said(result.wanted) + ", and Judge has the other verdict", asked, budget);
  std::size_t shorts = 0, one = 0;
  for (std::size_t list = 0; list < list_count; ++list)
    if (asked.spare[list] < 0) ++shorts, one = list;
  seen.no_room_and_done += code == 0 && std::all_of(asked.spare.begin(), asked.spare.begin() + list_count, [](Wide spare) { return spare <= 0; });
  seen.short_list += code == 9;
  if (code == 9 && shorts == 1) ++seen.only_short[one];
  if (code != 11) return result.wanted;

  const std::vector<Line> lines = result.left.lines(place);
  const std::string fault = not_following(reading.plan, lines);
  if (!fault.empty()) report(fault, asked, budget);
  for (const Line &line : lines) ++seen.kinds[line.kind];
  ++seen.last_kinds[lines.back().kind];
  seen.lines += lines.size();
  seen.most_lines = std::max<std::uint64_t>(seen.most_lines, lines.size());
  return result.wanted;
}

// Rests of every line of a plan's list, and past it; now and then of lists of different lengths.
void hold_rests_of(Random &random, const std::vector<Line> &lines, RestsSeen &seen, const Budget &budget) {
  Chain chain;
  for (const Line &line : lines) chain.line(line.kind, line.first, line.second);
  chain.past = random.below(4);
  if (random.one_in(4)) {
    auto &list = random.one_in(3) ? chain.kinds : random.one_in(2) ? chain.firsts : chain.seconds;
    list.resize(random.below(std::uint32_t(list.size()) + 1));
  }
  hold_rests(chain, lines_to(lines.size() + 2), seen, budget);
}

// ---- typed answers ----

// A plan that takes a sweep for each of its links: from 1, Upper leads from the end of one link to its activation, a limit from there to the end of the next.
// The last limit leads back to 1, and closes below zero only with the number that the last Upper gives.
Plan stairs(std::uint32_t links, Wide back) {
  Plan plan;
  plan.points = 2 + 2 * links;
  plan.limits.push_back({1, 3, 10 * Wide(links)});
  for (std::uint32_t i = 0; i < links; ++i) {
    const std::uint32_t activation = 2 + 2 * i, end = 3 + 2 * i;
    plan.links.push_back({activation, end, 1, 10});
    if (i + 1 < links) plan.limits.push_back({activation, end + 2, 0});
    else plan.limits.push_back({activation, 1, back});
  }
  return plan;
}

struct Typed {
  const Budget &budget;
  Random random;
  Seen seen;
  std::uint64_t lists = 0, typed_lines = 0;

  explicit Typed(const Budget &budget) : budget(budget), random(budget.seed) {}

  Asked asked(const Bytes &file) {
    Asked asked;
    asked.file = file;
    asked.past = random.one_in(2) ? 0 : 1 + random.below(8);
    asked.content = std::uint32_t(random.next());
    return asked;
  }

  void must(const Asked &asked, std::uint32_t code, std::uint32_t place = 0) {
    const std::uint64_t answer = hold(asked, seen, budget);
    if (code_of(answer) != code || place_of(answer) != place)
      report("both answer " + said(answer) + ", and it must be " + std::to_string(code) + " " + std::to_string(place), asked, budget);
  }

  // Each room in turn too short, with none, exact and longer.
  void rooms(const Bytes &file, std::uint32_t code, std::uint32_t place) {
    const auto with = [&](std::size_t room, Wide spare) {
      Asked one = asked(file);
      one.spare[room] = spare;
      return one;
    };
    must(asked(file), code, place);
    for (std::size_t list = 0; list < list_count; ++list) {
      for (Wide spare : {Wide(-1), Wide(-2), none_at_all}) must(with(list, spare), code == 11 ? 9 : code, code == 11 ? 0 : place);
      for (Wide spare : {1, 7}) must(with(list, spare), code, place);
    }
    for (Wide spare : {Wide(-1), Wide(-3), none_at_all}) must(with(work, spare), 9);
    for (Wide spare : {1, 4, 1000}) must(with(work, spare), code, place);
    Asked all = asked(file);
    for (Wide spare : {Wide(1), Wide(3), Wide(5000)}) all.spare.fill(spare), must(all, code, place);
    all.spare.fill(-1), must(all, 9);
    all.spare.fill(none_at_all), must(all, 9);
    all.spare[work] = 0, must(all, code == 11 ? 9 : code, code == 11 ? 0 : place);
  }

  void refused(const Plan &plan, const std::vector<Line> &lines) {
    const Asked exact = asked(file_of(plan));
    const reference::Reasons found = reference::reasons_of(plan);
    for (std::size_t i = 0; i < lines.size() || i < found.lines.size(); ++i)
      if (i >= lines.size() || i >= found.lines.size() || !(lines[i] == found.lines[i]))
        report("line " + std::to_string(i) + " of the reference's list is not the typed one" + (i < lines.size() ? ", " + notation(lines[i]) : ""), exact, budget);
    rooms(exact.file, 11, std::uint32_t(lines.size()));
    hold_rests_of(random, lines, seen.rests, budget);
    ++lists;
    typed_lines += lines.size();
  }

  void controllable(const Plan &plan) { rooms(file_of(plan), 0, 0), ++lists; }

  void unsound(const Bytes &file, std::uint32_t code, std::uint32_t place = 0) {
    Asked one = asked(file);
    for (Wide spare : {Wide(0), Wide(20000), none_at_all}) one.spare.fill(spare), must(one, code, place);
  }

  void plans_of_the_papers() {
    controllable({1, {}, {}});                                                // a
    controllable({2, {{0, 1, 10}}, {}});                                      // b
    controllable({2, {{0, 1, 10}, {1, 0, -10}}, {}});                         // c
    refused({2, {{0, 1, 10}, {1, 0, -11}}, {}},
            {{1, 1, 0, 0, 0, 0}, {2, 0, 1, 10, 0, 0}, {2, 1, 0, -11, 1, 0}, {6, 1, 1, -1, 2, 1}});
    controllable({3, {{0, 2, 12}, {1, 0, -4}, {1, 2, 6}, {2, 1, -3}}, {}});   // d
    controllable({2, {}, {{0, 1, 2, 5}}});                                    // e
    // f: the limit is the best, and Upper's second line is still the link's longest.
    refused({2, {{0, 1, 4}}, {{0, 1, 2, 5}}},
            {{1, 1, 0, 0, 0, 0}, {2, 0, 1, 4, 0, 0}, {3, 0, 1, 5, 0, 0}, {4, 1, 0, -2, 0, 0}, {5, 0, 1, 2, 0, 0}, {8, 0, 0, -1, 1, 2}});
    // f: the link's shortest line is written and does not become the best.
    refused({2, {{1, 0, -3}}, {{0, 1, 2, 5}}},
            {{1, 1, 0, 0, 0, 0}, {2, 1, 0, -3, 0, 0}, {3, 0, 1, 5, 0, 0}, {4, 1, 0, -2, 0, 0}, {5, 0, 1, 2, 0, 0}, {9, 1, 1, -1, 1, 4}});
    controllable({3, {{2, 1, 0}, {1, 2, 1}}, {{0, 1, 2, 5}}});                // g
    controllable({3, {{1, 2, -1}, {2, 1, 4}}, {{0, 1, 2, 5}}});               // h
    refused({3, {{1, 2, -1}, {2, 1, 3}}, {{0, 1, 2, 5}}},                     // i
            {{1, 1, 0, 0, 0, 0}, {1, 2, 0, 0, 0, 0}, {2, 1, 2, -1, 0, 0}, {2, 2, 1, 3, 1, 0}, {3, 0, 1, 5, 0, 0}, {4, 1, 0, -2, 0, 0},
             {5, 0, 1, 2, 0, 0}, {6, 0, 2, 4, 4, 2}, {8, 2, 0, -2, 3, 4}, {9, 2, 1, 0, 8, 6}, {9, 0, 2, 1, 6, 2}, {9, 2, 2, -1, 9, 2}});
    const std::vector<Link> two = {{0, 1, 1, 3}, {0, 2, 1, 2}};
    refused({3, {{1, 2, 0}}, two},                                            // j
            {{1, 1, 0, 0, 0, 0}, {1, 2, 0, 0, 0, 0}, {2, 1, 2, 0, 0, 0}, {3, 0, 1, 3, 0, 0}, {4, 1, 0, -1, 0, 0}, {5, 0, 1, 1, 0, 0},
             {3, 0, 2, 2, 1, 0}, {4, 2, 0, -1, 1, 0}, {5, 0, 2, 1, 1, 0}, {6, 2, 1, 2, 7, 3}, {7, 0, 2, 1, 5, 2}, {8, 0, 0, -1, 10, 6}});
    controllable({3, {{1, 2, 1}}, two});
    refused({2, {{1, 1, -1}}, {}}, {{1, 1, 0, 0, 0, 0}, {2, 1, 1, -1, 0, 0}});  // k
    controllable({2, {{1, 1, 0}}, {}});
    controllable({2, {}, {{0, 1, 40, 40}}});  // document 02, item 2
    // The hall in examples/hall_as_it_was.txt: it takes a second sweep to close.
    refused({5, {{3, 2, 0}, {0, 3, 300}, {3, 0, -300}}, {{0, 1, 60, 240}, {1, 2, 30, 90}, {3, 4, 30, 90}}},
            {{1, 1, 0, 0, 0, 0},      {1, 2, 0, 0, 0, 0},      {1, 3, 0, 0, 0, 0},      {1, 4, 0, 0, 0, 0},       {2, 3, 2, 0, 0, 0},
             {2, 0, 3, 300, 1, 0},    {2, 3, 0, -300, 2, 0},   {3, 0, 1, 240, 0, 0},    {4, 1, 0, -60, 0, 0},     {5, 0, 1, 60, 0, 0},
             {3, 1, 2, 90, 1, 0},     {4, 2, 1, -30, 1, 0},    {5, 1, 2, 30, 1, 0},     {3, 3, 4, 90, 2, 0},      {4, 4, 3, -30, 2, 0},
             {5, 3, 4, 30, 2, 0},     {6, 1, 3, 240, 8, 5},    {6, 2, 3, 300, 1, 5},    {6, 3, 1, -60, 6, 7},     {6, 4, 1, 240, 3, 7},
             {6, 0, 2, 330, 7, 10},   {6, 2, 0, -90, 11, 8},   {6, 2, 3, 210, 11, 16},  {6, 4, 2, 330, 19, 10},   {6, 0, 2, 300, 5, 4},
             {6, 0, 4, 390, 5, 13},   {6, 1, 4, 330, 16, 13},  {6, 2, 4, 300, 22, 13},  {6, 4, 0, -330, 14, 6},   {6, 4, 1, -90, 14, 18},
             {6, 4, 2, -30, 14, 4},   {8, 0, 1, 210, 24, 10},  {9, 3, 1, -240, 6, 9},   {9, 4, 1, -270, 28, 9},   {9, 0, 2, 90, 9, 12},
             {9, 3, 2, -210, 32, 12}, {9, 4, 2, -240, 33, 12}, {9, 0, 4, 330, 5, 15},   {9, 1, 4, 270, 16, 15},   {9, 2, 4, 240, 22, 15},
             {6, 3, 1, -90, 6, 31},   {6, 4, 1, -120, 28, 31}, {8, 0, 0, -30, 31, 7}});
  }

  void about_single_sentences() {
    // "ties keep the older line": a limit as heavy as the start edge and a second equal limit are not written, nor is a limit 0 from a point to itself.
    refused({2, {{1, 0, 0}, {0, 1, 5}, {0, 1, 5}, {1, 1, 0}, {1, 0, -6}}, {}},
            {{1, 1, 0, 0, 0, 0}, {2, 0, 1, 5, 1, 0}, {2, 1, 0, -6, 4, 0}, {6, 1, 1, -1, 2, 1}});
    // With one point there is no start edge.
    refused({1, {{0, 0, 5}, {0, 0, -7}, {0, 0, -8}}, {}}, {{2, 0, 0, -7, 1, 0}});
    // "It stops at the first line below zero from a point to itself": before the links, whose three lines are else always written.
    refused({3, {{2, 2, -1}, {0, 1, -5}}, {{0, 1, 2, 5}}}, {{1, 1, 0, 0, 0, 0}, {1, 2, 0, 0, 0, 0}, {2, 2, 2, -1, 0, 0}});
    // A limit that weighs what the link's longest and lower-case lines do: both are written, and the limit stays the best of both sorts.
    refused({2, {{0, 1, 2}, {1, 0, -3}}, {{0, 1, 2, 2}}},
            {{1, 1, 0, 0, 0, 0}, {2, 0, 1, 2, 0, 0}, {2, 1, 0, -3, 1, 0}, {3, 0, 1, 2, 0, 0}, {4, 1, 0, -2, 0, 0}, {5, 0, 1, 2, 0, 0},
             {6, 1, 1, -1, 2, 1}});
    // Lower asks for w < D(R): at 1>2 2 it does not apply, and only Upper's line from 1 to 0 closes, with the lower-case line.
    refused({3, {{1, 2, 2}}, {{0, 1, 1, 5}, {0, 2, 2, 4}}},
            {{1, 1, 0, 0, 0, 0}, {1, 2, 0, 0, 0, 0}, {2, 1, 2, 2, 0, 0}, {3, 0, 1, 5, 0, 0}, {4, 1, 0, -1, 0, 0}, {5, 0, 1, 1, 0, 0},
             {3, 0, 2, 4, 1, 0}, {4, 2, 0, -2, 1, 0}, {5, 0, 2, 2, 1, 0}, {6, 2, 1, 3, 7, 3}, {8, 1, 0, -2, 2, 6}, {9, 1, 1, -1, 10, 5}});
    // Strict joins, then Lower, then Upper from what Lower just gave, then open joins of strict lines: each reads the best line of that moment.
    refused({4, {{0, 1, 2}, {1, 2, 0}, {3, 0, -4}}, {{0, 1, 2, 2}, {2, 3, 1, 4}}},
            {{1, 1, 0, 0, 0, 0},    {1, 2, 0, 0, 0, 0},    {1, 3, 0, 0, 0, 0},   {2, 0, 1, 2, 0, 0},   {2, 1, 2, 0, 1, 0},    {2, 3, 0, -4, 2, 0},
             {3, 0, 1, 2, 0, 0},    {4, 1, 0, -2, 0, 0},   {5, 0, 1, 2, 0, 0},   {3, 2, 3, 4, 1, 0},   {4, 3, 2, -1, 1, 0},   {5, 2, 3, 1, 1, 0},
             {6, 2, 1, 2, 1, 3},    {6, 3, 1, -2, 5, 3},   {6, 0, 2, 2, 3, 4},   {6, 3, 2, -2, 13, 4}, {6, 0, 3, 6, 14, 9},   {6, 1, 3, 4, 4, 9},
             {7, 2, 1, -1, 11, 13}, {8, 2, 0, -2, 18, 6},  {9, 2, 0, -3, 18, 7}, {9, 2, 2, -1, 18, 4}});
    // Lower closes by itself: 2 is at least 2 before its activation 1, and 1 is a contingent point.
    refused({3, {{2, 1, -3}}, {{0, 1, 1, 9}, {1, 2, 2, 7}}},
            {{1, 1, 0, 0, 0, 0}, {1, 2, 0, 0, 0, 0}, {2, 2, 1, -3, 0, 0}, {3, 0, 1, 9, 0, 0}, {4, 1, 0, -1, 0, 0}, {5, 0, 1, 1, 0, 0},
             {3, 1, 2, 7, 1, 0}, {4, 2, 1, -2, 1, 0}, {5, 1, 2, 2, 1, 0}, {6, 0, 2, 16, 3, 6}, {6, 2, 0, -4, 2, 4}, {7, 1, 1, -1, 8, 2}});
  }

  void many_sweeps() {
    for (std::uint32_t links : {1u, 2u, 5u, 10u, 20u})
      for (Wide back : {-1, 0}) {
        const Plan plan = stairs(links, back);
        const reference::Reasons found = reference::reasons_of(plan);
        const Asked exact = asked(file_of(plan));
        if (found.refused != (back < 0) || found.sweeps != links + !found.refused) report("the sweeps are not one for each link", exact, budget);
        if (links < 10) rooms(exact.file, found.refused ? 11 : 0, found.refused ? std::uint32_t(found.lines.size()) : 0), ++lists;
        else must(exact, found.refused ? 11 : 0, found.refused ? std::uint32_t(found.lines.size()) : 0), ++lists;
      }
  }

  void codes() {
    Bytes file = file_of({3, {{1, 2, -1}, {2, 1, 3}}, {{0, 1, 2, 5}}});
    const auto with = [&](std::size_t at, std::uint32_t number) {
      Bytes moved = file;
      set_field(moved, at, number);
      return moved;
    };
    unsound({}, 1);
    unsound(Bytes(file.begin(), file.begin() + 23), 1);
    unsound(with(0, 2), 2);
    unsound(with(4, 0), 3);
    unsound(with(4, 65), 3);
    unsound(with(8, 1025), 4);
    unsound(with(12, 33), 4);
    unsound(with(20, 49), 5);
    unsound(Bytes(file.begin(), file.end() - 1), 5);
    unsound(with(36, 3), 6, 36);
    unsound(with(40, 3), 6, 40);
    unsound(with(32, 1000001), 6, 32);
    unsound(with(48, 3), 7, 48);
    unsound(with(48, 1), 7, 52);  // A = C
    unsound(with(56, 6), 7, 60);  // l above u
    unsound(with(56, 0), 7, 56);
    unsound(file_of({4, {}, {{0, 1, 2, 5}, {0, 2, 1, 1}, {3, 1, 1, 2}}}), 8, 60);
  }

  // ---- what lines of made lists rest on ----

  void must_rest(const Chain &chain, const Numbers &lines, const Numbers &on) {
    const Numbers wanted = hold_rests(chain, lines, seen.rests, budget);
    for (std::size_t i = 0; i < lines.size(); ++i)
      if (wanted[i] != on[i])
        report_rests("both answer " + std::to_string(wanted[i]) + ", and it must be " + std::to_string(on[i]), chain, lines[i], budget);
  }
  void must_rest(const Chain &chain, std::uint32_t line, std::uint32_t on) { must_rest(chain, Numbers{line}, Numbers{on}); }

  // The last line rests on so many: lines that double stand in front, line i of them with 2 * 2^i - 2 under it, and each further line adds one of these to
  // the line before it, or only that line.
  static Chain resting_on(std::uint32_t count, std::uint32_t kind) {
    Chain chain;
    chain.line(1, 0, 0);
    for (std::uint32_t i = 1; i < 20; ++i) chain.line(kind, i - 1, i - 1);
    std::uint32_t here = 20;
    chain.line(5, 3, 3);
    const auto next = [&](std::uint32_t beside) {
      const std::uint32_t number = std::uint32_t(chain.kinds.size());
      chain.line(6 + (kind + number) % 4, here, beside == 99 ? number : beside);
      here = number;
    };
    while (count > 0) {
      std::uint32_t i = 0;
      while (i < 19 && 4u << i <= count) ++i;
      if (count == 1) next(99), count = 0;
      else next(i), count -= 2u << i;
    }
    return chain;
  }

  void rests() {
    Chain none;
    for (std::uint32_t line : {0u, 1u, 0xffffffffu}) must_rest(none, line, 0);
    // Each kind: 6 to 9 follow both references, to lines of any kind or of none.
    for (std::uint32_t kind : {0u, 1u, 2u, 3u, 4u, 5u, 6u, 7u, 8u, 9u, 10u, 256u + 6, 65536u + 7, 0x80000006u, 0xffffffffu})
      for (std::uint32_t below : {0u, 1u, 5u, 6u, 9u, 10u, 0xffffffffu}) {
        const bool follows = kind >= 6 && kind <= 9, through = below >= 6 && below <= 9;
        Chain chain;
        chain.line(2, 0, 0);
        chain.line(below, 0, 0);
        chain.line(kind, 1, 0);
        must_rest(chain, 2, follows ? (through ? 4 : 2) : 0);
        must_rest(chain, 3, 0);
        chain.line(kind, 3, 1);  // itself
        must_rest(chain, 3, follows ? (through ? 3 : 1) : 0);
        chain.line(kind, 5, 6);  // later lines, one of them past the list
        chain.line(1, 0, 0);
        must_rest(chain, 4, 0);
        chain.line(kind, 0xffffffff, 5);
        must_rest(chain, 6, follows ? 1 : 0);
        chain.line(kind, 6, 6);  // repeats counted
        must_rest(chain, 7, follows ? 4 : 0);
      }
    // "the list ends with the shortest": a line that one of the lists does not have is past the list.
    for (std::size_t list = 0; list < 3; ++list) {
      Chain chain = resting_on(100, 6);
      const std::uint32_t last = std::uint32_t(chain.kinds.size()) - 1;
      must_rest(chain, last, 100);
      (list == 0 ? chain.kinds : list == 1 ? chain.firsts : chain.seconds).pop_back();
      must_rest(chain, last, 0);
      (list == 0 ? chain.kinds : list == 1 ? chain.firsts : chain.seconds).clear();
      must_rest(chain, 0, 0);
    }
    for (std::uint32_t kind : {6u, 7u, 8u, 9u})
      for (std::uint32_t count : {0u, 1u, 2u, 3u, 100u, 65535u, 65536u, 524286u, 999998u, 999999u, 1000000u, 1000001u, 1000002u, 1048574u, 1048577u}) {
        Chain chain = resting_on(count, kind);
        chain.past = random.below(4);
        must_rest(chain, std::uint32_t(chain.kinds.size()) - 1, std::min(count, 1000000u));
      }
    // Lines that double, each of the one before: 64 of them would be more than 64 bits hold.
    Chain doubling;
    for (std::uint32_t i = 0; i < 70; ++i) doubling.line(6 + i % 4, i - 1, i - 1);
    for (std::uint32_t line : {0u, 1u, 2u, 10u, 18u}) must_rest(doubling, line, (2u << line) - 2);
    for (std::uint32_t line : {19u, 20u, 31u, 32u, 63u, 64u, 69u}) must_rest(doubling, line, 1000000);
  }

  // A line under a line under a line: join lines and rule lines in turn, and a kind alone. Any lists may be lent, so also such as are as deep as a million.
  void long_chains(std::uint32_t longest) {
    for (std::uint32_t kind : {0u, 6u, 8u}) {
      Chain chain;
      for (std::uint32_t i = 0; i < longest + 2; ++i) {
        const std::uint32_t here = kind ? kind : i % 2 ? 6 + i / 2 % 2 * 3 : 7 + i / 2 % 2;
        if (i % 3) chain.line(here, i - 1, i);
        else chain.line(here, i, i - 1);
      }
      chain.past = 1;
      must_rest(chain, {0, 1, 2, 3, 100, 1000, longest - 1, longest, longest + 1},
                {0, 1, 2, 3, 100, 1000, longest - 1, longest, std::min(longest + 1, 1000000u)});
    }
  }

  void all() {
    plans_of_the_papers();
    about_single_sentences();
    many_sweeps();
    codes();
    rests();
    for (std::uint32_t longest : {2000u, 10000u, 40000u}) long_chains(longest);
  }
};

// ---- random plans, damaged files, lists that no plan gives ----

// Stairs with their links in any order and a little more to them.
Plan draw_stairs(Random &random) {
  Plan plan = stairs(1 + random.below(random.one_in(25) ? 31 : 9), random.from_to(-3, 1));
  for (std::size_t i = plan.links.size(); i > 1; --i) std::swap(plan.links[i - 1], plan.links[random.below(std::uint32_t(i))]);
  for (std::uint32_t i = random.below(3); i > 0; --i) {
    const std::uint32_t from = random.below(plan.points), to = random.below(plan.points);
    plan.limits.push_back({from, to, random.from_to(0, 10 * Wide(plan.links.size()))});
  }
  return plan;
}

// Refused plans favoured, of all sizes: such as they come, such as close only behind the first strict joins, and such as one limit more made refused.
Plan draw_plan(Random &random) {
  if (random.one_in(80)) return draw_stairs(random);
  const bool large = random.one_in(25), any = random.one_in(6), late = random.one_in(3), grown = !late && random.one_in(2);
  Plan plan;
  for (int tries = 0; tries < (large ? 40 : 12); ++tries) {
    plan = random_plan(random);
    if (large && plan.points < 24) continue;
    if (any) break;
    reference::Reasons found = reference::reasons_of(plan);
    for (int limits = 0; limits < 12 && grown && !found.refused && plan.limits.size() < most_limits; ++limits) {
      plan.limits.push_back(random_limit(random, plan));
      found = reference::reasons_of(plan);
    }
    if (found.refused && (!late || found.lines.back().kind > reference::strict_join || found.sweeps > 1)) break;
  }
  return plan;
}

void draw_rooms(Random &random, Asked &asked) {
  asked.past = random.one_in(2) ? 0 : 1 + random.below(8);
  asked.content = std::uint32_t(random.next());
  const auto some = [&]() -> Wide { return random.one_in(2) ? 1 : random.one_in(2) ? random.from_to(1, 9) : random.from_to(1, 3000); };
  switch (random.below(8)) {
    case 0: asked.spare[random.below(list_count)] = -some(); break;            // one list too short
    case 1: for (Wide &spare : asked.spare) spare = random.from_to(0, 3); break;  // some longer
    case 2: asked.spare.fill(some()); break;
    case 3: for (Wide &spare : asked.spare) spare = random.from_to(-1, 2); break;
    case 4: asked.spare[work] = random.one_in(2) ? some() : -some(); break;
    case 5:
      std::fill_n(asked.spare.begin(), list_count, none_at_all);
      if (random.one_in(2)) asked.spare[random.below(list_count)] = some();
      break;
    default: break;  // all as needed
  }
}

std::uint32_t draw_reference(Random &random, std::uint32_t line, bool near) {
  if (line > 0 && near && !random.one_in(20)) return line - 1 - random.below(std::min(line, 3u));
  switch (random.below(12)) {
    case 0: return line;
    case 1: return line + 1 + random.below(3);
    case 2: return std::uint32_t(random.next());
    default: return line == 0 ? 0 : random.below(line);
  }
}

Chain draw_chain(Random &random) {
  Chain chain;
  const std::uint32_t length = random.one_in(4) ? random.below(5) : random.below(60);
  const bool steep = random.one_in(12);  // nearly every line rests on two that are near, so that numbers grow
  for (std::uint32_t line = 0; line < length; ++line) {
    const std::uint32_t kind = random.one_in(2) ? random.below(13) : std::uint32_t(random.next());
    const std::uint32_t first = draw_reference(random, line, steep), second = draw_reference(random, line, steep);
    chain.line(random.one_in(steep ? 60 : 8) ? kind : random.one_in(steep ? 30 : 3) ? 1 + random.below(9) : 6 + random.below(4), first, second);
  }
  if (random.one_in(3))
    for (Numbers *list : {&chain.kinds, &chain.firsts, &chain.seconds}) list->resize(list->size() - std::min<std::size_t>(list->size(), random.below(3)));
  chain.past = random.below(4);
  return chain;
}

// Every line and some past the list; of those with very many under them, which take long, one in eight.
Numbers lines_of(Random &random, const Chain &chain) {
  const Numbers rests = reference::rests_of_all(chain.kinds.data(), chain.firsts.data(), chain.seconds.data(), chain.length());
  Numbers lines;
  for (std::uint32_t line : lines_to(62))
    if (line >= rests.size() || rests[line] < 5000 || random.one_in(8)) lines.push_back(line);
  return lines;
}

bool never(bool came, const char *what, std::uint64_t value) {
  if (!came) std::printf("reasoning: %s %llu never came up\n", what, static_cast<unsigned long long>(value));
  return !came;
}

}  // namespace

int main(int words, char **word) {
  Budget budget(words, word, 4000);
  Typed typed(budget);
  typed.all();
  const double typed_seconds = budget.spent();
  Seen seen;
  std::uint64_t large = 0, damaged = 0;
  RestsSeen made;
  while (budget.more()) {
    Random random = budget.round();
    const Plan plan = draw_plan(random);
    large += plan.points > 12;
    const reference::Reasons found = reference::reasons_of(plan);
    seen.most_sweeps = std::max(seen.most_sweeps, found.sweeps);
    Asked asked;
    asked.file = file_of(plan);
    draw_rooms(random, asked);
    hold(asked, seen, budget);
    if (found.refused) hold_rests_of(random, found.lines, seen.rests, budget);
    const Chain chain = draw_chain(random);
    hold_rests(chain, lines_of(random, chain), made, budget);
    if (!random.one_in(3)) continue;
    ++damaged;
    Asked broken;
    Plan sound = random_plan(random, 6, 8, 4);
    const bool repeated = sound.links.size() > 1 && random.one_in(6);  // code 8, which chance hardly brings
    if (repeated) sound.links.back().contingent = sound.links.front().contingent;
    broken.file = file_of(sound);
    for (std::uint32_t times = repeated ? 0 : 1 + random.below(2); times > 0; --times) damage(random, broken.file, sound.points);
    draw_rooms(random, broken);
    hold(broken, seen, budget);
  }
  const auto number = [](std::uint64_t value) { return static_cast<unsigned long long>(value); };
  std::printf("reasoning: %llu calls on %llu typed plans, %llu of their lines typed, %llu of Rests, %.1f s\n", number(typed.seen.calls), number(typed.lists),
              number(typed.typed_lines), number(typed.seen.rests.asked), typed_seconds);
  std::printf("reasoning: %llu random plans, %llu of them of more than 12 points, and %llu damaged files, %.1f s, no difference\n", number(budget.done),
              number(large), number(damaged), budget.spent() - typed_seconds);
  std::printf("  %llu lines written and followed, at most %llu in a list, at most %u sweeps; 9 for the work room %llu times, for a list %llu times\n",
              number(seen.lines), number(seen.most_lines), seen.most_sweeps, number(seen.short_work), number(seen.short_list));
  std::printf("  Rests of %llu lines of plans' lists, at most %u under a line, and of %llu lines of %llu other lists: %llu at a million, else at most %u\n",
              number(seen.rests.asked), seen.rests.most_below, number(made.asked), number(made.lists), number(made.at_most), made.most_below);
  std::printf("  kind                                1         2         3         4         5         6         7         8         9\n");
  const auto by_kind = [&](const char *what, const std::array<std::uint64_t, 10> &times) {
    std::printf("  %-25s", what);
    for (std::size_t kind = 1; kind < 10; ++kind) std::printf(" %9llu", number(times[kind]));
    std::printf("\n");
  };
  by_kind("lines", seen.kinds);
  by_kind("last lines", seen.last_kinds);
  Codes::print_head();
  typed.seen.codes.print("Reasons, typed answers");
  seen.codes.print("Reasons, random");

  bool missing = !typed.seen.fields.all_came("typed answers", false);
  missing |= !seen.fields.all_came("random", false);
  for (std::uint32_t code : {0, 1, 2, 3, 4, 5, 6, 7, 8, 9, 11}) missing |= never(seen.codes.times[code] > 0, "code", code);
  for (std::size_t kind = 1; kind < 10; ++kind) missing |= never(seen.kinds[kind] > 0, "a line of kind", kind);
  for (std::size_t kind : {2, 6, 7, 8, 9}) missing |= never(seen.last_kinds[kind] > 0, "a last line of kind", kind);
  for (std::size_t list = 0; list < list_count; ++list) missing |= never(seen.only_short[list] > 0, "9 for one list alone, list", list);
  missing |= never(seen.short_work > 0, "9 for the work room, code", 9);
  missing |= never(seen.no_room_and_done > 0, "0 without any room for lines, code", 0);
  missing |= never(made.at_most > 0 && made.past > 0 && made.of_no_kind > 0, "of Rests a million, a line past the list or one of no kind, call", 0);
  return missing;
}
