// Write held against the reference. First lists whose answers are typed here: every field at and beyond the ends of its range, every length,
// faults by twos, buffers of all lengths. Then random plans, sound and damaged. What was written is read back and judged; a plan file that was read
// is written again.
#include <algorithm>
#include <tuple>

#include "ground.hpp"
#include "hold.hpp"
#include "lists.hpp"
#include "shapes.hpp"
#include "shrink.hpp"

namespace {

using Bytes = std::vector<std::uint8_t>;

// One call and all that it is lent; `past` as in hold.hpp.
struct Writing {
  Lists lists;
  Bytes buffer;
  std::size_t past = 0;
};

struct Result {
  std::string difference;  // in a sentence, or nothing
  std::uint64_t wanted = 0;
  bool hung = false;
  Bytes left;
};

Result run_both(const Writing &lent) {
  static const Ground grounds[list_count + 1];
  Result result;
  Bytes expected = lent.buffer;
  result.wanted = write_lists(reference::write, lent.lists, places_of(lent.lists), expected.data(), expected.size());

  std::vector<Lent<std::uint32_t>> lists;
  Places at;
  for (std::size_t list = 0; list < list_count; ++list) {
    lists.emplace_back(grounds[list], lent.lists.fields[list], lent.past, std::string(list_names[list]) + " list");
    at[list] = lists[list].cells;
  }
  const Lent<std::uint8_t> buffer(grounds[list_count], lent.buffer, lent.past, "buffer");
  const Ended ended = run_guarded([&] { return write_lists(post_write, lent.lists, at, buffer.cells, lent.buffer.size()); });
  result.hung = ended.hung;
  result.difference = ended.stopped;
  if (!ended.stopped.empty()) return result;

  result.left = buffer.content();
  const auto see = [&](const std::string &found) {
    if (result.difference.empty()) result.difference = found;
  };
  see(answers_differ(ended.answer, result.wanted));
  see(buffer.touched_outside());
  see(buffer.differs(expected));
  for (std::size_t list = 0; list < list_count; ++list) {
    see(lists[list].touched_outside());
    see(lists[list].differs(lent.lists.fields[list]));
  }
  return result;
}

// ---- a difference ----

[[noreturn]] void report(const std::string &difference, const Writing &lent, const Budget &budget) {
  std::printf("DIFFERENCE in Write: %s\n  plan: %s; a buffer of %zu bytes\n", difference.c_str(), notation(lent.lists).c_str(), lent.buffer.size());
  budget.found();
}

// The same call with less: fewer records, shorter lists, smaller numbers, a shorter buffer. A step is kept if the calls still differ.
struct Shrink {
  Writing small;
  int tries = 4000;

  bool take(const Writing &smaller) {
    if (tries-- <= 0 || run_both(smaller).difference.empty()) return false;
    small = smaller;
    return true;
  }

  // Elements left out, the same of every list from `first` to before `end`.
  bool shorter_lists(std::size_t first, std::size_t end) {
    bool any = false;
    const std::size_t length = small.lists.fields[first].size();
    for (std::size_t step = std::max<std::size_t>(1, length / 2); step > 0; step /= 2)
      for (std::size_t i = 0; i < small.lists.fields[first].size();) {
        Writing shorter = small;
        for (std::size_t list = first; list < end; ++list) {
          auto &field = shorter.lists.fields[list];
          field.erase(field.begin() + std::min(i, field.size()), field.begin() + std::min(i + step, field.size()));
        }
        if (take(shorter)) any = true;
        else i += step;
      }
    return any;
  }

  bool smaller_fields() {
    bool any = false;
    for (std::size_t list = 0; list < list_count; ++list)
      for (std::size_t i = 0; i < small.lists.fields[list].size(); ++i)
        for (Wide number : smaller_numbers(number_at(small.lists, list, i))) {
          Writing smaller = small;
          smaller.lists.fields[list][i] = std::uint32_t(number);
          if (take(smaller)) { any = true; break; }
        }
    return any;
  }

  bool fewer_points_and_bytes() {
    bool any = false;
    for (Wide number : smaller_numbers(small.lists.points)) {
      Writing smaller = small;
      smaller.lists.points = std::uint32_t(number);
      if (take(smaller)) { any = true; break; }
    }
    for (Wide room : smaller_numbers(Wide(small.buffer.size()))) {
      Writing smaller = small;
      smaller.buffer.resize(std::size_t(room));
      if (take(smaller)) { any = true; break; }
    }
    return any;
  }

  void shrink() {
    for (bool any = true; any && tries > 0;) {
      any = shorter_lists(from_list, act_list);
      any |= shorter_lists(act_list, list_count);
      for (std::size_t list = 0; list < list_count; ++list) any |= shorter_lists(list, list + 1);
      any |= smaller_fields();
      any |= fewer_points_and_bytes();
    }
  }
};

// Runs the call and insists that there is no difference. The buffer of `lent` then holds what the call left. Returns the answer.
std::uint64_t hold(Writing &lent, const Budget &budget) {
  const Result result = run_both(lent);
  if (!result.difference.empty()) {
    Shrink shrink{lent};
    if (!result.hung) shrink.shrink();
    report(run_both(shrink.small).difference, shrink.small, budget);
  }
  lent.buffer = result.left;
  return result.wanted;
}

// Lists with a buffer of so many bytes, which hold anything.
Writing lend(Random &random, const Lists &lists, std::size_t room) {
  Writing lent{lists, Bytes(room), random.one_in(2) ? 0 : 1 + random.below(8)};
  std::uint32_t number = std::uint32_t(random.next());
  for (std::uint8_t &byte : lent.buffer) byte = std::uint8_t((number += 0x9e3779b9u) >> 24);
  return lent;
}

// ---- lists whose answers are typed here ----

// Sound lists in which any field may be moved alone: contingent points 1 to k, each activated by the last point, durations from 10 + i to 20 + i.
Lists sound_lists(std::uint32_t n, std::uint32_t m, std::uint32_t k) {
  Plan plan;
  plan.points = n;
  for (std::uint32_t i = 0; i < m; ++i) plan.limits.push_back({i % n, (i + 1) % n, (i % 2 == 0 ? 1 : -1) * Wide(900 * i % most_weight + 7)});
  for (std::uint32_t i = 0; i < k; ++i) plan.links.push_back({n - 1, i + 1, 10 + i, 20 + i});
  return lists_of(plan);
}

// All of a few indices, else those at both ends and one between.
std::vector<std::uint32_t> some_below(std::uint32_t count) {
  if (count > 8) return {0, 1, count / 2, count - 2, count - 1};
  std::vector<std::uint32_t> all;
  for (std::uint32_t i = 0; i < count; ++i) all.push_back(i);
  return all;
}

// Where a field of the i-th record would stand in the file of m limits.
std::uint32_t offset_of(List list, std::uint32_t i, std::size_t m) {
  return std::uint32_t(list < act_list ? 24 + 12 * i + 4 * list : 24 + 12 * m + 16 * i + 4 * (list - act_list));
}

// A fault, its answer, the record that it is in, and how it is made; `short_by` is how many bytes the buffer has fewer than the file.
struct Fault {
  std::uint32_t code, record, place;
  std::function<void(Lists &lists, std::size_t &short_by)> make;

  // "3, 4, 5, then 6, 7, 8 with the reader's places, then 9": of two faults that with the lesser rank is answered. In one link that is 7 before 8,
  // wherever its field stands, and of two fields the first.
  std::tuple<std::uint32_t, std::uint32_t, std::uint32_t, std::uint32_t> rank() const { return {code == 8 ? 7 : code, record, code, place}; }
};

struct Typed {
  static constexpr std::uint32_t top = 0xffffffff;
  const Budget &budget;
  Random random;
  Codes codes;
  Fields fields;
  std::uint64_t calls = 0;
  std::uint32_t furthest[9] = {};  // place, by code

  explicit Typed(const Budget &budget) : budget(budget), random(budget.seed) {}

  void must_into(std::size_t room, const Lists &lists, std::uint32_t code, std::uint32_t place = 0) {
    Writing lent = lend(random, lists, room);
    const std::uint64_t answer = hold(lent, budget);
    if (code_of(answer) != code || place_of(answer) != place)
      report("both answer " + said(answer) + ", and it must be " + std::to_string(code) + " " + std::to_string(place), lent, budget);
    codes.count(answer);
    fields.count(answer, lists.limits());
    ++calls;
    if (code >= 6 && code <= 8) furthest[code] = std::max(furthest[code], place);
  }

  // With a buffer of the file's length; a shorter one where that would be the file of more than is allowed.
  void must(const Lists &lists, std::uint32_t code, std::uint32_t place = 0) {
    must_into(std::min<std::size_t>(lists.file_size(), 20000), lists, code, place);
  }

  // The same with the place of the i-th record's field in `blamed`.
  void must_blame(const Lists &lists, std::uint32_t code, List blamed, std::uint32_t i) { must(lists, code, offset_of(blamed, i, lists.limits())); }

  // One field moved to numbers in its range, and to numbers that are not: those in `out` are its own fault, those in `beside` the fault of another.
  void moved(const Lists &sound, List list, std::uint32_t i, const std::vector<std::uint32_t> &in, const std::vector<std::uint32_t> &out,
             const std::vector<std::uint32_t> &beside = {}, List blamed = list_count) {
    const std::uint32_t code = list < act_list ? 6 : 7;
    Lists lists = sound;
    for (std::uint32_t number : in) lists[list][i] = number, must(lists, 0);
    for (std::uint32_t number : out) lists[list][i] = number, must_blame(lists, code, list, i);
    for (std::uint32_t number : beside) lists[list][i] = number, must_blame(lists, code, blamed, i);
  }

  // Both durations of a link the same number, in their range and not; and a shortest one above, which wherever it lies is the longest one's fault.
  void fixed_lengths(const Lists &sound, std::uint32_t i, const std::vector<std::uint32_t> &in, const std::vector<std::uint32_t> &out) {
    Lists lists = sound;
    const auto both = [&](std::uint32_t number) { lists[shortest_list][i] = lists[longest_list][i] = number; };
    for (std::uint32_t number : in) {
      both(number), must(lists, 0);
      lists[shortest_list][i] = number + 1, must_blame(lists, 7, longest_list, i);
    }
    for (std::uint32_t number : out) both(number), must_blame(lists, 7, longest_list, i);
    both(0), must_blame(lists, 7, shortest_list, i);
  }

  void ends_of_ranges(std::uint32_t n, std::uint32_t m, std::uint32_t k) {
    const Lists sound = sound_lists(n, m, k);
    const auto weight = [](Wide number) { return std::uint32_t(number); };
    for (std::uint32_t i : some_below(m)) {
      for (List point : {from_list, to_list}) moved(sound, point, i, {0, n - 1}, {n, n + 1, top / 2 + 1, top});
      moved(sound, weight_list, i, {weight(-1000000), weight(-1), 0, 1, 1000000}, {weight(-1000001), 1000001, weight(INT32_MIN), INT32_MAX});
    }
    for (std::uint32_t i : some_below(k)) {
      const std::uint32_t a = n - 1, c = i + 1, another = c == 1 ? 2 : 1, l = 10 + i, u = 20 + i;
      moved(sound, act_list, i, {0, n - 2, another}, {n, n + 1, top}, {c}, con_list);
      moved(sound, con_list, i, {n - 2}, {0, a, n, n + 1, top});
      moved(sound, shortest_list, i, {1, u - 1, u}, {0}, {u + 1, 1000000, 1000001, top}, longest_list);
      moved(sound, longest_list, i, {l, l + 1, 1000000}, {0, 1, l - 1, 1000001, top});
      fixed_lengths(sound, i, {1, 2, 999999, 1000000}, {1000001, top});
      for (std::uint32_t j : some_below(k)) {
        Lists repeated = sound;
        repeated[con_list][j] = sound[con_list][i];
        if (i != j) must_blame(repeated, 8, con_list, std::max(i, j));
      }
    }
  }

  void points_and_counts() {
    Lists lists;
    for (std::uint32_t n : {1u, 2u, 63u, 64u}) lists.points = n, must(lists, 0);
    for (std::uint32_t n : {0u, 65u, 65536u + 1, top}) lists.points = n, must(lists, 3);
    must(sound_lists(1, 3, 0), 0);
    for (const auto &[m, k] : {std::pair{1024u, 32u}, {1024u, 0u}, {0u, 32u}}) must(sound_lists(64, m, k), 0);
    for (const auto &[m, k] : {std::pair{1025u, 32u}, {1024u, 33u}, {1025u, 33u}, {65536u, 0u}, {0u, 65536u}}) must(sound_lists(64, m, k), 4);
  }

  // Each list alone of another length. `from` and `act` give m and k, so with them it is the others that have another one.
  void lengths(std::uint32_t m, std::uint32_t k) {
    const Lists sound = sound_lists(9, m, k);
    const auto resized = [&](std::size_t list, std::size_t length) {
      Lists lists = sound;
      lists.fields[list].resize(length, 1);
      if (!(lists == sound)) must(lists, 5);
    };
    for (std::size_t list = 0; list < list_count; ++list) {
      const std::size_t length = sound.fields[list].size();
      for (std::size_t other : {std::size_t(0), length - std::min<std::size_t>(length, 1), length + 1}) resized(list, other);
      if (list == from_list || list == act_list) continue;
      for (std::size_t more : {256, 65536}) resized(list, length + more);  // the same in fewer bits
    }
  }

  // Two faults at once, made in the order given here, in which none undoes an earlier one that would be answered.
  void pairs_of_faults() {
    const Lists sound = sound_lists(9, 5, 4);
    const auto points = [](std::uint32_t n) { return [n](Lists &lists, std::size_t &) { lists.points = n; }; };
    const auto grown = [](List first, List last, std::size_t count) {
      return [=](Lists &lists, std::size_t &) {
        for (std::size_t list = first; list <= last; ++list) lists.fields[list].resize(count, 1);
      };
    };
    const auto field = [](List list, std::size_t i, std::uint32_t number) { return [=](Lists &lists, std::size_t &) { lists[list][i] = number; }; };
    const auto copied = [](List list, std::size_t i, List from, std::size_t j) {
      return [=](Lists &lists, std::size_t &) { lists[list][i] = lists[from][j]; };
    };
    // The limits lie from 24 on, by 12, the links from 84 on, by 16. Faults in one record, too: all fields of limit 1 and of link 3.
    std::vector<Fault> faults = {{3, 0, 0, points(0)},
                                 {3, 0, 0, points(65)},
                                 {4, 0, 0, grown(from_list, weight_list, 1025)},
                                 {4, 0, 0, grown(act_list, longest_list, 33)},
                                 {6, 1, 36, field(from_list, 1, top)},
                                 {6, 1, 40, field(to_list, 1, 9)},
                                 {6, 1, 44, field(weight_list, 1, std::uint32_t(-1000001))},
                                 {6, 2, 56, field(weight_list, 2, 1000001)},
                                 {6, 4, 76, field(to_list, 4, 9)},
                                 {8, 1, 104, copied(con_list, 1, con_list, 0)},
                                 {8, 3, 136, copied(con_list, 3, con_list, 0)},
                                 {7, 0, 92, field(shortest_list, 0, 0)},
                                 {7, 0, 96, field(longest_list, 0, 1000001)},
                                 {7, 2, 128, field(longest_list, 2, sound[shortest_list][2] - 1)},
                                 {7, 2, 128, field(shortest_list, 2, 1000001)},
                                 {7, 3, 136, copied(act_list, 3, con_list, 3)},
                                 {7, 3, 132, field(act_list, 3, 9)},
                                 {7, 3, 140, field(shortest_list, 3, 0)},
                                 {7, 3, 144, field(longest_list, 3, 0)},
                                 {7, 3, 136, field(con_list, 3, 0)}};
    for (List list : {to_list, weight_list, con_list, shortest_list, longest_list})
      for (std::size_t length : {sound[list].size() - 1, sound[list].size() + 1, std::size_t(0)})
        faults.push_back({5, 0, 0, [=](Lists &lists, std::size_t &) { lists[list].resize(length, 1); }});
    for (std::size_t missing : {std::size_t(1), std::size_t(100000)})
      faults.push_back({9, 0, 0, [missing](Lists &, std::size_t &short_by) { short_by = missing; }});

    for (std::size_t i = 0; i < faults.size(); ++i)
      for (std::size_t j = i; j < faults.size(); ++j) {
        Lists lists = sound;
        std::size_t short_by = 0;
        faults[i].make(lists, short_by);
        faults[j].make(lists, short_by);
        const Fault &first = faults[i].rank() < faults[j].rank() ? faults[i] : faults[j];
        must_into(lists.file_size() - std::min(short_by, lists.file_size()), lists, first.code, first.place);
      }
  }

  void buffers(std::uint32_t m, std::uint32_t k) {
    const Lists sound = sound_lists(40, m, k);
    const std::size_t size = sound.file_size();
    const std::vector<std::size_t> rooms = {0, 1, 23, 24, size - 16, size - 12, size - 1, size, size + 1, size + 1000};
    for (std::size_t room : rooms) must_into(room, sound, room < size ? 9 : 0);
  }

  void all() {
    ends_of_ranges(9, 5, 4);
    ends_of_ranges(64, 1024, 32);
    points_and_counts();
    for (const auto &[m, k] : {std::pair{0u, 0u}, {1u, 1u}, {5u, 4u}}) lengths(m, k);
    pairs_of_faults();
    for (const auto &[m, k] : {std::pair{0u, 0u}, {1u, 0u}, {0u, 1u}, {5u, 4u}, {1024u, 32u}}) buffers(m, k);
  }
};

// ---- random lists ----

// A number at the end of the points, or any that edge_number gives.
std::uint32_t about(Random &random, std::uint32_t points, std::uint32_t now) {
  return random.one_in(3) ? points + random.below(3) - 1 : edge_number(random, now);
}

void damage_link(Random &random, Lists &lists) {
  std::size_t whole = lists.links();
  for (std::size_t list = act_list; list < list_count; ++list) whole = std::min(whole, lists.fields[list].size());
  if (whole == 0) return;
  const std::uint32_t k = std::uint32_t(whole);
  const std::uint32_t i = random.below(k), other = random.below(k);
  switch (random.below(9)) {
    case 0: lists[con_list][i] = lists[act_list][i]; break;
    case 1: lists[con_list][i] = 0; break;
    case 2: lists[con_list][i] = lists[con_list][other]; break;
    case 3: lists[shortest_list][i] = lists[longest_list][i] + random.below(2); break;  // of fixed length, or one above
    case 4: lists[shortest_list][i] = 0; break;
    case 5: lists[longest_list][i] = 1000000 + random.below(2); break;
    default: {
      std::uint32_t &number = lists.fields[act_list + random.below(4)][i];
      number = about(random, lists.points, number);
    }
  }
}

void damage(Random &random, Lists &lists) {
  auto &list = lists.fields[random.below(list_count)];
  const std::uint32_t length = std::uint32_t(list.size());
  switch (random.below(8)) {
    case 0: lists.points = edge_number(random, lists.points); break;
    case 1:  // a length
      switch (random.below(4)) {
        case 0: list.clear(); break;
        case 1: list.resize(length - std::min(length, 1u)); break;
        case 2: list.push_back(random.below(8)); break;
        default: list.resize(random.below(2 * length + 2), 1);
      }
      break;
    case 2: {  // a count, the same in all the lists that have it
      const bool limits = random.one_in(2);
      const std::uint32_t now = std::uint32_t(limits ? lists.limits() : lists.links()), most = limits ? most_limits : most_links;
      const std::uint32_t count = std::max(1u, random.one_in(4) ? most + random.below(3) : now + random.below(3)) - 1;
      for (std::size_t each = limits ? from_list : act_list; each < (limits ? act_list : list_count); ++each)
        lists.fields[each].resize(count, (each == longest_list ? 1 : 0) + random.below(2));
      break;
    }
    case 3: case 4: {  // a limit's field
      auto &field = lists.fields[random.below(act_list)];
      if (field.empty()) break;
      std::uint32_t &number = field[random.below(std::uint32_t(field.size()))];
      number = about(random, lists.points, number);
      break;
    }
    case 5: case 6: damage_link(random, lists); break;
    default:
      if (random.one_in(2)) std::swap(list, lists.fields[random.below(list_count)]);
      else for (std::uint32_t &number : list) number = edge_number(random, number);
  }
}

// "Reading what was written gives the same plan": by the reference, and Sound and Judge of both read the written bytes. Returns Judge's answer.
std::uint64_t read_back(Random &random, const Writing &written, const Budget &budget) {
  const Bytes file(written.buffer.begin(), written.buffer.begin() + std::ptrdiff_t(written.lists.file_size()));
  const reference::Reading reading = reference::read(file.data(), file.size());
  if (reading.code != 0 || !(lists_of(reading.plan) == written.lists)) report("what was written reads back as another plan", written, budget);
  Case judged = lend(random, Call::judge, file, written.lists.points, true);
  return hold_pair(judged, budget).judged;
}

}  // namespace

int main(int words, char **word) {
  Budget budget(words, word, 60000);
  Typed typed(budget);
  typed.all();
  Codes codes;
  Fields fields;
  std::uint64_t sound = 0, controllable = 0;
  while (budget.more()) {
    Random random = budget.round();
    const Bytes file = file_of(random_plan(random, random.one_in(40) ? most_points : 10));
    Lists lists = lists_of(reference::read(file.data(), file.size()).plan);
    const bool whole = random.one_in(3);
    for (std::uint32_t times = whole ? 0 : 1 + random.below(3); times > 0; --times) damage(random, lists);
    const std::size_t room = room_about(random, lists.file_size());
    Writing lent = lend(random, lists, room);
    const std::uint64_t answer = hold(lent, budget);
    codes.count(answer);
    fields.count(answer, lists.limits());
    sound += whole;
    // "writing what was read gives the same bytes"
    if (whole && (answer != (room < file.size() ? 9 : 0) || (answer == 0 && !std::equal(file.begin(), file.end(), lent.buffer.begin()))))
      report("a plan file that was read is not written as the same bytes", lent, budget);
    if (answer == 0) controllable += read_back(random, lent, budget) == 0;
  }
  std::printf("writing: %llu lists with typed answers, places up to %u with 6, %u with 7, %u with 8\n", static_cast<unsigned long long>(typed.calls),
              typed.furthest[6], typed.furthest[7], typed.furthest[8]);
  std::printf("writing: %llu random lists, %llu of them those of a plan file, %.1f s, no difference; %llu written, read back and judged, %llu controllable\n",
              static_cast<unsigned long long>(budget.done), static_cast<unsigned long long>(sound), budget.spent(),
              static_cast<unsigned long long>(codes.times[0]), static_cast<unsigned long long>(controllable));
  Codes::print_head();
  typed.codes.print("Write, typed answers");
  codes.print("Write, random lists");
  for (std::uint32_t code : {0, 3, 4, 5, 6, 7, 8, 9})
    if (codes.times[code] == 0) {
      std::printf("writing: code %u never came up in %llu random lists\n", code, static_cast<unsigned long long>(budget.done));
      return 1;
    }
  const bool typed_came = typed.fields.all_came("typed answers", false), random_came = fields.all_came("random lists", false);
  return !(typed_came && random_came);
}
