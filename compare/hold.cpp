// The comparison of one call with the reference, and the printing of a difference.
#include "hold.hpp"

#include <algorithm>

#include "ground.hpp"
#include "shrink.hpp"

namespace {

std::uint64_t run(const Calls &calls, const Case &lent, const std::uint8_t *file, std::int32_t *strict, std::int32_t *open,
                  std::int32_t *times, std::int64_t *scratch) {
  switch (lent.call) {
    case Call::sound: return calls.sound(file, lent.file.size());
    case Call::judge: return calls.judge(file, lent.file.size(), strict, lent.strict.size(), open, lent.open.size());
    case Call::check: return calls.check(file, lent.file.size(), strict, lent.strict.size(), open, lent.open.size());
    case Call::earliest:
      return calls.earliest(file, lent.file.size(), strict, lent.strict.size(), open, lent.open.size(), times, lent.times.size());
    case Call::add: break;
  }
  return calls.add(file, lent.file.size(), lent.added.from, lent.added.to, std::int32_t(lent.added.weight), strict, lent.strict.size(), open,
                   lent.open.size(), scratch, lent.scratch.size());
}

// ---- printing ----

void print_side(const char *name, const Case &left, std::uint64_t answer, std::size_t points) {
  std::printf("  %s answers %s", name, said(answer).c_str());
  if (left.call != Call::check && left.call != Call::sound)
    std::printf("; strict %s, open %s", notation(left.strict, points).c_str(), notation(left.open, points).c_str());
  if (left.call == Call::earliest) {
    std::printf(", times");
    for (std::int32_t time : left.times) std::printf(" %d", time);
  }
  std::printf("\n");
}

[[noreturn]] void report(const Case &lent, const Outcome &outcome, const Budget &budget) {
  std::printf("DIFFERENCE in %s: %s\n", name_of(lent.call), outcome.difference.c_str());
  std::printf("  plan: %s\n", in_words(lent.file).c_str());
  if (lent.call == Call::add) std::printf("  added: %s\n", notation(lent.added).c_str());
  const std::size_t points = std::clamp<std::size_t>(field_at(lent.file, 4), 1, most_points);
  if (lent.call != Call::sound)
    std::printf("  rooms: strict %zu, open %zu, times %zu, scratch %zu\n", lent.strict.size(), lent.open.size(), lent.times.size(), lent.scratch.size());
  if (lent.call == Call::check || lent.call == Call::add)
    std::printf("  lent: strict %s, open %s\n", notation(lent.strict, points).c_str(), notation(lent.open, points).c_str());
  print_side("the reference", outcome.expected, outcome.wanted, points);
  if (outcome.returned) print_side("the library", outcome.left, outcome.got, points);
  budget.found();
}

}  // namespace

const char *name_of(Call call) {
  static const char *const names[] = {"Sound", "Judge", "Check", "Add", "Earliest"};
  return names[std::size_t(call)];
}

Outcome run_both(const Case &lent) {
  static const Ground grounds[5];
  Outcome outcome;
  outcome.expected = lent;
  Case &expected = outcome.expected;
  outcome.wanted = run(reference_calls, lent, expected.file.data(), expected.strict.data(), expected.open.data(), expected.times.data(),
                       expected.scratch.data());

  const Lent<std::uint8_t> file(grounds[0], lent.file, lent.past + lent.behind, "file");
  const Lent<std::int32_t> strict(grounds[1], lent.strict, lent.past, "strict table"), open(grounds[2], lent.open, lent.past, "open table"),
      times(grounds[3], lent.times, lent.past, "times");
  const Lent<std::int64_t> scratch(grounds[4], lent.scratch, lent.past, "scratch");
  const Ended ended = run_guarded([&] { return run(linked_calls, lent, file.cells, strict.cells, open.cells, times.cells, scratch.cells); });
  outcome.hung = ended.hung;
  outcome.difference = ended.stopped;
  if (!ended.stopped.empty()) return outcome;
  outcome.returned = true;
  outcome.got = ended.answer;

  outcome.left = {lent.call, file.content(), lent.added, strict.content(), open.content(), times.content(), scratch.content(), lent.past,
                  lent.behind};
  for (const std::string &found :
       {answers_differ(outcome.got, outcome.wanted), file.touched_outside(), strict.touched_outside(), open.touched_outside(),
        times.touched_outside(), scratch.touched_outside(), file.differs(lent.file), strict.differs(expected.strict), open.differs(expected.open),
        times.differs(expected.times), scratch.differs(expected.scratch)})
    if (outcome.difference.empty()) outcome.difference = found;
  return outcome;
}

std::uint64_t hold(Case &lent, const Budget &budget) {
  Outcome outcome = run_both(lent);
  if (!outcome.difference.empty()) {
    if (outcome.hung) report(lent, outcome, budget);  // each try at a smaller one might cost all the patience
    const Case small = smallest(lent);
    report(small, run_both(small), budget);
  }
  lent = std::move(outcome.left);
  return outcome.wanted;
}

TwoAnswers hold_pair(Case &lent, const Budget &budget) {
  const Case before = lent;
  Case asked = lent;
  asked.call = Call::sound;
  TwoAnswers answers;
  answers.sound = hold(asked, budget);
  answers.judged = hold(lent, budget);
  const std::string broken = pair_broken(answers, before, lent);
  if (broken.empty()) return answers;
  std::printf("DIFFERENCE in Sound and Judge: %s\n  plan: %s\n", broken.c_str(), in_words(before.file).c_str());
  budget.found();
}

std::string pair_broken(const TwoAnswers &answers, const Case &lent, const Case &left) {
  const std::size_t n = field_at(lent.file, 4);
  const bool room = lent.strict.size() >= n * n && lent.open.size() >= n * n, stayed = left.strict == lent.strict && left.open == lent.open;
  return pair_broken(answers.sound, answers.judged, room, stayed);
}

std::string in_words(const std::vector<std::uint8_t> &file) {
  const reference::Reading reading = reference::read(file.data(), file.size());
  if (reading.code == 0) return notation(reading.plan);
  std::string text = "a file of " + std::to_string(file.size()) + " bytes that the reference refuses with " + std::to_string(reading.code) +
                     " " + std::to_string(reading.place) + "; its fields:";
  for (std::size_t at = 0; at < file.size(); at += 4) text += " " + std::to_string(std::int32_t(field_at(file, at)));
  return text;
}

std::size_t room_about(Random &random, std::size_t needed) {
  if (!random.one_in(6)) return needed;
  switch (random.below(5)) {
    case 0: case 1: return needed > 0 ? needed - 1 : 0;
    case 2: case 3: return needed + 1;
    default: return random.one_in(2) ? random.below(std::uint32_t(needed) + 1) : needed + random.below(100);
  }
}

Case lend(Random &random, Call call, std::vector<std::uint8_t> file, std::size_t points, bool exact) {
  Case lent;
  lent.call = call;
  lent.file = std::move(file);
  lent.past = random.one_in(2) ? 0 : 1 + random.below(8);
  const auto room = [&](std::size_t needed) { return exact ? needed : room_about(random, needed); };
  const auto fill = [&](auto &cells, std::size_t length) {  // numbers of all sizes that differ from cell to cell
    cells.resize(length);
    std::uint32_t number = std::uint32_t(random.next());
    for (auto &cell : cells) cell = std::int32_t(number += 0x9e3779b9u);
  };
  if (call == Call::sound) return lent;
  fill(lent.strict, room(points * points));
  fill(lent.open, room(points * points));
  if (call == Call::earliest) fill(lent.times, room(points));
  if (call == Call::add) fill(lent.scratch, room(2 * points * points));
  return lent;
}

void Codes::print_head() {
  std::printf("  answers by code       ");
  for (int code = 0; code < 13; ++code) std::printf(" %9d", code);
  std::printf("\n");
}

void Codes::print(const char *call) const {
  std::printf("  %-22s", call);
  for (int code = 0; code < 13; ++code) std::printf(" %9llu", static_cast<unsigned long long>(times[code]));
  std::printf("\n");
}

bool Codes::all_came(const char *answers, std::uint32_t last) const {
  bool all = true;
  for (std::uint32_t code = 0; code <= last; ++code)
    if (times[code] == 0) all = false, std::printf("%s: code %u never came up\n", answers, code);
  return all;
}

void Fields::count(std::uint64_t answer, std::size_t limits) {
  const std::size_t place = place_of(answer), links = 24 + 12 * limits;
  switch (code_of(answer)) {
    case 6: ++times[place < links ? (place - 24) % 12 / 4 : 3 + (place - links) % 12 / 4]; break;
    case 7: ++times[6 + (place - links) % 16 / 4]; break;
    case 8: times[10] += (place - links) % 16 == 4; break;
    default: break;
  }
}

bool Fields::all_came(const char *answers, bool with_add) const {
  static const char *const names[] = {"6 at from", "6 at to", "6 at weight", "6 at Add's from", "6 at Add's to", "6 at Add's weight",
                                      "7 at A",    "7 at C",  "7 at l",      "7 at u",          "8 at C"};
  const auto asked = [&](std::size_t i) { return with_add || i < 3 || i >= 6; };
  std::string line, never;
  for (std::size_t i = 0; i < times.size(); ++i) {
    if (!asked(i)) continue;
    line += (line.empty() ? "" : ", ") + std::string(names[i]) + " " + std::to_string(times[i]);
    if (times[i] == 0) never += std::string(answers) + ": code " + names[i] + " never came up\n";
  }
  std::printf("  fields at fault, %s: %s\n%s", answers, line.c_str(), never.c_str());
  return never.empty();
}

void Tally::print() const {
  Codes::print_head();
  for (Call call : {Call::sound, Call::judge, Call::check, Call::add, Call::earliest}) {
    const Codes &codes = calls[std::size_t(call)];
    if (std::any_of(codes.times.begin(), codes.times.end(), [](std::uint64_t times) { return times > 0; })) codes.print(name_of(call));
  }
}
