// The file changes between the two calls, as document 02's item 7 fears: "since flash can change". A plan is stored and Sound says 0. Then its bytes change
// where they lie, and Judge must answer what the reference says of them as they are now, with every cell as the reference leaves it; Sound is asked again
// behind it, and one of the other calls behind or before it. A story has one such night or several, all in the same memory: what the calls answered
// before must not matter. First nights whose answers stand here, then random ones.
#include <algorithm>
#include <array>

#include "hold.hpp"
#include "kinds.hpp"
#include "shapes.hpp"

namespace {

using Bytes = std::vector<std::uint8_t>;
using Cells = std::vector<std::int32_t>;

// What lies there at night, and all that Judge is lent with it; and the same bytes with what another call is lent.
struct Night {
  Case judge, other;
  bool other_first = false;
};

struct Story {
  Bytes stored;
  std::vector<Night> nights;
};

struct Played {
  std::string difference;  // the first, in a sentence, or nothing
  std::vector<std::uint64_t> judged, sound, other;
  std::vector<Case> left;  // by Judge
};

// The file of every call of a story begins at the same byte: the longest one ends at its sentinels or its fence, and behind the others there is as much more.
void keep_in_place(Story &story, std::size_t past) {
  std::size_t longest = story.stored.size();
  for (const Night &night : story.nights) longest = std::max(longest, night.judge.file.size());
  for (Night &night : story.nights)
    for (Case *lent : {&night.judge, &night.other}) lent->past = past, lent->behind = longest - lent->file.size();
}

Case afternoon(const Story &story) {
  Case asked;
  asked.call = Call::sound;
  asked.file = story.stored;
  if (story.nights.empty()) return asked;
  const Case &first = story.nights[0].judge;
  asked.past = first.past;
  asked.behind = first.file.size() + first.behind - story.stored.size();
  return asked;
}

Played play(const Story &story) {
  Played played;
  const auto see = [&](const std::string &when, const std::string &found) {
    if (played.difference.empty() && !found.empty()) played.difference = when + found;
  };
  const Outcome stored = run_both(afternoon(story));
  see("in the afternoon, Sound: ", stored.difference);
  if (stored.wanted != 0) see("in the afternoon: ", "the stored file is not sound");
  for (std::size_t i = 0; i < story.nights.size() && played.difference.empty(); ++i) {
    const std::string when = "in night " + std::to_string(i + 1) + ", ";
    const Night &night = story.nights[i];
    Outcome other;
    const auto ask_other = [&] { other = run_both(night.other), see(when + name_of(night.other.call) + ": ", other.difference); };
    if (night.other_first) ask_other();
    const Outcome judge = run_both(night.judge);
    see(when + "Judge: ", judge.difference);
    Case again = night.judge;
    again.call = Call::sound;
    const Outcome sound = run_both(again);
    see(when + "Sound: ", sound.difference);
    if (played.difference.empty()) see(when, pair_broken({sound.got, judge.got}, night.judge, judge.left));
    if (!night.other_first) ask_other();
    played.judged.push_back(judge.wanted), played.sound.push_back(sound.wanted), played.other.push_back(other.wanted);
    played.left.push_back(judge.left);
  }
  return played;
}

// ---- printing ----

std::string changes_in_words(const Bytes &before, const Bytes &now) {
  std::string text;
  std::size_t changed = 0;
  for (std::size_t i = 0; i < std::min(before.size(), now.size()); ++i) {
    if (before[i] == now[i] || ++changed > 12) continue;
    text += " byte " + std::to_string(i) + " " + std::to_string(before[i]) + " is " + std::to_string(now[i]) + ",";
  }
  if (changed > 12) text += " and " + std::to_string(changed - 12) + " bytes more,";
  if (before.size() != now.size()) text += " " + std::to_string(before.size()) + " bytes are " + std::to_string(now.size()) + ",";
  return text.empty() ? " as it was stored," : text;
}

// Nights that the difference does not need are left out, as long as the rest, played from the afternoon on, still shows one.
[[noreturn]] void report(Story story, std::string difference, const Budget &budget) {
  for (std::size_t i = story.nights.size(); i > 0; --i) {
    Story fewer = story;
    fewer.nights.erase(fewer.nights.begin() + std::ptrdiff_t(i - 1));
    if (fewer.nights.empty()) continue;
    const std::string still = play(fewer).difference;
    if (!still.empty()) story = fewer, difference = still;
  }
  std::printf("DIFFERENCE overnight: %s\n  plan: %s\n", difference.c_str(), in_words(story.stored).c_str());
  for (std::size_t i = 0; i < story.nights.size(); ++i) {
    const Case &judge = story.nights[i].judge;
    std::printf("  night %zu:%s rooms of %zu and %zu cells: %s\n", i + 1, changes_in_words(story.stored, judge.file).c_str(), judge.strict.size(),
                judge.open.size(), in_words(judge.file).c_str());
  }
  budget.found();
}

// ---- typed nights ----

// Fields that are given other numbers, each by its offset, and another length; then what Judge and Sound answer.
struct Change {
  std::vector<std::pair<std::uint32_t, std::uint32_t>> fields;
  std::uint32_t code, place = 0;
  std::ptrdiff_t length = -1;  // as it was
};

struct Typed {
  const Budget &budget;
  std::uint64_t nights = 0;
  Codes codes;

  explicit Typed(const Budget &budget) : budget(budget) {}

  static Bytes changed(Bytes file, const Change &change) {
    for (const auto &[at, number] : change.fields) set_field(file, at, number);
    if (change.length >= 0) file.resize(std::size_t(change.length), 0);
    return file;
  }

  // A night with tables of so many cells, which hold last night's: 7 in every cell.
  static Night night(const Bytes &file, std::size_t cells) {
    Night night;
    night.judge.file = file;
    night.judge.strict = night.judge.open = Cells(cells, 7);
    night.other = night.judge;
    night.other.call = Call::check;
    return night;
  }

  [[noreturn]] void wrong(const Story &story, const std::string &what) const { report(story, what, budget); }

  // The table's first n x n cells are these, and all others stay.
  static bool begins_with(const Cells &table, const Cells &cells) {
    const auto rest = table.begin() + std::ptrdiff_t(cells.size());
    return std::equal(cells.begin(), cells.end(), table.begin()) && std::all_of(rest, table.end(), [](std::int32_t cell) { return cell == 7; });
  }

  // What Judge must answer and leave: `tables` where it answers 0 and they are typed.
  void must(const Story &story, const Played &played, std::size_t i, std::uint32_t code, std::uint32_t place, const std::array<Cells, 2> *tables) {
    const std::string when = "in night " + std::to_string(i + 1) + " of those with typed answers, ";
    const std::uint64_t answer = code | std::uint64_t(place) << 32;
    if (played.judged[i] != answer) wrong(story, when + "Judge answers " + said(played.judged[i]) + ", not " + said(answer));
    const std::uint64_t of_file = code <= 8 ? answer : 0;
    if (played.sound[i] != of_file) wrong(story, when + "Sound answers " + said(played.sound[i]) + ", not " + said(of_file));
    const std::size_t n = field_at(story.nights[i].judge.file, 4);
    const Cells marks(code == 11 ? n * n : 0, mark);  // with 1 to 9 no cell changes
    const auto are = [&](const Cells &strict, const Cells &open) { return begins_with(played.left[i].strict, strict) && begins_with(played.left[i].open, open); };
    if (code != 0 && !are(marks, marks)) wrong(story, when + "the tables are not left as they must be");
    if (code == 0 && tables && !are((*tables)[0], (*tables)[1])) wrong(story, when + "the tables are not the plan's");
    codes.count(answer), ++nights;
  }

  // One change to a stored plan that gets 0, and three nights: with the change; with the bytes again what they were; and once more with the change, without
  // any room, which a refused file does not need.
  void see(const Bytes &stored, const Change &change, const std::array<Cells, 2> *tables) {
    constexpr std::size_t all = most_points * most_points;
    const Bytes now = changed(stored, change);
    Story story{stored, {night(now, all), night(stored, all), night(now, 0)}};
    const Played played = play_typed(story);
    must(story, played, 0, change.code, change.place, now == stored ? tables : nullptr);
    must(story, played, 1, 0, 0, tables);
    must(story, played, 2, change.code == 0 || change.code == 11 ? 9 : change.code, change.place, nullptr);
  }

  // With a fence behind the file, and with sentinels.
  Played play_typed(Story &story) const {
    Played played;
    for (std::size_t past : {3, 0}) {
      keep_in_place(story, past);
      played = play(story);
      if (!played.difference.empty()) report(story, played.difference, budget);
    }
    return played;
  }

  static constexpr std::uint32_t top = 0xffffffff, over = 1000001, under = std::uint32_t(-1000001);

  // Document 01's case j, 1>2 1, with tables worked out by hand: its limit at 24, its links (A, C, l, u) at 36 and 52, 68 bytes.
  void small() {
    const Bytes stored = file_of({3, {{1, 2, 1}}, {{0, 1, 1, 3}, {0, 2, 1, 2}}});
    const std::array<Cells, 2> tables = {Cells{0, 3, 2, -1, 0, 1, -1, 2, 0}, Cells{0, 1, 1, -1, 0, 0, -1, 0, 0}};
    const std::vector<Change> changes = {
        {{}, 0},
        // The length, and the header field by field; n that leaves a limit's or a link's point without a place.
        {{}, 1, 0, 0}, {{}, 1, 0, 23}, {{{0, 2}}, 1, 0, 4},
        {{{0, 0}}, 2}, {{{0, 2}}, 2}, {{{0, 0x101}}, 2}, {{{0, 0x80000001}}, 2}, {{{0, 0}, {4, 0}}, 2},
        {{{4, 0}}, 3}, {{{4, 65}}, 3}, {{{4, 0x103}}, 3}, {{{4, top}}, 3}, {{{4, 0}, {8, 1025}}, 3},
        {{{8, 1025}}, 4}, {{{12, 33}}, 4}, {{{8, top}}, 4}, {{{12, 0x80000002}}, 4}, {{{12, 33}, {16, 0}}, 4},
        {{{8, 0}}, 5}, {{{8, 2}}, 5}, {{{12, 1}}, 5}, {{{12, 3}}, 5}, {{{16, 0}}, 5}, {{{16, 36}}, 5}, {{{20, 24}}, 5}, {{{20, 37}}, 5},
        {{}, 5, 0, 67}, {{}, 5, 0, 69}, {{}, 5, 0, 52}, {{}, 5, 0, 24}, {{{24, 3}}, 5, 0, 72},
        {{{4, 1}}, 6, 24}, {{{4, 2}}, 6, 28},
        // Each field of the limit, and each of both links.
        {{{24, 3}}, 6, 24}, {{{28, 3}}, 6, 28}, {{{32, over}}, 6, 32}, {{{32, under}}, 6, 32}, {{{32, 10000000}}, 6, 32}, {{{24, top}, {32, over}}, 6, 24},
        {{{32, over}, {36, 3}}, 6, 32},
        {{{36, 3}}, 7, 36}, {{{40, 3}}, 7, 40}, {{{40, 0}}, 7, 40}, {{{36, 1}}, 7, 40}, {{{44, 0}}, 7, 44}, {{{44, 4}}, 7, 48}, {{{48, 0}}, 7, 48},
        {{{48, over}}, 7, 48}, {{{52, 3}}, 7, 52}, {{{52, 2}}, 7, 56}, {{{56, 0}}, 7, 56}, {{{60, 0}}, 7, 60}, {{{60, 3}}, 7, 64}, {{{64, 0}}, 7, 64},
        {{{64, top}}, 7, 64},
        // A contingent point twice: the later link's C, or the earlier's.
        {{{56, 1}}, 8, 56}, {{{40, 2}}, 8, 56},
        // Two numbers in each other's place: no sum of bytes or of fields sees it.
        {{{0, 3}, {4, 1}}, 2}, {{{8, 2}, {12, 1}}, 5}, {{{44, 3}, {48, 1}}, 7, 48}, {{{36, 1}, {40, 0}}, 7, 40}, {{{52, 2}, {56, 0}}, 7, 56},
        {{{24, 2}, {28, 1}}, 11}, {{{48, 2}, {64, 3}}, 11},
        // Still sound: another plan is judged than was stored. Case j itself, a tighter limit, one from a point to itself; looser ones; one more point.
        {{{32, 0}}, 11}, {{{32, std::uint32_t(-1000000)}}, 11}, {{{24, 2}, {32, top}}, 11}, {{{32, 2}}, 0}, {{{32, 1000000}}, 0}, {{{24, 2}}, 0},
        {{{4, 4}}, 0}, {{{4, 64}}, 0}};
    for (const Change &change : changes) see(stored, change, &tables);

    // Stored as case j with 0: sound, and refused at night. With 1 in that field it is carried out after all.
    const Bytes refused = changed(stored, {{{32, 0}}, 11});
    Story story{refused, {night(refused, 9), night(stored, 9), night(refused, 10), night(stored, 8), night(changed(stored, {{{4, 4}}, 0}), 15)}};
    const Played played = play_typed(story);
    must(story, played, 0, 11, 0, nullptr);
    must(story, played, 1, 0, 0, &tables);
    must(story, played, 2, 11, 0, nullptr);
    must(story, played, 3, 9, 0, nullptr);
    must(story, played, 4, 9, 0, nullptr);
  }

  // The largest file: its last limit at 12,300, its links from 12,312, the last of them at 12,808, 12,824 bytes.
  void largest() {
    Plan plan = {64, std::vector<Limit>(most_limits, {0, 63, 5}), {}};
    for (std::uint32_t c = 1; c <= most_links; ++c) plan.links.push_back({0, c, 1, 9});
    const Bytes stored = file_of(plan);
    const std::vector<Change> changes = {
        {{}, 1, 0, 0}, {{}, 1, 0, 23}, {{{0, 0}}, 2}, {{{0, 257}}, 2}, {{{4, 0}}, 3}, {{{4, 65}}, 3}, {{{8, 1025}}, 4}, {{{12, 33}}, 4}, {{{8, 1023}}, 5},
        {{{12, 31}}, 5}, {{{16, 36}}, 5}, {{{20, 12300}}, 5}, {{}, 5, 0, 12823}, {{}, 5, 0, 12825}, {{}, 5, 0, 12808}, {{{4, 63}}, 6, 28}, {{{24, 64}}, 6, 24},
        {{{12296, over}}, 6, 12296}, {{{12300, 64}}, 6, 12300}, {{{12304, 64}}, 6, 12304}, {{{12308, over}}, 6, 12308}, {{{12308, under}}, 6, 12308},
        {{{12312, 64}}, 7, 12312}, {{{12320, 0}}, 7, 12320}, {{{12804, 0}}, 7, 12804}, {{{12808, 64}}, 7, 12808}, {{{12808, 32}}, 7, 12812},
        {{{12812, 64}}, 7, 12812}, {{{12812, 0}}, 7, 12812}, {{{12816, 0}}, 7, 12816}, {{{12816, 10}}, 7, 12820}, {{{12820, 0}}, 7, 12820},
        {{{12820, over}}, 7, 12820}, {{{12812, 1}}, 8, 12812}, {{{12812, 31}}, 8, 12812}, {{{12316, 32}}, 8, 12812}, {{{12332, 1}}, 8, 12332},
        // A point that comes up to 9 seconds after the start must come within 5; a point before the start; and a looser limit.
        {{{12304, 1}}, 11}, {{{12308, top}}, 11}, {{{12308, 6}}, 0}};
    for (const Change &change : changes) see(stored, change, nullptr);
  }
};

// ---- random nights ----

std::uint32_t place_in(Random &random, const Bytes &file) { return random.below(std::uint32_t(file.size())); }

void exchange_fields(Random &random, Bytes &file) {
  const std::size_t one = place_in(random, file) / 4 * 4, other = place_in(random, file) / 4 * 4;
  const std::uint32_t first = field_at(file, one), second = field_at(file, other);
  set_field(file, one, second);
  set_field(file, other, first);
}

void exchange_bytes(Random &random, Bytes &file) {
  const std::size_t one = place_in(random, file), other = random.one_in(2) ? place_in(random, file) : one ^ 1;
  if (other < file.size()) std::swap(file[one], file[other]);
}

// One record over another of its kind.
void copy_record(Random &random, Bytes &file, const Plan &plan) {
  const bool link = !plan.links.empty() && (plan.limits.empty() || random.one_in(2));
  const std::size_t begin = link ? 24 + 12 * plan.limits.size() : 24, size = link ? 16 : 12;
  const auto count = std::uint32_t(link ? plan.links.size() : plan.limits.size());
  if (count == 0) return;
  const std::size_t from = begin + size * random.below(count), to = begin + size * random.below(count);
  if (from == to || std::max(from, to) + size > file.size()) return;
  std::copy_n(file.begin() + std::ptrdiff_t(from), size, file.begin() + std::ptrdiff_t(to));
}

// A weight or a duration a little further on, or far: mostly it leaves the file sound, and now and then turns the verdict.
void move_number(Random &random, Bytes &file, const Plan &plan) {
  const auto m = std::uint32_t(plan.limits.size()), k = std::uint32_t(plan.links.size());
  if (m + k == 0) return;
  const std::uint32_t record = random.below(m + k);
  const std::size_t at = record < m ? 24 + 12 * record + 8 : 24 + 12 * m + 16 * (record - m) + 8 + 4 * random.below(2);
  const Wide step = random.one_in(3) ? 1 : random.one_in(2) ? 1 + random.below(50) : 500000;
  set_field(file, at, field_at(file, at) + std::uint32_t(random.one_in(2) ? step : -step));
}

// What flash does to the stored bytes, each by its name. `plan` is the stored one.
enum Kind {
  nothing, a_bit, a_byte, a_field, several, a_record, bytes_exchanged, fields_exchanged, a_number, damages, another_plan, noise, cut, longer, kind_count
};
const char *const kind_names[] = {"nothing", "a bit", "a byte", "a field", "several fields", "a record", "two bytes exchanged", "two fields exchanged",
                                  "a number moved", "damage", "another plan", "noise", "cut", "longer"};

Bytes after(Random &random, Bytes file, const Plan &plan, Kind kind) {
  const auto field = [&] {
    const std::size_t at = place_in(random, file) / 4 * 4;
    set_field(file, at, random.one_in(3) ? plan.points + random.below(3) - 1 : edge_number(random, field_at(file, at)));
  };
  switch (kind) {
    case a_bit: file[place_in(random, file)] ^= std::uint8_t(1u << random.below(8)); break;
    case a_byte: file[place_in(random, file)] = std::uint8_t(random.next()); break;
    case a_field: field(); break;
    case several:
      for (std::uint32_t i = 2 + random.below(3); i > 0; --i) field();
      break;
    case a_record: copy_record(random, file, plan); break;
    case bytes_exchanged: exchange_bytes(random, file); break;
    case fields_exchanged: exchange_fields(random, file); break;
    case a_number: move_number(random, file, plan); break;
    case damages:
      for (std::uint32_t i = 1 + random.below(3); i > 0; --i) damage(random, file, plan.points);
      break;
    case another_plan: return file_of(random_plan(random, 6, 8, 4));
    case noise:
      for (std::uint8_t &byte : file) byte = std::uint8_t(random.next());
      break;
    case cut: file.resize(random.one_in(2) ? file.size() - 1 : place_in(random, file)); break;
    case longer: {
      const std::size_t length = file.size() + 1 + random.below(random.one_in(2) ? 1 : 16);
      file.resize(length, std::uint8_t(random.next()));
      break;
    }
    default: break;
  }
  return file;
}

// A story, and how it was drawn: what changed on each night, whether the stored bytes were back, whether the other call had the stored plan's tables.
struct Drawn {
  Story story;
  Judged stored;  // by the reference
  std::vector<Kind> kinds;
  std::vector<bool> back, own_tables;
};

// Rooms for the plan that was stored, or for the one that lies there now. Check and Add are lent the stored plan's tables now and then, which are closed for
// its file if it is controllable.
Night lend_night(Random &random, const Bytes &file, const Plan &plan, Drawn &drawn) {
  const std::size_t now = std::clamp<std::size_t>(field_at(file, 4), 1, most_points), points = random.one_in(3) ? plan.points : now;
  Night night;
  night.judge = lend(random, Call::judge, file, points);
  static const std::vector<Call> others = {Call::check, Call::add, Call::earliest};
  night.other = lend(random, random.any_of(others), file, now);
  night.other.added = random_limit(random, plan);
  const bool own = night.other.call != Call::earliest && drawn.stored.answer == 0 && random.one_in(2);
  if (own) night.other.strict = drawn.stored.strict, night.other.open = drawn.stored.open;
  night.other_first = random.one_in(3);
  drawn.own_tables.push_back(own);
  return night;
}

// A night goes on from what the last one left, or the stored bytes are back.
Drawn draw(Random &random) {
  const Plan plan = random_plan(random, random.one_in(100) ? 20 : 6, 8, 4);
  Drawn drawn{{file_of(plan), {}}, judge_pair(reference_calls, file_of(plan), plan.points), {}, {}, {}};
  Bytes now = drawn.story.stored;
  for (std::uint32_t i = 1 + random.below(3); i > 0; --i) {
    const bool back = now != drawn.story.stored && random.one_in(2);
    const Kind kind = back || random.one_in(8) ? nothing : static_cast<Kind>(1 + random.below(kind_count - 1));
    now = back || now.empty() ? drawn.story.stored : now;
    now = after(random, now, plan, kind);
    drawn.story.nights.push_back(lend_night(random, now, plan, drawn));
    drawn.kinds.push_back(kind), drawn.back.push_back(back);
  }
  keep_in_place(drawn.story, random.one_in(2) ? 0 : 1 + random.below(8));
  return drawn;
}

struct Found {
  Tally tally;
  Fields fields;
  Kinds changes, nights;
  std::uint64_t judged = 0;

  void count(const Drawn &drawn, const Played &played) {
    const Story &story = drawn.story;
    const std::uint64_t before = drawn.stored.answer;
    for (std::size_t i = 0; i < story.nights.size(); ++i) {
      const Night &night = story.nights[i];
      const std::uint64_t answer = played.judged[i];
      const std::uint32_t code = code_of(answer);
      const std::size_t n = field_at(night.judge.file, 4);
      const bool same = night.judge.file == story.stored, refused = code >= 1 && code <= 8;
      ++judged;
      tally.count({played.sound[i], answer});
      tally.count(night.other.call, played.other[i]);
      fields.count(answer, field_at(night.judge.file, 8));
      for (std::size_t kind = 1; kind < kind_count; ++kind) changes.count(kind_names[kind], !same && drawn.kinds[i] == kind);
      nights.count("nothing changed, 0", same && code == 0);
      nights.count("nothing changed, 11", same && code == 11);
      nights.count("changed, and 0 as stored", !same && before == 0 && code == 0);
      nights.count("changed, and 11 as stored", !same && before == 11 && code == 11);
      nights.count("0 turned to 11", before == 0 && code == 11);
      nights.count("11 turned to 0", before == 11 && code == 0);
      nights.count("9, and changed", !same && code == 9);
      for (std::uint32_t with = 1; with <= 8; ++with) nights.count("refused with " + std::to_string(with), code == with);
      nights.count("refused, and the length as stored", refused && night.judge.file.size() == story.stored.size());
      const std::size_t cells = std::min(night.judge.strict.size(), night.judge.open.size());
      nights.count("refused, and a table too short as well", refused && n <= most_points && cells < n * n);
      nights.count("refused behind a night with 0", refused && i > 0 && played.judged[i - 1] == 0);
      nights.count("stored bytes back behind a refused night", i > 0 && drawn.back[i] && played.sound[i - 1] != 0 && (code == 0 || code == 11));
      const auto other = [&](Call call, std::uint32_t wanted) { return night.other.call == call && played.other[i] == wanted; };
      for (Call call : {Call::check, Call::add, Call::earliest})
        nights.count("refused by " + std::string(name_of(call)) + " before Judge", refused && night.other_first && night.other.call == call);
      nights.count("Check of the stored plan's tables, 0", drawn.own_tables[i] && other(Call::check, 0));
      nights.count("Check of the stored plan's tables, 12 for what lies there now", drawn.own_tables[i] && other(Call::check, 12));
      nights.count("Add to the stored plan's tables, 0", drawn.own_tables[i] && other(Call::add, 0));
    }
  }
};

}  // namespace

int main(int words, char **word) {
  Budget budget(words, word, 20000);
  Typed typed(budget);
  typed.small();
  typed.largest();
  const double typed_seconds = budget.spent();
  Found found;
  while (budget.more()) {
    Random random = budget.round();
    const Drawn drawn = draw(random);
    const Played played = play(drawn.story);
    if (!played.difference.empty()) report(drawn.story, played.difference, budget);
    found.count(drawn, played);
  }
  std::printf("overnight: %llu nights with typed answers, %.1f s\n", static_cast<unsigned long long>(typed.nights), typed_seconds);
  std::printf("overnight: %llu plans stored, %llu nights, %.1f s, no difference\n", static_cast<unsigned long long>(budget.done),
              static_cast<unsigned long long>(found.judged), budget.spent() - typed_seconds);
  Codes::print_head();
  typed.codes.print("Judge, typed nights");
  found.tally.print();
  const bool fields_came = found.fields.all_came("nights", false), changes_came = found.changes.all_came("overnight", "what changed");
  const bool nights_came = found.nights.all_came("overnight", "nights");
  return !(typed.codes.all_came("overnight, typed nights", 8) && fields_came && changes_came && nights_came);
}
