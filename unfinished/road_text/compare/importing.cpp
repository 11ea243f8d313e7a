// Road-graph text held against the reference: Import and Export. First texts whose line is typed here, or the plan that they mean, and files whose text
// is; small texts with every byte in every place, and every short end of a text. Then random texts with comments, as they are and damaged, and random plan
// files, sound and damaged, in rooms about what is needed. What was exported is imported again and must be the file; what was imported is exported again
// and must be the text without its comments.
#include <algorithm>

#include "ground.hpp"
#include "hold.hpp"
#include "kinds.hpp"
#include "roadlines.hpp"
#include "shapes.hpp"
#include "shrink.hpp"

namespace {

using namespace std::string_literals;  // a text may hold a byte of 0
using Bytes = std::vector<std::uint8_t>;

unsigned long long number(std::uint64_t value) { return value; }  // as printf has it

Bytes bytes_of(const std::string &text) { return Bytes(text.begin(), text.end()); }

// By printf, which neither the reference nor the plain C++ has.
std::string text_of(const Plan &plan) {
  char line[60];
  std::snprintf(line, sizeof line, "p sp %u %zu\n", plan.points, plan.limits.size());
  std::string text = line;
  for (const Limit &limit : plan.limits) {
    std::snprintf(line, sizeof line, "a %u %u %lld\n", limit.from + 1, limit.to + 1, static_cast<long long>(limit.weight));
    text += line;
  }
  return text;
}

// ---- one call, run by both ----

enum Question : std::size_t { import_it, export_it };
constexpr const char *question_names[] = {"Import", "Export"};

// One call and all that it is lent; `past` as in hold.hpp.
struct Asked {
  Question question;
  Bytes given;  // the text of Import, the file of Export
  Bytes room;   // the buffer of Import, the text of Export
  std::vector<std::uint64_t> size;  // Export's
  std::size_t past = 0;

  std::string text() const { return std::string(given.begin(), given.end()); }
};

std::uint64_t run(const Calls &calls, const Asked &asked, const std::uint8_t *given, std::uint8_t *room, std::uint64_t *size) {
  if (asked.question == import_it) return calls.import_text(given, asked.given.size(), room, asked.room.size());
  return calls.export_text(given, asked.given.size(), room, asked.room.size(), size, asked.size.size());
}

struct Result {
  std::string difference;  // in a sentence, or nothing
  std::uint64_t wanted = 0;
  bool hung = false;
  Asked left;  // the rooms after the linked call
};

Result run_both(const Asked &asked) {
  static const Ground grounds[3];
  Result result;
  Asked expected = asked;
  result.wanted = run(reference_calls, asked, asked.given.data(), expected.room.data(), expected.size.data());

  const bool imports = asked.question == import_it;
  const Lent<std::uint8_t> given(grounds[0], asked.given, asked.past, imports ? "text" : "file");
  const Lent<std::uint8_t> room(grounds[1], asked.room, asked.past, imports ? "buffer" : "text");
  const Lent<std::uint64_t> size(grounds[2], asked.size, asked.past, "size");
  const Ended ended = run_guarded([&] { return run(linked_calls, asked, given.cells, room.cells, size.cells); });
  result.hung = ended.hung;
  result.difference = ended.stopped;
  result.left = asked;
  if (!ended.stopped.empty()) return result;

  result.left.room = room.content(), result.left.size = size.content();
  for (const std::string &found : {answers_differ(ended.answer, result.wanted), given.touched_outside(), room.touched_outside(), size.touched_outside(),
                                   given.differs(asked.given), room.differs(expected.room), size.differs(expected.size)})
    if (result.difference.empty()) result.difference = found;
  return result;
}

// ---- a difference ----

// A text with its line feeds and all that is not printed as C has it; of a long one the beginning.
std::string in_quotes(const std::string &text) {
  std::string quoted = "\"";
  for (const char letter : text.substr(0, 400)) {
    char one[8];
    const auto byte = std::uint8_t(letter);
    if (letter == '\n') quoted += "\\n";
    else if (byte >= 32 && byte < 127) quoted += letter;
    else std::snprintf(one, sizeof one, "\\x%02x", byte), quoted += one;
  }
  return quoted + (text.size() > 400 ? "\" and " + std::to_string(text.size() - 400) + " bytes more" : "\"");
}

[[noreturn]] void report(const std::string &difference, const Asked &asked, const Budget &budget) {
  std::printf("DIFFERENCE in %s: %s\n", question_names[asked.question], difference.c_str());
  if (asked.question == import_it) std::printf("  text: %s; a buffer of %zu bytes\n", in_quotes(asked.text()).c_str(), asked.room.size());
  else std::printf("  plan: %s; room for %zu bytes and %zu sizes\n", in_words(asked.given).c_str(), asked.room.size(), asked.size.size());
  budget.found();
}

// The same call with less: a text without some of its bytes, a file with fewer limits, shorter rooms. A step is kept if the calls still differ.
struct Shrink {
  Asked small;
  int tries = 4000;

  bool take(const Asked &smaller) {
    if (tries-- <= 0 || run_both(smaller).difference.empty()) return false;
    small = smaller;
    return true;
  }

  // `less` is the call without elements i to before i + step of `count`.
  template <class Less>
  bool fewer(std::size_t count, const Less &less) {
    bool any = false;
    for (std::size_t step = std::max<std::size_t>(1, count / 2); step > 0; step /= 2)
      for (std::size_t i = 0; i + step <= count;) {
        if (take(less(i, step))) any = true, count -= step;
        else i += step;
      }
    return any;
  }

  bool fewer_bytes() {
    return fewer(small.given.size(), [&](std::size_t i, std::size_t step) {
      Asked shorter = small;
      shorter.given.erase(shorter.given.begin() + std::ptrdiff_t(i), shorter.given.begin() + std::ptrdiff_t(i + step));
      return shorter;
    });
  }

  // Of a text that is good and of a file that is sound: the same of fewer limits. A text loses its comments by that.
  bool fewer_limits() {
    const reference::Reading reading = read(small);
    if (reading.code != 0) return false;
    return fewer(reading.plan.limits.size(), [&](std::size_t i, std::size_t step) {
      Asked shorter = small;
      Plan plan = read(small).plan;
      plan.limits.erase(plan.limits.begin() + std::ptrdiff_t(i), plan.limits.begin() + std::ptrdiff_t(i + step));
      shorter.given = small.question == import_it ? bytes_of(text_of(plan)) : file_of(plan);
      return shorter;
    });
  }

  static reference::Reading read(const Asked &asked) {
    if (asked.question == export_it) return reference::read(asked.given.data(), asked.given.size());
    Bytes file(24 + 12 * most_limits);
    const std::uint64_t answer = reference::import_text(asked.given.data(), asked.given.size(), file.data(), file.size());
    file.resize(24 + 12 * std::size_t(field_at(file, 8)));
    return answer != 0 ? reference::Reading{code_of(answer), 0, {}} : reference::read(file.data(), file.size());
  }

  bool shorter_room() {
    for (Wide room : smaller_numbers(Wide(small.room.size()))) {
      Asked shorter = small;
      shorter.room.resize(std::size_t(room));
      if (take(shorter)) return true;
    }
    return false;
  }

  void shrink() {
    for (bool any = true; any && tries > 0;) {
      any = fewer_limits();
      if (small.question == import_it) any |= fewer_bytes();
      any |= shorter_room();
    }
  }
};

// Runs the call and insists that there is no difference. The rooms of `asked` then hold what the call left. Returns the answer.
std::uint64_t hold(Asked &asked, const Budget &budget) {
  const Result result = run_both(asked);
  if (!result.difference.empty()) {
    Shrink shrink{asked};
    if (!result.hung) shrink.shrink();
    report(run_both(shrink.small).difference, shrink.small, budget);
  }
  asked = result.left;
  return result.wanted;
}

// A call with rooms of so many elements, which hold anything.
Asked lend(Random &random, Question question, const Bytes &given, std::size_t room, std::size_t sizes = 0) {
  Asked asked{question, given, Bytes(room), std::vector<std::uint64_t>(sizes), random.one_in(2) ? 0 : 1 + random.below(8)};
  std::uint64_t any = random.next();
  for (std::uint8_t &byte : asked.room) byte = std::uint8_t((any += 0x9e3779b97f4a7c15u) >> 56);
  for (std::uint64_t &size : asked.size) size = any += 0x9e3779b97f4a7c15u;
  return asked;
}

// ---- round trips ----

// "Export and then import gives the plan back": the text that Export left, in a buffer of the file's length.
void import_back(Random &random, const Asked &exported, const Budget &budget) {
  const Bytes text(exported.room.begin(), exported.room.begin() + std::ptrdiff_t(exported.size[0]));
  Asked again = lend(random, import_it, text, exported.given.size());
  if (hold(again, budget) != 0 || again.room != exported.given) report("what was exported is not imported as the file that it was", exported, budget);
}

// The file that Import left, which is sound, exported into room for the text without its comments. Returns the file.
Bytes export_back(Random &random, const Asked &imported, const Budget &budget) {
  const std::size_t length = 24 + 12 * std::size_t(field_at(imported.room, 8));
  const Bytes file(imported.room.begin(), imported.room.begin() + std::ptrdiff_t(std::min(length, imported.room.size())));
  const Bytes text = bytes_of(without_comments(imported.text()));
  Case asked = lend(random, Call::sound, file, 0);
  Asked again = lend(random, export_it, file, text.size(), 1);
  if (hold(asked, budget) != 0 || hold(again, budget) != 0 || again.room != text || again.size[0] != text.size())
    report("what was imported is not exported as the text without its comments", imported, budget);
  return file;
}

// ---- typed here ----

const std::string head = "p sp 2 1\n", arc = "a 1 2 10\n", good = head + arc;

std::string times(std::size_t count, const std::string &text) {
  std::string all;
  for (; count > 0; --count) all += text;
  return all;
}

struct Typed {
  const Budget &budget;
  Random random;
  std::uint64_t texts = 0, files = 0, calls = 0, bytes = 0;
  std::uint32_t furthest = 0;

  explicit Typed(const Budget &budget) : budget(budget), random(budget.seed) {}

  void must(Asked &asked, std::uint32_t code, std::uint32_t place = 0) {
    const std::uint64_t answer = hold(asked, budget);
    if (code_of(answer) != code || place_of(answer) != place)
      report("both answer " + said(answer) + ", and it must be " + std::to_string(code) + " " + std::to_string(place), asked, budget);
    ++calls;
  }

  // A text that is refused, at this line, whatever the buffer.
  void bad(std::uint32_t line, const std::string &text) {
    for (std::size_t room : {0, 24, 36, 20000}) {
      Asked asked = lend(random, import_it, bytes_of(text), room);
      must(asked, 14, line);
    }
    furthest = std::max(furthest, line);
    ++texts;
  }

  // A text that means this plan of m limits, in document 01's notation.
  void means(const std::string &plan, std::size_t m, const std::string &text) {
    const std::size_t size = 24 + 12 * m;
    for (std::size_t room : {std::size_t(0), std::size_t(23), size - 12, size - 1, size, size + 1, size + 12, size + 1000}) {
      Asked asked = lend(random, import_it, bytes_of(text), room);
      must(asked, room < size ? 9 : 0);
      if (room < size) continue;
      const Bytes file = export_back(random, asked, budget);
      const reference::Reading reading = reference::read(file.data(), file.size());
      if (reading.code != 0 || notation(reading.plan) != plan) report("it is imported as " + in_words(file) + ", and it must be " + plan, asked, budget);
    }
    ++texts;
  }

  void is_good(const std::string &text) { means("n 2, 0>1 10", 1, text); }

  // Lines that are bad in the place of the p line of 2 points and 1 arc, and of the arc behind it; also with comments about them and more lines behind.
  void bad_heads(const Lines &lines) {
    for (const std::string &line : lines) bad(1, line + arc), bad(3, "c\nc\n" + line + arc), bad(1, line);
  }
  void bad_arcs(const Lines &lines) {
    for (const std::string &line : lines) bad(2, head + line), bad(4, "c\n" + head + "c\n" + line + arc + arc);
  }

  void ends_of_lines() {
    bad(1, "");
    bad(2, head + "a 1 2 10");
    bad(1, "p sp 2 0");
    bad(1, "p sp 2 1");
    bad(1, "p");
    bad(1, "c");
    bad(1, "c a comment and no line feed");
    bad(3, good + "c");
    bad(3, good + "c the end");
    bad(3, good + "c\r");
    bad(3, good + "a");
    bad(3, good + " ");
    bad(3, good + "\0"s);
    bad(3, good + "p sp 2 1");
    bad(1, "p sp 2 1\r\na 1 2 10\r\n");
    bad(2, "p sp 2 1\na 1 2 10\r\n");
    bad(1, "p sp 2 1\r\na 1 2 10\n");
    bad(2, "c x\r\np sp 2 1\r\na 1 2 10\r\n");
    bad(1, "p sp 2 1\ra 1 2 10\r");
    bad(1, "c\rp sp 2 1\ra 1 2 10\r");
    bad(2, head + "a 1 2 10\r");
    bad(3, good + "\r\n");
    bad(1, "p sp 2 1\0a 1 2 10\0"s);
    bad(1, "p sp 2 1\fa 1 2 10\f");
    bad(1, "p sp 2 1\va 1 2 10\v");
    bad(1, "p sp 2 1a 1 2 10\n");
    bad(2, head + "a 1 2 10a 2 1 5\n");
    bad(2, head + "a 1 2 10 a 2 1 5\n");
    bad(1, "p sp 2 1 a 1 2 10\n");
    bad(1, "p sp 2 1 c\n" + arc);
    bad(2, head + "a 1 2 10 c\n");
    bad(2, head + "a 1 2 10c\n");
  }

  void blanks() {
    bad_heads({"p  sp 2 1\n", "p sp  2 1\n", "p sp 2  1\n", "p sp 2 1 \n", " p sp 2 1\n", "p sp 2 1  \n", "p\tsp 2 1\n", "p sp\t2 1\n", "p sp 2\t1\n",
               "p sp 2 1\t\n", "\tp sp 2 1\n", "p \tsp 2 1\n", "psp 2 1\n", "p sp2 1\n", "p sp 21\n", "psp21\n", "p s p 2 1\n", "p\xa0sp 2 1\n",
               "p\0sp 2 1\n"s, "p sp 2 \0 1\n"s, "p,sp,2,1\n", "p sp 2_1\n", "p\vsp 2 1\n", "p\fsp 2 1\n", "p sp 2\x1f""1\n", "p sp 2!1\n"});
    bad_arcs({"a  1 2 10\n", "a 1  2 10\n", "a 1 2  10\n", "a 1 2 10 \n", " a 1 2 10\n", "a\t1 2 10\n", "a 1\t2 10\n", "a 1 2\t10\n", "a 1 2 10\t\n",
              "\ta 1 2 10\n", "a1 2 10\n", "a 12 10\n", "a 1 210\n", "a1210\n", "a\xa0""1 2 10\n", "a\0""1 2 10\n"s, "a 1\0""2 10\n"s,
              "a 1 2\0""10\n"s, "a,1,2,10\n", "a 1 2 - 10\n", "a 1 2 -\t10\n", "a 1 2 1 0\n", "a\v1 2 10\n", "a\f1 2 10\n", "a 1 2\x1f""10\n"});
    bad(1, " c a blank and then a comment\n" + good);
    bad(1, "\tc\n" + good);
    bad(2, head + " c\n" + arc);
    bad(3, good + " c\n");
    // "blank lines nowhere"
    bad(1, "\n");
    bad(1, "\n\n");
    bad(1, "\n" + good);
    bad(2, head + "\n" + arc);
    bad(3, good + "\n");
    bad(3, good + "\n\n");
    bad(2, "c\n\n" + good);
    bad(3, head + "c\n\n" + arc);
    bad(3, good + " \n");
    bad(1, " \n" + good);
    bad(2, head + "  \n" + arc);
    bad(2, head + "\r\n" + arc);
    bad(2, head + "\0\n"s + arc);
  }

  void letters() {
    bad_heads({"P sp 2 1\n", "p SP 2 1\n", "p Sp 2 1\n", "p sP 2 1\n", "p max 2 1\n", "p s 2 1\n", "p p 2 1\n", "p ps 2 1\n", "p spx 2 1\n", "p sp\n",
               "p sp \n", "p sp 2\n", "p sp 2 \n", "p\n", "p \n", "p 2 1\n", "p sp 2 1 0\n", "p sp 2 1 1\n", "pp sp 2 1\n", "sp 2 1\n", "q sp 2 1\n",
               "o sp 2 1\n", "n 2\n", "2 1\n", "# a comment\n", "C a comment\n", "b\n", "d\n", "e 1 2 10\n", "p sp two one\n", "p sp 2 1x\n",
               "p sp 2x 1\n", "p sp x2 1\n", "p sp 2.0 1\n", "p sp 2 1.\n", "p sp 2e0 1\n", "p sp 0x2 1\n", "p sp 2 1\0\n"s, "\0p sp 2 1\n"s,
               "p sp 2\0 1\n"s, "p sp \0""2 1\n"s, "\xef\xbb\xbfp sp 2 1\n", "p sp / 1\n", "p sp : 1\n", "p sp 2 /\n", "p sp 2 :\n", "p sp \xb2 1\n",
               "p sp 2 \xb1\n"});
    bad_arcs({"A 1 2 10\n", "a\n", "a \n", "a 1\n", "a 1 \n", "a 1 2\n", "a 1 2 \n", "a 1 2 10 11\n", "aa 1 2 10\n", "b 1 2 10\n", "` 1 2 10\n",
              "e 1 2 10\n", "1 2 10\n", "a one 2 10\n", "a 1 2 10x\n", "a 1 2 x10\n", "a 1x 2 10\n", "a 1 2x 10\n", "a 1 2 1e1\n", "a 1 2 0x1\n",
              "a 1 2 1.0\n", "a 1 2 1,000\n", "a 1 2 10\0\n"s, "\0a 1 2 10\n"s, "a 1 2 1\0""0\n"s, "a 1\0 2 10\n"s, "a \0""1 2 10\n"s, "a 1 2 /\n",
              "a 1 2 :\n", "a / 2 10\n", "a 1 : 10\n", "a 1 2 1:\n", "a 1 2 /1\n", "C\n", "n 1 s\n", "a 1 2 \xb1\xb0\n", "a sp 2 10\n"});
  }

  void numbers() {
    const std::string nines = times(100, "9"), zeros = times(99, "0"), one = "1" + zeros;
    bad_heads({"p sp 02 1\n", "p sp 2 01\n", "p sp 002 1\n", "p sp 2 00\n", "p sp -2 1\n", "p sp 2 -1\n", "p sp -0 1\n", "p sp 2 -0\n", "p sp +2 1\n",
               "p sp 2 +1\n", "p sp 2 +0\n", "p sp - 1\n", "p sp 2 -\n", "p sp " + nines + " 1\n", "p sp 2 " + nines + "\n",
               "p sp " + zeros + "2 1\n", "p sp 2 " + zeros + "1\n", "p sp " + one + " 1\n", "p sp 2 " + one + "\n", "p sp 258 1\n", "p sp 2 1281\n",
               "p sp 65538 1\n", "p sp 2 65537\n", "p sp 4294967298 1\n", "p sp 2 4294967297\n", "p sp 18446744073709551618 1\n",
               "p sp 2 18446744073709551617\n", "p sp 340282366920938463463374607431768211458 1\n"});
    bad_arcs({"a 01 2 10\n", "a 1 02 10\n", "a 1 2 010\n", "a 1 2 00\n", "a 1 2 -010\n", "a 1 2 -00\n", "a 1 2 0010\n", "a 1 2 -0\n", "a 1 2 +10\n",
              "a 1 2 +0\n", "a +1 2 10\n", "a 1 +2 10\n", "a -1 2 10\n", "a 1 -2 10\n", "a 1 2 --10\n", "a 1 2 -+10\n", "a 1 2 +-10\n", "a 1 2 -\n",
              "a 1 2 10-\n", "a 1 2 1-0\n", "a " + nines + " 2 10\n", "a 1 " + nines + " 10\n", "a 1 2 " + nines + "\n", "a 1 2 -" + nines + "\n",
              "a 1 2 " + zeros + "10\n", "a 1 2 -" + zeros + "10\n", "a " + zeros + "1 2 10\n", "a 1 2 " + one + "\n", "a 257 2 10\n",
              "a 1 65538 10\n", "a 4294967297 2 10\n", "a 1 4294967298 10\n", "a 1 2 4294967306\n", "a 1 2 -4294967306\n", "a 1 2 4294967286\n",
              "a 1 2 -4294967286\n", "a 1 2 18446744073709551626\n", "a 18446744073709551617 2 10\n", "a 1 2 2147483648\n", "a 1 2 -2147483648\n",
              "a 1 2 9223372036854775808\n", "a 1 2 -9223372036854775808\n", "a 1 2 -9223372036854775807\n"});
  }

  // "document 01's ranges", "points numbered from 1"
  void ends_of_ranges() {
    for (const char *n : {"0", "65", "66", "99", "100", "640", "1000"}) bad(1, "p sp "s + n + " 0\n"), bad(1, "p sp "s + n + " 1\na 1 1 0\n");
    for (const char *n : {"1", "2", "9", "10", "11", "63", "64"}) means("n "s + n, 0, "p sp "s + n + " 0\n");
    for (const char *m : {"1025", "1026", "2048", "9999", "10240"}) bad(1, "p sp 2 "s + m + "\n"), bad(1, "p sp 2 "s + m + "\n" + times(1025, arc));
    bad(2, "p sp 2 1024\n");
    bad(1025, "p sp 2 1024\n" + times(1023, arc));
    bad(1027, "p sp 2 1024\n" + times(1025, arc));
    bad(1026, "p sp 2 1024\n" + times(1024, arc) + "a 1 2 010\n");
    bad(1025, "p sp 2 1024\n" + times(1024, arc).substr(0, 1024 * 9 - 1));
    bad(513, "p sp 2 1024\n" + times(511, arc) + "a 3 2 10\n" + times(512, arc));
    means("n 2" + times(1024, ", 0>1 10"), 1024, "p sp 2 1024\n" + times(1024, arc));
    means("n 64" + times(1024, ", 63>63 -1000000"), 1024, "p sp 64 1024\n" + times(1024, "a 64 64 -1000000\n"));
    bad_arcs({"a 0 2 10\n", "a 1 0 10\n", "a 0 0 10\n", "a 3 2 10\n", "a 1 3 10\n", "a 3 3 10\n", "a 64 2 10\n", "a 1 2 1000001\n",
              "a 1 2 -1000001\n", "a 1 2 1000010\n", "a 1 2 9999999\n", "a 1 2 -10000000\n"});
    means("n 2, 0>1 1000000", 1, head + "a 1 2 1000000\n");
    means("n 2, 0>1 -1000000", 1, head + "a 1 2 -1000000\n");
    means("n 2, 0>1 999999", 1, head + "a 1 2 999999\n");
    means("n 2, 0>1 0", 1, head + "a 1 2 0\n");
    means("n 2, 0>1 -1", 1, head + "a 1 2 -1\n");
    means("n 2, 1>0 -10", 1, head + "a 2 1 -10\n");
    means("n 2, 0>0 5", 1, head + "a 1 1 5\n");
    means("n 2, 1>1 -5", 1, head + "a 2 2 -5\n");
    means("n 64, 63>0 7", 1, "p sp 64 1\na 64 1 7\n");
    means("n 64, 0>63 7", 1, "p sp 64 1\na 1 64 7\n");
    means("n 64, 9>19 100", 1, "p sp 64 1\na 10 20 100\n");
    bad(2, "p sp 64 1\na 65 1 7\n");
    bad(2, "p sp 64 1\na 1 65 7\n");
    bad(2, "p sp 63 1\na 64 1 7\n");
    bad(2, "p sp 1 1\na 1 2 7\n");
    means("n 1, 0>0 0", 1, "p sp 1 1\na 1 1 0\n");
  }

  // "one p line, before all arcs"; "where the p line is missing or m and the arc count differ, at the line after the last"
  void order_and_counts() {
    const std::string back = "a 2 1 -5\n";
    bad(1, arc + head);
    bad(1, arc);
    bad(1, arc + head + arc);
    bad(2, "c\n" + arc);
    bad(3, "c\nc\n" + arc + "c\n");
    bad(2, head + head);
    bad(2, head + head + arc);
    bad(3, good + head);
    bad(3, good + "p sp 3 2\n");
    bad(3, good + good);
    bad(4, head + "c\nc\n" + head + arc);
    bad(2, "p sp 2 0\np sp 2 0\n");
    bad(2, "p sp 2 0\np sp 2 1\n" + arc);
    bad(2, "p sp 2 0\np nonsense\n");
    bad(2, "c\n");
    bad(3, "c one\nc two\n");
    bad(2, "cc\n");
    bad(2, "cp sp 2 1\n");
    bad(2, head);
    bad(3, "c\n" + head);
    bad(3, head + "c\n");
    bad(3, "p sp 2 2\n" + arc);
    bad(5, "c\np sp 2 2\n" + arc + "c\n");
    bad(4, good + back);
    bad(5, good + back + back);
    bad(5, good + back + "c\n");
    bad(5, good + "c\n" + back);
    bad(3, "p sp 2 0\n" + arc);
    bad(4, "p sp 2 0\n" + arc + "c\n");
    bad(5, "p sp 2 0\n" + arc + arc + arc);
    bad(4, "p sp 2 3\n" + arc + arc);
    // an arc too many, and then a bad line
    bad(4, good + back + "a 3 1 5\n");
    bad(4, good + back + "\n");
    bad(4, good + back + head);
    bad(4, good + back + "c no line feed");
    bad(5, good + back + "c\n" + "a 1 2 010\n");
    bad(5, good + back + back + "a 1 2 -0\n" + back);
    bad(3, good + "a 1 2 10");
    bad(3, good + "a 1 3 10\n");
    // an arc too few, and a bad line
    bad(3, "p sp 2 2\n" + arc + "b\n");
    bad(2, "p sp 2 2\nb\n" + arc);
    // of two bad lines the first
    bad(1, "p sp 65 1\na 0 0 0\n");
    bad(2, head + "a 0 1 1\na 1 0 1\n");
    bad(3, good + "x\ny\n");
  }

  void comments() {
    std::string any = "c";
    for (int byte = 0; byte < 256; ++byte)
      if (byte != 10) any += char(byte);
    any += "\n";
    is_good(good);
    const Lines some = {"c\n", "c \n", "c a comment\n", "cc\n", "comment\n", "cp sp 2 1\n", "ca 1 2 10\n", "c\r\n", "c\t\n", "c\0\n"s,
                        "c\0a 1 2 10\n"s, "c c\n", "c\xff\xfe\n", "c" + times(5000, "long ") + "\n", any};
    for (const std::string &comment : some) {
      is_good(comment + good);
      is_good(head + comment + arc);
      is_good(good + comment);
      is_good(comment + comment + head + comment + comment + arc + comment + comment);
      bad(2, comment);
      bad(3, comment + comment);
      bad(2, comment + arc);
      bad(4, comment + head + comment + head);
      bad(5, good + comment + arc);
      bad(3, good + comment.substr(0, comment.size() - 1));
    }
    is_good(times(300, "c\n") + good);
    bad(301, times(300, "c\n") + arc);
    bad(257, times(256, "c\n"));
    bad(70001, times(70000, "c\n"));
    bad(70003, times(70000, "c\n") + good + "x");
    bad(70005, good + times(70000, "c\n") + "c\nc\nA\n");
    // as the graphs of the ninth DIMACS challenge begin
    means("n 3, 0>1 803, 1>0 803, 1>2 158", 3,
          "c 9th DIMACS Implementation Challenge: Shortest Paths\nc http://www.dis.uniroma1.it/~challenge9\nc Sample graph file\nc\np sp 3 3\n"
          "c graph contains 3 nodes and 3 arcs\nc node ids are numbers in 1..3\nc\na 1 2 803\na 2 1 803\nc\nc half-way\na 2 3 158\n");
  }

  // ---- Export ----

  // Of a sound plan without links, in document 01's notation, with the text that it is.
  void is_text(const Plan &plan, const std::string &text) {
    const Bytes file = file_of(plan);
    for (std::size_t room : {std::size_t(0), std::size_t(1), text.size() - 9, text.size() - 1, text.size(), text.size() + 1, text.size() + 1000})
      for (std::size_t sizes : {0, 1, 2, 5}) {
        Asked asked = lend(random, export_it, file, room, sizes);
        const bool done = room >= text.size() && sizes >= 1;
        must(asked, done ? 0 : 9);
        if (!done) continue;
        if (asked.size[0] != text.size() || std::string(asked.room.begin(), asked.room.begin() + std::ptrdiff_t(text.size())) != text)
          report("it is not exported as " + in_quotes(text), asked, budget);
        import_back(random, asked, budget);
      }
    ++files;
  }

  void no_text(std::uint32_t code, std::uint32_t place, const Bytes &file) {
    for (std::size_t room : {0, 9, 10, 18, 20000})
      for (std::size_t sizes : {0, 1, 2}) {
        Asked asked = lend(random, export_it, file, room, sizes);
        must(asked, code, place);
      }
    ++files;
  }

  void exports() {
    is_text({2, {{0, 1, 10}}, {}}, "p sp 2 1\na 1 2 10\n");  // "Case b exports as `p sp 2 1` and `a 1 2 10`."
    is_text({1, {}, {}}, "p sp 1 0\n");
    is_text({64, {}, {}}, "p sp 64 0\n");
    is_text({9, {{8, 0, -1}}, {}}, "p sp 9 1\na 9 1 -1\n");
    is_text({10, {{9, 8, 0}, {0, 0, -1000000}, {9, 9, 1000000}}, {}}, "p sp 10 3\na 10 9 0\na 1 1 -1000000\na 10 10 1000000\n");
    is_text({64, {{63, 62, 9}, {9, 10, 99}, {98 % 64, 0, 100}, {0, 1, -99999}}, {}}, "p sp 64 4\na 64 63 9\na 10 11 99\na 35 1 100\na 1 2 -99999\n");
    is_text({3, {{0, 1, 5}, {0, 1, 4}, {0, 1, 5}}, {}}, "p sp 3 3\na 1 2 5\na 1 2 4\na 1 2 5\n");  // the file's order, and repeats
    is_text({64, std::vector<Limit>(1024, {63, 63, -1000000}), {}}, "p sp 64 1024\n" + times(1024, "a 64 64 -1000000\n"));
    const Plan linked = {3, {{0, 1, 10}}, {{0, 1, 3, 5}}};
    no_text(10, 0, file_of(linked));
    no_text(10, 0, file_of({2, {}, {{0, 1, 5, 5}}}));
    no_text(10, 0, file_of({64, std::vector<Limit>(1024, {0, 1, 10}), {{0, 1, 3, 5}, {1, 2, 3, 5}}}));
    no_text(1, 0, {});
    no_text(1, 0, Bytes(23, 1));
    const Plan plain = {2, {{0, 1, 10}, {1, 0, 10}}, {}};
    const auto with = [](const Plan &plan, std::size_t at, std::uint32_t field) {
      Bytes file = file_of(plan);
      set_field(file, at, field);
      return file;
    };
    for (const Plan &plan : {plain, linked}) {
      for (std::uint32_t version : {0, 2, 257}) no_text(2, 0, with(plan, 0, version));
      for (std::uint32_t n : {0, 65}) no_text(3, 0, with(plan, 4, n));
      no_text(4, 0, with(plan, 8, 1025));
      no_text(4, 0, with(plan, 12, 33));
      no_text(5, 0, with(plan, 16, 25));
      no_text(5, 0, with(plan, 20, 24));
      no_text(5, 0, with(plan, 8, 0));
      no_text(6, 24, with(plan, 24, 3));
      no_text(6, 28, with(plan, 28, 64));
      no_text(6, 32, with(plan, 32, 1000001));
      Bytes file = file_of(plan);
      file.push_back(0);
      no_text(5, 0, file);
      file.resize(file.size() - 2);
      no_text(5, 0, file);
    }
    no_text(6, 44, with(plain, 44, std::uint32_t(-1000001)));
    no_text(7, 36, with(linked, 36, 3));
    no_text(7, 40, with(linked, 40, 0));
    no_text(7, 44, with(linked, 44, 0));
    no_text(7, 48, with(linked, 48, 2));
    no_text(8, 56, file_of({3, {{0, 1, 10}}, {{0, 1, 3, 5}, {2, 1, 3, 5}}}));
  }

  // Rooms of every length about what case b needs: 36 bytes for the file, 18 for the text.
  void every_room() {
    for (std::size_t room = 0; room < 80; ++room) {
      Asked imported = lend(random, import_it, bytes_of(good), room);
      must(imported, room < 36 ? 9 : 0);
      for (std::size_t sizes = 0; sizes < 4; ++sizes) {
        Asked exported = lend(random, export_it, file_of({2, {{0, 1, 10}}, {}}), room, sizes);
        must(exported, room < 18 || sizes < 1 ? 9 : 0);
      }
    }
  }

  // Not typed: the line is the reference's.
  void as_reference(const std::string &text) {
    Asked asked = lend(random, import_it, bytes_of(text), 60);
    hold(asked, budget);
    ++bytes;
  }

  // Every string of at most so many of these bytes, behind the beginning of a text.
  void every_end(const std::string &begun, const std::string &bytes, int most) {
    as_reference(begun);
    if (most == 0) return;
    for (char byte : bytes) every_end(begun + byte, bytes, most - 1);
  }

  // Every byte in every place of a small text, in the place of what stands there and before it; every byte left out; the text cut.
  void every_byte(const std::string &text) {
    for (std::size_t at = 0; at <= text.size(); ++at) {
      for (int byte = 0; byte < 256; ++byte) {
        as_reference(text.substr(0, at) + char(byte) + text.substr(at));
        if (at < text.size()) as_reference(text.substr(0, at) + char(byte) + text.substr(at + 1));
      }
      as_reference(text.substr(0, at));
      as_reference(text.substr(at));
      if (at < text.size()) as_reference(text.substr(0, at) + text.substr(at + 1));
    }
  }

  void all() {
    ends_of_lines();
    blanks();
    letters();
    numbers();
    ends_of_ranges();
    order_and_counts();
    comments();
    exports();
    every_room();
    every_byte(good);
    every_byte("c\np sp 12 2\na 12 1 -30\na 7 7 0\n");
    every_end("", "cpa \n1", 4);
    every_end("p sp ", "01 \n-c", 5);
    every_end(head + "a ", "12 \n0-", 5);
    every_end(head + "a 1 2 ", "01-\n ca", 5);
  }
};

// ---- random texts ----

// Any byte, most often one that has a meaning somewhere in a text.
char any_byte(Random &random) {
  static const std::string likely = "\n\n  ccppaas001123456789--+\r\t\0PAC.:/"s;
  return random.one_in(5) ? char(random.below(256)) : random.any_of(likely);
}

std::string random_comment(Random &random) {
  std::string comment = "c";
  for (std::uint32_t length = random.one_in(3) ? 0 : random.below(random.one_in(50) ? 3000 : 30); length > 0; --length) {
    const char byte = any_byte(random);
    if (byte != '\n') comment += byte;
  }
  return comment + "\n";
}

Lines with_comments(Random &random, Lines lines) {
  if (random.one_in(3)) return lines;
  for (std::uint32_t count = random.one_in(30) ? random.below(600) : random.below(4); count > 0; --count) {
    const std::uint32_t at = random.below(std::uint32_t(lines.size()) + 1);
    lines.insert(lines.begin() + at, random_comment(random));
  }
  return lines;
}

// A number as it may be written, beside an end of a range or wrong.
std::string any_number(Random &random, const Plan &plan) {
  static const Lines wrong = {"", "-", "00", "01", "-0", "-01", "+1", "+0", "--1", "1-", "1.0", "4294967297", "-4294967295", "18446744073709551617",
                              std::string(100, '7'), std::string(100, '0') + "1"};
  static const std::vector<Wide> ends = {0, 1, 2, 9, 10, 63, 64, 65, 1023, 1024, 1025, 999999, 1000000, 1000001, -1, -10, -999999, -1000000, -1000001};
  switch (random.below(4)) {
    case 0: return random.any_of(wrong);
    case 1: return std::to_string(Wide(plan.points) + random.from_to(-1, 1));
    case 2: return std::to_string(Wide(plan.limits.size()) + random.from_to(-1, 1));
    default: return std::to_string(random.any_of(ends));
  }
}

struct Damage {
  const char *name;
  void (*make)(Random &random, const Plan &plan, Lines &lines);
};

std::size_t any_line(Random &random, const Lines &lines) { return random.below(std::uint32_t(lines.size())); }

// A byte of the whole text, told by its line and its place there.
char &any_place(Random &random, Lines &lines, std::string *&line, std::size_t &at) {
  line = &lines[any_line(random, lines)];
  if (line->empty()) *line = "\n";
  at = random.below(std::uint32_t(line->size()));
  return (*line)[at];
}

// The damages. Some may leave the text as good as it was: in a comment, or where two lines are the same.
const Damage damages[] = {
    {"a byte set", [](Random &random, const Plan &, Lines &lines) {
       std::string *line;
       std::size_t at;
       char &byte = any_place(random, lines, line, at);
       byte = any_byte(random);
     }},
    {"a byte put in", [](Random &random, const Plan &, Lines &lines) {
       std::string *line;
       std::size_t at;
       any_place(random, lines, line, at);
       line->insert(at, 1, any_byte(random));
     }},
    {"a byte left out", [](Random &random, const Plan &, Lines &lines) {
       std::string *line;
       std::size_t at;
       any_place(random, lines, line, at);
       line->erase(at, 1);
     }},
    {"a bit turned", [](Random &random, const Plan &, Lines &lines) {
       std::string *line;
       std::size_t at;
       char &byte = any_place(random, lines, line, at);
       byte = char(byte ^ 1 << random.below(8));
     }},
    {"lines exchanged", [](Random &random, const Plan &, Lines &lines) {
       const std::size_t one = any_line(random, lines), other = any_line(random, lines);
       std::swap(lines[one], lines[other]);
     }},
    {"the p line moved", [](Random &random, const Plan &, Lines &lines) {
       for (std::string &line : lines)
         if (line[0] == 'p') return std::swap(line, lines[any_line(random, lines)]);
     }},
    {"a line repeated", [](Random &random, const Plan &, Lines &lines) {
       const std::string line = lines[any_line(random, lines)];
       const std::size_t at = any_line(random, lines);
       lines.insert(lines.begin() + std::ptrdiff_t(at), line);
     }},
    {"a line left out", [](Random &random, const Plan &, Lines &lines) { lines.erase(lines.begin() + std::ptrdiff_t(any_line(random, lines))); }},
    {"a number set", [](Random &random, const Plan &plan, Lines &lines) {
       std::string &line = lines[any_line(random, lines)];
       std::vector<std::size_t> blanks;
       for (std::size_t at = 0; at < line.size(); ++at)
         if (line[at] == ' ') blanks.push_back(at + 1);
       if (blanks.empty()) return;
       const std::size_t from = random.any_of(blanks);
       line.replace(from, std::min(line.find_first_of(" \n", from), line.size()) - from, any_number(random, plan));
     }},
    {"cut", [](Random &random, const Plan &, Lines &lines) {
       const std::string text = joined(lines);
       lines = lines_of(text.substr(0, random.below(std::uint32_t(text.size()))));
     }},
    {"the front cut", [](Random &random, const Plan &, Lines &lines) {
       const std::string text = joined(lines);
       lines = lines_of(text.substr(random.below(std::uint32_t(text.size()))));
     }},
    {"the last line feed left out", [](Random &, const Plan &, Lines &lines) { lines.back().pop_back(); }},
    {"bytes behind the last line", [](Random &random, const Plan &, Lines &lines) {
       std::string behind;
       for (std::uint32_t count = 1 + random.below(5); count > 0; --count) behind += any_byte(random);
       lines.push_back(behind);
     }},
    {"carriage returns", [](Random &random, const Plan &, Lines &lines) {
       const bool all = random.one_in(2);
       const std::size_t one = any_line(random, lines);
       for (std::size_t i = 0; i < lines.size(); ++i)
         if ((all || i == one) && !lines[i].empty() && lines[i].back() == '\n') lines[i].insert(lines[i].size() - 1, "\r");
     }},
    {"a blank line", [](Random &random, const Plan &, Lines &lines) {
       const std::size_t at = any_line(random, lines);
       lines.insert(lines.begin() + std::ptrdiff_t(at), random.one_in(3) ? " \n" : "\n");
     }},
    {"more arcs", [](Random &random, const Plan &plan, Lines &lines) {
       for (std::uint32_t count = 1 + random.below(3); count > 0; --count) {
         const std::uint32_t u = 1 + random.below(plan.points), v = 1 + random.below(plan.points);
         lines.push_back("a " + std::to_string(u) + " " + std::to_string(v) + " " + std::to_string(random.from_to(-9, 9)) + "\n");
       }
       if (random.one_in(3)) lines.push_back("a " + std::to_string(plan.points + 1) + " 1 0\n");
     }},
    {"a second p line", [](Random &random, const Plan &plan, Lines &lines) {
       const std::size_t at = any_line(random, lines);
       lines.insert(lines.begin() + std::ptrdiff_t(at), lines_of(text_of(plan))[0]);
     }},
    {"comments alone", [](Random &random, const Plan &, Lines &lines) {
       for (std::string &line : lines) line = random_comment(random);
     }},
};

// What a text was refused for, told from its lines and the answer.
void count_import(Kinds &kinds, const Asked &asked, std::uint64_t answer) {
  const Lines lines = lines_of(asked.text());
  const std::size_t line = place_of(answer), count = lines.size();
  const bool refused = code_of(answer) == 14, within = refused && line <= count, after = refused && line == count + 1;
  const std::size_t said = field_at(asked.room, 8), size = 24 + 12 * said;
  const auto of = [&](char letter, std::size_t before) {
    return std::size_t(std::count_if(lines.begin(), lines.begin() + std::ptrdiff_t(before), [&](const std::string &one) { return one[0] == letter; }));
  };
  std::size_t m = 0;  // of the p line, where there is a good one
  for (const std::string &one : lines)
    if (one[0] == 'p' && std::sscanf(one.c_str(), "p sp %*u %zu", &m) == 1) break;
  const std::size_t arcs = of('a', std::min(count, line == 0 ? count : line - 1));
  kinds.count("14 at line 1 of several", within && line == 1 && count > 1);
  kinds.count("14 at a line between", within && line > 1 && line < count);
  kinds.count("14 at the last line", within && line == count && count > 1);
  kinds.count("14 beyond line 255", refused && line > 255);
  kinds.count("14 at bytes after the last line feed", within && lines[line - 1].back() != '\n');
  kinds.count("14 at a comment without a line feed", within && lines[line - 1][0] == 'c');
  kinds.count("14 at a second p line", within && lines[line - 1][0] == 'p' && of('p', line - 1) > 0);
  kinds.count("14 at an arc without a p line", within && lines[line - 1][0] == 'a' && of('p', line - 1) == 0);
  kinds.count("14 behind an arc too many", within && of('p', line - 1) > 0 && arcs > m);
  kinds.count("14 for no p line", after && of('p', count) == 0);
  kinds.count("14 for an arc too few", after && of('p', count) > 0 && arcs < m);
  kinds.count("14 for an arc too many", after && of('p', count) > 0 && arcs > m);
  kinds.count("14 and no buffer", refused && asked.room.empty());
  kinds.count("14 and a buffer", refused && asked.room.size() > 24);
  kinds.count("9", code_of(answer) == 9);
  kinds.count("9 and no buffer", code_of(answer) == 9 && asked.room.empty());
  kinds.count("9 by a byte", code_of(answer) == 9 && asked.room.size() + 1 == 24 + 12 * of('a', count));
  kinds.count("9 behind the header", code_of(answer) == 9 && asked.room.size() >= 24);
  kinds.count("0 with comments", answer == 0 && of('c', count) > 0);
  kinds.count("0 without comments", answer == 0 && of('c', count) == 0);
  kinds.count("0 without arcs", answer == 0 && said == 0);
  kinds.count("0 with 1,024 arcs", answer == 0 && said == most_limits);
  kinds.count("0 with 64 points", answer == 0 && field_at(asked.room, 4) == most_points);
  kinds.count("0 in an exact buffer", answer == 0 && asked.room.size() == size);
  kinds.count("0 in a longer one", answer == 0 && asked.room.size() > size);
}

// Mostly a small plan; now and then one of the most points or the most limits, which random plans seldom are.
Plan any_plan(Random &random, std::uint32_t links) {
  Plan plan = random_plan(random, random.one_in(20) ? most_points : 12, random.one_in(20) ? most_limits : 12, links);
  if (random.one_in(100)) plan.points = most_points;
  if (random.one_in(100)) plan.limits.resize(most_limits, {0, plan.points - 1, -most_weight});
  return plan;
}

// A text of a plan without links as it is, and one of the same damaged up to twice.
void random_texts(Random &random, const Budget &budget, Codes &codes, Kinds &kinds, Kinds &damaged) {
  const Plan plan = any_plan(random, 0);
  Lines lines = with_comments(random, lines_of(text_of(plan)));
  const std::size_t size = 24 + 12 * plan.limits.size(), room = random.one_in(20) ? 0 : room_about(random, size);
  Asked asked = lend(random, import_it, bytes_of(joined(lines)), room);
  std::uint64_t answer = hold(asked, budget);
  if (answer != (room < size ? 9 : 0)) report("a good text: both answer " + said(answer), asked, budget);
  codes.count(answer), count_import(kinds, asked, answer);
  if (answer == 0) {
    const Bytes file = export_back(random, asked, budget);
    if (file != file_of(plan)) report("it is not imported as the plan that it is of", asked, budget);
  }

  std::string made;
  for (std::uint32_t times = random.one_in(3) ? 2 : 1; times > 0 && !lines.empty(); --times) {
    const Damage &damage = damages[random.below(std::size(damages))];
    damage.make(random, plan, lines);
    if (made.empty()) made = damage.name;
  }
  asked = lend(random, import_it, bytes_of(joined(lines)), random.one_in(20) ? 0 : room_about(random, size));
  answer = hold(asked, budget);
  codes.count(answer), count_import(kinds, asked, answer);
  if (answer == 0) export_back(random, asked, budget);
  for (const Damage &damage : damages) damaged.count(damage.name, made == damage.name && code_of(answer) == 14);
  damaged.count("damaged and still good", answer == 0);
}

// A plan file, one in three of them with links and one in three damaged.
void random_files(Random &random, const Budget &budget, Codes &codes, Kinds &kinds) {
  const Plan plan = any_plan(random, random.one_in(3) ? 4 : 0);
  Bytes file = file_of(plan);
  for (std::uint32_t times = random.one_in(3) ? 1 + random.below(2) : 0; times > 0; --times) damage(random, file, plan.points);
  const std::size_t length = text_of(plan).size(), sizes = random.below(6), room = random.one_in(20) ? 0 : room_about(random, length);
  Asked asked = lend(random, export_it, file, room, sizes < 4 ? 1 : sizes == 4 ? 0 : 2);
  const std::size_t lent = asked.size.size();
  const std::uint64_t answer = hold(asked, budget);
  codes.count(answer);
  if (answer == 0) import_back(random, asked, budget);
  const bool whole = file == file_of(plan), too_short = room < length;
  kinds.count("9 for the text alone", answer == 9 && whole && too_short && lent > 0);
  kinds.count("9 for the text alone, by a byte", answer == 9 && whole && room + 1 == length && lent > 0);
  kinds.count("9 for the size alone", answer == 9 && whole && !too_short && lent == 0);
  kinds.count("9 for both", answer == 9 && whole && too_short && lent == 0);
  kinds.count("10 in a short text", answer == 10 && whole && too_short && lent > 0);
  kinds.count("10 without a size", answer == 10 && whole && !too_short && lent == 0);
  kinds.count("10 with room", answer == 10 && !too_short && lent > 0);
  kinds.count("a file's code with links", code_of(answer) >= 6 && code_of(answer) <= 8 && !plan.links.empty());
  kinds.count("a file's code in a short text", code_of(answer) >= 1 && code_of(answer) <= 8 && too_short);
  kinds.count("0 in an exact text", answer == 0 && asked.room.size() == asked.size[0]);
  kinds.count("0 in a longer one", answer == 0 && asked.room.size() > asked.size[0]);
  kinds.count("0 with two sizes", answer == 0 && lent == 2);
  kinds.count("0 without limits", answer == 0 && field_at(file, 8) == 0);
  kinds.count("0 with 1,024 limits", answer == 0 && field_at(file, 8) == most_limits);
}

}  // namespace

int main(int words, char **word) {
  Budget budget(words, word, 20000);
  Typed typed(budget);
  typed.all();
  Codes imported, exported;
  Kinds imports, damaged, exports;
  while (budget.more()) {
    Random random = budget.round();
    random_texts(random, budget, imported, imports, damaged);
    random_files(random, budget, exported, exports);
  }
  std::printf("importing: %llu texts and %llu files with typed answers, %llu calls, lines up to %u; %llu texts of all bytes in all places\n",
              number(typed.texts), number(typed.files), number(typed.calls), typed.furthest, number(typed.bytes));
  std::printf("importing: %llu random texts, half of them damaged, and %llu random files, %.1f s, no difference; %llu imported and exported again, "
              "%llu the other way\n",
              number(2 * budget.done), number(budget.done), budget.spent(), number(imported.times[0]), number(exported.times[0]));
  Codes::print_head();
  imported.print("Import");
  exported.print("Export");
  const bool codes_came = exported.all_came("random files", 10), damages_came = damaged.all_came("importing", "damages that were refused"),
             imports_came = imports.all_came("importing", "texts"), exports_came = exports.all_came("importing", "files");
  return !(codes_came && damages_came && imports_came && exports_came);
}
