// Holding one exported call against the reference: both are run on the same lent memory, and answer, every lent cell, the file and the memory
// about them must come out the same. A difference is made small, printed in document 01's notation, and ends the program with 1.
#pragma once
#include <array>
#include <string>

#include "pair.hpp"
#include "random.hpp"

enum class Call { sound, judge, check, add, earliest };
constexpr std::size_t call_count = 5;
const char *name_of(Call call);

// One call and all that it is lent. A vector's length is the room lent. `past` is how many sentinels lie between the end of each room and memory
// that cannot be touched: 0 catches reads past the end, more than 0 shows what was written there. Behind the file there are `behind` more: a file that is
// to grow or shrink where it lies begins at the same byte then.
struct Case {
  Call call = Call::judge;
  std::vector<std::uint8_t> file;
  Limit added = {0, 0, 0};
  std::vector<std::int32_t> strict, open, times;
  std::vector<std::int64_t> scratch;
  std::size_t past = 0, behind = 0;
};

// What a run of both came to: the answers, the rooms afterwards, and a sentence on how they differ, or nothing.
struct Outcome {
  std::string difference;
  std::uint64_t wanted = 0, got = 0;
  bool returned = false, hung = false;  // neither: it was stopped by a signal
  Case expected, left;                  // `left` is empty where the linked call did not return
};
Outcome run_both(const Case &lent);

// Runs the case and insists that there is no difference. The rooms of `lent` then hold what the call left. Returns the answer.
std::uint64_t hold(Case &lent, const Budget &budget);

// Sound and then Judge on the file of a case of Judge's, each held, and Judge whatever Sound answered; then the two answers must belong together.
struct TwoAnswers {
  std::uint64_t sound, judged;
};
TwoAnswers hold_pair(Case &lent, const Budget &budget);

// How the answers of the pair do not belong together, or nothing: `lent` is what Judge was lent, `left` what it left.
std::string pair_broken(const TwoAnswers &answers, const Case &lent, const Case &left);

// A file in document 01's notation, or field by field where it is refused.
std::string in_words(const std::vector<std::uint8_t> &file);

// A room as needed, one short, one long or longer, mostly as needed.
std::size_t room_about(Random &random, std::size_t needed);

// A case with such rooms for `points` points, filled at random; with `exact` they are as needed.
Case lend(Random &random, Call call, std::vector<std::uint8_t> file, std::size_t points, bool exact = false);

// How often each code was answered: by one call, and by each of those of `Call`.
struct Codes {
  std::array<std::uint64_t, 14> times{};
  void count(std::uint64_t answer) { ++times[code_of(answer) < 13 ? code_of(answer) : 13]; }
  static void print_head();
  void print(const char *call) const;
  // A sentence for each of the codes from 0 to `last` that never came up. True if all did.
  bool all_came(const char *answers, std::uint32_t last) const;
};

// How often each field was at fault, told from an answer's place and the number of limits (document 02, item 5): of a limit of the file's, of Add's own limit,
// of a link; with 8 it is C alone.
struct Fields {
  std::array<std::uint64_t, 11> times{};
  void count(std::uint64_t answer, std::size_t limits);
  // Prints them, and a sentence for each that never came up, but for Add's where Add is not called. True if all came up.
  bool all_came(const char *answers, bool with_add) const;
};

struct Tally {
  std::array<Codes, call_count> calls;
  void count(Call call, std::uint64_t answer) { calls[std::size_t(call)].count(answer); }
  void count(const TwoAnswers &answers) { count(Call::sound, answers.sound), count(Call::judge, answers.judged); }
  void print() const;
};
