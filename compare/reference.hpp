// The reference: document 01 rendered as plainly as C++ allows, and nothing else. It shares no code with the library.
#pragma once
#include "plan.hpp"
#include "post.h"

namespace reference {

constexpr Wide none = INT64_MAX;  // no walk

// Document 01's "Easy ways to be wrong", each a switch, and three more of their kind. All off is document 01.
// The brute force of strategies.cpp must find each of them out.
struct Altered {
  bool only_longest = false;             // every link takes its longest duration
  bool only_shortest = false;            // every link takes its shortest duration
  bool upper_reads_open = false;         // Upper's edge P to C is taken from the open table
  bool upper_without_shortest = false;   // Upper yields v - u however low
  bool lower_at_own_point = false;       // Lower also with R = C
  bool without_lower = false;
  bool rules_once = false;               // Lower and Upper once, on the given edges, and then joins only
  bool lower_at_any_weight = false;      // Lower without w < D(R)
  bool without_upper = false;
  bool without_lower_case = false;       // closed walks over derivable edges only
};

// The two tables of a plan whose limits weigh at most `heaviest` either way, or the finding that it is uncontrollable.
struct Settled {
  bool controllable;
  std::vector<Wide> strict, open;
};
Settled settle(const Plan &plan, Wide heaviest, const Altered &altered = {});

// What a file's bytes answer, codes 1 to 8, the last three with a field's offset in the file as place, and the plan they hold when that is 0. `added`,
// if there is one, is Add's limit.
struct Reading {
  std::uint32_t code, place;
  Plan plan;
};
Reading read(const std::uint8_t *file, std::size_t length, const Limit *added = nullptr);

bool closed(const Plan &plan, const std::int32_t *strict, const std::int32_t *open);

// The calls, with the parameters and the answers of post.h.
decltype(post_sound) sound;
decltype(post_check) check;
decltype(post_judge) judge;
decltype(post_earliest) earliest;
decltype(post_add) add;
decltype(post_write) write;

}  // namespace reference
