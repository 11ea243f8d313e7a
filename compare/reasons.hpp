// The reason list of document 02's item 4, and the two calls about it: the item's text, and nothing else. It shares no code with the library.
#pragma once
#include "plan.hpp"
#include "post.h"

namespace reference {

// "each with a kind, from, to, weight and two references"
struct Line {
  std::uint32_t kind, from, to;
  Wide weight;
  std::uint32_t first, second;

  bool operator==(const Line &other) const {
    return kind == other.kind && from == other.from && to == other.to && weight == other.weight && first == other.first && second == other.second;
  }
};

// "Kinds 1 to 9: start edge, limit, link longest, link shortest, lower-case edge, strict join, Lower, Upper, open join"
enum Kind : std::uint32_t { start_edge = 1, limit_edge, link_longest, link_shortest, lower_case_edge, strict_join, lower_rule, upper_rule, open_join };
constexpr const char *kind_names[] = {"no kind",   "start edge",      "limit",       "link longest", "link shortest",
                                      "lower-case edge", "strict join", "Lower",       "Upper",        "open join"};

// A plan's list. Where no line closes below zero the plan is controllable, and its lines, which no call gives, are those written until nothing more came.
struct Reasons {
  bool refused;
  std::vector<Line> lines;
  unsigned sweeps;  // begun, the last one included
};
Reasons reasons_of(const Plan &plan);

// How many lines each of the first `length` lines rests on.
constexpr std::uint32_t most_rests = 1000000;
std::vector<std::uint32_t> rests_of_all(const std::uint32_t *kinds, const std::uint32_t *firsts, const std::uint32_t *seconds, std::size_t length);

decltype(post_reasons) reasons;
decltype(post_rests) rests;

}  // namespace reference
