// The calls as one value, so that the reference and the linked library are run by the same code.
#pragma once
#include "post.h"
#include "reasons.hpp"
#include "reference.hpp"
#include "words.hpp"

struct Calls {
  const char *name;
  decltype(&post_sound) sound;
  decltype(&post_check) check;
  decltype(&post_judge) judge;
  decltype(&post_earliest) earliest;
  decltype(&post_add) add;
  decltype(&post_write) write;
  decltype(&post_reasons) reasons;
  decltype(&post_rests) rests;
  decltype(&post_reach) reach;
  decltype(&post_bounded) bounded;
  decltype(&post_both) both;
  decltype(&post_reach_add) reach_add;
};

inline const Calls reference_calls = {"reference",        reference::sound, reference::check,   reference::judge, reference::earliest,
                                      reference::add,     reference::write, reference::reasons, reference::rests, reference::reach,
                                      reference::bounded, reference::both,  reference::reach_add};
inline const Calls linked_calls = {"linked",     post_sound, post_check, post_judge,   post_earliest, post_add,      post_write,
                                   post_reasons, post_rests, post_reach, post_bounded, post_both,     post_reach_add};

inline std::uint32_t code_of(std::uint64_t answer) { return std::uint32_t(answer); }
inline std::uint32_t place_of(std::uint64_t answer) { return std::uint32_t(answer >> 32); }
inline std::string said(std::uint64_t answer) { return std::to_string(code_of(answer)) + " " + std::to_string(place_of(answer)); }

inline std::string answers_differ(std::uint64_t got, std::uint64_t wanted) {
  return got == wanted ? "" : "it answers " + said(got) + ", the reference " + said(wanted);
}
