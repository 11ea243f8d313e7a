// The pair of document 02's item 7: Sound in the afternoon, Judge at night. Whoever judges here asks both, in that order, and on one file their answers
// belong together, whichever calls they are.
#pragma once
#include "calls.hpp"

// How two answers of the pair on the same bytes do not belong together, or nothing. `room` says that both tables have room, `stayed` that no cell changed.
inline std::string pair_broken(std::uint64_t sound, std::uint64_t judged, bool room, bool stayed) {
  const std::string both = "Sound answers " + said(sound) + " and Judge " + said(judged);
  const bool belong = sound != 0 ? judged == sound : room ? judged == 0 || judged == 11 : judged == 9;  // "and still refuses unsound files"
  if (code_of(sound) > 8) return both + ": Sound has no such code";                                     // "codes 1 to 8"
  if (!belong) return both + " of the same bytes";
  if (judged != 0 && judged != 11 && !stayed) return both + ", and a table changed";                    // "leftovers stay"
  return "";
}

// Both calls on a file, with tables of n x n cells that hold a 7 everywhere.
struct Judged {
  std::uint64_t sound = 0, answer = 0;
  std::vector<std::int32_t> strict, open;
  std::string broken;  // how the answers do not belong together, or nothing
};

inline Judged judge_pair(const Calls &calls, const std::vector<std::uint8_t> &file, std::size_t n) {
  const std::vector<std::int32_t> before(n * n, 7);
  Judged judged{0, 0, before, before, ""};
  judged.sound = calls.sound(file.data(), file.size());
  judged.answer = calls.judge(file.data(), file.size(), judged.strict.data(), n * n, judged.open.data(), n * n);
  judged.broken = pair_broken(judged.sound, judged.answer, true, judged.strict == before && judged.open == before);
  return judged;
}
