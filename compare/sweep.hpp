// Plain C++ beside the library: the full sweep and a plain writer, which are the benchmark's measure and stand in for the library until that is
// built, and the library's own way. Parameters and answers are those of post.h.
#pragma once
#include <cstddef>
#include <cstdint>

#include "post.h"

namespace sweep {

decltype(post_sound) sound;
decltype(post_check) check;
decltype(post_judge) judge;
decltype(post_earliest) earliest;
decltype(post_add) add;
decltype(post_write) write;
decltype(post_reasons) reasons;  // these two in lines.cpp
decltype(post_rests) rests;
decltype(post_reach) reach;  // these four in bits.cpp
decltype(post_bounded) bounded;
decltype(post_both) both;
decltype(post_reach_add) reach_add;

// Judge in the library's way: one pass of joins, then one edge after the other spread through both tables (sweep.cpp, SpreadTables).
decltype(post_judge) judge_by_spreading;

// Sweeps, or rounds of spreading, that the last call took, the one that changed nothing included; 0 where it came to none. Not of a reason list.
unsigned sweeps_of_last();

}  // namespace sweep
