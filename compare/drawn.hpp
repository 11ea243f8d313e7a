// The benchmark's plans, whose instructions are counted too.
#pragma once
#include "plan.hpp"
#include "random.hpp"

// What a row of n points and k links is drawn from: its first plan is `draw` of it.
inline Random row_of(std::uint64_t seed, std::uint32_t n, std::uint32_t k) { return Random(seed * 1000003 + n * 100 + k); }

// A controllable plan of n points, k links and three limits a point, drawn about a hidden timetable with slack until it is controllable.
Plan draw(Random &random, std::uint32_t n, std::uint32_t k);
