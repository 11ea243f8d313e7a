// Source document 001's RUL- algorithm, from its pseudo-code (Algorithms 1 to 3), for the benchmark: verdict only.
#pragma once
#include <cstddef>
#include <cstdint>

namespace rul {

// Whether the plan of a sound file is dynamically controllable. The file is taken to be sound.
bool controllable(const std::uint8_t *file, std::size_t length);

// The same, and then the two tables that a post would still need, closed by Floyd and Warshall from the edges that the algorithm left:
// over ordinary edges, and over ordinary and lower-case edges. Both hold n x n cells and are written only for a controllable plan.
bool controllable_with_tables(const std::uint8_t *file, std::size_t length, std::int32_t *strict, std::int32_t *open);

}  // namespace rul
