// Memory to lend that catches what a call must not touch, and a call run on it.
#pragma once
#include <cstdint>
#include <cstring>
#include <functional>
#include <string>
#include <vector>

// A stretch of memory with a fence behind it. What is lent ends at the fence, or `past` elements before it.
struct Ground {
  std::uint8_t *end;
  Ground();
};

template <class Cell>
struct Lent {
  static constexpr std::size_t before = 8;  // sentinels in front
  static constexpr std::uint8_t sentinel = 0xa5;
  Cell *cells;
  std::size_t length, past;
  std::string name;

  Lent(const Ground &ground, const std::vector<Cell> &content, std::size_t past, const std::string &name)
      : length(content.size()), past(past), name(name) {
    cells = reinterpret_cast<Cell *>(ground.end) - past - length;
    std::memset(static_cast<void *>(cells - before), sentinel, before * sizeof(Cell));
    if (length > 0) std::memcpy(static_cast<void *>(cells), content.data(), length * sizeof(Cell));
    std::memset(static_cast<void *>(cells + length), sentinel, past * sizeof(Cell));
  }

  std::string touched_outside() const {
    const auto *bytes = reinterpret_cast<const std::uint8_t *>(cells - before);
    for (std::size_t i = 0; i < before * sizeof(Cell); ++i)
      if (bytes[i] != sentinel) return "it wrote in front of the " + name;
    bytes = reinterpret_cast<const std::uint8_t *>(cells + length);
    for (std::size_t i = 0; i < past * sizeof(Cell); ++i)
      if (bytes[i] != sentinel) return "it wrote past the end of the " + name;
    return "";
  }

  std::string differs(const std::vector<Cell> &expected) const {
    for (std::size_t i = 0; i < length; ++i)
      if (cells[i] != expected[i])
        return "cell " + std::to_string(i) + " of the " + name + " is " + std::to_string(cells[i]) + ", the reference has " +
               std::to_string(expected[i]);
    return "";
  }

  std::vector<Cell> content() const { return std::vector<Cell>(cells, cells + length); }
};

// How a call ended: with an answer, or stopped, and then a sentence says by what.
struct Ended {
  std::uint64_t answer = 0;
  bool hung = false;
  std::string stopped;
};
Ended run_guarded(const std::function<std::uint64_t()> &call);
