// A plan as document 01 has it, its bytes, and its notation: what every program in this folder passes around.
// Nothing here tests a range: programs must also be able to write plans and files that are to be refused.
#pragma once
#include <cstdint>
#include <string>
#include <vector>

using Wide = std::int64_t;  // holds every sum that is ever made here; see the floor in reference.cpp

struct Limit {
  std::uint32_t from, to;
  Wide weight;
};

struct Link {
  std::uint32_t activation, contingent, shortest, longest;
};

struct Plan {
  std::uint32_t points = 1;
  std::vector<Limit> limits;
  std::vector<Link> links;
};

constexpr std::int32_t mark = 2147483647;  // "no walk", in the tables that callers lend
constexpr std::int32_t closed_range = 63000000;
constexpr std::uint32_t most_points = 64, most_limits = 1024, most_links = 32;
constexpr Wide most_weight = 1000000;

inline void put_field(std::vector<std::uint8_t> &bytes, std::uint32_t field) {
  for (int shift = 0; shift < 32; shift += 8) bytes.push_back(std::uint8_t(field >> shift));
}

inline std::uint32_t field_at(const std::vector<std::uint8_t> &bytes, std::size_t offset) {
  std::uint32_t field = 0;
  for (std::size_t i = 0; i < 4 && offset + i < bytes.size(); ++i) field |= std::uint32_t(bytes[offset + i]) << (8 * i);
  return field;
}

inline void set_field(std::vector<std::uint8_t> &bytes, std::size_t offset, std::uint32_t field) {
  for (std::size_t i = 0; i < 4 && offset + i < bytes.size(); ++i) bytes[offset + i] = std::uint8_t(field >> (8 * i));
}

// The plan's file, "Plan file" of document 01.
inline std::vector<std::uint8_t> file_of(const Plan &plan) {
  std::vector<std::uint8_t> bytes;
  const auto limits = std::uint32_t(plan.limits.size()), links = std::uint32_t(plan.links.size());
  for (std::uint32_t field : {1u, plan.points, limits, links, 24u, 24u + 12u * limits}) put_field(bytes, field);
  for (const Limit &limit : plan.limits)
    for (std::uint32_t field : {limit.from, limit.to, std::uint32_t(limit.weight)}) put_field(bytes, field);
  for (const Link &link : plan.links)
    for (std::uint32_t field : {link.activation, link.contingent, link.shortest, link.longest}) put_field(bytes, field);
  return bytes;
}

inline std::string notation(const Limit &limit) {
  return std::to_string(limit.from) + ">" + std::to_string(limit.to) + " " + std::to_string(limit.weight);
}

// "A link is written (A, l, u, C), a limit X>Y w."
inline std::string notation(const Plan &plan) {
  std::string text = "n " + std::to_string(plan.points);
  for (const Link &link : plan.links)
    text += ", (" + std::to_string(link.activation) + "," + std::to_string(link.shortest) + "," + std::to_string(link.longest) + "," +
            std::to_string(link.contingent) + ")";
  for (const Limit &limit : plan.limits) text += ", " + notation(limit);
  return text;
}

// A table's rows, "separated by semicolons"; the no-path mark is written `mark`. A room shorter than the table ends early.
template <class Cell>
std::string notation(const std::vector<Cell> &cells, std::size_t points) {
  std::string text;
  for (std::size_t i = 0; i < cells.size() && i < points * points; ++i) {
    if (i > 0) text += i % points == 0 ? "; " : " ";
    text += cells[i] == Cell(mark) ? "mark" : std::to_string(cells[i]);
  }
  return text;
}
