// A plan as it is lent to Write: a list for each field of a limit and of a link.
#pragma once
#include <array>

#include "plan.hpp"
#include "post.h"

enum List : std::size_t { from_list, to_list, weight_list, act_list, con_list, shortest_list, longest_list, list_count };
constexpr const char *list_names[] = {"from", "to", "weight", "act", "con", "shortest", "longest"};

// A weight stands in its list by its 32 bits, so that all lists are alike.
struct Lists {
  std::uint32_t points = 1;
  std::array<std::vector<std::uint32_t>, list_count> fields;

  std::vector<std::uint32_t> &operator[](List list) { return fields[list]; }
  const std::vector<std::uint32_t> &operator[](List list) const { return fields[list]; }
  std::size_t limits() const { return fields[from_list].size(); }  // document 02: "m and k being the lengths of the from and A lists"
  std::size_t links() const { return fields[act_list].size(); }
  std::size_t file_size() const { return 24 + 12 * limits() + 16 * links(); }
  bool operator==(const Lists &other) const { return points == other.points && fields == other.fields; }
};

inline Lists lists_of(const Plan &plan) {
  Lists lists;
  lists.points = plan.points;
  for (const Limit &limit : plan.limits) {
    lists[from_list].push_back(limit.from);
    lists[to_list].push_back(limit.to);
    lists[weight_list].push_back(std::uint32_t(limit.weight));
  }
  for (const Link &link : plan.links) {
    lists[act_list].push_back(link.activation);
    lists[con_list].push_back(link.contingent);
    lists[shortest_list].push_back(link.shortest);
    lists[longest_list].push_back(link.longest);
  }
  return lists;
}

// The fields of a file's records, whatever stands in them; its header and its length must be right.
inline Lists lists_in(const std::vector<std::uint8_t> &file) {
  Lists lists;
  lists.points = field_at(file, 4);
  const std::size_t links = field_at(file, 20);
  for (std::size_t at = 24; at < file.size(); at += 4)
    lists.fields[at < links ? from_list + (at - 24) / 4 % 3 : act_list + (at - links) / 4 % 4].push_back(field_at(file, at));
  return lists;
}

// The number that stands in a list, with a weight's sign.
inline Wide number_at(const Lists &lists, std::size_t list, std::size_t index) {
  const std::uint32_t field = lists.fields[list][index];
  return list == weight_list ? Wide(std::int32_t(field)) : Wide(field);
}

// Every list that is not empty, by its name.
inline std::string notation(const Lists &lists) {
  std::string text = "n " + std::to_string(lists.points);
  for (std::size_t list = 0; list < list_count; ++list) {
    if (!lists.fields[list].empty()) text += std::string(", ") + list_names[list];
    for (std::size_t i = 0; i < lists.fields[list].size(); ++i) text += " " + std::to_string(number_at(lists, list, i));
  }
  return text;
}

// Where lists are lent. What is empty has a place too: post.h asks for that.
using Places = std::array<const std::uint32_t *, list_count>;

inline Places places_of(const Lists &lists) {
  static const std::uint32_t nothing = 0;
  Places at;
  for (std::size_t list = 0; list < list_count; ++list) at[list] = lists.fields[list].empty() ? &nothing : lists.fields[list].data();
  return at;
}

// A Write of these lists, lent at these places.
inline std::uint64_t write_lists(decltype(&post_write) write, const Lists &lists, const Places &at, std::uint8_t *buffer, std::size_t room) {
  const auto length = [&](List list) { return lists[list].size(); };
  return write(lists.points, at[from_list], length(from_list), at[to_list], length(to_list), reinterpret_cast<const std::int32_t *>(at[weight_list]),
               length(weight_list), at[act_list], length(act_list), at[con_list], length(con_list), at[shortest_list], length(shortest_list),
               at[longest_list], length(longest_list), buffer, room);
}
