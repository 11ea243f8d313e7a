// A site engineer with the plan, the list and document 01's rules, who looks up what each line names.
#include "follows.hpp"

#include <algorithm>
#include <map>

namespace {

using namespace reference;

struct Reader {
  const Plan &plan;
  const std::vector<Line> &lines;

  // "only an open join may refer to open joins"; the lower-case edge is no ordinary edge either.
  static bool is_strict(const Line &line) { return line.kind >= start_edge && line.kind <= upper_rule && line.kind != lower_case_edge; }

  const Link *ending_at(std::uint32_t point) const {
    for (const Link &link : plan.links)
      if (link.contingent == point) return &link;
    return nullptr;
  }

  bool is_edge(const Line &line, std::uint32_t from, std::uint32_t to, Wide weight) const {
    return line.from == from && line.to == to && line.weight == weight;
  }

  bool joins(const Line &line, const Line &first, const Line &second) const {
    return first.to == second.from && is_edge(line, first.from, second.to, first.weight + second.weight);
  }

  bool is_lower(const Line &line, const Line &lower_case, const Line &edge) const {
    if (lower_case.kind != lower_case_edge || !is_strict(edge)) return false;
    const Link &link = plan.links[lower_case.first];
    const Link *const other = ending_at(edge.to);
    return edge.from == link.contingent && other && other != &link && edge.weight < Wide(other->longest) - Wide(other->shortest) &&
           is_edge(line, link.activation, edge.to, Wide(link.shortest) + edge.weight);
  }

  bool is_upper(const Line &line, const Line &edge, const Line &longest) const {
    if (!is_strict(edge) || longest.kind != link_longest) return false;
    const Link &link = plan.links[longest.first];
    return edge.to == link.contingent &&
           is_edge(line, edge.from, link.activation, std::max(edge.weight - Wide(link.longest), -Wide(link.shortest)));
  }

  bool follows(std::size_t i) const {
    const Line &line = lines[i];
    const bool of_links = line.kind >= link_longest && line.kind <= lower_case_edge && line.first < plan.links.size() && line.second == 0;
    const Link link = of_links ? plan.links[line.first] : Link{};
    if (line.kind < strict_join) {
      switch (line.kind) {
        case start_edge: return line.from < plan.points && is_edge(line, line.from, 0, 0) && line.first == 0 && line.second == 0;
        case limit_edge: {
          if (line.first >= plan.limits.size() || line.second != 0) return false;
          const Limit &limit = plan.limits[line.first];
          return is_edge(line, limit.from, limit.to, limit.weight);
        }
        case link_longest: return of_links && is_edge(line, link.activation, link.contingent, Wide(link.longest));
        case link_shortest: return of_links && is_edge(line, link.contingent, link.activation, -Wide(link.shortest));
        case lower_case_edge: return of_links && is_edge(line, link.activation, link.contingent, Wide(link.shortest));
        default: return false;
      }
    }
    if (line.first >= i || line.second >= i) return false;
    const Line &first = lines[line.first], &second = lines[line.second];
    switch (line.kind) {
      case strict_join: return is_strict(first) && is_strict(second) && joins(line, first, second);
      case lower_rule: return is_lower(line, first, second);
      case upper_rule: return is_upper(line, first, second);
      case open_join: return joins(line, first, second);
      default: return false;
    }
  }
};

}  // namespace

std::string notation(const reference::Line &line) {
  const char *const kind = line.kind < 10 ? kind_names[line.kind] : kind_names[0];
  return std::to_string(line.kind) + " (" + kind + ") " + std::to_string(line.from) + ">" + std::to_string(line.to) + " " +
         std::to_string(line.weight) + " by " + std::to_string(line.first) + " and " + std::to_string(line.second);
}

std::string not_following(const Plan &plan, const std::vector<reference::Line> &lines) {
  const Reader reader{plan, lines};
  std::map<std::pair<std::uint32_t, std::uint32_t>, Wide> strict, open;  // the least so far of a pair's strict lines, and of all its lines
  if (lines.empty()) return "the list has no line";
  for (std::size_t i = 0; i < lines.size(); ++i) {
    const Line &line = lines[i];
    const bool last = i + 1 == lines.size();
    const auto wrong = [&](const char *what) {
      return "line " + std::to_string(i) + " of " + std::to_string(lines.size()) + ", " + notation(line) + ", " + what;
    };
    if (!reader.follows(i)) return wrong("does not follow from the plan and what it names");
    if ((line.from == line.to && line.weight < 0) != last)
      return wrong(last ? "ends the list and is not below zero from a point to itself" : "is below zero from a point to itself, and lines follow");
    const auto below = [&](const auto &least) {
      const auto found = least.find({line.from, line.to});
      return found == least.end() ? line.from != line.to || line.weight < 0 : line.weight < found->second;
    };
    const auto enter = [&](auto &least) {
      if (below(least)) least[{line.from, line.to}] = line.weight;
    };
    const bool always = line.kind >= link_longest && line.kind <= lower_case_edge;
    if (!always && !below(Reader::is_strict(line) ? strict : open)) return wrong("does not beat an earlier line of its pair");
    if (Reader::is_strict(line)) enter(strict);
    enter(open);
  }
  return "";
}
