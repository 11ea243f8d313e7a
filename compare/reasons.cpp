// Document 02's item 4, sentence by sentence. Written to be read beside it.
#include "reasons.hpp"

#include <algorithm>

#include "reference.hpp"

namespace reference {
namespace {

struct Listing {
  static constexpr std::size_t no_line = SIZE_MAX;
  const Plan &plan;
  const std::uint32_t n;
  std::vector<Line> lines;
  std::vector<std::size_t> strict, open;  // the line that is a pair's best so far, at from * n + to
  bool closed = false;

  explicit Listing(const Plan &plan) : plan(plan), n(plan.points), strict(std::size_t(n) * n, no_line), open(strict) {}

  // "it beats the pair's best so far, where .. a point to itself starts at 0 and ties keep the older line"
  bool beats(const Line &line, const std::vector<std::size_t> &bests) const {
    const std::size_t best = bests[line.from * n + line.to];
    if (best != no_line) return line.weight < lines[best].weight;
    return line.from != line.to || line.weight < 0;
  }

  // "Any other line is written only if it beats the pair's best so far, where an open pair's best includes its strict one"
  void offer(const Line &line, bool always = false) {
    if (closed) return;  // "It stops at the first line below zero from a point to itself."
    const bool is_open = line.kind == lower_case_edge || line.kind == open_join;
    const bool best_strict = !is_open && beats(line, strict), best_open = beats(line, open);
    if (!always && !(is_open ? best_open : best_strict)) return;
    if (best_strict) strict[line.from * n + line.to] = lines.size();
    if (best_open) open[line.from * n + line.to] = lines.size();
    lines.push_back(line);
    closed = line.from == line.to && line.weight < 0;
  }

  // "start edges by point, limits in file order, then for each link its longest, shortest and lower-case line, these three always written"
  std::vector<std::uint32_t> longest_line, lower_case_line;  // by link
  void given() {
    for (std::uint32_t x = 0; x < n; ++x) offer({start_edge, x, 0, 0, 0, 0});
    for (std::uint32_t i = 0; i < plan.limits.size(); ++i) offer({limit_edge, plan.limits[i].from, plan.limits[i].to, plan.limits[i].weight, i, 0});
    for (std::uint32_t i = 0; i < plan.links.size(); ++i) {
      const Link &link = plan.links[i];
      longest_line.push_back(std::uint32_t(lines.size()));
      offer({link_longest, link.activation, link.contingent, Wide(link.longest), i, 0}, true);
      offer({link_shortest, link.contingent, link.activation, -Wide(link.shortest), i, 0}, true);
      lower_case_line.push_back(std::uint32_t(lines.size()));
      offer({lower_case_edge, link.activation, link.contingent, Wide(link.shortest), i, 0}, true);
    }
  }

  // Joins "by middle, from, to", each "its two lines in path order"
  void joins(Kind kind, const std::vector<std::size_t> &bests) {
    for (std::uint32_t middle = 0; middle < n; ++middle)
      for (std::uint32_t from = 0; from < n; ++from)
        for (std::uint32_t to = 0; to < n; ++to) {
          const std::size_t first = bests[from * n + middle], second = bests[middle * n + to];
          if (first == no_line || second == no_line) continue;
          offer({kind, from, to, lines[first].weight + lines[second].weight, std::uint32_t(first), std::uint32_t(second)});
        }
  }

  // Lower "by link and then by second link", "its lower-case line, then its edge". Document 01: "for a link A, l, u, C and a contingent point R other than C,
  // an ordinary edge C to R of w with w < D(R) gives A to R of l + w"
  void lower() {
    for (std::size_t i = 0; i < plan.links.size(); ++i)
      for (std::size_t j = 0; j < plan.links.size(); ++j) {
        const Link &link = plan.links[i], &other = plan.links[j];
        const std::size_t edge = strict[link.contingent * n + other.contingent];
        if (i == j || edge == no_line || lines[edge].weight >= Wide(other.longest) - Wide(other.shortest)) continue;
        offer({lower_rule, link.activation, other.contingent, Wide(link.shortest) + lines[edge].weight, lower_case_line[i], std::uint32_t(edge)});
      }
  }

  // Upper "by P and then link", "its edge, then its link's longest line". Document 01: "for a link A, l, u, C and any P, A and C included, an ordinary edge
  // P to C of v gives P to A of the larger of v - u and -l"
  void upper() {
    for (std::uint32_t p = 0; p < n; ++p)
      for (std::size_t i = 0; i < plan.links.size(); ++i) {
        const Link &link = plan.links[i];
        const std::size_t edge = strict[p * n + link.contingent];
        if (edge == no_line) continue;
        const Wide weight = std::max(lines[edge].weight - Wide(link.longest), -Wide(link.shortest));
        offer({upper_rule, p, link.activation, weight, std::uint32_t(edge), longest_line[i]});
      }
  }

  void sweep() {
    joins(strict_join, strict);
    lower();
    upper();
    joins(open_join, open);
  }
};

std::uint64_t answer(std::uint32_t code, std::uint64_t place = 0) { return place << 32 | code; }

}  // namespace

Reasons reasons_of(const Plan &plan) {
  Listing listing(plan);
  listing.given();
  unsigned sweeps = 0;
  for (std::size_t before = SIZE_MAX; !listing.closed && before != listing.lines.size(); ++sweeps) {
    before = listing.lines.size();
    listing.sweep();
  }
  return {listing.closed, listing.lines, sweeps};
}

std::uint64_t reasons(const std::uint8_t *file, std::size_t file_len, std::uint32_t *kinds, std::size_t kinds_len, std::uint32_t *froms,
                      std::size_t froms_len, std::uint32_t *tos, std::size_t tos_len, std::int64_t *weights, std::size_t weights_len,
                      std::uint32_t *firsts, std::size_t firsts_len, std::uint32_t *seconds, std::size_t seconds_len, std::int64_t *work,
                      std::size_t work_len) {
  // "Refusals: the file's codes, then 9 for a short work room, change nothing"
  const Reading reading = read(file, file_len);
  if (reading.code != 0) return answer(reading.code, reading.place);
  const std::size_t cells = 4 * std::size_t(reading.plan.points) * reading.plan.points;
  if (work_len < cells) return answer(9);
  std::fill_n(work, cells, 0);  // "which are 0 after any answer worked out from a sound file"
  const Reasons found = reasons_of(reading.plan);
  if (!found.refused) return answer(0);  // "A controllable plan: 0 and no lines."
  const std::size_t room = std::min({kinds_len, froms_len, tos_len, weights_len, firsts_len, seconds_len, std::size_t(UINT32_MAX)});
  if (found.lines.size() > room) return answer(9);  // "9 for a list longer than its room, with no line written"
  for (std::size_t i = 0; i < found.lines.size(); ++i) {
    kinds[i] = found.lines[i].kind;
    froms[i] = found.lines[i].from;
    tos[i] = found.lines[i].to;
    weights[i] = found.lines[i].weight;
    firsts[i] = found.lines[i].first;
    seconds[i] = found.lines[i].second;
  }
  return answer(11, found.lines.size());  // "A refused night answers 11, with the number of lines as place."
}

// "how many lines one line rests on, itself not counted, repeats counted": from the front, so that what a line rests on is known before it is asked for.
std::vector<std::uint32_t> rests_of_all(const std::uint32_t *kinds, const std::uint32_t *firsts, const std::uint32_t *seconds, std::size_t length) {
  std::vector<std::uint32_t> rests;
  for (std::size_t line = 0; line < length; ++line) {
    std::uint64_t count = 0;
    if (kinds[line] >= strict_join && kinds[line] <= open_join)
      for (const std::uint32_t named : {firsts[line], seconds[line]})
        if (named < line) count += 1 + std::uint64_t(rests[named]);  // "a reference to no earlier line adds 0"
    rests.push_back(std::uint32_t(std::min<std::uint64_t>(count, most_rests)));
  }
  return rests;
}

std::uint32_t rests(const std::uint32_t *kinds, std::size_t kinds_len, const std::uint32_t *firsts, std::size_t firsts_len,
                    const std::uint32_t *seconds, std::size_t seconds_len, std::uint32_t line) {
  const std::size_t length = std::min({kinds_len, firsts_len, seconds_len});
  if (line >= length) return 0;
  return rests_of_all(kinds, firsts, seconds, std::size_t(line) + 1)[line];
}

}  // namespace reference
