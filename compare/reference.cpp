// Document 01, section by section: plan file, edges and rules, two tables, numbers returned. From document 02: item 2 in a link's range, item 5 in
// the places, item 7 among the numbers returned, and item 1 at the end. Written to be read beside them, not to be quick: rounds over every rule in the
// paper's words until nothing moves.
#include "reference.hpp"

#include <algorithm>

namespace reference {

// ---- "Plan file" and codes 1 to 8 ----

static std::uint32_t field(const std::uint8_t *at) {
  return std::uint32_t(at[0]) | std::uint32_t(at[1]) << 8 | std::uint32_t(at[2]) << 16 | std::uint32_t(at[3]) << 24;
}

static bool limit_in_range(const Limit &limit, std::uint32_t points) {
  return limit.from < points && limit.to < points && limit.weight >= -most_weight && limit.weight <= most_weight;
}

// The durations are those of document 02, item 2, "From now on 1 <= l <= u"; all else is document 01's.
static bool link_in_range(const Link &link, std::uint32_t points) {
  return link.activation < points && link.contingent < points && 1 <= link.shortest && link.shortest <= link.longest &&
         link.longest <= most_weight && link.activation != link.contingent && link.contingent != 0;
}

// Places, document 02, item 5: "the offset in the file of the field at fault". Of a record that stands at `record`, each field in turn is good or
// not, and the first that is not is meant.
static std::uint32_t first_bad(std::uint32_t record, const std::vector<bool> &good) {
  return record + 4 * std::uint32_t(std::find(good.begin(), good.end(), false) - good.begin());
}

// "for a limit the first bad one of from, to, weight"
static std::uint32_t field_at_fault(std::uint32_t record, const Limit &limit, std::uint32_t points) {
  const bool from = limit.from < points, to = limit.to < points, weight = -most_weight <= limit.weight && limit.weight <= most_weight;
  return first_bad(record, {from, to, weight});
}

// "for a link of A, C, l, u, where A equal to C is blamed on C, a wrong order of l and u on u, and l only when it is 0"
static std::uint32_t field_at_fault(std::uint32_t record, const Link &link, std::uint32_t points) {
  const bool a = link.activation < points;
  const bool c = link.contingent < points && link.contingent != 0 && link.contingent != link.activation;
  const bool l = link.shortest != 0;
  const bool u = link.longest >= link.shortest && link.longest <= most_weight;
  return first_bad(record, {a, c, l, u});
}

Reading read(const std::uint8_t *file, std::size_t length, const Limit *added) {
  if (length < 24) return {1, 0, {}};
  if (field(file) != 1) return {2, 0, {}};
  const std::uint32_t points = field(file + 4), limits = field(file + 8), links = field(file + 12);
  if (points < 1 || points > most_points) return {3, 0, {}};
  if (limits > most_limits || links > most_links) return {4, 0, {}};
  if (field(file + 16) != 24 || field(file + 20) != 24 + 12 * limits || length != 24 + 12 * limits + 16 * links) return {5, 0, {}};
  Plan plan;
  plan.points = points;
  for (std::uint32_t i = 0; i < limits; ++i) {
    const std::uint32_t record = 24 + 12 * i;
    const std::uint8_t *at = file + record;
    const Limit limit = {field(at), field(at + 4), std::int32_t(field(at + 8))};
    if (!limit_in_range(limit, points)) return {6, field_at_fault(record, limit, points), {}};
    plan.limits.push_back(limit);
  }
  // "A bad limit handed to Add reports offset 24 + 12m plus the field's offset in a record."
  if (added && !limit_in_range(*added, points)) return {6, field_at_fault(24 + 12 * limits, *added, points), {}};
  for (std::uint32_t i = 0; i < links; ++i) {
    const std::uint32_t record = 24 + 12 * limits + 16 * i;
    const std::uint8_t *at = file + record;
    const Link link = {field(at), field(at + 4), field(at + 8), field(at + 12)};
    if (!link_in_range(link, points)) return {7, field_at_fault(record, link, points), {}};
    for (const Link &earlier : plan.links)
      if (earlier.contingent == link.contingent) return {8, record + 4, {}};  // "for code 8 the C field"
    plan.links.push_back(link);
  }
  return {0, 0, plan};
}

// ---- "Edges and rules" ----

// "Given ordinary edges are: every limit; from every point to point 0, weight 0; for each link, from A to C, weight u, and from C to A, weight -l"
static std::vector<Limit> given_edges(const Plan &plan) {
  std::vector<Limit> edges = plan.limits;
  for (std::uint32_t x = 0; x < plan.points; ++x) edges.push_back({x, 0, 0});
  for (const Link &link : plan.links) {
    edges.push_back({link.activation, link.contingent, Wide(link.longest)});
    edges.push_back({link.contingent, link.activation, -Wide(link.shortest)});
  }
  return edges;
}

// "Adding to the mark gives the mark"
static Wide sum(Wide a, Wide b) { return a == none || b == none ? none : a + b; }

// D(C); 0 for a link of fixed length, so that Lower asks for an edge below 0 to its end.
static Wide spread(const Link &link) { return Wide(link.longest) - Wide(link.shortest); }

// Lower: from the edge C to R of `edge`, what A to R gets, or none where Lower does not apply.
static Wide lowered(const Link &link, const Link &other, Wide edge, const Altered &altered) {
  if (edge == none || (other.contingent == link.contingent && !altered.lower_at_own_point)) return none;
  if (edge >= spread(other) && !altered.lower_at_any_weight) return none;
  return Wide(link.shortest) + edge;
}

// Upper: from the edge P to C of `edge`, what P to A gets.
static Wide uppered(const Link &link, Wide edge, const Altered &altered) {
  if (edge == none) return none;
  const Wide reduced = edge - Wide(link.longest);
  return altered.upper_without_shortest ? reduced : std::max(reduced, -Wide(link.shortest));
}

// ---- "Two tables" ----

namespace {
struct Rounds {
  const Plan &plan;
  const Altered &altered;
  const std::size_t n;
  // "In a controllable plan every other cell lies within 1,000,000 x (n - 1) of zero", and likewise for heavier limits: a cell below that
  // is the finding. Strict cells may fall for ever, so the rounds must stop there; and no sum of two cells above it leaves 64 bits.
  const Wide floor;
  std::vector<Wide> strict, open;
  bool moved = false, fallen = false;

  Rounds(const Plan &plan, Wide heaviest, const Altered &altered)
      : plan(plan), altered(altered), n(plan.points), floor(-heaviest * Wide(n - 1)), strict(n * n, none), open(n * n, none) {
    for (std::size_t x = 0; x < n; ++x) strict[x * n + x] = open[x * n + x] = 0;  // "The empty walk counts, so the diagonal is 0."
    for (const Limit &edge : given_edges(plan)) offer(strict[edge.from * n + edge.to], edge.weight);
  }

  void offer(Wide &cell, Wide candidate) {
    if (candidate >= cell || fallen) return;
    cell = candidate;
    moved = true;
    if (candidate < floor) fallen = true;
  }

  void joins(std::vector<Wide> &table) {
    for (std::size_t p = 0; p < n; ++p)
      for (std::size_t r = 0; r < n; ++r)
        for (std::size_t q = 0; q < n; ++q) offer(table[p * n + r], sum(table[p * n + q], table[q * n + r]));
  }

  void lower_and_upper() {
    for (const Link &link : plan.links)
      for (const Link &other : plan.links)
        offer(strict[link.activation * n + other.contingent],
              lowered(link, other, altered.without_lower ? none : strict[link.contingent * n + other.contingent], altered));
    const std::vector<Wide> &read_by_upper = altered.upper_reads_open ? open : strict;
    for (const Link &link : plan.links)
      for (std::size_t p = 0; p < n; ++p) {
        // With -l the empty walk from C to C yields the given edge; without it the alteration should meet edges only, as the paper has it.
        const bool skipped = altered.without_upper || (altered.upper_without_shortest && p == link.contingent);
        if (!skipped) offer(strict[p * n + link.activation], uppered(link, read_by_upper[p * n + link.contingent], altered));
      }
  }

  void open_from_strict() {
    for (std::size_t i = 0; i < n * n; ++i) offer(open[i], strict[i]);
    if (altered.without_lower_case) return;
    for (const Link &link : plan.links) offer(open[link.activation * n + link.contingent], link.shortest);
  }

  // "uncontrollable if some closed walk over derivable edges and lower-case edges has a negative total"
  bool refused() const {
    if (fallen) return true;
    for (std::size_t x = 0; x < n; ++x)
      if (strict[x * n + x] < 0 || open[x * n + x] < 0) return true;
    return false;
  }
};
}  // namespace

// For the two alterations that look at one duration of each link only: limits in place of links.
static Plan with_fixed_durations(const Plan &plan, bool longest) {
  Plan fixed = {plan.points, plan.limits, {}};
  for (const Link &link : plan.links) {
    const Wide duration = longest ? link.longest : link.shortest;
    fixed.limits.push_back({link.activation, link.contingent, duration});
    fixed.limits.push_back({link.contingent, link.activation, -duration});
  }
  return fixed;
}

Settled settle(const Plan &plan, Wide heaviest, const Altered &altered) {
  if (altered.only_longest || altered.only_shortest) return settle(with_fixed_durations(plan, altered.only_longest), heaviest);
  Rounds rounds(plan, heaviest, altered);
  if (altered.rules_once) rounds.lower_and_upper();
  do {
    rounds.moved = false;
    rounds.joins(rounds.strict);
    if (!altered.rules_once) rounds.lower_and_upper();
    rounds.open_from_strict();
    rounds.joins(rounds.open);
    if (rounds.refused()) return {false, {}, {}};
  } while (rounds.moved);
  return {true, rounds.strict, rounds.open};
}

// "Tables are closed for a plan if .."
bool closed(const Plan &plan, const std::int32_t *strict_cells, const std::int32_t *open_cells) {
  const std::size_t n = plan.points;
  std::vector<Wide> strict(n * n), open(n * n);
  for (std::size_t i = 0; i < n * n; ++i) {
    strict[i] = strict_cells[i] == mark ? none : strict_cells[i];
    open[i] = open_cells[i] == mark ? none : open_cells[i];
  }
  for (const auto *table : {&strict, &open}) {
    for (Wide cell : *table)
      if (cell != none && (cell < -closed_range || cell > closed_range)) return false;
    for (std::size_t x = 0; x < n; ++x)
      if ((*table)[x * n + x] != 0) return false;
    for (std::size_t p = 0; p < n; ++p)
      for (std::size_t q = 0; q < n; ++q)
        for (std::size_t r = 0; r < n; ++r)
          if ((*table)[p * n + r] > sum((*table)[p * n + q], (*table)[q * n + r])) return false;
  }
  for (const Limit &edge : given_edges(plan))
    if (strict[edge.from * n + edge.to] > edge.weight) return false;
  for (const Link &link : plan.links) {
    for (const Link &other : plan.links)
      if (strict[link.activation * n + other.contingent] > lowered(link, other, strict[link.contingent * n + other.contingent], {}))
        return false;
    for (std::size_t p = 0; p < n; ++p)
      if (strict[p * n + link.activation] > uppered(link, strict[p * n + link.contingent], {})) return false;
    if (open[link.activation * n + link.contingent] > Wide(link.shortest)) return false;
  }
  for (std::size_t i = 0; i < n * n; ++i)
    if (open[i] > strict[i]) return false;
  return true;
}

// ---- "Numbers returned" ----

static std::uint64_t answer(std::uint32_t code, std::uint32_t place = 0) { return std::uint64_t(place) << 32 | code; }

static void write_table(const std::vector<Wide> &table, std::int32_t *cells) {
  for (std::size_t i = 0; i < table.size(); ++i) cells[i] = table[i] == none ? mark : std::int32_t(table[i]);
}

// Document 02, item 7: "one call says whether the file is sound (codes 1 to 8)"
std::uint64_t sound(const std::uint8_t *file, std::size_t file_len) {
  const Reading reading = read(file, file_len);
  return answer(reading.code, reading.place);
}

std::uint64_t check(const std::uint8_t *file, std::size_t file_len, const std::int32_t *strict, std::size_t strict_len,
                    const std::int32_t *open, std::size_t open_len) {
  const Reading reading = read(file, file_len);
  if (reading.code != 0) return answer(reading.code, reading.place);
  const std::size_t cells = std::size_t(reading.plan.points) * reading.plan.points;
  if (strict_len < cells || open_len < cells) return answer(9);
  return answer(closed(reading.plan, strict, open) ? 0 : 12);
}

// Judge and Earliest once the file and the rooms are sound.
static std::uint64_t fill(const Plan &plan, std::int32_t *strict, std::int32_t *open) {
  const Settled settled = settle(plan, most_weight);
  if (!settled.controllable) {
    std::fill_n(strict, std::size_t(plan.points) * plan.points, mark);
    std::fill_n(open, std::size_t(plan.points) * plan.points, mark);
    return answer(11);
  }
  write_table(settled.strict, strict);
  write_table(settled.open, open);
  return answer(0);
}

std::uint64_t judge(const std::uint8_t *file, std::size_t file_len, std::int32_t *strict, std::size_t strict_len, std::int32_t *open,
                    std::size_t open_len) {
  const Reading reading = read(file, file_len);
  if (reading.code != 0) return answer(reading.code, reading.place);
  const std::size_t cells = std::size_t(reading.plan.points) * reading.plan.points;
  if (strict_len < cells || open_len < cells) return answer(9);
  return fill(reading.plan, strict, open);
}

std::uint64_t earliest(const std::uint8_t *file, std::size_t file_len, std::int32_t *strict, std::size_t strict_len, std::int32_t *open,
                       std::size_t open_len, std::int32_t *times, std::size_t times_len) {
  const Reading reading = read(file, file_len);
  if (reading.code != 0) return answer(reading.code, reading.place);
  const std::size_t n = reading.plan.points;
  if (strict_len < n * n || open_len < n * n || times_len < n) return answer(9);
  if (!reading.plan.links.empty()) return answer(10);
  const std::uint64_t filled = fill(reading.plan, strict, open);
  if (filled == answer(0))
    for (std::size_t x = 0; x < n; ++x) times[x] = -strict[x * n];  // "time of X is minus the strict cell from X to 0"
  return filled;
}

std::uint64_t add(const std::uint8_t *file, std::size_t file_len, std::uint32_t x, std::uint32_t y, std::int32_t w, std::int32_t *strict,
                  std::size_t strict_len, std::int32_t *open, std::size_t open_len, std::int64_t *scratch, std::size_t scratch_len) {
  const Limit added = {x, y, w};
  const Reading reading = read(file, file_len, &added);
  if (reading.code != 0) return answer(reading.code, reading.place);
  const std::size_t n = reading.plan.points;
  if (strict_len < n * n || open_len < n * n || scratch_len < 2 * n * n) return answer(9);
  std::fill_n(scratch, 2 * n * n, 0);  // "unchanged with codes 1 to 9, and else its first 2 x n x n cells are 0"
  if (!closed(reading.plan, strict, open)) return answer(12);

  // "Take as limits every strict cell off the diagonal that isn't the mark, and the new limit."
  Plan plan;
  plan.points = reading.plan.points;
  plan.links = reading.plan.links;
  for (std::uint32_t from = 0; from < n; ++from)
    for (std::uint32_t to = 0; to < n; ++to)
      if (from != to && strict[from * n + to] != mark) plan.limits.push_back({from, to, strict[from * n + to]});
  plan.limits.push_back(added);
  const Settled settled = settle(plan, closed_range);
  if (!settled.controllable) return answer(11);
  for (const auto *table : {&settled.strict, &settled.open})
    for (Wide cell : *table)
      if (cell != none && (cell < -closed_range || cell > closed_range)) return answer(12);
  write_table(settled.strict, strict);
  write_table(settled.open, open);
  return answer(0);
}

// ---- document 02, item 1 ----

std::uint64_t write(std::uint32_t n, const std::uint32_t *from, std::size_t from_len, const std::uint32_t *to, std::size_t to_len,
                    const std::int32_t *weight, std::size_t weight_len, const std::uint32_t *act, std::size_t act_len, const std::uint32_t *con,
                    std::size_t con_len, const std::uint32_t *shortest, std::size_t shortest_len, const std::uint32_t *longest,
                    std::size_t longest_len, std::uint8_t *buffer, std::size_t buffer_len) {
  // "m and k being the lengths of the from and A lists; another length gets 5", behind 3 and 4 as the reader has it.
  const std::size_t m = from_len, k = act_len;
  if (n < 1 || n > most_points) return answer(3);
  if (m > most_limits || k > most_links) return answer(4);
  for (std::size_t length : {to_len, weight_len})
    if (length != m) return answer(5);
  for (std::size_t length : {con_len, shortest_len, longest_len})
    if (length != k) return answer(5);
  Plan plan;
  plan.points = n;
  for (std::size_t i = 0; i < m; ++i) plan.limits.push_back({from[i], to[i], weight[i]});
  for (std::size_t i = 0; i < k; ++i) plan.links.push_back({act[i], con[i], shortest[i], longest[i]});

  // "It refuses what the reader refuses, with the same codes": so the file is made, and read.
  const std::vector<std::uint8_t> file = file_of(plan);
  const Reading reading = read(file.data(), file.size());
  if (reading.code != 0) return answer(reading.code, reading.place);
  if (buffer_len < file.size()) return answer(9);  // "a buffer shorter than the file gets 9, last"
  std::copy(file.begin(), file.end(), buffer);
  return answer(0);
}

}  // namespace reference
