// Judge by sweeps over two tables, and by spreading, and Write, as a C++ programmer would write them for speed. Written apart from reference.cpp
// and sharing nothing with it: the file is read where it lies, a sweep joins by middle, from, to, and sums are kept in the cell's own type.
#include "sweep.hpp"

#include <algorithm>
#include <cstdint>
#include <cstring>
#include <limits>

namespace sweep {
namespace {

constexpr std::int32_t top_of_file = 63000000;  // a million a step, over at most 63 steps
unsigned last_sweeps = 0;

struct View {  // the file where it lies
  const std::uint8_t *bytes;
  std::size_t n, m, k;

  std::uint32_t field(std::size_t at) const {
    return std::uint32_t(bytes[at]) | std::uint32_t(bytes[at + 1]) << 8 | std::uint32_t(bytes[at + 2]) << 16 |
           std::uint32_t(bytes[at + 3]) << 24;
  }
  struct Limit { std::uint32_t x, y; std::int32_t w; };
  struct Link { std::uint32_t a, c; std::int32_t l, u; };
  Limit limit(std::size_t i) const {
    const std::size_t at = 24 + 12 * i;
    return {field(at), field(at + 4), std::int32_t(field(at + 8))};
  }
  Link link(std::size_t i) const {
    const std::size_t at = 24 + 12 * m + 16 * i;
    return {field(at), field(at + 4), std::int32_t(field(at + 8)), std::int32_t(field(at + 12))};
  }
};

struct LinkFields { std::uint32_t a, c, l, u; };

std::uint64_t refuse(std::uint32_t code, std::size_t place = 0) { return code | std::uint64_t(place) << 32; }

bool fits(std::uint32_t x, std::uint32_t y, std::int32_t w, std::size_t n) {
  return x < n && y < n && w >= -1000000 && w <= 1000000;
}

// Code 6 for a limit at `at` in the file that does not fit: where both points do, it is the weight.
std::uint64_t refuse_limit(std::size_t at, std::uint32_t x, std::uint32_t y, std::size_t n) {
  return refuse(6, at + (x >= n ? 0 : y >= n ? 4 : 8));
}

// Code 7 for a link at `at` that is not in range: where both points are and l is not 0, it is u, by itself or beside l.
std::uint64_t refuse_link(std::size_t at, const LinkFields &link, std::size_t n) {
  return refuse(7, at + (link.a >= n ? 0 : link.c >= n || link.c == link.a || link.c == 0 ? 4 : link.l == 0 ? 8 : 12));
}

// Codes 7 and 8 by the links' order; `link` gives the fields of the i-th, and the first of them lies at `at` in the file.
template <class Links>
std::uint64_t refuse_links(std::size_t at, std::size_t k, std::size_t n, const Links &link) {
  std::uint64_t ends = 0;  // a bit for each contingent point met
  for (std::size_t i = 0; i < k; ++i) {
    const auto [a, c, l, u] = link(i);
    if (a >= n || c >= n || a == c || c == 0 || l == 0 || l > u || u > 1000000) return refuse_link(at + 16 * i, {a, c, l, u}, n);
    if (ends >> c & 1) return refuse(8, at + 16 * i + 4);
    ends |= std::uint64_t(1) << c;
  }
  return 0;
}

// Codes 1 to 8. `extra` stands for Add's limit, which is refused as if it lay behind the file's.
std::uint64_t open_file(View &view, const std::uint8_t *file, std::size_t length, const View::Limit *extra) {
  view = {file, 0, 0, 0};
  if (length < 24) return 1;
  if (view.field(0) != 1) return 2;
  view.n = view.field(4), view.m = view.field(8), view.k = view.field(12);
  if (view.n - 1 >= 64) return 3;
  if (view.m > 1024 || view.k > 32) return 4;
  const std::size_t links = 24 + 12 * view.m;
  if (view.field(16) != 24 || view.field(20) != links || length != links + 16 * view.k) return 5;
  for (std::size_t i = 0; i < view.m; ++i) {
    const auto limit = view.limit(i);
    if (!fits(limit.x, limit.y, limit.w, view.n)) return refuse_limit(24 + 12 * i, limit.x, limit.y, view.n);
  }
  if (extra && !fits(extra->x, extra->y, extra->w, view.n)) return refuse_limit(links, extra->x, extra->y, view.n);
  return refuse_links(links, view.k, view.n, [&](std::size_t i) {
    const std::size_t at = links + 16 * i;
    return LinkFields{view.field(at), view.field(at + 4), view.field(at + 8), view.field(at + 12)};
  });
}

// The machines here are little-endian, as the file is. Byte by byte would take longer: g++ does not make one store of four here.
void put(std::uint8_t *at, std::uint32_t field) { std::memcpy(at, &field, sizeof field); }

// Two tables of one cell type. `top` is the greatest cell a controllable plan can have; what is above it is never stored, what is below
// -top is stored as the floor, which only an uncontrollable plan reaches. So no sum leaves the type.
template <class Cell>
struct Tables {
  static constexpr Cell none = std::numeric_limits<Cell>::max();
  const View &view;
  Cell *const strict, *const open;
  const Cell top, floor;
  const std::size_t n;
  View::Link links[32];

  Tables(const View &view, Cell *strict, Cell *open, Cell top)
      : view(view), strict(strict), open(open), top(top), floor(-top - 1), n(view.n) {
    for (std::size_t i = 0; i < view.k; ++i) links[i] = view.link(i);
  }

  bool offer(Cell &cell, Cell candidate) const {
    if (candidate > top) return false;
    if (candidate < floor) candidate = floor;
    if (candidate >= cell) return false;
    cell = candidate;
    return true;
  }

  void start_empty() {
    std::fill_n(strict, n * n, none);
    std::fill_n(open, n * n, none);
    for (std::size_t x = 0; x < n; ++x) strict[x * n + x] = 0, open[x * n + x] = 0;
  }

  void start_and_link_edges() {
    for (std::size_t x = 0; x < n; ++x) offer(strict[x * n], 0);
    for (std::size_t i = 0; i < view.k; ++i) {
      offer(strict[links[i].a * n + links[i].c], links[i].u);
      offer(strict[links[i].c * n + links[i].a], -links[i].l);
    }
  }

  // One row through one middle. Without branches, so that a compiler may take several cells at once: a step above `most` leads above the top
  // (no path is such a step), and one below `least` is as good as one to the floor.
  bool join_row(Cell *__restrict row, const Cell *__restrict along, Cell first) const {
    const Cell most = top - first, least = floor - first;
    Cell changed = 0;
    for (std::size_t to = 0; to < n; ++to) {
      const Cell step = std::max(along[to], least), old = row[to];
      const Cell candidate = step > most ? none : first + step;
      const Cell now = std::min(old, candidate);
      changed |= now ^ old;
      row[to] = now;
    }
    return changed != 0;
  }

  bool joins(Cell *table) const {
    bool changed = false;
    for (std::size_t middle = 0; middle < n; ++middle)
      for (std::size_t from = 0; from < n; ++from) {
        const Cell first = table[from * n + middle];
        // A row through its own point changes only past a negative diagonal, and that is looked for anyway.
        if (first != none && from != middle) changed |= join_row(table + from * n, table + middle * n, first);
      }
    return changed;
  }

  bool lower() {
    bool changed = false;
    for (std::size_t i = 0; i < view.k; ++i)
      for (std::size_t j = 0; j < view.k; ++j) {
        const Cell edge = strict[links[i].c * n + links[j].c];
        if (i != j && edge < links[j].u - links[j].l) changed |= offer(strict[links[i].a * n + links[j].c], links[i].l + edge);
      }
    return changed;
  }

  bool upper() {
    bool changed = false;
    for (std::size_t i = 0; i < view.k; ++i)
      for (std::size_t from = 0; from < n; ++from) {
        const Cell edge = strict[from * n + links[i].c];
        if (edge != none) changed |= offer(strict[from * n + links[i].a], std::max<Cell>(edge - links[i].u, -links[i].l));
      }
    return changed;
  }

  bool open_from_strict() {
    bool changed = false;
    for (std::size_t i = 0; i < n * n; ++i)
      if (strict[i] < open[i]) open[i] = strict[i], changed = true;
    for (std::size_t i = 0; i < view.k; ++i) changed |= offer(open[links[i].a * n + links[i].c], links[i].l);
    return changed;
  }

  bool negative_diagonal(const Cell *table) const {
    for (std::size_t x = 0; x < n; ++x)
      if (table[x * n + x] < 0) return true;
    return false;
  }

  // True when both tables are settled, false when the plan is uncontrollable.
  bool settle() {
    for (last_sweeps = 1;; ++last_sweeps) {
      bool changed = joins(strict);
      if (negative_diagonal(strict)) return false;
      changed |= lower();
      changed |= upper();
      changed |= open_from_strict();
      changed |= joins(open);
      if (negative_diagonal(strict) || negative_diagonal(open)) return false;
      if (!changed) break;
    }
    for (std::size_t i = 0; i < n * n; ++i)
      if (strict[i] == floor || open[i] == floor) return false;
    return true;
  }
};

// The library's way to the same tables. One pass of joins over the given edges; then each edge that a link yields, lower-case or by Lower or Upper, is spread
// through the table at once, row by row, as source document 004 does with an added limit. Between edges a table is closed under joins, so an edge from
// a to b closes a negative walk exactly if it and the cell from b to a do, and no cell ever leaves its range.
template <class Cell>
struct SpreadTables : Tables<Cell> {
  using Base = Tables<Cell>;
  using Base::links, Base::n, Base::none, Base::open, Base::strict, Base::view;
  bool negative = false, moved = false;

  using Base::Base;

  void spread(Cell *table, std::size_t a, std::size_t b, Cell weight) {
    if (negative || weight >= table[a * n + b]) return;
    if (table[b * n + a] != none && weight + table[b * n + a] < 0) {
      negative = true;
      return;
    }
    moved = true;
    for (std::size_t x = 0; x < n; ++x) {
      const Cell to_a = table[x * n + a];
      if (to_a != none && to_a + weight < table[x * n + b]) this->join_row(table + x * n, table + b * n, to_a + weight);
    }
  }

  void given() {
    this->start_empty();
    for (std::size_t i = 0; i < view.m; ++i) {
      const auto limit = view.limit(i);
      this->offer(strict[limit.x * n + limit.y], limit.w);
    }
    this->start_and_link_edges();
    this->joins(strict);
    negative = this->negative_diagonal(strict);
  }

  void strict_round() {
    for (std::size_t i = 0; i < view.k; ++i)
      for (std::size_t j = 0; j < view.k; ++j) {
        const Cell edge = strict[links[i].c * n + links[j].c];
        if (i != j && edge < links[j].u - links[j].l) spread(strict, links[i].a, links[j].c, links[i].l + edge);
      }
    for (std::size_t i = 0; i < view.k; ++i)
      for (std::size_t from = 0; from < n; ++from) {
        const Cell edge = strict[from * n + links[i].c];
        if (edge != none) spread(strict, from, links[i].a, std::max<Cell>(edge - links[i].u, -links[i].l));
      }
  }

  // The open table takes over every strict cell to which Lower and Upper lead; all others follow from these.
  void open_round() {
    for (std::size_t i = 0; i < view.k; ++i) {
      for (std::size_t j = 0; j < view.k; ++j) spread(open, links[i].a, links[j].c, strict[links[i].a * n + links[j].c]);
      for (std::size_t from = 0; from < n; ++from) spread(open, from, links[i].a, strict[from * n + links[i].a]);
    }
  }

  bool settle() {
    given();
    std::copy_n(strict, n * n, open);
    for (std::size_t i = 0; i < view.k; ++i) spread(open, links[i].a, links[i].c, links[i].l);
    last_sweeps = 0;
    while (!negative) {
      ++last_sweeps;
      moved = false;
      strict_round();
      if (!moved) break;
      open_round();
    }
    return !negative;
  }
};

bool closed_table(const std::int32_t *table, std::size_t n) {
  constexpr std::int32_t none = Tables<std::int32_t>::none;
  for (std::size_t i = 0; i < n * n; ++i)
    if (table[i] != none && (table[i] > top_of_file || table[i] < -top_of_file)) return false;
  for (std::size_t x = 0; x < n; ++x)
    if (table[x * n + x] != 0) return false;
  for (std::size_t from = 0; from < n; ++from)
    for (std::size_t middle = 0; middle < n; ++middle) {
      const std::int32_t first = table[from * n + middle];
      if (first == none) continue;
      const std::int32_t *along = table + middle * n, *row = table + from * n;
      bool above = false;
      for (std::size_t to = 0; to < n; ++to) above |= row[to] > (along[to] == none ? none : first + along[to]);
      if (above) return false;
    }
  return true;
}

bool closed(const View &view, const std::int32_t *strict, const std::int32_t *open) {
  constexpr std::int32_t none = Tables<std::int32_t>::none;
  const std::size_t n = view.n;
  if (!closed_table(strict, n) || !closed_table(open, n)) return false;
  for (std::size_t i = 0; i < n * n; ++i)
    if (open[i] > strict[i]) return false;
  for (std::size_t x = 0; x < n; ++x)
    if (strict[x * n] > 0) return false;
  for (std::size_t i = 0; i < view.m; ++i) {
    const auto limit = view.limit(i);
    if (strict[limit.x * n + limit.y] > limit.w) return false;
  }
  for (std::size_t i = 0; i < view.k; ++i) {
    const auto link = view.link(i);
    if (strict[link.a * n + link.c] > link.u || strict[link.c * n + link.a] > -link.l || open[link.a * n + link.c] > link.l) return false;
    for (std::size_t j = 0; j < view.k; ++j) {
      const auto other = view.link(j);
      const std::int32_t edge = strict[link.c * n + other.c];
      if (i != j && edge < other.u - other.l && strict[link.a * n + other.c] > link.l + edge) return false;
    }
    for (std::size_t from = 0; from < n; ++from) {
      const std::int32_t edge = strict[from * n + link.c];
      if (edge != none && strict[from * n + link.a] > std::max(edge - link.u, -link.l)) return false;
    }
  }
  return true;
}

std::uint64_t refused_tables(const View &view, std::int32_t *strict, std::int32_t *open) {
  std::fill_n(strict, view.n * view.n, Tables<std::int32_t>::none);
  std::fill_n(open, view.n * view.n, Tables<std::int32_t>::none);
  return 11;
}

// Judge on a sound file with room enough.
std::uint64_t fill(const View &view, std::int32_t *strict, std::int32_t *open) {
  Tables<std::int32_t> tables(view, strict, open, top_of_file);
  tables.start_empty();
  for (std::size_t i = 0; i < view.m; ++i) {
    const auto limit = view.limit(i);
    tables.offer(strict[limit.x * view.n + limit.y], limit.w);
  }
  tables.start_and_link_edges();
  return tables.settle() ? 0 : refused_tables(view, strict, open);
}

}  // namespace

unsigned sweeps_of_last() { return last_sweeps; }

std::uint64_t sound(const std::uint8_t *file, std::size_t file_len) {
  View view;
  return open_file(view, file, file_len, nullptr);
}

std::uint64_t check(const std::uint8_t *file, std::size_t file_len, const std::int32_t *strict, std::size_t strict_len,
                    const std::int32_t *open, std::size_t open_len) {
  View view;
  if (const auto refused = open_file(view, file, file_len, nullptr)) return refused;
  if (std::min(strict_len, open_len) < view.n * view.n) return 9;
  return closed(view, strict, open) ? 0 : 12;
}

std::uint64_t judge(const std::uint8_t *file, std::size_t file_len, std::int32_t *strict, std::size_t strict_len, std::int32_t *open,
                    std::size_t open_len) {
  View view;
  last_sweeps = 0;
  if (const auto refused = open_file(view, file, file_len, nullptr)) return refused;
  if (std::min(strict_len, open_len) < view.n * view.n) return 9;
  return fill(view, strict, open);
}

std::uint64_t judge_by_spreading(const std::uint8_t *file, std::size_t file_len, std::int32_t *strict, std::size_t strict_len,
                                 std::int32_t *open, std::size_t open_len) {
  View view;
  last_sweeps = 0;
  if (const auto refused = open_file(view, file, file_len, nullptr)) return refused;
  if (std::min(strict_len, open_len) < view.n * view.n) return 9;
  SpreadTables<std::int32_t> tables(view, strict, open, top_of_file);
  return tables.settle() ? 0 : refused_tables(view, strict, open);
}

std::uint64_t earliest(const std::uint8_t *file, std::size_t file_len, std::int32_t *strict, std::size_t strict_len, std::int32_t *open,
                       std::size_t open_len, std::int32_t *times, std::size_t times_len) {
  View view;
  last_sweeps = 0;
  if (const auto refused = open_file(view, file, file_len, nullptr)) return refused;
  if (std::min(strict_len, open_len) < view.n * view.n || times_len < view.n) return 9;
  if (view.k > 0) return 10;
  const std::uint64_t code = fill(view, strict, open);
  if (code == 0)
    for (std::size_t x = 0; x < view.n; ++x) times[x] = -strict[x * view.n];
  return code;
}

std::uint64_t add(const std::uint8_t *file, std::size_t file_len, std::uint32_t x, std::uint32_t y, std::int32_t w, std::int32_t *strict,
                  std::size_t strict_len, std::int32_t *open, std::size_t open_len, std::int64_t *scratch, std::size_t scratch_len) {
  View view;
  last_sweeps = 0;
  const View::Limit limit = {x, y, w};
  if (const auto refused = open_file(view, file, file_len, &limit)) return refused;
  const std::size_t n = view.n, cells = n * n;
  if (std::min(strict_len, open_len) < cells || scratch_len < 2 * cells) return 9;
  std::uint64_t code = 12;
  if (closed(view, strict, open)) {
    Tables<std::int64_t> tables(view, scratch, scratch + cells, std::int64_t(63) * top_of_file);
    tables.start_empty();
    for (std::size_t i = 0; i < cells; ++i)
      if (strict[i] != Tables<std::int32_t>::none) tables.offer(scratch[i], strict[i]);
    tables.start_and_link_edges();
    tables.offer(scratch[x * n + y], w);
    code = tables.settle() ? 0 : 11;
    const auto beyond = [&](std::int64_t cell) { return cell != tables.none && (cell > top_of_file || cell < -top_of_file); };
    if (code == 0 && std::any_of(scratch, scratch + 2 * cells, beyond)) code = 12;
    if (code == 0)
      for (std::size_t i = 0; i < cells; ++i) {
        strict[i] = scratch[i] == tables.none ? Tables<std::int32_t>::none : std::int32_t(scratch[i]);
        open[i] = scratch[cells + i] == tables.none ? Tables<std::int32_t>::none : std::int32_t(scratch[cells + i]);
      }
  }
  std::fill_n(scratch, 2 * cells, 0);
  return code;
}

std::uint64_t write(std::uint32_t n, const std::uint32_t *from, std::size_t m, const std::uint32_t *to, std::size_t to_len,
                    const std::int32_t *weight, std::size_t weight_len, const std::uint32_t *act, std::size_t k, const std::uint32_t *con,
                    std::size_t con_len, const std::uint32_t *shortest, std::size_t shortest_len, const std::uint32_t *longest,
                    std::size_t longest_len, std::uint8_t *buffer, std::size_t buffer_len) {
  if (n - 1 >= 64) return 3;
  if (m > 1024 || k > 32) return 4;
  if (to_len != m || weight_len != m || con_len != k || shortest_len != k || longest_len != k) return 5;
  for (std::size_t i = 0; i < m; ++i)
    if (!fits(from[i], to[i], weight[i], n)) return refuse_limit(24 + 12 * i, from[i], to[i], n);
  const std::size_t links = 24 + 12 * m;
  const auto link = [&](std::size_t i) { return LinkFields{act[i], con[i], shortest[i], longest[i]}; };
  if (const auto refused = refuse_links(links, k, n, link)) return refused;
  if (buffer_len < links + 16 * k) return 9;
  put(buffer, 1);
  put(buffer + 4, n);
  put(buffer + 8, std::uint32_t(m));
  put(buffer + 12, std::uint32_t(k));
  put(buffer + 16, 24);
  put(buffer + 20, std::uint32_t(links));
  for (std::size_t i = 0; i < m; ++i) {
    std::uint8_t *const at = buffer + 24 + 12 * i;
    put(at, from[i]);
    put(at + 4, to[i]);
    put(at + 8, std::uint32_t(weight[i]));
  }
  for (std::size_t i = 0; i < k; ++i) {
    std::uint8_t *const at = buffer + links + 16 * i;
    put(at, act[i]);
    put(at + 4, con[i]);
    put(at + 8, shortest[i]);
    put(at + 12, longest[i]);
  }
  return 0;
}

}  // namespace sweep
