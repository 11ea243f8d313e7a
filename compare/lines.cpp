// The reason list as a C++ programmer would write it for speed, apart from reasons.cpp and sharing nothing with it: four tables in the lent work room, one run
// that counts the lines, and a second one that writes them where there is room. Rests goes back from the line that is asked for, and stops at a million.
#include <algorithm>
#include <cstdint>
#include <limits>
#include <vector>

#include "sweep.hpp"

namespace sweep {
namespace {

using Cell = std::int64_t;
constexpr Cell none = std::numeric_limits<Cell>::max();

std::uint32_t field(const std::uint8_t *at) {
  return std::uint32_t(at[0]) | std::uint32_t(at[1]) << 8 | std::uint32_t(at[2]) << 16 | std::uint32_t(at[3]) << 24;
}

struct Columns {  // where lines are written
  std::uint32_t *kinds, *froms, *tos;
  Cell *weights;
  std::uint32_t *firsts, *seconds;
};

struct Lines {
  const std::uint8_t *const file;
  const std::size_t n, m, k;
  // A pair's least weight so far and the number of its line, of the strict lines and of all. From a point to itself it is 0, and there is no line.
  Cell *const strict, *const strict_line, *const open, *const open_line;
  const Columns *const columns;  // none in the run that counts
  struct Link { std::size_t a, c; Cell l, u; };
  Link links[32];
  Cell count = 0, first_of_links = 0;
  bool closed = false;

  Lines(const std::uint8_t *file, Cell *work, const Columns *columns)
      : file(file), n(field(file + 4)), m(field(file + 8)), k(field(file + 12)), strict(work), strict_line(strict + n * n), open(strict_line + n * n),
        open_line(open + n * n), columns(columns) {
    for (std::size_t i = 0; i < k; ++i) {
      const std::uint8_t *const at = file + 24 + 12 * m + 16 * i;
      links[i] = {field(at), field(at + 4), field(at + 8), field(at + 12)};
    }
    for (Cell *table : {strict, open}) {
      std::fill_n(table, n * n, none);
      for (std::size_t x = 0; x < n; ++x) table[x * n + x] = 0;
    }
  }

  void put(std::uint32_t kind, std::size_t from, std::size_t to, Cell weight, Cell first, Cell second) {
    if (columns) {
      columns->kinds[count] = kind;
      columns->froms[count] = std::uint32_t(from);
      columns->tos[count] = std::uint32_t(to);
      columns->weights[count] = weight;
      columns->firsts[count] = std::uint32_t(first);
      columns->seconds[count] = std::uint32_t(second);
    }
    ++count;
    closed |= from == to && weight < 0;
  }

  // The next line as the best of its pair, where it is.
  void enter_open(std::size_t pair, Cell weight) {
    if (weight < open[pair]) open[pair] = weight, open_line[pair] = count;
  }

  void enter_strict(std::size_t pair, Cell weight) {
    if (weight < strict[pair]) strict[pair] = weight, strict_line[pair] = count;
    enter_open(pair, weight);
  }

  void offer_strict(std::uint32_t kind, std::size_t from, std::size_t to, Cell weight, Cell first, Cell second) {
    if (closed || weight >= strict[from * n + to]) return;
    enter_strict(from * n + to, weight);
    put(kind, from, to, weight, first, second);
  }

  void given() {
    for (std::size_t x = 0; x < n; ++x) offer_strict(1, x, 0, 0, 0, 0);
    for (std::size_t i = 0; i < m; ++i) {
      const std::uint8_t *const at = file + 24 + 12 * i;
      offer_strict(2, field(at), field(at + 4), std::int32_t(field(at + 8)), Cell(i), 0);
    }
    first_of_links = count;
    for (std::size_t i = 0; i < k && !closed; ++i) {
      const auto [a, c, l, u] = links[i];
      enter_strict(a * n + c, u);
      put(3, a, c, u, Cell(i), 0);
      enter_strict(c * n + a, -l);
      put(4, c, a, -l, Cell(i), 0);
      enter_open(a * n + c, l);
      put(5, a, c, l, Cell(i), 0);
    }
  }

  Cell longest_of(std::size_t i) const { return first_of_links + 3 * Cell(i); }
  Cell lower_case_of(std::size_t i) const { return first_of_links + 3 * Cell(i) + 2; }

  void strict_joins() {
    for (std::size_t middle = 0; middle < n; ++middle)
      for (std::size_t from = 0; from < n; ++from) {
        const Cell first = strict[from * n + middle];
        if (from == middle || first == none) continue;
        const Cell *const along = strict + middle * n, *const row = strict + from * n;
        for (std::size_t to = 0; to < n; ++to) {
          if (along[to] == none || first + along[to] >= row[to] || to == middle) continue;
          offer_strict(6, from, to, first + along[to], strict_line[from * n + middle], strict_line[middle * n + to]);
          if (closed) return;
        }
      }
  }

  void lower() {
    for (std::size_t i = 0; i < k; ++i)
      for (std::size_t j = 0; j < k; ++j) {
        const std::size_t pair = links[i].c * n + links[j].c;
        const Cell edge = strict[pair];
        if (i == j || edge >= links[j].u - links[j].l) continue;
        offer_strict(7, links[i].a, links[j].c, links[i].l + edge, lower_case_of(i), strict_line[pair]);
      }
  }

  void upper() {
    for (std::size_t from = 0; from < n; ++from)
      for (std::size_t i = 0; i < k; ++i) {
        const std::size_t pair = from * n + links[i].c;
        const Cell edge = strict[pair];
        if (from == links[i].c || edge == none) continue;
        offer_strict(8, from, links[i].a, std::max(edge - links[i].u, -links[i].l), strict_line[pair], longest_of(i));
      }
  }

  void open_joins() {
    for (std::size_t middle = 0; middle < n; ++middle)
      for (std::size_t from = 0; from < n; ++from) {
        const Cell first = open[from * n + middle];
        if (from == middle || first == none || closed) continue;
        const Cell *const along = open + middle * n, *const row = open + from * n;
        for (std::size_t to = 0; to < n; ++to) {
          if (along[to] == none || first + along[to] >= row[to] || to == middle) continue;
          const Cell line = open_line[from * n + middle];
          enter_open(from * n + to, first + along[to]);
          put(9, from, to, first + along[to], line, open_line[middle * n + to]);
          if (closed) return;
        }
      }
  }

  // Whether the list closes below zero; else a sweep wrote nothing.
  bool refused() {
    given();
    for (Cell before = -1; !closed && before != count;) {
      before = count;
      strict_joins();
      if (!closed) lower();
      if (!closed) upper();
      if (!closed) open_joins();
    }
    return closed;
  }
};

}  // namespace

std::uint64_t reasons(const std::uint8_t *file, std::size_t file_len, std::uint32_t *kinds, std::size_t kinds_len, std::uint32_t *froms,
                      std::size_t froms_len, std::uint32_t *tos, std::size_t tos_len, std::int64_t *weights, std::size_t weights_len,
                      std::uint32_t *firsts, std::size_t firsts_len, std::uint32_t *seconds, std::size_t seconds_len, std::int64_t *work,
                      std::size_t work_len) {
  if (const auto refused = sound(file, file_len)) return refused;
  const std::size_t n = field(file + 4), cells = 4 * n * n;
  if (work_len < cells) return 9;
  const std::uint64_t room = std::min({kinds_len, froms_len, tos_len, weights_len, firsts_len, seconds_len, std::size_t(UINT32_MAX)});
  std::uint64_t answer = 0;
  Lines counted(file, work, nullptr);
  if (counted.refused()) {
    const std::uint64_t count = std::uint64_t(counted.count);
    answer = count > room ? 9 : 11 | count << 32;
  }
  if (answer > 11) {
    const Columns columns = {kinds, froms, tos, weights, firsts, seconds};
    Lines(file, work, &columns).refused();
  }
  std::fill_n(work, cells, 0);
  return answer;
}

std::uint32_t rests(const std::uint32_t *kinds, std::size_t kinds_len, const std::uint32_t *firsts, std::size_t firsts_len,
                    const std::uint32_t *seconds, std::size_t seconds_len, std::uint32_t line) {
  const std::size_t length = std::min({kinds_len, firsts_len, seconds_len});
  if (line >= length) return 0;
  std::uint32_t found = 0;
  std::vector<std::uint32_t> pending = {line};
  while (!pending.empty()) {
    const std::uint32_t at = pending.back();
    pending.pop_back();
    if (kinds[at] < 6 || kinds[at] > 9) continue;
    for (const std::uint32_t named : {firsts[at], seconds[at]}) {
      if (named >= at) continue;
      if (++found == 1000000) return found;
      pending.push_back(named);
    }
  }
  return found;
}

}  // namespace sweep
