// The algorithm keeps a graph of ordinary edges and the links, a lower bound h on each point's time ("potential function"), and closes the links' upper
// ends one after the other. Names follow the pseudo-code. What it leaves open, and what is done here:
// - It assumes that activations are not contingent. A link hung on another link's end C gets a point of its own with 0 to and from C.
// - "push Z onto S": Z is any contingent point. The return of True belongs behind the loop.
// - CloseRelaxLower starts from edges into R "in E^o and E^l". RELAX- takes two ordinary edges (Table 3), so the lower-case edge into R is left
//   out: going back over it would derive edges that do not hold.
// - The queue's lines 8 to 10 are read as standing under the `if` of line 7; else a point would be put back for ever.
// - UpdatePotential would go round for ever on a negative cycle; every such cycle passes A, so raising A's own bound ends it.
// - Bellman-Ford stops at the first round that changes nothing.
// A link of fixed length, which the paper allows ("l <= u"), needs nothing of its own. u - l is 0, so lines 12 and 13 ask for edges below 0; both cases of
// ApplyUpper give max(v - u, -l) as before; and the lower-case edge into R weighs what the ordinary one does, so it is the same whether it is left out.
#include "rul.hpp"

#include <algorithm>
#include <limits>
#include <queue>
#include <vector>

namespace rul {
namespace {

constexpr int most = 64 + 32;
constexpr std::int32_t none = std::numeric_limits<std::int32_t>::max();

struct Graph {
  int given = 0, points = 0;           // points of the plan; and with those added for activations
  std::int32_t w[most][most];          // ordinary edges
  std::uint8_t into[most][most];       // the points with an edge into a point
  int count[most];                     // how many those are
  std::int32_t shortest[most], longest[most];
  int activation[most];                // -1: not contingent
  std::int64_t h[most];

  bool contingent(int p) const { return activation[p] >= 0; }

  void edge(int from, int to, std::int32_t weight) {
    if (w[from][to] == none) into[to][count[to]++] = std::uint8_t(from);
    w[from][to] = std::min(w[from][to], weight);
  }

  void empty(int wanted, int links) {
    given = points = wanted;
    for (int x = 0; x < wanted + links; ++x) {
      std::fill_n(w[x], wanted + links, none);
      count[x] = 0;
      activation[x] = -1;
      h[x] = 0;
    }
  }

  // Calls each(P, w) for every ordinary and lower-case edge from P into Q.
  template <class Each>
  void edges_into(int q, Each each) const {
    for (int i = 0; i < count[q]; ++i) each(int(into[q][i]), w[into[q][i]][q]);
    if (contingent(q)) each(activation[q], shortest[q]);
  }
};

std::int32_t field(const std::uint8_t *at) {
  return std::int32_t(std::uint32_t(at[0]) | std::uint32_t(at[1]) << 8 | std::uint32_t(at[2]) << 16 | std::uint32_t(at[3]) << 24);
}

void read(Graph &graph, const std::uint8_t *file) {
  const int n = field(file + 4), m = field(file + 8), k = field(file + 12);
  graph.empty(n, k);
  for (int i = 0; i < m; ++i) {
    const std::uint8_t *at = file + 24 + 12 * i;
    graph.edge(field(at), field(at + 4), field(at + 8));
  }
  for (int x = 0; x < n; ++x) graph.edge(x, 0, 0);
  const std::uint8_t *links = file + 24 + 12 * m;
  for (int i = 0; i < k; ++i) {
    const int c = field(links + 16 * i + 4);
    graph.activation[c] = field(links + 16 * i), graph.shortest[c] = field(links + 16 * i + 8), graph.longest[c] = field(links + 16 * i + 12);
  }
  for (int c = 0; c < n; ++c) {
    if (!graph.contingent(c)) continue;
    if (graph.contingent(graph.activation[c])) {
      const int own = graph.points++;
      graph.edge(own, graph.activation[c], 0);
      graph.edge(graph.activation[c], own, 0);
      graph.activation[c] = own;
    }
    graph.edge(graph.activation[c], c, graph.longest[c]);
    graph.edge(c, graph.activation[c], -graph.shortest[c]);
  }
}

void init_potential(Graph &graph) {
  for (int round = 1; round < graph.points; ++round) {
    bool changed = false;
    for (int q = 0; q < graph.points; ++q)
      graph.edges_into(q, [&](int p, std::int32_t weight) {
        if (graph.h[p] < graph.h[q] - weight) graph.h[p] = graph.h[q] - weight, changed = true;
      });
    if (!changed) return;
  }
}

bool negative_cycle(const Graph &graph) {
  bool found = false;
  for (int q = 0; q < graph.points && !found; ++q)
    graph.edges_into(q, [&](int p, std::int32_t weight) { found |= graph.h[p] < graph.h[q] - weight; });
  return found;
}

struct Queue {  // least priority first; an entry that is not a point's last is passed over
  std::priority_queue<std::pair<std::int64_t, int>, std::vector<std::pair<std::int64_t, int>>, std::greater<>> heap;
  std::int64_t priority[most];
  bool waiting[most] = {};

  void insert_or_decrease(int p, std::int64_t wanted) {
    if (waiting[p] && priority[p] <= wanted) return;
    waiting[p] = true;
    priority[p] = wanted;
    heap.push({wanted, p});
  }
  int pop() {  // -1: empty
    while (!heap.empty()) {
      const auto [key, p] = heap.top();
      heap.pop();
      if (!waiting[p] || priority[p] != key) continue;
      waiting[p] = false;
      return p;
    }
    return -1;
  }
};

void close_relax_lower(Graph &graph, int r) {
  Queue queue;
  const std::int32_t spread = graph.longest[r] - graph.shortest[r];
  const auto offer = [&](int p, std::int32_t v) {
    if (v >= graph.w[p][r]) return;
    graph.edge(p, r, v);
    queue.insert_or_decrease(p, graph.h[p] + v);
  };
  for (int i = 0; i < graph.count[r]; ++i)
    if (graph.into[r][i] != r) queue.insert_or_decrease(graph.into[r][i], graph.h[graph.into[r][i]] + graph.w[graph.into[r][i]][r]);
  for (int q = queue.pop(); q >= 0; q = queue.pop()) {
    if (graph.w[q][r] >= spread) continue;
    if (graph.contingent(q)) {
      offer(graph.activation[q], graph.shortest[q] + graph.w[q][r]);  // LOWER-
    } else {
      for (int i = 0; i < graph.count[q]; ++i) {  // RELAX-
        const int p = graph.into[q][i];
        if (p != r) offer(p, graph.w[p][q] + graph.w[q][r]);
      }
    }
  }
}

void apply_upper(Graph &graph, int r) {
  for (int i = 0; i < graph.count[r]; ++i) {
    const int p = graph.into[r][i];
    graph.edge(p, graph.activation[r], std::max(graph.w[p][r] - graph.longest[r], -graph.shortest[r]));
  }
}

bool update_potential(Graph &graph, int a) {
  Queue queue;
  std::int64_t before[most];
  std::copy_n(graph.h, graph.points, before);
  bool failed = false;
  queue.insert_or_decrease(a, 0);
  for (int q = queue.pop(); q >= 0 && !failed; q = queue.pop())
    graph.edges_into(q, [&](int p, std::int32_t weight) {
      if (failed || graph.h[p] >= graph.h[q] - weight) return;
      failed = p == a;
      graph.h[p] = graph.h[q] - weight;
      queue.insert_or_decrease(p, before[p] - graph.h[p]);
    });
  return !failed;
}

bool dc_check(Graph &graph) {
  init_potential(graph);
  if (negative_cycle(graph)) return false;
  std::vector<int> left, stack;
  for (int p = 0; p < graph.points; ++p)
    if (graph.contingent(p)) left.push_back(p);
  if (!left.empty()) stack.push_back(left.back());
  while (!stack.empty()) {
    const int r = stack.back();
    close_relax_lower(graph, r);
    apply_upper(graph, r);
    if (!update_potential(graph, graph.activation[r]) || negative_cycle(graph)) return false;
    const auto blocks = [&](int other) { return graph.w[graph.activation[other]][r] < graph.longest[r] - graph.shortest[r]; };
    const auto blocking = std::find_if(left.begin(), left.end(), blocks);
    if (blocking != left.end()) {
      if (std::count(stack.begin(), stack.end(), *blocking) > 0) return false;
      stack.push_back(*blocking);
    } else {
      left.erase(std::find(left.begin(), left.end(), r));
      stack.pop_back();
      if (stack.empty() && !left.empty()) stack.push_back(left.back());
    }
  }
  return true;
}

void close_table(const Graph &graph, bool lower_case, std::int32_t *cells) {
  static std::int32_t table[most][most];
  for (int p = 0; p < graph.points; ++p) {
    std::copy_n(graph.w[p], graph.points, table[p]);
    table[p][p] = 0;
  }
  for (int c = 0; c < graph.points && lower_case; ++c)
    if (graph.contingent(c)) table[graph.activation[c]][c] = std::min(table[graph.activation[c]][c], graph.shortest[c]);
  for (int middle = 0; middle < graph.points; ++middle)
    for (int from = 0; from < graph.points; ++from) {
      const std::int32_t first = table[from][middle];
      if (first == none) continue;
      for (int to = 0; to < graph.points; ++to)
        if (table[middle][to] != none) table[from][to] = std::min(table[from][to], first + table[middle][to]);
    }
  for (int p = 0; p < graph.given; ++p) std::copy_n(table[p], graph.given, cells + p * graph.given);
}

}  // namespace

bool controllable(const std::uint8_t *file, std::size_t) {
  static Graph graph;
  read(graph, file);
  return dc_check(graph);
}

bool controllable_with_tables(const std::uint8_t *file, std::size_t, std::int32_t *strict, std::int32_t *open) {
  static Graph graph;
  read(graph, file);
  if (!dc_check(graph)) return false;
  close_table(graph, false, strict);
  close_table(graph, true, open);
  return true;
}

}  // namespace rul
