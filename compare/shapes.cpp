// How the shapes are drawn. No two numbers are drawn in one expression's arguments: compilers evaluate those in different orders, and plans
// must be the same on every machine. Plain random weights give almost only refused plans, so most shapes start from a hidden timetable: a limit
// X>Y w is drawn as the timetable's difference and a little slack, and links are given durations about their hidden one, or that one alone: some links are
// of fixed length, and in some plans all of them are.
#include "shapes.hpp"

#include <algorithm>

namespace {

struct Drawing {
  Random &random;
  std::uint32_t most_n, most_m, most_k;
  Wide scale = 1;  // a step of the plan
  std::vector<Wide> hidden;
  Wide uncertainty = 0;    // the links' spreads together, up to which slack is drawn in plans that are to be
  bool generous = false;   // controllable though they have many links
  bool all_fixed = false;  // every link is of fixed length
  Plan plan;

  Drawing(Random &random, std::uint32_t points, std::uint32_t limits, std::uint32_t links)
      : random(random), most_n(points), most_m(limits), most_k(links) {}

  std::uint32_t point() { return random.below(plan.points); }

  bool contingent(std::uint32_t p) const {
    return std::any_of(plan.links.begin(), plan.links.end(), [p](const Link &link) { return link.contingent == p; });
  }

  void points(std::uint32_t wanted) {
    plan.points = std::max(1u, std::min(wanted, most_n));
    static const std::vector<Wide> scales = {1, 1, 2, 3, 5, 10, 40, 1000, 15000};
    scale = random.any_of(scales);
    generous = random.one_in(2);
    all_fixed = random.one_in(12);
    hidden.assign(plan.points, 0);
    for (std::uint32_t x = 1; x < plan.points; ++x) hidden[x] = random.from_to(0, 6 * scale);
  }

  void limit(std::uint32_t from, std::uint32_t to, Wide weight) {
    if (plan.limits.size() < most_m) plan.limits.push_back({from, to, std::clamp(weight, -most_weight, most_weight)});
  }

  void link(std::uint32_t activation, std::uint32_t end, Wide shortest, Wide longest) {
    if (plan.links.size() >= most_k || end == 0 || end == activation || end >= plan.points || contingent(end)) return;
    shortest = std::clamp<Wide>(shortest, 1, most_weight);
    longest = all_fixed ? shortest : std::clamp<Wide>(longest, shortest, most_weight);
    plan.links.push_back({activation, end, std::uint32_t(shortest), std::uint32_t(longest)});
    uncertainty += longest - shortest;
  }

  // A link whose hidden end is its activation's hidden time and a duration.
  void timed_link(std::uint32_t activation, std::uint32_t end) {
    if (end == activation || end == 0 || contingent(end)) return;
    const Wide shortest = random.from_to(1, 3 * scale);
    const bool fixed = all_fixed || random.one_in(6);
    const Wide longest = fixed ? shortest : shortest + random.from_to(1, 4 * scale);
    link(activation, end, shortest, longest);
    hidden[end] = hidden[activation] + random.from_to(shortest, longest);
  }

  // Slack from a little too tight to wide: how often it is negative decides how often a plan is refused.
  Wide slack() {
    if (generous && !random.one_in(8)) return random.from_to(uncertainty / 2, 2 * uncertainty + scale);
    switch (random.below(8)) {
      case 0: return 0;
      case 1: return random.from_to(-scale, 2 * scale);
      case 2: return random.from_to(0, 2 * scale);
      default: return random.from_to(0, 12 * scale);
    }
  }

  void timed_limits(std::uint32_t wanted) {
    for (std::uint32_t i = 0; i < wanted; ++i) {
      const std::uint32_t from = point(), to = point();
      limit(from, to, hidden[to] - hidden[from] + slack());
    }
  }

  void links_of_all_sorts(std::uint32_t wanted) {
    if (generous) {  // no ring of links, and each hidden time final before it is built on
      for (std::uint32_t end = 1; end < plan.points; ++end)
        if (random.below(plan.points) < wanted) timed_link(random.below(end), end);
      return;
    }
    for (std::uint32_t i = 0; i < wanted && plan.points > 1; ++i) {
      const std::uint32_t end = 1 + random.below(plan.points - 1);
      std::uint32_t activation = point();
      if (!plan.links.empty() && random.one_in(3)) activation = random.any_of(plan.links).contingent;   // a chain
      if (!plan.links.empty() && random.one_in(4)) activation = random.any_of(plan.links).activation;   // shared
      timed_link(activation, end);
    }
  }

  // Limits about a link's end as in document 01's g, h and i: a point that can only be placed by reacting.
  void reacting(std::uint32_t wanted) {
    for (std::uint32_t i = 0; i < wanted && !plan.links.empty(); ++i) {
      const Link about = random.any_of(plan.links);
      const std::uint32_t other = point();
      if (generous && contingent(other) && !random.one_in(4)) continue;
      const Wide spread = Wide(about.longest) - about.shortest;
      const Wide early = generous ? random.from_to(-scale, uncertainty) : random.from_to(-scale, scale);
      limit(about.contingent, other, early);
      if (random.one_in(2)) limit(other, about.contingent, spread + random.from_to(-scale, scale));
      else limit(other, about.contingent, -early + random.from_to(-1, scale));
    }
  }

  // A ring of limits whose total is at or beside zero.
  void ring() {
    const std::uint32_t length = 1 + random.below(plan.points);
    const std::uint32_t first = point();
    std::uint32_t here = first;
    Wide total = 0;
    for (std::uint32_t i = 0; i < length; ++i) {
      const bool last = i + 1 == length;
      const std::uint32_t next = last ? first : point();
      const Wide weight = last ? random.from_to(-1, 1) - total : hidden[next] - hidden[here] + random.from_to(0, scale);
      limit(here, next, weight);
      total += weight;
      here = next;
    }
  }

  // A ring of blocked links: each activation must come before the next link's end, which is what makes a judge go round.
  void ring_of_links() {
    const std::uint32_t length = 2 + random.below(4);
    std::vector<Link> ring;
    for (std::uint32_t i = 0; i < length; ++i) {
      const std::size_t before = plan.links.size();
      const std::uint32_t activation = point();
      if (plan.points > 1) timed_link(activation, 1 + random.below(plan.points - 1));
      if (plan.links.size() > before) ring.push_back(plan.links.back());
    }
    for (std::size_t i = 0; i < ring.size(); ++i) {
      const Link &here = ring[i], &next = ring[(i + 1) % ring.size()];
      if (random.one_in(4)) continue;
      const Wide spread = Wide(next.longest) - next.shortest;
      const std::uint32_t from = random.one_in(2) ? here.activation : here.contingent;
      limit(from, next.contingent, spread + random.from_to(-2, 1));
    }
  }

  void repeats_and_selves() {
    for (std::uint32_t i = random.below(4); i > 0 && !plan.limits.empty(); --i) {
      Limit again = random.any_of(plan.limits);
      if (random.one_in(2)) again.weight += random.from_to(-1, 1);
      limit(again.from, again.to, again.weight);
    }
    if (random.one_in(4)) {
      const std::uint32_t self = point();
      limit(self, self, random.one_in(8) ? -1 : random.from_to(0, scale));
    }
  }

  // Chains of the heaviest limits and links, forwards and back, so that cells stand at 63,000,000 either way.
  void both_ends() {
    plan.points = random.one_in(3) ? most_n : 1 + random.below(most_n);
    hidden.assign(plan.points, 0);
    for (std::uint32_t x = 1; x < plan.points; ++x) hidden[x] = Wide(x) * most_weight;
    const bool back = random.one_in(2), forth = !back || random.one_in(2);
    static const std::vector<Wide> shortests = {1, most_weight - 1, most_weight};
    for (std::uint32_t x = 0; x + 1 < plan.points; ++x) {
      if (random.one_in(40)) continue;
      if (random.one_in(8)) link(x, x + 1, random.any_of(shortests), most_weight);
      if (forth) limit(x, x + 1, most_weight);
      if (back) limit(x + 1, x, random.one_in(60) ? -most_weight + 1 : -most_weight);
    }
    for (std::uint32_t i = random.below(4); i > 0; --i) {
      const std::uint32_t from = point(), to = point();
      limit(from, to, random.one_in(2) ? most_weight : -most_weight);
    }
  }

  void anything() {  // weights with no timetable behind them
    scale = random.one_in(4) ? most_weight / 2 : 1 + random.below(8);
    for (std::uint32_t i = random.below(2 * plan.points + 1); i > 0; --i) {
      const std::uint32_t from = point(), to = point();
      limit(from, to, random.from_to(-2 * scale, 4 * scale));
    }
    for (std::uint32_t i = random.below(plan.points); i > 0; --i) {
      const std::uint32_t activation = point(), end = point();
      const Wide shortest = random.from_to(1, scale), longest = random.from_to(1, 3 * scale);
      link(activation, end, shortest, longest);
    }
  }

  // The plan of falling strict cells, under other names and numbers, with more beside it.
  void falling() {
    points(4 + random.below(4));
    if (plan.points < 4) return anything();
    const Wide shortest = random.from_to(1, 3), spread = random.from_to(2, 8);
    link(3, 2, shortest, shortest + spread);
    const Wide other = random.from_to(1, 3);
    link(0, 1, other, random.from_to(4, 9));
    limit(2, 3, -shortest - random.from_to(0, 4));
    timed_limits(random.below(3));
  }
};

// Other names for the points than the drawing's, 0 staying 0, and records in another order.
void shuffle(Random &random, Plan &plan) {
  std::vector<std::uint32_t> name(plan.points);
  for (std::uint32_t x = 0; x < plan.points; ++x) name[x] = x;
  for (std::uint32_t x = plan.points; x > 2; --x) std::swap(name[x - 1], name[1 + random.below(x - 1)]);
  for (Limit &limit : plan.limits) limit.from = name[limit.from], limit.to = name[limit.to];
  for (Link &link : plan.links) link.activation = name[link.activation], link.contingent = name[link.contingent];
  for (std::size_t i = plan.limits.size(); i > 1; --i) std::swap(plan.limits[i - 1], plan.limits[random.below(std::uint32_t(i))]);
  for (std::size_t i = plan.links.size(); i > 1; --i) std::swap(plan.links[i - 1], plan.links[random.below(std::uint32_t(i))]);
}

}  // namespace

Plan random_plan(Random &random, std::uint32_t points, std::uint32_t limits, std::uint32_t links) {
  Drawing drawing(random, std::min(points, most_points), std::min(limits, most_limits), std::min(links, most_links));
  // Mostly small plans, where every kind of mistake shows and the reference is quick; some as large as is allowed.
  const std::uint32_t size = random.below(100);
  drawing.points(size < 30 ? 1 + random.below(4) : size < 96 ? 2 + random.below(11) : 1 + random.below(most_points));
  const std::uint32_t n = drawing.plan.points;
  switch (random.below(10)) {
    case 0: drawing.anything(); break;
    case 1: drawing.timed_limits(random.below(3 * n + 1)); break;  // no links
    case 2: drawing.ring(), drawing.timed_limits(random.below(n + 1)); break;
    case 3: drawing.ring_of_links(), drawing.timed_limits(random.below(n + 1)); break;
    case 4: drawing.falling(); break;
    case 5:
      if (random.one_in(8)) drawing.both_ends();
      else drawing.links_of_all_sorts(1 + random.below(n)), drawing.reacting(1 + random.below(3));
      break;
    case 6: drawing.links_of_all_sorts(1 + random.below(n)), drawing.reacting(1 + random.below(n)); break;
    default:
      drawing.links_of_all_sorts(random.below(n));
      drawing.timed_limits(random.one_in(50) ? most_limits : random.below(2 * n + 1));
      drawing.reacting(random.below(3));
  }
  drawing.repeats_and_selves();
  shuffle(random, drawing.plan);
  return drawing.plan;
}

Limit random_limit(Random &random, const Plan &plan) {
  const std::uint32_t from = random.below(plan.points), to = random.below(plan.points);
  if (random.one_in(30)) return {from, to, random.one_in(2) ? most_weight : -most_weight};
  Wide scale = 4;
  if (!plan.limits.empty()) scale = std::max<Wide>(4, std::abs(random.any_of(plan.limits).weight));
  if (!plan.links.empty() && random.one_in(2)) scale = random.any_of(plan.links).longest;
  return {from, to, std::clamp<Wide>(random.from_to(-scale / 2, 2 * scale), -most_weight, most_weight)};
}

std::uint32_t edge_number(Random &random, std::uint32_t now) {
  static const std::vector<std::uint32_t> named = {0, 1, 2, 24, 32, 36, 64, 1024, 1000000, std::uint32_t(-1000000), 0x7fffffff, 0x80000000, 0xffffffff};
  switch (random.below(6)) {
    case 0: return now + 1;
    case 1: return now - 1;
    case 2: return std::uint32_t(random.next());
    case 3: return now ^ 1u << random.below(32);
    default: {
      const std::uint32_t one = random.any_of(named);
      return one + random.below(3) - 1;
    }
  }
}

void damage(Random &random, std::vector<std::uint8_t> &file, std::uint32_t n) {
  const std::size_t m = field_at(file, 8), k = field_at(file, 12);
  switch (random.below(11)) {
    case 0: case 1: {  // a header field
      const std::size_t at = 4 * random.below(6);
      set_field(file, at, edge_number(random, field_at(file, at)));
      break;
    }
    case 2:  // a length
      if (random.one_in(2)) file.resize(random.below(std::uint32_t(file.size()) + 1));
      else {
        const std::size_t longer = file.size() + 1 + random.below(17);
        file.resize(longer, std::uint8_t(random.next()));
      }
      break;
    case 3: {  // a count, with offsets and length as that count would have them
      const std::size_t at = random.one_in(2) ? 8 : 12;
      const std::uint32_t count = random.one_in(8) ? (at == 8 ? most_limits : most_links) + random.below(3) - 1 : field_at(file, at) + random.below(3) - 1;
      set_field(file, at, count);
      set_field(file, 20, 24 + 12 * field_at(file, 8));
      const std::size_t length = 24 + 12 * std::size_t(field_at(file, 8)) + 16 * std::size_t(field_at(file, 12));
      if (length < 20000) file.resize(length, std::uint8_t(random.one_in(2)));
      break;
    }
    case 4: case 5:  // a limit's field
      if (m > 0) {
        const std::size_t record = 24 + 12 * random.below(std::uint32_t(m)), at = record + 4 * random.below(3);
        set_field(file, at, random.one_in(3) ? n + random.below(3) - 1 : edge_number(random, field_at(file, at)));
      }
      break;
    case 6: case 7: case 8:  // a link's field: A for C, a shortest duration at or above the longest or 0, repeated, out of range
      if (k > 0) {
        const std::size_t record = 24 + 12 * m + 16 * random.below(std::uint32_t(k)), other = 24 + 12 * m + 16 * random.below(std::uint32_t(k));
        const std::size_t at = record + 4 * random.below(4);
        switch (random.below(7)) {
          case 0: set_field(file, record + 4, field_at(file, record)); break;
          case 1: set_field(file, record + 8, field_at(file, record + 12) + random.below(2)); break;
          case 2: set_field(file, record + 4, field_at(file, other + 4)); break;
          case 3: set_field(file, at, n + random.below(3) - 1); break;
          case 4: set_field(file, record + 12, 1000000 + random.below(2)); break;
          case 5: set_field(file, record + 8, 0); break;
          default: set_field(file, at, edge_number(random, field_at(file, at)));
        }
      }
      break;
    case 9:  // bytes
      for (std::uint32_t i = 1 + random.below(4); i > 0 && !file.empty(); --i)
        file[random.below(std::uint32_t(file.size()))] = std::uint8_t(random.next());
      break;
    default: {  // nothing but random bytes, sometimes behind a sound start
      const std::size_t kept = random.one_in(2) ? 0 : 4 * random.below(7);
      for (std::size_t i = kept; i < file.size(); ++i) file[i] = std::uint8_t(random.next());
    }
  }
}
