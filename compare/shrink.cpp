// Smaller and smaller cases by small steps: fewer records, fewer points, no spare room, smaller numbers, smaller cells; for a file that is
// refused, fewer and simpler bytes. A step is kept if the calls still differ.
#include "shrink.hpp"

#include <algorithm>
#include <cstdlib>

namespace {

struct Shrink {
  Case small;
  int tries = 4000;  // enough for any small plan; a large one is left as far as it got

  bool take(const Case &smaller) {
    if (tries-- <= 0 || run_both(smaller).difference.empty()) return false;
    small = smaller;
    return true;
  }

  reference::Reading reading() const { return reference::read(small.file.data(), small.file.size()); }

  bool take(const Plan &plan) {
    Case smaller = small;
    smaller.file = file_of(plan);
    return take(smaller);
  }

  bool fewer_records() {
    bool any = false;
    Plan plan = reading().plan;
    for (std::size_t step = std::max<std::size_t>(1, plan.limits.size() / 2); step > 0; step /= 2)
      for (std::size_t i = 0; i < plan.limits.size();) {
        Plan fewer = plan;
        fewer.limits.erase(fewer.limits.begin() + i, fewer.limits.begin() + std::min(i + step, fewer.limits.size()));
        if (take(fewer)) plan = fewer, any = true;
        else i += step;
      }
    for (std::size_t i = 0; i < plan.links.size();) {
      Plan fewer = plan;
      fewer.links.erase(fewer.links.begin() + i);
      if (take(fewer)) plan = fewer, any = true;
      else ++i;
    }
    return any;
  }

  // The room without the row and the column of a point; what it was longer or shorter than needed stays so.
  template <class Cell>
  static std::vector<Cell> without(const std::vector<Cell> &room, std::size_t n, std::size_t point, std::size_t tables) {
    std::vector<Cell> kept;
    for (std::size_t i = 0; i < room.size(); ++i)
      if (i >= tables * n * n || (i % n != point && i / n % n != point)) kept.push_back(room[i]);
    const std::size_t shortage = room.size() < tables * n * n ? tables * n * n - room.size() : 0;
    const std::size_t needed = tables * (n - 1) * (n - 1);
    if (shortage > 0) kept.resize(needed > shortage ? needed - shortage : 0);
    return kept;
  }

  bool fewer_points() {
    bool any = false;
    for (std::uint32_t point = reading().plan.points - 1; point > 0; --point) {
      Plan plan = reading().plan;
      const std::size_t n = plan.points;
      if (point >= n) continue;
      const auto renamed = [point](std::uint32_t x) { return x > point ? x - 1 : x == point ? 0 : x; };
      Plan fewer;
      fewer.points = plan.points - 1;
      for (const Limit &limit : plan.limits)
        if (limit.from != point && limit.to != point) fewer.limits.push_back({renamed(limit.from), renamed(limit.to), limit.weight});
      for (const Link &link : plan.links)
        if (link.activation != point && link.contingent != point)
          fewer.links.push_back({renamed(link.activation), renamed(link.contingent), link.shortest, link.longest});
      Case smaller = small;
      smaller.file = file_of(fewer);
      smaller.added = {renamed(small.added.from), renamed(small.added.to), small.added.weight};
      smaller.strict = without(small.strict, n, point, 1);
      smaller.open = without(small.open, n, point, 1);
      smaller.scratch = without(small.scratch, n, point, 2);
      if (point < smaller.times.size()) smaller.times.erase(smaller.times.begin() + point);
      any |= take(smaller);
    }
    return any;
  }

  bool smaller_weights() {
    bool any = false;
    Plan plan = reading().plan;
    for (std::size_t i = 0; i < plan.limits.size(); ++i)
      for (Wide weight : smaller_numbers(plan.limits[i].weight)) {
        Plan lighter = plan;
        lighter.limits[i].weight = weight;
        if (take(lighter)) { plan = lighter, any = true; break; }
      }
    any |= shorter_links();
    any |= smaller_pairs();
    for (Wide weight : smaller_numbers(small.added.weight)) {
      Case lighter = small;
      lighter.added.weight = weight;
      if (take(lighter)) { any = true; break; }
    }
    return any;
  }

  // Shorter durations: both by the same amount, so that what hangs on their difference stays, as that a link is of fixed length; then one of them.
  bool shorter_links() {
    bool any = false;
    Plan plan = reading().plan;
    for (std::size_t i = 0; i < plan.links.size(); ++i)
      for (const auto &[of_shortest, of_longest] : {std::pair{true, true}, {true, false}, {false, true}})
        for (Wide duration : smaller_numbers(of_shortest ? plan.links[i].shortest : plan.links[i].longest)) {
          Plan shorter = plan;
          Link &link = shorter.links[i];
          const std::uint32_t less = (of_shortest ? link.shortest : link.longest) - std::uint32_t(duration);
          if (of_shortest) link.shortest -= less;
          if (of_longest) link.longest -= less;
          if (link.shortest < 1 || link.shortest > link.longest) continue;
          if (take(shorter)) { plan = shorter, any = true; break; }
        }
    return any;
  }

  // A limit and a link's longest lowered by the same amount: what they say about each other stays.
  bool smaller_pairs() {
    bool any = false;
    Plan plan = reading().plan;
    if (plan.limits.size() > 12) return false;
    for (std::size_t j = 0; j < plan.links.size(); ++j)
      for (std::size_t i = 0; i < plan.limits.size(); ++i) {
        const Wide room = Wide(plan.links[j].longest) - plan.links[j].shortest;
        for (Wide amount : {room, room / 2, room / 8, Wide(1)}) {
          if (amount < 1 || amount > room || std::abs(plan.limits[i].weight - amount) >= std::abs(plan.limits[i].weight)) continue;
          Plan lighter = plan;
          lighter.limits[i].weight -= amount;
          lighter.links[j].longest -= std::uint32_t(amount);
          if (take(lighter)) { plan = lighter, any = true; break; }
        }
      }
    return any;
  }

  // Only Check and Add read the cells that they are lent.
  bool smaller_cells() {
    bool any = false;
    if (small.call != Call::check && small.call != Call::add) return false;
    for (auto room : {&Case::strict, &Case::open})
      for (std::size_t i = 0; i < (small.*room).size(); ++i) {
        if ((small.*room)[i] == mark) continue;
        for (Wide number : smaller_numbers((small.*room)[i])) {
          Case smaller = small;
          (smaller.*room)[i] = std::int32_t(number);
          if (take(smaller)) { any = true; break; }
        }
      }
    return any;
  }

  bool needed_room_only() {
    const std::size_t n = reading().plan.points;
    Case exact = small;
    exact.strict.resize(n * n), exact.open.resize(n * n), exact.times.resize(n), exact.scratch.resize(2 * n * n);
    const bool shorter = exact.strict.size() < small.strict.size() || exact.open.size() < small.open.size();
    return shorter && take(exact);
  }

  static void put(std::vector<std::uint8_t> &file, std::size_t at, std::uint32_t field) {
    for (std::size_t i = 0; i < 4; ++i) file[at + i] = std::uint8_t(field >> (8 * i));
  }

  bool simpler_bytes() {  // for a file that is refused
    bool any = false;
    for (std::size_t at = 8; at <= 12; at += 4) {  // a record less, where counts, offsets and length agree
      const std::size_t size = at == 8 ? 12 : 16;
      for (std::size_t i = field_at(small.file, at); i > 0; --i) {
        const std::size_t m = field_at(small.file, 8), k = field_at(small.file, 12);
        const std::size_t begin = (at == 8 ? 24 : 24 + 12 * m) + size * (i - 1);
        if (small.file.size() != 24 + 12 * m + 16 * k || begin + size > small.file.size()) break;
        Case fewer = small;
        fewer.file.erase(fewer.file.begin() + begin, fewer.file.begin() + begin + size);
        put(fewer.file, at, field_at(fewer.file, at) - 1);
        if (at == 8) put(fewer.file, 20, field_at(fewer.file, 20) - 12);
        any |= take(fewer);
      }
    }
    for (std::size_t cut : {std::size_t(16), std::size_t(12), std::size_t(4), std::size_t(1)})
      while (small.file.size() >= cut) {
        Case shorter = small;
        shorter.file.resize(small.file.size() - cut);
        if (!take(shorter)) break;
        any = true;
      }
    for (std::size_t at = 0; at + 4 <= small.file.size(); at += 4)
      for (Wide number : smaller_numbers(field_at(small.file, at))) {
        Case simpler = small;
        put(simpler.file, at, std::uint32_t(number));
        if (take(simpler)) { any = true; break; }
      }
    return any;
  }

  void shrink() {
    bool any = true;
    while (any && tries > 0) {
      if (reading().code != 0) {
        any = simpler_bytes();
        continue;
      }
      any = fewer_records();
      any |= reading().code == 0 && fewer_points();
      any |= reading().code == 0 && needed_room_only();
      any |= reading().code == 0 && smaller_weights();
      any |= reading().code == 0 && smaller_cells();
    }
  }
};

}  // namespace

std::vector<Wide> smaller_numbers(Wide number) {
  std::vector<Wide> list;
  for (Wide candidate : {Wide(0), number / 2, number - number / 4, number > 0 ? number - 1 : number + 1})
    if (std::abs(candidate) < std::abs(number)) list.push_back(candidate);
  return list;
}

Case smallest(const Case &lent) {
  Shrink shrink{lent};
  shrink.shrink();
  return shrink.small;
}
