// Links of fixed length, l = u, which document 02's item 2 allows: how they are told, and a plan that means the same without them.
#pragma once
#include <algorithm>

#include "plan.hpp"

inline bool is_fixed(const Link &link) { return link.shortest == link.longest; }

inline bool some_link_fixed(const Plan &plan) { return std::any_of(plan.links.begin(), plan.links.end(), is_fixed); }

// Every link is, and there are some.
inline bool all_links_fixed(const Plan &plan) { return !plan.links.empty() && std::all_of(plan.links.begin(), plan.links.end(), is_fixed); }

// Points by bits, 0 to 63: contingent points, each with its link.
using Ends = std::uint64_t;
constexpr Ends every_end = ~Ends(0);

// The plan with the limits A>C l and C>A -l in the place of each fixed link that ends at one of `ends`. Such an end comes exactly l after its activation
// whoever brings it about, so the verdict is the same. The strict table need not be: Lower reads edges to contingent points alone, here those below 0, and
// the end is none any more. In n 4, (0,4,8,1), (2,2,2,3), 1>3 -1 the cell from 0 to 3 is 3; with limits in the second link's place it is 7.
inline Plan with_limits_for_fixed(const Plan &plan, Ends ends = every_end) {
  Plan replaced = {plan.points, plan.limits, {}};
  for (const Link &link : plan.links) {
    if (!is_fixed(link) || !(ends >> link.contingent & 1)) {
      replaced.links.push_back(link);
      continue;
    }
    replaced.limits.push_back({link.activation, link.contingent, Wide(link.longest)});
    replaced.limits.push_back({link.contingent, link.activation, -Wide(link.shortest)});
  }
  return replaced;
}
