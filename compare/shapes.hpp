// Random plans of all shapes: no links, chains of links, shared activations, links of fixed length, rings of limits and of links, weights at both ends,
// limits from a point to itself, repeats, one point to sixty-four. Every plan here is sound, so that Judge has to work; `damage` makes the others.
#pragma once
#include "plan.hpp"
#include "random.hpp"

// A plan of some shape with at most these points, limits and links (and at most document 01's).
Plan random_plan(Random &random, std::uint32_t points = most_points, std::uint32_t limits = most_limits, std::uint32_t links = most_links);

// A number beside one that the paper names, or beside `now`, or any: what `damage` and writing.cpp put in a field's place.
std::uint32_t edge_number(Random &random, std::uint32_t now);

// A limit between points of the plan, at the plan's own scale or now and then at the ends of the range.
Limit random_limit(Random &random, const Plan &plan);

// One damage to the file of a plan of n points: a header field, a length, a count, a record's field, some bytes or nearly all.
void damage(Random &random, std::vector<std::uint8_t> &file, std::uint32_t n);
