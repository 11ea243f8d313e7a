// Whether a list of lines is a chain of reasons: line by line, knowing the rules alone and nothing of how a list is made.
#pragma once
#include <string>

#include "reasons.hpp"

// Nothing if each line follows from the plan and the lines that it names, if each beats what it has to, and if the last line, and no other, is below zero from
// a point to itself. Else a sentence on the first line at fault.
std::string not_following(const Plan &plan, const std::vector<reference::Line> &lines);

std::string notation(const reference::Line &line);
