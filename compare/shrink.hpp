// Making a difference small before it is printed.
#pragma once
#include "hold.hpp"

// A case no larger than this one, on which the linked call and the reference still differ as they do on this one.
Case smallest(const Case &lent);

// Numbers nearer to 0 to be tried for this one, the nearest first.
std::vector<Wide> smaller_numbers(Wide number);
