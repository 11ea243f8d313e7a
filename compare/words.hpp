// The reach words of document 02's item 6, and the four calls on them: the item's text, and nothing else. It shares no code with the library.
#pragma once
#include "plan.hpp"
#include "post.h"

namespace reference {

// The calls, with the parameters and the answers of post.h.
decltype(post_reach) reach;
decltype(post_bounded) bounded;
decltype(post_both) both;
decltype(post_reach_add) reach_add;

}  // namespace reference
