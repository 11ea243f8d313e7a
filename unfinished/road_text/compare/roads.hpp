// The road-graph text of document 02's item 8, and the two calls on it: the item's text, and nothing else. It shares no code with the library.
#pragma once
#include "plan.hpp"
#include "post.h"

namespace reference {

// The calls, with the parameters and the answers of post.h. `import` and `export` are words of C++'s own.
decltype(post_import) import_text;
decltype(post_export) export_text;

}  // namespace reference
