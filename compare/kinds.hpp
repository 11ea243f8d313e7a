// How often each kind of case came up in a run, by its name. What was asked after is in the list, though it never came: such a run has not held all it says.
#pragma once
#include <cstdint>
#include <cstdio>
#include <map>
#include <string>

struct Kinds {
  std::map<std::string, std::uint64_t> times;
  void count(const std::string &kind, bool came) { times[kind] += came; }

  // Prints them, and a sentence for each that never came up. True if all came up.
  bool all_came(const char *program, const char *of) const {
    std::string line, never;
    for (const auto &[kind, came] : times) {
      line += (line.empty() ? "" : "; ") + kind + " " + std::to_string(came);
      if (came == 0) never += std::string(program) + ": " + of + ": " + kind + " never came up\n";
    }
    std::printf("  %s: %s\n%s", of, line.c_str(), never.c_str());
    return never.empty();
  }
};
