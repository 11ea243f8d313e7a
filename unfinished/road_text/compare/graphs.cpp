// Graphs that other programs made and read: `graphs FOLDER COUNT` imports each text FOLDER/I.gr, judges the plan, and holds the strict table to the shortest
// paths in FOLDER/I.networkx and FOLDER/I.lemon. What is imported is exported again.
#include <fstream>
#include <iterator>

#include "kinds.hpp"
#include "pair.hpp"
#include "roadlines.hpp"

namespace {

using Bytes = std::vector<std::uint8_t>;

[[noreturn]] void differs(const std::string &name, const std::string &how) {
  std::printf("DIFFERENCE in the graph %s: %s\n", name.c_str(), how.c_str());
  std::exit(1);
}

std::string read(const std::string &name) {
  std::ifstream file(name, std::ios::binary);
  if (!file) differs(name, "it is not there");
  return std::string(std::istreambuf_iterator<char>(file), {});
}

// The strict table as the other programs write it.
std::string in_rows(const Judged &judged, std::size_t n) {
  if (judged.answer == 11) return "uncontrollable\n";
  std::string rows;
  for (std::size_t i = 0; i < n * n; ++i) {
    rows += judged.strict[i] == mark ? "-" : std::to_string(judged.strict[i]);
    rows += (i + 1) % n == 0 ? "\n" : " ";
  }
  return rows;
}

void hold(const std::string &name, Kinds &kinds) {
  const std::string text = read(name + ".gr"), plain = without_comments(text);
  Bytes file(24 + 12 * most_limits), again(plain.size());
  const auto *bytes = reinterpret_cast<const std::uint8_t *>(text.data());
  const std::uint64_t imported = linked_calls.import_text(bytes, text.size(), file.data(), file.size());
  if (imported != 0) differs(name, "Import answers " + said(imported));
  const std::size_t n = field_at(file, 4), m = field_at(file, 8);
  file.resize(24 + 12 * m);
  std::uint64_t size = 0;
  const std::uint64_t exported = linked_calls.export_text(file.data(), file.size(), again.data(), again.size(), &size, 1);
  if (exported != 0 || size != plain.size() || !std::equal(again.begin(), again.end(), reinterpret_cast<const std::uint8_t *>(plain.data())))
    differs(name, "Export answers " + said(exported) + ", and not with the text without its comments");
  const Judged judged = judge_pair(linked_calls, file, n);
  if (!judged.broken.empty()) differs(name, judged.broken);
  for (const std::string other : {"networkx", "lemon"})
    if (in_rows(judged, n) != read(name + "." + other)) differs(name, "the strict table, " + notation(judged.strict, n) + ", is not that of " + other);
  if (judged.open != judged.strict) differs(name, "without links the open table is not the strict one");

  bool below = false, loop = false;
  for (std::size_t at = 24; at < file.size(); at += 12) below |= std::int32_t(field_at(file, at + 8)) < 0, loop |= field_at(file, at) == field_at(file, at + 4);
  const bool controllable = judged.answer == 0;
  kinds.count("controllable", controllable);
  kinds.count("controllable, with arcs below 0", controllable && below);
  kinds.count("uncontrollable", !controllable);
  kinds.count("with comments", plain != text);
  kinds.count("without comments", plain == text);
  kinds.count("with an arc from a point to itself", loop);
  kinds.count("with 64 points", n == most_points);
  kinds.count("with points that no path joins", controllable && in_rows(judged, n).find("- ") != std::string::npos);
}

}  // namespace

int main(int words, char **word) {
  if (words != 3) return std::fprintf(stderr, "usage: %s FOLDER COUNT\n", word[0]), 2;
  Kinds kinds;
  const long count = std::atol(word[2]);
  for (long i = 0; i < count; ++i) hold(std::string(word[1]) + "/" + std::to_string(i), kinds);
  std::printf("graphs: %ld graphs made by NetworkX and read by LEMON, no difference from the shortest paths of either\n", count);
  return !kinds.all_came("graphs", "graphs");
}
