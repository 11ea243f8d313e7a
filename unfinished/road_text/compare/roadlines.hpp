// A road-graph text as the programs here take it apart: its lines, and the text without its comments. The reference has its own way.
#pragma once
#include <algorithm>
#include <string>
#include <vector>

using Lines = std::vector<std::string>;

// Each with its line feed; bytes after the last line feed are a line too.
inline Lines lines_of(const std::string &text) {
  Lines lines;
  for (std::size_t at = 0; at < text.size(); at += lines.back().size()) {
    const std::size_t feed = std::min(text.find('\n', at), text.size() - 1);
    lines.push_back(text.substr(at, feed - at + 1));
  }
  return lines;
}

inline std::string joined(const Lines &lines) {
  std::string text;
  for (const std::string &line : lines) text += line;
  return text;
}

inline std::string without_comments(const std::string &text) {
  Lines lines = lines_of(text);
  lines.erase(std::remove_if(lines.begin(), lines.end(), [](const std::string &line) { return line[0] == 'c'; }), lines.end());
  return joined(lines);
}
