// Item 8 by printing. A text is split into its lines first. Of each line the numbers are taken that it seems to hold, read as loosely as C++ reads them, and
// the line is good only if printing these numbers gives the very line: so nothing here knows what a blank, a zero or a sign may be at which byte.
#include "roads.hpp"

#include <algorithm>
#include <sstream>

#include "reference.hpp"

namespace reference {
namespace {

std::uint64_t answer(std::uint32_t code, std::uint64_t place = 0) { return std::min<std::uint64_t>(place, UINT32_MAX) << 32 | code; }

// "a line feed ends every line"; what stands behind the last one is a line that has none.
std::vector<std::string> lines_of(const std::uint8_t *text, std::size_t length) {
  std::vector<std::string> lines;
  bool begins = true;
  for (std::size_t i = 0; i < length; ++i) {
    if (begins) lines.emplace_back();
    lines.back().push_back(char(text[i]));
    begins = text[i] == 10;
  }
  return lines;
}

// "`p sp n m`"
std::string p_line(Wide n, Wide m) { return "p sp " + std::to_string(n) + " " + std::to_string(m) + "\n"; }

// "`a u v w`, points numbered from 1"
std::string arc_line(Wide u, Wide v, Wide w) { return "a " + std::to_string(u) + " " + std::to_string(v) + " " + std::to_string(w) + "\n"; }

bool from_to(Wide number, Wide least, Wide most) { return least <= number && number <= most; }

bool is_comment(const std::string &line) { return line.front() == 'c' && line.back() == '\n'; }

bool is_p_line(const std::string &line, Wide &n, Wide &m) {
  std::string p, sp;
  std::istringstream(line) >> p >> sp >> n >> m;
  return line == p_line(n, m) && from_to(n, 1, most_points) && from_to(m, 0, most_limits);
}

bool is_arc(const std::string &line, Wide n, Wide &u, Wide &v, Wide &w) {
  std::string a;
  std::istringstream(line) >> a >> u >> v >> w;
  return line == arc_line(u, v, w) && from_to(u, 1, n) && from_to(v, 1, n) && from_to(w, -most_weight, most_weight);
}

// The plan that a text means, or the line at which it is refused.
struct Meaning {
  std::size_t refused_at = 0;
  Plan plan;
};

Meaning meaning_of(const std::vector<std::string> &lines) {
  Meaning meaning;
  bool p_came = false;
  Wide said = 0;
  for (std::size_t i = 0; i < lines.size(); ++i) {
    Wide n = 0, m = 0, u = 0, v = 0, w = 0;
    if (is_comment(lines[i])) continue;  // "comments stand anywhere"
    if (!p_came && is_p_line(lines[i], n, m)) {  // "one p line, before all arcs"
      p_came = true, said = m;
      meaning.plan.points = std::uint32_t(n);
    } else if (p_came && is_arc(lines[i], meaning.plan.points, u, v, w)) {
      meaning.plan.limits.push_back({std::uint32_t(u - 1), std::uint32_t(v - 1), w});
    } else {
      meaning.refused_at = i + 1;  // "by line number from 1, at the first bad line"
      return meaning;
    }
  }
  // "where the p line is missing or m and the arc count differ, at the line after the last"
  if (!p_came || said != Wide(meaning.plan.limits.size())) meaning.refused_at = lines.size() + 1;
  return meaning;
}

std::string text_of(const Plan &plan) {
  std::string text = p_line(plan.points, Wide(plan.limits.size()));
  for (const Limit &limit : plan.limits) text += arc_line(limit.from + 1, limit.to + 1, limit.weight);
  return text;
}

}  // namespace

// "a bad text gets the new code 14 with its line as place, then 9", "Each leaves the buffer unchanged."
std::uint64_t import_text(const std::uint8_t *text, std::size_t text_len, std::uint8_t *buffer, std::size_t buffer_len) {
  const Meaning meaning = meaning_of(lines_of(text, text_len));
  if (meaning.refused_at > 0) return answer(14, meaning.refused_at);
  const std::vector<std::uint8_t> file = file_of(meaning.plan);
  if (buffer_len < file.size()) return answer(9);
  std::copy(file.begin(), file.end(), buffer);
  return answer(0);
}

// "on export a plan with links gets 10 after the file's codes, then 9"
std::uint64_t export_text(const std::uint8_t *file, std::size_t file_len, std::uint8_t *text, std::size_t text_len, std::uint64_t *size,
                          std::size_t size_len) {
  const Reading reading = read(file, file_len);
  if (reading.code != 0) return answer(reading.code, reading.place);
  if (!reading.plan.links.empty()) return answer(10);
  const std::string lines = text_of(reading.plan);
  if (text_len < lines.size() || size_len < 1) return answer(9);
  std::copy(lines.begin(), lines.end(), text);
  size[0] = lines.size();
  return answer(0);
}

}  // namespace reference
