// Road-graph text as a C++ programmer would write it for speed, apart from roads.cpp and sharing nothing with it: byte by byte from the first to the last, once
// to see whether the text is good and how long what it gives will be, and a second time to write that where there is room.
#include <algorithm>
#include <charconv>
#include <cstring>

#include "sweep.hpp"

namespace sweep {
namespace {

struct Scan {
  const std::uint8_t *at, *const end;
  std::uint8_t *record;  // where the next limit goes; nowhere in the first of the two scans
  std::uint32_t n = 0, m = 0;  // what the p line says; n is 0 until there was one
  std::uint64_t arcs = 0, lines = 0;

  bool take(char wanted) {
    if (at == end || *at != std::uint8_t(wanted)) return false;
    ++at;
    return true;
  }

  // One that is never above 1,000,000, so that no number of digits can leave its type.
  bool take_number(std::uint32_t least, std::uint32_t most, std::uint32_t &value) {
    const std::uint8_t *const first = at;
    for (value = 0; at < end && *at >= '0' && *at <= '9'; ++at) {
      value = 10 * value + (*at - '0');
      if (value > most) return false;
    }
    if (at == first) return false;
    if (*first == '0' && at - first > 1) return false;
    return value >= least;
  }

  bool take_comment() {
    const void *const feed = std::memchr(at, '\n', std::size_t(end - at));
    if (!feed) return false;
    at = static_cast<const std::uint8_t *>(feed) + 1;
    return true;
  }

  bool take_head() {
    if (n > 0) return false;
    return take('p') && take(' ') && take('s') && take('p') && take(' ') && take_number(1, 64, n) && take(' ') && take_number(0, 1024, m) && take('\n');
  }

  bool take_arc() {
    std::uint32_t u, v, w;
    if (n == 0) return false;
    if (!(take('a') && take(' ') && take_number(1, n, u) && take(' ') && take_number(1, n, v) && take(' '))) return false;
    const bool below = take('-');
    if (!take_number(below ? 1 : 0, 1000000, w)) return false;
    if (!take('\n')) return false;
    if (record) {
      const std::uint32_t fields[] = {u - 1, v - 1, below ? 0 - w : w};
      std::memcpy(record, fields, sizeof fields);
      record += sizeof fields;
    }
    ++arcs;
    return true;
  }

  bool take_line() {
    switch (*at) {
      case 'c': return take_comment();
      case 'p': return take_head();
      case 'a': return take_arc();
      default: return false;
    }
  }

  // The line at which the text is refused, or 0.
  std::uint64_t refused_at() {
    for (; at < end; ++lines)
      if (!take_line()) return lines + 1;
    if (n == 0) return lines + 1;
    if (arcs != m) return lines + 1;
    return 0;
  }
};

std::uint32_t field(const std::uint8_t *at) {
  std::uint32_t number;
  std::memcpy(&number, at, sizeof number);
  return number;
}

// Lines of a text, into it or, where there is none, only counted.
struct Print {
  std::uint8_t *text;
  std::size_t length = 0;

  void put(char byte) {
    if (text) text[length] = std::uint8_t(byte);
    ++length;
  }

  void put_number(std::int32_t number) {
    char digits[12];
    const char *const end = std::to_chars(digits, digits + sizeof digits, number).ptr;
    if (text) std::memcpy(text + length, digits, std::size_t(end - digits));
    length += std::size_t(end - digits);
  }

  void put_plan(const std::uint8_t *file) {
    const std::uint32_t n = field(file + 4), m = field(file + 8);
    for (const char byte : {'p', ' ', 's', 'p', ' '}) put(byte);
    put_number(std::int32_t(n));
    put(' ');
    put_number(std::int32_t(m));
    put('\n');
    for (std::uint32_t i = 0; i < m; ++i) {
      const std::uint8_t *const limit = file + 24 + 12 * i;
      put('a');
      for (const std::int32_t number : {std::int32_t(field(limit) + 1), std::int32_t(field(limit + 4) + 1), std::int32_t(field(limit + 8))}) {
        put(' ');
        put_number(number);
      }
      put('\n');
    }
  }
};

}  // namespace

std::uint64_t import_text(const std::uint8_t *text, std::size_t text_len, std::uint8_t *buffer, std::size_t buffer_len) {
  Scan scan{text, text + text_len, nullptr};
  if (const std::uint64_t line = scan.refused_at()) return 14 | std::min<std::uint64_t>(line, UINT32_MAX) << 32;
  const std::uint32_t header[] = {1, scan.n, scan.m, 0, 24, 24 + 12 * scan.m};
  if (buffer_len < 24 + 12 * scan.m) return 9;
  std::memcpy(buffer, header, sizeof header);
  Scan{text, text + text_len, buffer + sizeof header}.refused_at();
  return 0;
}

std::uint64_t export_text(const std::uint8_t *file, std::size_t file_len, std::uint8_t *text, std::size_t text_len, std::uint64_t *size,
                          std::size_t size_len) {
  if (const std::uint64_t refused = sound(file, file_len)) return refused;
  if (field(file + 12) > 0) return 10;
  Print counted{nullptr};
  counted.put_plan(file);
  if (text_len < counted.length || size_len < 1) return 9;
  Print{text}.put_plan(file);
  size[0] = counted.length;
  return 0;
}

}  // namespace sweep
