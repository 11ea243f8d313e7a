// The plain C++ sweep under the library's names, so that the comparison can be run without the library.
#include "post.h"
#include "sweep.hpp"

uint64_t post_sound(const uint8_t *file, size_t file_len) { return sweep::sound(file, file_len); }

uint64_t post_check(const uint8_t *file, size_t file_len, const int32_t *strict, size_t strict_len, const int32_t *open, size_t open_len) {
  return sweep::check(file, file_len, strict, strict_len, open, open_len);
}

uint64_t post_judge(const uint8_t *file, size_t file_len, int32_t *strict, size_t strict_len, int32_t *open, size_t open_len) {
  return sweep::judge(file, file_len, strict, strict_len, open, open_len);
}

uint64_t post_earliest(const uint8_t *file, size_t file_len, int32_t *strict, size_t strict_len, int32_t *open, size_t open_len,
                       int32_t *times, size_t times_len) {
  return sweep::earliest(file, file_len, strict, strict_len, open, open_len, times, times_len);
}

uint64_t post_add(const uint8_t *file, size_t file_len, uint32_t x, uint32_t y, int32_t w, int32_t *strict, size_t strict_len,
                  int32_t *open, size_t open_len, int64_t *scratch, size_t scratch_len) {
  return sweep::add(file, file_len, x, y, w, strict, strict_len, open, open_len, scratch, scratch_len);
}

uint64_t post_write(uint32_t n, const uint32_t *from, size_t from_len, const uint32_t *to, size_t to_len, const int32_t *weight,
                    size_t weight_len, const uint32_t *act, size_t act_len, const uint32_t *con, size_t con_len, const uint32_t *shortest,
                    size_t shortest_len, const uint32_t *longest, size_t longest_len, uint8_t *buffer, size_t buffer_len) {
  return sweep::write(n, from, from_len, to, to_len, weight, weight_len, act, act_len, con, con_len, shortest, shortest_len, longest,
                      longest_len, buffer, buffer_len);
}

uint64_t post_reasons(const uint8_t *file, size_t file_len, uint32_t *kinds, size_t kinds_len, uint32_t *froms, size_t froms_len, uint32_t *tos,
                      size_t tos_len, int64_t *weights, size_t weights_len, uint32_t *firsts, size_t firsts_len, uint32_t *seconds,
                      size_t seconds_len, int64_t *work, size_t work_len) {
  return sweep::reasons(file, file_len, kinds, kinds_len, froms, froms_len, tos, tos_len, weights, weights_len, firsts, firsts_len, seconds,
                        seconds_len, work, work_len);
}

uint32_t post_rests(const uint32_t *kinds, size_t kinds_len, const uint32_t *firsts, size_t firsts_len, const uint32_t *seconds,
                    size_t seconds_len, uint32_t line) {
  return sweep::rests(kinds, kinds_len, firsts, firsts_len, seconds, seconds_len, line);
}

uint64_t post_reach(uint32_t n, const int32_t *strict, size_t strict_len, uint64_t *words, size_t words_len) {
  return sweep::reach(n, strict, strict_len, words, words_len);
}

uint64_t post_bounded(uint32_t n, const uint64_t *words, size_t words_len, uint32_t x, uint32_t *out, size_t out_len) {
  return sweep::bounded(n, words, words_len, x, out, out_len);
}

uint64_t post_both(uint32_t n, const uint64_t *words, size_t words_len, uint32_t x, uint32_t y, uint64_t *out, size_t out_len) {
  return sweep::both(n, words, words_len, x, y, out, out_len);
}

uint64_t post_reach_add(uint32_t n, uint32_t x, uint32_t y, uint64_t *words, size_t words_len) {
  return sweep::reach_add(n, x, y, words, words_len);
}
