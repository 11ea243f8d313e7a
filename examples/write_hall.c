/*
 * Writes the plan of hall_repaired.txt as a plan file to standard output. From the folder above, on x86-64:
 *
 *     cc -Iinclude examples/write_hall.c target/staticlib/libpost.a -o write_hall
 *     ./write_hall > hall.plan
 */
#include <stdio.h>

#include "post.h"

#define LENGTH(list) (sizeof(list) / sizeof(list)[0])

/* Limits, a column each: point `to` comes at most `weight` seconds after point `from`. */
static const uint32_t from[] = {3, 2, 0};
static const uint32_t to[] = {2, 3, 4};
static const int32_t weight[] = {0, 10, 430};

/* Links, a column each: point `con` comes `shortest` to `longest` seconds after point `act`. */
static const uint32_t act[] = {0, 1, 3};
static const uint32_t con[] = {1, 2, 4};
static const uint32_t shortest[] = {60, 30, 30};
static const uint32_t longest[] = {240, 90, 90};

static uint8_t file[24 + 12 * LENGTH(from) + 16 * LENGTH(act)];

int main(void) {
    uint64_t answer = post_write(5, from, LENGTH(from), to, LENGTH(to), weight, LENGTH(weight), act, LENGTH(act), con, LENGTH(con),
                                 shortest, LENGTH(shortest), longest, LENGTH(longest), file, sizeof file);
    if (post_code_of(answer) != POST_DONE) {
        fprintf(stderr, "refused: code %u, place %u\n", (unsigned)post_code_of(answer), (unsigned)post_place_of(answer));
        return 1;
    }
    return fwrite(file, 1, sizeof file, stdout) == sizeof file && fflush(stdout) == 0 ? 0 : 1;
}
