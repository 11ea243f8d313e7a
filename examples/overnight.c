/*
 * A post's day: a plan is stored in the afternoon and judged at night, and flash can change in between. From the folder
 * above, on x86-64:
 *
 *     cc -Iinclude examples/overnight.c target/staticlib/libpost.a -o overnight
 *     ./overnight < examples/hall_repaired.plan                         a night on which nothing has changed
 *     ./overnight 44 128 45 150 46 152 < examples/hall_repaired.plan    bytes 44, 45 and 46 have become 128, 150 and 152
 *                                                                       (overnight.expected)
 */
#include <stdio.h>
#include <stdlib.h>

#include "post.h"

#define CELLS (64 * 64)
#define LAST_NIGHT (-1) /* what the tables still hold, in every cell */

static uint8_t flash[12825]; /* one byte more than the largest plan file, so that a longer one is refused */
static int32_t strict[CELLS], open_[CELLS];

static void wrong_use(void) {
    fprintf(stderr, "overnight: give a plan file on standard input, and pairs of numbers: a byte of the file, what it becomes\n");
    exit(2);
}

static size_t number_below(size_t end, const char *text) {
    char *rest;
    unsigned long value = strtoul(text, &rest, 10);
    if (*text < '0' || *text > '9' || *rest != '\0' || value >= end) wrong_use();
    return value;
}

static uint64_t say(const char *who, uint64_t answer) {
    printf("%s answers code %u, place %u\n", who, (unsigned)post_code_of(answer), (unsigned)post_place_of(answer));
    return answer;
}

static int both_full_of(int32_t cell, size_t cells) {
    for (size_t i = 0; i < cells; i++)
        if (strict[i] != cell || open_[i] != cell) return 0;
    return 1;
}

int main(int given, char **word) {
    size_t size = fread(flash, 1, sizeof flash, stdin);
    if (ferror(stdin) || given % 2 == 0) wrong_use();
    for (int i = 1; i < given; i++) number_below(i % 2 ? size : 256, word[i]);

    if (post_code_of(say("in the afternoon Sound", post_sound(flash, size))) != POST_DONE) {
        printf("the file is refused, and nothing is stored\n");
        return 1;
    }
    for (int i = 1; i < given; i += 2) flash[number_below(size, word[i])] = (uint8_t)number_below(256, word[i + 1]);
    for (size_t i = 0; i < CELLS; i++) strict[i] = open_[i] = LAST_NIGHT;

    uint64_t answer = say("at night Judge", post_judge(flash, size, strict, CELLS, open_, CELLS));
    size_t n = flash[4]; /* the number of points, where the file is not refused */
    if (both_full_of(LAST_NIGHT, CELLS)) printf("the file is refused, and the tables are as they were last night\n");
    else if (both_full_of(POST_MARK, n * n)) printf("the plan is refused, and the tables hold the mark\n");
    else printf("the plan can be carried out, and the tables are filled\n");
    return post_code_of(answer) != POST_DONE;
}
