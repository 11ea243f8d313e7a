/*
 * Says which points of a plan bound which. Point X bounds point Y where the plan says how late Y may come, counted from
 * X. From the folder above, on x86-64:
 *
 *     cc -Iinclude examples/dispatch.c target/staticlib/libpost.a -o dispatch
 *     ./dispatch < examples/hall_three_posts.plan               how many points each point bounds
 *     ./dispatch 3 5 < examples/hall_three_posts.plan           and which points 3 and 5 both bound
 *     ./dispatch 3 5 2 3 10 < examples/hall_three_posts.plan    and what is new with one more limit: point 3 comes at
 *                                                               most 10 seconds after point 2 (dispatch.expected)
 */
#include <stdio.h>
#include <stdlib.h>
#include <string.h>

#include "post.h"

#define LENGTH(list) (sizeof(list) / sizeof(list)[0])

static uint8_t file[12825]; /* one byte more than the largest plan file, so that a longer one is refused */
static int32_t strict[64 * 64], open_[64 * 64];
static int64_t scratch[2 * 64 * 64]; /* for post_add */
static uint64_t words[64], before[64];

static void stop(const char *sentence) {
    fprintf(stderr, "dispatch: %s\n", sentence);
    exit(1);
}

/* Ends the program unless the call was done; `so` says in words what is refused. */
static void done(uint64_t answer, const char *so) {
    if (post_code_of(answer) == POST_DONE) return;
    fprintf(stderr, "dispatch: %s: code %u, place %u\n", so, (unsigned)post_code_of(answer), (unsigned)post_place_of(answer));
    exit(1);
}

/* A point or a weight. Whether the plan has that point is for the library to say. */
static int32_t number(const char *text) {
    char *end;
    long value = strtol(text, &end, 10);
    if (end == text || *end != '\0' || value < -1000000 || value > 1000000)
        stop("a point or a weight is not a whole number from -1000000 to 1000000");
    return (int32_t)value;
}

static void print_points(uint64_t word) {
    if (word == 0) printf(" no point");
    for (unsigned y = 0; y < 64; y++)
        if (word >> y & 1) printf(" %u", y);
    printf("\n");
}

int main(int given, char **word) {
    int32_t asked[5] = {0};
    if (given != 1 && given != 3 && given != 6) stop("give nothing, two points, or two points and a limit: from, to, weight");
    for (int i = 1; i < given; i++) asked[i - 1] = number(word[i]);
    size_t size = fread(file, 1, sizeof file, stdin);
    if (ferror(stdin)) stop("the plan file could not be read");

    done(post_sound(file, size), "the plan is refused");
    done(post_judge(file, size, strict, LENGTH(strict), open_, LENGTH(open_)), "the plan is refused");
    uint32_t n = file[4]; /* the number of points: of an accepted file it is 1 to 64, so this byte has all of it */
    done(post_reach(n, strict, LENGTH(strict), words, LENGTH(words)), "no words were built");
    for (uint32_t x = 0; x < n; x++) {
        uint32_t out[3] = {0}; /* how many, the lowest, the highest; what is lent has been written once */
        done(post_bounded(n, words, LENGTH(words), x, out, LENGTH(out)), "what a point bounds was not told");
        if (out[0] == 0) printf("point %u bounds no point\n", (unsigned)x);
        else printf("point %u bounds %u point%s, from %u to %u\n", (unsigned)x, (unsigned)out[0], out[0] == 1 ? "" : "s",
                    (unsigned)out[1], (unsigned)out[2]);
    }
    if (given >= 3) {
        uint64_t both = 0;
        done(post_both(n, words, LENGTH(words), (uint32_t)asked[0], (uint32_t)asked[1], &both, 1),
             "what two points both bound was not told");
        printf("points %d and %d both bound:", (int)asked[0], (int)asked[1]);
        print_points(both);
    }
    if (given == 6) {
        uint32_t from = (uint32_t)asked[2], to = (uint32_t)asked[3];
        memcpy(before, words, sizeof words);
        done(post_add(file, size, from, to, asked[4], strict, LENGTH(strict), open_, LENGTH(open_), scratch, LENGTH(scratch)),
             "the limit is refused");
        /* The limit was taken, and only then: */
        done(post_reach_add(n, from, to, words, LENGTH(words)), "the words were not brought up to date");
        printf("point %u now comes at most %d seconds after point %u\n", (unsigned)to, (int)asked[4], (unsigned)from);
        for (uint32_t x = 0; x < n; x++) {
            if (words[x] == before[x]) continue;
            printf("point %u now bounds:", (unsigned)x);
            print_points(words[x]);
        }
    }
    if (fflush(stdout) != 0) stop("the answer could not be written");
    return 0;
}
