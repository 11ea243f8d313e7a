/*
 * post.h: an alarm post checks for itself what it was sent.
 *
 * The archive libpost.a is for x86-64 Linux (System V calling convention) and links only into programs for it. It needs
 * no heap, no thread, no file and no set-up, and it holds no state: a call's answer follows from what is lent to it and
 * from nothing else, and calls may run at the same time. Every call is proved to end and to answer as below for every
 * input that keeps to "What is lent".
 *
 * WHAT IS LENT. A slice is a pointer and a length, and the length counts elements, not bytes. You lend it for the time
 * of the call: the call keeps no pointer, reads nothing outside the slices, and writes nothing unless this file says so
 * at that call. On your side:
 *   - the pointer is not NULL and is aligned for its type (4 bytes for int32_t and uint32_t, 8 for int64_t and
 *     uint64_t), also where the length is 0;
 *   - all the elements it promises are there and have been written once;
 *   - nobody writes them while the call runs. Slices that are only read may overlap. A slice that a call may write
 *     overlaps no other slice of that call, and nobody else reads it while the call runs.
 *
 * A PLAN FILE is bytes as they came: little-endian 32-bit fields, a header of 24 bytes, then the limits, then the
 * links. It is read where it lies, at any alignment, and is never copied. The largest has 12,824 bytes. Any bytes may
 * be lent: what is not a plan file is refused with its code. A link's durations are 1 <= shortest <= longest <=
 * 1,000,000 seconds; a restart of a fixed length has both the same.
 *
 * A TABLE has n x n cells of int32_t for a plan of n points, in rows: the cell from x to y stands at x * n + y. A cell
 * is a number of seconds, or POST_MARK where there is no path. A slice may be longer than n x n; the cells beyond are
 * not read.
 *
 * ROW ACCESS is an index. Row x of a table of n points is
 *
 *     const int32_t *row = table + (size_t)x * n;       // n cells, row[y] is the cell from x to y
 *
 * where n is 1 to 64, x is below n, and both tables have at least n x n cells; otherwise there is no row.
 *
 * A WORD is a uint64_t that says which points a point bounds, at whatever number of seconds: bit y of word x, which is
 * (words[x] >> y) & 1, is 1 exactly where the strict cell from x to y is not POST_MARK. A plan of n points has n words,
 * kept beside its strict table; their bits from n on are 0.
 */
#ifndef POST_H
#define POST_H

#include <stddef.h>
#include <stdint.h>

#ifdef __cplusplus
extern "C" {
#endif

/* "No path": larger than every number. */
#define POST_MARK INT32_MAX

/* Every other cell of tables that are accepted lies from -POST_REACH to POST_REACH. */
#define POST_REACH 63000000

/*
 * An answer is one 64-bit number: the code in the low 32 bits, the place in the high 32. The place is 0 unless it is
 * named here. Where several codes would fit, the order is: 1 to 5; 6, by the limits' order in the file, then for the
 * limit handed to post_add; then by the links' order 7 and 8 of each link; 9; 10; 11 and 12, each in the order that its
 * call gives.
 *
 * A PLACE WITH 6, 7 OR 8 is an offset in the file: limit i begins at 24 + 12 x i, link i at 24 + 12 x m + 16 x i, and a
 * field has four bytes. At fault are: a from, to or activation that is not below n; a weight below -1,000,000 or above
 * 1,000,000; a contingent point that is not below n, is 0 or is the activation; a shortest duration of 0; a longest one
 * below the shortest or above 1,000,000. Where the file is refused the field lies in it: place + 4 is at most file_len.
 * Not so for the limit handed to post_add, which lies in no file: with 6 and a place of 24 + 12 x m or more there may be
 * no bytes to read. The places of post_write are those of the file that it would have written.
 */
enum post_code {
    POST_DONE = 0,              /* done, or accepted */
    POST_FEW_BYTES = 1,         /* the file has fewer than 24 bytes */
    POST_BAD_VERSION = 2,       /* the file's version is not 1 */
    POST_BAD_POINTS = 3,        /* the number of points is not 1 to 64; the calls on words: or a point handed to them is
                                   not below it */
    POST_BAD_COUNTS = 4,        /* more than 1,024 limits or more than 32 links */
    POST_BAD_LAYOUT = 5,        /* an offset or the file's length is not as laid down; post_write: lists that belong
                                   together differ in length */
    POST_BAD_LIMIT = 6,         /* a limit out of range; place: the byte at which its first field at fault begins, of
                                   from, to and weight; for the limit handed to post_add: as if it stood behind the
                                   file's m limits, at 24 + 12 x m */
    POST_BAD_LINK = 7,          /* a link out of range; place: the byte at which its first field at fault begins, of
                                   activation, contingent point, shortest and longest */
    POST_REPEATED_LINK = 8,     /* a link repeats an earlier one's contingent point; place: the byte at which the later
                                   one's contingent point begins */
    POST_SHORT_ROOM = 9,        /* a lent slice is shorter than needed: n x n cells in each table, 2 x n x n in the
                                   scratch of post_add, n times of post_earliest, the file's bytes in the buffer of
                                   post_write, 4 x n x n cells in the work room of post_reasons, n words of every call
                                   on words, 3 numbers out of post_bounded, 1 word out of post_both; post_reasons: also
                                   a list longer than its room */
    POST_HAS_LINKS = 10,        /* post_earliest: the plan has links */
    POST_NOT_CONTROLLABLE = 11, /* not for every choice of durations: whatever is done, there are durations within their
                                   bounds, known only once they have passed, for which a limit is broken; without
                                   links: no timetable meets the limits; post_add: so with the new limit; post_check
                                   gives 12 instead */
    POST_REASONS_LISTED = 11,   /* post_reasons: so too, and the list is written; place: the number of its lines */
    POST_NOT_CLOSED = 12        /* the tables are not closed for the plan: do not use them; post_add: also a result
                                   beyond POST_REACH */
};

static inline uint32_t post_code_of(uint64_t answer) { return (uint32_t)answer; }
static inline uint32_t post_place_of(uint64_t answer) { return (uint32_t)(answer >> 32); }

/*
 * Sound: whether a plan file is sound. A post asks when it stores a plan, in the afternoon say, and judges it at night.
 *
 *   0        the file is a plan file: its header, its layout, and every limit and link are as laid down. Whether the
 *            plan can be carried out is for post_judge to say
 *   1 to 8   the file is refused
 *
 * The answer is of the bytes as they are in this call. Flash can change, so every other call that is lent a file looks at
 * it again, whatever was answered before: post_judge refuses a file that is not sound then with the very code and place
 * that post_sound would give it then, and no cell changes. Where the file is still the one that got 0 here, and both
 * tables have room, post_judge answers 0 or 11 and nothing else.
 *
 * Lent: the file (file_len bytes). Nothing is written, and no other room is needed.
 * Time: one look at each limit and each link; a link also looks back over the earlier ones, at most 31.
 */
uint64_t post_sound(const uint8_t *file, size_t file_len);

/*
 * Check: whether two tables that somebody sent are closed for a plan file.
 *
 *   0        accepted. The tables are closed for the plan: no limit, no link and no sum along a middle point would
 *            lower a cell, so no walk through the plan comes to less than its cell. Such tables exist only for a plan
 *            that can be carried out however long each download and restart takes within its bounds.
 *   1 to 8   the file is refused; the tables were not looked at
 *   9        a table has fewer than n x n cells
 *   12       the tables are not closed. Tables for a plan that post_judge refuses with 11 are always refused so.
 *
 * Lent: the file (file_len bytes), the strict table (strict_len cells), the open table (open_len cells). Nothing is
 * written.
 * Time: at most about 2 x n x n x n additions and comparisons, half a million for 64 points. It stops at the first
 * thing that is wrong; sums along a middle point it looks at by rows, and it finishes the row that it is in.
 */
uint64_t post_check(const uint8_t *file, size_t file_len, const int32_t *strict, size_t strict_len, const int32_t *open, size_t open_len);

/*
 * Judge: fills two tables from a plan file, or refuses the plan.
 *
 *   0        the plan can be carried out however long each download and restart takes within its bounds. The first
 *            n x n cells of both tables are the least totals; post_check accepts them with the same file
 *   1 to 8   the file is refused, as post_sound refuses it; no cell changes
 *   9        a table has fewer than n x n cells; no cell changes
 *   11       the plan cannot be carried out for every choice of durations: whatever is done, there are durations within
 *            their bounds, known only once they have passed, for which a limit is broken. Without links: no timetable
 *            meets the limits. The first n x n cells of both tables hold POST_MARK
 *
 * Lent: the file and both tables, which may hold anything and must not overlap. Cells beyond n x n never change. No
 * other room is needed.
 * Time: one pass of joins, n x n x n additions and comparisons. Then rounds over the links, until one changes nothing:
 * each edge that a link yields and that lowers its cell goes through a table at once, at most n x n steps each, and
 * every round looks at n x n cells of each table. The rounds are proved to end; no bound on their number is.
 * Random plans of up to 64 points and 32 links needed at most 6, the benchmark's, which are tight, at most 7
 * (docs/SPEED.md).
 */
uint64_t post_judge(const uint8_t *file, size_t file_len, int32_t *strict, size_t strict_len, int32_t *open, size_t open_len);

/*
 * Earliest: the earliest timetable of a plan without links.
 *
 *   0        both tables as post_judge fills them, and times[x] is the earliest time of point x: it meets every limit,
 *            point 0 is at 0, no time is below 0, and no timetable that meets the limits has an earlier time at any
 *            point
 *   1 to 8   the file is refused; nothing changes
 *   9        a table has fewer than n x n cells, or there are fewer than n times; nothing changes
 *   10       the plan has links; nothing changes
 *   11       no timetable meets the limits; the first n x n cells of both tables hold POST_MARK, the times are
 *            unchanged
 */
uint64_t post_earliest(const uint8_t *file, size_t file_len, int32_t *strict, size_t strict_len, int32_t *open, size_t open_len, int32_t *times, size_t times_len);

/*
 * Add: one more limit on two tables of a plan file. The limit says: point y comes at most w seconds after point x.
 *
 *   0        taken. Both tables are those of the plan that has every strict cell off the diagonal as a limit, and the
 *            new limit
 *   1 to 8   the file or the limit is refused; 6 with a place from 24 + 12 x m on, m being the number of the file's
 *            limits, is the new limit: its from at 24 + 12 x m, its to and its weight 4 and 8 further
 *   9        a table has fewer than n x n cells, or the scratch fewer than 2 x n x n
 *   12       the tables are not closed for the plan
 *   11       with the limit the plan cannot be carried out for every choice of durations: whatever is done, there are
 *            durations within their bounds, known only once they have passed, for which a limit is broken. On tables
 *            that came from post_judge and post_add with this file, the same limit is refused so again at any later
 *            time.
 *   12       a cell of the result lies beyond POST_REACH. This never happens on tables that came from post_judge and
 *            post_add with this file.
 *
 * Lent: the file, both tables and a scratch (scratch_len cells of int64_t). The tables change with 0 only. The scratch
 * may hold anything; it is unchanged with 1 to 9, and else its first 2 x n x n cells are 0. Cells beyond the needed
 * room never change.
 */
uint64_t post_add(const uint8_t *file, size_t file_len, uint32_t x, uint32_t y, int32_t w, int32_t *strict, size_t strict_len, int32_t *open, size_t open_len, int64_t *scratch, size_t scratch_len);

/*
 * Write: a plan file from lists, one for each field, into a buffer. Limit i says: point to[i] comes at most weight[i]
 * seconds after point from[i]. Link i says: point con[i] comes shortest[i] to longest[i] seconds after point act[i]
 * (exactly so many where the two are equal), and nobody chooses when. With m the length of `from` and k that of `act`,
 * the file has 24 + 12 x m + 16 x k bytes, its limits and links in the order of the lists.
 *
 *   0        written. The buffer begins with the file: every call here reads it as this plan. Bytes past the file stay
 *   3        n is not 1 to 64
 *   4        m is above 1,024, or k above 32
 *   5        `to` or `weight` has another length than m, or `con`, `shortest` or `longest` another than k
 *   6        a limit is out of range; place: where the first field at fault would begin in the file
 *   7, 8     a link is out of range, or repeats an earlier one's contingent point: the first for which either is so, and
 *            7 where both are; place: where its field at fault would begin in the file, its contingent point with 8
 *   9        the buffer has fewer bytes than the file
 *
 * Refusals are looked for in that order; 1 and 2 never come. Lists of the fields of a file that post_judge does not
 * refuse with 1 to 8 give that file again, byte for byte.
 *
 * Lent: seven lists, which are only read, and the buffer (buffer_len bytes), which may hold anything. The buffer
 * changes with 0 only. 12,824 bytes are room for every plan.
 */
uint64_t post_write(uint32_t n, const uint32_t *from, size_t from_len, const uint32_t *to, size_t to_len, const int32_t *weight, size_t weight_len, const uint32_t *act, size_t act_len, const uint32_t *con, size_t con_len, const uint32_t *shortest, size_t shortest_len, const uint32_t *longest, size_t longest_len, uint8_t *buffer, size_t buffer_len);

/*
 * The kinds of a reason's line. A line from x to y of weight w says: point y comes at most w seconds after point x.
 * Kinds 1 to 4 stand in the plan and kinds 6 to 8 follow from such lines; all these are strict. Kind 5 stands for the
 * link's shortest duration, and kind 9 follows from lines of any kind.
 */
enum post_kind {
    POST_START_EDGE = 1,        /* nothing precedes the start: from any other point to point 0, weight 0 */
    POST_LIMIT = 2,             /* a limit; first: its index in the file */
    POST_LINK_LONGEST = 3,      /* from a link's activation to its end, weight longest; first: the link's index */
    POST_LINK_SHORTEST = 4,     /* from a link's end to its activation, weight -shortest; first: the link's index */
    POST_LOWER_CASE = 5,        /* from a link's activation to its end, weight shortest; first: the link's index */
    POST_STRICT_JOIN = 6,       /* two strict lines, the second from where the first leads; weight: their sum */
    POST_LOWER = 7,             /* first: a link's line of kind 5; second: a strict line from that link's end to another
                                   link's end, lighter than longest - shortest of that other link; from the first link's
                                   activation to the other link's end, weight: their sum */
    POST_UPPER = 8,             /* first: a strict line to a link's end; second: that link's line of kind 3; from where
                                   the first begins to the link's activation, weight: the first's less longest, but at
                                   least -shortest */
    POST_OPEN_JOIN = 9          /* two lines of any kind, the second from where the first leads; weight: their sum */
};

/*
 * Reasons: why post_judge refuses a plan file with 11, as a list that a person can follow by hand. Line i stands at
 * index i of six lists: kinds, froms, tos, weights, and two references, firsts and seconds, each the number of an
 * earlier line, counted from 0, unless post_kind says otherwise; a reference that is not used is 0. The last line leads
 * from a point to itself with a weight below 0, which no night can meet, and no earlier line does.
 *
 *   0        the plan is controllable, as post_judge has it, and there is no list. No list is changed, and any room,
 *            also none, is enough
 *   1 to 8   the file is refused; nothing changes
 *   9        the work room has fewer than 4 x n x n cells; nothing changes. Or the list is longer than its room, which
 *            is the shortest of the six lists; then no list is changed
 *   11       the plan is refused, and the list is written; place: the number of its lines
 *
 * The list is fixed by the file: start edges by point, limits in the file's order, each link's lines of kinds 3, 4 and
 * 5, and then sweeps, each of strict joins by middle, from and to, Lower by link and second link, Upper by point and
 * link, and open joins by middle, from and to. The three lines of each link are always written, any other line only if
 * it is below the pair's best so far: for kinds 1, 2 and 6 to 8 that of its strict lines, for kind 9 that of all its
 * lines. From a point to itself the best is 0 before there is a line. A line follows from the best lines of their pairs
 * at that moment, the older one where two weigh the same.
 *
 * Lent: the file, six lists and a work room (work_len cells of int64_t), all of which may hold anything. The lists
 * change with 11 only, and what lies past the list's lines never does. The first 4 x n x n cells of the work room are 0
 * after 0, 11 and the 9 of a list too long; cells beyond never change.
 */
uint64_t post_reasons(const uint8_t *file, size_t file_len, uint32_t *kinds, size_t kinds_len, uint32_t *froms, size_t froms_len, uint32_t *tos, size_t tos_len, int64_t *weights, size_t weights_len, uint32_t *firsts, size_t firsts_len, uint32_t *seconds, size_t seconds_len, int64_t *work, size_t work_len);

/*
 * Rests: how many lines of a reason list one line rests on, itself not counted, and a line counted as often as it is
 * come to. The answer is that number, with no code and no place; above 1,000,000 it is 1,000,000.
 *
 * Lines of kinds 6 to 9 rest on the two lines that they name, and on what those rest on; lines of kinds 1 to 5 rest on
 * none. Any lists may be lent: the list ends with the shortest of the three; a line past it, or of no kind, gives 0; a
 * reference that is not below its line's own number adds 0.
 *
 * Lent: kinds, firsts and seconds as post_reasons left them; they are only read.
 *
 * Stack: calls nest where lines name lines, at most as deep as the number of the line asked for, and at most 1,000,000
 * deep, at 160 bytes each. Lists of post_reasons were seen to nest 10 deep; of lists from elsewhere ask for no line with
 * a larger number than the stack has room for.
 */
uint32_t post_rests(const uint32_t *kinds, size_t kinds_len, const uint32_t *firsts, size_t firsts_len, const uint32_t *seconds, size_t seconds_len, uint32_t line);

/*
 * The calls on words: post_reach builds them from the strict table that post_judge filled, post_bounded and post_both
 * answer what a dispatcher asks, and post_reach_add brings them up to date after each post_add that answered 0. The
 * place is always 0. Any words may be lent, also such as no table gives: their bits, those from n on too, are taken as
 * they are.
 *
 * Reach: the words of a strict table.
 *
 *   0        built. Each of the first n words has a bit for every point that its point bounds, and no bit from n on
 *   3        n is not 1 to 64; nothing changes
 *   9        the table has fewer than n x n cells, or there are fewer than n words; nothing changes
 *
 * Lent: the strict table (strict_len cells), which is only read and may hold anything, and the words (words_len of
 * them), which may hold anything. Words beyond the first n never change. Where post_judge answered 11 the table holds
 * POST_MARK alone, and the first n words become 0.
 */
uint64_t post_reach(uint32_t n, const int32_t *strict, size_t strict_len, uint64_t *words, size_t words_len);

/*
 * Bounded: how many points a point bounds, and the lowest and the highest of them. A point whose strict cell to itself
 * is a number, as in every table of post_judge and post_add, is one of those it bounds.
 *
 *   0        out[0] is the number of bits that are 1 in words[x], out[1] the lowest of them and out[2] the highest;
 *            where there is none, they are 0, 64 and 64
 *   3        n is not 1 to 64, or x is not below n; nothing changes
 *   9        there are fewer than n words, also where words[x] is among them, or out has room for fewer than 3 numbers;
 *            nothing changes
 *
 * Lent: the words, which are only read, and out (out_len numbers), which may hold anything. What lies in out beyond the
 * first 3 never changes.
 */
uint64_t post_bounded(uint32_t n, const uint64_t *words, size_t words_len, uint32_t x, uint32_t *out, size_t out_len);

/*
 * Both: the points that two points both bound, as a word. The two may be one.
 *
 *   0        out[0] has exactly the bits that are 1 in words[x] and in words[y]
 *   3        n is not 1 to 64, or x or y is not below n; nothing changes
 *   9        there are fewer than n words, also where both that are asked for are among them, or out has no room;
 *            nothing changes
 *
 * Lent: the words, which are only read, and out (out_len words), which may hold anything. What lies in out beyond the
 * first never changes.
 */
uint64_t post_both(uint32_t n, const uint64_t *words, size_t words_len, uint32_t x, uint32_t y, uint64_t *out, size_t out_len);

/*
 * Reach after Add: the words brought up to date by the one new limit. Call it after each post_add that answered 0, with
 * the same x and y and the words of the table as it was before: then they are the words that post_reach would build
 * from the new strict table. After any other answer of post_add the tables have not changed, and the words stand.
 *
 *   0        each of the first n words in which bit x is 1 has also the bits of words[y]; the others are unchanged, and
 *            so is words[y]
 *   3        n is not 1 to 64, or x or y is not below n; nothing changes
 *   9        there are fewer than n words; nothing changes
 *
 * Lent: the words. Words beyond the first n never change. A second call with the same x and y changes nothing.
 * Time: one step for each of the n words, where post_reach looks at n x n cells.
 */
uint64_t post_reach_add(uint32_t n, uint32_t x, uint32_t y, uint64_t *words, size_t words_len);

#ifdef __cplusplus
}
#endif

#endif
