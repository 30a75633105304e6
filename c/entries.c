/* Calls every function of the library from C, with valid and damaged input, on the nest of document
 * 01's listing; what must be answered and left is from there. Then the same nest with a boundary
 * value for each dependence, whose values are worked out below, and a nest of four loops.
 *
 * Each buffer is lent between two pages that may not be touched: in a first round its last byte
 * stands before the second, in a second round its first byte behind the first. A byte out of
 * bounds, read or written, ends the program. (The library itself is built without sanitizers, so
 * they see this file only.) */
#define _DEFAULT_SOURCE
#include <stdio.h>
#include <stdlib.h>
#include <string.h>
#include <sys/mman.h>
#include <unistd.h>

#include "rowlock.h"

#define ITERATIONS 6

static int failures, round_at_start;

#define CHECK(condition)                                                                           \
    do {                                                                                           \
        if (!(condition)) {                                                                        \
            printf("%s:%d: %s\n", __FILE__, __LINE__, #condition);                                 \
            failures++;                                                                            \
        }                                                                                          \
    } while (0)

/* clang-format off */
/* the nest of document 01's listing, but for its boundary values: all lines but the last, and as
 * numbers */
#define LINES_BEFORE_THE_LAST \
    "     2     2     1\n" \
    "     0     1\n" \
    "     0     2\n" \
    "     1     1\n" \
    "     0     1\n" \
    "     1     0\n"
#define NEST_OUTSIDE_OF_WHICH_IS(left, above) { \
    .depth = 2, .count = 2, .cube = 1, \
    .upper = {1, 2}, .time = {1, 1}, .dependences = {0, 1, 0, 0, 1, 0, 0, 0}, \
    .boundaries = {left, above}, .weights = {2, 3}, \
}

static const char text[] = LINES_BEFORE_THE_LAST "     1     2     3\n";
static const char listing[] =
    "     6     4     3     2     2\n"
    "     0     0     0     0     5\n"
    "     1     1     0     0    14\n"
    "     2     2     1     1    33\n"
    "     3     1     2     0    20\n"
    "     4     2     0     0    86\n"
    "     5     3     0     0   276\n";

static const struct rowlock_nest whole = NEST_OUTSIDE_OF_WHICH_IS(1, 1);

/* the same nest in the long form, which is written again as the text above */
static const char equal_text[] = LINES_BEFORE_THE_LAST "     1     1     2     3\n";

/* and with boundary value 1 for (0,1) and 10 for (1,0) */
static const char different_text[] = LINES_BEFORE_THE_LAST "     1    10     2     3\n";
static const struct rowlock_nest different = NEST_OUTSIDE_OF_WHICH_IS(1, 10);

/* four loops of two indices, and a dependence along each, the innermost first
 * (examples/U11-four-loops.txt) */
static const char four_text[] =
    "     4     4     2\n"
    "     0     1\n"
    "     0     1\n"
    "     0     1\n"
    "     0     1\n"
    "     1     1     1     1\n"
    "     0     0     0     1\n"
    "     0     0     1     0\n"
    "     0     1     0     0\n"
    "     1     0     0     0\n"
    "     1     1     1     1     1\n";
static const struct rowlock_nest four = {
    .depth = 4, .count = 4, .cube = 2,
    .upper = {1, 1, 1, 1}, .time = {1, 1, 1, 1},
    .dependences = {0, 0, 0, 1, 0, 0, 1, 0, 0, 1, 0, 0, 1, 0, 0, 0},
    .boundaries = {1, 1, 1, 1}, .weights = {1, 1, 1, 1},
};
/* clang-format on */

/* its plan, as it is worked out by hand in second/src/worked.rs */
#define FOUR_ITERATIONS 16
static const uint32_t four_steps[FOUR_ITERATIONS] = {0, 1, 1, 2, 1, 2, 2, 3,
                                                     1, 2, 2, 3, 2, 3, 3, 4};
static const uint16_t four_blocks[FOUR_ITERATIONS] = {0, 0, 1, 1, 2, 2, 3,  3,
                                                      4, 5, 6, 7, 8, 9, 10, 0};
static const uint8_t four_processors[FOUR_ITERATIONS] = {2, 2, 3, 3, 2, 2, 3, 3,
                                                         0, 2, 0, 2, 0, 2, 0, 2};
static const uint16_t four_values[FOUR_ITERATIONS] = {4,  8,  9,  22,  11, 26,  28,  84,
                                                      15, 34, 36, 104, 40, 114, 119, 436};
static const size_t four_counts[5] = {16, 5, 11, 3, 14};

/* A value is the rank, 2 times what is on the left, and 3 times what is above; 1 is on the left of
 * column 0, and 10 is above row 0:
 *     (0,0)  0 + 2 *   1 + 3 *  10 =   32
 *     (0,1)  1 + 2 *  32 + 3 *  10 =   95
 *     (0,2)  2 + 2 *  95 + 3 *  10 =  222
 *     (1,0)  3 + 2 *   1 + 3 *  32 =  101
 *     (1,1)  4 + 2 * 101 + 3 *  95 =  491
 *     (1,2)  5 + 2 * 491 + 3 * 222 = 1653 */
static const uint16_t different_values[ITERATIONS] = {32, 95, 222, 101, 491, 1653};
static const uint32_t steps[ITERATIONS] = {0, 1, 2, 1, 2, 3};
static const uint16_t blocks[ITERATIONS] = {0, 0, 1, 2, 0, 0};
static const uint8_t processors[ITERATIONS] = {0, 0, 1, 0, 0, 0};
static const uint16_t values[ITERATIONS] = {5, 14, 33, 20, 86, 276};
static const size_t counts[5] = {6, 4, 3, 2, 2}, no_counts[5];

/* the pages that are lent; a process may have so many only, so they are given back now and then */
#define MOST_LENT 2048
static struct {
    void *pages;
    size_t size;
} pages_lent[MOST_LENT];
static size_t lent_count;

/* So many bytes between two pages that may not be touched, each with the same content. The pages
 * are kept until all are given back. */
static void *lend(size_t size) {
    size_t page = (size_t)sysconf(_SC_PAGESIZE), inside = (size / page + 1) * page;
    uint8_t *pages = mmap(NULL, inside + 2 * page, PROT_NONE, MAP_PRIVATE | MAP_ANONYMOUS, -1, 0);
    if (pages == MAP_FAILED || mprotect(pages + page, inside, PROT_READ | PROT_WRITE) != 0 ||
        lent_count == MOST_LENT) {
        perror("lend");
        exit(2);
    }
    pages_lent[lent_count].pages = pages;
    pages_lent[lent_count++].size = inside + 2 * page;
    memset(pages + page, 0x5A, inside);
    return pages + page + (round_at_start ? 0 : inside - size);
}

/* The same, with a content. */
static void *lend_copy(const void *bytes, size_t size) {
    return memcpy(lend(size), bytes, size);
}

/* Gives back all that is lent. */
static void give_back(void) {
    while (lent_count > 0) {
        lent_count--;
        munmap(pages_lent[lent_count].pages, pages_lent[lent_count].size);
    }
}

/* Whether a buffer holds `size` bytes as given, and behind them, up to `room`, what it was lent
 * with. */
static int holds(const void *buffer, const void *bytes, size_t size, size_t room) {
    const uint8_t *at = buffer;
    for (size_t k = size; k < room; k++)
        if (at[k] != 0x5A)
            return 0;
    return memcmp(at, bytes, size) == 0;
}

/* a nest in which a number, and where it is told a second one, is another; and its refusal */
struct damage {
    size_t place;
    int64_t number;
    size_t other_place;
    int64_t other_number;
    uint8_t refusal;
};

/* places: depth, count, cube 0 to 2, lower 3, upper 7, time 11, dependences 15, boundaries 47,
 * weights 55. Of each four places for the loops the last two are no part of the nest, and neither
 * are those of the third dependence to the eighth: 23 to 46, 49 to 54, 57 to 62. */
static const struct damage damages[] = {
    {62, 0, 62, 0, ROWLOCK_DONE},
    {62, INT64_MIN, 5, INT64_MAX, ROWLOCK_DONE},
    {17, 999, 23, INT64_MIN, ROWLOCK_DONE},
    {6, INT64_MIN, 10, INT64_MAX, ROWLOCK_DONE},
    {6, 1, 10, 0, ROWLOCK_DONE},
    {10, 4096, 14, 17, ROWLOCK_DONE},
    {14, INT64_MAX, 18, INT64_MIN, ROWLOCK_DONE},
    {18, 999, 22, -1, ROWLOCK_DONE},
    {26, INT64_MIN, 46, INT64_MAX, ROWLOCK_DONE},
    {49, 7, 57, 7, ROWLOCK_DONE},
    {49, 65536, 57, 256, ROWLOCK_DONE},
    {54, INT64_MIN, 49, INT64_MAX, ROWLOCK_DONE},
    {0, 0, 1, 0, ROWLOCK_BAD_DEPTH},
    {0, 5, 1, 9, ROWLOCK_BAD_DEPTH},
    {0, INT64_MAX, 2, INT64_MAX, ROWLOCK_BAD_DEPTH},
    {1, 9, 2, 7, ROWLOCK_BAD_COUNT},
    {2, -1, 3, 2, ROWLOCK_BAD_CUBE},
    {3, 2, 11, 17, ROWLOCK_BAD_LIMITS},
    {8, INT64_MIN, 11, 17, ROWLOCK_BAD_LIMITS},
    {0, 4, 10, 1001, ROWLOCK_BAD_LIMITS},
    {0, 4, 6, 1, ROWLOCK_BAD_LIMITS},
    {7, 1000, 8, 1000, ROWLOCK_TOO_MANY_POINTS},
    {0, 4, 10, 682, ROWLOCK_TOO_MANY_POINTS},
    {11, 17, 15, 17, ROWLOCK_BAD_TIME},
    {0, 4, 14, -17, ROWLOCK_BAD_TIME},
    {15, -17, 55, 256, ROWLOCK_BAD_DEPENDENCE},
    {0, 4, 18, 17, ROWLOCK_BAD_DEPENDENCE},
    {19, 0, 55, 256, ROWLOCK_BACKWARD_DEPENDENCE},
    {19, 0, 20, 1, ROWLOCK_EQUAL_DEPENDENCES},
    {12, 0, 48, -1, ROWLOCK_AGAINST_TIME},
    {11, 0, 12, 0, ROWLOCK_AGAINST_TIME},
    {47, 65536, 62, 0, ROWLOCK_BAD_WEIGHT},
    {48, 65536, 62, 0, ROWLOCK_BAD_WEIGHT},
    {48, -1, 62, 0, ROWLOCK_BAD_WEIGHT},
    {47, -1, 48, -1, ROWLOCK_BAD_WEIGHT},
    {55, 256, 62, 0, ROWLOCK_BAD_WEIGHT},
    {56, -1, 62, 0, ROWLOCK_BAD_WEIGHT},
};

static struct rowlock_nest damaged(const struct damage *damage) {
    int64_t numbers[sizeof(struct rowlock_nest) / sizeof(int64_t)];
    struct rowlock_nest nest;
    memcpy(numbers, &whole, sizeof numbers);
    numbers[damage->place] = damage->number;
    numbers[damage->other_place] = damage->other_number;
    memcpy(&nest, numbers, sizeof nest);
    return nest;
}

/* The answer that a call owes whose nest and whose room are as told: the nest's refusal goes first.
 */
static uint8_t owed(uint8_t refusal, int room) {
    return refusal != ROWLOCK_DONE ? refusal : room ? ROWLOCK_DONE : ROWLOCK_SHORT_BUFFER;
}

static void try_check(const struct rowlock_nest *nest, uint8_t refusal) {
    size_t *iterations = lend(sizeof *iterations);
    CHECK(rowlock_check(nest) == refusal);
    CHECK(rowlock_inspect(nest, iterations) == refusal);
    CHECK(*iterations == (refusal == ROWLOCK_DONE ? ITERATIONS : 0));
}

/* Of the two dependences one is chosen, since their projections are opposite: 2 * 2 - 1 = 3. */
static void try_most_receivers(const struct rowlock_nest *nest, uint8_t refusal) {
    size_t *most = lend(sizeof *most);
    CHECK(rowlock_most_receivers(nest, most) == refusal);
    CHECK(*most == (refusal == ROWLOCK_DONE ? 3 : 0));
}

/* Writes a nest whose text is as told, into buffers of all lengths up to a few bytes more. */
static void try_write(const struct rowlock_nest *nest, uint8_t refusal, const char *told) {
    for (size_t size = strlen(told), room = 0; room < size + 4; room++) {
        uint8_t answer = owed(refusal, room >= size), *buffer = lend(room);
        size_t *length = lend(sizeof *length), written = answer == ROWLOCK_DONE ? size : 0;
        CHECK(rowlock_write(nest, buffer, room, length) == answer);
        CHECK(*length == written);
        CHECK(holds(buffer, told, written, room));
    }
}

static void try_locate(const struct rowlock_nest *nest, uint8_t refusal) {
    static const int64_t indices[] = {0, 1, -1, 2, INT64_MIN, INT64_MAX};
    static const size_t entries[] = {0, ITERATIONS - 1, ITERATIONS, ITERATIONS + 1, SIZE_MAX};
    for (size_t k = 0; k < 6 * 5; k++) {
        int64_t index = indices[k / 5];
        uint8_t answer = owed(refusal, entries[k % 5] >= ITERATIONS);
        if (answer == ROWLOCK_DONE && k / 5 > 1)
            answer = ROWLOCK_NO_SUCH_ROW;
        size_t *span = lend(2 * sizeof *span);
        CHECK(rowlock_locate(nest, entries[k % 5], index, span) == answer);
        CHECK(span[0] == (answer == ROWLOCK_DONE ? (size_t)index * 3 : 0));
        CHECK(span[1] == (answer == ROWLOCK_DONE ? 3 : 0));
    }
}

/* Fills tables of all lengths up to a few entries more with the values of a nest. */
static void try_fill(const struct rowlock_nest *nest, uint8_t refusal, const uint16_t *told) {
    for (size_t room = 0; room < ITERATIONS + 3; room++) {
        uint8_t answer = owed(refusal, room >= ITERATIONS);
        uint16_t *table = lend(room * sizeof *table);
        CHECK(rowlock_fill(nest, table, room) == answer);
        CHECK(holds(table, told, answer == ROWLOCK_DONE ? sizeof values : 0, room * sizeof *table));
    }
}

/* One of the four tables has `room` entries, and the others enough. */
static void try_plan(const struct rowlock_nest *nest, uint8_t refusal, size_t short_one,
                     size_t room) {
    size_t rooms[4] = {ITERATIONS, ITERATIONS + 1, ITERATIONS + 2, ITERATIONS};
    rooms[short_one] = room;
    uint32_t *a = lend(rooms[0] * sizeof *a);
    uint16_t *b = lend(rooms[1] * sizeof *b);
    uint8_t *c = lend(rooms[2]);
    uint16_t *d = lend(rooms[3] * sizeof *d);
    size_t *told = lend(sizeof counts);
    uint8_t answer = owed(refusal, room >= ITERATIONS);
    int made = answer == ROWLOCK_DONE;
    CHECK(rowlock_plan(nest, a, rooms[0], b, rooms[1], c, rooms[2], d, rooms[3], told) == answer);
    CHECK(memcmp(told, made ? counts : no_counts, sizeof counts) == 0);
    CHECK(holds(a, steps, made ? sizeof steps : 0, rooms[0] * sizeof *a));
    CHECK(holds(b, blocks, made ? sizeof blocks : 0, rooms[1] * sizeof *b));
    CHECK(holds(c, processors, made ? sizeof processors : 0, rooms[2]));
    CHECK(holds(d, values, made ? sizeof values : 0, rooms[3] * sizeof *d));
}

/* A first move, on a fresh state of which one buffer (or one table of the plan) is an entry short,
 * or none if `short_one` is 5: a compute, or a kind that is no move's. */
static void try_move(const struct rowlock_nest *nest, uint8_t refusal, size_t kind,
                     size_t short_one) {
    static const uint8_t zeros[ITERATIONS], one[ITERATIONS] = {1};
    size_t n[6] = {ITERATIONS, ITERATIONS, ITERATIONS, ITERATIONS, ITERATIONS, 0};
    n[short_one] -= short_one < 5;
    uint32_t *a = lend_copy(steps, n[0] * sizeof *a);
    uint8_t *b = lend_copy(processors, n[1]), *d = lend_copy(zeros, n[3]),
            *e = lend_copy(zeros, n[4]);
    uint16_t *c = lend(n[2] * sizeof *c);
    size_t *made = lend(2 * sizeof *made);
    uint8_t answer = owed(refusal, short_one == 5);
    if (answer == ROWLOCK_DONE && kind != ROWLOCK_COMPUTE)
        answer = ROWLOCK_NO_SUCH_PLACE;
    int computed = answer == ROWLOCK_DONE;
    CHECK(rowlock_move(nest, kind, 0, SIZE_MAX, a, n[0], b, n[1], c, n[2], d, n[3], e, n[4],
                       made) == answer);
    CHECK(made[0] == 0 && made[1] == (computed ? 5 : 0));
    CHECK(holds(a, steps, n[0] * sizeof *a, 0) && holds(b, processors, n[1], 0) &&
          holds(e, zeros, n[4], 0));
    CHECK(holds(c, values, computed ? sizeof *c : 0, n[2] * sizeof *c));
    CHECK(holds(d, computed ? one : zeros, n[3], 0));
}

/* Every function that takes a nest as numbers. */
static void try_nest(const struct damage *damage) {
    struct rowlock_nest numbers = damaged(damage);
    const struct rowlock_nest *nest = lend_copy(&numbers, sizeof numbers);
    try_check(nest, damage->refusal);
    try_most_receivers(nest, damage->refusal);
    try_write(nest, damage->refusal, text);
    try_locate(nest, damage->refusal);
    try_fill(nest, damage->refusal, values);
    for (size_t k = 0; k < 4 * (ITERATIONS + 3); k++)
        try_plan(nest, damage->refusal, k % 4, k / 4);
    static const size_t kinds[] = {ROWLOCK_COMPUTE, 0, 3, 256, SIZE_MAX};
    for (size_t k = 0; k < 5 * 6; k++)
        try_move(nest, damage->refusal, kinds[k / 6], k % 6);
    give_back();
}

/* Nests of other bounds: the projection of (1,0) along (1,0) is zero, and none is chosen; that of
 * (0,1) along (1,1) is not; along (1,1,1) two of three unit vectors are chosen. */
static void try_bounds(void) {
    static const struct {
        struct rowlock_nest nest;
        size_t most;
    } nests[] = {
        {{.depth = 2, .count = 1, .time = {1, 0}, .dependences = {1, 0}}, 2},
        {{.depth = 2, .count = 1, .time = {1, 1}, .dependences = {0, 1}}, 1},
        {{.depth = 3,
          .count = 3,
          .time = {1, 1, 1},
          .dependences = {0, 1, 0, 0, 1, 0, 0, 0, 0, 0, 1, 0}},
         4},
    };
    for (size_t k = 0; k < sizeof nests / sizeof nests[0]; k++) {
        const struct rowlock_nest *nest = lend_copy(&nests[k].nest, sizeof nests[k].nest);
        size_t *most = lend(sizeof *most);
        CHECK(rowlock_most_receivers(nest, most) == ROWLOCK_DONE);
        CHECK(*most == nests[k].most);
    }
}

/* The first so many bytes of the text: all of it is read, and less is malformed. */
static void try_read(size_t length) {
    static const struct rowlock_nest empty;
    uint8_t answer = length == sizeof text - 1 ? ROWLOCK_DONE : ROWLOCK_MALFORMED_TEXT;
    const uint8_t *lent = lend_copy(text, length);
    struct rowlock_nest *nest = lend(sizeof *nest);
    CHECK(rowlock_read(lent, length, nest) == answer);
    CHECK(memcmp(nest, answer == ROWLOCK_DONE ? &whole : &empty, sizeof whole) == 0);
}

/* A text is read as the nest that is told, which is written as the other text told, whatever stands
 * behind its two dependences. */
static void try_form(const char *lines, const struct rowlock_nest *told, const char *written) {
    const uint8_t *lent = lend_copy(lines, strlen(lines));
    struct rowlock_nest *nest = lend(sizeof *nest);
    CHECK(rowlock_read(lent, strlen(lines), nest) == ROWLOCK_DONE);
    CHECK(memcmp(nest, told, sizeof *told) == 0);
    try_write(nest, ROWLOCK_DONE, written);
    static const int64_t behind[] = {7, -1, 65536, INT64_MIN, INT64_MAX};
    for (size_t k = 0; k < 5 * 6; k++) {
        nest->boundaries[2 + k % 6] = behind[k / 6];
        nest->weights[2 + k % 6] = behind[k / 6];
        if (k % 6 == 5)
            try_write(nest, ROWLOCK_DONE, written);
    }
    give_back();
}

/* A boundary value for each dependence: the values of the sequential loop and of a plan, and that
 * of a first move, whose two sources are outside along different dependences. */
static void try_different_values(void) {
    const struct rowlock_nest *nest = lend_copy(&different, sizeof different);
    try_fill(nest, ROWLOCK_DONE, different_values);
    uint32_t *a = lend(sizeof steps);
    uint16_t *b = lend(sizeof blocks), *d = lend(sizeof values);
    uint8_t *c = lend(sizeof processors);
    size_t *told = lend(sizeof counts), *made = lend(2 * sizeof *made);
    CHECK(rowlock_plan(nest, a, ITERATIONS, b, ITERATIONS, c, ITERATIONS, d, ITERATIONS, told) ==
          ROWLOCK_DONE);
    CHECK(memcmp(told, counts, sizeof counts) == 0);
    CHECK(holds(a, steps, sizeof steps, 0) && holds(b, blocks, sizeof blocks, 0) &&
          holds(c, processors, sizeof processors, 0));
    CHECK(holds(d, different_values, sizeof different_values, 0));
    static const uint8_t zeros[ITERATIONS];
    uint8_t *e = lend_copy(zeros, sizeof zeros), *f = lend_copy(zeros, sizeof zeros);
    CHECK(rowlock_move(nest, ROWLOCK_COMPUTE, 0, 0, a, ITERATIONS, c, ITERATIONS, d, ITERATIONS, e,
                       ITERATIONS, f, ITERATIONS, made) == ROWLOCK_DONE);
    CHECK(made[0] == 0 && made[1] == 32);
}

/* The listing of the first so many bytes of the text, into a buffer of so many bytes. */
static void try_list(size_t length, size_t room) {
    uint8_t answer = owed(length == sizeof text - 1 ? ROWLOCK_DONE : ROWLOCK_MALFORMED_TEXT,
                          room >= sizeof listing - 1);
    const uint8_t *lent = lend_copy(text, length);
    uint8_t *buffer = lend(room);
    size_t *told = lend(sizeof *told), written = answer == ROWLOCK_DONE ? sizeof listing - 1 : 0;
    CHECK(rowlock_list(lent, length, buffer, room, told) == answer);
    CHECK(*told == written);
    CHECK(holds(buffer, listing, written, room));
}

/* a move, its number and what it made */
struct move {
    size_t kind, first, second;
    uint8_t answer;
    size_t made[2];
};

/* a run: a nest of so many iterations, the tables of its plan, and its state */
struct run {
    const struct rowlock_nest *nest;
    size_t iterations;
    const uint32_t *steps;
    const uint8_t *processors;
    uint16_t *values;
    uint8_t *done, *delivered;
};

/* A run on a fresh state. */
static struct run fresh(const struct rowlock_nest *nest, size_t n, const uint32_t *step_table,
                        const uint8_t *processor_table) {
    struct run run = {lend_copy(nest, sizeof *nest),
                      n,
                      lend_copy(step_table, n * sizeof *step_table),
                      lend_copy(processor_table, n),
                      lend(n * sizeof(uint16_t)),
                      lend(n),
                      lend(n)};
    memset(run.done, 0, n);
    memset(run.delivered, 0, n);
    return run;
}

/* Makes a move; answers its number. */
static uint8_t make(const struct run *run, size_t kind, size_t first, size_t second,
                    size_t made[2]) {
    size_t n = run->iterations;
    return rowlock_move(run->nest, kind, first, second, run->steps, n, run->processors, n,
                        run->values, n, run->done, n, run->delivered, n, made);
}

/* Makes so many moves, each of which must be answered as it is told. */
static void make_all(const struct run *run, const struct move *moves, size_t count) {
    for (size_t k = 0; k < count; k++) {
        const struct move *m = &moves[k];
        size_t *made = lend(sizeof m->made);
        CHECK(make(run, m->kind, m->first, m->second, made) == m->answer);
        CHECK(memcmp(made, m->made, sizeof m->made) == 0);
    }
}

/* A run to its end, with moves that are refused on the way. */
static void try_run(void) {
    static const struct move moves[] = {
        {1, 1, 0, ROWLOCK_WAITING, {0, 0}},
        {2, 2, 0, ROWLOCK_OUT_OF_TURN, {0, 0}},
        {0, 0, 0, ROWLOCK_NO_SUCH_PLACE, {0, 0}},
        {1, 0, 0, ROWLOCK_DONE, {0, 5}},
        {1, 0, 0, ROWLOCK_DONE, {1, 14}},
        {0, 2, 0, ROWLOCK_NO_SUCH_PLACE, {0, 0}},
        {3, 2, 0, ROWLOCK_NO_SUCH_PLACE, {0, 0}},
        {SIZE_MAX, 2, 0, ROWLOCK_NO_SUCH_PLACE, {0, 0}},
        {2, 2, 0, ROWLOCK_DONE, {2, 0}},
        {2, 2, 0, ROWLOCK_OUT_OF_TURN, {0, 0}},
        {1, 1, 9, ROWLOCK_DONE, {2, 33}},
        {1, 1, 0, ROWLOCK_IDLE_PROCESSOR, {0, 0}},
        {1, 2, 0, ROWLOCK_NO_SUCH_PLACE, {0, 0}},
        {2, 6, 0, ROWLOCK_NO_SUCH_PLACE, {0, 0}},
        {2, 0, 2, ROWLOCK_NO_SUCH_PLACE, {0, 0}},
        {1, SIZE_MAX, 0, ROWLOCK_NO_SUCH_PLACE, {0, 0}},
        {2, SIZE_MAX, 0, ROWLOCK_NO_SUCH_PLACE, {0, 0}},
        {2, 0, 0, ROWLOCK_OUT_OF_TURN, {0, 0}},
        {1, 0, 0, ROWLOCK_DONE, {3, 20}},
        {1, 0, 0, ROWLOCK_DONE, {4, 86}},
        {1, 0, 0, ROWLOCK_WAITING, {0, 0}},
        {2, 5, 1, ROWLOCK_DONE, {5, 1}},
        {1, 0, 0, ROWLOCK_DONE, {5, 276}},
        {1, 0, 0, ROWLOCK_IDLE_PROCESSOR, {0, 0}},
    };
    static const uint8_t ones[ITERATIONS] = {1, 1, 1, 1, 1, 1},
                         bits[ITERATIONS] = {0, 0, 1, 0, 0, 2};
    struct run run = fresh(&whole, ITERATIONS, steps, processors);
    make_all(&run, moves, sizeof moves / sizeof moves[0]);
    CHECK(memcmp(run.values, values, sizeof values) == 0);
    CHECK(memcmp(run.done, ones, sizeof ones) == 0);
    CHECK(memcmp(run.delivered, bits, sizeof bits) == 0);
}

/* Four loops: text, bound, rows, values and plan, in tables of just enough entries and of one too
 * few. Along (1,1,1,1) three of four unit vectors are chosen: 2 * 4 - 3 = 5. A row is half of the
 * table. */
static void try_four_loops(void) {
    const struct rowlock_nest *nest = lend_copy(&four, sizeof four);
    struct rowlock_nest *again = lend(sizeof *again);
    CHECK(rowlock_read(lend_copy(four_text, strlen(four_text)), strlen(four_text), again) == 0);
    CHECK(memcmp(again, &four, sizeof four) == 0);
    try_write(nest, ROWLOCK_DONE, four_text);
    size_t n = FOUR_ITERATIONS, *span = lend(2 * sizeof *span), *told = lend(sizeof four_counts);
    for (int64_t index = -1; index <= 2; index++) {
        uint8_t answer = index == 0 || index == 1 ? ROWLOCK_DONE : ROWLOCK_NO_SUCH_ROW;
        CHECK(rowlock_locate(nest, n, index, span) == answer);
        CHECK(span[0] == (index == 1 ? 8 : 0) && span[1] == (answer == ROWLOCK_DONE ? 8 : 0));
    }
    CHECK(rowlock_locate(nest, n - 1, 0, span) == ROWLOCK_SHORT_BUFFER);
    CHECK(rowlock_most_receivers(nest, span) == ROWLOCK_DONE && span[0] == 5);
    uint32_t *a = lend(sizeof four_steps);
    uint16_t *b = lend(sizeof four_blocks), *d = lend(sizeof four_values);
    uint8_t *c = lend(sizeof four_processors);
    CHECK(rowlock_fill(nest, d, n - 1) == ROWLOCK_SHORT_BUFFER);
    CHECK(rowlock_plan(nest, a, n, b, n, c, n - 1, d, n, told) == ROWLOCK_SHORT_BUFFER);
    CHECK(holds(c, four_processors, 0, n) && holds(d, four_values, 0, sizeof four_values));
    CHECK(rowlock_fill(nest, d, n) == ROWLOCK_DONE && holds(d, four_values, sizeof four_values, 0));
    CHECK(rowlock_plan(nest, a, n, b, n, c, n, d, n, told) == ROWLOCK_DONE);
    CHECK(holds(a, four_steps, sizeof four_steps, 0) &&
          holds(b, four_blocks, sizeof four_blocks, 0));
    CHECK(holds(c, four_processors, sizeof four_processors, 0));
    CHECK(holds(d, four_values, sizeof four_values, 0));
    CHECK(memcmp(told, four_counts, sizeof four_counts) == 0);
    give_back();
}

/* A run of four loops: some moves one by one, then all until none is allowed. Rank 8 needs rank 0
 * along the fourth dependence, rank 2 along the second, each from another processor. */
static void try_four_run(void) {
    static const struct move moves[] = {
        {1, 0, 0, ROWLOCK_WAITING, {0, 0}},       {1, 1, 0, ROWLOCK_IDLE_PROCESSOR, {0, 0}},
        {1, 4, 0, ROWLOCK_NO_SUCH_PLACE, {0, 0}}, {2, 8, 3, ROWLOCK_OUT_OF_TURN, {0, 0}},
        {1, 2, 0, ROWLOCK_DONE, {0, 4}},          {2, 8, 3, ROWLOCK_DONE, {8, 3}},
        {2, 8, 4, ROWLOCK_NO_SUCH_PLACE, {0, 0}}, {2, 16, 0, ROWLOCK_NO_SUCH_PLACE, {0, 0}},
        {2, 4, 2, ROWLOCK_OUT_OF_TURN, {0, 0}},   {1, 0, 0, ROWLOCK_DONE, {8, 15}},
        {1, 3, 0, ROWLOCK_WAITING, {0, 0}},       {2, 2, 1, ROWLOCK_DONE, {2, 1}},
        {1, 3, 0, ROWLOCK_DONE, {2, 9}},
    };
    struct run run = fresh(&four, FOUR_ITERATIONS, four_steps, four_processors);
    make_all(&run, moves, sizeof moves / sizeof moves[0]);
    size_t computed = 3, delivered = 2, before, *made = lend(2 * sizeof *made);
    do {
        before = computed + delivered;
        for (size_t k = 0; k < 4; k++)
            computed += make(&run, ROWLOCK_COMPUTE, k, 0, made) == ROWLOCK_DONE;
        for (size_t k = 0; k < 4 * FOUR_ITERATIONS; k++)
            delivered += make(&run, ROWLOCK_DELIVER, k / 4, k % 4, made) == ROWLOCK_DONE;
    } while (before < computed + delivered);
    CHECK(computed == FOUR_ITERATIONS && delivered == four_counts[4]);
    CHECK(memcmp(run.values, four_values, sizeof four_values) == 0);
    give_back();
}

int main(void) {
    for (round_at_start = 0; round_at_start < 2; round_at_start++) {
        for (size_t k = 0; k < sizeof damages / sizeof damages[0]; k++)
            try_nest(&damages[k]);
        try_bounds();
        for (size_t length = 0; length < sizeof text; length++)
            try_read(length);
        give_back();
        try_form(text, &whole, text);
        try_form(equal_text, &whole, text);
        try_form(different_text, &different, different_text);
        try_different_values();
        for (size_t room = 0; room < sizeof listing + 3; room++)
            try_list(sizeof text - 1, room);
        try_list(0, 0);
        try_list(sizeof text - 2, sizeof listing);
        try_run();
        give_back();
        try_four_loops();
        try_four_run();
    }
    return failures != 0;
}
