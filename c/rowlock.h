/* The verified loop planner for callers in C and C++: the functions of
 * target/staticlib/librowlock.a, which `tools/archive` proves and writes.
 *
 * Each function takes any numbers and any lengths, and returns ROWLOCK_DONE or the number of one
 * refusal. A refused call changes no lent table, state or text buffer. What a function answers
 * beside its number (`iterations`, `most`, `nest` of rowlock_read, `length`, `span`, `counts`,
 * `made`) is always stored, zeros where the call is refused.
 *
 * What a caller has to keep, and all of it:
 * - No pointer is null, not even where its length is 0, and each is aligned as its type asks.
 * - A pointer with a length is to that many entries (not bytes); any other is to one entry, or to
 *   as many as stand in brackets. All may be read, and written where not const.
 * - Nothing that a function may write overlaps with anything else that it is given, and no other
 *   thread touches what is lent before it returns.
 *
 * The library is for x86-64: int64_t and size_t have 64 bits. It keeps nothing between calls and
 * takes no memory but the stack, less than half a megabyte. */
#ifndef ROWLOCK_H
#define ROWLOCK_H

#include <stddef.h>
#include <stdint.h>

#ifdef __cplusplus
extern "C" {
#endif

#define ROWLOCK_MAX_DEPTH 4
#define ROWLOCK_MAX_DEPENDENCES 8
#define ROWLOCK_MAX_ITERATIONS 4096
/* the bytes of the longest text of a nest, and of the longest listing: enough for every
 * rowlock_write and rowlock_list */
#define ROWLOCK_MAX_TEXT 393
#define ROWLOCK_MAX_LISTING 127007

/* A loop nest: 63 numbers, any of which may be anything. Of each array the first `depth` or `count`
 * places are a part of the nest; the others are ignored. */
struct rowlock_nest {
    /* number of loops, 1 to 4 */
    int64_t depth;
    /* number of dependences, 1 to 8 */
    int64_t count;
    /* dimension of the hypercube, 0 to 6; it has 2^cube processors */
    int64_t cube;
    /* limits, outermost loop first, -1000 to 1000 */
    int64_t lower[ROWLOCK_MAX_DEPTH];
    int64_t upper[ROWLOCK_MAX_DEPTH];
    /* time vector, -16 to 16 */
    int64_t time[ROWLOCK_MAX_DEPTH];
    /* component k of dependence i at place i * ROWLOCK_MAX_DEPTH + k, -16 to 16 */
    int64_t dependences[ROWLOCK_MAX_DEPTH * ROWLOCK_MAX_DEPENDENCES];
    /* what a source outside the nest reads as, by the dependence it was reached by, 0 to 65535 */
    int64_t boundaries[ROWLOCK_MAX_DEPENDENCES];
    /* one for each dependence, 0 to 255 */
    int64_t weights[ROWLOCK_MAX_DEPENDENCES];
};

/* does not compile where the struct has padding */
typedef char
    rowlock_nest_is_63_numbers[sizeof(struct rowlock_nest) == 63 * sizeof(int64_t) ? 1 : -1];

/* what a function returns; README.md says when each refusal is met */
enum rowlock_refusal {
    ROWLOCK_DONE = 0,
    ROWLOCK_MALFORMED_TEXT = 1,
    ROWLOCK_BAD_DEPTH = 2,
    ROWLOCK_BAD_COUNT = 3,
    ROWLOCK_BAD_CUBE = 4,
    ROWLOCK_BAD_LIMITS = 5,
    ROWLOCK_TOO_MANY_POINTS = 6,
    ROWLOCK_BAD_TIME = 7,
    ROWLOCK_BAD_DEPENDENCE = 8,
    ROWLOCK_BACKWARD_DEPENDENCE = 9,
    ROWLOCK_EQUAL_DEPENDENCES = 10,
    ROWLOCK_AGAINST_TIME = 11,
    /* 12 is not used */
    ROWLOCK_BAD_WEIGHT = 13,
    ROWLOCK_SHORT_BUFFER = 14,
    ROWLOCK_WAITING = 15,
    ROWLOCK_OUT_OF_TURN = 16,
    ROWLOCK_IDLE_PROCESSOR = 17,
    ROWLOCK_NO_SUCH_PLACE = 18,
    ROWLOCK_NO_SUCH_ROW = 19
};

/* the kinds of a move */
enum rowlock_kind { ROWLOCK_COMPUTE = 1, ROWLOCK_DELIVER = 2 };

/* Whether a nest is accepted. Refusals 2 to 13. */
uint8_t rowlock_check(const struct rowlock_nest *nest);

/* The same, with the number of iterations. */
uint8_t rowlock_inspect(const struct rowlock_nest *nest, size_t *iterations);

/* How many other blocks a block of the nest's plan sends to at most: twice the number of
 * dependences less the number of chosen vectors, grouping and auxiliary. A block sends to another
 * if a dependence leads from an iteration of one to an iteration of the other. It is for sizing a
 * processor's list of addresses before the nest is planned: so many for each block that the
 * processor holds. Refusals 2 to 13. */
uint8_t rowlock_most_receivers(const struct rowlock_nest *nest, size_t *most);

/* A nest from its text; unused places are 0. Refusals 1 to 13. */
uint8_t rowlock_read(const uint8_t *text, size_t text_length, struct rowlock_nest *nest);

/* The text of a nest, from the buffer's first byte on, and its length; the bytes behind it stay.
 * Refusals 2 to 14. */
uint8_t rowlock_write(const struct rowlock_nest *nest, uint8_t *buffer, size_t buffer_length,
                      size_t *length);

/* Where the row of an outermost index lies in a table of so many entries: span[0] is its first
 * entry, span[1] how many it has. Refusals 2 to 14, then 19. */
uint8_t rowlock_locate(const struct rowlock_nest *nest, size_t entries, int64_t index,
                       size_t span[2]);

/* The values of the sequential loop, in loop order; the entries behind the last iteration stay.
 * Refusals 2 to 14. */
uint8_t rowlock_fill(const struct rowlock_nest *nest, uint16_t *values, size_t values_length);

/* The plan of a nest: the step, block, processor and value of each iteration, in loop order; the
 * entries behind the last iteration stay. A step is the number of distinct smaller values that the
 * inner product of time vector and index point takes among the iterations, so each step has one.
 * The counts are those of iterations, steps, blocks, processors that hold an iteration, and
 * messages. Refusals 2 to 14. */
uint8_t rowlock_plan(const struct rowlock_nest *nest, uint32_t *steps, size_t steps_length,
                     uint16_t *blocks, size_t blocks_length, uint8_t *processors,
                     size_t processors_length, uint16_t *values, size_t values_length,
                     size_t counts[5]);

/* The listing of the plan of a text's nest, from the buffer's first byte on, and its length; the
 * bytes behind it stay. Refusals 1 to 14. */
uint8_t rowlock_list(const uint8_t *text, size_t text_length, uint8_t *buffer, size_t buffer_length,
                     size_t *length);

/* Makes one move on the step and processor tables of a plan and on a state, all of any content.
 * ROWLOCK_COMPUTE is a compute on processor `first`, and `second` is ignored; ROWLOCK_DELIVER is
 * the delivery of the message for rank `first` along dependence number `second`; any other kind is
 * refused with 18. made[0] and made[1] are the rank and the value of the iteration computed, or the
 * rank and the dependence number of the message delivered. A fresh state has 0 in every byte of
 * `done` and `delivered`. Refusals 2 to 14, then 18, 17, 15 or 16. */
uint8_t rowlock_move(const struct rowlock_nest *nest, size_t kind, size_t first, size_t second,
                     const uint32_t *steps, size_t steps_length, const uint8_t *processors,
                     size_t processors_length, uint16_t *values, size_t values_length,
                     uint8_t *done, size_t done_length, uint8_t *delivered, size_t delivered_length,
                     size_t made[2]);

#ifdef __cplusplus
}
#endif

#endif
