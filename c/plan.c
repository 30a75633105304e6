/* Reads the text of a loop nest from standard input, plans it, and runs the plan move by move.
 * Prints each iteration's step, block and processor, and what the run did.
 *
 *     cc -std=c99 -Ic c/plan.c target/staticlib/librowlock.a -o target/plan_in_c */
#include <stdio.h>
#include <string.h>

#include "rowlock.h"

#define MAX ROWLOCK_MAX_ITERATIONS

static struct rowlock_nest nest;
static uint32_t steps[MAX];
static uint16_t blocks[MAX], values[MAX];
static uint8_t processors[MAX];

/* a fresh state: nothing done, nothing delivered */
static uint16_t computed[MAX];
static uint8_t done[MAX], delivered[MAX];

/* Asks for one move; says whether it was allowed. */
static int allowed(size_t kind, size_t first, size_t second) {
    size_t made[2];
    return rowlock_move(&nest, kind, first, second, steps, MAX, processors, MAX, computed, MAX,
                        done, MAX, delivered, MAX, made) == ROWLOCK_DONE;
}

/* Asks every processor for a compute; answers how many were allowed. */
static size_t compute_round(void) {
    size_t count = 0;
    for (size_t p = 0; p < (size_t)1 << nest.cube; p++)
        count += allowed(ROWLOCK_COMPUTE, p, 0);
    return count;
}

/* Asks for every message; answers how many were delivered. */
static size_t delivery_round(size_t iterations) {
    size_t count = 0;
    for (size_t k = 0; k < iterations * (size_t)nest.count; k++)
        count += allowed(ROWLOCK_DELIVER, k / (size_t)nest.count, k % (size_t)nest.count);
    return count;
}

/* Makes moves for as long as any is allowed. */
static void run(size_t iterations) {
    size_t computes = 0, deliveries = 0, before;
    do {
        before = computes + deliveries;
        computes += compute_round();
        deliveries += delivery_round(iterations);
    } while (before < computes + deliveries);
    int same = memcmp(computed, values, iterations * sizeof values[0]) == 0;
    printf("%zu computed, %zu delivered: %s\n", computes, deliveries,
           same ? "the table of the sequential loop" : "another table");
}

int main(void) {
    static uint8_t text[ROWLOCK_MAX_TEXT + 1]; /* one byte more, to see a text that is too long */
    size_t length = fread(text, 1, sizeof text, stdin), counts[5];
    uint8_t refusal = rowlock_read(text, length, &nest);
    if (refusal == ROWLOCK_DONE)
        refusal =
            rowlock_plan(&nest, steps, MAX, blocks, MAX, processors, MAX, values, MAX, counts);
    if (refusal != ROWLOCK_DONE) {
        printf("refused: %d\n", refusal);
        return 1;
    }
    printf("%zu iterations, %zu steps, %zu blocks, %zu processors, %zu messages\n", counts[0],
           counts[1], counts[2], counts[3], counts[4]);
    for (size_t k = 0; k < counts[0]; k++)
        printf("iteration %zu: step %u, block %u, processor %u\n", k, (unsigned)steps[k],
               (unsigned)blocks[k], (unsigned)processors[k]);
    run(counts[0]);
    return 0;
}
