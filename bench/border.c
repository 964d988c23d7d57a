/*
 * What crossing the border costs a host in C: 1,000,000 steps by as many calls of ens2025_step, and by one of ens2025_run, in turn,
 * five times each. Prints the medians in nanoseconds of processor time a step, and their ratio. `bench/border` builds and runs it.
 *
 * Arguments: address and value of each cell of a rule that does not stop, reads nothing and writes nothing. M is 1024.
 */
#include "ens2025.h"

#include <stdio.h>
#include <stdlib.h>
#include <string.h>
#include <time.h>

enum { CELLS = 1024, TIMES = 5 };

static uint16_t image[CELLS], memory[CELLS];
static uint8_t none[1]; /* of length 0, but not null */

static uint8_t by_steps(struct ens2025_registers *g)
{
    uint8_t stop = ENS2025_STOP_NONE;
    uint32_t n;

    for (n = 0; n < ENS2025_MOST_STEPS && stop == ENS2025_STOP_NONE; n++)
        stop = ens2025_step(g, memory, CELLS, none, 0, none, 0);
    return stop == ENS2025_STOP_NONE ? ENS2025_STOP_BUDGET_SPENT : stop;
}

static uint8_t by_run(struct ens2025_registers *g)
{
    uint32_t count;

    return ens2025_run(g, memory, CELLS, none, 0, none, 0, ENS2025_MOST_STEPS, &count);
}

/* The nanoseconds a step of a new machine, and where it ended. */
static double timed(uint8_t (*way)(struct ens2025_registers *), struct ens2025_registers *g)
{
    clock_t start;
    uint8_t stop;

    memset(g, 0, sizeof *g);
    memcpy(memory, image, sizeof memory);
    start = clock();
    stop = way(g);
    if (stop != ENS2025_STOP_BUDGET_SPENT) {
        fprintf(stderr, "border: the rule stops with %u before its %u steps\n", stop, ENS2025_MOST_STEPS);
        exit(1);
    }
    return (double)(clock() - start) * 1e9 / CLOCKS_PER_SEC / ENS2025_MOST_STEPS;
}

static int ordered(const void *x, const void *y)
{
    return (*(const double *)x > *(const double *)y) - (*(const double *)x < *(const double *)y);
}

int main(int argc, char **argv)
{
    double steps[TIMES], runs[TIMES];
    struct ens2025_registers g, h;
    int i;

    for (i = 1; i + 1 < argc; i += 2)
        image[strtoul(argv[i], NULL, 10) % CELLS] = (uint16_t)strtoul(argv[i + 1], NULL, 10);
    for (i = 0; i < TIMES; i++) {
        steps[i] = timed(by_steps, &g);
        runs[i] = timed(by_run, &h);
        if (memcmp(g.r, h.r, sizeof g.r) != 0) {
            fprintf(stderr, "border: single steps and a run do not leave the same registers\n");
            return 1;
        }
    }
    qsort(steps, TIMES, sizeof *steps, ordered);
    qsort(runs, TIMES, sizeof *runs, ordered);
    printf("by steps %.1f ns (%.1f to %.1f), by a run %.1f ns (%.1f to %.1f), ratio %.2f\n", steps[TIMES / 2], steps[0],
           steps[TIMES - 1], runs[TIMES / 2], runs[0], runs[TIMES - 1], steps[TIMES / 2] / runs[TIMES / 2]);
    return 0;
}
