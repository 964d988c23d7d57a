/*
 * A host in C for the ENS2025 machine: it loads the printed image of a rule, lets the rule take standard input, and prints
 * what the rule writes, the stop, and how many steps it took.
 *
 *     rt staticlib host
 *     cc -std=c99 -Iinclude examples/host.c crates/host/out/libhost.a -o target/host
 *     target/host examples/pump.image < levels
 *
 * `examples/host` does all of it. Exit status: 0; 1 where a call does not do what ens2025.h says; 2 without an image, where the input
 * cannot be read or is longer than 65,536 bytes, or where the output cannot be written.
 */
#include "ens2025.h"

#include <stdio.h>
#include <string.h>

/* What a host lends. The output is so small here that it has to be emptied on the way. */
struct machine {
    struct ens2025_registers g;
    uint16_t memory[ENS2025_MOST_CELLS];
    size_t cells;
    const uint8_t *input;
    size_t input_len;
    uint8_t output[16];
};

static uint8_t step(struct machine *x)
{
    return ens2025_step(&x->g, x->memory, x->cells, x->input, x->input_len, x->output, sizeof x->output);
}

static uint8_t run(struct machine *x, uint32_t budget, uint32_t *count)
{
    return ens2025_run(&x->g, x->memory, x->cells, x->input, x->input_len, x->output, sizeof x->output, budget, count);
}

/* Field by field: what lies between the fields of the record means nothing. */
static int same(const struct machine *x, const struct machine *y)
{
    return memcmp(x->g.r, y->g.r, sizeof x->g.r) == 0 && x->g.stop == y->g.stop && x->g.taken == y->g.taken &&
           x->g.written == y->g.written && memcmp(x->memory, y->memory, sizeof x->memory) == 0 &&
           memcmp(x->output, y->output, sizeof x->output) == 0;
}

/* Reads an image: `size=M`, and `cell=ADDRESS,KIND,VALUE` for each claimed cell. All else of a new machine is zero. */
static int load(struct machine *x, const char *name)
{
    FILE *file = fopen(name, "r");
    char line[80];
    unsigned long address, value;

    memset(x, 0, sizeof *x);
    while (file && fgets(line, sizeof line, file)) {
        if (sscanf(line, "size=%lu", &value) == 1 && value <= ENS2025_MOST_CELLS)
            x->cells = value;
        else if (sscanf(line, "cell=%lu,%*[a-z],%lu", &address, &value) == 2 && address < x->cells)
            x->memory[address] = (uint16_t)value;
    }
    if (file)
        fclose(file);
    return x->cells > 0;
}

/* Whether all that was printed has been taken. An error stays with the stream. */
static int printed(void)
{
    return fflush(stdout) == 0 && !ferror(stdout);
}

/* Prints what the rule has written, and empties the output. */
static int print_output(struct machine *x)
{
    fwrite(x->output, 1, x->g.written, stdout);
    x->g.written = 0;
    return printed();
}

int main(int argc, char **argv)
{
    static uint8_t input[65536];
    static struct machine x, other;
    unsigned long steps;
    uint32_t count;
    uint8_t stop;
    int i;

    if (argc != 2 || !load(&x, argv[1])) {
        fprintf(stderr, "usage: host IMAGE < INPUT      IMAGE: what `assemble` prints\n");
        return 2;
    }
    x.input = input;
    x.input_len = fread(input, 1, sizeof input, stdin);
    if (getchar() != EOF || ferror(stdin)) {
        fprintf(stderr, "host: an input that cannot be read, or of more than %lu bytes\n", (unsigned long)sizeof input);
        return 2;
    }

    /* Three single steps of one machine, as a debugger takes them, and a run of three of the other leave the same. */
    other = x;
    for (i = 1; i <= 3; i++) {
        stop = step(&other);
        printf("step %d: stop %u, PC %u\n", i, stop, other.g.r[ENS2025_PC]);
    }
    stop = run(&x, 3, &count);
    steps = count;
    if (!same(&x, &other))
        goto wrong;

    /* On by runs of 20 steps, in firmware of up to 1,000,000: after 7 again, after 9 with an empty output. */
    while (stop == ENS2025_STOP_BUDGET_SPENT || (stop == ENS2025_STOP_OUTPUT_ROOM && x.g.written > 0)) {
        if (stop == ENS2025_STOP_OUTPUT_ROOM && !print_output(&x))
            goto full;
        stop = run(&x, 20, &count);
        steps += count;
    }
    if (!print_output(&x))
        goto full;
    printf("stop %u after %lu steps, %lu bytes taken\n", stop, steps, (unsigned long)x.g.taken);
    if (!printed())
        goto full;

    /* The machine repeats its stop; too large a budget and a memory of no cell are bad loans. Nothing changes. */
    other = x;
    if (run(&x, 20, &count) != stop || count != 0)
        goto wrong;
    if (run(&x, ENS2025_MOST_STEPS + 1, &count) != ENS2025_STOP_BAD_LOAN || count != 0)
        goto wrong;
    x.cells = 0;
    if (step(&x) != ENS2025_STOP_BAD_LOAN || !same(&x, &other))
        goto wrong;
    return 0;

wrong:
    fprintf(stderr, "host: a call does not do what ens2025.h says\n");
    return 1;
full:
    fprintf(stderr, "host: the output cannot be written\n");
    return 2;
}
