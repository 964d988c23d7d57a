/*
 * ens2025.h - the ENS2025 machine for a host in C: one step, and a run of so many steps.
 *
 * The functions are `ens2025_step` and `ens2025_run` of crate `host`, proved in Rattle: what they leave and return is
 * what crates/machine/specs/Steps.antt and Runs.antt define, for any registers, any budget and any lengths and contents
 * of memory, input and output. What is promised is restated in crates/host/proofs/Top.antt. No C is part of it.
 *
 * To link, on x86-64 Linux:
 *
 *     (cd crates/host && rt lib)                          writes crates/host/out/libhost.a
 *     cc -Iinclude your.c crates/host/out/libhost.a       it needs only memcpy of the C library
 *
 * The archive is for x86-64.
 *
 * examples/host.c is a whole program; examples/host builds and runs it.
 */
#ifndef ENS2025_INCLUDED
#define ENS2025_INCLUDED

#include <stddef.h>
#include <stdint.h>

#ifdef __cplusplus
extern "C" {
#endif

/* The registers by the paper's codes: indices of `r`. */
enum {
    ENS2025_R0 = 0,
    ENS2025_R1 = 1,
    ENS2025_R2 = 2,
    ENS2025_R3 = 3,
    ENS2025_R4 = 4,
    ENS2025_R5 = 5,
    ENS2025_R6 = 6,
    ENS2025_R7 = 7,
    ENS2025_R8 = 8,
    ENS2025_R9 = 9,
    ENS2025_A = 10,  /* accumulator */
    ENS2025_SR = 11, /* flags, below */
    ENS2025_IX = 12, /* index X */
    ENS2025_IY = 13, /* index Y */
    ENS2025_SP = 14, /* stack pointer */
    ENS2025_PC = 15  /* address of the next instruction */
};

/* The flags of SR, bits 0 to 5. An SR above 63 is a bad loan. */
enum {
    ENS2025_FLAG_Z = 1,  /* result zero */
    ENS2025_FLAG_C = 2,  /* carry, borrow */
    ENS2025_FLAG_V = 4,  /* overflow */
    ENS2025_FLAG_P = 8,  /* parity: odd ones */
    ENS2025_FLAG_S = 16, /* sign */
    ENS2025_FLAG_H = 32  /* HALT was met */
};

/* The stops. 1 to 6 are kept as the machine's stop code; 7 to 10 are only returned, and the stop code stays as it was. */
enum {
    ENS2025_STOP_NONE = 0,          /* of a step only: it completed, the machine runs on */
    ENS2025_STOP_HALT = 1,          /* HALT completed */
    ENS2025_STOP_OPCODE = 2,        /* no opcode has this first word */
    ENS2025_STOP_MODE = 3,          /* the opcode does not allow these modes */
    ENS2025_STOP_REGISTER_CODE = 4, /* no register has this code */
    ENS2025_STOP_MEMORY_END = 5,    /* an address at or past the memory's end */
    ENS2025_STOP_ZERO_DIVISOR = 6,  /* DIV or MOD by 0 */
    ENS2025_STOP_BUDGET_SPENT = 7,  /* of a run only: the machine runs on; run again */
    ENS2025_STOP_INPUT_END = 8,     /* the instruction at PC wants more input than is left: lend more, and go on */
    ENS2025_STOP_OUTPUT_ROOM = 9,   /* the instruction at PC wants more room than is left: lend more, and go on */
    ENS2025_STOP_BAD_LOAN = 10      /* what was lent is no machine, or the budget is too large; nothing of it changed */
};

/* The limits. */
#define ENS2025_MOST_CELLS 65536u    /* of memory */
#define ENS2025_MOST_STEPS 1000000u  /* of one run */

/*
 * The machine's record. A new machine is all zero. 56 bytes on x86-64: r at 0, stop at 32, taken at 40, written at
 * 48. What lies between the fields means nothing, before a call and after it.
 */
struct ens2025_registers {
    uint16_t r[16];  /* the 16 registers, by the codes above */
    uint8_t stop;    /* stop code: 0 while the machine runs, else why it stopped; above 6 is a bad loan */
    size_t taken;    /* how many bytes of the input were taken; past its length is a bad loan */
    size_t written;  /* how many bytes were written to the output; past its length is a bad loan */
};

/*
 * What both functions are lent. Each row is lent as two parameters, its first element and how many elements it has.
 *
 *   g                  the registers: changed where they lie
 *   memory, cells      the memory, M = cells of 16 bits, 1 to 65,536 (any other M is 10): memory[0] to memory[M - 1] are
 *                      read, and changed where they lie
 *   input, input_len   all of the input, the bytes that were taken too: read from input[g->taken] on, never changed. Any
 *                      length, 0 too; where no byte is left, an instruction that reads gives 8
 *   output, output_len all of the output, the bytes that were written too: written from output[g->written] on; those
 *                      before, and those past what is written, stay as they are. Any length, 0 too; where the room left
 *                      is shorter than the text, an instruction that writes gives 9
 *
 * A loan is bad where cells is 0 or above 65,536, g->taken > input_len, g->written > output_len,
 * g->r[ENS2025_SR] > 63, or g->stop > 6. A good loan is left good: the next call may lend the same, or rows that grew
 * (memory up to 65,536 cells).
 *
 * The host owns all that it lends, before, during and after a call: nothing is kept, allocated or freed, and no other
 * state exists. So any number of machines may be stepped and run, each by one thread at a time. Between calls the host
 * may change all of it. To empty the output: take its first g->written bytes, and set g->written to 0. To use the input's
 * place again: move the bytes from input[g->taken] on to the front, add the new ones, and set g->taken to 0.
 *
 * What C cannot check and the host owes, as for any C function: no pointer is null or misaligned, also where a
 * length is 0 (lend the address of any object of the type); each row has at least as many elements as its length
 * says; g, memory, output and count overlap neither each other nor the input; and during the call nobody else reads
 * or changes these, or changes the input.
 */

/*
 * One step. Returns the stop. Any lengths and any contents get a reply:
 *   - 10, where the loan is bad. Nothing changes, g->stop neither.
 *   - g->stop, where the machine has stopped already (g->stop is not 0). Nothing changes.
 *   - 0, 1 or 5 for a step that completed: its stop is g->stop too. (5: the next address is at or past M.)
 *   - 2, 3, 4, 5, 6, 8 or 9 for a step that was refused. Nothing changes, but that 2 to 6 are kept as g->stop.
 *   7 is never returned.
 */
uint8_t ens2025_step(struct ens2025_registers *g,
                     uint16_t *memory, size_t cells,
                     const uint8_t *input, size_t input_len,
                     uint8_t *output, size_t output_len);

/*
 * A run: at most `budget` steps, until one does not complete or gives a stop. One call for all of them.
 *
 *   budget             how many steps at most, 0 to 1,000,000; a larger one is 10
 *   count              one uint32_t: how many steps completed is written there, always; what it held is not read
 *
 * Returns the stop. Any budget, any lengths and any contents get a reply:
 *   - 10 and count 0, where the budget is above 1,000,000 or the loan is bad. Nothing else changes.
 *   - g->stop and count 0, where the machine has stopped already, with a budget of 0 too. Nothing else changes.
 *   - 1 or 5, where the last step counted gave it, and 2, 3, 4, 5 or 6, where the step after those counted was refused:
 *     it is g->stop too, and the machine has stopped.
 *   - 7, where the whole budget was spent and the machine runs on: count is the budget.
 *   - 8 or 9, where the step after those counted wants input or room.
 *   0 is never returned.
 *
 * 7, 8 and 9 can be resumed: g->stop is 0, PC stands at the instruction that is next, and of that nothing has been done
 * yet. After 7 call again. After 8 lend a longer input, after 9 a longer output (or move or empty them, above): lent the
 * same, a run with a step left repeats 8 or 9 with count 0. Two runs, of a and then of b steps, do what one of a + b does,
 * and their counts add up to its count, where b is at least 1, a + b at most 1,000,000, and the second is lent the same
 * input and what the first left. (Without a step, b = 0, the second returns 7 where the first returned 8 or 9.)
 *
 * Lend whole lines: ININT and INSTR take what is left up to its LF, or all of it where there is none, so that the rest of
 * a line that comes later is a line of its own. 8 is returned only where no byte is left. What WRINT or WRSTR writes is
 * written whole or not at all: 9 on an output that is empty says that it is too short for that text.
 */
uint8_t ens2025_run(struct ens2025_registers *g,
                    uint16_t *memory, size_t cells,
                    const uint8_t *input, size_t input_len,
                    uint8_t *output, size_t output_len,
                    uint32_t budget, uint32_t *count);

#ifdef __cplusplus
}
#endif

#endif
