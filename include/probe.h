/* Boltamber's entry points as flat C functions, for tests: numbers and slices, and no struct.
 *
 *   scripts/staticlib probe       writes target/staticlib/libprobe.a, x86-64 code, with the functions below
 *
 * A slice is a pointer, aligned for its elements, and then its length in elements. What a call writes (out, ans, den)
 * overlaps no other slice of the same call. Every function answers any numbers, and ends.
 *
 * The answer goes into ans, 16 cells, and den, one cell. Where ans has fewer than 16 cells or den none, the call does
 * nothing at all, and out stays as it was too. Else every call, refused or not, writes all 16 cells and the density:
 *
 *    0  the refusal's number, 0 where there is none
 *    1  the operand that it names, 1 or 2, or 0 where it names none; 14 names its operand
 *    2  the count of the result's set rows
 *    3  the route of a composition or of a feed of the composer, also of the composition that probe_program tells; else 0
 *    4  the word of a deposit or a rank read, the position of a select
 *    5  done    \
 *    6  ranks    the state after a feed, of the composer or of recovery; where the feed is refused, the state as given
 *    7  kept    /
 *    8  and 9   0
 *   10  the first row outside self that 17 is about, counted in the piece for a feed; 0 in all other answers
 *   11  to 14   0
 *   15  a number: the runs that probe_to_runs wrote, the bytes that probe_program wrote
 *
 * and den's cell is the density. A cell of which a function does not speak is 0, and so are count, route, word, position
 * and density with a refusal. Cells of ans past the 16th, and of den past the first, stay as they were.
 *
 * An operand is eight parameters: its form (0 all, 1 none, 2 words, 3 list, 4 runs), its length in rows, the start bit and
 * the claimed count, which words alone use, the lent words, and the lent row numbers, which a list and runs use. A form that
 * is none of the five, in any operand of the call, also where the call ignores that operand, is told as 99 in cell 0 and 0
 * in every other cell, density 0.0, and out stays as it was.
 *
 * Runs are lent as numbers in pairs, first row, row past the last, first row, row past the last, and so on; a length is of
 * numbers, so twice the number of runs. An odd number of numbers is 14: the last run has no row past its last.
 */
#ifndef BOLTAMBER_PROBE_H
#define BOLTAMBER_PROBE_H

#include <stddef.h>
#include <stdint.h>

#ifdef __cplusplus
extern "C" {
#endif

#define PROBE_OPERAND(p) \
    uint64_t p##form, uint64_t p##length, uint64_t p##start, uint64_t p##claimed, \
    const uint64_t *p##words, size_t p##nwords, const uint32_t *p##rows, size_t p##nrows
#define PROBE_ANSWER uint64_t *ans, size_t nans, double *den, size_t nden

/* Bit k of the source at the k-th set bit of the mask; the claimed count is checked. Way 0 deposits by the choice with the
 * network, any other way by the loop form. */
void probe_deposit(uint64_t way, uint64_t source, uint64_t mask, uint64_t claimed, PROBE_ANSWER);

/* The position of the word's set bit that has the rank. */
void probe_select(uint64_t word, uint64_t rank, PROBE_ANSWER);

/* The 64 bits of the lent words from bit start + offset on, 0 past their end. */
void probe_rank_read(const uint64_t *words, size_t nwords, uint64_t start, uint64_t offset, PROBE_ANSWER);

/* Any form to words, and any form to a list of its set rows. */
void probe_to_words(PROBE_OPERAND(a), uint64_t *out, size_t nout, PROBE_ANSWER);
void probe_to_list(PROBE_OPERAND(a), uint32_t *out, size_t nout, PROBE_ANSWER);

/* Any form to the only runs that the mask has. nout is of numbers: 8 where it is less than twice the number of runs. Numbers
 * past the runs stay as they were. Cell 2 counts rows, cell 15 runs. */
void probe_to_runs(PROBE_OPERAND(a), uint32_t *out, size_t nout, PROBE_ANSWER);

/* Composition by rank: a is self, and b the rank mask. */
void probe_compose(PROBE_OPERAND(a), PROBE_OPERAND(b), uint64_t *out, size_t nout, PROBE_ANSWER);

/* Set operations: which is 0 and, 1 or, 2 and-not; any other number is not, of a alone. */
void probe_set(uint64_t which, PROBE_OPERAND(a), PROBE_OPERAND(b), uint64_t *out, size_t nout, PROBE_ANSWER);

/* One feed of a stream, from the state done, ranks, kept, which are all 0 for a stream that was fed nothing: a is a piece of
 * self, and b a piece of the rank mask. */
void probe_feed(uint64_t done, uint64_t ranks, uint64_t kept, PROBE_OPERAND(a), PROBE_OPERAND(b), uint64_t *out,
                size_t nout, PROBE_ANSWER);

/* Recovery: a is self, and b the mask of the rows that were kept. */
void probe_recover(PROBE_OPERAND(a), PROBE_OPERAND(b), uint64_t *out, size_t nout, PROBE_ANSWER);

/* One feed of a recovery stream, from the state done, ranks, kept: a and b are matching pieces. Bits are written from bit
 * ranks of out on. */
void probe_recover_feed(uint64_t done, uint64_t ranks, uint64_t kept, PROBE_OPERAND(a), PROBE_OPERAND(b), uint64_t *out,
                        size_t nout, PROBE_ANSWER);

/* The program's four lines into out, and the answer that they tell in the cells: 0, 7 or 13, with its count, route and
 * density. Where out is too short for the lines: 8 in cell 0, 0 in every other cell, and out stays as it was. */
void probe_program(const uint8_t *in, size_t nin, uint8_t *out, size_t nout, PROBE_ANSWER);

#undef PROBE_OPERAND
#undef PROBE_ANSWER

#ifdef __cplusplus
}
#endif

#endif
