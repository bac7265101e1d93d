/* igholmaz: roots, scaling and powers of f32 and f64, and the check of lists of roots, with proved bits.
 *
 * Every operand and result is an IEEE 754 bit pattern ("word"): uint32_t for f32, uint64_t for f64. Names end
 * in f or d as those of libm.rs do. Where a result is NaN it is IGHOLMAZ_NAN_F or IGHOLMAZ_NAN_D; only fabs
 * keeps the NaN that it was given. No call allocates, keeps state or stops the program.
 *
 * A slice is a pointer to its first element and its length in elements. With length 0 nothing is read or written
 * through the pointer. A result slice must not share memory with an operand slice.
 */
#ifndef IGHOLMAZ_H
#define IGHOLMAZ_H

#include <stddef.h>
#include <stdint.h>
#ifndef __cplusplus
#include <stdbool.h>
#else
extern "C" {
#endif

#define IGHOLMAZ_NAN_F UINT32_C(0x7fc00000)
#define IGHOLMAZ_NAN_D UINT64_C(0x7ff8000000000000)

/* Refusals: the number of an answer. */
#define IGHOLMAZ_DONE UINT32_C(0)            /* no refusal */
#define IGHOLMAZ_LENGTHS_DIFFER UINT32_C(1)  /* operand and result slices are not all of one length */
#define IGHOLMAZ_TOO_LONG UINT32_C(2)        /* lengths agree and exceed IGHOLMAZ_BATCH_MOST */
#define IGHOLMAZ_NOT_POSITIVE UINT32_C(3)    /* partial root of a zero, negative, infinite or NaN operand */
#define IGHOLMAZ_TOO_MANY_ROUNDS UINT32_C(4) /* operand fit, but more than IGHOLMAZ_ROUNDS_MOST_F or _D asked */

/* Limits. */
#define IGHOLMAZ_BATCH_MOST 4096  /* elements of a batch */
#define IGHOLMAZ_ROUNDS_MOST_F 25 /* rounds of a partial root of an f32 */
#define IGHOLMAZ_ROUNDS_MOST_D 54 /* rounds of a partial root of an f64 */
#define IGHOLMAZ_LINE_KEPT 37     /* bytes of a line that are kept: one more than the longest well-formed line has */

/* Of roots and scaling: number is 0; an f32 word stands in the low half of word. */
typedef struct {
    uint32_t number;
    uint64_t word;
} igholmaz_answer;

/* Of partial roots. Refused with 3 or 4: digits, left and rounds are 0. */
typedef struct {
    uint32_t number;
    uint64_t digits;
    uint64_t left;
    uint32_t rounds;
} igholmaz_partial;

/* Of the sorting of power operands: number is 0. Settled: open is false and word is the power's word. Open:
 * open is true, negative says whether the power's sign is set, and word is 0. */
typedef struct {
    uint32_t number;
    bool open;
    bool negative;
    uint64_t word;
} igholmaz_sorted;

/* Of batches: count is the number of results written. Refused with 1 or 2: count is 0, results untouched. */
typedef struct {
    uint32_t number;
    size_t count;
} igholmaz_batch;

/* A line of a list, without its newline: the first held bytes count. In what a call returns zeros follow them, as far
 * as there is room. Compare fields and not memory: padding is not set. */
typedef struct {
    uint8_t bytes[IGHOLMAZ_LINE_KEPT];
    size_t held;
} igholmaz_line;

/* Of lists: how many lines were read, how many of them agree and how many are malformed; number is that of the
 * first line that disagrees, counted from 1 over all lines, and first is that line, of at most 36 bytes. None
 * disagrees: number is 0 and first is empty. Each of the four stops at 2^64 - 1, so all lines agree where
 * lines > 0 && malformed == 0 && number == 0; agree == lines does not say it. */
typedef struct {
    uint64_t lines;
    uint64_t agree;
    uint64_t malformed;
    uint64_t number;
    igholmaz_line first;
} igholmaz_tally;

/* The reader's state between two pieces: the tally of the lines that ended, and the line that did not, of which at
 * most IGHOLMAZ_LINE_KEPT bytes are kept. */
typedef struct {
    igholmaz_tally tally;
    igholmaz_line line;
} igholmaz_testfloat;

/* x with its sign bit cleared and every other bit kept, in a NaN too. */
uint32_t igholmaz_fabsf(uint32_t x);
uint64_t igholmaz_fabsd(uint64_t x);

/* x times 2^n rounded once, ties to even, with the sign of x; zero and infinity are unchanged. */
igholmaz_answer igholmaz_scalbnf(uint32_t x, int32_t n);
igholmaz_answer igholmaz_scalbnd(uint64_t x, int32_t n);

/* The square root rounded once, ties to even. The root of a zero is that zero, of +infinity +infinity, of
 * a negative nonzero number NaN. It never falls when a nonnegative x grows; where x and 4^k * x are positive
 * normal numbers, the root of the second is 2^k times that of the first, bit for bit. */
igholmaz_answer igholmaz_sqrtf(uint32_t x);
igholmaz_answer igholmaz_sqrtd(uint64_t x);

/* The same roots by digit rounds alone, without the table: the same answer on every operand, and slower. */
igholmaz_answer igholmaz_sqrtf_digits(uint32_t x);
igholmaz_answer igholmaz_sqrtd_digits(uint64_t x);

/* The first binary digits of the root, one for each round, and what is left over. With p = 24 or 53,
 * x = M * 4^E, 1 <= M < 4, W = M * 2^(p-1) and k rounds: digits is the Q with
 * 2^(p+1) * Q^2 <= 4^k * W < 2^(p+1) * (Q+1)^2, left is 2^(k+1) * W - 2^(p+2-k) * Q^2, rounds is k.
 * Refused: 3 for an x that is not positive and finite, else 4 for more than p + 1 rounds. */
igholmaz_partial igholmaz_partial_sqrtf(uint32_t x, uint32_t rounds);
igholmaz_partial igholmaz_partial_sqrtd(uint64_t x, uint32_t rounds);

/* Whether x to the y is settled by rule (zeros, infinities, NaN, 1; y = 1, -1, 2, 0.5) or open. */
igholmaz_sorted igholmaz_sort_powf(uint32_t x, uint32_t y);
igholmaz_sorted igholmaz_sort_powd(uint64_t x, uint64_t y);

/* x to the y: the settled word, or for open operands the same operations in the same order as libm.rs. It is
 * NaN exactly where x or y is one, y is no zero and x is not 1, and where x is finite and below 0 and y finite
 * and not whole. The other sign of x changes the sign bit for odd y, and no bit for even y. */
uint32_t igholmaz_powf(uint32_t x, uint32_t y);
uint64_t igholmaz_powd(uint64_t x, uint64_t y);

/* Batches: out[i] is the word that the single call gives for xs[i], or for xs[i] with ns[i] or ys[i].
 * Refused: 1 when the lengths are not all equal, else 2 when they exceed IGHOLMAZ_BATCH_MOST. */
igholmaz_batch igholmaz_sqrtf_batch(const uint32_t *xs, size_t xs_len, uint32_t *out, size_t out_len);
igholmaz_batch igholmaz_sqrtd_batch(const uint64_t *xs, size_t xs_len, uint64_t *out, size_t out_len);
igholmaz_batch igholmaz_sqrtf_digits_batch(const uint32_t *xs, size_t xs_len, uint32_t *out, size_t out_len);
igholmaz_batch igholmaz_sqrtd_digits_batch(const uint64_t *xs, size_t xs_len, uint64_t *out, size_t out_len);
igholmaz_batch igholmaz_scalbnf_batch(const uint32_t *xs, size_t xs_len, const int32_t *ns, size_t ns_len,
                                      uint32_t *out, size_t out_len);
igholmaz_batch igholmaz_scalbnd_batch(const uint64_t *xs, size_t xs_len, const int32_t *ns, size_t ns_len,
                                      uint64_t *out, size_t out_len);
igholmaz_batch igholmaz_powf_batch(const uint32_t *xs, size_t xs_len, const uint32_t *ys, size_t ys_len,
                                   uint32_t *out, size_t out_len);
igholmaz_batch igholmaz_powd_batch(const uint64_t *xs, size_t xs_len, const uint64_t *ys, size_t ys_len,
                                   uint64_t *out, size_t out_len);

/* Reads a list of Berkeley TestFloat's f16_sqrt, f32_sqrt or f64_sqrt in pieces of any size: start gives the
 * state before the first piece, feed the state after one more, finish the tally of the whole list. Any cutting
 * of a list gives the same tally. The state is the caller's, to be copied, kept and fed on after finish; any state
 * is taken without a fault.
 *
 * A line ends at a newline; bytes after the last newline, if any, are a line too. A well-formed line is operand,
 * result and flags: W, W and 2 hexadecimal digits in either case, one blank between, where W is 4, 8 or 16 for
 * f16, f32 or f64; a list may mix them. Any other line is malformed: an empty one, say, or one that ends in a
 * carriage return. A well-formed line agrees when its result and flags are those of the operand's root, rounded to
 * nearest even as TestFloat does unless it is told otherwise, and disagrees if not. A NaN agrees with any NaN.
 * Flags are inexact 1, underflow 2, overflow 4, divide by zero 8, invalid 16. A root is invalid of a negative
 * nonzero number and of a signalling NaN, whose quiet bit is clear; it is inexact where it is rounded; it has no
 * other flag. */
igholmaz_testfloat igholmaz_testfloat_start(void);
igholmaz_testfloat igholmaz_testfloat_feed(igholmaz_testfloat state, const uint8_t *piece, size_t piece_len);
igholmaz_tally igholmaz_testfloat_finish(igholmaz_testfloat state);

#ifdef __cplusplus
}
#endif

#endif
