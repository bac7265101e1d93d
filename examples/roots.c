/* Asks the port for roots, powers and batches. Run by examples/run. */
#include "igholmaz.h"
#include <inttypes.h>
#include <stdio.h>
#include <string.h>

/* Words of floats and floats of words. */
static uint32_t word_f(float x) { uint32_t w; memcpy(&w, &x, sizeof w); return w; }
static float float_f(uint32_t w) { float x; memcpy(&x, &w, sizeof x); return x; }
static uint64_t word_d(double x) { uint64_t w; memcpy(&w, &x, sizeof w); return w; }
static double float_d(uint64_t w) { double x; memcpy(&x, &w, sizeof x); return x; }

static const char *meaning(uint32_t number) {
    switch (number) {
    case IGHOLMAZ_LENGTHS_DIFFER: return "operand and result slices must all have one length";
    case IGHOLMAZ_TOO_LONG: return "a batch has at most 4096 elements";
    case IGHOLMAZ_NOT_POSITIVE: return "the operand of a partial root must be positive and finite";
    case IGHOLMAZ_TOO_MANY_ROUNDS: return "a partial root has at most 25 (f32) or 54 (f64) rounds";
    default: return "not refused";
    }
}

int main(void) {
    printf("sqrtf(2) = %.7f\n", (double)float_f((uint32_t)igholmaz_sqrtf(word_f(2)).word));
    printf("powd(10, -3) = %.20f\n", float_d(igholmaz_powd(word_d(10), word_d(-3))));

    printf("the root of the least f32 is 0x%08" PRIx64 "\n", igholmaz_sqrtf(1).word);
    printf("1.5 times 2^-150 is 0x%08" PRIx64 "\n", igholmaz_scalbnf(word_f(1.5f), -150).word);

    /* The root of 2, digit by digit. */
    static const uint32_t rounds[] = {1, 3, 6, IGHOLMAZ_ROUNDS_MOST_F + 1};
    for (size_t i = 0; i < sizeof rounds / sizeof *rounds; i++) {
        igholmaz_partial partial = igholmaz_partial_sqrtf(word_f(2), rounds[i]);
        if (partial.number == IGHOLMAZ_DONE)
            printf("after %" PRIu32 " rounds the digits are %" PRIu64 ", left over is %" PRIu64 "\n",
                   partial.rounds, partial.digits, partial.left);
        else
            printf("%" PRIu32 " rounds are refused with %" PRIu32 ": %s\n", rounds[i], partial.number,
                   meaning(partial.number));
    }

    /* Which powers a rule settles. */
    static const float pairs[][2] = {{-2, 0.5f}, {-2, 3}};
    for (size_t i = 0; i < sizeof pairs / sizeof *pairs; i++) {
        igholmaz_sorted sorted = igholmaz_sort_powf(word_f(pairs[i][0]), word_f(pairs[i][1]));
        printf("%g to the %g is ", (double)pairs[i][0], (double)pairs[i][1]);
        if (sorted.open)
            printf("open, negative: %s\n", sorted.negative ? "true" : "false");
        else
            printf("settled: 0x%08" PRIx64 "\n", sorted.word);
    }

    /* A batch, and one that is refused. */
    uint64_t xs[4] = {word_d(1), word_d(4), word_d(9), word_d(16)}, out[4];
    igholmaz_batch batch = igholmaz_sqrtd_batch(xs, 4, out, 4);
    printf("%zu roots: [%.1f, %.1f, %.1f, %.1f]\n", batch.count, float_d(out[0]), float_d(out[1]), float_d(out[2]),
           float_d(out[3]));
    batch = igholmaz_sqrtd_batch(xs, 3, out, 4);
    printf("3 operands for 4 results are refused with %" PRIu32 ": %s\n", batch.number, meaning(batch.number));
    return 0;
}
