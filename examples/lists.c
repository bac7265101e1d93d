/* Checks two lists as Berkeley TestFloat writes them, in pieces of 7 bytes. Run by examples/run. */
#include "igholmaz.h"
#include <inttypes.h>
#include <stdio.h>
#include <string.h>

#define PIECE 7

static void check(const char *list) {
    size_t left = strlen(list);
    igholmaz_testfloat state = igholmaz_testfloat_start();
    while (left > 0) {
        size_t piece_len = left < PIECE ? left : PIECE;
        state = igholmaz_testfloat_feed(state, (const uint8_t *)list, piece_len);
        list += piece_len;
        left -= piece_len;
    }
    igholmaz_tally tally = igholmaz_testfloat_finish(state);
    printf("%" PRIu64 " lines, %" PRIu64 " agree, %" PRIu64 " malformed\n", tally.lines, tally.agree, tally.malformed);
    if (tally.number != 0)
        printf("line %" PRIu64 " is the first that disagrees: %.*s\n", tally.number, (int)tally.first.held,
               (const char *)tally.first.bytes);
    if (tally.lines > 0 && tally.malformed == 0 && tally.number == 0)
        printf("every line agrees\n");
}

int main(void) {
    /* The root of 2 in each width; it is inexact. */
    check("4000 3DA8 01\n"
          "40000000 3FB504F3 01\n"
          "4000000000000000 3FF6A09E667F3BCD 01\n");

    /* The root of -1 is any NaN, and invalid; the next line ends in a carriage return, the one after it lacks the
     * flag inexact, and the last has no newline. */
    check("bf800000 ffc00000 10\n"
          "40800000 40000000 00\r\n"
          "40000000 3fb504f3 00\n"
          "40800000 40000000 00");
    return 0;
}
