/* noise: how often a row of speckled cloth shows an outline, as the table of docs/NOISE.md.
 *
 * A row of the table has the pixels, then for each shortest run from 2 to 8 how many in a hundred of all rows of so many pixels have
 * an outline point, rounded to hundredths, a half up; then the shortest run for which fewer than one in a hundred have one.
 */
#include <stdio.h>
#include <stdlib.h>

#include "lcr_ring.h"

/* How many rows have an outline point, of 2 to the power length. */
static uint64_t rows(uint32_t run, uint32_t length) {
    uint64_t without;
    uint32_t refusal = lcr_rows_without(run, length, &without);
    if (refusal != LCR_OK) {
        fprintf(stderr, "noise: run %u, %u pixels: refusal %u\n", run, length, refusal);
        exit(1);
    }
    return ((uint64_t)1 << length) - without;
}

/* n / 2^length as a percentage. A part of all rows is neither 0 nor 100 %, however it is rounded. */
static void percentage(uint64_t n, uint32_t length) {
    uint64_t all = (uint64_t)1 << length;
    unsigned hundredths = 0;
    if (n == 0) {
        printf(" 0 |");
        return;
    }
    /* one digit after the other: 10 n stays below 2^64 */
    for (int digit = 0; digit < 4; digit++) {
        hundredths = 10 * hundredths + (unsigned)(10 * n >> length);
        n = 10 * n & (all - 1);
    }
    hundredths += 2 * n >= all;
    if (hundredths == 0) printf(" < 0.01 |");
    else if (hundredths == 10000) printf(" > 99.99 |");
    else printf(" %u.%02u |", hundredths / 100, hundredths % 100);
}

int main(void) {
    printf("| pixels | run 2 | run 3 | run 4 | run 5 | run 6 | run 7 | run 8 | under 1 %% from |\n");
    printf("|---|---|---|---|---|---|---|---|---|\n");
    for (uint32_t length = 0; length <= 60; length++) {
        uint32_t least = 0;
        printf("| %u |", length);
        for (uint32_t run = 2; run <= 8; run++) {
            uint64_t n = rows(run, length);
            percentage(n, length);
            /* n < 2^length / 100 */
            if (least == 0 && n <= (((uint64_t)1 << length) - 1) / 100) least = run;
        }
        if (least) printf(" run %u |\n", least);
        else printf(" none |\n");
    }
    return 0;
}
