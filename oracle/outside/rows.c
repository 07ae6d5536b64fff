/* Counts of rows by the C functions, and by enumerating rows.
 *
 *   rows functions     lcr_rows_without and lcr_rows_with for every shortest run, every length and every pair of places below it
 *   rows odd           both on all that can be chosen of 20 numbers, most of them out of range
 *   rows enumerated    the same counts of up to 20 pixels: every row is made, and its runs are looked for pixel by pixel
 *   rows times         the longest calls
 *
 * A line has run and length, then the answer: `run 4 length 4 count 15` of the rows without a point, `run 4 length 6 count 1 from
 * 1 to 4` of those with an outline there. A refused call has `refused` and its number in the answer's place, and all that it
 * was handed. What an out-parameter holds after a refused call must be what it held before; else it ends with 1.
 */
#include <inttypes.h>
#include <stdio.h>
#include <stdlib.h>
#include <string.h>
#include <time.h>

#include "lcr_ring.h"

enum { RUNS = 9, LENGTH = 60, ENUMERATED = 20 };
static const uint64_t before = 0x0123456789abcdefu;

/* The out-parameter of a call, which a refusal must leave as it was. */
static uint64_t held(uint32_t result, uint64_t count) {
    if (result != LCR_OK && count != before) {
        fprintf(stderr, "rows: a refused call wrote\n");
        exit(1);
    }
    return count;
}
static void without(uint32_t run, uint32_t length) {
    uint64_t count = before;
    uint32_t r = lcr_rows_without(run, length, &count);
    held(r, count);
    if (r == LCR_OK) printf("run %" PRIu32 " length %" PRIu32 " count %" PRIu64 "\n", run, length, count);
    else printf("run %" PRIu32 " length %" PRIu32 " refused %" PRIu32 "\n", run, length, r);
}
static void with(uint32_t run, uint32_t length, uint32_t first, uint32_t last) {
    uint64_t count = before;
    uint32_t r = lcr_rows_with(run, length, first, last, &count);
    held(r, count);
    if (r == LCR_OK)
        printf("run %" PRIu32 " length %" PRIu32 " count %" PRIu64 " from %" PRIu32 " to %" PRIu32 "\n", run, length, count, first, last);
    else
        printf("run %" PRIu32 " length %" PRIu32 " refused %" PRIu32 " from %" PRIu32 " to %" PRIu32 "\n", run, length, r, first, last);
}

static void functions(void) {
    for (uint32_t run = 2; run < RUNS; run++)
        for (uint32_t length = 0; length <= LENGTH; length++) {
            without(run, length);
            for (uint32_t first = 0; first < length; first++)
                for (uint32_t last = 0; last < length; last++) with(run, length, first, last);
        }
}

static void odd(void) {
    static const uint32_t odd[] = {0, 1, 2, 3, 4, 7, 8, 9, 10, 59, 60, 61, 62, 255, 256, 258, 264, 65538, 2147483648u, 4294967295u};
    enum { ODD = sizeof odd / sizeof *odd };
    for (int a = 0; a < ODD; a++)
        for (int b = 0; b < ODD; b++) {
            without(odd[a], odd[b]);
            for (int c = 0; c < ODD; c++)
                for (int d = 0; d < ODD; d++) with(odd[a], odd[b], odd[c], odd[d]);
        }
}

/* Every row of up to 20 pixels: pixel i of a row is bit i of a number. */
static void enumerated(void) {
    for (uint32_t run = 2; run < RUNS; run++)
        for (uint32_t length = 0; length <= ENUMERATED; length++) {
            static uint64_t with[ENUMERATED][ENUMERATED];
            uint64_t without = 0;
            memset(with, 0, sizeof with);
            for (uint32_t row = 0; row < 1u << length; row++) {
                uint32_t ink = 0, first = length, last = length;
                for (uint32_t i = 0; i <= length; i++) {
                    if (i < length && (row >> i & 1)) {
                        ink++;
                        continue;
                    }
                    /* a run of `ink` pixels has ended before pixel i */
                    if (ink >= run) {
                        if (first == length) first = i - ink;
                        last = i - 1;
                    }
                    ink = 0;
                }
                if (first == length) without++;
                else with[first][last]++;
            }
            printf("run %" PRIu32 " length %" PRIu32 " count %" PRIu64 "\n", run, length, without);
            for (uint32_t f = 0; f < length; f++)
                for (uint32_t l = 0; l < length; l++)
                    printf("run %" PRIu32 " length %" PRIu32 " count %" PRIu64 " from %" PRIu32 " to %" PRIu32 "\n", run, length,
                           with[f][l], f, l);
        }
}

static double now(void) {
    struct timespec t;
    clock_gettime(CLOCK_MONOTONIC, &t);
    return (double)t.tv_sec * 1e9 + (double)t.tv_nsec;
}
/* Nanoseconds of a call, the least of 20 rounds of 100,000. */
static void times(void) {
    static const uint32_t lengths[] = {15, 30, 60};
    for (int k = 0; k < 3; k++) {
        double least[2] = {1e18, 1e18};
        uint64_t count = 0, sum = 0;
        for (int round = 0; round < 20; round++)
            for (int w = 0; w < 2; w++) {
                double t = now();
                for (uint32_t i = 0; i < 100000; i++) {
                    uint32_t run = 2 + i % 7, n = lengths[k];
                    if (w ? lcr_rows_with(run, n, n / 2 - 4, n / 2 + 4, &count) : lcr_rows_without(run, n, &count)) exit(1);
                    sum += count;
                }
                t = (now() - t) / 1e5;
                if (t < least[w]) least[w] = t;
            }
        printf("length %" PRIu32 ": rows_without %.0f ns, rows_with %.0f ns a call (sum %" PRIu64 ")\n", lengths[k], least[0], least[1], sum);
    }
}

int main(int n, char **a) {
    if (n == 2 && !strcmp(a[1], "functions")) functions();
    else if (n == 2 && !strcmp(a[1], "odd")) odd();
    else if (n == 2 && !strcmp(a[1], "enumerated")) enumerated();
    else if (n == 2 && !strcmp(a[1], "times")) times();
    else return fprintf(stderr, "rows functions|odd|enumerated|times\n"), 2;
    return 0;
}
