/* The C functions of PGM files, for files.py, and their times.
 *
 *   files serve     calls from standard input, answers to standard output, until the input ends. Numbers are
 *                   little-endian, of 64 bits.
 *     R file_len FILE
 *         reads the file, which ends where a page without access begins: result, width, height, at. Where it is
 *         accepted, length and bytes of it rewritten follow, and the number of what is wrong with them, 0 where
 *         nothing is: 1 the writer refuses, 2 places past its file are touched, 3 what is written is not read back
 *         to these sides and bytes, 4 rewritten twice is not rewritten once, 5 the pixels are not in the file.
 *     W width height gray_len out_len GRAY OUT
 *         writes into OUT, as lent; both lists end where a page without access begins: result, len, and all of OUT.
 *   files time      a file of 4,096 by 4,096 read beside one of 16 by 16 whose header is as long, and pictures
 *                   written beside memcpy of as many bytes: least of 25 rounds, the processor's time of the thread.
 *                   Ends with 1 where one of the two files takes twice the time of the other.
 *
 * Out-parameters hold UNTOUCHED before each call.
 */
#define _GNU_SOURCE
#include <stdio.h>
#include <stdlib.h>
#include <string.h>
#include <sys/mman.h>
#include <time.h>
#include <unistd.h>

#include "lcr_ring.h"

enum { SIDE = 4096, HEADER = 17, AREA = 1 << 26 };
#define UNTOUCHED ((size_t)0xA5C3A5C3A5C3A5C3u)

static void stop(const char *what) {
    fprintf(stderr, "files: %s\n", what);
    exit(2);
}
/* where a page without access begins, AREA bytes before it */
static uint8_t *area(void) {
    size_t page = (size_t)sysconf(_SC_PAGESIZE);
    uint8_t *p = mmap(0, AREA + page, PROT_READ | PROT_WRITE, MAP_PRIVATE | MAP_ANONYMOUS | MAP_NORESERVE, -1, 0);
    if (p == MAP_FAILED || mprotect(p + AREA, page, PROT_NONE)) stop("no memory");
    return p + AREA;
}

/* ---- calls by stream */

static int get(void *to, size_t n) { return fread(to, 1, n, stdin) == n; }
static size_t number(void) {
    uint64_t n;
    if (!get(&n, sizeof n)) stop("a call is cut");
    return n;
}
static uint8_t *list(uint8_t *end, size_t n) {
    if (n > AREA) stop("a list is too long");
    if (!get(end - n, n)) stop("a call is cut");
    return end - n;
}
static void put(const void *from, size_t n) {
    if (fwrite(from, 1, n, stdout) != n) stop("no output");
}
static void say(size_t n) {
    uint64_t m = n;
    put(&m, sizeof m);
}

/* A file rewritten into out, lent with places to spare; its length to n. */
static size_t rewritten(const uint8_t *gray, size_t width, size_t height, uint8_t *out, size_t *n) {
    size_t room = width * height + HEADER + 3;
    memset(out, 0x5A, room);
    *n = UNTOUCHED;
    if (lcr_pgm_write(gray, width * height, width, height, out, room, n) || *n > room) {
        *n = 0;
        return 1;
    }
    for (size_t i = *n; i < room; i++)
        if (out[i] != 0x5A) return 2;
    return 0;
}
static void read_call(uint8_t *end, uint8_t *once, uint8_t *twice) {
    size_t n = number(), width = UNTOUCHED, height = UNTOUCHED, at = UNTOUCHED, len, again, wrong;
    size_t w = UNTOUCHED, h = UNTOUCHED, to = UNTOUCHED;
    const uint8_t *file = list(end, n);
    uint32_t result = lcr_pgm_read(file, n, &width, &height, &at);
    say(result);
    say(width);
    say(height);
    say(at);
    if (result) return;
    if (width > SIDE || height > SIDE || at > n || width * height > n - at) {
        say(0);
        say(5);
        return;
    }
    wrong = rewritten(file + at, width, height, once, &len);
    if (!wrong) {
        if (lcr_pgm_read(once, len, &w, &h, &to) || w != width || h != height || to + w * h != len ||
            memcmp(once + to, file + at, w * h))
            wrong = 3;
        else if (rewritten(once + to, w, h, twice, &again) || again != len || memcmp(once, twice, len))
            wrong = 4;
    }
    say(len);
    put(once, len);
    say(wrong);
}
static void write_call(uint8_t *end, uint8_t *out_end) {
    size_t width = number(), height = number(), n = number(), room = number(), len = UNTOUCHED;
    const uint8_t *gray = list(end, n);
    uint8_t *out = list(out_end, room);
    say(lcr_pgm_write(gray, n, width, height, out, room, &len));
    say(len);
    put(out, room);
}
static int serve(void) {
    uint8_t *end = area(), *out_end = area(), *once = malloc(SIDE * SIDE + 64), *twice = malloc(SIDE * SIDE + 64), kind;
    if (!once || !twice) stop("no memory");
    while (get(&kind, 1)) {
        if (kind == 'R')
            read_call(end, once, twice);
        else if (kind == 'W')
            write_call(end, out_end);
        else
            stop("no such call");
    }
    return fflush(stdout) ? 2 : 0;
}

/* ---- times */

static double now(void) {
    struct timespec t;
    clock_gettime(CLOCK_THREAD_CPUTIME_ID, &t);
    return (double)t.tv_sec * 1e9 + (double)t.tv_nsec;
}
static double less(double a, double b) { return a < b ? a : b; }

/* a header of n bytes, its letters followed by as many spaces as it takes, and side x side pixels */
static uint8_t *file_of(const char *numbers, size_t n, size_t side) {
    uint8_t *f = malloc(n + side * side);
    if (!f) stop("no memory");
    memset(f, ' ', n);
    memcpy(f, "P5", 2);
    memcpy(f + n - strlen(numbers), numbers, strlen(numbers));
    for (size_t i = 0; i < side * side; i++) f[n + i] = (uint8_t)(i * 167 + (i >> 12));
    return f;
}
/* nanoseconds of a call */
static double reading(const uint8_t *file, size_t n, size_t side, int calls) {
    size_t w = 0, h = 0, at = 0;
    double from = now();
    for (int i = 0; i < calls; i++)
        if (lcr_pgm_read(file, n, &w, &h, &at)) stop("a file that is timed is refused");
    from = (now() - from) / calls;
    if (w != side || h != side || at + w * h != n) stop("a file that is timed is read otherwise");
    return from;
}
static double writing(const uint8_t *gray, size_t side, uint8_t *out, size_t room, int calls) {
    size_t len = 0;
    double from = now();
    for (int i = 0; i < calls; i++)
        if (lcr_pgm_write(gray, side * side, side, side, out, room, &len)) stop("a picture that is timed is refused");
    return (now() - from) / calls;
}
static void *(*volatile copy)(void *, const void *, size_t) = memcpy;
static double copying(const uint8_t *gray, size_t n, uint8_t *out, int calls) {
    double from = now();
    for (int i = 0; i < calls; i++) copy(out, gray, n);
    return (now() - from) / calls;
}
static int times(void) {
    enum { ROUNDS = 25, CALLS = 100000, LONGEST = 4096 };
    static const size_t sides[] = {SIDE, 1024, 256};
    uint8_t *large = file_of("\n4096\n4096\n255\n", HEADER, SIDE), *small = file_of("\n0016\n0016\n255\n", HEADER, 16);
    uint8_t *late = file_of("\n16\n16\n255\n", LONGEST, 16), *out = malloc(SIDE * SIDE + HEADER);
    double a = 1e18, b = 1e18, c = 1e18;
    if (!out) stop("no memory");
    memset(out, 1, SIDE * SIDE + HEADER);
    for (int i = 0; i < ROUNDS; i++) {
        a = less(a, reading(large, HEADER + SIDE * SIDE, SIDE, CALLS));
        b = less(b, reading(small, HEADER + 16 * 16, 16, CALLS));
        c = less(c, reading(late, LONGEST + 16 * 16, 16, CALLS / 100));
    }
    printf("read, 4,096 by 4,096: %.1f ns a call; 16 by 16 with a header as long: %.1f; ratio %.2f; with a header of 4,096 "
           "bytes: %.1f\n",
           a, b, a / b, c);
    for (int k = 0; k < 3; k++) {
        size_t side = sides[k], n = side * side;
        int calls = (int)(SIDE * SIDE / n);
        double w = 1e18, m = 1e18;
        for (int i = 0; i < ROUNDS; i++) {
            w = less(w, writing(large + HEADER, side, out, n + HEADER, calls));
            m = less(m, copying(large + HEADER, n, out, calls));
        }
        printf("write, %zu by %zu: %.4f ns a pixel; memcpy of as many bytes: %.4f; ratio %.2f\n", side, side,
               w / (double)n, m / (double)n, w / m);
    }
    free(large);
    free(small);
    free(late);
    free(out);
    /* a pass over the pixels would take a million times as long */
    return a / b > 2 || b / a > 2;
}

int main(int n, char **a) {
    if (n == 2 && !strcmp(a[1], "serve")) return serve();
    if (n == 2 && !strcmp(a[1], "time")) return times();
    fprintf(stderr, "usage: files serve | time\n");
    return 2;
}
