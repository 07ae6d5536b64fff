/* Hulls and quads in whole numbers: lcr_doubled, lcr_whole_hull and lcr_whole_quad beside an exact hull in Python.
 *
 *   whole lists FILE      the lists of whole.py: vertices, their order and number, the quads of hull and list, the list doubled from
 *                         halves, what must not change; up to 2,048 also lcr_convex_hull and lcr_quad, which must agree
 *   whole refused         lengths and numbers in and out of range, each cause of a refusal alone and several at once: the refusal due
 *                         by the request's words, in the order 6, 3, 21, and lists as before
 *   whole halves          lcr_doubled on every half and its neighbours among floats, and on patterns of all kinds
 *   whole largest FILE    times of the lists of 16,384 points that whole.py writes, with the marks
 *   whole bench FILE ..   times beside lcr_convex_hull and lcr_quad, on the outline of the largest region of each PGM file
 *   whole draw SEED W H   a picture with a long slanted outline, as a PGM file on standard output
 *
 * In the first two each call is made twice: every list and out-parameter once ends where a page without access begins, and once begins
 * where one ends. At the first difference it ends with 1 and the list's number; at a touch outside too.
 */
#define _GNU_SOURCE
#include <inttypes.h>
#include <math.h>
#include <signal.h>
#include <stdio.h>
#include <stdlib.h>
#include <string.h>
#include <sys/mman.h>
#include <time.h>
#include <unistd.h>

#include "lcr_ring.h"
#include "random.h"

#include "pictures.h"

enum { MOST = 8192, POINTS = 16384, ROOM = 80000, BEYOND = 21, KINDS = 32, NAME = 64 };
typedef unsigned long long Count;

/* ---- lists at pages without access */

enum { FROM, HALVES, OUT, COUNT, QUAD, LISTS };
typedef struct {
    size_t n, size;                /* elements, and bytes of each */
    uint8_t *before, *area, *at;   /* contents before the call; room between two such pages; where the list lies in this call */
} List;
static List list[LISTS];
static int begins;
static const char *looked = "list"; /* what is looked at, its number, and its points */
static uint32_t number;
static const uint32_t *shown;
static size_t shown_points;

static void fail(const char *what, size_t n) {
    fprintf(stderr, "whole: %s %" PRIu32 " (%s): %s %zu\n", looked, number, begins ? "begins" : "ends", what, n);
    for (size_t i = 0; i < 2 * shown_points && shown_points <= 60; i++) fprintf(stderr, "%" PRIu32 "%s", shown[i], i % 2 ? "\n" : " ");
    exit(1);
}
static void touched(int sig) {
    char text[100];
    int n = snprintf(text, sizeof text, "whole: %s %" PRIu32 " (%s): a touch outside a list\n", looked, number, begins ? "begins" : "ends");
    (void)sig;
    if (write(2, text, (size_t)n) < 0) _exit(1);
    _exit(1);
}
static void make_areas(void) {
    size_t page = (size_t)sysconf(_SC_PAGESIZE), bytes = (4 * ROOM + page - 1) / page * page;
    struct sigaction s = {.sa_handler = touched};
    sigaction(SIGSEGV, &s, 0), sigaction(SIGBUS, &s, 0);
    for (int k = 0; k < LISTS; k++) {
        uint8_t *p = mmap(0, bytes + 2 * page, PROT_READ | PROT_WRITE, MAP_PRIVATE | MAP_ANONYMOUS, -1, 0);
        if (p == MAP_FAILED || mprotect(p, page, PROT_NONE) || mprotect(p + page + bytes, page, PROT_NONE)) perror("whole"), exit(2);
        list[k].area = p + page, list[k].before = room(bytes);
        for (size_t i = 0; i < bytes; i++) list[k].before[i] = (uint8_t)next();
    }
}
static size_t area_bytes(void) {
    size_t page = (size_t)sysconf(_SC_PAGESIZE);
    return (4 * ROOM + page - 1) / page * page;
}
/* List k, of n elements, at its place for this call, with the contents that it has before. */
static void *put(int k, size_t n, size_t size) {
    List *l = &list[k];
    l->n = n, l->size = size, l->at = begins ? l->area : l->area + area_bytes() - n * size;
    memcpy(l->at, l->before, n * size);
    return l->at;
}
static void as_before(int k, size_t from) {
    const List *l = &list[k];
    if (memcmp(l->at + from * l->size, l->before + from * l->size, (l->n - from) * l->size)) fail("a list has changed, number", (size_t)k);
}

/* ---- the functions on one list of n points, held to what is due */

static void hold_hull(const uint32_t *points, size_t n, const uint32_t *due, size_t vertices, size_t more) {
    memcpy(list[FROM].before, points, 8 * n);
    for (begins = 0; begins < 2; begins++) {
        uint32_t *from = put(FROM, 2 * n, 4), *out = put(OUT, 2 * n + more, 4);
        size_t *count = put(COUNT, 1, sizeof *count);
        uint32_t no = lcr_whole_hull(from, 2 * n, out, 2 * n + more, count);
        if (no) fail("no hull, refused by", no);
        if (*count != vertices) fail("another number of vertices,", *count);
        if (memcmp(out, due, 8 * vertices)) fail("other vertices, of", vertices);
        as_before(FROM, 0), as_before(OUT, 2 * vertices);
    }
}
static void hold_quad(const uint32_t *points, size_t n, const uint32_t *due) {
    memcpy(list[FROM].before, points, 8 * n);
    for (begins = 0; begins < 2; begins++) {
        uint32_t *from = put(FROM, 2 * n, 4), *quad = put(QUAD, 8, 4);
        uint32_t no = lcr_whole_quad(from, 2 * n, quad);
        if (no != (due ? LCR_OK : LCR_NONE)) fail("quad or none where the other is due, of", n);
        if (due && memcmp(quad, due, 32)) fail("another quad, of", n);
        as_before(FROM, 0);
        if (!due) as_before(QUAD, 0);
    }
}
static void halve(const uint32_t *points, size_t n, float *to) {
    for (size_t i = 0; i < 2 * n; i++) to[i] = (float)points[i] / 2;
}
static void hold_doubled(const uint32_t *points, size_t n, size_t more) {
    float *halves = (float *)(void *)list[HALVES].before;
    halve(points, n, halves);
    for (size_t i = 0; i < 2 * n; i++)
        if (halves[i] == 0 && next() % 4 == 0) halves[i] = -0.0f;
    for (begins = 0; begins < 2; begins++) {
        float *from = put(HALVES, 2 * n, 4);
        uint32_t *out = put(OUT, 2 * n + more, 4), no = lcr_doubled(from, 2 * n, out, 2 * n + more);
        if (no) fail("not doubled, refused by", no);
        if (memcmp(out, points, 8 * n)) fail("other doubled numbers, of points", n);
        as_before(HALVES, 0), as_before(OUT, 2 * n);
    }
}
/* Whether the f32 functions answer the same hull, and the same quad of n points. */
static bool same_numbers(const float *f, const uint32_t *due, size_t n) {
    for (size_t i = 0; i < n; i++)
        if (f[i] * 2 != (float)due[i]) return false;
    return true;
}
static bool rounded_hull(const uint32_t *points, size_t n, const uint32_t *due, size_t vertices) {
    static float from[2 * POINTS], out[2 * POINTS];
    size_t count;
    halve(points, n, from);
    return lcr_convex_hull(from, 2 * n, out, 2 * n, &count) == LCR_OK && count == vertices && same_numbers(out, due, 2 * count);
}
static bool rounded_quad(const uint32_t *points, size_t n, const uint32_t *due) {
    static float from[2 * POINTS];
    float quad[8];
    halve(points, n, from);
    return lcr_quad(from, 2 * n, quad) == LCR_OK ? due && same_numbers(quad, due, 8) : !due;
}

/* ---- the lists of whole.py */

static FILE *file;
static char names[KINDS][NAME];
typedef struct {
    uint32_t kind, n, vertices, points[2 * POINTS], hull[2 * POINTS], quad[9], own[9]; /* own: the quad of the list itself */
} Case;

static void take(void *to, size_t bytes) {
    if (bytes && fread(to, bytes, 1, file) != 1) fprintf(stderr, "whole: the file of lists is cut\n"), exit(2);
}
static uint32_t take_word(void) {
    uint32_t x;
    take(&x, 4);
    return x;
}
static void take_quad(uint32_t *q) {
    q[0] = take_word();
    if (q[0] == 1) take(q + 1, 32);
}
static uint32_t open_lists(const char *name) {
    file = fopen(name, "rb");
    if (!file) perror("whole"), exit(2);
    uint32_t kinds = take_word();
    if (kinds > KINDS) fprintf(stderr, "whole: no file of lists\n"), exit(2);
    take(names, kinds * NAME);
    return take_word();
}
static const Case *next_case(void) {
    static Case c;
    c.kind = take_word(), c.n = take_word(), take(c.points, 8 * (size_t)c.n);
    c.vertices = take_word(), take(c.hull, 8 * (size_t)c.vertices);
    take_quad(c.quad), take_quad(c.own);
    shown = c.points, shown_points = c.n;
    return &c;
}
static const uint32_t *due_quad(const uint32_t *q) { return q[0] == 1 ? q + 1 : 0; }
static void hold(const Case *c) {
    hold_doubled(c->points, c->n, next() % 3 ? 0 : next() % 20);
    hold_hull(c->points, c->n, c->hull, c->vertices, next() % 3 ? 0 : next() % 20);
    hold_quad(c->hull, c->vertices, due_quad(c->quad));
    if (c->own[0] != 2) hold_quad(c->points, c->n, due_quad(c->own));
}
static void lists(const char *name) {
    struct {
        Count lists, points, vertices, quads, own, small;
    } all = {0}, of[KINDS] = {{0}};
    Count other_hull = 0, other_quad = 0;
    uint32_t many = open_lists(name);
    for (number = 0; number < many; number++) {
        const Case *c = next_case();
        uint32_t most = 0;
        hold(c);
        for (size_t i = 0; i < 2 * (size_t)c->n; i++) most = c->points[i] > most ? c->points[i] : most;
        bool hull = rounded_hull(c->points, c->n, c->hull, c->vertices), quad = rounded_quad(c->hull, c->vertices, due_quad(c->quad));
        if (most > 2048) other_hull += !hull, other_quad += !quad;
        else if (!hull) fail("up to 2,048, and lcr_convex_hull has another hull than the one of vertices", c->vertices);
        else if (!quad) fail("up to 2,048, and lcr_quad has another quad of vertices", c->vertices);
        else if (!rounded_quad(c->points, c->n, due_quad(c->own))) fail("up to 2,048, and lcr_quad has another quad of points", c->n);
        of[c->kind].lists++, of[c->kind].points += c->n, of[c->kind].vertices += c->vertices, of[c->kind].small += most <= 2048;
        of[c->kind].quads += c->quad[0] == 1, of[c->kind].own += c->own[0] == 1;
    }
    printf("| lists | how many | points | vertices | quads of the hull | of the list | up to 2,048, f32 functions too |\n");
    printf("|---|---|---|---|---|---|---|\n");
    for (int k = 0; k < KINDS; k++) {
        if (!of[k].lists) continue;
        printf("| %s | %llu | %llu | %llu | %llu | %llu | %llu |\n", names[k], of[k].lists, of[k].points, of[k].vertices, of[k].quads,
               of[k].own, of[k].small);
        all.lists += of[k].lists, all.points += of[k].points, all.vertices += of[k].vertices, all.small += of[k].small;
    }
    printf("%llu lists, %llu points, %llu vertices, at both places, 0 different; ", all.lists, all.points, all.vertices);
    printf("of the %llu lists beyond 2,048 lcr_convex_hull has another hull in %llu, lcr_quad another quad of the hull in %llu\n",
           all.lists - all.small, other_hull, other_quad);
}

/* ---- refused: what is due by the request's words */

enum { DOUBLED, HULL, QUADS, FUNCTIONS };
static const char *const functions[FUNCTIONS] = {"lcr_doubled", "lcr_whole_hull", "lcr_whole_quad"};
static const uint32_t number_of[3] = {LCR_POINTS, LCR_LENT, BEYOND};
static Count alone[FUNCTIONS][3], among[FUNCTIONS][3], accepted[FUNCTIONS];

static bool is_half(float x) { return x >= 0 && x <= MOST / 2 && (double)x * 2 == floor((double)x * 2); }
static void tell(int f, unsigned wrong, uint32_t no) {
    int first = 0;
    if (!wrong) {
        if (no != LCR_OK && !(f == QUADS && no == LCR_NONE)) fail("refused for nothing by", no);
        accepted[f] += !begins;
        return;
    }
    while (!(wrong >> first & 1)) first++;
    if (no != number_of[first]) fail("another result than due,", no);
    if (!begins) (wrong >> first == 1 ? alone : among)[f][first]++;
}
/* A call of function f with n numbers and `out` places for the answer. */
static void call(int f, size_t n, size_t out) {
    const float *halves = (const float *)(void *)list[HALVES].before;
    const uint32_t *whole = (const uint32_t *)(void *)list[FROM].before;
    unsigned wrong = (n % 2 || n > 2 * POINTS ? 1u : 0) | (f != QUADS && out < n ? 2u : 0);
    looked = functions[f], number++;
    for (size_t i = 0; i < n; i++)
        if (f == DOUBLED ? !is_half(halves[i]) : whole[i] > MOST) wrong |= 4u;
    for (begins = 0; begins < 2; begins++) {
        size_t *count = put(COUNT, 1, sizeof *count), used = 0;
        uint32_t *to = put(OUT, out, 4), *quad = put(QUAD, 8, 4);
        void *from = put(f == DOUBLED ? HALVES : FROM, n, 4);
        uint32_t no = f == DOUBLED ? lcr_doubled(from, n, to, out)
                      : f == HULL  ? lcr_whole_hull(from, n, to, out, count)
                                   : lcr_whole_quad(from, n, quad);
        tell(f, wrong, no);
        if (no == LCR_OK) used = f == DOUBLED ? n : f == HULL ? 2 * *count : 0;
        if (used > out) fail("more places than there are,", used);
        for (size_t i = 0; f == DOUBLED && i < used; i++)
            if ((double)to[i] != 2 * (double)halves[i]) fail("another doubled number at", i);
        as_before(f == DOUBLED ? HALVES : FROM, 0), as_before(OUT, used);
        if (no || f != HULL) as_before(COUNT, 0);
        if (no || f != QUADS) as_before(QUAD, 0);
    }
}
/* Every number of a list in range, then one of them, first, last or within, as it is said; out lists of several lengths. */
static void calls_at(size_t n, int value, size_t place) {
    static const uint32_t whole[] = {0, MOST, MOST + 1, MOST + 2, 2 * MOST, 65536, 65536 + 7, 1u << 31, (1u << 31) + 9, UINT32_MAX};
    static const float halves[] = {-0.0f,   4096,   4096.5f, 4097,  -0.5f,         -1,    0.25f,  4095.75f, 1e-45f,
                                   -1e-45f, 8192,   65536,   1e30f, 4294967296.0f, -1e30f, INFINITY, -INFINITY, NAN, -NAN};
    float *f = (float *)(void *)list[HALVES].before;
    uint32_t *u = (uint32_t *)(void *)list[FROM].before;
    size_t outs[] = {n, n + 1, n + 9, n ? n - 1 : 0, n / 2, 0};
    for (size_t i = 0; i < n; i++) u[i] = (uint32_t)(next() % (MOST + 1)), f[i] = (float)(next() % (MOST + 1)) / 2;
    bool is[2] = {value < (int)(sizeof halves / sizeof *halves), value < (int)(sizeof whole / sizeof *whole)};
    if (n && value >= 0 && is[0]) f[place] = halves[value];
    if (n && value >= 0 && is[1]) u[place] = whole[value];
    for (int k = 0; k < 6; k++) {
        if (is[0]) call(DOUBLED, n, outs[k]);
        if (is[1]) call(HULL, n, outs[k]);
    }
    if (is[1] && (n < 1000 || n > 2 * POINTS || n % 2 || value > 1 || (n == 2 * POINTS && value < 0))) call(QUADS, n, 0);
}
static void refused(void) {
    static const size_t lengths[] = {0,     1,     2,     3,     6,     7,     8,     9,     40,    41,   32766,
                                     32767, 32768, 32769, 32770, 40000, 65536, 65537, 65538, 65544, 79990};
    state = 2;
    for (size_t k = 0; k < sizeof lengths / sizeof *lengths; k++) {
        size_t n = lengths[k];
        calls_at(n, -1, 0);
        for (int value = 0; n && value < 19; value++) calls_at(n, value, 0), calls_at(n, value, n / 2), calls_at(n, value, n - 1);
    }
    printf("| refused by |");
    for (int f = 0; f < FUNCTIONS; f++) printf(" `%s`: cause alone | first of several |", functions[f]);
    printf("\n|---|---|---|---|---|---|---|\n");
    for (int k = 0; k < 3; k++) {
        printf("| %" PRIu32 " |", number_of[k]);
        for (int f = 0; f < FUNCTIONS; f++) printf(" %llu | %llu |", alone[f][k], among[f][k]);
        printf("\n");
    }
    printf("accepted beside them: %llu, %llu and %llu; 0 different, ", accepted[0], accepted[1], accepted[2]);
    printf("lists of refused calls as before\n");
}

/* ---- halves: which floats lcr_doubled takes */

static Count doubled, others;
static void hold_half(uint32_t bits) {
    float from[2] = {1, 0};
    uint32_t out[2] = {77, 78};
    memcpy(from + (bits & 1), &bits, 4);
    uint32_t no = lcr_doubled(from, 2, out, 2);
    bool is = is_half(from[bits & 1]);
    uint32_t due[2] = {is ? (uint32_t)(2 * from[0]) : 77, is ? (uint32_t)(2 * from[1]) : 78};
    if (no != (is ? LCR_OK : BEYOND) || memcmp(out, due, 8)) fail("another answer to the float with the bits", bits);
    *(is ? &doubled : &others) += 1;
}
static void halves(void) {
    for (uint32_t k = 0; k <= 2 * MOST; k++) {
        float x = (float)k / 2;
        uint32_t bits;
        memcpy(&bits, &x, 4);
        for (uint32_t sign = 0; sign < 2; sign++)
            for (uint32_t d = 0; d < 3; d++) hold_half((bits + d - 1) ^ sign << 31);
    }
    for (uint64_t bits = 0; bits < (uint64_t)1 << 32; bits += 101) hold_half((uint32_t)bits);
    printf("lcr_doubled on single floats, every half and its neighbours and every 101st pattern: ");
    printf("%llu doubled, %llu refused by 21, 0 different\n", doubled, others);
}

/* ---- times, in nanoseconds of the processor; medians by turns */

static double now(void) {
    struct timespec t;
    clock_gettime(CLOCK_THREAD_CPUTIME_ID, &t);
    return (double)t.tv_sec * 1e9 + (double)t.tv_nsec;
}
static int by_size(const void *a, const void *b) {
    double x = *(const double *)a, y = *(const double *)b;
    return (x > y) - (x < y);
}

/* The list that is timed, in halves and whole, and both hulls of it. */
static float f_points[2 * POINTS], f_hull[2 * POINTS], f_quad[8];
static uint32_t u_points[2 * POINTS], u_hull[2 * POINTS], u_quad[8];
static size_t points, f_vertices, u_vertices;
static uint32_t f_none, u_none; /* what the quads' functions answer */

enum { F_HULL, U_HULL, F_QUAD, U_QUAD, U_DOUBLED, TIMED };
static void run(int what) {
    switch (what) {
    case F_HULL: lcr_convex_hull(f_points, 2 * points, f_hull, 2 * points, &f_vertices); return;
    case U_HULL: lcr_whole_hull(u_points, 2 * points, u_hull, 2 * points, &u_vertices); return;
    case F_QUAD: f_none = lcr_quad(f_hull, 2 * f_vertices, f_quad); return;
    case U_QUAD: u_none = lcr_whole_quad(u_hull, 2 * u_vertices, u_quad); return;
    default: lcr_doubled(f_points, 2 * points, u_points, 2 * points);
    }
}
/* Nanoseconds of each: at least five rounds, then for half a second. A round has as many calls of each as take a tenth of a millisecond. */
static void time_all(double *median) {
    enum { ROUNDS = 301 };
    static double took[TIMED][ROUNDS];
    int reps[TIMED], n = 0;
    for (int k = TIMED - 1; k >= 0; k--) run(k); /* doubled first */
    for (int k = 0; k < TIMED; k++) {
        double t = now();
        run(k), t = now() - t;
        reps[k] = t > 1e5 ? 1 : (int)(1e5 / (t + 10)) + 1;
    }
    for (double from = now(); n < ROUNDS && (n < 5 || now() - from < 5e8); n++)
        for (int k = 0; k < TIMED; k++) {
            double t = now();
            for (int i = 0; i < reps[k]; i++) run(k);
            took[k][n] = (now() - t) / reps[k];
        }
    for (int k = 0; k < TIMED; k++) qsort(took[k], (size_t)n, sizeof **took, by_size), median[k] = took[k][n / 2];
}
static void mark(const char *what, double worst, double most) {
    printf("%s: mark %.0f ms, greatest %.3f ms, %s\n", what, most, worst, worst <= most ? "met" : "missed");
}
static void largest(const char *name) {
    double worst[2] = {0, 0};
    uint32_t many = open_lists(name);
    printf("| %d points, times in µs | vertices | `lcr_whole_hull` | `lcr_whole_quad` | `lcr_doubled` | ", POINTS);
    printf("`lcr_convex_hull` | `lcr_quad` |\n|---|---|---|---|---|---|---|\n");
    for (number = 0; number < many; number++) {
        const Case *c = next_case();
        double t[TIMED];
        hold(c), points = c->n, halve(c->points, c->n, f_points);
        time_all(t);
        printf("| %s | %zu | %.1f | %.1f | %.1f | %.1f | %.1f |\n", names[c->kind], u_vertices, t[U_HULL] / 1e3, t[U_QUAD] / 1e3,
               t[U_DOUBLED] / 1e3, t[F_HULL] / 1e3, t[F_QUAD] / 1e3);
        worst[0] = fmax(worst[0], t[U_HULL] / 1e6), worst[1] = fmax(worst[1], t[U_QUAD] / 1e6);
    }
    mark("lcr_whole_hull", worst[0], 1), mark("lcr_whole_quad", worst[1], 5);
}

/* ---- bench: outlines of pictures */

/* The outline of the largest kept region; whether there is one. */
static bool outline(const Pic *p) {
    size_t n = (size_t)p->w * p->h, levels_len = LCR_LEVEL_CELLS(p->w, p->h), cells = LCR_REGION_CELLS(p->w, p->h);
    uint8_t *levels = room(levels_len);
    uint32_t *labels = room(4 * cells), *stack = room(4 * cells), r[LCR_REGIONS], no;
    no = lcr_picture(p->g, n, p->w, p->h, levels, levels_len, labels, cells, stack, cells, r);
    if (!no && r[1])
        no = lcr_outline(p->g, n, levels, levels_len, labels, cells, r[2], p->w, p->h, r[4], r[5], r[6], r[7], f_points, 2 * POINTS,
                         &points);
    if (no) fprintf(stderr, "whole: a picture is refused by %" PRIu32 "\n", no), exit(2);
    free(levels), free(labels), free(stack);
    return r[1] && points;
}
/* Whether hull and quad of both ways are equal. */
static bool both_equal(void) {
    if (f_vertices != u_vertices || f_none != u_none) return false;
    return same_numbers(f_hull, u_hull, 2 * u_vertices) && (f_none || same_numbers(f_quad, u_quad, 8));
}
/* Whole / f32: of the hull, of the quad, of both with the doubling. */
static double ratio(const double *t, int of) {
    if (of < 2) return of ? t[U_QUAD] / t[F_QUAD] : t[U_HULL] / t[F_HULL];
    return (t[U_DOUBLED] + t[U_HULL] + t[U_QUAD]) / (t[F_HULL] + t[F_QUAD]);
}
static void bench(char **files, int many) {
    double sum[TIMED] = {0}, logs[3] = {0};
    int rows = 0, differ = 0;
    printf("| picture | side | points | vertices | f32 hull, ns | whole | ratio | f32 quad, ns | whole | ratio | doubled, ns | ");
    printf("together, ratio | hulls and quads |\n|---|---|---|---|---|---|---|---|---|---|---|---|---|\n");
    for (int i = 0; i < many; i++) {
        Pic p = load(files[i]);
        const char *from = strrchr(files[i], '/') ? strrchr(files[i], '/') + 1 : files[i];
        double t[TIMED];
        bool is = outline(&p);
        free(p.g);
        if (!is) continue;
        time_all(t);
        printf("| %.*s | %d | %zu | %zu ", (int)strcspn(from, "."), from, p.w > p.h ? p.w : p.h, points, u_vertices);
        printf("| %.0f | %.0f | %.2f ", t[F_HULL], t[U_HULL], ratio(t, 0));
        printf("| %.0f | %.0f | %.2f ", t[F_QUAD], t[U_QUAD], ratio(t, 1));
        printf("| %.0f | %.2f | %s |\n", t[U_DOUBLED], ratio(t, 2), both_equal() ? "equal" : "differ");
        for (int k = 0; k < TIMED; k++) sum[k] += t[k];
        for (int k = 0; k < 3; k++) logs[k] += log(ratio(t, k));
        rows++, differ += !both_equal();
    }
    printf("whole / f32 over %d outlines, %d of them with another hull or quad: ", rows, differ);
    printf("hull %.2f, quad %.2f, all with doubling %.2f by the sum of times; ", ratio(sum, 0), ratio(sum, 1), ratio(sum, 2));
    printf("%.2f, %.2f and %.2f by the geometric mean of the rows\n", exp(logs[0] / rows), exp(logs[1] / rows), exp(logs[2] / rows));
}

int main(int argc, char **argv) {
    const char *word = argc > 1 ? argv[1] : "";
    state = 1;
    make_areas();
    if (!strcmp(word, "lists") && argc == 3) lists(argv[2]);
    else if (!strcmp(word, "refused")) refused();
    else if (!strcmp(word, "halves")) halves();
    else if (!strcmp(word, "largest") && argc == 3) largest(argv[2]);
    else if (!strcmp(word, "bench") && argc > 2) bench(argv + 2, argc - 2);
    else if (!strcmp(word, "draw") && argc == 5) {
        Pic p = {atoi(argv[3]), atoi(argv[4]), 0};
        p.g = room((size_t)p.w * p.h), state = strtoull(argv[2], 0, 10);
        draw_slanted(&p), save(&p);
    } else return fprintf(stderr, "whole lists FILE | refused | halves | largest FILE | bench FILE .. | draw SEED W H\n"), 2;
    return 0;
}
