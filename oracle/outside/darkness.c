/* lcr_darkness beside counts made by hand, on lists at guard pages.
 *
 *   darkness SEED CALLS [FIRST]    CALLS random calls of a seed, from call FIRST (0) on
 *
 * Each call is made twice on equal contents: every list once ends where a page without access begins, and once begins
 * where one ends. A touch outside ends the program; so does the first of these that fails, with 1 and the call's number:
 *   the result is the first refusal in the order 1, 2, 3, 18, both by the request's words and by what was made wrong;
 *   every place of the table is the number of ink pixels above it and to its left, in pictures of up to FEW pixels counted
 *   anew for each place, pixel by pixel, in larger ones added up from the counts of the columns;
 *   every box's count is its number of ink pixels, counted pixel by pixel;
 *   places past those needed are as before, on a refusal all are, and lists that are only read always.
 *
 * Then it prints how many calls of each kind had each result. Every 200th call has a large picture, every 2,000th one of
 * 4,096 by 4,096.
 */
#define _GNU_SOURCE
#include <signal.h>
#include <stdio.h>
#include <stdlib.h>
#include <string.h>
#include <sys/mman.h>
#include <unistd.h>

#include "lcr_ring.h"
#include "random.h"

enum { SIDE = 4096, FEW = 8100, MANY = 5000, SLACK = 20 };

static size_t below(size_t n) { return (size_t)(next() % (n ? n : 1)); }
static int odds(int in) { return below((size_t)in) == 0; }
static size_t least(size_t a, size_t b) { return a < b ? a : b; }

/* ---- lists: contents before the call, those due after it, and their place in it */

enum { GRAY, LEVELS, BOXES, TABLE, COUNTS, LISTS };
static const char *const names[LISTS] = {"gray", "levels", "boxes", "table", "counts"};

typedef struct {
    size_t n, size;           /* elements, and bytes of each */
    size_t room;              /* bytes of the area, whole pages */
    uint8_t *before, *after;  /* contents before the call, and those due after it */
    uint8_t *area;            /* between two pages without access */
    uint8_t *at;              /* where the list lies in this call */
} List;

static List list[LISTS];
static unsigned long long seed, call;
static int placed;

static void stop(const char *what) {
    perror(what);
    exit(2);
}
static void make_area(int k, size_t size, size_t most) {
    size_t page = (size_t)sysconf(_SC_PAGESIZE), room = (size * most + page - 1) / page * page;
    uint8_t *p = mmap(0, room + 2 * page, PROT_READ | PROT_WRITE, MAP_PRIVATE | MAP_ANONYMOUS, -1, 0);
    List *l = &list[k];
    l->size = size, l->room = room, l->area = p + page, l->before = malloc(room), l->after = malloc(room);
    if (p == MAP_FAILED || mprotect(p, page, PROT_NONE) || mprotect(p + page + room, page, PROT_NONE) || !l->before || !l->after)
        stop("darkness");
}
static void lend(int k, size_t n) {
    if (n * list[k].size > list[k].room) {
        fprintf(stderr, "darkness: call %llu wants %zu elements of %s\n", call, n, names[k]);
        exit(2);
    }
    list[k].n = n;
}
static void fill(int k) {
    size_t bytes = list[k].n * list[k].size;
    for (size_t i = 0; i < bytes; i += 8) {
        uint64_t word = next();
        memcpy(list[k].before + i, &word, least(bytes - i, 8));
    }
}
static uint8_t *bytes_of(int k) { return list[k].before; }
static uint32_t *numbers_of(int k) { return (uint32_t *)(void *)list[k].before; }
static size_t len(int k) { return list[k].n; }

static void fail(const char *what, int k) {
    fprintf(stderr, "darkness: seed %llu, call %llu (%s): %s%s%s\n", seed, call, placed ? "begins" : "ends", what, k < 0 ? "" : ": ",
            k < 0 ? "" : names[k]);
    exit(1);
}
static void touched(int sig) {
    char text[120];
    int n = snprintf(text, sizeof text, "darkness: seed %llu, call %llu (%s): a touch outside a list\n", seed, call,
                     placed ? "begins" : "ends");
    (void)sig;
    if (write(2, text, (size_t)n) < 0) _exit(1);
    _exit(1);
}

/* ---- what is made wrong, each with the refusal that it has alone */

enum { ZERO, OVER, FAR, MISCOUNT, SHORT_LEVELS, SHORT_TABLE, SHORT_COUNTS, FOURS, X_TURNED, Y_TURNED, X_PAST, Y_PAST, WILD, CAUSES };
static const struct {
    const char *what;
    uint32_t no;
} causes[CAUSES] = {
    {"a side of 0", LCR_SIDE}, {"a side of 4,097 to 4,156", LCR_SIDE}, {"a side of up to 2^64 - 1", LCR_SIDE},
    {"bytes not width x height", LCR_BYTES}, {"level grid too short", LCR_LENT}, {"table too short", LCR_LENT},
    {"too few places for counts", LCR_LENT}, {"box numbers not whole fours", LCR_BOXES}, {"a box with x0 > x1", LCR_BOXES},
    {"a box with y0 > y1", LCR_BOXES}, {"a box with x1 > width", LCR_BOXES}, {"a box with y1 > height", LCR_BOXES},
    {"a box with a number 4,294,967,295", LCR_BOXES},
};
static unsigned wrong; /* a bit of each cause */
static int is_wrong(int cause) { return (int)(wrong >> cause & 1); }

/* The refusal by what was made wrong: the checks stand in the order of their numbers. */
static uint32_t by_causes(void) {
    uint32_t no = 0;
    for (int i = 0; i < CAUSES; i++)
        if (is_wrong(i) && (!no || causes[i].no < no)) no = causes[i].no;
    return no;
}

/* ---- kinds of calls, for the tables */

enum { SMALL, NARROW, MIDDLE, LARGE, LARGEST, SIZES };
static const char *const sizes[SIZES] = {"sides 1 to 90", "a side under 21, the other up to 4,096", "sides 100 to 600",
                                         "sides 601 to 4,096", "4,096 by 4,096"};
enum { NO_BOX, ONE, DOZENS, THOUSANDS, LOTS };
static const char *const lots[LOTS] = {"no box", "one box", "2 to 60 boxes", "1,000 to 5,000 boxes"};
enum { RANDOM, CONSTANT, DOOR, GRIDS };
static const char *const grids[GRIDS] = {"level grid of random bytes", "of one byte", "as lcr_picture left it"};
enum { FIRST, INNER, LAST, WHERES };
static const char *const wheres[WHERES] = {"bad box first of several", "between others", "last of several"};
enum { EXACT, LONGER, SHORTER, ROOMS };
static const char *const rooms[ROOMS] = {"lists as long as needed", "a list longer", "a list one place short"};

static int size, lot, grid, where;
static size_t w, h;

/* ---- making a call */

static size_t side(size_t from, size_t to) {
    size_t n = from + below(to - from + 1);
    if (odds(3)) n = (n + 8) / 16 * 16 + below(3) - 1;
    return n < from || n > to ? to : n;
}
static void make_sides(void) {
    size_t most = odds(4) ? 90 : 24;
    switch (size) {
    case SMALL: w = side(1, most), h = side(1, most); break;
    case NARROW: w = side(1, 20), h = side(1, SIDE); break;
    case MIDDLE: w = side(100, 600), h = side(100, 600); break;
    case LARGE: w = side(601, SIDE), h = side(601, SIDE); break;
    default: w = h = SIDE;
    }
    if (is_wrong(OVER)) w = SIDE + 1 + below(60), h = least(h, 40);
    if (is_wrong(ZERO)) *(odds(2) ? &w : &h) = 0;
    if (odds(2)) {
        size_t t = w;
        w = h, h = t;
    }
}
/* A length below the one that is needed, one less every other time; or the one needed, or more. */
static size_t length_of(size_t need, int too_short) {
    if (too_short) return odds(2) ? need - 1 : below(need);
    return odds(2) ? need : odds(2) ? need + 1 : need + below(SLACK);
}
/* Pixels that follow the grid closely, or not at all. */
static void paint(void) {
    uint8_t *g = bytes_of(GRAY);
    const uint8_t *levels = bytes_of(LEVELS);
    size_t n = len(GRAY), across = (w + 15) / 16;
    int kind = (int)below(grid == DOOR ? 3 : 4);
    fill(GRAY);
    for (size_t i = 0; i < n && w; i++) {
        size_t x = i % w, y = i / w, cell = y / 16 * across + x / 16;
        if (kind == 0) g[i] = (x / 9 + y / 11) % 3 ? (uint8_t)(250 - g[i] % 16) : g[i] % 64;
        if (kind == 1) g[i] = g[i] % 2 ? 255 : 0;
        if (kind == 3 && cell < len(LEVELS)) g[i] = (uint8_t)(levels[cell] + g[i] % 3 - 1); /* below, at and above its level */
    }
}
static void make_picture(void) {
    static uint32_t labels[512 * 512], stack[512 * 512], regions[LCR_REGIONS];
    size_t need = w * h, cells = LCR_LEVEL_CELLS(w, h), n = is_wrong(MISCOUNT) ? odds(2) ? need + 1 : length_of(need, need > 0) : need;
    if (n == need && is_wrong(MISCOUNT)) n++;
    lend(GRAY, n), lend(LEVELS, length_of(cells, is_wrong(SHORT_LEVELS)));
    grid = (int)below(GRIDS);
    if (wrong && grid == DOOR) grid = RANDOM;
    fill(LEVELS);
    if (grid == CONSTANT) memset(bytes_of(LEVELS), odds(3) ? 0 : odds(2) ? 255 : (int)below(256), len(LEVELS));
    paint();
    if (grid == DOOR && lcr_picture(bytes_of(GRAY), n, w, h, bytes_of(LEVELS), len(LEVELS), labels, 512 * 512, stack, 512 * 512, regions))
        fail("lcr_picture refuses a picture", -1);
}
/* From a to b along a side of s pixels; `most` is the greatest length. */
static void make_part(int kind, size_t s, size_t most, uint32_t *a, uint32_t *b) {
    size_t from = below(s + 1), to = from + below(least(s - from, most) + 1);
    switch (kind) {
    case 0: from = 0, to = s; break;
    case 1: from = 0, to = below(least(s, most) + 1); break;
    case 2: to = s, from = s - below(least(s, most) + 1); break;
    case 3: to = from; break;
    case 4: from = below(s), to = from + (s > 0); break;
    case 5: from = from / 16 * 16, to = least((to + 15) / 16 * 16, s); break;
    default: break;
    }
    *a = (uint32_t)from, *b = (uint32_t)to;
}
static void make_box(uint32_t *b, size_t most) {
    int kind = (int)below(8), other = odds(3) ? (int)below(8) : kind;
    if (kind == 0 && most < SIDE && !odds(50)) kind = other = 7;
    make_part(kind, w, most, &b[0], &b[2]);
    make_part(other, h, most, &b[1], &b[3]);
}
static void spoil_box(uint32_t *b) {
    uint32_t more = odds(2) ? 1 : 1 + (uint32_t)below(odds(2) ? 20 : 1u << 31);
    if (is_wrong(X_TURNED)) b[0] = b[2] + more;
    if (is_wrong(Y_TURNED)) b[1] = b[3] + more;
    if (is_wrong(X_PAST)) b[2] = (uint32_t)w + more;
    if (is_wrong(Y_PAST)) b[3] = (uint32_t)h + more;
    if (is_wrong(X_PAST) && odds(3)) b[0] = b[2];
    if (is_wrong(Y_PAST) && odds(3)) b[1] = b[3];
    if (is_wrong(WILD)) b[below(4)] = UINT32_MAX;
}
static void make_boxes(void) {
    int bad = is_wrong(X_TURNED) || is_wrong(Y_TURNED) || is_wrong(X_PAST) || is_wrong(Y_PAST) || is_wrong(WILD);
    lot = odds(8) ? NO_BOX : odds(8) ? ONE : odds(size == SMALL ? 40 : 8) ? THOUSANDS : DOZENS;
    if (lot == NO_BOX && (bad || is_wrong(SHORT_COUNTS))) lot = ONE;
    size_t many = lot < DOZENS ? (size_t)lot : lot == DOZENS ? 2 + below(59) : 1000 + below(MANY - 999);
    lend(BOXES, 4 * many + (is_wrong(FOURS) ? 1 + below(3) : 0));
    fill(BOXES);
    for (size_t i = 0; i < many; i++) make_box(numbers_of(BOXES) + 4 * i, lot == THOUSANDS ? 64 : SIDE);
    where = -1;
    if (bad) {
        size_t i = odds(3) ? 0 : odds(2) ? many - 1 : below(many);
        if (many > 1) where = i == 0 ? FIRST : i == many - 1 ? LAST : INNER;
        spoil_box(numbers_of(BOXES) + 4 * i);
    }
    lend(COUNTS, length_of(many, is_wrong(SHORT_COUNTS)));
}
static void make(void) {
    int how = (int)below(20);
    size = call % 2000 == 1100 ? LARGEST : call % 200 == 100 ? LARGE : odds(25) ? NARROW : odds(60) ? MIDDLE : SMALL;
    wrong = how < 9 ? 0 : 1u << below(CAUSES);
    if (how > 16)
        for (int i = 0; i < CAUSES; i++) wrong |= (unsigned)odds(4) << i;
    if (size >= LARGE) wrong &= ~(1u << ZERO | 1u << OVER);
    if (is_wrong(ZERO)) wrong &= ~(1u << SHORT_LEVELS); /* no pixel, no cell */
    make_sides(), make_picture(), make_boxes();
    lend(TABLE, length_of((w + 1) * (h + 1), is_wrong(SHORT_TABLE)));
    fill(TABLE), fill(COUNTS);
    if (is_wrong(FAR)) {
        static const size_t far[] = {65536, UINT32_MAX, (size_t)1 << 32, (size_t)1 << 63, SIZE_MAX - 1, SIZE_MAX};
        size_t more = (size_t)1 << (13 + below(51)), s = odds(2) ? far[below(sizeof far / sizeof *far)] : 0;
        int both = odds(4), across = odds(2);
        if (both || across) w = s ? s : w + more; /* where it is cut to fewer bits, a side in range again */
        if (both || !across) h = s ? s : h + more;
    }
}

/* ---- what is due, by the request's words */

static uint32_t by_words(void) {
    const uint32_t *b = numbers_of(BOXES);
    size_t many = len(BOXES) / 4;
    if (w < 1 || w > SIDE || h < 1 || h > SIDE) return LCR_SIDE;
    if (len(GRAY) != w * h) return LCR_BYTES;
    if (len(LEVELS) < (w + 15) / 16 * ((h + 15) / 16) || len(TABLE) < (w + 1) * (h + 1) || len(COUNTS) < many) return LCR_LENT;
    if (len(BOXES) % 4) return LCR_BOXES;
    for (size_t i = 0; i < many; i++, b += 4)
        if (b[0] > b[2] || b[1] > b[3] || b[2] > w || b[3] > h) return LCR_BOXES;
    return LCR_OK;
}

static uint8_t ink[SIDE * SIDE]; /* 1 for each ink pixel, row by row */
static unsigned long long places, anew, counted, empty, dark;

static void find_ink(void) {
    const uint8_t *g = bytes_of(GRAY), *levels = bytes_of(LEVELS);
    for (size_t y = 0; y < h; y++)
        for (size_t x = 0; x < w; x++) ink[y * w + x] = g[y * w + x] < levels[y / 16 * ((w + 15) / 16) + x / 16];
}
/* Ink pixels from (x0, y0) to (x1, y1), one by one. */
static uint32_t count(size_t x0, size_t y0, size_t x1, size_t y1) {
    uint32_t n = 0;
    for (size_t y = y0; y < y1; y++)
        for (size_t x = x0; x < x1; x++) n += ink[y * w + x];
    return n;
}
static void count_table(uint32_t *t) {
    static uint32_t column[SIDE]; /* ink pixels of a column in the rows so far */
    memset(column, 0, sizeof column);
    for (size_t y = 0; y <= h; y++) {
        uint32_t n = 0;
        for (size_t x = 0; x <= w; x++) {
            t[y * (w + 1) + x] = w * h <= FEW ? count(0, 0, x, y) : n;
            if (x < w) n += column[x];
        }
        for (size_t x = 0; x < w && y < h; x++) column[x] += ink[y * w + x];
    }
    places += (w + 1) * (h + 1), anew += w * h <= FEW ? (w + 1) * (h + 1) : 0;
}
static void count_boxes(uint32_t *counts) {
    const uint32_t *b = numbers_of(BOXES);
    for (size_t i = 0; i < len(BOXES) / 4; i++, b += 4) {
        counts[i] = count(b[0], b[1], b[2], b[3]);
        counted++, empty += b[0] == b[2] || b[1] == b[3], dark += counts[i];
    }
}
static uint32_t due(void) {
    uint32_t no = by_words();
    if (no != by_causes()) fail("what is due by the words is not what was made wrong", -1);
    for (int k = 0; k < LISTS; k++) memcpy(list[k].after, list[k].before, len(k) * list[k].size);
    if (no) return no;
    find_ink();
    count_table((uint32_t *)(void *)list[TABLE].after);
    count_boxes((uint32_t *)(void *)list[COUNTS].after);
    return LCR_OK;
}

/* ---- one call, at both places */

static void differs(int k) {
    const List *l = &list[k];
    size_t i = 0, need = k == TABLE ? (w + 1) * (h + 1) : k == COUNTS ? len(BOXES) / 4 : l->n;
    while (!memcmp(l->at + i * l->size, l->after + i * l->size, l->size)) i++;
    if (l->size == 4) {
        uint32_t is, must;
        memcpy(&is, l->at + 4 * i, 4), memcpy(&must, l->after + 4 * i, 4);
        fprintf(stderr, "darkness: %zu by %zu, place %zu of %zu, %zu needed: %u where %u is due\n", w, h, i, l->n, need, is, must);
    }
    fail("other contents", k);
}
static void once(int begins, uint32_t no) {
    placed = begins;
    for (int k = 0; k < LISTS; k++) {
        size_t bytes = len(k) * list[k].size;
        list[k].at = begins ? list[k].area : list[k].area + list[k].room - bytes;
        memcpy(list[k].at, list[k].before, bytes);
    }
    uint32_t r = lcr_darkness(list[GRAY].at, len(GRAY), list[LEVELS].at, len(LEVELS), w, h, (uint32_t *)(void *)list[BOXES].at, len(BOXES),
                              (uint32_t *)(void *)list[TABLE].at, len(TABLE), (uint32_t *)(void *)list[COUNTS].at, len(COUNTS));
    if (r != no) {
        fprintf(stderr, "darkness: answered %u where %u is due\n", r, no);
        fail("another result", -1);
    }
    for (int k = 0; k < LISTS; k++)
        if (memcmp(list[k].at, list[k].after, len(k) * list[k].size)) differs(k);
}

/* ---- tables of the calls by kind and result */

enum { RESULTS = 5, KINDS = 2 + CAUSES + SIZES + LOTS + GRIDS + WHERES + ROOMS };
static const uint32_t results[RESULTS] = {LCR_OK, LCR_SIDE, LCR_BYTES, LCR_LENT, LCR_BOXES};
static unsigned long long tally[KINDS][RESULTS];

static void add(int kind, uint32_t no) {
    for (int i = 0; i < RESULTS; i++) tally[kind][i] += results[i] == no;
}
/* Whether one of these lists has more places than needed, or exactly one less. */
static int more_than_needed(int less) {
    size_t need[] = {LCR_LEVEL_CELLS(w, h), (w + 1) * (h + 1), len(BOXES) / 4}, has[] = {len(LEVELS), len(TABLE), len(COUNTS)};
    for (int i = 0; i < 3; i++)
        if (less ? has[i] + 1 == need[i] : has[i] > need[i]) return 1;
    return 0;
}
static void add_call(uint32_t no) {
    int k = 0, one = 0, many = 0;
    for (int i = 0; i < CAUSES; i++)
        if (is_wrong(i)) one = i, many++;
    add(many == 0 ? 0 : many == 1 ? 1 + one : 1 + CAUSES, no);
    k += 2 + CAUSES;
    if (no != LCR_SIDE) add(k + size, no);
    k += SIZES, add(k + lot, no);
    k += LOTS, add(k + grid, no);
    k += GRIDS;
    if (where >= 0) add(k + where, no);
    k += WHERES;
    if (!no) add(k + (more_than_needed(0) ? LONGER : EXACT), no);
    if (no == LCR_LENT && more_than_needed(1)) add(k + SHORTER, no);
}
static int line(int kind, const char *what) {
    unsigned long long all = 0;
    for (int i = 0; i < RESULTS; i++) all += tally[kind][i];
    printf("| %s | %llu |", what, all);
    for (int i = 0; i < RESULTS; i++) printf(tally[kind][i] ? " %llu |" : " |", tally[kind][i]);
    printf("\n");
    return kind + 1;
}
static void print(void) {
    int k = 0;
    printf("| calls with | calls | accepted | 1 | 2 | 3 | 18 |\n|---|---|---|---|---|---|---|\n");
    k = line(k, "nothing wrong");
    for (int i = 0; i < CAUSES; i++) k = line(k, causes[i].what);
    k = line(k, "several of these");
    for (int i = 0; i < SIZES; i++) k = line(k, sizes[i]);
    for (int i = 0; i < LOTS; i++) k = line(k, lots[i]);
    for (int i = 0; i < GRIDS; i++) k = line(k, grids[i]);
    for (int i = 0; i < WHERES; i++) k = line(k, wheres[i]);
    for (int i = 0; i < ROOMS; i++) k = line(k, rooms[i]);
}

int main(int argc, char **argv) {
    if (argc < 3) {
        fprintf(stderr, "darkness SEED CALLS [FIRST]\n");
        return 2;
    }
    struct sigaction s = {.sa_handler = touched};
    seed = strtoull(argv[1], 0, 10);
    unsigned long long calls = strtoull(argv[2], 0, 10), first = argc > 3 ? strtoull(argv[3], 0, 10) : 0;
    sigaction(SIGSEGV, &s, 0), sigaction(SIGBUS, &s, 0);
    make_area(GRAY, 1, SIDE * SIDE + SLACK), make_area(LEVELS, 1, 65536 + SLACK), make_area(BOXES, 4, 4 * MANY + 3);
    make_area(TABLE, 4, (SIDE + 1) * (SIDE + 1) + SLACK), make_area(COUNTS, 4, MANY + SLACK);
    for (call = first; call < first + calls; call++) {
        state = seed * 1000003 + call * 10000000000u;
        make();
        uint32_t no = due();
        once(0, no), once(1, no);
        add_call(no);
    }
    print();
    printf("\naccepted calls: %llu table places (%llu of them counted anew), %llu boxes (%llu empty) with %llu ink pixels\n", places, anew,
           counted, empty, dark);
    printf("seed %llu: %llu calls at both places, 0 different\n", seed, calls);
    return calls ? 0 : 2;
}
