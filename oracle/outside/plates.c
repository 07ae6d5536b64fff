/* Proof rings: lcr_draw_ring and lcr_read_ring beside a drawing in Python, and what the doors make of drawn rings.
 *
 *   plates drawn CELLS       every version, pose and pitch that fits, in a picture as large as it must be and in a larger one:
 *                            every byte beside the squares of cells of plates.py, blown up by the pitch; then read back, every mark
 *   plates any               lcr_read_ring on random bytes: each mark beside the byte at the centre of its cell
 *   plates refused           both functions on numbers in and out of range, each cause alone and several at once: the refusal due by
 *                            the request's words, in the order 8, 1, 2, 16, 11, and picture and marks as before
 *   plates times             nanoseconds a pixel, and a mark
 *   plates circle [FROM TO]  drawn rings of pitches FROM to TO (1 to 16) through the doors: how many are fixed as drawn, and at which
 *                            step the others fail, as tables
 *   plates try VERSION CORNER REVERSED PITCH    a drawn ring with the outline of all its ink, as `oracle/run attempt-verbose` reads it
 *
 * At the first difference it ends with 1 and what was called.
 */
#include <inttypes.h>
#include <math.h>
#include <stdio.h>
#include <stdlib.h>
#include <string.h>
#include <time.h>

#include "lcr_ring.h"
#include "random.h"

enum { SIDE = 4096, PITCHES = 16, POSES = 8, MOST = 16 * 64 + 88 };
static uint8_t gray[(SIDE + 1) * (SIDE + 1)];

static size_t below(size_t n) { return (size_t)(next() % n); }
static size_t cells_of(uint32_t version) { return 17 + 4 * (size_t)version + 6; }
static size_t positions_of(uint32_t version) { return 16 * (size_t)version + 88; }
static size_t need_of(uint32_t version, uint32_t pitch) { return (17 + 4 * (size_t)version + 10) * pitch; }

static uint32_t version, pitch, corner; /* of the call that is made */
static bool reversed;

static void fail(const char *what, size_t at) {
    fprintf(stderr, "plates: version %" PRIu32 ", pitch %" PRIu32 ", corner %" PRIu32 "%s: %s %zu\n", version, pitch, corner,
            reversed ? ", reversed" : "", what, at);
    exit(1);
}
static double now(void) {
    struct timespec t;
    clock_gettime(CLOCK_MONOTONIC, &t);
    return (double)t.tv_sec * 1e9 + (double)t.tv_nsec;
}

/* ---- drawn: every byte beside the cells of plates.py */

static double next_best; /* the greatest share of positions that agree at a pose other than the drawn one */

/* A ring into a picture of w by h that held other bytes before, and the marks read from it. */
static void hold(const uint8_t *cells, const uint8_t *moved, size_t w, size_t h) {
    static uint8_t row[SIDE];
    static bool marks[MOST];
    size_t s = cells_of(version), n = positions_of(version);
    memset(gray, 90, w * h);
    uint32_t no = lcr_draw_ring(version, pitch, corner, reversed, gray, w * h, w, h);
    if (no) fail("not drawn, refused by", no);
    for (size_t y = 0; y < h; y++) {
        size_t cell = y / pitch;
        if (y % pitch == 0) {
            memset(row, 255, w);
            for (size_t x = 0; cell >= 2 && cell < s + 2 && x < s; x++) memset(row + (x + 2) * pitch, cells[(cell - 2) * s + x], pitch);
        }
        if (memcmp(row, gray + y * w, w)) fail("another byte in row", y);
    }
    no = lcr_read_ring(version, pitch, gray, w * h, w, h, marks, n);
    if (no) fail("not read, refused by", no);
    for (size_t p = 0; p < n; p++)
        if (marks[p] != moved[p]) fail("another mark at position", p);
    float score;
    size_t at;
    bool is;
    uint16_t counts[POSES];
    no = lcr_correlate(version, marks, n, &score, &at, &is, counts);
    if (no || score != 1 || at != corner || is != reversed) fail("another pose by lcr_correlate, corner", at);
    for (size_t k = 0; k < POSES; k++)
        if ((counts[k] == n) != (k == corner + 4 * reversed)) fail("positions that agree at pose", k);
        else if (counts[k] < n && (double)counts[k] / (double)n > next_best) next_best = (double)counts[k] / (double)n;
}
static void drawn(const char *name) {
    static uint8_t cells[(17 + 4 * 64 + 6) * (17 + 4 * 64 + 6)], moved[MOST];
    uint64_t pictures = 0, pixels = 0, marks = 0;
    FILE *from = fopen(name, "rb");
    if (!from) perror("plates"), exit(2);
    state = 3;
    for (version = 1; version <= LCR_VERSIONS; version++)
        for (int pose = 0; pose < POSES; pose++) {
            size_t s = cells_of(version), n = positions_of(version);
            if (fread(cells, s * s, 1, from) != 1 || fread(moved, n, 1, from) != 1) fail("no cells of pose", (size_t)pose);
            corner = (uint32_t)pose % 4, reversed = pose >= 4;
            for (pitch = 1; pitch <= PITCHES && need_of(version, pitch) <= SIDE; pitch++)
                for (int larger = 0; larger < 2; larger++) {
                    size_t need = need_of(version, pitch), room = SIDE - need, most = room < 60 || !below(40) ? room : 60;
                    size_t w = need + (larger ? below(most + 1) : 0), h = need + (larger ? below(most + 1) : 0);
                    if (larger && w == need && h == need && room) w++;
                    hold(cells, moved, w, h);
                    pictures++, pixels += w * h, marks += n;
                }
        }
    fclose(from);
    printf("drawn beside Python: %" PRIu64 " pictures, every version, pose and pitch that fits, ", pictures);
    printf("half of them larger than they must be; %" PRIu64 " pixels, %" PRIu64 " marks read back, 0 different\n", pixels, marks);
    printf("poses: all positions agree at the drawn one only; at another at most %.3f of them\n", next_best);
}

/* ---- any: marks of random pictures */

static void any(void) {
    enum { CALLS = 4000 };
    static bool marks[MOST];
    uint64_t read = 0, light = 0;
    state = 4;
    for (int i = 0; i < CALLS; i++) {
        do version = 1 + (uint32_t)below(64), pitch = 1 + (uint32_t)below(PITCHES);
        while (need_of(version, pitch) > (i % 100 ? 700 : SIDE));
        size_t need = need_of(version, pitch), n = positions_of(version), s = cells_of(version);
        size_t w = need + below(SIDE - need < 30 ? SIDE - need + 1 : 30), h = need + below(SIDE - need < 30 ? SIDE - need + 1 : 30);
        for (size_t k = 0; k < w * h; k += 8) {
            uint64_t word = next();
            memcpy(gray + k, &word, 8);
        }
        if (lcr_read_ring(version, pitch, gray, w * h, w, h, marks, n)) fail("not read, call", (size_t)i);
        for (size_t p = 0; p < n; p++) {
            size_t e = s - 1, k = p % e, edge = p / e;
            size_t x = edge == 0 ? k : edge == 1 ? e : edge == 2 ? e - k : 0, y = edge == 0 ? 0 : edge == 1 ? k : edge == 2 ? e : e - k;
            bool is = gray[((y + 2) * pitch + pitch / 2) * w + (x + 2) * pitch + pitch / 2] >= 128;
            if (marks[p] != is) fail("another mark at position", p);
            light += is;
        }
        read += n;
    }
    printf("read from random bytes: %d pictures, %" PRIu64 " marks, %" PRIu64 " of them light, 0 different\n", CALLS, read, light);
}

/* ---- refused: what is due by the request's words, and what is wrong with a call */

enum { CAUSES = 5 };
static const uint32_t number_of[CAUSES] = {LCR_VERSION, LCR_SIDE, LCR_BYTES, LCR_PLATE, LCR_MARKS};

/* A bit of each cause that a call has: a version, a side, as many bytes, a plate, as many marks. */
static unsigned causes(size_t bytes, size_t w, size_t h, bool reads, size_t marks) {
    bool is = version >= 1 && version <= 64, sides = w >= 1 && w <= SIDE && h >= 1 && h <= SIDE;
    bool plate = pitch >= 1 && pitch <= 16 && (reads || corner <= 3);
    if (is && plate && (w < need_of(version, pitch) || h < need_of(version, pitch))) plate = false;
    return (is ? 0 : 1u) | (sides ? 0 : 2u) | (bytes == w * h ? 0 : 4u) | (plate ? 0 : 8u) |
           (reads && is && marks != positions_of(version) ? 16u : 0);
}
static uint64_t alone[2][CAUSES], among[2][CAUSES], accepted[2]; /* calls by what refuses them: the one cause, or the first of several */

static void tell(unsigned wrong, uint32_t no, bool reads) {
    int first = 0;
    if (!wrong) {
        if (no) fail("refused for nothing by", no);
        accepted[reads]++;
        return;
    }
    while (!(wrong >> first & 1)) first++;
    if (no != number_of[first]) fail("another result than due", no);
    (wrong >> first == 1 ? alone : among)[reads][first]++;
}
static void call_draw(size_t bytes, size_t w, size_t h) {
    static uint8_t before[sizeof gray];
    unsigned wrong = causes(bytes, w, h, false, 0);
    if (!before[0]) memset(before, 90, sizeof before);
    uint32_t no = lcr_draw_ring(version, pitch, corner, reversed, gray, bytes, w, h);
    tell(wrong, no, false);
    if (no && memcmp(gray, before, bytes)) fail("a refused call wrote, refusal", no);
    if (!no) memset(gray, 90, bytes);
}
static void call_read(size_t bytes, size_t w, size_t h, size_t count) {
    static bool marks[4 * MOST], before[4 * MOST];
    for (size_t i = 0; i < 4 * MOST; i++) marks[i] = before[i] = i % 3 == 0;
    uint32_t no = lcr_read_ring(version, pitch, gray, bytes, w, h, marks, count);
    tell(causes(bytes, w, h, true, count), no, true);
    size_t from = no ? 0 : count;
    if (memcmp(marks + from, before + from, 4 * MOST - from)) fail("marks changed that were not to, result", no);
}
/* Both functions at the version, pitch and corner that are set, with sides and lengths near those needed and far from them. */
static void calls_at(void) {
    uint32_t v = version % 256 >= 1 && version % 256 <= 64 ? version % 256 : 1, p = pitch % 256 >= 1 && pitch % 256 <= 16 ? pitch % 256 : 1;
    size_t need = need_of(v, p), n = positions_of(v);
    const size_t sides[] = {need, need + 1, need - 1, 0, 1, SIDE, SIDE + 1, need + 65536, need + ((size_t)1 << 32), SIZE_MAX};
    const size_t counts[] = {n, n - 1, n + 1, 0, n + 256};
    enum { SIDES = sizeof sides / sizeof *sides, COUNTS = sizeof counts / sizeof *counts };
    for (int a = 0; a < SIDES; a++)
        for (int b = 0; b < SIDES; b++) {
            if (sides[a] / SIDE == 1 && sides[b] / SIDE == 1 && (corner % 4 || reversed)) continue; /* 16 MB each */
            size_t w = sides[a], h = sides[b], all = w > SIDE + 1 || h > SIDE + 1 ? need < SIDE ? need * need : 1 : w * h;
            for (int c = 0; c < 4; c++) {
                size_t bytes = c == 0 ? all : c == 1 ? all + 1 : c == 2 && all ? all - 1 : 0;
                if (bytes > sizeof gray) continue;
                call_draw(bytes, w, h);
                if (corner == 0 && !reversed)
                    for (int d = 0; d < COUNTS; d++) call_read(bytes, w, h, counts[d]);
            }
        }
}
static void refused(void) {
    static const uint32_t versions[] = {1, 6, 0, 65, 128, 255, 256, 257, 320, 65537, UINT32_MAX};
    static const uint32_t pitches[] = {1, 3, 0, 17, 255, 256, 257, 65537, UINT32_MAX};
    static const uint32_t corners[] = {0, 3, 4, 255, 256, 257, 65536, UINT32_MAX};
    memset(gray, 90, sizeof gray);
    for (size_t a = 0; a < sizeof versions / sizeof *versions; a++)
        for (size_t b = 0; b < sizeof pitches / sizeof *pitches; b++)
            for (size_t c = 0; c < sizeof corners / sizeof *corners; c++)
                for (int d = 0; d < 2; d++) version = versions[a], pitch = pitches[b], corner = corners[c], reversed = d, calls_at();
    /* the largest pitches: what just fits, and what does not fit in any picture */
    for (version = 1; version <= LCR_VERSIONS; version++)
        for (pitch = 14; pitch <= 17; pitch++) {
            size_t need = need_of(version, pitch), w = need > SIDE ? SIDE : need;
            corner = 0, reversed = false;
            call_draw(w * w, w, w), call_draw((w - 1) * w, w - 1, w), call_draw(w * (w - 1), w, w - 1);
            call_read(w * w, w, w, positions_of(version));
        }
    printf("| refused by | `lcr_draw_ring`: cause alone | first of several | `lcr_read_ring`: cause alone | first of several |\n");
    printf("|---|---|---|---|---|\n");
    for (int k = 0; k < CAUSES; k++)
        printf("| %" PRIu32 " | %" PRIu64 " | %" PRIu64 " | %" PRIu64 " | %" PRIu64 " |\n", number_of[k], alone[0][k], among[0][k],
               alone[1][k], among[1][k]);
    printf("accepted beside them: %" PRIu64 " and %" PRIu64 "; 0 different, ", accepted[0], accepted[1]);
    printf("pictures and marks of refused calls as before\n");
}

/* ---- times */

/* Nanoseconds of a call, the least of some. */
static double draw_time(size_t w, int rounds) {
    double least = 1e18;
    for (int i = 0; i < rounds; i++) {
        double t = now();
        if (lcr_draw_ring(version, pitch, corner, reversed, gray, w * w, w, w)) fail("not drawn, side", w);
        t = now() - t;
        if (t < least) least = t;
    }
    return least;
}
static double fill_time(size_t bytes, int rounds) {
    double least = 1e18;
    for (int i = 0; i < rounds; i++) {
        double t = now();
        memset(gray, 255, bytes);
        __asm__ volatile("" : : "r"(gray) : "memory");
        t = now() - t;
        if (t < least) least = t;
    }
    return least;
}
static double read_time(size_t w, int rounds) {
    static bool marks[MOST];
    double least = 1e18;
    for (int i = 0; i < rounds; i++) {
        double t = now();
        if (lcr_read_ring(version, pitch, gray, w * w, w, w, marks, positions_of(version))) fail("not read, side", w);
        t = now() - t;
        if (t < least) least = t;
    }
    return least;
}
static void times(void) {
    static const uint32_t at[][3] = {{1, 1, 0},  {1, 3, 0},  {1, 16, 0}, {7, 8, 0},   {20, 1, 0},   {20, 8, 0},
                                     {40, 4, 0}, {64, 1, 0}, {64, 14, 0}, {1, 1, SIDE}, {64, 14, SIDE}};
    printf("| version | pitch | side in pixels | µs a picture | ns a pixel | `memset`, ns a pixel | read back, ns a mark |\n");
    printf("|---|---|---|---|---|---|---|\n");
    for (size_t k = 0; k < sizeof at / sizeof *at; k++) {
        version = at[k][0], pitch = at[k][1], corner = 1, reversed = true;
        size_t w = at[k][2] ? at[k][2] : need_of(version, pitch);
        int rounds = w < 300 ? 2000 : w < 1500 ? 200 : 15;
        double draw = draw_time(w, rounds), read = read_time(w, rounds), fill = fill_time(w * w, rounds), pixels = (double)(w * w);
        printf("| %" PRIu32 " | %" PRIu32 " | %zu | %.1f | %.3f | %.3f | %.2f |\n", version, pitch, w, draw / 1e3, draw / pixels,
               fill / pixels, read / (double)positions_of(version));
    }
    double sum = 0, pixels = 0, worst = 0;
    uint32_t at_version = 0, at_pitch = 0, over = 0, all = 0;
    for (version = 1; version <= LCR_VERSIONS; version++)
        for (pitch = 1; pitch <= PITCHES && need_of(version, pitch) <= SIDE; pitch++) {
            size_t w = need_of(version, pitch);
            double t = draw_time(w, w < 300 ? 200 : 5), n = (double)(w * w);
            sum += t, pixels += n, all++, over += t / n > 1;
            if (t / n > worst) worst = t / n, at_version = version, at_pitch = pitch;
        }
    printf("every version and pitch that fits, %" PRIu32 " pictures: %.3f ns a pixel over all, ", all, sum / pixels);
    printf("above 1 in %" PRIu32 ", at most %.3f (version %" PRIu32 " at pitch %" PRIu32 ")\n", over, worst, at_version, at_pitch);
}

/* ---- circle: drawn rings through the doors */

enum { LEVELS = 256 * 256, LABELS = 512 * 512, NUMBERS = LCR_NUMBERS(SIDE, SIDE) };
static uint8_t levels[LEVELS];
static uint32_t labels[LABELS], stack[LABELS], regions[LCR_REGIONS];
static float points[NUMBERS], straight[NUMBERS], cand[NUMBERS], buf[NUMBERS];
static size_t side, many; /* of the picture, in pixels; points in the list */

/* An attempt: how far it gets, and what it answers. */
enum { FIXED, OTHERWISE, SCORED, UNTRIED, NO_QUAD, STEPS, EXPERIMENTS = 4 /* pitches up to here */ };
typedef struct {
    int step;     /* FIXED as drawn, or OTHERWISE; SCORED: the own version has a score, and no fix; UNTRIED: it has none; NO_QUAD */
    double best;  /* the greatest score */
    bool lens;    /* a fix or a fallback, with a lens in its transform */
} Try;

/* Whether a fix or a fallback is of the drawn version and pose: its direction, and position 0 in the drawn corner. */
static bool as_drawn(const double fix[15]) {
    double from = 2 * (double)pitch, to = (double)(side - 2 * pitch);
    float x, y;
    lcr_apply(fix + 4, -3, -3, &x, &y);
    double dx = x - (corner == 1 || corner == 2 ? to : from), dy = y - (corner >= 2 ? to : from);
    return fix[0] == version && (fix[3] != 0) == reversed && hypot(dx, dy) < (to - from) / 4;
}
static Try attempt(void) {
    Try t = {NO_QUAD, 0, false};
    size_t hull, tried;
    bool found, own = false;
    float quad[8], scores[LCR_SCORES];
    double fix[15], fallback[15];
    if (lcr_attempt(gray, side * side, side, side, points, 2 * many, 64, straight, NUMBERS, cand, NUMBERS, buf, NUMBERS, &hull, &found,
                    quad, &tried, scores, fix, fallback))
        fail("lcr_attempt refuses its points", many);
    for (size_t k = 0; k < tried; k++) {
        own |= scores[4 * k] == (float)version;
        if (scores[4 * k + 1] > t.best) t.best = scores[4 * k + 1];
    }
    if (fix[0] != 0) t.step = as_drawn(fix) ? FIXED : OTHERWISE;
    else if (fallback[0] != 0 && !as_drawn(fallback)) t.step = OTHERWISE;
    else if (found) t.step = own ? SCORED : UNTRIED;
    t.lens = fix[14] != 0 || fallback[14] != 0;
    return t;
}
static void outline(uint32_t want, size_t x0, size_t y0, size_t x1, size_t y1) {
    if (lcr_outline(gray, side * side, levels, LEVELS, labels, LABELS, want, side, side, x0, y0, x1, y1, points, NUMBERS, &many))
        fail("lcr_outline refuses a box, label", want);
}
static void draw(void) {
    side = need_of(version, pitch);
    if (lcr_draw_ring(version, pitch, corner, reversed, gray, side * side, side, side)) fail("not drawn, side", side);
    if (lcr_picture(gray, side * side, side, side, levels, LEVELS, labels, LABELS, stack, LABELS, regions))
        fail("lcr_picture refuses, side", side);
}
/* What lcr_find answers: 1 as drawn, 0 nothing, -1 otherwise. */
static int find(void) {
    size_t total, hull, tried;
    bool found;
    float quad[8], scores[LCR_SCORES];
    double fix[15], fallback[15];
    if (lcr_find(gray, side * side, side, side, 64, levels, LEVELS, labels, LABELS, stack, LABELS, points, NUMBERS, straight, NUMBERS, cand,
                 NUMBERS, buf, NUMBERS, &total, &hull, &found, quad, &tried, scores, fix, fallback))
        fail("lcr_find refuses, side", side);
    return fix[0] == 0 ? 0 : as_drawn(fix) ? 1 : -1;
}

/* The points of the four corner cells, as a run of any length would give them, and of the whole square. */
static void put(double x, double y) { points[2 * many] = (float)x, points[2 * many + 1] = (float)y, many++; }
static void put_corners(size_t far) {
    double from = 2 * (double)pitch, to = (double)side - from;
    for (size_t k = 0; k < far; k++) {
        double a = from + (double)k + 0.5, b = to - (double)k - 0.5;
        put(from, a), put(to, a), put(from, b), put(to, b);
        put(a, from), put(b, from), put(a, to), put(b, to);
    }
}
/* Drops all points but those along the square's edges: others lie on the inner side of a dark cell, where the cell across is light. */
static bool near(double x) { return fabs(x - 2 * (double)pitch) < 1 || fabs(x - (double)(side - 2 * pitch)) < 1; }
static void keep_edges(void) {
    size_t all = many;
    many = 0;
    for (size_t k = 0; k < all; k++)
        if (near(points[2 * k]) || near(points[2 * k + 1])) put(points[2 * k], points[2 * k + 1]);
}
/* How many corner cells have no dark cell beside them: corner cells are dark in every version. */
static int lone_corners(void) {
    int lone = 0;
    size_t n = positions_of(version);
    for (size_t p = 0; p < n; p += n / 4) {
        bool is, after, before;
        lcr_sequence_light(version, p, &is), lcr_sequence_light(version, p + 1, &after), lcr_sequence_light(version, p + n - 1, &before);
        if (is) fail("a light corner, position", p);
        lone += after && before;
    }
    return lone;
}

/* Counts of a pitch. */
typedef struct {
    int pictures, whole;                /* pictures; those with one region */
    int kept, all, find, promoted;      /* fixed as drawn: by a kept region itself, by all ink, by lcr_find, and there by a fallback only */
    int other;                          /* another version or pose, in any answer */
    int lens, edge_lens;                /* a lens in the answer on all ink; and still on its points along the square's edges only */
    int steps[STEPS], nothing;          /* not fixed by lcr_find: how far the try gets that gets farthest; nothing is tried */
    int low;                            /* of those SCORED: the greatest score is below 0.75 */
    int corners, square;                /* fixed: all ink with the corner cells' points; the whole square's outline */
    int untried;                        /* on the whole square's outline the own version is not tried */
    int lone[5][3];                     /* by corner cells without a dark neighbour: pictures, fixed by all ink, fixed by lcr_find */
} Count;
static Count count[PITCHES + 1];
static int poses[PITCHES + 1][LCR_VERSIONS + 1]; /* fixed by lcr_find, of eight */

/* Two attempts on other points than the outline door gives: all ink's with those of the four corner cells, and the whole square's. */
static void experiments(Count *c) {
    put_corners(pitch);
    c->corners += attempt().step == FIXED;
    many = 0, put_corners((side - 4 * pitch) / 2 + 1);
    Try t = attempt();
    c->square += t.step == FIXED, c->untried += t.step == UNTRIED;
}
static void why(Count *c, const Try *tries, int n) {
    Try far = {STEPS, 0, false};
    for (int i = 0; i < n; i++)
        if (tries[i].step < far.step || (tries[i].step == far.step && tries[i].best > far.best)) far = tries[i];
    if (n == 0) c->nothing++;
    else c->steps[far.step]++, c->low += far.step == SCORED && far.best < 0.75;
}
static void circle_one(void) {
    Count *c = &count[pitch];
    Try tries[5], all;
    int n = 0, *lone = c->lone[lone_corners()];
    bool fixed = false;
    draw();
    for (uint32_t k = 0; k < regions[1]; k++) {
        const uint32_t *r = regions + 2 + 6 * k;
        outline(r[0], r[2], r[3], r[4], r[5]);
        tries[n] = attempt();
        c->other += tries[n].step == OTHERWISE;
        fixed |= tries[n++].step == FIXED;
    }
    outline(0, 0, 0, side, side);
    all = attempt();
    c->other += all.step == OTHERWISE, c->lens += all.lens;
    if (pitch <= EXPERIMENTS) experiments(c);
    if (all.lens) outline(0, 0, 0, side, side), keep_edges(), c->edge_lens += attempt().lens;
    if (regions[0] > 1) tries[n++] = all; /* the finder's last try */
    int answer = find();
    c->pictures++, c->whole += regions[0] == 1, c->other += answer < 0;
    c->kept += fixed, c->all += all.step == FIXED, c->find += answer > 0;
    c->promoted += answer > 0 && !fixed && !(regions[0] > 1 && all.step == FIXED);
    lone[0]++, lone[1] += all.step == FIXED, lone[2] += answer > 0;
    poses[pitch][version] += answer > 0;
    if (answer == 0) why(c, tries, n);
}

static void table_fixed(uint32_t from, uint32_t to) {
    printf("| pitch | rings | in one region | fixed: a kept region | all ink | `lcr_find` | of these by a fallback | fixed otherwise | ");
    printf("a lens in all ink | in its points along the edges |\n|---|---|---|---|---|---|---|---|---|---|\n");
    for (uint32_t p = from; p <= to; p++) {
        const Count *c = &count[p];
        printf("| %" PRIu32 " | %d | %d | %d | %d | %d | %d | %d | %d | %d |\n", p, c->pictures, c->whole, c->kept, c->all, c->find,
               c->promoted, c->other, c->lens, c->edge_lens);
    }
}
static void table_steps(uint32_t from, uint32_t to) {
    printf("\n| pitch | not fixed by `lcr_find` | nothing tried | no quad | own version not tried | ");
    printf("greatest score below 0.75 | 0.75 and more |\n|---|---|---|---|---|---|---|\n");
    for (uint32_t p = from; p <= to; p++) {
        const Count *c = &count[p];
        if (c->find < c->pictures)
            printf("| %" PRIu32 " | %d | %d | %d | %d | %d | %d |\n", p, c->pictures - c->find, c->nothing, c->steps[NO_QUAD],
                   c->steps[UNTRIED], c->low, c->steps[SCORED] - c->low);
    }
    printf("\n| pitch | all ink | and the corner cells' points | the whole square's outline | own version not tried there |\n");
    printf("|---|---|---|---|---|\n");
    for (uint32_t p = from; p <= to && p <= EXPERIMENTS; p++)
        printf("| %" PRIu32 " | %d | %d | %d | %d |\n", p, count[p].all, count[p].corners, count[p].square, count[p].untried);
}
/* Pitches at which some are found and some are not: by corner cells without a dark neighbour, and by version. */
static void table_versions(uint32_t p) {
    printf("\n| pitch | lone corners | rings | fixed: all ink | `lcr_find` |\n|---|---|---|---|---|\n");
    for (int k = 0; k < 5; k++)
        if (count[p].lone[k][0])
            printf("| %" PRIu32 " | %d | %d | %d | %d |\n", p, k, count[p].lone[k][0], count[p].lone[k][1], count[p].lone[k][2]);
    for (int n = POSES; n >= 0; n--) {
        int found = 0;
        for (uint32_t v = 1; v <= LCR_VERSIONS && need_of(v, p) <= SIDE; v++) {
            if (poses[p][v] != n) continue;
            if (!found++) printf("\npitch %" PRIu32 ", %d of 8 poses fixed by `lcr_find`: versions", p, n);
            printf(" %" PRIu32, v);
        }
    }
    printf("\n");
}
static void circle(uint32_t from, uint32_t to) {
    for (pitch = from; pitch <= to; pitch++)
        for (version = 1; version <= LCR_VERSIONS && need_of(version, pitch) <= SIDE; version++)
            for (int pose = 0; pose < POSES; pose++) corner = (uint32_t)pose % 4, reversed = pose >= 4, circle_one();
    table_fixed(from, to), table_steps(from, to);
    for (uint32_t p = from; p <= to; p++)
        if (count[p].find && count[p].find < count[p].pictures) table_versions(p);
}

/* ---- try: an attempt as the driver reads it */

static void put_word(uint32_t x) {
    for (int k = 0; k < 4; k++) putchar((int)(x >> 8 * k & 255));
}
static void attempt_case(void) {
    draw(), outline(0, 0, 0, side, side);
    put_word((uint32_t)side), put_word((uint32_t)side), put_word(64), put_word((uint32_t)(side * side)), put_word((uint32_t)(2 * many));
    fwrite(gray, 1, side * side, stdout);
    for (size_t k = 0; k < 2 * many; k++) {
        uint32_t bits;
        memcpy(&bits, &points[k], 4), put_word(bits);
    }
}

static uint32_t number(const char *text) { return (uint32_t)strtoul(text, 0, 10); }

int main(int argc, char **argv) {
    const char *word = argc > 1 ? argv[1] : "";
    if (!strcmp(word, "drawn") && argc == 3) drawn(argv[2]);
    else if (!strcmp(word, "any")) any();
    else if (!strcmp(word, "refused")) refused();
    else if (!strcmp(word, "times")) times();
    else if (!strcmp(word, "circle")) circle(argc > 3 ? number(argv[2]) : 1, argc > 3 ? number(argv[3]) : PITCHES);
    else if (!strcmp(word, "try") && argc == 6)
        version = number(argv[2]), corner = number(argv[3]), reversed = number(argv[4]) != 0, pitch = number(argv[5]), attempt_case();
    else return fprintf(stderr, "plates drawn CELLS | any | refused | times | circle [FROM TO] | try VERSION CORNER REVERSED PITCH\n"), 2;
    return 0;
}
