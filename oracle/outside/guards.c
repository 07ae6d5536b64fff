/* Every C function of include/lcr_ring.h on lists at guard pages.
 *
 *   guards SEED CALLS [NAME]    CALLS random calls of each function, or of the one named
 *
 * Each call is made twice on equal contents: every list and out-parameter once ends where a page without access
 * begins, and once begins where one ends. A touch outside ends the program; so does the first of these that
 * fails, with 1 and the call's seed:
 *   the result and what every list holds afterwards are equal in both (a NaN equals a NaN);
 *   the result is the refusal that the rules' table, for PGM files, rows, proof rings and whole numbers its change request, has for
 *   these sizes, numbers and bytes, or none where there is none; what is read of a PGM file, and written, is what was made; a drawn proof
 *   ring has bytes 0 and 255 only, and marks that are read are those of the bytes at the cells' centres; doubled numbers are twice the
 *   given ones, and vertices and corners in whole numbers are among the points;
 *   lists that are only read are as before, on a refusal or LCR_NONE all lists are;
 *   in an accepted call the places past those needed are as before.
 *
 * Before these calls, numbers that are no version (65, 256, 257, 4,294,967,295 among them) are handed to every function
 * that takes one, and each must be refused by 8.
 *
 * The calls of a function run on a stack of their own, filled with one byte before: of each function it prints how
 * many bytes of it were used, this program's own frames among them.
 */
#define _GNU_SOURCE
#include <math.h>
#include <pthread.h>
#include <signal.h>
#include <stdio.h>
#include <stdlib.h>
#include <string.h>
#include <sys/mman.h>
#include <unistd.h>

#include "lcr_ring.h"
#include "random.h"

enum { AREA = 1 << 20, LISTS = 16, ANY = 1000 };

static size_t below(size_t n) { return (size_t)(next() % (n ? n : 1)); }
static int odds(int in) { return below((size_t)in) == 0; }

/* ---- lists: their contents before the call, and their place in it */

typedef struct {
    size_t n, size;      /* elements, and bytes of each */
    int written;         /* lent, or only read */
    int real;            /* floats: 4 or 8, else 0 */
    size_t need;         /* elements that an accepted call may change; all where it is left at ANY */
    uint8_t *before;     /* contents before the call */
    uint8_t *area;       /* AREA bytes between two pages without access */
    uint8_t *at;         /* where the list lies in this call */
} List;

static List list[LISTS];
static int lists;
static uint8_t after[LISTS][AREA];
static const char *name;
static uint64_t call_seed;
static int placed;

static void fail(const char *what, int k) {
    fprintf(stderr, "guards: %s, call seed %llu: %s (list %d)\n", name, (unsigned long long)call_seed, what, k);
    exit(1);
}
static void touched(int sig) {
    static const char text[] = "guards: a touch outside a list: ";
    char seed[24];
    int i = 23;
    (void)sig;
    seed[i] = '\n';
    for (uint64_t s = call_seed; i > 0 && (s || i == 23); s /= 10) seed[--i] = (char)('0' + s % 10);
    if (write(2, text, sizeof text - 1) < 0 || write(2, name, strlen(name)) < 0) _exit(1);
    if (write(2, placed ? " (begins) seed " : " (ends) seed ", placed ? 15 : 13) < 0) _exit(1);
    if (write(2, seed + i, (size_t)(24 - i)) < 0) _exit(1);
    _exit(1);
}
static void make_areas(void) {
    size_t page = (size_t)sysconf(_SC_PAGESIZE);
    for (int i = 0; i < LISTS; i++) {
        uint8_t *p = mmap(0, AREA + 2 * page, PROT_READ | PROT_WRITE, MAP_PRIVATE | MAP_ANONYMOUS, -1, 0);
        list[i].before = malloc(AREA);
        if (p == MAP_FAILED || !list[i].before || mprotect(p, page, PROT_NONE) ||
            mprotect(p + page + AREA, page, PROT_NONE)) {
            perror("guards");
            exit(2);
        }
        list[i].area = p + page;
    }
}
/* A list of n elements with random bytes; its contents. */
static void *add(size_t n, size_t size, int written, int real) {
    List *l = &list[lists++];
    if (n * size > AREA) {
        fprintf(stderr, "guards: %s wants a list of %zu bytes\n", name, n * size);
        exit(2);
    }
    l->n = n, l->size = size, l->written = written, l->real = real, l->need = ANY * ANY;
    for (size_t i = 0; i < n * size; i += 8) {
        uint64_t w = next();
        memcpy(l->before + i, &w, n * size - i < 8 ? n * size - i : 8);
    }
    return l->before;
}
static void *at(int k) { return list[k].at; }
static size_t len(int k) { return list[k].n; }

/* ---- random values */

static size_t near(size_t n) { return odds(4) ? n : odds(3) ? n + below(20) : odds(8) ? n - below(n + 1) : n + below(3); }
static float number(int kind) {
    float x;
    uint32_t b = (uint32_t)next();
    switch (kind) {
    case 0: return (float)below(2048) / 2;
    case 1: return (float)((double)next() / 1.8446744073709552e19 * 600 - 50);
    case 2: return (float)below(4);
    default:
        memcpy(&x, &b, 4);
        return odds(6) ? (float)NAN : odds(6) ? (float)INFINITY : odds(6) ? -0.0f : x;
    }
}
static void floats(float *to, size_t n, int kind, int strange) {
    for (size_t i = 0; i < n; i++) to[i] = number(strange && odds(strange) ? 3 : kind);
}
static void doubles(double *to, size_t n) {
    int kind = (int)below(3), strange = odds(5) ? 6 : 0;
    for (size_t i = 0; i < n; i++) to[i] = (strange && odds(strange)) ? (double)number(3) : (double)number(kind) - (double)number(1) / 3;
}
/* Numbers that are no version, some with the last byte of one. */
static const uint32_t no_version[] = {0, 65, 255, 256, 257, 320, 65537, UINT32_MAX};
enum { NO_VERSIONS = sizeof no_version / sizeof *no_version };
static uint32_t version(void) {
    return odds(8) ? odds(2) ? no_version[below(NO_VERSIONS)] : (uint32_t)next() : (uint32_t)(1 + below(odds(3) ? 64 : 6));
}
/* The positions of a version; of another number those that its last byte would have. */
static size_t positions_of(uint32_t v) { return 16u * (v % 256) + 88u; }
static int is_version(uint32_t v) { return v >= 1 && v <= 64; }
static int32_t coordinate(void) {
    return odds(8) ? (int32_t)(uint32_t)next() : odds(8) ? (odds(2) ? 32766 : -32770) + (int32_t)below(4) : (int32_t)below(40) - 8;
}
static int in_range(int32_t c) { return c >= -32768 && c <= 32767; }

/* A picture: a side now and then out of range, the bytes now and then not as many. */
static size_t side_of(size_t most) { return odds(30) ? (odds(2) ? 0 : 4097 + below(1000)) : 1 + below(odds(3) ? 24 : most); }
static void paint(uint8_t *p, size_t n, size_t w) {
    int kind = (int)below(5);
    size_t shapes = 1 + below(6);
    if (kind == 0) return;
    memset(p, kind == 1 ? 128 : 255, n);
    if (w == 0) return;
    for (size_t s = 0; s < shapes; s++) {
        size_t x0 = below(w), y0 = below(n / w + 1), sw = 1 + below(60), sh = 1 + below(60);
        uint8_t v = (uint8_t)(odds(2) ? 0 : below(200));
        for (size_t y = y0; y < y0 + sh && y < n / w; y++)
            for (size_t x = x0; x < x0 + sw && x < w; x++) p[y * w + x] = v;
    }
    if (kind == 4)
        for (size_t i = 0; i < n; i++)
            if (odds(9)) p[i] = (uint8_t)next();
}
/* A ring of a version into a picture w pixels wide. */
static void draw_ring(uint8_t *p, size_t w, uint32_t v, size_t pitch) {
    uint16_t side;
    size_t n;
    int turn = (int)below(4), mirrored = odds(2);
    lcr_version(v, &side, &n);
    size_t s = (size_t)side + 6;
    for (size_t i = 0; i < n; i++) {
        bool light;
        int32_t x, y;
        lcr_sequence_light(v, i, &light);
        lcr_outer_cell(v, i, &x, &y);
        if (light) continue;
        x += 3, y += 3;
        if (mirrored) x = (int32_t)s - 1 - x;
        for (int t = 0; t < turn; t++) {
            int32_t o = x;
            x = (int32_t)s - 1 - y, y = o;
        }
        for (size_t a = 0; a < pitch; a++) memset(p + (((size_t)y + 2) * pitch + a) * w + ((size_t)x + 2) * pitch, (int)below(40), pitch);
    }
}
/* Some rings of a version side by side in a picture of their own: list 0, and its sides. */
static void rings(size_t many, size_t *w, size_t *h) {
    uint32_t v = (uint32_t)(1 + below(3));
    size_t pitch = 3 + below(3), wide = (17 + 4 * v + 10) * pitch, gap = 24;
    *w = many * wide + (many - 1) * gap, *h = wide;
    uint8_t *p = add(*w * *h, 1, 0, 0);
    memset(p, 255, *w * *h);
    for (size_t k = 0; k < many; k++) draw_ring(p + k * (wide + gap), *w, v, pitch);
}
static uint32_t picture_check(size_t bytes, size_t w, size_t h) {
    if (w < 1 || w > 4096 || h < 1 || h > 4096) return LCR_SIDE;
    return bytes == w * h ? LCR_OK : LCR_BYTES;
}
static void gray(size_t most, size_t *w, size_t *h) {
    *w = side_of(most), *h = side_of(odds(20) ? 4096 : most);
    if (*h > most && *w > 40) *w = 1 + below(40);
    size_t n = *w * *h;
    if (n > 200000 || odds(25)) n = below(500);
    paint(add(n, 1, 0, 0), n, *w);
}

/* ---- the functions: `make` makes lists and the refusal to expect, `call` calls */

static size_t w, h, box[4], size;
static uint32_t want, word;
static uint32_t ver;
static int32_t cell[2];
static float place[3];

static uint32_t make_picture(void) {
    gray(200, &w, &h);
    size_t l = LCR_LEVEL_CELLS(w % 5000, h % 5000), c = LCR_REGION_CELLS(w % 5000, h % 5000);
    if (c > 100000) l = c = 100;
    add(near(l), 1, 1, 0), add(near(c), 4, 1, 0), add(near(c), 4, 1, 0), add(LCR_REGIONS, 4, 1, 0);
    list[1].need = l, list[2].need = list[3].need = c;
    uint32_t no = picture_check(len(0), w, h);
    return no ? no : len(1) < l || len(2) < c || len(3) < c ? LCR_LENT : LCR_OK;
}
static uint32_t call_picture(void) {
    return lcr_picture(at(0), len(0), w, h, at(1), len(1), at(2), len(2), at(3), len(3), at(4));
}

static uint32_t make_outline(void) {
    gray(120, &w, &h);
    size_t l = LCR_LEVEL_CELLS(w % 5000, h % 5000), c = LCR_REGION_CELLS(w % 5000, h % 5000);
    if (c > 100000) l = c = 100;
    uint8_t *levels = add(near(l), 1, 0, 0);
    uint32_t *labels = add(near(c), 4, 0, 0);
    int flat = odds(2);
    for (size_t i = 0; i < len(1); i++) levels[i] = flat ? 128 : levels[i];
    for (size_t i = 0; i < len(2); i++) labels[i] = (uint32_t)below(flat ? 2 : 4);
    word = (uint32_t)below(3);
    for (int i = 0; i < 2; i++) {
        size_t s = i ? h : w, a = below(s), b = a + 1 + below(s - a);
        box[i] = odds(15) ? below(s + 3) : odds(3) ? 0 : a, box[2 + i] = odds(15) ? below(s + 3) : odds(3) ? s : b;
    }
    int fits = box[0] < box[2] && box[2] <= w && box[1] < box[3] && box[3] <= h;
    size_t room = fits ? 4 * (box[2] - box[0] + box[3] - box[1]) : 8;
    add(near(room), 4, 1, 4), add(1, sizeof(size_t), 1, 0);
    uint32_t no = picture_check(len(0), w, h);
    if (no) return no;
    return !fits ? LCR_BOX : len(1) < l || len(2) < c || len(3) < room ? LCR_LENT : LCR_OK;
}
static uint32_t call_outline(void) {
    size_t *points = at(4);
    uint32_t r = lcr_outline(at(0), len(0), at(1), len(1), at(2), len(2), word, w, h, box[0], box[1], box[2], box[3], at(3), len(3), points);
    if (r == LCR_OK) list[3].need = 2 * *points;
    return r;
}

/* Boxes within the picture; now and then one is not, or a number too many. */
static void boxes(size_t n) {
    uint32_t *b = add(4 * n + (odds(12) ? 1 + below(3) : 0), 4, 0, 0);
    for (size_t i = 0; i < 2 * n; i++) {
        size_t s = i % 2 ? h : w, k = i / 2 * 4 + i % 2, from = below(s + 1);
        b[k] = (uint32_t)from, b[k + 2] = (uint32_t)(odds(4) ? s : from + below(s - from + 1));
    }
    if (n && odds(6)) b[below(4 * n)] = odds(3) ? UINT32_MAX : (uint32_t)below(w + h + 3);
}
static int boxes_fit(const uint32_t *b, size_t n) {
    for (size_t i = 0; i < n; i += 4)
        if (b[i] > b[i + 2] || b[i + 1] > b[i + 3] || b[i + 2] > w || b[i + 3] > h) return 0;
    return n % 4 == 0;
}
static uint32_t make_darkness(void) {
    gray(120, &w, &h);
    size_t l = LCR_LEVEL_CELLS(w % 5000, h % 5000), t = (w % 5000 + 1) * (h % 5000 + 1), n = below(odds(30) ? 2000 : 40);
    if (t > 200000) l = t = 100;
    add(near(l), 1, 0, 0), boxes(n), add(near(t), 4, 1, 0), add(near(n), 4, 1, 0);
    list[3].need = t, list[4].need = n;
    uint32_t no = picture_check(len(0), w, h);
    if (no) return no;
    if (len(1) < l || len(3) < t || len(4) < n) return LCR_LENT;
    return boxes_fit((const uint32_t *)(void *)list[2].before, len(2)) ? LCR_OK : LCR_BOXES;
}
static uint32_t call_darkness(void) {
    return lcr_darkness(at(0), len(0), at(1), len(1), w, h, at(2), len(2), at(3), len(3), at(4), len(4));
}

static uint32_t make_hull(void) {
    size_t n = odds(4) ? below(300) : below(30);
    floats(add(n, 4, 0, 4), n, (int)below(3), odds(4) ? 9 : 0);
    add(near(n), 4, 1, 4), add(1, sizeof(size_t), 1, 0);
    return len(1) < n ? LCR_LENT : LCR_OK;
}
static uint32_t call_hull(void) {
    size_t *vertices = at(2);
    uint32_t r = lcr_convex_hull(at(0), len(0), at(1), len(1), vertices);
    if (r == LCR_OK) list[1].need = 2 * *vertices;
    return r;
}

static uint32_t make_quad(void) {
    size_t n = odds(4) ? below(300) : below(30);
    floats(add(n, 4, 0, 4), n, (int)below(3), odds(4) ? 9 : 0);
    add(8, 4, 1, 4);
    return ANY;
}
static uint32_t call_quad(void) { return lcr_quad(at(0), len(0), at(1)); }

/* Whole points, or their halves: now and then a number too many, more than 16,384 points, or a number out of range. */
enum { MOST_WHOLE = 8192, BEYOND = 21 };
static size_t points_len(int long_ones) {
    size_t n = 2 * (odds(4) ? below(150) : below(15)) + (odds(12) ? 1 : 0);
    return odds(300) ? 32769 - (size_t)long_ones * 3 + below(6) : n;
}
static uint32_t whole_check(size_t n, size_t room) {
    if (n % 2 || n > 32768) return LCR_POINTS;
    return room < n ? LCR_LENT : LCR_OK;
}
static uint32_t make_doubled(void) {
    size_t n = points_len(1), side = odds(2) ? 10 : MOST_WHOLE;
    uint32_t no = LCR_OK;
    float *p = add(n, 4, 0, 4);
    for (size_t i = 0; i < n; i++) p[i] = (float)below(side + 1) / 2;
    if (n && odds(4)) p[below(n)] = odds(2) ? number((int)below(4)) : odds(2) ? -0.0f : 4095.75f + (float)below(4) / 4;
    add(near(n), 4, 1, 0);
    list[1].need = n;
    for (size_t i = 0; i < n; i++)
        if (!(p[i] >= 0 && p[i] <= MOST_WHOLE / 2 && floorf(p[i] * 2) == p[i] * 2)) no = BEYOND;
    return whole_check(n, len(1)) ? whole_check(n, len(1)) : no;
}
static uint32_t call_doubled(void) {
    const float *p = at(0);
    const uint32_t *out = at(1);
    uint32_t r = lcr_doubled(at(0), len(0), at(1), len(1));
    for (size_t i = 0; r == LCR_OK && i < len(0); i++)
        if ((float)out[i] != 2 * p[i]) fail("another number than the double", 1);
    return r;
}
/* A list of whole points, and the refusal that a number out of range has. */
static uint32_t wholes(size_t n) {
    size_t side = odds(3) ? 3 : odds(2) ? 60 : MOST_WHOLE, from = below(MOST_WHOLE - side + 1);
    uint32_t *p = add(n, 4, 0, 0);
    for (size_t i = 0; i < n; i++) p[i] = (uint32_t)(from + below(side + 1));
    if (n && odds(4)) p[below(n)] = odds(3) ? MOST_WHOLE : odds(2) ? MOST_WHOLE + 1 : (uint32_t)next();
    for (size_t i = 0; i < n; i++)
        if (p[i] > MOST_WHOLE) return BEYOND;
    return LCR_OK;
}
static void among_points(const uint32_t *q, size_t n, int k) {
    const uint32_t *p = at(0);
    for (size_t i = 0, j; i < n; i++) {
        for (j = 0; j < len(0) && (p[j] != q[2 * i] || p[j + 1] != q[2 * i + 1]); j += 2) {}
        if (j >= len(0)) fail("a vertex or corner that is no point", k);
    }
}
static uint32_t make_whole_hull(void) {
    size_t n = points_len(1);
    uint32_t no = wholes(n);
    add(near(n), 4, 1, 0), add(1, sizeof(size_t), 1, 0);
    return whole_check(n, len(1)) ? whole_check(n, len(1)) : no;
}
static uint32_t call_whole_hull(void) {
    size_t *vertices = at(2);
    uint32_t r = lcr_whole_hull(at(0), len(0), at(1), len(1), vertices);
    if (r == LCR_OK) list[1].need = 2 * *vertices, among_points(at(1), *vertices, 1);
    return r;
}
static uint32_t make_whole_quad(void) {
    size_t n = points_len(0);
    uint32_t no = wholes(n);
    add(8, 4, 1, 0);
    return whole_check(n, n) ? whole_check(n, n) : no ? no : ANY;
}
static uint32_t call_whole_quad(void) {
    uint32_t r = lcr_whole_quad(at(0), len(0), at(1));
    if (r == LCR_OK) among_points(at(1), 4, 1);
    return r;
}

/* The boundary points of list 0's first region, as points of an attempt; else random ones. */
static size_t outlined(float *to, size_t most) {
    static uint8_t levels[4096];
    static uint32_t labels[8192], stack[8192], r[LCR_REGIONS];
    size_t n;
    if (lcr_picture(list[0].before, len(0), w, h, levels, 4096, labels, 8192, stack, 8192, r) || !r[1]) return 0;
    if (lcr_outline(list[0].before, len(0), levels, 4096, labels, 8192, r[2], w, h, r[4], r[5], r[6], r[7], to, most, &n)) return 0;
    return 2 * n;
}
static uint32_t make_attempt(void) {
    static float found[16384];
    size_t n = 0;
    if (odds(4)) {
        rings(1, &w, &h);
        n = outlined(found, 16384);
    } else {
        gray(100, &w, &h);
        if (odds(2)) n = outlined(found, 16384);
    }
    if (!n) n = odds(300) ? 32768 + below(4) : 2 * below(odds(4) ? 60 : 8) + (odds(12) ? 1 : 0), floats(found, n < 16384 ? n : 16384, (int)below(3), 0);
    float *p = add(n, 4, 0, 4);
    for (size_t i = 0; i < n; i++) p[i] = found[i % 16384];
    if (n && odds(8)) p[below(n)] = odds(2) ? 32768.0f : number(3);
    add(near(n), 4, 1, 4), add(near(n), 4, 1, 4), add(near(n), 4, 1, 4);
    list[2].need = list[3].need = list[4].need = n;
    add(1, sizeof(size_t), 1, 0), add(1, 1, 1, 0), add(8, 4, 1, 4), add(1, sizeof(size_t), 1, 0);
    add(LCR_SCORES, 4, 1, 4), add(15, 8, 1, 8), add(15, 8, 1, 8);
    ver = odds(3) ? 64 : version();
    uint32_t no = picture_check(len(0), w, h);
    if (no) return no;
    if (n % 2 || n > 32768) return LCR_POINTS;
    if (len(2) < n || len(3) < n || len(4) < n) return LCR_LENT;
    for (size_t i = 0; i < n; i++)
        if (!(fabsf(p[i]) <= 32768.0f)) return LCR_COORDINATE;
    return is_version(ver) ? LCR_OK : LCR_VERSION;
}
static size_t fixes, fallbacks, nones;
static uint32_t call_attempt(void) {
    double *fix = at(10), *fallback = at(11);
    bool *is = at(6);
    uint32_t r = lcr_attempt(at(0), len(0), w, h, at(1), len(1), ver, at(2), len(2), at(3), len(3), at(4), len(4), at(5), is,
                             at(7), at(8), at(9), fix, fallback);
    if (r == LCR_OK) fixes += fix[0] != 0, fallbacks += fallback[0] != 0, nones += !*is;
    return r;
}

/* The picture and the seven lists that both entries of the finder are lent; now and then one of these is too short. */
static uint32_t make_entry(void) {
    if (odds(3))
        rings(odds(2) ? 1 : 1 + below(5), &w, &h);
    else
        gray(120, &w, &h);
    size_t l = LCR_LEVEL_CELLS(w % 5000, h % 5000), c = LCR_REGION_CELLS(w % 5000, h % 5000), n = 4 * (w + h), few = below(40);
    if (c > 100000) l = c = 100;
    size_t need[] = {0, l, c, c, n, n, n, n};
    for (size_t i = 1; i < 8; i++) {
        size_t room = i == few && need[i] ? need[i] - (odds(2) ? 1 : 1 + below(need[i])) : need[i] + (odds(2) ? 0 : below(20));
        add(room, i == 1 ? 1 : 4, 1, i < 4 ? 0 : 4);
        list[i].need = need[i];
    }
    ver = odds(3) ? 64 : version();
    uint32_t no = picture_check(len(0), w, h);
    if (no) return no;
    for (int i = 1; i < 8; i++)
        if (len(i) < need[i]) return LCR_LENT;
    return is_version(ver) ? LCR_OK : LCR_VERSION;
}
static uint32_t make_find(void) {
    uint32_t no = make_entry();
    add(1, sizeof(size_t), 1, 0), add(1, sizeof(size_t), 1, 0), add(1, 1, 1, 0), add(8, 4, 1, 4), add(1, sizeof(size_t), 1, 0);
    add(LCR_SCORES, 4, 1, 4), add(15, 8, 1, 8), add(15, 8, 1, 8);
    return no;
}
static size_t finds, tags, calls_with_tags;
static uint32_t call_find(void) {
    double *fix = at(14);
    uint32_t r = lcr_find(at(0), len(0), w, h, ver, at(1), len(1), at(2), len(2), at(3), len(3), at(4), len(4), at(5), len(5),
                          at(6), len(6), at(7), len(7), at(8), at(9), at(10), at(11), at(12), at(13), fix, at(15));
    if (r == LCR_OK) finds += fix[0] != 0;
    return r;
}
static uint32_t make_tags(void) {
    uint32_t no = make_entry();
    add(1, sizeof(size_t), 1, 0), add(LCR_TAGS, 4, 1, 4);
    return no;
}
static uint32_t call_tags(void) {
    size_t *many = at(8);
    uint32_t r = lcr_tags(at(0), len(0), w, h, ver, at(1), len(1), at(2), len(2), at(3), len(3), at(4), len(4), at(5), len(5),
                          at(6), len(6), at(7), len(7), many, at(9));
    if (r == LCR_OK) tags += *many, calls_with_tags += *many > 0;
    return r;
}

static uint32_t make_version(void) {
    ver = version();
    add(1, 2, 1, 0), add(1, sizeof(size_t), 1, 0);
    return is_version(ver) ? LCR_OK : LCR_VERSION;
}
static uint32_t call_version(void) { return lcr_version(ver, at(0), at(1)); }

static uint32_t make_cell(void) {
    ver = version(), cell[0] = coordinate(), cell[1] = coordinate();
    add(1, sizeof(size_t), 1, 0), add(1, 4, 1, 0);
    return !is_version(ver) ? LCR_VERSION : in_range(cell[0]) && in_range(cell[1]) ? LCR_OK : LCR_CELL;
}
static uint32_t make_place(void) {
    uint32_t no = make_cell();
    return no ? no : ANY;
}
static uint32_t call_shell(void) { return lcr_shell(ver, cell[0], cell[1], at(0)); }
static uint32_t call_edge(void) { return lcr_edge_and_offset(ver, cell[0], cell[1], at(0), at(1)); }
static uint32_t call_position(void) { return lcr_position(ver, cell[0], cell[1], at(0)); }

static uint32_t make_step(void) {
    ver = version(), size = odds(8) ? (size_t)next() : below(1300);
    add(1, 4, 1, 0), add(1, 4, 1, 0), add(1, 1, 1, 0);
    return is_version(ver) ? LCR_OK : LCR_VERSION;
}
static uint32_t call_outer(void) { return lcr_outer_cell(ver, size, at(0), at(1)); }
static uint32_t call_inner(void) { return lcr_inner_cell(ver, size, at(0), at(1)); }
static uint32_t call_light(void) { return lcr_sequence_light(ver, size, at(2)); }

static size_t marks_of(void) {
    ver = version();
    return odds(10) ? below(1200) : positions_of(ver);
}
static uint32_t make_classify(void) {
    size_t n = marks_of(), m = odds(10) ? below(1200) : positions_of(ver);
    floats(add(n, 4, 0, 4), n, (int)below(3), odds(4) ? 20 : 0);
    add(m, 1, 1, 0);
    return !is_version(ver) ? LCR_VERSION : n == positions_of(ver) && m == n ? LCR_OK : LCR_MARKS;
}
static uint32_t call_classify(void) { return lcr_classify(ver, at(0), len(0), at(1), len(1)); }

static uint32_t make_split(void) {
    size_t n = odds(12) ? below(60) : 4 + below(30);
    float *v = add(n, 4, 0, 4);
    floats(v, n, (int)below(3), odds(6) ? 20 : 0);
    add(1, 4, 1, 4), add(1, 4, 1, 0);
    if (n < 4 || n > 33) return LCR_SIZE;
    for (size_t i = 0; i < n; i++)
        if (!isfinite(v[i])) return LCR_VALUE;
    return LCR_OK;
}
static uint32_t call_split(void) { return lcr_split(at(0), len(0), at(1), at(2)); }

static uint32_t make_correlate(void) {
    size_t n = marks_of();
    uint8_t *m = add(n, 1, 0, 0);
    for (size_t i = 0; i < n; i++) m[i] &= 1;
    add(1, 4, 1, 4), add(1, sizeof(size_t), 1, 0), add(1, 1, 1, 0), add(8, 2, 1, 0);
    return !is_version(ver) ? LCR_VERSION : n == positions_of(ver) ? LCR_OK : LCR_MARKS;
}
static uint32_t call_correlate(void) { return lcr_correlate(ver, at(0), len(0), at(1), at(2), at(3), at(4)); }

static uint32_t make_from_quad(void) {
    for (int i = 0; i < 2; i++) floats(add(8, 4, 0, 4), 8, (int)below(3), odds(5) ? 8 : 0);
    add(11, 8, 1, 8);
    return ANY;
}
static uint32_t call_from_quad(void) { return lcr_from_quad(at(0), at(1), at(2)); }

static uint32_t make_map(void) {
    size_t n = below(60);
    for (int i = 0; i < 3; i++) place[i] = number(odds(9) ? 3 : (int)below(3));
    doubles(add(11, 8, 0, 8), 11);
    add(1, 4, 1, 4), add(1, 4, 1, 4);
    floats(add(n, 4, 0, 4), n, (int)below(3), odds(4) ? 9 : 0);
    add(near(n), 4, 1, 4);
    list[4].need = n / 2 * 2;
    return LCR_OK;
}
static uint32_t call_apply(void) { return lcr_apply(at(0), place[0], place[1], at(1), at(2)); }
static uint32_t make_map_all(void) {
    make_map();
    return len(4) < len(3) ? LCR_LENT : LCR_OK;
}
static uint32_t call_apply_all(void) { return lcr_apply_all(at(0), at(3), len(3), at(4), len(4)); }
static uint32_t make_radial(void) {
    make_map();
    list[0].written = 1;
    return LCR_OK;
}
static uint32_t call_radial(void) { return lcr_with_radial(at(0), place[0], place[1], place[2]); }

static uint32_t make_solve(void) {
    size = odds(8) ? below(12) : 1 + below(8);
    size_t a = odds(12) ? below(80) : size * size, b = odds(12) ? below(10) : size;
    doubles(add(a, 8, 0, 8), a), doubles(add(b, 8, 0, 8), b), add(8, 8, 1, 8);
    return size < 1 || size > 8 || a != size * size || b != size ? LCR_SIZE : ANY;
}
static uint32_t call_solve(void) { return lcr_solve(at(0), len(0), at(1), len(1), size, at(2)); }

static uint32_t make_fit(void) {
    size = odds(8) ? below(12) : 1 + below(8);
    size_t rows = below(40), a = odds(12) ? below(80) : size * rows, b = odds(12) ? below(10) : rows;
    doubles(add(a, 8, 0, 8), a), doubles(add(b, 8, 0, 8), b), add(8, 8, 1, 8);
    return size < 1 || size > 8 || a % size || a / size != b ? LCR_SIZE : ANY;
}
static uint32_t call_fit(void) { return lcr_least_squares(at(0), len(0), at(1), len(1), size, at(2)); }

static uint32_t make_values(void) {
    size_t n = odds(40) ? 4090 + below(12) : below(odds(3) ? 300 : 20);
    float *v = add(n, 4, 0, 4);
    floats(v, n, (int)below(3), odds(6) ? 40 : 0);
    add(1, 4, 1, 4);
    if (n > 4096) return LCR_SIZE;
    for (size_t i = 0; i < n; i++)
        if (!isfinite(v[i]) || (v[i] == 0 && signbit(v[i]))) return LCR_VALUE;
    return LCR_OK;
}
static uint32_t call_sigma(void) { return lcr_mad_sigma(at(0), len(0), at(1)); }
static uint32_t make_median(void) {
    uint32_t no = make_values();
    list[0].written = 1;
    return no;
}
static uint32_t call_median(void) { return lcr_median(at(0), len(0), at(1)); }

/* ---- PGM files: the header is made here, so that what is wrong with it is known */

static uint8_t header[12000];
static size_t head, plain[12000], plains; /* bytes of the header; the places that are not of a comment, and how many */

/* A byte of the header, after comments where there are any. */
static void put(int c, int comments) {
    while (comments && head < 10000 && odds(6)) {
        header[head++] = '#';
        for (size_t k = below(9); k > 0; k--) header[head++] = (uint8_t)"#5 \tx\377"[below(6)];
        header[head++] = (uint8_t)"\r\n"[below(2)];
    }
    plain[plains++] = head;
    header[head++] = (uint8_t)c;
}
static int space(void) { return " \r\n\t\v\f"[below(6)]; }
static void put_number(size_t n, int comments) {
    char text[24];
    size_t spaces = odds(60) ? 4050 + below(40) : odds(3) ? 1 + below(4) : 1, zeros = odds(60) ? 4050 + below(40) : odds(3) ? below(4) : 0;
    if (head + spaces + zeros > 4500) spaces = 1, zeros = 0;
    for (; spaces > 0; spaces--) put(space(), comments && spaces < 9);
    for (; zeros > 0; zeros--) put('0', comments && zeros < 9);
    snprintf(text, sizeof text, "%zu", n);
    for (const char *c = text; *c; c++) put(*c, comments);
}
/* A file as list 0, now and then cut or broken behind its letters; its refusal, where a side over `limit` is refused by 13. */
static uint32_t make_file(size_t most, size_t limit) {
    size_t maximum = odds(20) ? odds(4) ? 0 : below(70000) : 255;
    int comments = odds(2), broken = odds(15);
    w = side_of(odds(20) ? 4096 : most), h = side_of(most);
    head = plains = 0;
    put('P', 0), put('5', 0);
    put_number(w, comments), put_number(h, comments), put_number(maximum, comments), put(space(), comments);
    if (broken) header[plain[2 + below(plains - 2)]] = (uint8_t)"x-./:\0\205\240"[below(8)];
    size_t n = w * h > 200000 ? below(500) : w * h;
    n = odds(15) ? below(head + n) : head + n + (odds(3) ? below(9) : 0);
    uint8_t *f = add(n, 1, 0, 0);
    if (odds(2)) paint(f, n, w);
    memcpy(f, header, n < head ? n : head);
    if (broken || n < head || head > 4096) return LCR_HEADER;
    if (maximum != 255) return LCR_MAXIMUM;
    if (picture_check(w * h, w, h)) return LCR_SIDE;
    return w > limit || h > limit ? LCR_RECORD : n - head < w * h ? LCR_BYTES : LCR_OK;
}
static uint32_t make_read(void) {
    uint32_t no = make_file(200, 4096);
    for (int i = 0; i < 3; i++) add(1, sizeof(size_t), 1, 0);
    if (len(0) && odds(20)) *list[0].before ^= 1, no = LCR_HEADER;
    return no;
}
static uint32_t call_read(void) {
    size_t *got[3] = {at(1), at(2), at(3)};
    uint32_t r = lcr_pgm_read(at(0), len(0), got[0], got[1], got[2]);
    if (r == LCR_OK && (*got[0] != w || *got[1] != h || *got[2] != head)) fail("other sides or pixels", 0);
    return r;
}
static uint32_t make_write(void) {
    gray(200, &w, &h);
    head = (size_t)snprintf((char *)header, sizeof header, "P5\n%zu\n%zu\n255\n", w, h);
    size_t n = head + len(0);
    add(near(n), 1, 1, 0), add(1, sizeof(size_t), 1, 0);
    list[1].need = n;
    uint32_t no = picture_check(len(0), w, h);
    return no ? no : len(1) < n ? LCR_LENT : LCR_OK;
}
static uint32_t call_write(void) {
    uint8_t *out = at(1);
    size_t *n = at(2);
    uint32_t r = lcr_pgm_write(at(0), len(0), w, h, out, len(1), n);
    if (r == LCR_OK && (*n != head + len(0) || memcmp(out, header, head) || memcmp(out + head, at(0), len(0)))) fail("another file", 1);
    return r;
}

static uint32_t make_tray_file(void) {
    uint32_t no = make_file(160, 160);
    add(LCR_TEXT, 1, 1, 0), add(1, sizeof(size_t), 1, 0);
    return len(0) < 2 ? LCR_RECORD : no;
}
static uint32_t make_listing(void) {
    if (odds(3)) return make_tray_file();
    size_t a = 1 + below(odds(4) ? 160 : 60), b = 1 + below(odds(4) ? 160 : 60), rest = 6 + a * b;
    size_t n = odds(12) ? below(4 + rest) : 4 + rest + (odds(3) ? below(9) : 0), kind = odds(20) ? below(4) : 1;
    uint32_t said = (uint32_t)(odds(20) ? rest + below(3) : rest);
    uint8_t *r = add(n, 1, 0, 0), head[10];
    if (odds(20)) a = odds(2) ? 0 : 161 + below(99);
    memcpy(head, &said, 4);
    head[4] = (uint8_t)kind, head[5] = 0, head[6] = (uint8_t)a, head[7] = (uint8_t)(a >> 8), head[8] = (uint8_t)b, head[9] = (uint8_t)(b >> 8);
    if (n > 10) paint(r + 10, n - 10, a);
    memcpy(r, head, n < 10 ? n : 10);
    add(LCR_TEXT, 1, 1, 0), add(1, sizeof(size_t), 1, 0);
    return n < 10 || kind != 1 || a < 1 || a > 160 || said != 6 + a * b || n < 10 + a * b ? LCR_RECORD : LCR_OK;
}
static uint32_t call_listing(void) { return lcr_listing(at(0), len(0), at(1), at(2)); }

/* A shortest run, a row's pixels and two places, now and then out of range; the count is an out-parameter. */
static uint32_t row[4];
static uint32_t check_row(void) { return row[0] < 2 || row[0] > 8 ? LCR_RUN : row[1] > 60 ? LCR_ROW : LCR_OK; }
static uint32_t make_row(void) {
    row[0] = odds(10) ? odds(2) ? (uint32_t)below(12) : (uint32_t)next() : (uint32_t)(2 + below(7));
    row[1] = odds(10) ? odds(2) ? (uint32_t)(58 + below(6)) : (uint32_t)next() : (uint32_t)below(61);
    add(1, 8, 1, 0);
    return check_row();
}
static uint32_t call_without(void) { return lcr_rows_without(row[0], row[1], at(0)); }
static uint32_t make_places(void) {
    make_row();
    for (int i = 2; i < 4; i++) row[i] = odds(12) ? odds(2) ? row[1] : (uint32_t)next() : (uint32_t)below(row[1]);
    return check_row() ? check_row() : row[2] >= row[1] || row[3] >= row[1] ? LCR_ROW : LCR_OK;
}
static uint32_t call_with(void) { return lcr_rows_with(row[0], row[1], row[2], row[3], at(0)); }

/* Proof rings: sides near those that version and pitch need, or any; now and then a number out of range. */
static uint32_t pitch, corner;
static uint32_t make_plate(int reads) {
    ver = odds(10) ? version() : (uint32_t)(1 + below(odds(3) ? 64 : 8));
    pitch = odds(10) ? odds(2) ? (uint32_t)below(20) : (uint32_t)next() : (uint32_t)(1 + below(odds(3) ? 16 : 4));
    corner = odds(10) ? odds(2) ? (uint32_t)below(8) : (uint32_t)next() : (uint32_t)below(4);
    size_t cells = 27 + 4 * (size_t)(ver % 256), is = pitch >= 1 && pitch <= 16;
    if (is && cells * pitch > 900) pitch = 1;
    size_t need = is ? cells * pitch : cells;
    w = odds(12) ? side_of(900) : near(need), h = odds(12) ? side_of(900) : near(need);
    size_t n = w * h > AREA ? below(500) : odds(25) ? below(w * h + 2) : w * h;
    add(n, 1, !reads, 0), word = (uint32_t)below(2);
    list[0].need = n;
    if (!is_version(ver)) return LCR_VERSION;
    uint32_t no = picture_check(n, w, h);
    if (no) return no;
    return !is || (!reads && corner > 3) || w < need || h < need ? LCR_PLATE : LCR_OK;
}
static uint32_t make_draw(void) { return make_plate(0); }
static uint32_t call_draw(void) {
    const uint8_t *g = at(0);
    uint32_t r = lcr_draw_ring(ver, pitch, corner, word, at(0), len(0), w, h);
    for (size_t i = 0; r == LCR_OK && i < len(0); i++)
        if (g[i] != 0 && g[i] != 255) fail("another byte than 0 and 255", 0);
    return r;
}
static uint32_t make_read_ring(void) {
    uint32_t no = make_plate(1);
    size_t n = positions_of(ver);
    add(odds(12) ? below(n + 20) : n, 1, 1, 0);
    return no ? no : len(1) != n ? LCR_MARKS : LCR_OK;
}
static uint32_t call_read_ring(void) {
    const uint8_t *g = at(0);
    const bool *marks = at(1);
    uint32_t r = lcr_read_ring(ver, pitch, at(0), len(0), w, h, at(1), len(1));
    for (size_t p = 0; r == LCR_OK && p < len(1); p++) {
        int32_t x, y;
        lcr_outer_cell(ver, p, &x, &y);
        size_t px = (size_t)(x + 5) * pitch + pitch / 2, py = (size_t)(y + 5) * pitch + pitch / 2;
        if (marks[p] != (g[py * w + px] >= 128)) fail("another mark than the byte at its cell's centre", 1);
    }
    return r;
}

static const struct {
    const char *name;
    uint32_t (*make)(void), (*call)(void);
} doors[] = {
    {"lcr_picture", make_picture, call_picture}, {"lcr_outline", make_outline, call_outline},
    {"lcr_convex_hull", make_hull, call_hull}, {"lcr_quad", make_quad, call_quad},
    {"lcr_attempt", make_attempt, call_attempt}, {"lcr_version", make_version, call_version},
    {"lcr_shell", make_cell, call_shell}, {"lcr_edge_and_offset", make_cell, call_edge},
    {"lcr_position", make_place, call_position}, {"lcr_outer_cell", make_step, call_outer},
    {"lcr_inner_cell", make_step, call_inner}, {"lcr_sequence_light", make_step, call_light},
    {"lcr_classify", make_classify, call_classify}, {"lcr_split", make_split, call_split},
    {"lcr_correlate", make_correlate, call_correlate},
    {"lcr_from_quad", make_from_quad, call_from_quad}, {"lcr_with_radial", make_radial, call_radial},
    {"lcr_apply", make_map, call_apply}, {"lcr_apply_all", make_map_all, call_apply_all},
    {"lcr_solve", make_solve, call_solve}, {"lcr_least_squares", make_fit, call_fit},
    {"lcr_median", make_median, call_median}, {"lcr_mad_sigma", make_values, call_sigma},
    {"lcr_pgm_read", make_read, call_read}, {"lcr_pgm_write", make_write, call_write},
    {"lcr_listing", make_listing, call_listing}, {"lcr_find", make_find, call_find},
    {"lcr_tags", make_tags, call_tags}, {"lcr_rows_without", make_row, call_without},
    {"lcr_rows_with", make_places, call_with}, {"lcr_darkness", make_darkness, call_darkness},
    {"lcr_draw_ring", make_draw, call_draw}, {"lcr_read_ring", make_read_ring, call_read_ring},
    {"lcr_doubled", make_doubled, call_doubled}, {"lcr_whole_hull", make_whole_hull, call_whole_hull},
    {"lcr_whole_quad", make_whole_quad, call_whole_quad},
};

/* ---- one call, at both places */

static int same(const List *l, const uint8_t *a, const uint8_t *b, size_t from) {
    for (size_t i = from; i < l->n; i++) {
        const uint8_t *x = a + i * l->size, *y = b + i * l->size;
        if (!memcmp(x, y, l->size)) continue;
        float p, q;
        double s, t;
        if (l->real == 4 && (memcpy(&p, x, 4), memcpy(&q, y, 4), p != p && q != q)) continue;
        if (l->real == 8 && (memcpy(&s, x, 8), memcpy(&t, y, 8), s != s && t != t)) continue;
        return 0;
    }
    return 1;
}
static uint32_t once(int door, int begins) {
    placed = begins;
    for (int i = 0; i < lists; i++) {
        size_t bytes = list[i].n * list[i].size;
        list[i].at = begins ? list[i].area : list[i].area + AREA - bytes;
        memcpy(list[i].at, list[i].before, bytes);
    }
    return doors[door].call();
}
static uint32_t both(int door) {
    lists = 0;
    want = doors[door].make();
    uint32_t a = once(door, 0);
    for (int i = 0; i < lists; i++) {
        const List *l = &list[i];
        memcpy(after[i], l->at, l->n * l->size);
        if ((!l->written || a) && memcmp(l->at, l->before, l->n * l->size)) fail("a list has changed", i);
        if (a == 0 && l->need < l->n && memcmp(l->at + l->need * l->size, l->before + l->need * l->size, (l->n - l->need) * l->size))
            fail("a place past those needed has changed", i);
    }
    if (want == ANY ? a != LCR_OK && a != LCR_NONE : a != want) {
        fprintf(stderr, "answered %u where %u is due\n", a, want);
        fail("another result", -1);
    }
    if (once(door, 1) != a) fail("another result at the other place", -1);
    for (int i = 0; i < lists; i++)
        if (!same(&list[i], after[i], list[i].at, 0)) fail("other contents at the other place", i);
    return a;
}

/* ---- every number that is no version, handed to every function that takes one: refused by 8 */

static void refuse_versions(void) {
    enum { MOST = 16 * 255 + 88 };
    static float lumas[MOST];
    static bool marks[MOST];
    uint8_t g[4] = {0};
    uint16_t side, eight[8];
    size_t a, b, c;
    int32_t x, y;
    bool is;
    float s, lent[3], quad[8], scores[LCR_SCORES], four[4][16], all[LCR_TAGS];
    uint8_t level;
    uint32_t label, one;
    double fix[15], fallback[15];
    for (int i = 0; i < NO_VERSIONS; i++) {
        uint32_t v = no_version[i];
        size_t n = positions_of(v);
        uint32_t answers[] = {
            lcr_version(v, &side, &a), lcr_shell(v, 0, 0, &a), lcr_edge_and_offset(v, 0, 0, &a, &x), lcr_position(v, 0, 0, &a),
            lcr_outer_cell(v, 0, &x, &y), lcr_inner_cell(v, 0, &x, &y), lcr_sequence_light(v, 0, &is),
            lcr_classify(v, lumas, n, marks, n), lcr_correlate(v, marks, n, &s, &a, &is, eight),
            lcr_attempt(g, 4, 2, 2, lumas, 0, v, lent, 1, lent + 1, 1, lent + 2, 1, &a, &is, quad, &b, scores, fix, fallback),
            lcr_find(g, 4, 2, 2, v, &level, 1, &label, 1, &one, 1, four[0], 16, four[1], 16, four[2], 16, four[3], 16, &a, &c, &is, quad,
                     &b, scores, fix, fallback),
            lcr_tags(g, 4, 2, 2, v, &level, 1, &label, 1, &one, 1, four[0], 16, four[1], 16, four[2], 16, four[3], 16, &a, all),
            lcr_draw_ring(v, 1, 0, false, g, 4, 2, 2), lcr_read_ring(v, 1, g, 4, 2, 2, marks, n),
        };
        for (size_t k = 0; k < sizeof answers / sizeof *answers; k++)
            if (answers[k] != LCR_VERSION) {
                fprintf(stderr, "guards: version %u answered %u by function %zu of those that take one\n", v, answers[k], k + 1);
                exit(1);
            }
    }
    printf("%d numbers that are no version, refused by 8 in every function that takes one\n", NO_VERSIONS);
}

/* ---- all calls of a function, on a stack of their own */

enum { DEEP = 8 << 20, PAINT = 0xA5 };
static uint8_t *deep;
static uint64_t seed, calls;
static size_t counts[256];

static void *run(void *door) {
    size_t d = *(size_t *)door;
    for (uint64_t i = 0; i < calls; i++) {
        state = call_seed = seed * 1000003 + d * 10000000000u + i;
        counts[both((int)d) & 255]++;
    }
    return 0;
}
/* How many bytes of the stack the calls of a function took. */
static size_t run_deep(size_t d) {
    pthread_t thread;
    pthread_attr_t attr;
    size_t free = 0;
    memset(deep, PAINT, DEEP);
    memset(counts, 0, sizeof counts);
    pthread_attr_init(&attr);
    if (pthread_attr_setstack(&attr, deep, DEEP) || pthread_create(&thread, &attr, run, &d) || pthread_join(thread, 0)) {
        fprintf(stderr, "guards: no thread\n");
        exit(2);
    }
    while (free < DEEP && deep[free] == PAINT) free++;
    return DEEP - free;
}

int main(int argc, char **argv) {
    if (argc < 3) {
        fprintf(stderr, "guards SEED CALLS [NAME]\n");
        return 2;
    }
    uint64_t all = 0;
    struct sigaction s = {.sa_handler = touched};
    seed = strtoull(argv[1], 0, 10), calls = strtoull(argv[2], 0, 10);
    sigaction(SIGSEGV, &s, 0), sigaction(SIGBUS, &s, 0);
    refuse_versions();
    make_areas();
    deep = mmap(0, DEEP, PROT_READ | PROT_WRITE, MAP_PRIVATE | MAP_ANONYMOUS, -1, 0);
    if (deep == MAP_FAILED) return perror("guards"), 2;
    for (size_t d = 0; d < sizeof doors / sizeof *doors; d++) {
        name = doors[d].name;
        if (argc > 3 && strcmp(argv[3], name)) continue;
        size_t used = run_deep(d);
        printf("%-20s %8llu calls at both places, %6zu bytes of stack, %zu answered, %zu none", name, (unsigned long long)calls, used,
               counts[0], counts[255]);
        for (int k = 1; k < 255; k++)
            if (counts[k]) printf(", %zu refused %d", counts[k], k);
        printf("\n");
        fflush(stdout);
        all += calls;
    }
    printf("attempts: %zu without a quad, %zu with a fix, %zu with a fallback\n", nones / 2, fixes / 2, fallbacks / 2);
    printf("finder: find has a fix in %zu, tags %zu in %zu\n", finds / 2, tags / 2, calls_with_tags / 2);
    printf("seed %llu: %llu calls, 0 different\n", (unsigned long long)seed, (unsigned long long)all);
    return all ? 0 : 2;
}
