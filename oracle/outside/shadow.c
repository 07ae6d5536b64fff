/* How far a shadow reaches, on the compiled picture door.
 *
 *   shadow SEED PAIRS    PAIRS random pairs of pictures that differ only in pixels of one level cell
 *
 * Held of each pair: thresholds are equal in every level cell more than 11 columns or more than 11 rows away from that cell, and so
 * is ink at every pixel of such a cell. At the first that is not it ends with 1, the pair's number and the cell. It prints how many
 * pairs differ at most so many cells away, by kind of picture, and how many cells were held.
 */
#include <inttypes.h>
#include <stdio.h>
#include <stdlib.h>
#include <string.h>

#include "lcr_ring.h"
#include "random.h"

enum { SIDE = 4096, REACH = 11, KINDS = 5 };
static const char *const kinds[KINDS] = {"light, a few dark spots", "light, dark cells", "noise", "slopes with noise", "any bytes"};
static uint8_t first[SIDE * SIDE], second[SIDE * SIDE];
static uint8_t levels[2][256 * 256];
static uint32_t labels[512 * 512], stack[512 * 512];

static size_t below(size_t n) { return (size_t)(next() % n); }

/* Sides in pixels: most are some thirty cells, some one cell high or wide, one pair in 500 up to 4,096. */
static void sides(size_t *w, size_t *h) {
    size_t most = below(500) ? 560 : SIDE;
    *w = 1 + below(most), *h = 1 + below(most);
    if (!below(4)) *(below(2) ? w : h) = 1 + below(40);
    if (!below(3)) *w = (*w + 15) / 16 * 16, *h = (*h + 15) / 16 * 16;
}
/* One pixel of a kind of picture. */
static uint8_t pixel(int kind, size_t x, size_t y, unsigned slope) {
    switch (kind) {
    case 0: return below(4000) ? 255 : (uint8_t)below(256);
    case 1: return (x / 16 * 7 + y / 16 * 13 + slope) % 31 ? 250 : (uint8_t)(below(3) ? 250 : below(60));
    case 2: return (uint8_t)(below(2) ? 200 + below(56) : below(120));
    case 3: return (uint8_t)((x * slope / 64 + y + below(24)) % 256);
    default: return (uint8_t)next();
    }
}
/* The cell's pixels in the second picture: dark, light, turned over, or any, of all of them, some or a few. */
static void change(size_t w, size_t h, size_t cx, size_t cy) {
    int how = (int)below(4);
    size_t odds = below(3) ? 1 + below(20) : 1;
    for (size_t y = 16 * cy; y < 16 * cy + 16 && y < h; y++)
        for (size_t x = 16 * cx; x < 16 * cx + 16 && x < w; x++) {
            uint8_t *p = &second[y * w + x];
            if (!below(odds)) *p = how == 0 ? 0 : how == 1 ? 255 : how == 2 ? (uint8_t)~*p : (uint8_t)next();
        }
}
static void grid(const uint8_t *gray, size_t w, size_t h, uint8_t *to) {
    uint32_t regions[LCR_REGIONS];
    if (lcr_picture(gray, w * h, w, h, to, 256 * 256, labels, 512 * 512, stack, 512 * 512, regions)) {
        fprintf(stderr, "shadow: a picture of %zu by %zu is refused\n", w, h);
        exit(1);
    }
}
static size_t apart(size_t a, size_t b) { return a < b ? b - a : a - b; }
static void fail(uint64_t pair, const char *what, size_t x, size_t y) {
    fprintf(stderr, "shadow: pair %" PRIu64 ": another %s at %zu, %zu\n", pair, what, x, y);
    exit(1);
}

int main(int argc, char **argv) {
    if (argc != 3) return fprintf(stderr, "shadow SEED PAIRS\n"), 2;
    uint64_t seed = strtoull(argv[1], 0, 10), pairs = strtoull(argv[2], 0, 10), cells = 0, pixels = 0;
    /* how many pairs of a kind have their farthest difference so many cells away; none in the last place */
    static uint64_t farthest[KINDS][REACH + 2];
    for (uint64_t pair = 0; pair < pairs; pair++) {
        state = seed * 1000003 + pair;
        size_t w, h;
        sides(&w, &h);
        int kind = (int)below(KINDS);
        unsigned slope = (unsigned)below(200);
        for (size_t y = 0; y < h; y++)
            for (size_t x = 0; x < w; x++) first[y * w + x] = pixel(kind, x, y, slope);
        memcpy(second, first, w * h);
        size_t across = (w + 15) / 16, down = (h + 15) / 16, cx = below(across), cy = below(down), far = REACH + 1;
        change(w, h, cx, cy);
        grid(first, w, h, levels[0]), grid(second, w, h, levels[1]);
        for (size_t y = 0; y < down; y++)
            for (size_t x = 0; x < across; x++) {
                size_t d = apart(x, cx) > apart(y, cy) ? apart(x, cx) : apart(y, cy);
                int same = levels[0][y * across + x] == levels[1][y * across + x];
                if (d > REACH) {
                    cells++;
                    if (!same) fail(pair, "threshold", x, y);
                } else if (!same && (far > REACH || d > far)) far = d;
            }
        for (size_t y = 0; y < h; y++)
            for (size_t x = 0; x < w; x++) {
                if (apart(x / 16, cx) <= REACH && apart(y / 16, cy) <= REACH) continue;
                size_t c = y / 16 * across + x / 16;
                pixels++;
                if ((first[y * w + x] < levels[0][c]) != (second[y * w + x] < levels[1][c])) fail(pair, "ink pixel", x, y);
            }
        farthest[kind][far]++;
    }
    printf("| pictures | no threshold differs |");
    for (int d = 0; d <= REACH; d++) printf(" %d |", d);
    printf("\n|---|---|");
    for (int d = 0; d <= REACH; d++) printf("---|");
    printf("\n");
    for (int k = 0; k < KINDS; k++) {
        printf("| %s | %" PRIu64 " |", kinds[k], farthest[k][REACH + 1]);
        for (int d = 0; d <= REACH; d++) printf(" %" PRIu64 " |", farthest[k][d]);
        printf("\n");
    }
    printf("seed %" PRIu64 ": %" PRIu64 " pairs, %" PRIu64 " cells and %" PRIu64 " pixels farther away, 0 different\n", seed, pairs, cells, pixels);
    return 0;
}
