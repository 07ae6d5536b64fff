/* overlay: what the program `overlay` draws, as numbers, by the library's own calls; and pictures to draw over.
 *
 *     overlay numbers < FILE.pgm      a line for each box, hull, quad and tag, in the order of drawing; floats in hex
 *     overlay photo SEED WIDTH HEIGHT > FILE.pgm
 *                                     one or two tags and a square, seen at an angle, blurred, with noise; on standard
 *                                     error a line for each tag, x and y of its corners in the ring's own order
 *
 * The file is plain: P5, width, height and 255, a white-space byte after each. */
#include "../../include/lcr_ring.h"
#include <stdio.h>
#include <stdlib.h>
#include <string.h>

enum { MOST = 1024, NUMBERS = 4 * (MOST + MOST) };

static uint8_t gray[MOST * MOST], levels[LCR_LEVEL_CELLS(MOST, MOST)];
static uint32_t labels[LCR_REGION_CELLS(MOST, MOST)], stack[LCR_REGION_CELLS(MOST, MOST)], regions[LCR_REGIONS];
static float points[NUMBERS], straight[NUMBERS], cand[NUMBERS], buf[NUMBERS];

static void must(uint32_t result, const char *what) {
    if (result == LCR_OK) return;
    fprintf(stderr, "overlay: %s answered %u\n", what, result);
    exit(1);
}

/* ---- numbers */

static void print(const char *word, const float *numbers, size_t count) {
    printf("%s", word);
    for (size_t i = 0; i < count; i++) printf(" %a", (double)numbers[i]);
    printf("\n");
}

static void print_region(const uint32_t *r, size_t w, size_t h) {
    size_t many, vertices;
    float quad[8];
    printf("box %u %u %u %u\n", r[2], r[3], r[4], r[5]);
    must(lcr_outline(gray, w * h, levels, sizeof levels, labels, LCR_REGION_CELLS(MOST, MOST), r[0], w, h, r[2], r[3], r[4],
                     r[5], points, NUMBERS, &many), "lcr_outline");
    must(lcr_convex_hull(points, 2 * many, straight, NUMBERS, &vertices), "lcr_convex_hull");
    print("hull", straight, 2 * vertices);
    if (lcr_quad(straight, 2 * vertices, quad) == LCR_OK) print("quad", quad, 8);
}

static void print_numbers(void) {
    size_t w, h, many;
    float tags[LCR_TAGS];
    if (scanf("P5 %zu %zu 255", &w, &h) != 2 || getchar() == EOF || w > MOST || h > MOST) {
        fprintf(stderr, "overlay: not a plain PGM file with sides up to %d\n", MOST);
        exit(1);
    }
    if (fread(gray, 1, w * h, stdin) != w * h) { fprintf(stderr, "overlay: too few pixels\n"); exit(1); }
    must(lcr_picture(gray, w * h, w, h, levels, sizeof levels, labels, LCR_REGION_CELLS(MOST, MOST), stack,
                     LCR_REGION_CELLS(MOST, MOST), regions), "lcr_picture");
    for (uint32_t i = 0; i < regions[1]; i++) print_region(regions + 2 + 6 * i, w, h);
    must(lcr_tags(gray, w * h, w, h, LCR_VERSIONS, levels, sizeof levels, labels, LCR_REGION_CELLS(MOST, MOST), stack,
                  LCR_REGION_CELLS(MOST, MOST), points, NUMBERS, straight, NUMBERS, cand, NUMBERS, buf, NUMBERS, &many, tags),
         "lcr_tags");
    for (size_t i = 0; i < many; i++) print("tag", tags + 11 * i + 3, 8);
}

/* ---- a photograph */

static uint32_t state;

static uint32_t below(uint32_t n) {
    state = state * 1664525u + 1013904223u;
    return (state >> 8) % n;
}

/* Dark or light of the cells of a tag, its ring's marks from the library; payload and inner cells at random. */
static uint8_t cells[80][80];

static size_t draw_cells(uint8_t version) {
    uint16_t side;
    size_t positions, depth, p;
    must(lcr_version(version, &side, &positions), "lcr_version");
    for (int y = -3; y < side + 3; y++)
        for (int x = -3; x < side + 3; x++) {
            int32_t ox = 0, oy = 0;
            bool light = below(2) == 0;
            must(lcr_shell(version, x, y, &depth), "lcr_shell");
            if (depth == 1) light = true;
            if (depth > 1) {
                must(lcr_position(version, x, y, &p), "lcr_position");
                must(lcr_outer_cell(version, p, &ox, &oy), "lcr_outer_cell");
                if (ox == x && oy == y) must(lcr_sequence_light(version, p, &light), "lcr_sequence_light");
            }
            cells[y + 3][x + 3] = depth == 1 ? 235 : light ? 140 : 25;
        }
    return side;
}

/* A tag of the version about (cx, cy), r from its middle to a corner, turned to one of four quarters or mirrored; each corner
 * is moved by up to an eighth of r. */
static void draw_tag(int w, int h, uint8_t version, int cx, int cy, int r) {
    float s = (float)draw_cells(version) + 3, to[8] = {-3, -3, s, -3, s, s, -3, s}, from[8];
    int q = (int)below(4), mirrored = (int)below(2), tilt = (int)below((uint32_t)r / 4);
    int xs[4] = {-r, r - tilt, r, -r + tilt}, ys[4] = {-r + tilt, -r, r - tilt, r};
    for (int i = 0; i < 4; i++) {
        int c = (mirrored ? 4 - i + q : i + q) % 4;
        from[2 * i] = (float)(cx + xs[c] * 7 / 10 + (int)below((uint32_t)r / 8));
        from[2 * i + 1] = (float)(cy + ys[c] * 7 / 10 + (int)below((uint32_t)r / 8));
    }
    double t[11];
    must(lcr_from_quad(from, to, t), "lcr_from_quad");
    for (int i = 0; i < 8; i++) fprintf(stderr, "%g%c", (double)from[i], i < 7 ? ' ' : '\n');
    for (int y = 0; y < h; y++)
        for (int x = 0; x < w; x++) {
            int sum = 0, in = 0;
            for (int k = 0; k < 9; k++) {
                float u, v;
                must(lcr_apply(t, (float)x + (float)(k % 3 * 2 + 1) / 6, (float)y + (float)(k / 3 * 2 + 1) / 6, &u, &v), "lcr_apply");
                if (u >= -3 && v >= -3 && u < s && v < s) { sum += cells[(int)(v + 3)][(int)(u + 3)]; in++; }
            }
            gray[y * w + x] = (uint8_t)((sum + (9 - in) * gray[y * w + x]) / 9);
        }
}

/* Each pixel the mean of its three by three. */
static void blur(int w, int h) {
    static uint8_t old[MOST * MOST];
    memcpy(old, gray, (size_t)(w * h));
    for (int y = 1; y + 1 < h; y++)
        for (int x = 1; x + 1 < w; x++) {
            int sum = 0;
            for (int k = 0; k < 9; k++) sum += old[(y + k / 3 - 1) * w + x + k % 3 - 1];
            gray[y * w + x] = (uint8_t)(sum / 9);
        }
}

static void print_photo(uint32_t seed, int w, int h) {
    state = seed * 2654435761u + 12345u;
    for (int i = 0; i < 8; i++) below(2);
    int two = (int)below(2), side = w / 12, bx = (int)below((uint32_t)(w - side)), by = h - side - (int)below((uint32_t)side);
    for (int i = 0; i < w * h; i++) gray[i] = (uint8_t)(225 + i % w * 20 / w);
    draw_tag(w, h, (uint8_t)(1 + below(3)), w / 3, h / 3, w / 5 + (int)below((uint32_t)w / 10));
    if (two) draw_tag(w, h, (uint8_t)(1 + below(3)), w * 4 / 5, h * 4 / 5, w / 8 + (int)below((uint32_t)w / 16));
    for (int y = 0; y < side; y++)
        for (int x = 0; x < side; x++) gray[(by + y) * w + bx + x] = 80;
    for (int i = w / 200; i > 0; i--) blur(w, h);
    for (int i = 0; i < w * h; i++) gray[i] = (uint8_t)(gray[i] + (int)below(5) - 2);
    printf("P5\n%d\n%d\n255\n", w, h);
    fwrite(gray, 1, (size_t)(w * h), stdout);
}

int main(int count, char **words) {
    if (count == 2 && strcmp(words[1], "numbers") == 0) print_numbers();
    else if (count == 5 && strcmp(words[1], "photo") == 0 && atoi(words[3]) >= 64 && atoi(words[3]) <= MOST
             && atoi(words[4]) >= 64 && atoi(words[4]) <= MOST)
        print_photo((uint32_t)strtoul(words[2], NULL, 10), atoi(words[3]), atoi(words[4]));
    else { fprintf(stderr, "usage: overlay numbers < FILE.pgm | overlay photo SEED WIDTH HEIGHT, 64 to %d\n", MOST); return 2; }
    return 0;
}
