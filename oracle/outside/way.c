/* way: draws a picture with a tag and two other shapes, sends it through the doors, and writes the data's way from bytes
 * to fix as SVG, a panel a step. Everything but the drawing comes from the library's own calls. */
#include "../../include/lcr_ring.h"
#include <stdio.h>
#include <stdlib.h>
#include <string.h>

enum { W = 240, H = 176, VERSION = 2, POINTS = 2 * (W + H), GAP = 26, WIDE = W + GAP, HIGH = H + 62 };

static uint8_t gray[W * H], levels[LCR_LEVEL_CELLS(W, H)];
static uint32_t labels[LCR_REGION_CELLS(W, H)], stack[LCR_REGION_CELLS(W, H)], regions[LCR_REGIONS];
static float points[2 * POINTS], hull[2 * POINTS], straight[2 * POINTS], cand[2 * POINTS], buf[2 * POINTS];
static float quad[8], scores[LCR_SCORES];
static double fix[15], fallback[15];
static size_t many, vertices;

static void must(uint32_t result, const char *what) {
    if (result == LCR_OK) return;
    fprintf(stderr, "way: %s answered %u\n", what, result);
    exit(1);
}

static uint32_t state = 7;

static uint32_t below(uint32_t n) {
    state = state * 1664525u + 1013904223u;
    return (state >> 8) % n;
}

/* ---- the picture */

/* Dark or light of the cells of the tag, its ring's marks from the library; payload and inner cells at random. */
static uint8_t cells[64][64];

static size_t draw_cells(void) {
    uint16_t side;
    size_t positions, depth, p;
    must(lcr_version(VERSION, &side, &positions), "lcr_version");
    for (int y = -3; y < side + 3; y++)
        for (int x = -3; x < side + 3; x++) {
            int32_t ox = 0, oy = 0;
            bool light = below(2) == 0;
            must(lcr_shell(VERSION, x, y, &depth), "lcr_shell");
            if (depth == 1) light = true;
            if (depth > 1) {
                must(lcr_position(VERSION, x, y, &p), "lcr_position");
                must(lcr_outer_cell(VERSION, p, &ox, &oy), "lcr_outer_cell");
                if (ox == x && oy == y) must(lcr_sequence_light(VERSION, p, &light), "lcr_sequence_light");
            }
            cells[y + 3][x + 3] = light ? 130 : 25;
            if (depth == 1) cells[y + 3][x + 3] = 235;
        }
    return side;
}

/* The tag seen at an angle, on paper that is lighter to the right, with a disc and a bar beside it. */
static void draw(void) {
    size_t side = draw_cells();
    float s = (float)side + 3, to[8] = {-3, -3, s, -3, s, s, -3, s};
    float from[8] = {200, 28, 226, 136, 116, 152, 96, 44};
    double t[11];
    must(lcr_from_quad(from, to, t), "lcr_from_quad");
    for (int y = 0; y < H; y++)
        for (int x = 0; x < W; x++) {
            int v = 190 + x / 6;
            float u, w;
            must(lcr_apply(t, (float)x + 0.5f, (float)y + 0.5f, &u, &w), "lcr_apply");
            if (u >= -3 && w >= -3 && u < s && w < s) v = cells[(int)(w + 3)][(int)(u + 3)];
            if ((x - 28) * (x - 28) + (y - 122) * (y - 122) < 22 * 22) v = 60;
            if (x > 12 && x < 48 && y > 18 && y < 62) v = 90;
            gray[y * W + x] = (uint8_t)(v + (int)below(9) - 4);
        }
}

/* ---- the way */

static void find(void) {
    uint32_t *r = regions + 2;
    size_t hulls, tried;
    bool found;
    must(lcr_picture(gray, W * H, W, H, levels, sizeof levels, labels, LCR_REGION_CELLS(W, H), stack,
                     LCR_REGION_CELLS(W, H), regions), "lcr_picture");
    must(lcr_outline(gray, W * H, levels, sizeof levels, labels, LCR_REGION_CELLS(W, H), r[0], W, H, r[2], r[3], r[4],
                     r[5], points, 2 * POINTS, &many), "lcr_outline");
    must(lcr_convex_hull(points, 2 * many, hull, 2 * POINTS, &vertices), "lcr_convex_hull");
    must(lcr_attempt(gray, W * H, W, H, points, 2 * many, LCR_VERSIONS, straight, 2 * POINTS, cand, 2 * POINTS, buf,
                     2 * POINTS, &hulls, &found, quad, &tried, scores, fix, fallback), "lcr_attempt");
    if (!found || fix[0] != VERSION) { fprintf(stderr, "way: no fix of version %d\n", VERSION); exit(1); }
}

/* ---- PNG of one byte a pixel, stored, in base64 */

static uint8_t file[1 << 17];
static size_t size;

static void put(const void *bytes, size_t n) { memcpy(file + size, bytes, n); size += n; }

static void put32(uint32_t v) {
    uint8_t b[4] = {(uint8_t)(v >> 24), (uint8_t)(v >> 16), (uint8_t)(v >> 8), (uint8_t)v};
    put(b, 4);
}

static void chunk(const char *name, const uint8_t *data, size_t n) {
    uint32_t crc = 0xffffffffu;
    put32((uint32_t)n);
    size_t from = size;
    put(name, 4);
    put(data, n);
    for (size_t i = from; i < size; i++) {
        crc ^= file[i];
        for (int k = 0; k < 8; k++) crc = (crc >> 1) ^ (crc & 1 ? 0xedb88320u : 0);
    }
    put32(~crc);
}

static void image(const char *id, const uint8_t *pixels, unsigned w, unsigned h) {
    static uint8_t raw[1 << 17];
    static const char digits[] = "ABCDEFGHIJKLMNOPQRSTUVWXYZabcdefghijklmnopqrstuvwxyz0123456789+/";
    uint8_t head[13] = {0, 0, 0, (uint8_t)w, 0, 0, 0, (uint8_t)h, 8, 0, 0, 0, 0};
    uint32_t a = 1, b = 0;
    size_t n = 0, length = (size_t)(w + 1) * h;
    raw[n++] = 0x78; raw[n++] = 0x01; raw[n++] = 1;
    raw[n++] = (uint8_t)length; raw[n++] = (uint8_t)(length >> 8);
    raw[n++] = (uint8_t)~length; raw[n++] = (uint8_t)(~length >> 8);
    for (unsigned y = 0; y < h; y++) {
        raw[n++] = 0;
        memcpy(raw + n, pixels + (size_t)y * w, w);
        n += w;
    }
    for (size_t i = 7; i < n; i++) { a = (a + raw[i]) % 65521; b = (b + a) % 65521; }
    raw[n++] = (uint8_t)(b >> 8); raw[n++] = (uint8_t)b; raw[n++] = (uint8_t)(a >> 8); raw[n++] = (uint8_t)a;
    size = 0;
    put("\x89PNG\r\n\x1a\n", 8);
    chunk("IHDR", head, 13);
    chunk("IDAT", raw, n);
    chunk("IEND", raw, 0);
    printf("<image id=\"%s\" width=\"%d\" height=\"%d\" preserveAspectRatio=\"none\" style=\"image-rendering:pixelated\" "
           "href=\"data:image/png;base64,", id, W, H);
    for (size_t i = 0; i < size; i += 3) {
        uint32_t v = (uint32_t)file[i] << 16 | (uint32_t)(i + 1 < size ? file[i + 1] : 0) << 8 | (i + 2 < size ? file[i + 2] : 0);
        putchar(digits[v >> 18]);
        putchar(digits[v >> 12 & 63]);
        putchar(i + 1 < size ? digits[v >> 6 & 63] : '=');
        putchar(i + 2 < size ? digits[v & 63] : '=');
    }
    printf("\"/>\n");
}

/* ---- panels */

static void panel(int k, const char *title, const char *below1, const char *below2) {
    printf("<g transform=\"translate(%d %d)\">\n", 12 + k % 4 * WIDE, 26 + k / 4 * HIGH);
    printf("<text y=\"-8\" class=\"t\">%d  %s</text><text y=\"%d\" class=\"b\">%s</text><text y=\"%d\" class=\"b\">%s</text>\n",
           k + 1, title, H + 14, below1, H + 27, below2);
    if (k % 4 != 3) printf("<path d=\"M%d %d h14 m-5 -5 l5 5 l-5 5\" class=\"w\"/>\n", W + 5, H / 2);
}

static void frame(void) { printf("<rect width=\"%d\" height=\"%d\" class=\"f\"/>\n</g>\n", W, H); }

/* The picture itself, which the file has once. */
static void whole(void) { printf("<use href=\"#gray\"/>\n"); }

static void faint(void) {
    whole();
    printf("<rect width=\"%d\" height=\"%d\" fill=\"#fff\" opacity=\".62\"/>\n", W, H);
}

static void polygon(const float *p, size_t n, const char *class) {
    printf("<polygon class=\"%s\" points=\"", class);
    for (size_t i = 0; i < n; i++) printf("%g,%g ", p[2 * i], p[2 * i + 1]);
    printf("\"/>\n");
}

static void show_bytes(void) {
    panel(0, "bytes", "a grey picture,", "240 by 176 pixels");
    whole();
    frame();
}

static void show_levels(void) {
    panel(1, "level grid", "a threshold each 16 by 16 pixels,", "0 where contrast is low all round");
    image("levels", levels, (W + 15) / 16, (H + 15) / 16);
    frame();
}

static bool ink(int x, int y) { return gray[y * W + x] < levels[y / 16 * ((W + 15) / 16) + x / 16]; }

static void show_ink(void) {
    panel(2, "ink", "pixels below their", "cell's threshold");
    printf("<path d=\"");
    for (int y = 0; y < H; y++)
        for (int x = 0, from = 0; x <= W; x++) {
            if (x < W && ink(x, y)) continue;
            if (x > from) printf("M%d %dh%dv1H%dz", from, y, x - from, from);
            from = x + 1;
        }
    printf("\"/>\n");
    frame();
}

static void show_regions(void) {
    static const char *colour[] = {"#c33", "#37b", "#3a5", "#a6b", "#b82", "#588"};
    char line[64];
    snprintf(line, sizeof line, "%u regions of ink cells, %u kept,", regions[0], regions[1]);
    panel(3, "labels and regions (picture door)", line, "largest first");
    for (size_t i = 0; i < LCR_REGION_CELLS(W, H); i++)
        if (labels[i] != 0)
            printf("<rect x=\"%zu\" y=\"%zu\" width=\"8\" height=\"8\" fill=\"%s\" opacity=\".55\"/>\n", i % ((W + 7) / 8) * 8,
                   i / ((W + 7) / 8) * 8, colour[labels[i] % 6]);
    for (uint32_t k = 0; k < regions[1]; k++) {
        const uint32_t *r = regions + 2 + 6 * k;
        printf("<rect x=\"%u\" y=\"%u\" width=\"%u\" height=\"%u\" class=\"q\"/><text x=\"%u\" y=\"%u\" class=\"n\">%u</text>\n",
               r[2], r[3], r[4] - r[2], r[5] - r[3], r[2] + 3, r[3] + 13, k + 1);
    }
    frame();
}

static void show_points(void) {
    char line[64];
    snprintf(line, sizeof line, "%zu points: ends of runs of 4 or more", many);
    panel(4, "boundary points (outline door)", line, "member pixels, by row and by column");
    faint();
    for (size_t i = 0; i < many; i++) printf("<circle cx=\"%g\" cy=\"%g\" r=\".9\"/>\n", points[2 * i], points[2 * i + 1]);
    frame();
}

static void show_quad(void) {
    char line[64];
    snprintf(line, sizeof line, "%zu vertices; then lines along the edges", vertices);
    panel(5, "hull and quad", line, "refine the corners, and the lens");
    faint();
    polygon(hull, vertices, "h");
    polygon(quad, 4, "q");
    for (int i = 0; i < 4; i++) printf("<text x=\"%g\" y=\"%g\" class=\"n\">%d</text>\n", quad[2 * i] + 3, quad[2 * i + 1] - 3, i);
    frame();
}

static void show_marks(void) {
    uint16_t side;
    size_t positions;
    must(lcr_version(VERSION, &side, &positions), "lcr_version");
    char line[64];
    snprintf(line, sizeof line, "the lumas of %zu positions, split to", positions);
    panel(6, "marks", line, "light (open) and dark (filled)");
    faint();
    static float lumas[LCR_VERSIONS * 16 + 88], xy[2 * (LCR_VERSIONS * 16 + 88)];
    static bool light[LCR_VERSIONS * 16 + 88];
    for (size_t p = 0; p < positions; p++) {
        int32_t cx, cy;
        float *at = xy + 2 * p;
        must(lcr_outer_cell(VERSION, p, &cx, &cy), "lcr_outer_cell");
        must(lcr_apply(fix + 4, (float)cx + 0.5f, (float)cy + 0.5f, at, at + 1), "lcr_apply");
        lumas[p] = gray[(size_t)at[1] * W + (size_t)at[0]];
    }
    must(lcr_classify(VERSION, lumas, positions, light, positions), "lcr_classify");
    for (size_t p = 0; p < positions; p++)
        printf("<circle cx=\"%.2f\" cy=\"%.2f\" r=\"1.5\" class=\"%s\"/>\n", xy[2 * p], xy[2 * p + 1], light[p] ? "o" : "d");
    frame();
}

static void show_fix(void) {
    uint16_t side;
    size_t positions;
    float xy[8], uv[8];
    char line[80], more[80];
    must(lcr_version(VERSION, &side, &positions), "lcr_version");
    float s = side;
    memcpy(uv, (float[8]){0, 0, s, 0, s, s, 0, s}, sizeof uv);
    must(lcr_apply_all(fix + 4, uv, 8, xy, 8), "lcr_apply_all");
    snprintf(line, sizeof line, "version %g, agreement %.3f,", fix[0], fix[1]);
    snprintf(more, sizeof more, "corner %g of the quad, %s", fix[2], fix[3] != 0 ? "mirrored" : "not mirrored");
    panel(7, "fix (ring door)", line, more);
    whole();
    polygon(xy, 4, "q");
    printf("<circle cx=\"%g\" cy=\"%g\" r=\"5\" class=\"c\"/><path d=\"M%g %g L%g %g\" class=\"x\"/>\n", xy[0], xy[1], xy[0], xy[1],
           xy[0] + (xy[2] - xy[0]) * 0.4f, xy[1] + (xy[3] - xy[1]) * 0.4f);
    frame();
}

int main(void) {
    draw();
    find();
    printf("<svg xmlns=\"http://www.w3.org/2000/svg\" viewBox=\"0 0 %d %d\" font-family=\"sans-serif\">\n", 4 * WIDE, 2 * HIGH + 8);
    printf("<title>The data's way from bytes to fix</title>\n<style>.t{font-size:12px;font-weight:bold}.b{font-size:10.5px;fill:#444}"
           ".f{fill:none;stroke:#888}.w{fill:none;stroke:#444;stroke-width:1.5}.q{fill:none;stroke:#06c;stroke-width:1.6}"
           ".h{fill:none;stroke:#c30;stroke-width:1}.n{font-size:12px;font-weight:bold;fill:#06c}.o{fill:#fff;stroke:#06c}"
           ".d{fill:#06c}.c{fill:none;stroke:#e60;stroke-width:2}.x{stroke:#e60;stroke-width:2}</style>\n");
    printf("<rect width=\"100%%\" height=\"100%%\" fill=\"#fff\"/>\n<defs>\n");
    image("gray", gray, W, H);
    printf("</defs>\n");
    show_bytes();
    show_levels();
    show_ink();
    show_regions();
    show_points();
    show_quad();
    show_marks();
    show_fix();
    printf("</svg>\n");
    return 0;
}
