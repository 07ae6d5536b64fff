/* Pictures for the programs of this folder: PGM files read, and pictures drawn whose outlines are long and slanted. Include
 * random.h before. */
#include <math.h>
#include <stdint.h>
#include <stdio.h>
#include <stdlib.h>
#include <string.h>

typedef struct {
    int w, h;
    uint8_t *g;
} Pic;

static void *room(size_t n) {
    void *p = calloc(n ? n : 1, 1);
    if (!p) {
        perror("no memory");
        exit(2);
    }
    return p;
}
static Pic load(const char *name) {
    FILE *f = fopen(name, "rb");
    Pic p;
    int most;
    if (!f || fscanf(f, "P5 %d %d %d", &p.w, &p.h, &most) != 3 || most != 255) {
        fprintf(stderr, "%s is no PGM\n", name);
        exit(2);
    }
    fgetc(f);
    p.g = room((size_t)p.w * p.h);
    if (fread(p.g, 1, (size_t)p.w * p.h, f) != (size_t)p.w * p.h) {
        fprintf(stderr, "%s is cut\n", name);
        exit(2);
    }
    fclose(f);
    return p;
}
static void save(const Pic *p) {
    printf("P5\n%d %d\n255\n", p->w, p->h);
    fwrite(p->g, 1, (size_t)p->w * p->h, stdout);
}

/* ---- slanted: polygons, filled row by row */

enum { CORNERS = 720 };
typedef struct {
    int n;
    double x[CORNERS], y[CORNERS];
} Polygon;

static double between(double a, double b) { return a + (b - a) * ((double)(next() >> 11) / 9007199254740992.0); }
static int one_of(int n) { return (int)(next() % (uint64_t)n); }

/* Every pixel whose centre is inside, by its row's crossings with the edges. */
static void fill_polygon(Pic *p, const Polygon *q, int v) {
    double at[CORNERS];
    for (int y = 0; y < p->h; y++) {
        int n = 0;
        for (int i = 0; i < q->n; i++) {
            int j = i + 1 < q->n ? i + 1 : 0;
            double a = q->y[i] - (y + 0.5), b = q->y[j] - (y + 0.5);
            if ((a > 0) == (b > 0)) continue;
            double x = q->x[i] + (q->x[j] - q->x[i]) * a / (a - b);
            int k = n++;
            for (; k > 0 && at[k - 1] > x; k--) at[k] = at[k - 1];
            at[k] = x;
        }
        for (int k = 0; k + 1 < n; k += 2) {
            double from = ceil(fmax(at[k] - 0.5, 0)), to = ceil(fmin(at[k + 1] - 0.5, p->w));
            if (from < to) memset(p->g + (size_t)y * p->w + (size_t)from, v, (size_t)(to - from));
        }
    }
}
/* A rectangle, an ellipse, a ragged blob, a star or a triangle about (cx, cy), within a and b of it along and across, turned. */
static Polygon polygon(int kind, double cx, double cy, double a, double b, double turn) {
    Polygon q = {kind == 0 ? 4 : kind == 4 ? 3 : kind == 1 ? CORNERS : 10 + 2 * one_of(CORNERS / 2 - 5), {0}, {0}};
    double depth = between(0.02, 0.5);
    for (int i = 0; i < q.n; i++) {
        double t = 2 * M_PI * i / q.n, far = kind == 2 ? 1 - between(0, depth) : kind == 3 && i % 2 ? 1 - depth : 1;
        double u = a * far * cos(t), v = b * far * sin(t);
        if (kind == 0) u = i == 0 || i == 3 ? a : -a, v = i < 2 ? b : -b;
        q.x[i] = cx + u * cos(turn) - v * sin(turn);
        q.y[i] = cy + u * sin(turn) + v * cos(turn);
    }
    return q;
}
/* One large shape or up to four smaller ones, some with a hole, on a flat or sloping ground, now and then with noise. In every other
 * square picture the one shape is a bar along the diagonal, so close to it that rows and columns take turns at the outline's edge. */
static void draw_slanted(Pic *p) {
    int light = one_of(2) ? 255 : 150 + one_of(106), dark = one_of(2) ? 0 : one_of(80), slope = one_of(4) ? 0 : one_of(60);
    int bar = p->w == p->h && one_of(2), many = bar || one_of(2) ? 1 : 2 + one_of(3), noise = one_of(8) ? 0 : 1 + one_of(20);
    double w = p->w, h = p->h;
    for (int y = 0; y < p->h; y++) memset(p->g + (size_t)y * p->w, light - slope * y / p->h, (size_t)p->w);
    for (int i = 0; i < many; i++) {
        int kind = bar ? 0 : one_of(5);
        double cx = between(0.1, 0.9) * w, cy = between(0.1, 0.9) * h, half = fmin(w, h) * between(0.1, 0.3);
        double turn = between(0, 2 * M_PI), flat = one_of(2) ? between(0.95, 1) : between(0.05, 1);
        if (many == 1) cx = w / 2 + between(-3, 3), cy = h / 2 + between(-3, 3), half = fmin(w, h) * between(0.35, 0.55);
        if (many == 1 && one_of(2))
            half = hypot(w, h) * between(0.4, 0.5), turn = atan2(h, w) + between(-0.05, 0.05), flat = between(0.05, 0.4);
        if (bar) half = w * between(0.55, 0.7), turn = M_PI / 4 + between(-0.0004, 0.0004), flat = between(0.02, 0.3);
        Polygon q = polygon(kind, cx, cy, half, half * flat, turn);
        fill_polygon(p, &q, dark);
        if (one_of(3)) continue;
        q = polygon(kind, cx, cy, half * 0.6, half * 0.6 * flat, turn);
        fill_polygon(p, &q, light - slope);
    }
    for (size_t i = 0; noise && i < (size_t)p->w * p->h; i++) {
        int v = p->g[i] + one_of(2 * noise + 1) - noise;
        p->g[i] = (uint8_t)(v < 0 ? 0 : v > 255 ? 255 : v);
    }
}
