/* Demand 3 on the compiled doors, with pictures that another program has moved.
 *
 *   moves make SEED W H K     K pictures of W by H, one below the other, as a PGM on standard output
 *   moves check K F0 .. F7    F0 is such a file, F1 to F3 are it turned by one to three quarters, F4 to F7 the
 *                             same of its mirror image: each picture's doors against those of the first
 *   moves marks SEED N        N lists of marks through each shift by quarters, with and without the reversal
 *   moves plan SEED I         sides of picture I of those over 1,024 a side, and the moves that it is put through: one at random, of
 *                             every twentieth picture all seven
 *   moves slanted SEED I      this picture, with long slanted outlines
 *   moves large F0 M FM ..    F0 is such a picture, FM it moved by M: as check, with the hull and the quad of whole numbers; and
 *                             how often those of f32 differ from them, and are not moved
 *
 * Compared as the rules says under "What demand 3 compares". Where two regions of 16 or more cells have equal
 * counts, regions are left out, and it is counted where these come in another order; where a quad's two conditions
 * fail, the quad is left out. Each prints counts.
 */
#include <stdbool.h>
#include <stdint.h>
#include <stdio.h>
#include <stdlib.h>
#include <string.h>

#include "lcr_ring.h"
#include "random.h"

#include "pictures.h"

static int below(int n) { return (int)(next() % (uint64_t)(n < 1 ? 1 : n)); }

/* ---- pictures */
static void rect(Pic *p, int x0, int y0, int x1, int y1, int v) {
    for (int y = y0 < 0 ? 0 : y0; y < y1 && y < p->h; y++)
        for (int x = x0 < 0 ? 0 : x0; x < x1 && x < p->w; x++) p->g[y * p->w + x] = (uint8_t)v;
}
static void disc(Pic *p, int cx, int cy, int rx, int ry, int v) {
    for (int y = 0; y < p->h; y++)
        for (int x = 0; x < p->w; x++) {
            double dx = (x + 0.5 - cx) / (rx + 0.5), dy = (y + 0.5 - cy) / (ry + 0.5);
            if (dx * dx + dy * dy <= 1.0) p->g[y * p->w + x] = (uint8_t)v;
        }
}
/* the half planes a·x + b·y <= c of three lines */
static void wedge(Pic *p, int v) {
    int a[3], b[3];
    long c[3];
    for (int i = 0; i < 3; i++) {
        a[i] = below(41) - 20;
        b[i] = below(41) - 20;
        c[i] = (long)a[i] * below(p->w) + (long)b[i] * below(p->h);
    }
    for (int y = 0; y < p->h; y++)
        for (int x = 0; x < p->w; x++) {
            int in = 1;
            for (int i = 0; i < 3; i++) in &= (long)a[i] * x + (long)b[i] * y <= c[i];
            if (in) p->g[y * p->w + x] = (uint8_t)v;
        }
}
static void shape(Pic *p, int v) {
    int x = below(p->w + 16) - 8, y = below(p->h + 16) - 8, t = 3 + below(8);
    switch (below(5)) {
    case 0: rect(p, x, y, x + 1 + below(p->w), y + 1 + below(p->h), v); return;
    case 1: disc(p, x, y, below(p->w / 2), below(p->h / 2), v); return;
    case 2: wedge(p, v); return;
    case 3: rect(p, x, y, x + below(p->w), y + t, v); return;
    default: rect(p, x, y, x + t, y + below(p->h), v);
    }
}
static void shapes(Pic *p, int n, int dark, int light) {
    for (int i = 0; i < n; i++) shape(p, below(5) ? dark : light);
}
static void noise(Pic *p, int density, int v) {
    for (int i = 0; i < p->w * p->h; i++)
        if (below(100) < density) p->g[i] = (uint8_t)v;
}
static void greys(Pic *p) {
    for (int i = 0; i < p->w * p->h; i++) p->g[i] = (uint8_t)next();
}
/* a frame with gaps */
static void frame(Pic *p, int dark, int light) {
    int a = 8 + p->w / 8, b = 8 + p->h / 8;
    rect(p, 8, 8, p->w - 8, p->h - 8, dark);
    rect(p, a, b, p->w - a, p->h - b, light);
    for (int i = below(30); i; i--) {
        int x = below(p->w), y = below(p->h);
        rect(p, x, y, x + 4, y + 4, light);
    }
}
static void dots(Pic *p, int v) {
    for (int y = 0; y < p->h; y += 8)
        for (int x = 0; x < p->w; x += 8) {
            int u = x + below(6), t = y + below(6);
            if (below(10) < 7) rect(p, u, t, u + 2 + below(3), t + 2 + below(3), v);
        }
}
static void slope(Pic *p) {
    for (int y = 0; y < p->h; y++)
        for (int x = 0; x < p->w; x++) p->g[y * p->w + x] = (uint8_t)(60 + (x + 2 * y) * 195 / (p->w + 2 * p->h));
}
/* each level cell with two greys of its own */
static void cells(Pic *p) {
    for (int y = 0; y < p->h; y += 16)
        for (int x = 0; x < p->w; x += 16) {
            int a = below(256), b = below(3) ? a : below(256), k = below(257);
            for (int i = 0; i < 256; i++) p->g[(y + i / 16) * p->w + x + i % 16] = (uint8_t)(below(256) < k ? a : b);
        }
}
static void patches(Pic *p, int v) {
    int k = 3 + below(7), d = 20 + below(50);
    for (int y = 0; y < p->h; y += k)
        for (int x = 0; x < p->w; x += k)
            if (below(100) < d) rect(p, x, y, x + k, y + k, v);
}
static void shake(Pic *p, int a) {
    for (int i = 0; i < p->w * p->h; i++) {
        int v = p->g[i] + below(2 * a + 1) - a;
        p->g[i] = (uint8_t)(v < 0 ? 0 : v > 255 ? 255 : v);
    }
}
static void draw(Pic *p) {
    int light = below(3) ? 255 : 80 + below(176), dark = below(3) ? 0 : below(light + 1);
    memset(p->g, light, (size_t)p->w * p->h);
    switch (below(9)) {
    case 0: noise(p, 1 + below(99), dark); break;
    case 1: greys(p); break;
    case 2:
    case 3: shapes(p, 1 + below(8), dark, light); break;
    case 4: frame(p, dark, light); break;
    case 5: dots(p, dark); break;
    case 6:
        slope(p);
        shapes(p, 1 + below(4), below(60), 255);
        break;
    case 7: cells(p); break;
    default: patches(p, dark);
    }
    if (below(4) == 0) shake(p, 1 + below(50));
}

/* The i-th of k pictures in a file that was turned by t quarters. */
static Pic part(const Pic *all, int k, int t, int i) {
    int side = t & 1, w = side ? all->w / k : all->w, h = side ? all->h : all->h / k,
        at = t == 1 || t == 2 ? k - 1 - i : i;
    Pic p = {w, h, room((size_t)w * h)};
    for (int y = 0; y < h; y++)
        memcpy(p.g + (size_t)y * w, all->g + (size_t)(side ? y : at * h + y) * all->w + (side ? at * w : 0), (size_t)w);
    return p;
}

/* ---- moves: m quarter turns (mod 4), the mirror first from 4 on */
static void point(int m, long w, long h, long *x, long *y) {
    if (m >= 4) *x = w - *x;
    for (int i = m & 3; i; i--) {
        long u = h - *y, s = w;
        *y = *x;
        *x = u;
        w = h;
        h = s;
    }
}
static void place(int m, long w, long h, long *x, long *y) {
    long u = 2 * *x + 1, v = 2 * *y + 1;
    point(m, 2 * w, 2 * h, &u, &v);
    *x = (u - 1) / 2;
    *y = (v - 1) / 2;
}

/* ---- what the doors answer; points in doubled coordinates */
typedef struct {
    long x, y;
} Pt;
typedef struct {
    Pt *hull, quad[4];
    int n, is; /* vertices, and whether there is a quad */
} Outer;
typedef struct {
    Pic p;
    uint8_t *grid;
    uint32_t *labels, out[26];
    Pt *pts[4];
    Outer outer[4], rounded[4]; /* rounded: those of f32 where the others are whole */
    int n[4], ties;
} Found;
static bool large; /* hulls and quads are those of whole numbers */

static Pt *points(const float *f, int n) {
    Pt *p = room((size_t)n * sizeof *p);
    for (int i = 0; i < n; i++) p[i] = (Pt){(long)(2 * f[2 * i]), (long)(2 * f[2 * i + 1])};
    return p;
}
static Pt *wholes(const uint32_t *u, int n) {
    Pt *p = room((size_t)n * sizeof *p);
    for (int i = 0; i < n; i++) p[i] = (Pt){u[2 * i], u[2 * i + 1]};
    return p;
}
static void take_quad(Outer *o, Pt *four) {
    memcpy(o->quad, four, sizeof o->quad);
    free(four);
}
/* Hull and quad of k points by the f32 functions. */
static Outer outer(const float *p, size_t k) {
    float *hull = room(8 * k), q[8];
    size_t v;
    lcr_convex_hull(p, 2 * k, hull, 2 * k, &v);
    Outer o = {points(hull, (int)v), {{0, 0}}, (int)v, lcr_quad(hull, 2 * v, q) == LCR_OK};
    if (o.is) take_quad(&o, points(q, 4));
    free(hull);
    return o;
}
/* The same in whole numbers. */
static Outer whole_outer(const float *p, size_t k) {
    uint32_t *u = room(8 * k), *hull = room(8 * k), q[8], no, none = LCR_NONE;
    size_t v = 0;
    no = lcr_doubled(p, 2 * k, u, 2 * k);
    if (!no) no = lcr_whole_hull(u, 2 * k, hull, 2 * k, &v);
    if (!no) none = lcr_whole_quad(hull, 2 * v, q);
    if (no || (none && none != LCR_NONE)) {
        fprintf(stderr, "moves: an outline refused in whole numbers\n");
        exit(2);
    }
    Outer o = {wholes(hull, (int)v), {{0, 0}}, (int)v, none == LCR_OK};
    if (o.is) take_quad(&o, wholes(q, 4));
    free(u);
    free(hull);
    return o;
}
static Found doors(Pic p) {
    Found f;
    memset(&f, 0, sizeof f);
    f.p = p;
    size_t n = (size_t)p.w * p.h, g = n / 256, c = n / 64;
    f.grid = room(g);
    f.labels = room(4 * c);
    uint32_t *stack = room(4 * c), *size = room(4 * (c + 1));
    if (lcr_picture(p.g, n, p.w, p.h, f.grid, g, f.labels, c, stack, c, f.out)) {
        fprintf(stderr, "moves: refused\n");
        exit(2);
    }
    for (size_t i = 0; i < c; i++)
        if (f.labels[i]) size[f.labels[i]]++;
    for (uint32_t a = 1; a <= f.out[0]; a++)
        for (uint32_t b = 1; size[a] >= 16 && b < a; b++)
            if (size[a] == size[b]) f.ties = 1;
    for (uint32_t i = 0; i < f.out[1]; i++) {
        uint32_t *r = f.out + 2 + 6 * i;
        size_t m = 4 * (r[4] - r[2] + r[5] - r[3]);
        float *out = room(4 * m);
        size_t k;
        if (lcr_outline(p.g, n, f.grid, g, f.labels, c, r[0], p.w, p.h, r[2], r[3], r[4], r[5], out, m, &k)) {
            fprintf(stderr, "moves: outline refused\n");
            exit(2);
        }
        f.n[i] = (int)k;
        f.pts[i] = points(out, (int)k);
        f.outer[i] = large ? whole_outer(out, k) : outer(out, k);
        if (large) f.rounded[i] = outer(out, k);
        free(out);
    }
    free(stack);
    free(size);
    return f;
}
static void drop(Found *f) {
    for (int i = 0; i < 4; i++) {
        free(f->pts[i]);
        free(f->outer[i].hull);
        free(f->rounded[i].hull);
    }
    free(f->grid);
    free(f->labels);
    free(f->p.g);
}

/* ---- the comparison */
static long pictures, compared, tied, exchanged, regions, listed, vertices, quads, nones;
static int by(const void *a, const void *b) {
    const Pt *p = a, *q = b;
    return p->x != q->x ? (p->x > q->x) - (p->x < q->x) : (p->y > q->y) - (p->y < q->y);
}
static int same(const Pt *a, const Pt *b, int n) {
    for (int i = 0; i < n; i++)
        if (by(a + i, b + i)) return 0;
    return 1;
}
/* b is a, moved, turned round by some steps; backwards where the move mirrors */
static int round_of(int m, long w, long h, const Pt *a, const Pt *b, int n) {
    Pt *t = room(((size_t)n + 1) * 2 * sizeof *t);
    int ok = n == 0;
    for (int i = 0; i < n; i++) {
        Pt q = a[m >= 4 ? n - 1 - i : i];
        point(m, w, h, &q.x, &q.y);
        t[i] = t[n + i] = q;
    }
    for (int i = 0; i < n && !ok; i++) ok = same(t + i, b, n);
    free(t);
    return ok;
}
/* exactly one pair is farthest apart, and at most one vertex farthest out on each side of it */
static int one_quad(const Pt *p, int n) {
    long far = -1;
    int pairs = 0, a = 0, b = 0;
    for (int i = 0; i < n; i++)
        for (int j = i + 1; j < n; j++) {
            long dx = p[i].x - p[j].x, dy = p[i].y - p[j].y, d = dx * dx + dy * dy;
            if (d > far) {
                far = d;
                pairs = 1;
                a = i;
                b = j;
            } else if (d == far)
                pairs++;
        }
    if (pairs != 1) return 0;
    for (int side = -1; side <= 1; side += 2) {
        long top = 0;
        int tops = 0;
        for (int i = 0; i < n; i++) {
            long s = side * ((p[b].x - p[a].x) * (p[i].y - p[a].y) - (p[b].y - p[a].y) * (p[i].x - p[a].x));
            if (s > top) {
                top = s;
                tops = 1;
            } else if (s == top && s > 0)
                tops++;
        }
        if (tops > 1) return 0;
    }
    return 1;
}
/* b's quad is a's, moved, or neither has one */
static int quad_of(int m, long w, long h, const Outer *a, const Outer *b) {
    return a->is == b->is && (!a->is || round_of(m, w, h, a->quad, b->quad, 4));
}
/* How often the f32 hull or quad is another than the whole one: regions, and pictures with one. */
static long seen, seen_regions, hulls_differ, quads_differ, with_hull, with_quad, hulls_unmoved, quads_unmoved;
static void rounding(const Found *f) {
    long hulls = 0, others = 0;
    for (uint32_t i = 0; i < f->out[1]; i++) {
        const Outer *a = &f->outer[i], *b = &f->rounded[i];
        hulls += a->n != b->n || !same(a->hull, b->hull, a->n);
        others += a->is != b->is || (a->is && !same(a->quad, b->quad, 4));
    }
    seen++, seen_regions += f->out[1];
    hulls_differ += hulls, quads_differ += others, with_hull += hulls > 0, with_quad += others > 0;
}

/* the i-th regions are not each other's, moved: by group, count and box */
static int other_regions(const Found *a, const Found *b, int m, const uint32_t *to) {
    for (uint32_t i = 0; i < a->out[1]; i++) {
        const uint32_t *r = a->out + 2 + 6 * i, *s = b->out + 2 + 6 * i;
        long x0 = r[2], y0 = r[3], x1 = r[4], y1 = r[5], t;
        point(m, a->p.w, a->p.h, &x0, &y0);
        point(m, a->p.w, a->p.h, &x1, &y1);
        if (x0 > x1) t = x0, x0 = x1, x1 = t;
        if (y0 > y1) t = y0, y0 = y1, y1 = t;
        if (to[r[0]] != s[0] || r[1] != s[1] || s[2] != x0 || s[3] != y0 || s[4] != x1 || s[5] != y1) return 1;
    }
    return 0;
}
/* The ink of the level cell at (x, y) is not that of the moved one; both have the threshold t. */
static int other_ink(const Found *a, const Found *b, int m, long x, long y, int t) {
    long w = a->p.w, h = a->p.h, w2 = b->p.w, at[3];
    for (int k = 0; k < 3; k++) { /* where its first pixel, the next one and the one below go */
        long u = x + (k == 1), v = y + (k == 2);
        place(m, w, h, &u, &v);
        at[k] = v * w2 + u;
    }
    int other = 0;
    for (long j = 0; j < 16; j++)
        for (long i = 0; i < 16; i++)
            other |= (a->p.g[(y + j) * w + x + i] < t) != (b->p.g[at[0] + i * (at[1] - at[0]) + j * (at[2] - at[0])] < t);
    return other;
}
static const char *differ(const Found *a, const Found *b, int m) {
    long w = a->p.w, h = a->p.h, w2 = b->p.w;
    for (long y = 0; y < h / 16; y++)
        for (long x = 0; x < w / 16; x++) {
            long u = x, v = y;
            place(m, w / 16, h / 16, &u, &v);
            if (a->grid[y * (w / 16) + x] != b->grid[v * (w2 / 16) + u]) return "thresholds";
            if (other_ink(a, b, m, 16 * x, 16 * y, a->grid[y * (w / 16) + x])) return "ink";
        }
    if (a->out[0] != b->out[0]) return "number of groups";
    uint32_t *to = room(4 * ((size_t)a->out[0] + 1)), *from = room(4 * ((size_t)a->out[0] + 1));
    int ok = 1;
    for (long y = 0; y < h / 8; y++)
        for (long x = 0; x < w / 8; x++) {
            long u = x, v = y;
            place(m, w / 8, h / 8, &u, &v);
            uint32_t l = a->labels[y * (w / 8) + x], k = b->labels[v * (w2 / 8) + u];
            if (!l || !k) {
                ok &= l == k;
                continue;
            }
            if (!to[l]) to[l] = k;
            if (!from[k]) from[k] = l;
            ok &= to[l] == k && from[k] == l;
        }
    free(from);
    if (!ok) {
        free(to);
        return "groups";
    }
    int kept = a->out[1] == b->out[1], other = kept && other_regions(a, b, m, to);
    free(to);
    if (!kept) return "kept";
    if (a->ties) {
        exchanged += other;
        return 0;
    }
    if (other) return "regions";
    for (uint32_t i = 0; i < a->out[1]; i++) {
        const Outer *o = &a->outer[i], *t = &b->outer[i];
        int n = a->n[i], v = o->n;
        if (n != b->n[i]) return "number of points";
        Pt *p = room((size_t)n * sizeof *p), *q = room((size_t)n * sizeof *q);
        for (int k = 0; k < n; k++) {
            p[k] = a->pts[i][k];
            point(m, 2 * w, 2 * h, &p[k].x, &p[k].y);
            q[k] = b->pts[i][k];
        }
        qsort(p, (size_t)n, sizeof *p, by);
        qsort(q, (size_t)n, sizeof *q, by);
        ok = same(p, q, n);
        if (ok && n && by(q, t->hull)) ok = 2;
        free(p);
        free(q);
        if (ok != 1) return ok ? "the hull's start" : "points";
        if (v != t->n || !round_of(m, 2 * w, 2 * h, o->hull, t->hull, v)) return "hull";
        for (int k = 0; k < v; k++)
            for (int l = 0; l < k; l++)
                if (!by(t->hull + k, t->hull + l)) return "a vertex twice";
        int one = one_quad(o->hull, v);
        if (one) {
            if (!quad_of(m, 2 * w, 2 * h, o, t)) return "quad";
            quads++;
            nones += !o->is;
        }
        if (large) {
            const Outer *c = &a->rounded[i], *d = &b->rounded[i];
            hulls_unmoved += c->n != d->n || !round_of(m, 2 * w, 2 * h, c->hull, d->hull, c->n);
            quads_unmoved += one && !quad_of(m, 2 * w, 2 * h, c, d);
        }
        regions++;
        listed += n;
        vertices += v;
    }
    return 0;
}
static int check(int k, char **files) {
    Pic all[8];
    for (int m = 0; m < 8; m++) all[m] = load(files[m]);
    for (int i = 0; i < k; i++) {
        Found a = doors(part(&all[0], k, 0, i));
        pictures++;
        tied += a.ties;
        for (int m = 1; m < 8; m++) {
            Found b = doors(part(&all[m], k, m & 3, i));
            const char *what = differ(&a, &b, m);
            if (what) {
                printf("%s differs: picture %d of %s, move %d\n", what, i, files[0], m);
                return 1;
            }
            compared++;
            drop(&b);
        }
        drop(&a);
    }
    printf("%ld pictures (%ld with equal counts), %ld moved ones (%ld in another order), %ld regions, %ld points, %ld "
           "vertices, %ld quads "
           "(%ld none), 0 different\n",
           pictures, tied, compared, exchanged, regions, listed, vertices, quads, nones);
    return 0;
}

/* ---- pictures over 1,024 a side: five of eight up to 2,048, two up to 3,072, one larger, most often 4,096 by 4,096 */
static int side(int from, int to) { return from + 16 * below((to - from) / 16 + 1); }
static Pic plan(const char *seed, const char *i) {
    state = strtoull(seed, 0, 10) * 1000003 + strtoull(i, 0, 10);
    int size = below(8), most = size < 5 ? 2048 : size < 7 ? 3072 : 4096;
    int w = side(most - 1008, most), h = side(size < 5 ? 1040 : most / 2, most);
    if (h < 1040) h = 1040;
    if (size == 7 && below(3)) w = h = 4096;
    return below(2) ? (Pic){w, h, 0} : (Pic){h, w, 0};
}
static int check_large(int n, char **a) {
    large = true;
    Found f = doors(load(a[0]));
    pictures++;
    tied += f.ties;
    rounding(&f);
    for (int i = 1; i + 1 < n; i += 2) {
        Found g = doors(load(a[i + 1]));
        const char *what = differ(&f, &g, atoi(a[i]));
        if (what) {
            printf("%s differs: %s, move %s\n", what, a[0], a[i]);
            return 1;
        }
        compared++;
        rounding(&g);
        drop(&g);
    }
    drop(&f);
    printf("%ld %ld %ld %ld %ld %ld %ld %ld %ld %ld %ld %ld %ld %ld %ld %ld %ld\n", pictures, tied, compared, exchanged, regions, listed,
           vertices, quads, nones, seen, seen_regions, with_hull, hulls_differ, with_quad, quads_differ, hulls_unmoved, quads_unmoved);
    return 0;
}

/* ---- marks */
static void counts(int v, const bool *marks, uint16_t out[8]) {
    float score;
    size_t corner;
    bool reversed;
    if (lcr_correlate((uint32_t)v, marks, (size_t)(16 * v + 88), &score, &corner, &reversed, out)) {
        fprintf(stderr, "moves: correlate refused\n");
        exit(2);
    }
}
static int marks(long n) {
    long done = 0;
    for (long i = 0; i < n; i++) {
        int v = 1 + below(64), all = 16 * v + 88, q = all / 4;
        bool old[1112], new[1112];
        uint16_t a[8], b[8];
        for (int p = 0; p < all; p++) old[p] = below(2) != 0;
        counts(v, old, a);
        for (int back = 0; back < 2; back++)
            for (int k = 0; k < 4; k++) {
                for (int p = 0; p < all; p++) new[((back ? all - p : p) + k * q) % all] = old[p];
                counts(v, new, b);
                for (int r = 0; r < 4; r++)
                    for (int reversed = 0; reversed < 2; reversed++) {
                        int to = ((back ? 4 - r : r) + k) % 4, is = reversed ^ back;
                        if (a[4 * reversed + r] != b[4 * is + to]) {
                            printf("counts differ: version %d, list %ld\n", v, i);
                            return 1;
                        }
                        done++;
                    }
            }
    }
    printf("%ld lists of marks, 8 moves each, %ld counts, 0 different\n", n, done);
    return 0;
}

int main(int n, char **a) {
    if (n == 6 && !strcmp(a[1], "make")) {
        state = strtoull(a[2], 0, 10);
        Pic p = {atoi(a[3]), atoi(a[4]), 0};
        int k = atoi(a[5]);
        p.g = room((size_t)p.w * p.h);
        printf("P5\n%d %d\n255\n", p.w, p.h * k);
        for (int i = 0; i < k; i++) {
            draw(&p);
            fwrite(p.g, 1, (size_t)p.w * p.h, stdout);
        }
        return 0;
    }
    if (n == 11 && !strcmp(a[1], "check")) return check(atoi(a[2]), a + 3);
    if (n == 4 && !strcmp(a[1], "marks")) {
        state = strtoull(a[2], 0, 10);
        return marks(atol(a[3]));
    }
    if (n == 4 && !strcmp(a[1], "plan")) {
        Pic p = plan(a[2], a[3]);
        printf("%d %d", p.w, p.h);
        if (atoi(a[3]) % 20) printf(" %d\n", 1 + below(7));
        else printf(" 1 2 3 4 5 6 7\n");
        return 0;
    }
    if (n == 4 && !strcmp(a[1], "slanted")) {
        Pic p = plan(a[2], a[3]);
        p.g = room((size_t)p.w * p.h);
        draw_slanted(&p);
        save(&p);
        return 0;
    }
    if (n >= 5 && n % 2 && !strcmp(a[1], "large")) return check_large(n - 2, a + 2);
    fprintf(stderr, "usage: moves make SEED W H K | check K F0 .. F7 | marks SEED N | plan SEED I | slanted SEED I | large F0 M FM ..\n");
    return 2;
}
