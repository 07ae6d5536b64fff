/* The finder's f32 root and f64 to f32 rounding against the machine's, and on a sample against MPFR.
 *
 *   numbers root      every non-negative f32 pattern against sqrtf, and a sample of negative ones
 *   numbers narrow N  N patterns of f64 (ties, near ties, subnormal and overflowing results, any) against a cast
 *   numbers mpfr N    N of each against MPFR, rounded to nearest with f32's exponents (needs MPFR)
 *
 * Any NaN matches any NaN. Each prints how many were looked at and how many differ.
 */
#include <math.h>
#include <stdint.h>
#include <stdio.h>
#include <stdlib.h>
#include <string.h>
#ifdef HAVE_MPFR
#include <mpfr.h>
#endif

float lcr_root(float x);
float lcr_narrowed(double x);

static uint32_t bits32(float x) { uint32_t b; memcpy(&b, &x, 4); return x != x ? 0x7fc00000u : b; }
static float f32_of(uint32_t b) { float x; memcpy(&x, &b, 4); return x; }
static double f64_of(uint64_t b) { double x; memcpy(&x, &b, 8); return x; }
static uint64_t bits64(double x) { uint64_t b; memcpy(&b, &x, 8); return b; }

static uint64_t state = 1;
static uint64_t next(void) {
    uint64_t z = (state += 0x9E3779B97F4A7C15u);
    z = (z ^ (z >> 30)) * 0xBF58476D1CE4E5B9u;
    z = (z ^ (z >> 27)) * 0x94D049BB133111EBu;
    return z ^ (z >> 31);
}

/* An f64 pattern: near an f32, near the middle of two, with a subnormal result, or any. */
static double wide(uint64_t i) {
    uint64_t r = next();
    switch (i & 3) {
    case 0: return f64_of(r);
    case 1: return f64_of(bits64(f32_of((uint32_t)r)) + (r >> 62) - 1);
    case 2: return f64_of(bits64(f32_of((uint32_t)r)) + 0x10000000u + (r >> 62) - 1);
    default: return f64_of((r & 0x800fffffffffffffu) >> (r & 31) << (r & 31) | (0x35e + (r >> 32) % 40) << 52);
    }
}

static uint64_t looked, differ;
static void hold(uint64_t in, float want, float got) {
    looked++;
    if (bits32(want) != bits32(got) && differ++ < 10)
        printf("differs: %llx wanted %08x got %08x\n", (unsigned long long)in, bits32(want), bits32(got));
}

int main(int n, char **a) {
    uint64_t many = n > 2 ? strtoull(a[2], 0, 10) : 100000000;
    if (n > 1 && !strcmp(a[1], "root")) {
        for (uint64_t b = 0; b < 0x80000000u; b++) hold(b, sqrtf(f32_of((uint32_t)b)), lcr_root(f32_of((uint32_t)b)));
        for (uint64_t b = 0x80000000u; b <= 0xffffffffu; b += 4093) hold(b, sqrtf(f32_of((uint32_t)b)), lcr_root(f32_of((uint32_t)b)));
    } else if (n > 1 && !strcmp(a[1], "narrow")) {
        for (uint64_t i = 0; i < many; i++) { double x = wide(i); hold(bits64(x), (float)x, lcr_narrowed(x)); }
#ifdef HAVE_MPFR
    } else if (n > 1 && !strcmp(a[1], "mpfr")) {
        /* precision 24 and exponents -148..128 with gradual underflow are IEEE 754's binary32 */
        mpfr_set_emin(-148);
        mpfr_set_emax(128);
        mpfr_t y, x;
        mpfr_init2(y, 24);
        mpfr_init2(x, 53);
        for (uint64_t i = 0; i < many; i++) {
            float v = f32_of((uint32_t)next() & 0x7fffffffu);
            mpfr_set_emin(-1073);
            mpfr_set_flt(x, v, MPFR_RNDN);
            mpfr_set_emin(-148);
            int t = mpfr_sqrt(y, x, MPFR_RNDN);
            mpfr_subnormalize(y, t, MPFR_RNDN);
            hold(bits32(v), mpfr_get_flt(y, MPFR_RNDN), lcr_root(v));
            double w = wide(i);
            mpfr_set_emin(-1073);
            mpfr_set_emax(1024);
            mpfr_set_d(x, w, MPFR_RNDN);
            mpfr_set_emin(-148);
            mpfr_set_emax(128);
            t = mpfr_set(y, x, MPFR_RNDN);
            t = mpfr_check_range(y, t, MPFR_RNDN);
            mpfr_subnormalize(y, t, MPFR_RNDN);
            hold(bits64(w), mpfr_get_flt(y, MPFR_RNDN), lcr_narrowed(w));
        }
#endif
    } else {
        printf("usage: numbers root | narrow N | mpfr N\n");
        return 2;
    }
    printf("%s %llu looked at, %llu differ\n", a[1], (unsigned long long)looked, (unsigned long long)differ);
    return differ != 0;
}
