/* regions FILE: the regions and the tags of a grey picture (PGM, P5, maximum value 255).
 *
 * Prints how many regions there are and how many are kept, then of each kept one its label, its cells and its box in
 * pixels: left, top, right, bottom, the last two exclusive; then the tags as the program tags prints them. Ends with 1 where the
 * file or the picture is refused.
 */
#include <stdio.h>
#include <stdlib.h>

#include "lcr_ring.h"

static int fail(const char *file, const char *what) {
    fprintf(stderr, "regions: %s: %s\n", file, what);
    return 1;
}

static int refused(const char *file, uint32_t no) {
    const char *what = no == LCR_HEADER    ? "no PGM header (P5) within the first 4,096 bytes"
                       : no == LCR_MAXIMUM ? "a PGM maximum value other than 255"
                       : no == LCR_SIDE    ? "a side outside 1 to 4,096 pixels"
                       : no == LCR_BYTES   ? "bytes not width times height"
                                           : "refused";
    fprintf(stderr, "regions: %s: %s (refusal %u)\n", file, what, no);
    return 1;
}

/* All bytes of a file, and how many; null where it can't be read. */
static uint8_t *contents(const char *name, size_t *len) {
    FILE *f = fopen(name, "rb");
    uint8_t *bytes = NULL, *more;
    size_t room = 0;
    if (!f) return NULL;
    *len = 0;
    do {
        room = 2 * room + 65536;
        more = realloc(bytes, room);
        if (!more) break;
        bytes = more;
        *len += fread(bytes + *len, 1, room - *len, f);
    } while (*len == room);
    if (!more || ferror(f)) free(bytes), bytes = NULL;
    fclose(f);
    return bytes;
}

/* The tags of a picture, a line each, or `none`. */
static uint32_t tags(const uint8_t *gray, size_t w, size_t h, uint8_t *level, uint32_t *label, uint32_t *stack, float *numbers) {
    size_t levels = LCR_LEVEL_CELLS(w, h), cells = LCR_REGION_CELLS(w, h), n = LCR_NUMBERS(w, h), many;
    float t[LCR_TAGS];
    uint32_t no = lcr_tags(gray, w * h, w, h, LCR_VERSIONS, level, levels, label, cells, stack, cells, numbers, n,
                           numbers + n, n, numbers + 2 * n, n, numbers + 3 * n, n, &many, t);
    if (no != LCR_OK) return no;
    if (many == 0) printf("none\n");
    for (float *k = t; k < t + 11 * many; k += 11) {
        printf("version %.0f agreement %.3f mirrored %s corners", k[0], k[1], k[2] != 0 ? "yes" : "no");
        for (int i = 3; i < 11; i++) printf(" %.1f", k[i]);
        printf("\n");
    }
    return LCR_OK;
}

int main(int argc, char **argv) {
    size_t len, w, h, at;
    if (argc != 2) {
        fprintf(stderr, "regions FILE\n");
        return 2;
    }
    uint8_t *file = contents(argv[1], &len);
    if (!file) return fail(argv[1], "can't be read");
    uint32_t no = lcr_pgm_read(file, len, &w, &h, &at);
    if (no != LCR_OK) return free(file), refused(argv[1], no);

    size_t levels = LCR_LEVEL_CELLS(w, h), cells = LCR_REGION_CELLS(w, h);
    uint8_t *level = malloc(levels);
    uint32_t *label = malloc(cells * sizeof *label), *stack = malloc(cells * sizeof *stack), r[LCR_REGIONS];
    float *numbers = malloc(4 * LCR_NUMBERS(w, h) * sizeof *numbers);
    if (!level || !label || !stack || !numbers) return fail(argv[1], "too large for this machine");
    no = lcr_picture(file + at, w * h, w, h, level, levels, label, cells, stack, cells, r);
    if (no == LCR_OK) {
        printf("regions %u %u\n", r[0], r[1]);
        for (uint32_t *k = r + 2; k < r + 2 + 6 * r[1]; k += 6)
            printf("region %u %u %u %u %u %u\n", k[0], k[1], k[2], k[3], k[4], k[5]);
        no = tags(file + at, w, h, level, label, stack, numbers);
    }
    free(file), free(level), free(label), free(stack), free(numbers);
    return no == LCR_OK ? 0 : refused(argv[1], no);
}
