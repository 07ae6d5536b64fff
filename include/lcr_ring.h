/* lcr_ring.h: the ring finder for C and C++.
 *
 * Link with liblcr_ring.a, which `rt lib` in crates/lcr_ring writes to its folder out/. Every function is proved
 * to stay within the memory that it is handed and to end, and the door that it calls is proved to answer what it
 * promises (docs/ARCHITECTURE.md says where). That the function hands this on as said below is proved too: its result,
 * every out-parameter, and what is left of every list. What a function is handed is the caller's affair, so read this
 * page once.
 *
 * RESULTS. Every function answers one of these:
 *   LCR_OK (0)      the call is accepted; every out-parameter is written;
 *   1 to 22         the call is refused: the number of the first check that fails, in the order given with each
 *                   function; those in use are listed below, and 4 is not answered. Every refusal of every function
 *                   leaves out-parameters and lent lists as they were;
 *   LCR_NONE (255)  the call is accepted and there is nothing to answer; out-parameters are as before.
 *
 * LISTS. A list is a pointer to its first element and a length in elements, not bytes. An array with its
 * length in brackets is a pointer to that many elements, which must be there. No pointer may be null or
 * misaligned, not even of an empty list. Lists and out-parameters that are written must not overlap each other
 * or lists that are read; lists that are only read may overlap. A lent list may be longer than it must be: places
 * past those needed stay untouched. What working lists hold after an accepted call is left open. A `bool`
 * that is read must hold 0 or 1.
 *
 * A list that belongs to a door and is too short is refused by LCR_LENT in the door's own order of checks.
 * One that only the C function has (xy of lcr_apply_all) is checked before all else,
 * by LCR_LENT too.
 *
 * COORDINATES. Pixels from the picture's upper left corner, x to the right and y down: pixel (c, r) covers the
 * square from (c, r) to (c + 1, r + 1) and has its centre at + 0.5. Points in a list are x and y by turns. A
 * picture is one byte a pixel, 0 black to 255 white, row by row without padding. Module space has one unit a cell,
 * the symbol from (0, 0) to (side, side).
 *
 * STATE. Nothing is allocated and nothing is kept between calls, so that calls on different memory may run at the
 * same time in any threads. Floats are IEEE 754 in round to nearest, which the calling thread must have set, with
 * subnormals on. A NaN has no fixed bits. Working memory that is not lent is on the stack: random calls use up to
 * 71 KB of it (oracle/outside/guards measures), and a median of 4,096 values may go as many levels of 48 bytes deep.
 * A thread that calls should have 256 KB free.
 */
#ifndef LCR_RING_H
#define LCR_RING_H

#include <stdbool.h>
#include <stddef.h>
#include <stdint.h>

#ifdef __cplusplus
extern "C" {
#endif

enum {
    LCR_OK = 0,          /* accepted and answered */
    LCR_SIDE = 1,        /* a side of the picture outside 1..4,096 */
    LCR_BYTES = 2,       /* bytes not width x height; behind a PGM header, fewer */
    LCR_LENT = 3,        /* a lent list or an out list is too short */
    LCR_BOX = 5,         /* box not 0 <= x0 < x1 <= width, or the same of y and height */
    LCR_POINTS = 6,      /* an odd list of points, or more than 16,384 points */
    LCR_COORDINATE = 7,  /* a coordinate not finite, or beyond -32,768 .. 32,768 */
    LCR_VERSION = 8,     /* a version outside 1..64 */
    LCR_SIZE = 9,        /* a size outside 1..8, more than 4,096 values, not 4 to 33 of a window, or lengths that disagree */
    LCR_VALUE = 10,      /* a NaN or an infinity among the values; at medians -0 too */
    LCR_MARKS = 11,      /* marks or lumas not as many as the version has positions */
    LCR_CELL = 12,       /* a cell coordinate outside -32,768 .. 32,767 */
    LCR_RECORD = 13,     /* a record that is short or wrong; in a program also a PGM file with a side over what it takes */
    LCR_HEADER = 14,     /* a PGM header that does not follow the form, or does not end within the first 4,096 bytes */
    LCR_MAXIMUM = 15,    /* a PGM file's maximum value other than 255 */
    LCR_PLATE = 16,      /* a pitch outside 1..16, a corner outside 0..3, or a picture side below (version side + 10) x pitch */
    LCR_RUN = 17,        /* a shortest run outside 2..8 */
    LCR_BOXES = 18,      /* box numbers not whole fours, or a box with x0 > x1, y0 > y1, x1 > width or y1 > height */
    LCR_DOUBLED = 21,    /* a coordinate that is no whole number from 0 to 8,192, doubled */
    LCR_ROW = 22,        /* a row of more than 60 pixels, or a place that is not below their number */
    LCR_NONE = 255       /* accepted, and there is nothing to answer */
};

enum {
    LCR_VERSIONS = 64,     /* the greatest version */
    LCR_REGIONS = 26,      /* numbers that lcr_picture answers */
    LCR_SCORES = 256,      /* numbers of scores that lcr_attempt and lcr_find answer */
    LCR_TAGS = 44,         /* numbers of tags that lcr_tags answers, eleven each */
    LCR_TEXT = 512         /* bytes of the text that lcr_listing answers */
};

/* How many level cells (16 by 16 pixels) and region cells (8 by 8) a picture has; cells are cut at the far edges. */
#define LCR_LEVEL_CELLS(width, height) ((((size_t)(width) + 15) / 16) * (((size_t)(height) + 15) / 16))
#define LCR_REGION_CELLS(width, height) ((((size_t)(width) + 7) / 8) * (((size_t)(height) + 7) / 8))

/* ---- Pictures: grids and regions ------------------------------------------------------------------------ */

/* The picture door: thresholds, labels and regions of a picture.
 *
 *   gray       gray_len bytes, width x height of them
 *   width      pixels, 1 to 4,096
 *   height     pixels, 1 to 4,096
 *   levels     out, at least LCR_LEVEL_CELLS bytes: the threshold of each level cell, row by row, 0 to 255. A pixel
 *              is ink where it is below its cell's threshold
 *   labels     out, at least LCR_REGION_CELLS numbers: the label of each region cell, row by row, from 1 in the order
 *              of first cells; 0 where the cell is not ink
 *   stack      working list, at least LCR_REGION_CELLS numbers
 *   regions    out. [0]: how many regions there are, which is the greatest label; [1]: how many are kept, 0 to 4: of
 *              those with 16 or more cells the ones with most, equal counts by lower label; then six numbers of each of
 *              four places, 0 past those kept: label, cells, and the box in pixels, left, top, right, bottom, right and
 *              bottom exclusive, cut at the picture's edges
 *
 * Refusals in order: LCR_SIDE, LCR_BYTES, LCR_LENT. */
uint32_t lcr_picture(const uint8_t *gray, size_t gray_len, size_t width, size_t height,
                     uint8_t *levels, size_t levels_len, uint32_t *labels, size_t labels_len,
                     uint32_t *stack, size_t stack_len, uint32_t regions[LCR_REGIONS]);

/* ---- Darkness of boxes ---------------------------------------------------------------------------------- */

/* The darkness door: how many ink pixels each of many boxes has, from a table of running counts that the same call fills.
 * A pixel is ink where it is below the byte of its level cell.
 *
 *   gray, width, height     as lcr_picture has them
 *   levels     at least LCR_LEVEL_CELLS bytes, row by row, as lcr_picture left them or any others
 *   boxes      boxes_len numbers, four of each box: left, top, right and bottom in pixels, right and bottom exclusive:
 *              x0 <= x1 <= width, y0 <= y1 <= height. A box with x0 = x1 or y0 = y1 is empty and has 0
 *   table      out, at least (width + 1) x (height + 1) numbers: place (x, y), in rows of width + 1, has the number of
 *              ink pixels with a column below x and a row below y
 *   counts     out, at least boxes_len / 4 numbers: the ink pixels of each box
 *
 * Refusals in order: LCR_SIDE, LCR_BYTES, LCR_LENT, LCR_BOXES. All boxes are checked before anything is written. */
uint32_t lcr_darkness(const uint8_t *gray, size_t gray_len, const uint8_t *levels, size_t levels_len,
                      size_t width, size_t height, const uint32_t *boxes, size_t boxes_len,
                      uint32_t *table, size_t table_len, uint32_t *counts, size_t counts_len);

/* ---- Outlines, hulls and quads -------------------------------------------------------------------------- */

/* The outline door: boundary points of a box. Per row of the box, then per column: the start of the first and the
 * end of the last run of 4 or more member pixels, at the pixels' centres across (+ 0.5) and edges along. A member is an
 * ink pixel in a cell whose label is `want`, or any but 0 where `want` is 0.
 *
 *   gray, width, height     as lcr_picture has them
 *   levels     at least LCR_LEVEL_CELLS bytes, as lcr_picture left them
 *   labels     at least LCR_REGION_CELLS numbers, as lcr_picture left them
 *   want       the label of the region; 0 takes the cells of every label
 *   x0 y0      the box's left and top, in pixels, within it
 *   x1 y1      the box's right and bottom, in pixels, exclusive: 0 <= x0 < x1 <= width, 0 <= y0 < y1 <= height
 *   out        out, at least 4 x ((x1 - x0) + (y1 - y0)) numbers: x and y of each point by turns, in pixels
 *   points     out: how many points, 0 to 2 x (box width + height); out has twice as many numbers
 *
 * Refusals in order: LCR_SIDE, LCR_BYTES, LCR_BOX, LCR_LENT. */
uint32_t lcr_outline(const uint8_t *gray, size_t gray_len, const uint8_t *levels, size_t levels_len,
                     const uint32_t *labels, size_t labels_len, uint32_t want, size_t width, size_t height,
                     size_t x0, size_t y0, size_t x1, size_t y1, float *out, size_t out_len, size_t *points);

/* The convex hull of any list of points, from the one with least x, then least y.
 *
 *   points     points_len numbers, x and y by turns, any floats; an odd last number is not read
 *   out        out, at least points_len numbers: the vertices, x and y by turns
 *   vertices   out: how many, 0 to points_len / 2
 *
 * For points k/2 with 0 <= k <= 2,048, as boundary points up to 1,024 pixels are, the list is the exact hull,
 * clockwise. Takes time in proportion to points x vertices. Refusal: LCR_LENT. */
uint32_t lcr_convex_hull(const float *points, size_t points_len, float *out, size_t out_len, size_t *vertices);

/* The quad of a hull: the farthest pair of vertices and the farthest vertex on either side of it.
 *
 *   vertices   vertices_len numbers, x and y by turns, as lcr_convex_hull lists them
 *   quad       out: x and y of four corners: clockwise for vertices k/2 with 0 <= k <= 2,048; in other lists rounded
 *              products may tell the wrong order
 *
 * LCR_NONE where there are fewer than four vertices or a side has none. Takes time in proportion to the square of
 * the vertices. No refusal. */
uint32_t lcr_quad(const float *vertices, size_t vertices_len, float quad[8]);

/* ---- Outlines in whole numbers --------------------------------------------------------------------------- */

/* Points of pictures of up to 4,096 pixels a side in whole numbers: their coordinates doubled, so that centres and edges of
 * pixels are whole, 0 to 8,192. Hull and quad are exact there, where products of half pixels in floats are rounded. The way
 * from a picture: lcr_picture, lcr_outline, lcr_doubled, lcr_whole_hull, lcr_whole_quad. For coordinates up to 2,048, which
 * are pictures of up to 1,024 a side, vertices and corners are those of lcr_convex_hull and lcr_quad, doubled. */

/* Points as lcr_outline lists them, doubled.
 *
 *   points     points_len numbers, x and y by turns: at most 16,384 points, each number half of a whole number from 0 to 8,192;
 *              -0 is 0
 *   out        out, at least points_len numbers: twice each number, as a whole number
 *
 * Refusals in order: LCR_POINTS, LCR_LENT, LCR_DOUBLED. */
uint32_t lcr_doubled(const float *points, size_t points_len, uint32_t *out, size_t out_len);

/* The convex hull of points in doubled coordinates, clockwise (x right, y down) from the one with least x, then least y.
 *
 *   points     points_len numbers, x and y by turns: at most 16,384 points, 0 to 8,192
 *   out        out, at least points_len numbers: the vertices, x and y by turns
 *   vertices   out: how many, 0 to points_len / 2
 *
 * All points lie on or inside the hull, its vertices are points, and none of them lies on or inside the hull of the others.
 * Takes time in proportion to the points, and to the columns between the outermost of them. Refusals in order: LCR_POINTS,
 * LCR_LENT, LCR_DOUBLED. */
uint32_t lcr_whole_hull(const uint32_t *points, size_t points_len, uint32_t *out, size_t out_len, size_t *vertices);

/* The quad of a hull in doubled coordinates: the farthest pair of vertices and the farthest vertex on either side of it.
 *
 *   vertices   vertices_len numbers, x and y by turns, as lcr_whole_hull lists them; of any other list too
 *   quad       out: x and y of four corners, clockwise
 *
 * LCR_NONE where there are fewer than four vertices or a side has none. Takes time in proportion to the square of
 * the vertices. Refusals in order: LCR_POINTS, LCR_DOUBLED. */
uint32_t lcr_whole_quad(const uint32_t *vertices, size_t vertices_len, uint32_t quad[8]);

/* ---- The ring ------------------------------------------------------------------------------------------- */

/* The ring door: one attempt at a ring from boundary points, over versions 1 to `most`.
 *
 *   gray, width, height     as lcr_picture has them
 *   points     points_len numbers, x and y by turns, in pixels: at most 16,384 points, each coordinate finite and
 *              within -32,768 .. 32,768
 *   most       the greatest version to try, 1 to 64
 *   straight, cand, buf     working lists, each at least points_len numbers
 *   hull       out: how many vertices the hull has that was searched: of the points, or of the points straightened
 *              where a lens is found; as many as there are points where its coefficient is a NaN
 *   found      out: whether there is a quad. Where there is none, quad, scores, fix and fallback are all 0
 *   quad       out: x and y of the searched quad's four corners, in order as lcr_quad has them; in pixels, straightened
 *              where a lens is found. A place of the picture itself comes from lcr_apply on the fix
 *   tried      out: how many versions have a score, 0 to 64
 *   scores     out: four numbers of each score in version order, 0 past the last: version; agreement, the fraction of
 *              positions that agree, 0 to 1; corner, 0 to 3, the corner of the quad where position 0 is; mirrored, 1
 *              where the ring runs backwards, else 0
 *   fix        out: the located ring, all 0 where there is none: version (1 to 64), agreement, corner, mirrored
 *              as in scores; then from fix + 4 on the eleven numbers of the transform from module space to pixels,
 *              as lcr_apply takes them
 *   fallback   out: the same under the relaxed rule, looked for only where there is no fix; all 0 where there is none
 *
 * Refusals in order: LCR_SIDE, LCR_BYTES, LCR_POINTS, LCR_LENT, LCR_COORDINATE, LCR_VERSION. */
uint32_t lcr_attempt(const uint8_t *gray, size_t gray_len, size_t width, size_t height,
                     const float *points, size_t points_len, uint32_t most,
                     float *straight, size_t straight_len, float *cand, size_t cand_len, float *buf, size_t buf_len,
                     size_t *hull, bool *found, float quad[8], size_t *tried, float scores[LCR_SCORES],
                     double fix[15], double fallback[15]);

/* ---- The finder and the tag list ------------------------------------------------------------------------ */

/* How many numbers points, straight, cand and buf must have below: what the outline of a whole picture can need. */
#define LCR_NUMBERS(width, height) (4 * ((size_t)(width) + (size_t)(height)))

/* The finder: from a picture to its ring in one call. Each kept region is tried by itself, largest first, then all ink
 * together where there is more than one region, kept or not: a ring at a large pitch falls into several regions, and only all
 * of them have its outline. A try is lcr_outline, then lcr_attempt on its points. The first try with a fix is answered; without
 * one the first with the greatest score, and its fallback becomes the fix.
 *
 *   gray, width, height     as lcr_picture has them
 *   most       the greatest version to try, 1 to 64
 *   levels, labels, stack   as lcr_picture has them; levels and labels hold afterwards what lcr_picture leaves
 *   points, straight, cand, buf     working lists, each at least LCR_NUMBERS numbers
 *   regions    out: how many regions the picture has, kept or not
 *   hull, found, quad, tried, scores, fix     out, as lcr_attempt has them, of the try that is answered. Where no
 *              outline is tried, hull is 0 and there is no quad
 *   fallback   out, as lcr_attempt has it; all 0 where it became the fix
 *
 * Refusals in order: LCR_SIDE, LCR_BYTES, LCR_LENT, LCR_VERSION. */
uint32_t lcr_find(const uint8_t *gray, size_t gray_len, size_t width, size_t height, uint32_t most,
                  uint8_t *levels, size_t levels_len, uint32_t *labels, size_t labels_len,
                  uint32_t *stack, size_t stack_len, float *points, size_t points_len,
                  float *straight, size_t straight_len, float *cand, size_t cand_len, float *buf, size_t buf_len,
                  size_t *regions, size_t *hull, bool *found, float quad[8], size_t *tried, float scores[LCR_SCORES],
                  double fix[15], double fallback[15]);

/* The tags of a picture, which may carry several: every kept region's own fix, in the regions' order; where no region has
 * one, the fix of lcr_find, if there is one.
 *
 *   gray to buf     as lcr_find has them
 *   many       out: how many tags, 0 to 4
 *   tags       out: eleven numbers of each tag, 0 past the last: version, 1 to 64; agreement, the fraction of positions
 *              that agree, 0 to 1; mirrored, 1 where the ring runs backwards round its quad, which is anticlockwise in the
 *              picture where the quad is clockwise (see lcr_quad), else 0; x and y of the four
 *              corners of the ring's outer square, in pixels of the picture, lens and all, in the ring's own order: the corner
 *              of position 0 first, then along rising positions. They may lie outside the picture
 *
 * Two tags are of kept regions that have no pixel in common. They can be the same tag: where its ink has fallen into two
 * regions, or other ink lies round or in it, and the outlines of both read as the ring. Nothing rules that out; version and
 * corners, which then nearly agree, tell it.
 *
 * Refusals in order: LCR_SIDE, LCR_BYTES, LCR_LENT, LCR_VERSION. */
uint32_t lcr_tags(const uint8_t *gray, size_t gray_len, size_t width, size_t height, uint32_t most,
                  uint8_t *levels, size_t levels_len, uint32_t *labels, size_t labels_len,
                  uint32_t *stack, size_t stack_len, float *points, size_t points_len,
                  float *straight, size_t straight_len, float *cand, size_t cand_len, float *buf, size_t buf_len,
                  size_t *many, float tags[LCR_TAGS]);

/* ---- Versions, border cells and marks ------------------------------------------------------------------- */

/* A version, 1 to 64.   side: out, cells on a side of the symbol, 17 + 4 x version.
 *   positions: out, positions round its ring, 16 x version + 88.   Refusal: LCR_VERSION. */
uint32_t lcr_version(uint32_t version, uint16_t *side, size_t *positions);

/* Cells have coordinates in cells from the symbol's upper left one; those of the ring run from -3 to side + 2.
 * In the next three x and y are within -32,768 .. 32,767. Refusals in order: LCR_VERSION, LCR_CELL.
 *
 * lcr_shell             depth: out, how far outside the symbol the cell lies, in cells; 0 within it
 * lcr_edge_and_offset   edge: out, 0 top, 1 right, 2 bottom, 3 left, the one that the cell lies farthest out on, where top
 *                       and bottom have the corners; offset: out, the coordinate along it, in cells. A cell within the
 *                       symbol gets some edge too: lcr_shell tells it by depth 0
 * lcr_position          position: out, 0 to positions - 1; LCR_NONE where the cell is not of the ring */
uint32_t lcr_shell(uint32_t version, int32_t x, int32_t y, size_t *depth);
uint32_t lcr_edge_and_offset(uint32_t version, int32_t x, int32_t y, size_t *edge, int32_t *offset);
uint32_t lcr_position(uint32_t version, int32_t x, int32_t y, size_t *position);

/* The outer cell of a position, and the cell one step inward from it. p: any number, reduced modulo the positions.
 *   x, y: out, the cell: the outer one -3 to side + 2, the inner one -2 to side + 1.   Refusal: LCR_VERSION. */
uint32_t lcr_outer_cell(uint32_t version, size_t p, int32_t *x, int32_t *y);
uint32_t lcr_inner_cell(uint32_t version, size_t p, int32_t *x, int32_t *y);

/* The ring's mark at a position. p: any number, reduced modulo the positions.   light: out, whether it is light.
 * Refusal: LCR_VERSION. */
uint32_t lcr_sequence_light(uint32_t version, size_t p, bool *light);

/* Light or dark at each position of a ring, from its luma.
 *
 *   version    1 to 64
 *   lumas      one a position of the version, any floats (0 to 255 as sampled), in the order of positions
 *   marks      out, exactly one a position: whether it is light
 *
 * Refusals in order: LCR_VERSION, LCR_MARKS (lumas, then marks; longer lists too). */
uint32_t lcr_classify(uint32_t version, const float *lumas, size_t lumas_len, bool *marks, size_t marks_len);

/* The split of one window of lumas, as lcr_classify makes it for each position: a value above it is light. It starts at
 * the mean and is moved in up to four rounds, each to the middle between the means of the values above it and of the others;
 * it has settled at the first round, from the second on, whose split has the bits of the one before (any NaN as any NaN).
 *
 *   values     4 to 33 numbers, none a NaN or infinite, in the order of positions
 *   split      out: that of four rounds
 *   round      out: the round at which it has settled, 2 to 4; 4 also where it has not
 *
 * Refusals in order: LCR_SIZE (not 4 to 33 values), LCR_VALUE (a NaN or an infinity; -0 is taken). */
uint32_t lcr_split(const float *values, size_t values_len, float *split, uint32_t *round);

/* The pose in which a ring's marks agree most with the version's sequence.
 *
 *   version    1 to 64
 *   marks      exactly one a position of the version
 *   score      out: the fraction of positions that agree, 0 to 1
 *   corner     out: 0 to 3, by how many quarters the ring is shifted
 *   reversed   out: whether it runs backwards
 *   counts     out: how many positions agree in each pose, the four shifts as it is, then the four reversed;
 *              the answer is the first with the greatest count
 *
 * Refusals in order: LCR_VERSION, LCR_MARKS. */
uint32_t lcr_correlate(uint32_t version, const bool *marks, size_t marks_len, float *score, size_t *corner,
                       bool *reversed, uint16_t counts[8]);

/* ---- Transforms ----------------------------------------------------------------------------------------- */

/* A transform t is eleven numbers, coefficients m0 to m7 and a lens cx, cy, kappa. The pixel of the place (u, v) in
 * module space is (m0 u + m1 v + m2, m3 u + m4 v + m5) / (m6 u + m7 v + 1), in pixels, where a divisor of a magnitude
 * below 1e-9 becomes 1e-9, then bent about the centre (cx, cy), in pixels, by kappa, per square pixel; a kappa of 0 is no
 * lens. All floats are taken.
 *
 * lcr_from_quad     t: out, the transform that takes the corners src to dst, each x and y of four corners, without a
 *                   lens; LCR_NONE where there is none
 * lcr_with_radial   puts the lens cx, cy, kappa into t
 * lcr_apply         x, y: out, the pixel of (u, v)
 * lcr_apply_all     uv: u and v of many places by turns, an odd last number is not read; xy: out, at least uv_len
 *                   numbers, else LCR_LENT: x and y of each by turns
 *
 * The others have no refusal. */
uint32_t lcr_from_quad(const float src[8], const float dst[8], double t[11]);
uint32_t lcr_with_radial(double t[11], float cx, float cy, float kappa);
uint32_t lcr_apply(const double t[11], float u, float v, float *x, float *y);
uint32_t lcr_apply_all(const double t[11], const float *uv, size_t uv_len, float *xy, size_t xy_len);

/* ---- Equations and medians ------------------------------------------------------------------------------ */

/* The solution of n linear equations.
 *
 *   a          exactly n x n numbers, the matrix row by row
 *   b          exactly n numbers, the right side
 *   n          1 to 8
 *   x          out: the n numbers of the solution, then +0
 *
 * LCR_NONE where a pivot's magnitude is below 1e-12. Refusal: LCR_SIZE. */
uint32_t lcr_solve(const double *a, size_t a_len, const double *b, size_t b_len, size_t n, double x[8]);

/* The least squares fit of n coefficients, by the normal equations with 1e-9 added to each diagonal entry.
 *
 *   basis      exactly n numbers of each sample, one sample after the other
 *   targets    one number of each sample, any number of samples
 *   n          1 to 8
 *   x          out: the n coefficients, then +0
 *
 * LCR_NONE where there are fewer samples than coefficients, or a pivot's magnitude is below 1e-12.
 * Refusal: LCR_SIZE. */
uint32_t lcr_least_squares(const double *basis, size_t basis_len, const double *targets, size_t targets_len, size_t n,
                           double x[8]);

/* The median of up to 4,096 values, no NaN, infinity or -0; the mean of the middle two where they are even in number, 0
 * where there are none. values: come into another order.   median: out.   Refusals in order: LCR_SIZE, LCR_VALUE. */
uint32_t lcr_median(float *values, size_t values_len, float *median);

/* The median distance from the median, times 1.4826, of up to 4,096 values, no NaN, infinity or -0; 0 where there
 * are none. sigma: out.   Refusals in order: LCR_SIZE, LCR_VALUE. */
uint32_t lcr_mad_sigma(const float *values, size_t values_len, float *sigma);

/* ---- PGM files ------------------------------------------------------------------------------------------ */

/* Bytes that are always enough for a written file: a header has at most 17. */
#define LCR_PGM_BYTES(width, height) ((size_t)(width) * (size_t)(height) + 17)

/* The picture of a binary PGM file, the P5 form of Netpbm's pgm(5), with maximum value 255.
 *
 * The header is the two bytes P5; then width, height and maximum value, each as white space and digits, at least one
 * byte of either; then one byte of white space. White space is space, CR, LF, TAB, VT or FF. Numbers are decimal and
 * may have leading zeros. From a # through the next CR or LF is a comment, anywhere between P5 and the last byte of
 * white space: it counts for nothing, its line end included, and may stand within a number.
 *
 *   file       file_len bytes, any. Those after the pixels are not read
 *   width      out: pixels, 1 to 4,096
 *   height     out: pixels, 1 to 4,096
 *   at         out: the place in file where the pixels begin, 11 to 4,096; from there on width x height bytes are a
 *              picture as lcr_picture takes it
 *
 * Refusals in order: LCR_HEADER, LCR_MAXIMUM, LCR_SIDE, LCR_BYTES (fewer than width x height bytes after the header). */
uint32_t lcr_pgm_read(const uint8_t *file, size_t file_len, size_t *width, size_t *height, size_t *at);

/* The binary PGM file of a picture: P5, width, height and 255, without leading zeros, a line feed after each; then the
 * pixels. lcr_pgm_read gives the same sides and pixels back.
 *
 *   gray, width, height     as lcr_picture has them
 *   out        out, at least as many bytes as the file has: LCR_PGM_BYTES always do
 *   len        out: how many bytes the file has, 12 to LCR_PGM_BYTES
 *
 * Refusals in order: LCR_SIDE, LCR_BYTES, LCR_LENT. */
uint32_t lcr_pgm_write(const uint8_t *gray, size_t gray_len, size_t width, size_t height, uint8_t *out, size_t out_len,
                       size_t *len);

/* ---- The tray list -------------------------------------------------------------------------------------- */

/* The listing of a picture, as the program traylist prints it.
 *
 *   input      input_len bytes, any. A PGM file where they begin with P5, as lcr_pgm_read takes it, sides 1 to 160.
 *              Else a record: four-byte length of the rest, two-byte kind 1, two-byte width and height (1 to 160),
 *              pixels; all little-endian. Bytes after the pixels are not read
 *   text       out: lines that end in a line feed, at most 352 bytes, then zeros
 *   len        out: how many bytes the lines have
 *
 * Refusals of a PGM file in order: LCR_HEADER, LCR_MAXIMUM, LCR_SIDE, LCR_RECORD (a side over 160), LCR_BYTES. Refusal
 * of a record: LCR_RECORD. */
uint32_t lcr_listing(const uint8_t *input, size_t input_len, uint8_t text[LCR_TEXT], size_t *len);

/* ---- Proof rings ---------------------------------------------------------------------------------------- */

/* A proof ring: the ring of a version drawn into a picture, in any of the eight poses, to check plates by.
 *
 *   version    1 to 64
 *   pitch      pixels on a side of a cell, 1 to 16
 *   corner     0 to 3: the corner of the ring's square where position 0 is, clockwise from the upper left one
 *   reversed   whether the ring runs backwards, which is anticlockwise in the picture
 *   gray       out, exactly width x height bytes, all of which are written: 0 in the dark cells of the ring, else 255
 *   width      pixels, (version side + 10) x pitch to 4,096
 *   height     the same
 *
 * Cell (x, y) of the ring's square, -3 to version side + 2 each, covers the pixels from ((x + 5) x pitch, (y + 5) x pitch)
 * on, so that two cells of 255 lie before it on the left and above, and at least two behind it. At corner 0, forwards, a
 * position's outer cell carries its mark (lcr_sequence_light), and at every third position from 0 on its inner cell does
 * too, where lcr_position tells that the inner cell is of this position. Reversed, columns and rows of the square are
 * swapped; corner r then turns it r quarter turns clockwise.
 *
 * Refusals in order: LCR_VERSION, LCR_SIDE, LCR_BYTES, LCR_PLATE. */
uint32_t lcr_draw_ring(uint32_t version, uint32_t pitch, uint32_t corner, bool reversed, uint8_t *gray, size_t gray_len,
                       size_t width, size_t height);

/* The marks of a ring that lies in a picture where lcr_draw_ring draws it, from the centres of its outer cells.
 *
 *   version, pitch, width, height     as lcr_draw_ring has them
 *   gray       exactly width x height bytes, any
 *   marks      out, exactly one a position: whether it is light, which is that the byte at the centre of the position's
 *              outer cell (x, y) is 128 or more: the one of the pixel ((x + 5) x pitch + pitch / 2, (y + 5) x pitch +
 *              pitch / 2), halves rounded down. Of a ring that lcr_draw_ring drew, lcr_correlate tells the drawn corner
 *              and direction from them, with score 1; at no other pose do all positions agree
 *
 * Refusals in order: LCR_VERSION, LCR_SIDE, LCR_BYTES, LCR_PLATE (of pitch and sides), LCR_MARKS. */
uint32_t lcr_read_ring(uint32_t version, uint32_t pitch, const uint8_t *gray, size_t gray_len, size_t width, size_t height,
                       bool *marks, size_t marks_len);

/* ---- Noise ---------------------------------------------------------------------------------------------- */

/* How often noise makes an outline: of all rows of `length` pixels, each pixel ink or not, how many have no outline
 * point, and how many have an outline whose first and last pixel are two given places. The outline of a row goes from the
 * start of its first run of `run` or more ink pixels to the end of its last.
 *
 *   run        the shortest run that counts, 2 to 8; lcr_outline takes 4
 *   length     pixels of the row, 0 to 60
 *   first      the pixel that the first run starts with, 0 to length - 1
 *   last       the pixel that the last run ends with, 0 to length - 1. There is no row, and count is 0, where it lies
 *              before first, or closer to it than a run is long
 *   count      out: how many rows, of 2 to the power length
 *
 * The count of lcr_rows_without and those of lcr_rows_with for every first and last add up to 2 to the power length.
 *
 * Refusals in order: LCR_RUN, LCR_ROW. */
uint32_t lcr_rows_without(uint32_t run, uint32_t length, uint64_t *count);
uint32_t lcr_rows_with(uint32_t run, uint32_t length, uint32_t first, uint32_t last, uint64_t *count);

#ifdef __cplusplus
}
#endif
#endif
