/* trirast_shade.h: shading of what a canvas shows, for C99 and later, and for C++. docs/shading.md has examples and
 * pictures.
 *
 * A canvas knows no textures, no perspective and no light, and need not. Triangles are drawn by ids, so that each
 * sample keeps the nearest one; then a shader, a function of the caller's, gives each triangle that a pixel shows a
 * colour, once for each such pair of a pixel and a triangle, or for each sample; and the colours take the place of the
 * ids. A shader is called for eight fragments at a time: points, each with a triangle that is seen there.
 *
 *     trirast_clip_triangles(&clip, positions, position_count, indices, index_count, &seen);    (trirast_clip.h)
 *     trirast_shade_set_triangles(seen.vertices, seen.w, seen.indices, 0, seen.triangle_count, triangles);
 *     trirast_canvas_clear(&canvas, &white);                       (white is the id of no triangle)
 *     trirast_canvas_draw_ids(&canvas, &batch, 0, &error);         (with a depth test and depth write)
 *     const trirast_shade shade = {.triangles = triangles, .triangle_count = seen.triangle_count, .shader = shader};
 *     trirast_shade_rows(&canvas, &shade, entries, TRIRAST_TILE_ENTRIES(canvas.samples));
 *
 * Depths stay, so that more can be drawn over it. For C++17 trirast_shade.hpp has the same with vectors of the
 * processor and shaders that are inlined, which is about twice as fast. Nothing here is proved: it is tested against
 * exact numbers and a renderer in double precision, and by wrong edits. It calls trirast_canvas_tile_ids and
 * trirast_canvas_tile_store of the library, which are proved.
 *
 * What is exact, and what has which bound. Let u = 2^-24, the rounding error of a float.
 *
 * - The edge functions of a triangle at a point are exact, and rounded to floats once: differences of positions are
 *   under 2^25, so products are under 2^50 and their sums under 2^53, and a double holds all integers up to there.
 * - On the screen n[k] = (edge function of corner k) / w[k] is a plane. So is the sum s of all three, and weight k in
 *   space is n[k] / s. In the triangle no n[k] has another sign than s, so nothing cancels, and relative errors add up:
 *   3 u for n[k] (edge function, quotient of w, product), 5 u for s (those and two sums), 1 u each for the reciprocal
 *   and the product. So a weight is off by 10 u of itself at most, which is less than 2^-20.
 * - The weights add up to 1 but for 5 u, less than 2^-21: two sums, the reciprocal, the product, and one more if a
 *   compiler fuses products with the sum. No weight is negative.
 * - Differences to a neighbouring pixel are off by less than 2^-19 r (1 + r), where r is the sum of the sizes of the
 *   steps of n[k] to that pixel, by s there. This was found by tests, and is not derived.
 * - w and the corners are taken as they are given: rounded to 1/256 pixel, which is not counted here.
 * - A w of more than 2^72 times the least of its triangle is taken as 2^72 times that, so that no product overflows.
 *   The doubled area of a triangle is at most 2^48, so this changes a weight by less than 2^-24. Only on the edge
 *   across from the corner with the least w, weights are those of the w that are taken.
 *
 * Use the default rounding to nearest, and not -ffast-math. Pictures are the same bytes for any number of threads. By
 * -ffp-contract=off they are the same for each compiler and processor, in C and C++; fused products change them within
 * the bounds. */
#ifndef TRIRAST_SHADE_H
#define TRIRAST_SHADE_H

#include <stddef.h>
#include <stdint.h>

#include "trirast.h"
#include "trirast_clip.h"

/* C++ need not warn of the casts of C in what is inline here. */
#if defined(__cplusplus) && defined(__GNUC__)
#pragma GCC diagnostic push
#pragma GCC diagnostic ignored "-Wold-style-cast"
#endif

#if defined(__FAST_MATH__)
#error "trirast_shade.h: with -ffast-math no bound of an error holds"
#endif

/* The id that no triangle has: canvases are cleared to white before triangles are drawn by ids. */
#define TRIRAST_SHADE_NO_TRIANGLE 0xFFFFFFu

/* The fragments that a shader is called for. */
#define TRIRAST_SHADE_LANES 8

/* How often a triangle is shaded in a pixel that shows it. */
typedef enum trirast_shade_rate {
    TRIRAST_SHADE_PIXEL = 0,  /* once, in the middle of the samples that show it, which lies in the triangle. It is the
                               * pixel's centre if they are all of the pixel's, and their mean, rounded to 1/256 pixel,
                               * if they are not; of three of sixteen that of the first and the last, since the mean of
                               * three on a line may be rounded off it */
    TRIRAST_SHADE_CENTRE = 1, /* once, in the pixel's centre, as OpenGL does by itself. It may lie outside of the
                               * triangle: there weights are below 0 or above 1, and no bound holds */
    TRIRAST_SHADE_SAMPLE = 2  /* at each sample that shows it */
} trirast_shade_rate;

/* What is looked up of a triangle that is shaded. */
typedef struct trirast_shade_triangle {
    int32_t ax, ay;         /* the first corner, in 1/256 pixel of the screen */
    int32_t bx, by, cx, cy; /* the others as seen from there */
    float wb, wc;           /* w of the first by that of the others */
} trirast_shade_triangle;

/* Eight fragments. If there are fewer, the other lanes repeat the first one, and their colours are not used. */
typedef struct trirast_shade_fragments {
    uint32_t id[TRIRAST_SHADE_LANES];       /* of the triangle, from 0: its index among those that were drawn */
    float weight[3][TRIRAST_SHADE_LANES];   /* of its corners, right in perspective */
    float right[3][TRIRAST_SHADE_LANES];    /* how the weights differ at the pixel to the right */
    float down[3][TRIRAST_SHADE_LANES];     /* and at the one below. Where 1 / w falls to less than a half from here to
                                             * there, the pixel on the other side is taken, and the sign turned: the
                                             * horizon may lie between */
    int32_t x[TRIRAST_SHADE_LANES];         /* the points, in 1/256 pixel of the screen */
    int32_t y[TRIRAST_SHADE_LANES];
    uint32_t count;                         /* the lanes whose colours are used: 1 to 8, from the first */
} trirast_shade_fragments;

/* The colours of eight fragments: 0 to 255, rounded to the nearest byte, halves up. What is outside is cut off, and
 * what is no number is 0. */
typedef struct trirast_shade_colors {
    float red[TRIRAST_SHADE_LANES], green[TRIRAST_SHADE_LANES], blue[TRIRAST_SHADE_LANES];
} trirast_shade_colors;

/* A shader: sets the colours of all eight fragments. `user` is that of the trirast_shade. */
typedef void (*trirast_shader)(const trirast_shade_fragments *at, trirast_shade_colors *out, void *user);

/* How to shade. Begin with {0}, and set triangles and shader. */
typedef struct trirast_shade {
    const trirast_shade_triangle *triangles; /* in the order in which they were drawn by ids, the first by the id 0 */
    size_t triangle_count;
    trirast_shader shader;
    void *user;               /* what the shader gets */
    uint32_t rate;            /* a trirast_shade_rate */
    uint8_t red, green, blue; /* the background: the colour of samples whose id is of no triangle */
} trirast_shade;

/* A place in a pixel, in 1/256 pixel from its upper left corner. */
typedef struct trirast_shade_place {
    int32_t x, y;
} trirast_shade_place;

/* ---- What is known of triangles ---- */

/* By how much w may differ in a triangle: 2^72. What is above is cut off. */
#define TRIRAST_SHADING_W_RANGE 4722366482869645213696.0f

static inline float trirast_shading_lesser(float one, float other) { return one < other ? one : other; }

/* Sets what is looked up of the triangles from `first` to before `end`: several threads may each set some.
 *
 * @vertices, @w: corners on the screen, and w of clip space, positive and finite: those of trirast_clipped.
 * @indices: three for each triangle.
 * @triangles: entry k is that of triangle k. */
static inline void trirast_shade_set_triangles(const trirast_vertex *vertices, const float *w, const uint32_t *indices,
                                               size_t first, size_t end, trirast_shade_triangle *triangles) {
    size_t k;
    for (k = first; k < end; k++) {
        const uint32_t *corner = &indices[3 * k];
        const trirast_vertex *a = &vertices[corner[0]], *b = &vertices[corner[1]], *c = &vertices[corner[2]];
        const float wa = w[corner[0]], wb = w[corner[1]], wc = w[corner[2]];
        const float most = TRIRAST_SHADING_W_RANGE * trirast_shading_lesser(wa, trirast_shading_lesser(wb, wc));
        const float by = trirast_shading_lesser(wa, most);
        trirast_shade_triangle *found = &triangles[k];
        found->ax = a->x, found->ay = a->y;
        found->bx = b->x - a->x, found->by = b->y - a->y, found->cx = c->x - a->x, found->cy = c->y - a->y;
        found->wb = by / trirast_shading_lesser(wb, most), found->wc = by / trirast_shading_lesser(wc, most);
    }
}

/* Numbers of vertices, `count` of each, as texture coordinates, normals or colours. */
typedef struct trirast_shade_attributes {
    const float *values;     /* those of vertex v begin at values[count * v] */
    const uint32_t *indices; /* the corners of the triangles that were drawn: trirast_clipped.indices */
    size_t count;
} trirast_shade_attributes;

/* Sets the numbers of the vertices that cuts made: the sums of the corners' by the weights of the cut.
 *
 * @seen: what trirast_clip_triangles made of `position_count` positions and `indices`.
 * @values: `count` numbers for each vertex of seen->vertices. Those of the positions are there. */
static inline void trirast_shade_set_cuts(const trirast_clipped *seen, size_t position_count, const uint32_t *indices,
                                          size_t count, float *values) {
    size_t n, k;
    for (n = 0; n < seen->cut_count; n++) {
        const trirast_clip_cut *cut = &seen->cuts[n];
        const uint32_t *corner = &indices[3 * (size_t)cut->triangle];
        for (k = 0; k < count; k++) {
            double sum = cut->weights[0] * (double)values[count * corner[0] + k];
            sum += cut->weights[1] * (double)values[count * corner[1] + k];
            sum += cut->weights[2] * (double)values[count * corner[2] + k];
            values[count * (position_count + n) + k] = (float)sum;
        }
    }
}

/* Sets number `k` at the eight fragments, by at->weight; or how it differs at the next pixels, by at->right and
 * at->down: the step that chooses a level of a texture. */
static inline void trirast_shade_value(const trirast_shade_attributes *attributes, size_t k,
                                       const trirast_shade_fragments *at, const float by[3][TRIRAST_SHADE_LANES],
                                       float found[TRIRAST_SHADE_LANES]) {
    const float *values = attributes->values + k;
    size_t lane;
    for (lane = 0; lane < TRIRAST_SHADE_LANES; lane++) {
        const uint32_t *corner = &attributes->indices[3 * (size_t)at->id[lane]];
        const float a = values[attributes->count * corner[0]], b = values[attributes->count * corner[1]],
                    c = values[attributes->count * corner[2]];
        found[lane] = by[0][lane] * a + by[1][lane] * b + by[2][lane] * c;
    }
}

/* Where samples lie: see TRIRAST_SAMPLE_PATTERNS. */
typedef struct trirast_shading_pattern {
    uint32_t samples;
    signed char places[16][2];
} trirast_shading_pattern;

/* Returns where sample `index` of a pixel with this number of samples lies: docs/rules.md. */
static inline trirast_shade_place trirast_shade_sample_place(uint32_t samples, uint32_t index) {
    static const trirast_shading_pattern patterns[] = {TRIRAST_SAMPLE_PATTERNS};
    size_t pattern = sizeof patterns / sizeof patterns[0] - 1;
    trirast_shade_place found;
    while (pattern > 0 && patterns[pattern].samples > samples) pattern--;
    found.x = 128 + 16 * patterns[pattern].places[index % 16][0];
    found.y = 128 + 16 * patterns[pattern].places[index % 16][1];
    return found;
}

/* ---- Weights. What is named trirast_shading_* is of use to the headers alone, and may change. ---- */

/* The edge functions of the corners at a point, exact and then rounded once. */
static inline void trirast_shading_edges(const trirast_shade_triangle *t, int32_t dx, int32_t dy, float edges[3]) {
    const double x = dx, y = dy, bx = t->bx, by = t->by, cx = t->cx, cy = t->cy;
    const double b = x * cy - y * cx, c = bx * y - by * x, area = bx * cy - by * cx;
    edges[0] = (float)(area - b - c), edges[1] = (float)b, edges[2] = (float)c;
}

/* What is known of eight triangles, lane by lane: compilers make vectors of loops over such arrays. */
typedef struct trirast_shading_lanes {
    float edges[3][TRIRAST_SHADE_LANES], sum[TRIRAST_SHADE_LANES];
    float wb[TRIRAST_SHADE_LANES], wc[TRIRAST_SHADE_LANES];
    int32_t bx[TRIRAST_SHADE_LANES], by[TRIRAST_SHADE_LANES], cx[TRIRAST_SHADE_LANES], cy[TRIRAST_SHADE_LANES];
} trirast_shading_lanes;

/* Sets how the weights differ at the next pixel, by the steps of the edge functions of b and c there, over 256: `sign`
 * times these. */
static inline void trirast_shading_step(const trirast_shading_lanes *t, const int32_t edge_b[TRIRAST_SHADE_LANES],
                                        const int32_t edge_c[TRIRAST_SHADE_LANES], int32_t sign,
                                        float weight[3][TRIRAST_SHADE_LANES], float found[3][TRIRAST_SHADE_LANES]) {
    size_t lane;
    for (lane = 0; lane < TRIRAST_SHADE_LANES; lane++) {
        const float b = (float)(sign * edge_b[lane]), c = (float)(-sign * edge_c[lane]);
        const float nb = b * (256.0f * t->wb[lane]), nc = c * (256.0f * t->wc[lane]);
        const float step = nb + nc - 256.0f * (b + c), sum = t->sum[lane];
        /* The sum at the next pixel. If it is less than half of the sum here, so that their signs differ when it is
         * taken twice and the sum here once off, that at the pixel on the other side. */
        const int is_turned = (sum + 2.0f * step < 0) != (sum < 0);
        const float by = 1.0f / (sum + (is_turned ? -step : step));
        found[1][lane] = (nb - weight[1][lane] * step) * by, found[2][lane] = (nc - weight[2][lane] * step) * by;
        found[0][lane] = -(found[1][lane] + found[2][lane]);
    }
}

/* Sets the weights and their differences, by ids and points. */
static inline void trirast_shading_weigh(const trirast_shade_triangle *triangles, trirast_shade_fragments *at) {
    trirast_shading_lanes lanes;
    size_t lane;
    for (lane = 0; lane < TRIRAST_SHADE_LANES; lane++) {
        const trirast_shade_triangle *t = &triangles[at->id[lane]];
        float edges[3];
        trirast_shading_edges(t, at->x[lane] - t->ax, at->y[lane] - t->ay, edges);
        lanes.edges[0][lane] = edges[0], lanes.edges[1][lane] = edges[1], lanes.edges[2][lane] = edges[2];
        lanes.bx[lane] = t->bx, lanes.by[lane] = t->by, lanes.cx[lane] = t->cx, lanes.cy[lane] = t->cy;
        lanes.wb[lane] = t->wb, lanes.wc[lane] = t->wc;
    }
    for (lane = 0; lane < TRIRAST_SHADE_LANES; lane++) {
        const float b = lanes.edges[1][lane] * lanes.wb[lane], c = lanes.edges[2][lane] * lanes.wc[lane];
        const float sum = lanes.edges[0][lane] + b + c, whole = 1.0f / sum;
        lanes.sum[lane] = sum;
        at->weight[0][lane] = lanes.edges[0][lane] * whole;
        at->weight[1][lane] = b * whole, at->weight[2][lane] = c * whole;
    }
    trirast_shading_step(&lanes, lanes.cy, lanes.by, 1, at->weight, at->right);
    trirast_shading_step(&lanes, lanes.cx, lanes.bx, -1, at->weight, at->down);
}

static inline uint32_t trirast_shading_byte(float v) {
    const float least = 0.0f < v ? v : 0.0f;
    return (uint32_t)((least < 255.0f ? least : 255.0f) + 0.5f);
}

/* ---- Samples of a pixel ---- */

/* Returns the middle of some samples of a pixel: see trirast_shade_rate. */
static inline trirast_shade_place trirast_shading_middle(uint32_t samples, uint32_t mask) {
    const trirast_shade_place centre = {128, 128};
    trirast_shade_place sum = {0, 0}, first = {0, 0}, last = {0, 0};
    int32_t count = 0;
    uint32_t s;
    /* The mean of all sixteen would be another. */
    if (mask + 1 == 1u << samples) return centre;
    for (s = 0; s < samples; s++) {
        if (!(mask >> s & 1)) continue;
        last = trirast_shade_sample_place(samples, s);
        if (count == 0) first = last;
        sum.x += last.x, sum.y += last.y, count++;
    }
    if (samples == 16 && count == 3)
        sum.x = (first.x + last.x) / 2, sum.y = (first.y + last.y) / 2;
    else
        sum.x = (2 * sum.x + count) / (2 * count), sum.y = (2 * sum.y + count) / (2 * count);
    return sum;
}

/* Returns the mask of the samples that show the same as one of them. */
static inline uint32_t trirast_shading_like(const uint32_t *ids, uint32_t samples, uint32_t id) {
    uint32_t mask = 0, s;
    for (s = 0; s < samples; s++) mask |= (uint32_t)(ids[s] == id) << s;
    return mask;
}

/* ---- Tiles ---- */

enum { TRIRAST_SHADING_BLOCK = 8, TRIRAST_SHADING_BLOCK_PIXELS = 64 };

/* A tile that is shaded, and points that wait until there are eight of them. */
typedef struct trirast_shading_tile {
    const trirast_shade *shade;
    uint32_t samples;
    trirast_shade_place middles[16];      /* by masks, if there are at most four samples */
    uint32_t *entry[TRIRAST_SHADE_LANES]; /* of sample 0 */
    uint32_t mask[TRIRAST_SHADE_LANES];   /* of the samples that get the colour */
    trirast_shade_fragments at;
} trirast_shading_tile;

static inline uint32_t trirast_shading_background(const trirast_shade *shade) {
    return shade->red | (uint32_t)shade->green << 8 | (uint32_t)shade->blue << 16;
}

static inline void trirast_shading_store(uint32_t *entry, uint32_t mask, uint32_t color) {
    for (; mask; mask >>= 1, entry += TRIRAST_SHADING_BLOCK_PIXELS)
        if (mask & 1) *entry = color;
}

/* Shades the points that wait. */
static inline void trirast_shading_flush(trirast_shading_tile *tile) {
    trirast_shade_fragments *at = &tile->at;
    trirast_shade_colors out;
    size_t n;
    if (at->count == 0) return;
    for (n = at->count; n < TRIRAST_SHADE_LANES; n++) at->id[n] = at->id[0], at->x[n] = at->x[0], at->y[n] = at->y[0];
    trirast_shading_weigh(tile->shade->triangles, at);
    tile->shade->shader(at, &out, tile->shade->user);
    for (n = 0; n < at->count; n++)
        trirast_shading_store(tile->entry[n], tile->mask[n],
                              trirast_shading_byte(out.red[n]) | trirast_shading_byte(out.green[n]) << 8 |
                                  trirast_shading_byte(out.blue[n]) << 16);
    at->count = 0;
}

static inline void trirast_shading_add(trirast_shading_tile *tile, uint32_t *entry, uint32_t mask, uint32_t id,
                                       int32_t x, int32_t y) {
    const uint32_t n = tile->at.count++;
    tile->entry[n] = entry, tile->mask[n] = mask;
    tile->at.id[n] = id, tile->at.x[n] = x, tile->at.y[n] = y;
    if (tile->at.count == TRIRAST_SHADE_LANES) trirast_shading_flush(tile);
}

/* Shades a pixel, whose upper left corner lies at left, top. */
static inline void trirast_shading_pixel(trirast_shading_tile *tile, uint32_t *entry, int32_t left, int32_t top) {
    const trirast_shade *shade = tile->shade;
    const trirast_shade_place centre = {128, 128};
    const uint32_t every = (1u << tile->samples) - 1;
    uint32_t ids[16], done = 0, unlike = 0, s;
    for (s = 0; s < tile->samples; s++) {
        ids[s] = entry[s * TRIRAST_SHADING_BLOCK_PIXELS];
        unlike |= ids[s] ^ ids[0];
    }
    for (s = 0; s < tile->samples; s++) {
        trirast_shade_place place = centre;
        uint32_t mask = 1u << s;
        if (done & mask) continue;
        if (shade->rate != TRIRAST_SHADE_SAMPLE)
            mask = unlike ? trirast_shading_like(ids, tile->samples, ids[s]) : every;
        done |= mask;
        if (ids[s] >= shade->triangle_count) {
            trirast_shading_store(entry, mask, trirast_shading_background(shade));
            continue;
        }
        if (shade->rate != TRIRAST_SHADE_CENTRE)
            place = tile->samples <= 4 ? tile->middles[mask] : trirast_shading_middle(tile->samples, mask);
        trirast_shading_add(tile, entry, mask, ids[s], left + place.x, top + place.y);
    }
}

/* Shades the entries of a tile whose corner lies at left, top, in blocks that have a pixel within width and height. */
static inline void trirast_shading_blocks(trirast_shading_tile *tile, uint32_t *entries, int32_t left, int32_t top,
                                          uint32_t width, uint32_t height) {
    uint32_t x, y, k;
    for (y = 0; y < height && y < TRIRAST_TILE_SIZE; y += TRIRAST_SHADING_BLOCK)
        for (x = 0; x < width && x < TRIRAST_TILE_SIZE; x += TRIRAST_SHADING_BLOCK) {
            const size_t block = y + x / TRIRAST_SHADING_BLOCK;
            uint32_t *entry = entries + block * tile->samples * TRIRAST_SHADING_BLOCK_PIXELS;
            for (k = 0; k < TRIRAST_SHADING_BLOCK_PIXELS; k++)
                trirast_shading_pixel(tile, entry + k, left + 256 * (int32_t)(x + k % TRIRAST_SHADING_BLOCK),
                                      top + 256 * (int32_t)(y + k / TRIRAST_SHADING_BLOCK));
        }
    trirast_shading_flush(tile);
}

/* Returns where a pixel of a canvas lies on the screen, in 1/256 pixel. So far away that it is cut off no triangle is
 * drawn. */
static inline int32_t trirast_shading_on_screen(uint32_t pixel, int32_t origin) {
    const int64_t far_away = (int64_t)1 << 26, found = 256 * ((int64_t)pixel + origin);
    return (int32_t)(found < -far_away ? -far_away : found > far_away ? far_away : found);
}

/* ---- Checks: TRIRAST_CHECKS of trirast.h ---- */

#ifdef TRIRAST_CHECKS
/* Returns 1 if a point lies in a triangle or on an edge of it, as each sample does that shows the triangle. */
static inline int trirast_shading_has(const trirast_shade_triangle *t, int32_t x, int32_t y) {
    const int64_t dx = (int64_t)x - t->ax, dy = (int64_t)y - t->ay, bx = t->bx, by = t->by, cx = t->cx, cy = t->cy;
    const int64_t b = dx * cy - dy * cx, c = bx * dy - by * dx, area = bx * cy - by * cx, a = area - b - c;
    return (area > 0 && a >= 0 && b >= 0 && c >= 0) || (area < 0 && a <= 0 && b <= 0 && c <= 0);
}

/* Checks the id of sample s of a pixel of the canvas. `names` has the triangle of each id, or is NULL if that is the
 * id. */
static inline void trirast_shading_check_id(const trirast_canvas *canvas, uint32_t x, uint32_t y, uint32_t s,
                                            uint32_t id, const trirast_shade_triangle *triangles,
                                            const uint32_t *names, size_t count) {
    const trirast_shade_place place = trirast_shade_sample_place(canvas->samples, s);
    char text[160];
    if (id == TRIRAST_SHADE_NO_TRIANGLE) return;
    if (id >= count)
        snprintf(text, sizeof text,
                 "sample %u of pixel %u, %u has the id %u, which none of %lu triangles has: is the canvas cleared to "
                 "white, and shaded once?",
                 (unsigned)s, (unsigned)x, (unsigned)y, (unsigned)id, (unsigned long)count);
    else if (!trirast_shading_has(&triangles[names ? names[id] : id],
                                  trirast_shading_on_screen(x, canvas->origin_x) + place.x,
                                  trirast_shading_on_screen(y, canvas->origin_y) + place.y))
        snprintf(text, sizeof text,
                 "sample %u of pixel %u, %u has the id %u, but lies outside of that triangle: is the canvas shaded "
                 "twice?",
                 (unsigned)s, (unsigned)x, (unsigned)y, (unsigned)id);
    else
        return;
    TRIRAST_CHECK_FAILED(text);
}

/* Checks the ids of a tile that is about to be shaded: all entries, or the first one if they are uniform. */
static inline void trirast_shading_check(const trirast_canvas *canvas, uint32_t column, uint32_t row,
                                         const uint32_t *entries, int uniform, const trirast_shade_triangle *triangles,
                                         const uint32_t *names, size_t count) {
    const uint32_t samples = canvas->samples == 0 ? 1 : canvas->samples, side = TRIRAST_TILE_SIZE;
    uint32_t x, y, s;
    for (y = 0; y < side && row * side + y < canvas->height; y++)
        for (x = 0; x < side && column * side + x < canvas->width; x++)
            for (s = 0; s < samples; s++) {
                const size_t block = y / TRIRAST_SHADING_BLOCK * TRIRAST_SHADING_BLOCK + x / TRIRAST_SHADING_BLOCK;
                const size_t pixel = y % TRIRAST_SHADING_BLOCK * TRIRAST_SHADING_BLOCK + x % TRIRAST_SHADING_BLOCK;
                const size_t entry = (block * samples + s) * TRIRAST_SHADING_BLOCK_PIXELS + pixel;
                trirast_shading_check_id(canvas, column * side + x, row * side + y, s, entries[uniform ? 0 : entry],
                                         triangles, names, count);
            }
}
#endif

/* ---- Calls ---- */

/* Shades one tile: the id of each sample becomes the colour of its triangle, or the background if there is none of this
 * id. Depths stay, and so does alpha.
 *
 * Threads may shade other tiles of the same canvas at the same time, each with entries of its own. They share the
 * shader and `user`.
 *
 * @canvas: tile rows, which `row` is one of.
 * @column, @row: the tile, in a column of tiles and a tile row of the canvas.
 * @shade: how to shade.
 * @entries, @count: memory between the two calls of the library: TRIRAST_TILE_ENTRIES(samples) entries are enough.
 *
 * Returns TRIRAST_STATUS_OK, or what trirast_canvas_tile_ids returns, after which the tile is unchanged. */
static inline trirast_status trirast_shade_tile(trirast_canvas *canvas, uint32_t column, uint32_t row,
                                                const trirast_shade *shade, uint32_t *entries, size_t count) {
    const uint32_t left = column * TRIRAST_TILE_SIZE, top = row * TRIRAST_TILE_SIZE;
    trirast_shading_tile tile;
    uint32_t uniform = 0;
    size_t k, all;
    const trirast_status status = trirast_canvas_tile_ids(canvas, column, row, entries, count, &uniform);
    if (status != TRIRAST_STATUS_OK) return status;
#ifdef TRIRAST_CHECKS
    trirast_shading_check(canvas, column, row, entries, uniform == 1, shade->triangles, NULL, shade->triangle_count);
#endif
    if (uniform && entries[0] >= shade->triangle_count) {
        entries[0] = trirast_shading_background(shade);
        return trirast_canvas_tile_store(canvas, column, row, entries, 1);
    }
    tile.shade = shade, tile.samples = canvas->samples == 0 ? 1 : canvas->samples, tile.at.count = 0;
    for (k = 1; tile.samples <= 4 && k < (size_t)1 << tile.samples; k++)
        tile.middles[k] = trirast_shading_middle(tile.samples, (uint32_t)k);
    all = TRIRAST_TILE_ENTRIES(tile.samples);
    for (k = 1; uniform && k < all; k++) entries[k] = entries[0];
    trirast_shading_blocks(&tile, entries, trirast_shading_on_screen(left, canvas->origin_x),
                           trirast_shading_on_screen(top, canvas->origin_y), canvas->width - left,
                           canvas->height - top);
    return trirast_canvas_tile_store(canvas, column, row, entries, all);
}

/* Shades all tiles of these tile rows. If the status is not TRIRAST_STATUS_OK, tiles before that one are shaded. */
static inline trirast_status trirast_shade_rows(trirast_canvas *canvas, const trirast_shade *shade, uint32_t *entries,
                                                size_t count) {
    const uint32_t columns = (canvas->width + TRIRAST_TILE_SIZE - 1) / TRIRAST_TILE_SIZE;
    trirast_status status = TRIRAST_STATUS_OK;
    uint32_t column, row;
    for (row = canvas->first; row < canvas->end; row++)
        for (column = 0; column < columns && status == TRIRAST_STATUS_OK; column++)
            status = trirast_shade_tile(canvas, column, row, shade, entries, count);
    return status;
}

#if defined(__cplusplus) && defined(__GNUC__)
#pragma GCC diagnostic pop
#endif

#endif
